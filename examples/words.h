/* The board's numbers and codes in words. */
#ifndef WORDS_H
#define WORDS_H

#include "rosadenca.h"

/* What a call answers with. */
const char *number_in_words(uint8_t number);

/* What a command got, by its closed IOPB: where one code has two meanings, byte 3 or SGM tells them apart. */
const char *code_in_words(const rosadenca_iopb *iopb);

/* Prints how many sectors would have fitted, to stand behind the words of the code; nothing where the status does not tell it. */
void print_fitted(const rosadenca_iopb *iopb);

#endif
