/* The third story of the example: a second drive. */
#ifndef PAIR_H
#define PAIR_H

#include "told.h"

/* Lends the second drive as unit 1, and has a sector copied to it from unit 0. Whether it came to its end. */
bool play_pair(lent *host, uint8_t *image_1);

#endif
