/* The calls of the board over all that a host lends to it, each with what comes of it in words. */
#ifndef TOLD_H
#define TOLD_H

#include "chain.h"

enum { MEMORY_BYTES = 8192 };

/* All that a host lends to the board: its memory, images and drives in one struct, and the table. */
typedef struct {
    uint8_t memory[MEMORY_BYTES];
    rosadenca_lent disks;
    rosadenca_record table[ROSADENCA_MOST_COMMANDS];
    size_t commands;
} lent;

/* Walks the chain of these wishes, and says what the table holds. Whether it was accepted. */
bool tell_walk(lent *host, const wish *wishes);

/* Takes one step at a place, and says what came of it. */
void tell_pick(lent *host, size_t place);

/* Lets the board do as written what is left. Whether all is finished. */
bool tell_rest(lent *host);

/* Reads each command's status in its own IOPB, where the board has posted it. */
void tell_statuses(const lent *host);

/* Looks at a sector of a unit, and shows the text at its start. The unit is named where there are several. */
void tell_sector(const lent *host, uint8_t unit, uint32_t sector);

/* Shows the text at an address of memory. */
void tell_memory(const lent *host, uint32_t address);

#endif
