/* A chain of IOPBs, laid in the host's memory as IOPB 3 to 14 and 17 of docs/RULES.md say, with their link lists (Link 1 to 8). */
#ifndef CHAIN_H
#define CHAIN_H

#include "rosadenca.h"

/* What a host wants done by one command. */
typedef struct {
    uint8_t command;            /* ROSADENCA_READ_DATA or ROSADENCA_WRITE_DATA */
    uint8_t unit;               /* the unit, 0 to 3 */
    uint32_t sector;            /* the number of the first sector */
    uint16_t count;             /* how many sectors */
    uint32_t address;           /* where in memory the data lies, or where its link list is to lie */
    const rosadenca_link *list; /* the ranges that the data lies in, or NULL where it lies in one piece */
    size_t ranges;              /* how many, up to 32; 0 for one piece */
    const char *wants;          /* the same in words */
} wish;

/* IOPBs lie 32 bytes apart from address 0 on: they have 30 bytes, and an even address. */
enum { IOPB_SPACING = 32 };

/* Lays one IOPB for each wish, chained one to the next, and the link list of each that has one. Whether every wish's drive has its first
   sector. */
bool lay_chain(uint8_t *memory, const rosadenca_drives *drives, const wish *wishes, size_t count);

/* Names another cylinder in the IOPB that is laid at a place of the chain. */
void lay_cylinder(uint8_t *memory, size_t place, uint16_t cylinder);

#endif
