/* Lays a chain of IOPBs with their link lists: numbers of several bytes have the high byte first. */
#include "chain.h"

#include <string.h>

enum { CHEN = 0x20, SGM = 0x10 };

static void two_bytes(uint8_t *at, uint16_t number)
{
    at[0] = (uint8_t)(number >> 8);
    at[1] = (uint8_t)number;
}

static void four_bytes(uint8_t *at, uint32_t number)
{
    two_bytes(at, (uint16_t)(number >> 16));
    two_bytes(at + 2, (uint16_t)number);
}

/* A link list: eight bytes for each range, of which bytes 2 and 3 are ignored. */
static void lay_list(uint8_t *at, const rosadenca_link *list, size_t ranges)
{
    memset(at, 0, ROSADENCA_LINK_BYTES * ranges);
    for (size_t k = 0; k < ranges; k++, at += ROSADENCA_LINK_BYTES) {
        two_bytes(at, list[k].length);
        four_bytes(at + 4, list[k].address);
    }
}

/* One IOPB, not yet chained to another. */
static void lay_iopb(uint8_t *iopb, rosadenca_disk_place first, const wish *w)
{
    memset(iopb, 0, ROSADENCA_IOPB_BYTES);
    iopb[0x00] = w->command;
    iopb[0x05] = w->unit;
    two_bytes(iopb + 0x08, w->count);
    two_bytes(iopb + 0x0A, first.cylinder);
    iopb[0x0C] = first.head;
    iopb[0x0D] = first.sector;
    four_bytes(iopb + 0x10, w->address);
    if (w->ranges != 0) {
        iopb[0x00] |= SGM;
        /* bits 7-3 say how many ranges there are; of 32 they are 0 */
        iopb[0x06] = (uint8_t)(w->ranges << 3);
    }
}

bool lay_chain(uint8_t *memory, const rosadenca_drives *drives, const wish *wishes, size_t count)
{
    for (size_t k = 0; k < count; k++) {
        uint8_t *iopb = memory + IOPB_SPACING * k;
        /* an IOPB wants cylinder, head and sector of the first sector, not its number */
        rosadenca_placed first = rosadenca_place(drives->units[wishes[k].unit], wishes[k].sector);
        if (first.number != ROSADENCA_ACCEPTED)
            return false;
        lay_iopb(iopb, first.place, &wishes[k]);
        lay_list(memory + wishes[k].address, wishes[k].list, wishes[k].ranges);
        if (k + 1 < count) {
            iopb[0x00] |= CHEN;
            four_bytes(iopb + 0x14, (uint32_t)(IOPB_SPACING * (k + 1)));
        }
    }
    return true;
}

void lay_cylinder(uint8_t *memory, size_t place, uint16_t cylinder)
{
    two_bytes(memory + IOPB_SPACING * place + 0x0A, cylinder);
}
