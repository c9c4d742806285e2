/*
 * Scatter/gather: a page of 1,024 bytes that lies in three pieces of memory. A link list names them, and with SGM set the data address
 * of a command is that of its list.
 */
#include "split.h"

#include "disk.h"

#include <inttypes.h>
#include <stdio.h>
#include <string.h>

enum { PAGE_LIST_AT = 0x100, SHORT_LIST_AT = 0x120, LATE_LIST_AT = 0x140 };

/* The lengths may be anything that adds up to the sectors: here the second sector begins within the second piece. */
static const rosadenca_link page[] = {{0x400, 300, 0}, {0x800, 500, 0}, {0xC00, 224, 0}};
static const rosadenca_link too_short[] = {{0x400, 300, 0}, {0x800, 200, 0}};
static const rosadenca_link too_late[] = {{0x400, 512, 0}, {MEMORY_BYTES - 510, 512, 0}};
enum {
    PIECES = sizeof page / sizeof page[0],
    SHORT_PIECES = sizeof too_short / sizeof too_short[0],
    LATE_PIECES = sizeof too_late / sizeof too_late[0]
};

static const wish wishes[] = {
    {ROSADENCA_READ_DATA, 0, 20, 2, PAGE_LIST_AT, page, PIECES, "read sectors 20 and 21 to the three pieces"},
    {ROSADENCA_WRITE_DATA, 0, 30, 2, PAGE_LIST_AT, page, PIECES, "write the three pieces to sectors 30 and 31"},
    {ROSADENCA_READ_DATA, 0, 20, 1, SHORT_LIST_AT, too_short, SHORT_PIECES,
     "read sector 20 to 300 and 200 bytes, which is a mistake: a sector has 512"},
    {ROSADENCA_READ_DATA, 0, SECTORS - 1, 2, PAGE_LIST_AT, page, PIECES,
     "read two sectors from sector 55 on to the three pieces, a mistake: it is the last"},
    {ROSADENCA_READ_DATA, 0, 20, 2, LATE_LIST_AT, too_late, LATE_PIECES,
     "read sectors 20 and 21 to 400H and 1E02H, a mistake: 510 bytes are left there"},
};
enum { WISHES = sizeof wishes / sizeof wishes[0] };

static void tell_pieces(void)
{
    puts("Now a page of 1,024 bytes that lies in three pieces. A link list names them, in this order:");
    for (size_t k = 0; k < PIECES; k++)
        printf("  %d bytes at %" PRIX32 "H\n", page[k].length, page[k].address);
}

/* A list is no longer needed once the chain is walked, so its bytes are used for something else. */
static void reuse_lists(lent *host)
{
    memset(host->memory + PAGE_LIST_AT, 0xFF, ROSADENCA_LINK_BYTES * PIECES);
    memset(host->memory + SHORT_LIST_AT, 0xFF, ROSADENCA_LINK_BYTES * SHORT_PIECES);
    memset(host->memory + LATE_LIST_AT, 0xFF, ROSADENCA_LINK_BYTES * LATE_PIECES);
    puts("The walk has copied the lists, so I use their bytes for something else. The board does all as written:");
}

bool play_split(lent *host)
{
    tell_pieces();
    memset(host->memory, 0, MEMORY_BYTES);
    if (!lay_chain(host->memory, &host->disks.drives, wishes, WISHES)) {
        fputs("host: a wish names a sector that the disk has not\n", stderr);
        return false;
    }
    printf("I lay %d commands with such lists in memory, and the board walks them:\n", (int)WISHES);
    if (!tell_walk(host, wishes))
        return false;
    reuse_lists(host);
    if (!tell_rest(host))
        return false;
    tell_statuses(host);
    puts("In memory each sector begins where its first byte comes to lie, the second one 212 bytes into the second piece:");
    tell_memory(host, page[0].address);
    tell_memory(host, page[1].address + ROSADENCA_SECTOR_BYTES - page[0].length);
    puts("On the disk there is now:");
    tell_sector(host, 0, 30);
    tell_sector(host, 0, 31);
    return true;
}
