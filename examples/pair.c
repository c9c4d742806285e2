/*
 * Two drives: unit 1 comes beside unit 0, and a sector is copied from one to the other. Commands that touch the same sector number on two
 * units do not wait for each other; such as share a byte of memory do.
 */
#include "pair.h"

#include "disk.h"

#include <stdio.h>
#include <string.h>

enum { COPIED_TO = 0x400, PAGE_TO = 0x800, LETTER_AT = 0xC00 };

static const wish wishes[] = {
    {ROSADENCA_READ_DATA, 0, 12, 1, COPIED_TO, NULL, 0, "read sector 12 of unit 0 to address 400H"},
    {ROSADENCA_WRITE_DATA, 1, 12, 1, COPIED_TO, NULL, 0, "write what then lies at 400H to sector 12 of unit 1"},
    {ROSADENCA_READ_DATA, 1, 13, 1, PAGE_TO, NULL, 0, "read sector 13 of unit 1 to address 800H"},
    {ROSADENCA_WRITE_DATA, 0, 13, 1, LETTER_AT, NULL, 0, "write the letter at C00H to sector 13 of unit 0"},
    {ROSADENCA_READ_DATA, 1, SECTORS_1 - 1, 2, PAGE_TO, NULL, 0, "read two sectors from sector 19 of unit 1 on, a mistake: it is the last"},
    {ROSADENCA_READ_DATA, 2, 0, 1, PAGE_TO, NULL, 0, "read sector 0 of unit 2, a mistake: it is absent"},
};
enum { WISHES = sizeof wishes / sizeof wishes[0] };

static const char letter[] = "Dear disk, your neighbour sends its regards. Your host.";

static void tell_drives(void)
{
    printf("Now a second drive. Unit 1 has %d cylinders of one head with %d sectors, %d in all. Units 2 and 3 are absent.\n",
           (int)CYLINDERS_1, (int)SECTORS_PER_TRACK_1, (int)SECTORS_1);
}

/* 3 before 2: they name the same sector number, and different units. 1 waits for 0, since it writes what 0 reads. */
static void pick_some(lent *host)
{
    puts("I take steps in an order of my own again. Sector 13 of one unit is not sector 13 of the other, so 3 need not wait for 2:");
    static const size_t order[] = {3, 1, 2, 0, 1};
    for (size_t k = 0; k < sizeof order / sizeof order[0]; k++)
        tell_pick(host, order[k]);
}

static void look_at_both(const lent *host)
{
    puts("On the disks there is now:");
    tell_sector(host, 0, 12);
    tell_sector(host, 1, 12);
    tell_sector(host, 0, 13);
    tell_sector(host, 1, 13);
    tell_sector(host, 0, SECTORS_1);
    tell_sector(host, 1, SECTORS_1);
    tell_sector(host, 2, 0);
}

bool play_pair(lent *host, uint8_t *image_1)
{
    tell_drives();
    rosadenca_add_drive(&host->disks, 1, image_1, disk_bytes(1), disk_drive(1));
    memset(host->memory, 0, MEMORY_BYTES);
    memcpy(host->memory + LETTER_AT, letter, sizeof letter);
    if (!lay_chain(host->memory, &host->disks.drives, wishes, WISHES)) {
        fputs("host: a wish names a sector that its disk has not\n", stderr);
        return false;
    }
    printf("I lay %d commands for both units in memory, and the board walks them:\n", (int)WISHES);
    if (!tell_walk(host, wishes))
        return false;
    pick_some(host);
    puts("Now the board does the rest as written:");
    if (!tell_rest(host))
        return false;
    tell_statuses(host);
    look_at_both(host);
    return true;
}
