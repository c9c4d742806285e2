/*
 * A small host: maps an image file as the board's disk, asks the board where some sectors are, lays a chain of nine commands in its own
 * memory, some of them mistakes, has the board walk it, takes some steps in an order of its own, lets the board do the rest as written,
 * and says in words what happened, and how much would have fitted where it asked for too much. Then it moves a page that lies in three
 * pieces, and at last it has a second drive, and copies from one to the other.
 * Usage: host IMAGE IMAGE_1, the images of units 0 and 1. tools/example builds it, makes images for it and runs it.
 */
#include "disk.h"
#include "pair.h"
#include "split.h"
#include "words.h"

#include <inttypes.h>
#include <stdio.h>
#include <string.h>

enum { COPIED_TO = 0x400, PAGES_TO = 0x800, LETTER_AT = 0x1000 };

/* Near the end of memory, at 2000H: three sectors before it, and one byte less than a sector. */
enum { THREE_LEFT = MEMORY_BYTES - 3 * ROSADENCA_SECTOR_BYTES, NONE_LEFT = MEMORY_BYTES - ROSADENCA_SECTOR_BYTES + 1 };

static const wish wishes[] = {
    {ROSADENCA_READ_DATA, 0, 10, 1, COPIED_TO, NULL, 0, "read sector 10 to address 400H"},
    {ROSADENCA_WRITE_DATA, 0, 16, 1, COPIED_TO, NULL, 0, "write what then lies at 400H to sector 16"},
    {ROSADENCA_READ_DATA, 0, 40, 2, PAGES_TO, NULL, 0, "read sectors 40 and 41 to address 800H"},
    {ROSADENCA_WRITE_DATA, 0, 50, 1, LETTER_AT, NULL, 0, "write the letter at 1000H to sector 50"},
    {ROSADENCA_READ_DATA, 0, 0, 0, PAGES_TO, NULL, 0, "read no sector at all, which is a mistake"},
    {ROSADENCA_READ_DATA, 0, SECTORS - 1, 2, PAGES_TO, NULL, 0, "read two sectors from sector 55 on, a mistake: it is the last"},
    {ROSADENCA_READ_DATA, 0, 0, 4, THREE_LEFT, NULL, 0, "read four sectors to 1A00H, a mistake: 1,536 bytes are left there"},
    {ROSADENCA_READ_DATA, 0, 0, 1, NONE_LEFT, NULL, 0, "read one sector to 1E01H, a mistake: 511 bytes are left there"},
    {ROSADENCA_READ_DATA, 0, 0, 1, PAGES_TO, NULL, 0, "read a sector of cylinder 4, a mistake: the last is 3"},
};
enum { WISHES = sizeof wishes / sizeof wishes[0] };

static const char letter[] = "Dear disk, please keep this page for me. Your host.";

/* Says where a sector is, given by its number. */
static void locate(const lent *host, uint32_t sector)
{
    rosadenca_placed placed = rosadenca_place(host->disks.drives.units[0], sector);
    if (placed.number != ROSADENCA_ACCEPTED) {
        printf("  sector %" PRIu32 ": refused with number %d: %s\n", sector, placed.number, number_in_words(placed.number));
        return;
    }
    printf("  sector %" PRIu32 " is cylinder %d, head %d, sector %d\n", sector, placed.place.cylinder, placed.place.head,
           placed.place.sector);
}

/* Says what the disk has, and where some of its sectors are: the first that is read, the last of a cylinder, the first of the next
   one, and one that is not there. */
static void tell_disk(const lent *host)
{
    printf("My disk has %d cylinders. On each, head 0 has %d sectors and head %d, the last, only %d: %d sectors in all.\n",
           (int)CYLINDERS, (int)SECTORS_PER_TRACK, HEADS - 1, (int)SECTORS_ON_LAST_HEAD, (int)SECTORS);
    puts("The board says where a sector is, by its number:");
    locate(host, wishes[0].sector);
    locate(host, SECTORS_PER_CYLINDER - 1);
    locate(host, SECTORS_PER_CYLINDER);
    locate(host, SECTORS);
}

/* Picks in an order of its own: 1 has to wait for 0, since it writes what 0 reads; 2, 3 and 4 wait for nothing; 2 has two steps; there is
   no place 9. */
static void pick_some(lent *host)
{
    puts("I take steps in an order of my own, as it suits the arm:");
    static const size_t order[] = {1, 2, 3, 4, 2, 2, 9, 0};
    for (size_t k = 0; k < sizeof order / sizeof order[0]; k++)
        tell_pick(host, order[k]);
}

/* The first story, on a mapped image. Whether it came to its end. */
static bool play_chain(lent *host)
{
    tell_disk(host);
    memcpy(host->memory + LETTER_AT, letter, sizeof letter);
    if (!lay_chain(host->memory, &host->disks.drives, wishes, WISHES)) {
        fputs("host: a wish names a sector that the disk has not\n", stderr);
        return false;
    }
    /* no sector's number leads to the cylinder of the last wish */
    lay_cylinder(host->memory, WISHES - 1, CYLINDERS);
    printf("I lay a chain of %d commands in memory, and the board walks it:\n", (int)WISHES);
    if (!tell_walk(host, wishes))
        return false;
    pick_some(host);
    puts("Now the board does the rest as written:");
    if (!tell_rest(host))
        return false;
    tell_statuses(host);
    puts("On the disk there is now:");
    tell_sector(host, 0, 10);
    tell_sector(host, 0, 16);
    tell_sector(host, 0, 50);
    tell_sector(host, 0, SECTORS);
    return true;
}

/* The three stories, on mapped images. Whether they came to their end. */
static bool play(uint8_t *image, uint8_t *image_1)
{
    static lent host;
    /* a host with one drive needs no more than this line to lend it */
    host.disks = rosadenca_one_drive(host.memory, MEMORY_BYTES, image, disk_bytes(0), disk_drive(0));
    return play_chain(&host) && play_split(&host) && play_pair(&host, image_1);
}

int main(int words, char **word)
{
    if (words != 1 + DISKS || word[1][0] == '\0' || word[2][0] == '\0') {
        fputs("usage: host IMAGE IMAGE_1\n", stderr);
        return 2;
    }
    uint8_t *image = disk_map(0, word[1]);
    uint8_t *image_1 = image == NULL ? NULL : disk_map(1, word[2]);
    bool played = image_1 != NULL && play(image, image_1);
    if (image_1 != NULL && disk_unmap(1, image_1, word[2]) != 0)
        played = false;
    if (image != NULL && disk_unmap(0, image, word[1]) != 0)
        played = false;
    return played ? 0 : 1;
}
