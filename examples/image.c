/*
 * Writes a fresh image for the example to standard output: the text in every sector says which one it is, and the rest of it is 0.
 * Usage: image UNIT, which is 0 or 1.
 */
#include "disk.h"

#include <stdio.h>
#include <string.h>

/* Writes so many sectors. Whether they could be written. */
static bool write_sectors(const char *disk, int sectors)
{
    for (int number = 0; number < sectors; number++) {
        char sector[ROSADENCA_SECTOR_BYTES] = {0};
        snprintf(sector, sizeof sector, "This is sector %d, as it was on the %s.", number, disk);
        if (fwrite(sector, sizeof sector, 1, stdout) != 1)
            return false;
    }
    return fflush(stdout) == 0;
}

int main(int words, char **word)
{
    if (words != 2 || (strcmp(word[1], "0") != 0 && strcmp(word[1], "1") != 0)) {
        fputs("usage: image 0, or image 1\n", stderr);
        return 2;
    }
    bool first = word[1][0] == '0';
    if (!write_sectors(first ? "fresh disk" : "fresh disk of unit 1", first ? SECTORS : SECTORS_1)) {
        fputs("image: the image could not be written\n", stderr);
        return 1;
    }
    return 0;
}
