/* The disks of the example: two small drives, and image files of exactly their sizes, mapped into memory. */
#ifndef DISK_H
#define DISK_H

#include "rosadenca.h"

/* The first: 4 cylinders of 2 heads. The last head of a cylinder has fewer sectors than the other; with equal heads the two would be the
   same. */
enum { CYLINDERS = 4, HEADS = 2, SECTORS_PER_TRACK = 8, SECTORS_ON_LAST_HEAD = 6 };
enum { SECTORS_PER_CYLINDER = (HEADS - 1) * SECTORS_PER_TRACK + SECTORS_ON_LAST_HEAD, SECTORS = CYLINDERS * SECTORS_PER_CYLINDER };

/* The second, smaller: 2 cylinders of 1 head. */
enum { CYLINDERS_1 = 2, SECTORS_PER_TRACK_1 = 10, SECTORS_1 = CYLINDERS_1 * SECTORS_PER_TRACK_1 };

/* How many disks there are: units 0 and 1. */
enum { DISKS = 2 };

/* The drive of a disk as the board wants it told: by the largest numbers, counted from zero. */
rosadenca_drive disk_drive(unsigned unit);

/* The bytes that the image of a disk has. */
size_t disk_bytes(unsigned unit);

/* Maps the image file of a disk, so that what the board writes to it is in the file. NULL, and a line on standard error, where the file
   is not there, cannot be opened for reading and writing, or has not the drive's size; the file is then as it was. */
uint8_t *disk_map(unsigned unit, const char *path);

/* Brings what was written to the file, and ends the mapping. 0, or -1 and a line on standard error. */
int disk_unmap(unsigned unit, uint8_t *image, const char *path);

#endif
