/* The disks of the example: opens an image file, looks at its size before anything else, and maps it. */
#include "disk.h"

#include <errno.h>
#include <fcntl.h>
#include <stdio.h>
#include <string.h>
#include <sys/mman.h>
#include <sys/stat.h>
#include <unistd.h>

rosadenca_drive disk_drive(unsigned unit)
{
    static const rosadenca_drive drives[DISKS] = {
        {
            .cylinder = CYLINDERS - 1,
            .head = HEADS - 1,
            .sector = SECTORS_PER_TRACK - 1,
            .last_sector = SECTORS_ON_LAST_HEAD - 1,
            .write_protected = false,
        },
        {
            .cylinder = CYLINDERS_1 - 1,
            .head = 0,
            .sector = SECTORS_PER_TRACK_1 - 1,
            .last_sector = SECTORS_PER_TRACK_1 - 1,
            .write_protected = false,
        },
    };
    return drives[unit];
}

static int disk_sectors(unsigned unit)
{
    static const int sectors[DISKS] = {SECTORS, SECTORS_1};
    return sectors[unit];
}

size_t disk_bytes(unsigned unit)
{
    return (size_t)disk_sectors(unit) * ROSADENCA_SECTOR_BYTES;
}

static void complain(const char *path, const char *what)
{
    fprintf(stderr, "host: %s: %s\n", path, what);
}

/* Whether an open file is a plain file of the drive's size. */
static bool right_size(unsigned unit, int file, const char *path)
{
    struct stat about;
    if (fstat(file, &about) != 0) {
        complain(path, strerror(errno));
        return false;
    }
    if (!S_ISREG(about.st_mode)) {
        complain(path, "this is no plain file, so it cannot be an image");
        return false;
    }
    if (about.st_size < 0 || (size_t)about.st_size != disk_bytes(unit)) {
        fprintf(stderr, "host: %s: the file has %lld bytes; the image of unit %u has %zu (%d sectors of %d)\n", path,
                (long long)about.st_size, unit, disk_bytes(unit), disk_sectors(unit), (int)ROSADENCA_SECTOR_BYTES);
        return false;
    }
    return true;
}

uint8_t *disk_map(unsigned unit, const char *path)
{
    /* Never O_CREAT or O_TRUNC: a mistyped name must neither make nor empty a file. O_NONBLOCK, so that a pipe is refused at once. */
    int file = open(path, O_RDWR | O_NONBLOCK);
    if (file < 0) {
        complain(path, strerror(errno));
        return NULL;
    }
    void *image = MAP_FAILED;
    if (right_size(unit, file, path)) {
        image = mmap(NULL, disk_bytes(unit), PROT_READ | PROT_WRITE, MAP_SHARED, file, 0);
        if (image == MAP_FAILED)
            complain(path, strerror(errno));
    }
    /* a mapping stays when its file is closed */
    close(file);
    return image == MAP_FAILED ? NULL : image;
}

int disk_unmap(unsigned unit, uint8_t *image, const char *path)
{
    int status = msync(image, disk_bytes(unit), MS_SYNC);
    if (munmap(image, disk_bytes(unit)) != 0)
        status = -1;
    if (status != 0)
        complain(path, strerror(errno));
    return status;
}
