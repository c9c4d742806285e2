/*
 * The functions of include/rosadenca.h over the same functions as the toolchain compiles them inside a program, which is the only way
 * in which it compiles what is not proved: a program exports none of them, and passes structs and large results by pointers of its own.
 * tools/planted makes the inner functions reachable under the names that are declared here.
 */
#include "rosadenca.h"

/* A lent run, as the toolchain passes it: its place, and its length. */
#define RUN const void *, size_t

/* The four images, in the order of their units, and the drives of the units. */
#define DISKS RUN, RUN, RUN, RUN, const rosadenca_drives *

rosadenca_walked inner_rosadenca_walk(RUN, DISKS, uint32_t, RUN);
uint32_t inner_rosadenca_pick(RUN, DISKS, RUN, size_t, size_t);
void inner_rosadenca_run_picks(rosadenca_ran *, RUN, DISKS, RUN, size_t, RUN);
void inner_rosadenca_run_written(rosadenca_ran *, RUN, DISKS, RUN, size_t, uint64_t);
rosadenca_part inner_rosadenca_look(DISKS, uint32_t, uint32_t);
uint32_t inner_rosadenca_look_number(DISKS, uint32_t, uint32_t);
void inner_rosadenca_place(rosadenca_placed *, const rosadenca_drive *, uint32_t);
void inner_rosadenca_view(rosadenca_iopb *, RUN, uint32_t);
uint64_t inner_rosadenca_chain_steps(RUN, size_t);

/* The same as they are passed here, of the parameters of these names. */
#define GIVEN_DISKS \
    image0, image0_length, image1, image1_length, image2, image2_length, image3, image3_length, &drives

rosadenca_walked rosadenca_walk(const uint8_t *memory, size_t memory_length, const uint8_t *image0, size_t image0_length,
                                const uint8_t *image1, size_t image1_length, const uint8_t *image2, size_t image2_length,
                                const uint8_t *image3, size_t image3_length, rosadenca_drives drives, uint32_t start,
                                rosadenca_record *table, size_t table_length)
{
    return inner_rosadenca_walk(memory, memory_length, GIVEN_DISKS, start, table, table_length);
}

/* A small number fills only the low bits of a register, so each is taken as 32 bits and cut. */
uint8_t rosadenca_pick(uint8_t *memory, size_t memory_length, uint8_t *image0, size_t image0_length, uint8_t *image1,
                       size_t image1_length, uint8_t *image2, size_t image2_length, uint8_t *image3, size_t image3_length,
                       rosadenca_drives drives, rosadenca_record *table, size_t table_length, size_t commands, size_t place)
{
    return (uint8_t)inner_rosadenca_pick(memory, memory_length, GIVEN_DISKS, table, table_length, commands, place);
}

rosadenca_ran rosadenca_run_picks(uint8_t *memory, size_t memory_length, uint8_t *image0, size_t image0_length, uint8_t *image1,
                                  size_t image1_length, uint8_t *image2, size_t image2_length, uint8_t *image3,
                                  size_t image3_length, rosadenca_drives drives, rosadenca_record *table, size_t table_length,
                                  size_t commands, const uint8_t *picks, size_t picks_length)
{
    rosadenca_ran ran;
    inner_rosadenca_run_picks(&ran, memory, memory_length, GIVEN_DISKS, table, table_length, commands,
                              picks, picks_length);
    return ran;
}

rosadenca_ran rosadenca_run_written(uint8_t *memory, size_t memory_length, uint8_t *image0, size_t image0_length, uint8_t *image1,
                                    size_t image1_length, uint8_t *image2, size_t image2_length, uint8_t *image3,
                                    size_t image3_length, rosadenca_drives drives, rosadenca_record *table, size_t table_length,
                                    size_t commands, uint64_t budget)
{
    rosadenca_ran ran;
    inner_rosadenca_run_written(&ran, memory, memory_length, GIVEN_DISKS, table, table_length, commands, budget);
    return ran;
}

uint8_t rosadenca_look_number(const uint8_t *image0, size_t image0_length, const uint8_t *image1, size_t image1_length,
                              const uint8_t *image2, size_t image2_length, const uint8_t *image3, size_t image3_length,
                              rosadenca_drives drives, uint8_t unit, uint32_t sector)
{
    return (uint8_t)inner_rosadenca_look_number(GIVEN_DISKS, unit, sector);
}

rosadenca_part rosadenca_look(const uint8_t *image0, size_t image0_length, const uint8_t *image1, size_t image1_length,
                              const uint8_t *image2, size_t image2_length, const uint8_t *image3, size_t image3_length,
                              rosadenca_drives drives, uint8_t unit, uint32_t sector)
{
    return inner_rosadenca_look(GIVEN_DISKS, unit, sector);
}

rosadenca_placed rosadenca_place(rosadenca_drive drive, uint32_t sector)
{
    rosadenca_placed placed;
    inner_rosadenca_place(&placed, &drive, sector);
    return placed;
}

rosadenca_iopb rosadenca_view(const uint8_t *memory, size_t memory_length, uint32_t at)
{
    rosadenca_iopb view;
    inner_rosadenca_view(&view, memory, memory_length, at);
    return view;
}

uint64_t rosadenca_chain_steps(const rosadenca_record *table, size_t table_length, size_t commands)
{
    return inner_rosadenca_chain_steps(table, table_length, commands);
}
