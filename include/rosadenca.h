/*
 * Rosadenca: the board that answers in place of a disk controller, for C and C++ programs to link (target/native/libfirmware.a,
 * which tools/archive makes, on 64-bit x86 under Linux). The exact rules are docs/RULES.md, cited here by their
 * numbers, as in Walk 3; what is proved of each function stands at its source, crates/firmware. Needs C11, or C++11.
 *
 * How a host uses it: lay a chain of IOPBs in memory (rosadenca_place gives the cylinder, head and sector that an IOPB wants),
 * rosadenca_walk it into a table of records, then take the steps, by rosadenca_pick or rosadenca_run_picks in an order of your own, or
 * by rosadenca_run_written as the chain is written. The board keeps nothing between two calls: memory, images, drives, table and the
 * number of commands are the caller's, and are lent for one call.
 *
 * There are four units, 0 to 3. Each has a drive and an image of its own, or is absent: the caller says which, with each call (Board 4).
 * If you have one drive, it is unit 0, and this is all that is needed to lend it; each call is then one line:
 *
 *     rosadenca_lent lent = rosadenca_one_drive(memory, memory_length, image, image_length, drive);
 *     rosadenca_walked walked = rosadenca_walk_lent(&lent, start, table, ROSADENCA_MOST_COMMANDS);
 *     rosadenca_ran ran = rosadenca_run_written_lent(&lent, table, ROSADENCA_MOST_COMMANDS, walked.commands, UINT64_MAX);
 *
 * With more drives the calls are the same lines; before them, one line adds each further drive:
 *
 *     rosadenca_add_drive(&lent, 1, image_1, image_1_length, drive_1);
 *
 * These short forms stand at the end of this file. The functions themselves take every image and the four drives one by one.
 *
 * What a caller owes, at every call:
 * - each pointer is to as many bytes (or records) as the length beside it says, all readable, and writable where there is no const;
 *   a length may be 0, and then the pointer must still not be NULL;
 * - memory, the four images, table and picks share no byte with each other (but two that are both const may), and nothing else changes
 *   them while the call runs;
 * - a drive's write_protected and its present are false or true: a byte 0 or 1;
 * - memory and images are runs of bytes with no alignment; a table is aligned as its records are (4 bytes).
 * What is lent for an absent unit, its maxima, its mark and its image, is not looked at and never changes (Board 11): an image of no
 * byte will do, at any pointer that is not NULL.
 * Nothing else is asked: whatever the bytes, numbers and lengths are, the call ends and answers with one of the numbers below, and on
 * every number but 0 it has changed nothing. No function allocates or keeps a pointer; of the C library only memcpy and memset are
 * called.
 *
 * What a call has written is in the lent bytes when it returns, and nowhere else: a host that must survive a power cut then makes the
 * images durable (msync, fsync), before it tells anyone.
 *
 * Data that lies in pieces: a read or a write with SGM set has a link list at its data address, and its sectors go to or come from the
 * ranges of that list, laid end to end in list order (Link 1 to 8). What a caller has to know of it:
 * - bits 7-3 of byte 6 of the IOPB say how many elements the list has, and 0 means 32 (IOPB 17). An element has eight bytes: the length
 *   of its range in bytes 0-1, its address in bytes 4-7, the high byte first; bytes 2 and 3 are ignored;
 * - a range begins at an even address; the list itself may lie at an odd one. A length counts bytes, and may be odd or 0; a sector may
 *   lie in several ranges. All lengths together are 512 x count;
 * - the walk copies the list into the record: the list's own bytes may be used for something else as soon as the walk is done;
 * - ranges of one command may overlap. They are filled in list order, so that of a sector the later range of the list is what is left.
 *
 * How much would have fitted: where a command asked for too much, status byte 3 of its closed IOPB tells it (Code 17 and 18, Step 9).
 * What a caller has to know of it:
 * - it is not 0 in two cases only, in a table as the walk fills it. With code 10H it is how many sectors the unit's drive has from the
 *   command's first one on, with a link list or without; with code 4BH of a command without a link list, how many whole sectors memory
 *   has room for from the data address on. 255 means 255 or more;
 * - code 10H with 0 is a cylinder above its maximum. A 10H at the end of the drive always has at least 1, since the first sector itself
 *   is on the drive;
 * - code 4BH with 0 is one of two things, and SGM in byte 0 tells which: with SGM clear not one whole sector would have fitted, with SGM
 *   set nothing is told;
 * - with every other code, 00 among them, it is 0, and tells nothing;
 * - nothing is moved for such a command. A host that wants what fits asks again, with a count that fits.
 */
#ifndef ROSADENCA_H
#define ROSADENCA_H

#include <stdbool.h>
#include <stddef.h>
#include <stdint.h>

#ifdef __cplusplus
extern "C" {
#endif

/* The limits. */
enum {
    ROSADENCA_MEMORY_LIMIT = 65536,   /* the most bytes that host memory may have: Board 1 */
    ROSADENCA_IMAGE_LIMIT = 16777216, /* the most bytes that an image may have: Board 2 */
    ROSADENCA_UNITS = 4,              /* how many units may have a drive, 0 to 3; a unit above them is always absent: Board 4 */
    ROSADENCA_SECTOR_BYTES = 512,     /* the bytes of one sector: Board 2 */
    ROSADENCA_MOST_COMMANDS = 32,     /* the most commands of a chain, and the fewest records of a lent table: Walk 3, Size 4 */
    ROSADENCA_IOPB_BYTES = 30,        /* the bytes of one IOPB: IOPB 1 */
    ROSADENCA_MOST_LINKS = 32,        /* the most elements of a link list, and the room of a record for their ranges: Link 1 and 7 */
    ROSADENCA_LINK_BYTES = 8          /* the bytes of one element in memory: Link 1 */
};

/* The numbers that calls answer with. */
enum {
    ROSADENCA_ACCEPTED = 0,          /* accepted: the table is filled, the step taken, the run done, the sector handed back or placed */
    ROSADENCA_SIZES_WRONG = 1,       /* memory, lent table or the image of a unit that is there have the wrong size, or the last head's
                                        maximum sector of such a unit's drive is above the other: Size 1 to 5, Place 5 */
    ROSADENCA_ADDRESS_ODD = 2,       /* the address to start at is odd: Walk 6, View 3 */
    ROSADENCA_IOPB_OUTSIDE = 3,      /* an IOPB is not all in memory: Walk 8, View 4 */
    ROSADENCA_IOPB_SHARED = 4,       /* an IOPB shares a byte with an earlier one, as in a loop: Walk 9 */
    ROSADENCA_CHAIN_TOO_LONG = 5,    /* there is a 33rd command: Walk 7 */
    ROSADENCA_COMMAND_WAITS = 6,     /* an earlier command that is not finished conflicts with this one: Pick 6, Touch 4 */
    ROSADENCA_COMMAND_FINISHED = 7,  /* the command has no step left: Pick 5 */
    ROSADENCA_NO_SUCH_PLACE = 8,     /* the table has no command at that place: Pick 4 */
    ROSADENCA_TABLE_SPOILED = 9,     /* over 32 commands, or a record in use that cannot be run: Spoiled 1 to 7 and 9 to 11 */
    ROSADENCA_NO_SUCH_SECTOR = 10,   /* the drive has no such sector: Look 5, Place 6 */
    ROSADENCA_UNIT_ABSENT = 11       /* the unit that is looked at is absent: Look 7 */
};

/* The completion codes, in byte 1 of a closed IOPB and in a record. The walk gives the first that applies: Code 1 to 12, and 14 to 16.
   A command with a link list gets 4BH before the two others where the list itself is not all in memory, and after them where one of its
   ranges is not. */
enum {
    ROSADENCA_CODE_NEXT_ODD = 0x1E,        /* another IOPB follows, at an odd address; the chain ends here: Code 1 */
    ROSADENCA_CODE_UNIMPLEMENTED = 0x14,   /* a command above 2, or SGM with No Operation, or a subfunction that is not 0: Code 2 */
    ROSADENCA_CODE_NOT_READY = 0x42,       /* the unit is absent; a unit above 3 always is: Code 4 */
    ROSADENCA_CODE_COUNT_ZERO = 0x13,      /* no sector to move: Code 5 */
    ROSADENCA_CODE_CYLINDER = 0x10,        /* the cylinder is above its maximum, and byte 3 is 0: Code 6; or the drive ends too early,
                                              and byte 3 is not 0: Code 9 */
    ROSADENCA_CODE_HEAD = 0x11,            /* the head is above its maximum: Code 7 */
    ROSADENCA_CODE_SECTOR = 0x12,          /* the sector is above the maximum of its own head: Code 8 */
    ROSADENCA_CODE_WRITE_PROTECTED = 0x90, /* a write to a unit whose drive is protected: Code 10 */
    ROSADENCA_CODE_BUS_ERROR = 0x4B,       /* the link list is not all in memory: Code 14; a range of the data goes past its end: Code 11.
                                              Without a list byte 3 tells how many sectors would have fitted */
    ROSADENCA_CODE_LENGTHS = 0x1C,         /* the lengths of the link list don't add up to the sectors: Code 15 */
    ROSADENCA_CODE_RANGE_ODD = 0x1F,       /* a range of the link list begins at an odd address, be it empty or not: Code 16 */
    ROSADENCA_CODE_SUCCESS = 0x00          /* none of these: Code 3 and 12 */
};

/* The commands that the board does, in bits 3-0 of byte 0: Board 5. */
enum {
    ROSADENCA_NO_OPERATION = 0,
    ROSADENCA_WRITE_DATA = 1,
    ROSADENCA_READ_DATA = 2
};

/* A drive: four maxima counted from zero, the write-protect mark (Board 3), and whether it is there (Board 4). The last head of a
   cylinder, the one whose number is `head`, has a maximum sector of its own, so that it can be shorter than the others (Drive 2); where
   `head` is 0, the only head is the last. A cylinder has head x (sector + 1) + (last_sector + 1) sectors (Drive 7), and the image
   exactly 512 x (cylinder + 1) x as many bytes (Drive 5). If your heads are all equal, set last_sector to the same value as sector. With
   last_sector above sector every call that takes the drive gives 1, whatever the image's length (Size 5, Place 5). Mark and presence are
   looked at whenever they are used: whoever protects a drive, or takes it away, after a transfer on it was accepted may get 9 (Board 7).
   Passed by value. */
typedef struct rosadenca_drive {
    uint16_t cylinder;
    uint8_t head;
    uint8_t sector;      /* of every head but the last */
    uint8_t last_sector; /* of the last head */
    bool write_protected;
    bool present;        /* false for an absent unit: then nothing else here is looked at. rosadenca_place does not ask for it */
} rosadenca_drive;

/* The drives of units 0 to 3. Passed by value. */
typedef struct rosadenca_drives {
    rosadenca_drive units[ROSADENCA_UNITS];
} rosadenca_drives;

/* A place on a drive, as an IOPB names it. */
typedef struct rosadenca_disk_place {
    uint16_t cylinder;
    uint8_t head;
    uint8_t sector;
} rosadenca_disk_place;

/* What rosadenca_place gives. */
typedef struct rosadenca_placed {
    rosadenca_disk_place place; /* 0, 0, 0 where the number is not 0 */
    uint8_t number;
} rosadenca_placed;

/* One range of a link list, as the walk copied it: so many bytes of memory from an address on. */
typedef struct rosadenca_link {
    uint32_t address;
    uint16_t length;
    uint16_t unused;  /* 0 after the walk; nothing looks at it */
} rosadenca_link;

/* One accepted command, as the walk leaves it in the table: Record 3 and 4. A caller keeps records and hands them back; it has no need
   to write one. It has a link list exactly if `ranges` is not 0, whatever byte 0 says. */
typedef struct rosadenca_record {
    uint32_t iopb;    /* where its IOPB is */
    uint32_t address; /* the data address: of its data, or of its link list, which is not looked at any more after the walk */
    uint32_t sector;  /* the number of its first sector, on its own unit's drive */
    uint32_t taken;   /* steps taken */
    uint16_t ranges;  /* how many ranges its link list has; 0 where it has none, or where the walk did not read it */
    uint16_t count;   /* how many sectors */
    uint8_t unit;     /* its unit: 0 to 7 after the walk, of which those above 3 are absent */
    uint8_t byte0;    /* the copied byte 0 */
    uint8_t code;     /* the code that its close will post */
    uint8_t fitted;   /* how many sectors would have fitted, 255 if more; 0 where nothing is told. Its close posts it in byte 3, as it
                         stands here and whatever the code is: Code 18, Step 9 */
    rosadenca_link list[ROSADENCA_MOST_LINKS]; /* the ranges, in list order; those past `ranges` are 0 and 0 after the walk */
} rosadenca_record;

/* What the walk gives. */
typedef struct rosadenca_walked {
    uint8_t number;
    size_t commands; /* how many commands: 0 on a refusal. Later calls take it: Record 5 */
} rosadenca_walked;

/* What a run gives: Run 3 and 5. */
typedef struct rosadenca_ran {
    uint64_t steps;   /* steps taken */
    uint64_t refused; /* picks refused, each with a number other than 0; always 0 for a run as written */
    uint8_t number;
    bool finished;    /* whether all commands are finished now */
} rosadenca_ran;

/* The IOPB at an address: the number of the view, and every field. A bit is 0 or 1. Where the number is not 0, every field is 0. */
typedef struct rosadenca_iopb {
    uint32_t data_address; /* bytes 10-13: of the data, or of the link list where SGM is set */
    uint32_t next_address; /* bytes 14-17 */
    uint16_t count;        /* bytes 8-9: count of sectors */
    uint16_t cylinder;     /* bytes A-B */
    uint8_t number;        /* of the view: 2 for an odd address, then 3 for thirty bytes not all in memory, else 0 */
    uint8_t errs;          /* byte 0, bit 7: it failed */
    uint8_t done;          /* byte 0, bit 6: it is closed */
    uint8_t chen;          /* byte 0, bit 5: another IOPB follows */
    uint8_t sgm;           /* byte 0, bit 4: scatter/gather, by a link list */
    uint8_t command;       /* byte 0, bits 3-0 */
    uint8_t completion;    /* byte 1: the completion code */
    uint8_t wrpt;          /* byte 2, bit 4: the unit's drive is protected */
    uint8_t oncl;          /* byte 2, bit 1: on cylinder */
    uint8_t drdy;          /* byte 2, bit 0: drive ready */
    uint8_t internal;      /* byte 3: internal status. Of a closed IOPB, how many sectors would have fitted, where that is told */
    uint8_t subfunction;   /* byte 4 */
    uint8_t unit;          /* byte 5, bits 2-0 */
    uint8_t head;          /* byte C */
    uint8_t sector;        /* byte D */
} rosadenca_iopb;

/* A part of a unit's image: `length` bytes from its byte `at` on. */
typedef struct rosadenca_part {
    size_t at;
    size_t length;
} rosadenca_part;

/* The structs lie in memory as the archive has them: each size, and where each field begins. */
#ifdef __cplusplus
#define ROSADENCA_HOLDS(claim) static_assert(claim, #claim)
#else
#define ROSADENCA_HOLDS(claim) _Static_assert(claim, #claim)
#endif
#define ROSADENCA_AT(type, field, at) ROSADENCA_HOLDS(offsetof(type, field) == (at))
ROSADENCA_HOLDS(sizeof(size_t) == 8);
ROSADENCA_HOLDS(sizeof(bool) == 1);
ROSADENCA_HOLDS(sizeof(rosadenca_drive) == 8);
ROSADENCA_AT(rosadenca_drive, cylinder, 0);
ROSADENCA_AT(rosadenca_drive, head, 2);
ROSADENCA_AT(rosadenca_drive, sector, 3);
ROSADENCA_AT(rosadenca_drive, last_sector, 4);
ROSADENCA_AT(rosadenca_drive, write_protected, 5);
ROSADENCA_AT(rosadenca_drive, present, 6);
ROSADENCA_HOLDS(sizeof(rosadenca_drives) == 32);
ROSADENCA_AT(rosadenca_drives, units, 0);
ROSADENCA_HOLDS(sizeof(rosadenca_disk_place) == 4);
ROSADENCA_AT(rosadenca_disk_place, cylinder, 0);
ROSADENCA_AT(rosadenca_disk_place, head, 2);
ROSADENCA_AT(rosadenca_disk_place, sector, 3);
ROSADENCA_HOLDS(sizeof(rosadenca_placed) == 6);
ROSADENCA_AT(rosadenca_placed, place, 0);
ROSADENCA_AT(rosadenca_placed, number, 4);
ROSADENCA_HOLDS(sizeof(rosadenca_link) == 8);
ROSADENCA_AT(rosadenca_link, address, 0);
ROSADENCA_AT(rosadenca_link, length, 4);
ROSADENCA_AT(rosadenca_link, unused, 6);
ROSADENCA_HOLDS(sizeof(rosadenca_record) == 280);
ROSADENCA_AT(rosadenca_record, iopb, 0);
ROSADENCA_AT(rosadenca_record, address, 4);
ROSADENCA_AT(rosadenca_record, sector, 8);
ROSADENCA_AT(rosadenca_record, taken, 12);
ROSADENCA_AT(rosadenca_record, ranges, 16);
ROSADENCA_AT(rosadenca_record, count, 18);
ROSADENCA_AT(rosadenca_record, unit, 20);
ROSADENCA_AT(rosadenca_record, byte0, 21);
ROSADENCA_AT(rosadenca_record, code, 22);
ROSADENCA_AT(rosadenca_record, fitted, 23);
ROSADENCA_AT(rosadenca_record, list, 24);
ROSADENCA_HOLDS(sizeof(rosadenca_walked) == 16);
ROSADENCA_AT(rosadenca_walked, number, 0);
ROSADENCA_AT(rosadenca_walked, commands, 8);
ROSADENCA_HOLDS(sizeof(rosadenca_ran) == 24);
ROSADENCA_AT(rosadenca_ran, steps, 0);
ROSADENCA_AT(rosadenca_ran, refused, 8);
ROSADENCA_AT(rosadenca_ran, number, 16);
ROSADENCA_AT(rosadenca_ran, finished, 17);
ROSADENCA_HOLDS(sizeof(rosadenca_iopb) == 28);
ROSADENCA_AT(rosadenca_iopb, data_address, 0);
ROSADENCA_AT(rosadenca_iopb, next_address, 4);
ROSADENCA_AT(rosadenca_iopb, count, 8);
ROSADENCA_AT(rosadenca_iopb, cylinder, 10);
ROSADENCA_AT(rosadenca_iopb, number, 12);
ROSADENCA_AT(rosadenca_iopb, errs, 13);
ROSADENCA_AT(rosadenca_iopb, done, 14);
ROSADENCA_AT(rosadenca_iopb, chen, 15);
ROSADENCA_AT(rosadenca_iopb, sgm, 16);
ROSADENCA_AT(rosadenca_iopb, command, 17);
ROSADENCA_AT(rosadenca_iopb, completion, 18);
ROSADENCA_AT(rosadenca_iopb, wrpt, 19);
ROSADENCA_AT(rosadenca_iopb, oncl, 20);
ROSADENCA_AT(rosadenca_iopb, drdy, 21);
ROSADENCA_AT(rosadenca_iopb, internal, 22);
ROSADENCA_AT(rosadenca_iopb, subfunction, 23);
ROSADENCA_AT(rosadenca_iopb, unit, 24);
ROSADENCA_AT(rosadenca_iopb, head, 25);
ROSADENCA_AT(rosadenca_iopb, sector, 26);
ROSADENCA_HOLDS(sizeof(rosadenca_part) == 16);
ROSADENCA_AT(rosadenca_part, at, 0);
ROSADENCA_AT(rosadenca_part, length, 8);
#undef ROSADENCA_AT
#undef ROSADENCA_HOLDS

/*
 * The functions. Each takes the images of units 0 to 3 in this order, each with its length, and the four drives in one struct; the short
 * forms below them take all of that in one.
 */

/*
 * Walks the chain that starts at an address, and copies what is needed from every IOPB, and from its link list, into the table, before
 * anything moves: Walk 1.
 * Numbers, in this order: 1, 2, then at each IOPB in turn 5, 3, 4; else 0 (Walk 5 to 10). A command that will fail is accepted too:
 * its record holds its code, and how many sectors would have fitted where that is told (Code 18). Each command is weighed by the drive
 * of its own unit; of an absent one a transfer gets 42H, and No Operation 00 (Code 3 and 4).
 * On 0 the records of the commands are written, with no step taken, and those past the last command are left alone. On any other
 * number the table is left alone, and commands is 0.
 */
rosadenca_walked rosadenca_walk(const uint8_t *memory, size_t memory_length, const uint8_t *image0, size_t image0_length,
                                const uint8_t *image1, size_t image1_length, const uint8_t *image2, size_t image2_length,
                                const uint8_t *image3, size_t image3_length, rosadenca_drives drives, uint32_t start,
                                rosadenca_record *table, size_t table_length);

/*
 * Takes one step of the command at a place of the table, the first being 0: Pick 1. A transfer with code 00 has as many steps as its
 * count, and each moves one sector between memory and the image of its own unit; every other command has one step (Step 1 to 3). The
 * last step also closes the command: after its sector has moved, it writes bytes 0 to 3 of its IOPB, all of them from its record and the
 * drive of its unit and none from what lies in memory by then (Step 4 to 9).
 * Numbers, in this order: 1, 9, 8, 7, 6; else 0 (Pick 2 to 7). 9 is for over 32 commands, or for a record in use that has its IOPB
 * not all in memory or more steps taken than it has, or that is a transfer with no sector, with data or sectors outside memory or
 * its unit's drive, on an absent unit, or a write to a protected drive (Spoiled 1 to 7 and 11). Of a transfer with a link list the data
 * is every range: 9 is also for more than 32 of them (Spoiled 9), and for lengths that do not add up to the sectors (Spoiled 10). The
 * unit of a record that is no transfer gives no 9, nor does how many sectors would have fitted, whatever the record says (Spoiled 8).
 * 6 is for an earlier unfinished command that shares a byte of memory, or a sector of the same unit, with this one where one of them
 * writes it: sectors of two units are never the same (Touch 4).
 * On 0 one step is taken in memory, the image of the command's own unit and table. On any other number nothing is changed.
 */
uint8_t rosadenca_pick(uint8_t *memory, size_t memory_length, uint8_t *image0, size_t image0_length, uint8_t *image1,
                       size_t image1_length, uint8_t *image2, size_t image2_length, uint8_t *image3, size_t image3_length,
                       rosadenca_drives drives, rosadenca_record *table, size_t table_length, size_t commands, size_t place);

/*
 * Takes a list of picks, one byte each, in turn. A refused pick (6, 7 or 8) is passed over and counted: Run 1 to 4.
 * Numbers: 1 and 9 as for rosadenca_pick, with zero counts and not finished, and nothing changed; else 0 (Run 8 and 9).
 */
rosadenca_ran rosadenca_run_picks(uint8_t *memory, size_t memory_length, uint8_t *image0, size_t image0_length, uint8_t *image1,
                                  size_t image1_length, uint8_t *image2, size_t image2_length, uint8_t *image3,
                                  size_t image3_length, rosadenca_drives drives, rosadenca_record *table, size_t table_length,
                                  size_t commands, const uint8_t *picks, size_t picks_length);

/*
 * Takes steps as written, always of the earliest unfinished command: as many as remain, or as the budget allows if that is smaller:
 * Run 5. Numbers: 1 and 9 as for rosadenca_pick, with zero steps and not finished, and nothing changed; else 0 (Run 8 and 9).
 */
rosadenca_ran rosadenca_run_written(uint8_t *memory, size_t memory_length, uint8_t *image0, size_t image0_length, uint8_t *image1,
                                    size_t image1_length, uint8_t *image2, size_t image2_length, uint8_t *image3,
                                    size_t image3_length, rosadenca_drives drives, rosadenca_record *table, size_t table_length,
                                    size_t commands, uint64_t budget);

/*
 * The number of a look at a sector of a unit. In this order: 1 if of any unit that is there, be it this one or another, the image has
 * the wrong size or the last head's maximum sector is above the other; 11 if the unit is absent, as each above 3 is; 10 if its drive has
 * no such sector; else 0 (Look 4 to 7). Changes nothing.
 */
uint8_t rosadenca_look_number(const uint8_t *image0, size_t image0_length, const uint8_t *image1, size_t image1_length,
                              const uint8_t *image2, size_t image2_length, const uint8_t *image3, size_t image3_length,
                              rosadenca_drives drives, uint8_t unit, uint32_t sector);

/*
 * Where in its unit's image a sector lies: 512 bytes from 512 x sector on, or 0 bytes from 0 on exactly where rosadenca_look_number is
 * not 0 (Look 1 and 3). Changes nothing.
 */
rosadenca_part rosadenca_look(const uint8_t *image0, size_t image0_length, const uint8_t *image1, size_t image1_length,
                              const uint8_t *image2, size_t image2_length, const uint8_t *image3, size_t image3_length,
                              rosadenca_drives drives, uint8_t unit, uint32_t sector);

/*
 * The place of a sector, given by its number: the cylinder, head and sector that have this number (Place 3). It asks for a drive and for
 * no unit and no image, and whether the drive is there has no say; it changes nothing (Place 4).
 * Numbers, in this order: 1 if the last head's maximum sector is above the other, 10 if the drive has no such sector; else 0
 * (Place 5 to 7). On any number but 0 the place is 0, 0, 0 (Place 8). That is also the place of sector 0, so look at the number first.
 */
rosadenca_placed rosadenca_place(rosadenca_drive drive, uint32_t sector);

/*
 * The steps of a chain from its start, whatever is taken of them: the sum of the steps of the first `commands` records of the table, of
 * 32 of them at most and of no more than the table has (Run 6). Changes nothing.
 */
uint64_t rosadenca_chain_steps(const rosadenca_record *table, size_t table_length, size_t commands);

/*
 * The IOPB at an address, with the number of the view (View 2 to 7; the fields are IOPB 3 to 14). Changes nothing.
 */
rosadenca_iopb rosadenca_view(const uint8_t *memory, size_t memory_length, uint32_t at);

/*
 * The short forms: all that a host lends but its table, in one struct, and each call above over it. They are compiled with the program
 * that uses them, and add nothing to what the calls do.
 */

/* Memory, images and drives. rosadenca_one_drive makes one; its members may be changed between two calls. */
typedef struct rosadenca_lent {
    uint8_t *memory;
    size_t memory_length;
    uint8_t *image[ROSADENCA_UNITS];
    size_t image_length[ROSADENCA_UNITS];
    rosadenca_drives drives;
} rosadenca_lent;

/* Gives a unit, 0 to 3, a drive and its image: the unit is there from now on, whatever `present` says in `drive`. To take the drive away
   again, set lent->drives.units[unit].present to false. */
static inline void rosadenca_add_drive(rosadenca_lent *lent, unsigned unit, uint8_t *image, size_t image_length, rosadenca_drive drive)
{
    drive.present = true;
    lent->image[unit] = image;
    lent->image_length[unit] = image_length;
    lent->drives.units[unit] = drive;
}

/* One drive: it is unit 0, which is there whatever `present` says in `drive`. The others are absent. */
static inline rosadenca_lent rosadenca_one_drive(uint8_t *memory, size_t memory_length, uint8_t *image, size_t image_length,
                                                 rosadenca_drive drive)
{
    rosadenca_lent lent;
    const rosadenca_drive absent = {0, 0, 0, 0, false, false};
    unsigned unit;
    lent.memory = memory;
    lent.memory_length = memory_length;
    for (unit = 0; unit < ROSADENCA_UNITS; unit++) {
        /* no byte, and a pointer that is not NULL */
        lent.image[unit] = memory;
        lent.image_length[unit] = 0;
        lent.drives.units[unit] = absent;
    }
    rosadenca_add_drive(&lent, 0, image, image_length, drive);
    return lent;
}

/* What the calls take of a `lent`: the images with their lengths, and the drives. */
#define ROSADENCA_DISKS(lent) \
    (lent)->image[0], (lent)->image_length[0], (lent)->image[1], (lent)->image_length[1], (lent)->image[2], (lent)->image_length[2], \
        (lent)->image[3], (lent)->image_length[3], (lent)->drives

static inline rosadenca_walked rosadenca_walk_lent(const rosadenca_lent *lent, uint32_t start, rosadenca_record *table,
                                                   size_t table_length)
{
    return rosadenca_walk(lent->memory, lent->memory_length, ROSADENCA_DISKS(lent), start, table, table_length);
}

static inline uint8_t rosadenca_pick_lent(const rosadenca_lent *lent, rosadenca_record *table, size_t table_length, size_t commands,
                                          size_t place)
{
    return rosadenca_pick(lent->memory, lent->memory_length, ROSADENCA_DISKS(lent), table, table_length, commands, place);
}

static inline rosadenca_ran rosadenca_run_picks_lent(const rosadenca_lent *lent, rosadenca_record *table, size_t table_length,
                                                     size_t commands, const uint8_t *picks, size_t picks_length)
{
    return rosadenca_run_picks(lent->memory, lent->memory_length, ROSADENCA_DISKS(lent), table, table_length, commands, picks,
                               picks_length);
}

static inline rosadenca_ran rosadenca_run_written_lent(const rosadenca_lent *lent, rosadenca_record *table, size_t table_length,
                                                       size_t commands, uint64_t budget)
{
    return rosadenca_run_written(lent->memory, lent->memory_length, ROSADENCA_DISKS(lent), table, table_length, commands, budget);
}

static inline uint8_t rosadenca_look_number_lent(const rosadenca_lent *lent, uint8_t unit, uint32_t sector)
{
    return rosadenca_look_number(ROSADENCA_DISKS(lent), unit, sector);
}

/* The sector's bytes themselves are at lent->image[unit] + part.at: read them only where part.length is not 0. */
static inline rosadenca_part rosadenca_look_lent(const rosadenca_lent *lent, uint8_t unit, uint32_t sector)
{
    return rosadenca_look(ROSADENCA_DISKS(lent), unit, sector);
}

#undef ROSADENCA_DISKS

#ifdef __cplusplus
}
#endif

#endif
