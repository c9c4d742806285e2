/* The board's numbers and codes in words. */
#include "words.h"

#include <stdio.h>

/* Byte 3 has no larger number: it stands for all that are larger too. */
enum { MOST_TOLD = 255 };

const char *number_in_words(uint8_t number)
{
    switch (number) {
    case ROSADENCA_ACCEPTED: return "accepted";
    case ROSADENCA_SIZES_WRONG: return "memory, an image or the table has the wrong size, or a last head is longer than the others";
    case ROSADENCA_ADDRESS_ODD: return "the first address is odd";
    case ROSADENCA_IOPB_OUTSIDE: return "an IOPB is not all in memory";
    case ROSADENCA_IOPB_SHARED: return "two IOPBs share a byte";
    case ROSADENCA_CHAIN_TOO_LONG: return "the chain goes past 32 commands";
    case ROSADENCA_COMMAND_WAITS: return "an earlier unfinished command conflicts with it, so it has to wait";
    case ROSADENCA_COMMAND_FINISHED: return "that command is finished";
    case ROSADENCA_NO_SUCH_PLACE: return "there is no such place in the table";
    case ROSADENCA_TABLE_SPOILED: return "the table is spoiled";
    case ROSADENCA_NO_SUCH_SECTOR: return "there is no such sector";
    case ROSADENCA_UNIT_ABSENT: return "the unit is absent";
    default: return "a number that the rules do not have";
    }
}

/* Whether the sectors go past the end of the drive. There at least one would have fitted, so 0 is the code's other meaning. */
static bool past_drive(const rosadenca_iopb *iopb)
{
    return iopb->completion == ROSADENCA_CODE_CYLINDER && iopb->internal != 0;
}

/* Whether the data, in one piece, goes past the end of memory. With a link list nothing is told of how much would have fitted. */
static bool past_memory(const rosadenca_iopb *iopb)
{
    return iopb->completion == ROSADENCA_CODE_BUS_ERROR && !iopb->sgm;
}

const char *code_in_words(const rosadenca_iopb *iopb)
{
    switch (iopb->completion) {
    case ROSADENCA_CODE_SUCCESS: return "it went well";
    case ROSADENCA_CODE_NEXT_ODD: return "the next address is odd";
    case ROSADENCA_CODE_UNIMPLEMENTED: return "the board has no such command";
    case ROSADENCA_CODE_NOT_READY: return "the unit is absent, so no drive is ready";
    case ROSADENCA_CODE_COUNT_ZERO: return "the count of sectors is zero";
    case ROSADENCA_CODE_CYLINDER: return past_drive(iopb) ? "past the end of the drive" : "the cylinder is above its maximum";
    case ROSADENCA_CODE_HEAD: return "the head is too high";
    case ROSADENCA_CODE_SECTOR: return "the sector is too high for its head";
    case ROSADENCA_CODE_WRITE_PROTECTED: return "the drive is protected";
    case ROSADENCA_CODE_BUS_ERROR:
        return past_memory(iopb) ? "past the end of memory" : "the link list, or a range of it, goes past the end of memory";
    case ROSADENCA_CODE_LENGTHS: return "the lengths of the link list don't add up to the sectors";
    case ROSADENCA_CODE_RANGE_ODD: return "a range of the link list begins at an odd address";
    default: return "a code that the rules do not have";
    }
}

void print_fitted(const rosadenca_iopb *iopb)
{
    if (!past_drive(iopb) && !past_memory(iopb))
        return;
    if (iopb->internal == 0)
        printf("; not one whole sector would have fitted");
    else if (iopb->internal == MOST_TOLD)
        printf("; %d sectors or more would have fitted", (int)MOST_TOLD);
    else
        printf("; %d sector%s would have fitted", iopb->internal, iopb->internal == 1 ? "" : "s");
}
