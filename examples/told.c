/* The calls of the board, each with what comes of it in words. */
#include "told.h"

#include "words.h"

#include <inttypes.h>
#include <stdio.h>

bool tell_walk(lent *host, const wish *wishes)
{
    rosadenca_walked walked = rosadenca_walk_lent(&host->disks, 0, host->table, ROSADENCA_MOST_COMMANDS);
    host->commands = walked.commands;
    if (walked.number != ROSADENCA_ACCEPTED) {
        fprintf(stderr, "host: the walk was refused with number %d: %s\n", walked.number, number_in_words(walked.number));
        return false;
    }
    for (size_t place = 0; place < host->commands; place++)
        printf("  place %zu: %s\n", place, wishes[place].wants);
    uint64_t steps = rosadenca_chain_steps(host->table, ROSADENCA_MOST_COMMANDS, host->commands);
    printf("  together they have %" PRIu64 " steps\n", steps);
    return true;
}

void tell_pick(lent *host, size_t place)
{
    uint8_t number = rosadenca_pick_lent(&host->disks, host->table, ROSADENCA_MOST_COMMANDS, host->commands, place);
    if (number != ROSADENCA_ACCEPTED) {
        printf("  pick %zu: refused with number %d: %s. Nothing has changed.\n", place, number, number_in_words(number));
        return;
    }
    const rosadenca_record *record = &host->table[place];
    rosadenca_iopb iopb = rosadenca_view(host->memory, MEMORY_BYTES, record->iopb);
    printf("  pick %zu: one step taken, the command's step %" PRIu32, place, record->taken);
    puts(iopb.done ? ", and it is closed." : "; it is not closed yet.");
}

bool tell_rest(lent *host)
{
    rosadenca_ran ran =
        rosadenca_run_written_lent(&host->disks, host->table, ROSADENCA_MOST_COMMANDS, host->commands, UINT64_MAX);
    if (ran.number != ROSADENCA_ACCEPTED || !ran.finished) {
        fprintf(stderr, "host: the run was refused with number %d: %s\n", ran.number, number_in_words(ran.number));
        return false;
    }
    printf("  %" PRIu64 " step%s; all commands are finished.\n", ran.steps, ran.steps == 1 ? "" : "s");
    return true;
}

void tell_statuses(const lent *host)
{
    puts("Each IOPB holds its status now:");
    for (size_t place = 0; place < host->commands; place++) {
        rosadenca_iopb iopb = rosadenca_view(host->memory, MEMORY_BYTES, (uint32_t)(IOPB_SPACING * place));
        printf("  place %zu: DONE %d, ERRS %d, code %02X: %s", place, iopb.done, iopb.errs, iopb.completion, code_in_words(&iopb));
        print_fitted(&iopb);
        putchar('\n');
    }
}

/* The text at some bytes, up to its end. */
static void print_text(const uint8_t *bytes, size_t length)
{
    putchar('"');
    for (size_t k = 0; k < 60 && k < length && bytes[k] != 0; k++)
        putchar(bytes[k] >= ' ' && bytes[k] <= '~' ? bytes[k] : '.');
    puts("\"");
}

void tell_sector(const lent *host, uint8_t unit, uint32_t sector)
{
    uint8_t number = rosadenca_look_number_lent(&host->disks, unit, sector);
    rosadenca_part part = rosadenca_look_lent(&host->disks, unit, sector);
    printf("  sector %" PRIu32, sector);
    if (host->disks.drives.units[1].present)
        printf(" of unit %d", unit);
    if (number != ROSADENCA_ACCEPTED) {
        printf(": refused with number %d: %s\n", number, number_in_words(number));
        return;
    }
    printf(": ");
    print_text(host->disks.image[unit] + part.at, part.length);
}

void tell_memory(const lent *host, uint32_t address)
{
    printf("  at %" PRIX32 "H: ", address);
    print_text(host->memory + address, MEMORY_BYTES - address);
}
