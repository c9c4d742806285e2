/*
 * Plays cases in the format of docs/CASES.md, from standard input, over the archive that it is linked with, and prints what that page
 * says. It takes every line but `deck`, for which the archive has no function. tools/x86_64 builds and runs it.
 */
#include "rosadenca.h"

#include <inttypes.h>
#include <stdio.h>
#include <stdlib.h>
#include <string.h>

/* The limits of the format. A list of picks has the most numbers, and is the longest line. */
enum { MOST_MEMORY = 66560, MOST_IMAGE = 16778240, RECORDS = 40, FIELDS = 10, MOST_NUMBERS = 256, LINE_BYTES = 2048 };

/* The calls that are not lent use the first 32 records. */
enum { BY_VALUE = ROSADENCA_MOST_COMMANDS };

/* The state of a case. What is lent points into these bytes; the lines `image`, `disk`, `drive` and `there` set the chosen unit. */
static uint8_t memory[MOST_MEMORY], images[ROSADENCA_UNITS][MOST_IMAGE];
static rosadenca_lent board;
static size_t chosen;
static rosadenca_record table[RECORDS];
static size_t commands, lent;

/* The numbers of the line that is played. */
static uint64_t number[MOST_NUMBERS];
static size_t numbers;

static uint32_t digest(uint32_t before, const uint8_t *bytes, size_t length)
{
    for (size_t k = 0; k < length; k++)
        before = (before + bytes[k]) * UINT32_C(16777619);
    return before;
}

/* A number of so many bytes, the high byte first. */
static uint32_t digest_number(uint32_t before, uint32_t value, size_t bytes)
{
    for (size_t k = bytes; k > 0; k--) {
        uint8_t byte = (uint8_t)(value >> 8 * (k - 1));
        before = digest(before, &byte, 1);
    }
    return before;
}

static const uint32_t of_nothing = UINT32_C(2166136261);

/* All the ranges that a record has room for: also those past their number, which a call must leave alone. */
static uint32_t digest_ranges(uint32_t before, const rosadenca_record *record)
{
    for (size_t k = 0; k < ROSADENCA_MOST_LINKS; k++) {
        before = digest_number(before, record->list[k].address, 4);
        before = digest_number(before, record->list[k].length, 2);
        before = digest_number(before, record->list[k].unused, 2);
    }
    return before;
}

static uint32_t digest_table(void)
{
    uint32_t so_far = of_nothing;
    for (size_t k = 0; k < RECORDS; k++) {
        so_far = digest_number(so_far, table[k].iopb, 4);
        so_far = digest_number(so_far, table[k].address, 4);
        so_far = digest_number(so_far, table[k].sector, 4);
        so_far = digest_number(so_far, table[k].taken, 4);
        so_far = digest_number(so_far, table[k].count, 2);
        so_far = digest_number(so_far, table[k].byte0, 1);
        so_far = digest_number(so_far, table[k].code, 1);
        so_far = digest_number(so_far, table[k].ranges, 2);
        so_far = digest_number(so_far, table[k].fitted, 1);
        so_far = digest_number(so_far, table[k].unit, 1);
        so_far = digest_ranges(so_far, &table[k]);
    }
    return so_far;
}

/* The four images, end to end: also those of absent units, which a call must leave alone. */
static uint32_t digest_images(void)
{
    uint32_t so_far = of_nothing;
    for (size_t unit = 0; unit < ROSADENCA_UNITS; unit++)
        so_far = digest(so_far, images[unit], board.image_length[unit]);
    return so_far;
}

/* The end of most lines: the digests of memory, images and table. */
static void print_digests(void)
{
    printf(" %08" PRIx32 " %08" PRIx32 " %08" PRIx32 "\n", digest(of_nothing, memory, board.memory_length), digest_images(),
           digest_table());
}

/* The lines that set the state. Each says whether the line is in the format, as far as this program's own memory depends on it. */

static bool play_case(void)
{
    rosadenca_drive open_drive = {0, 0, 0, 0, false, true};
    board = rosadenca_one_drive(memory, 0, images[0], 0, open_drive);
    for (size_t unit = 1; unit < ROSADENCA_UNITS; unit++)
        board.image[unit] = images[unit];
    chosen = commands = 0;
    lent = BY_VALUE;
    memset(table, 0, sizeof table);
    printf("case %" PRIu64 "\n", number[0]);
    return true;
}

static bool play_memory(void)
{
    if (number[0] > MOST_MEMORY)
        return false;
    board.memory_length = number[0];
    for (size_t k = 0; k < board.memory_length; k++)
        memory[k] = (uint8_t)(number[1] + number[2] * k);
    return true;
}

static bool play_unit(void)
{
    if (number[0] >= ROSADENCA_UNITS)
        return false;
    chosen = number[0];
    return true;
}

static bool play_image(void)
{
    if (number[0] > MOST_IMAGE)
        return false;
    board.image_length[chosen] = number[0];
    for (size_t k = 0; k < number[0]; k++)
        images[chosen][k] =
            (uint8_t)(number[1] + number[2] * (k / ROSADENCA_SECTOR_BYTES) + number[3] * (k % ROSADENCA_SECTOR_BYTES));
    return true;
}

/* All numbers but the first are bytes, and the first is where they go. */
static bool put_bytes(uint8_t *run, size_t length)
{
    if (number[0] > length || numbers - 1 > length - number[0])
        return false;
    for (size_t k = 1; k < numbers; k++)
        run[number[0] + k - 1] = (uint8_t)number[k];
    return true;
}

static bool play_put(void) { return put_bytes(memory, board.memory_length); }

static bool play_disk(void) { return put_bytes(images[chosen], board.image_length[chosen]); }

static bool play_drive(void)
{
    rosadenca_drive *drive = &board.drives.units[chosen];
    drive->cylinder = (uint16_t)number[0];
    drive->head = (uint8_t)number[1];
    drive->sector = (uint8_t)number[2];
    drive->last_sector = (uint8_t)number[3];
    drive->write_protected = number[4] != 0;
    return true;
}

static bool play_there(void)
{
    board.drives.units[chosen].present = number[0] != 0;
    return number[0] <= 1;
}

static bool set_field(uint64_t place, uint64_t field, uint64_t value)
{
    if (place >= RECORDS)
        return false;
    rosadenca_record *record = &table[place];
    switch (field) {
    case 0: record->iopb = (uint32_t)value; return true;
    case 1: record->address = (uint32_t)value; return true;
    case 2: record->sector = (uint32_t)value; return true;
    case 3: record->taken = (uint32_t)value; return true;
    case 4: record->count = (uint16_t)value; return true;
    case 5: record->byte0 = (uint8_t)value; return true;
    case 6: record->code = (uint8_t)value; return true;
    case 7: record->ranges = (uint16_t)value; return true;
    case 8: record->fitted = (uint8_t)value; return true;
    case 9: record->unit = (uint8_t)value; return true;
    default: return false;
    }
}

/* All fields, and no range. */
static bool play_record(void)
{
    for (size_t field = 0; field < FIELDS; field++)
        if (!set_field(number[0], field, number[field + 1]))
            return false;
    memset(table[number[0]].list, 0, sizeof table[0].list);
    return true;
}

static bool play_range(void)
{
    if (number[0] >= RECORDS || number[1] >= ROSADENCA_MOST_LINKS)
        return false;
    rosadenca_link *range = &table[number[0]].list[number[1]];
    range->address = (uint32_t)number[2];
    range->length = (uint16_t)number[3];
    return true;
}

static bool play_spoil(void) { return set_field(number[0], number[1], number[2]); }

static bool play_commands(void)
{
    commands = number[0];
    return true;
}

static bool play_lent(void)
{
    lent = number[0];
    return lent <= RECORDS;
}

/* The lines that call. */

static bool walk(const char *word, size_t records)
{
    rosadenca_walked walked = rosadenca_walk_lent(&board, (uint32_t)number[0], table, records);
    commands = walked.commands;
    printf("%s %d %zu", word, walked.number, walked.commands);
    print_digests();
    return true;
}

static bool play_walk(void) { return walk("walk", BY_VALUE); }

static bool play_lent_walk(void) { return walk("lentwalk", lent); }

static bool pick(const char *word, size_t records)
{
    uint8_t reply = rosadenca_pick_lent(&board, table, records, commands, number[0]);
    printf("%s %d", word, reply);
    print_digests();
    return true;
}

static bool play_pick(void) { return pick("pick", BY_VALUE); }

static bool play_lent_pick(void) { return pick("lentpick", lent); }

static bool play_picks(void)
{
    uint8_t picks[MOST_NUMBERS];
    for (size_t k = 0; k < numbers; k++)
        picks[k] = (uint8_t)number[k];
    rosadenca_ran ran = rosadenca_run_picks_lent(&board, table, BY_VALUE, commands, picks, numbers);
    printf("picks %d %" PRIu64 " %" PRIu64 " %d", ran.number, ran.steps, ran.refused, ran.finished);
    print_digests();
    return true;
}

static bool play_written(void)
{
    rosadenca_ran ran = rosadenca_run_written_lent(&board, table, BY_VALUE, commands, number[0]);
    printf("written %d %" PRIu64 " %d", ran.number, ran.steps, ran.finished);
    print_digests();
    return true;
}

static bool play_steps(void)
{
    printf("steps %" PRIu64 "\n", rosadenca_chain_steps(table, BY_VALUE, commands));
    return true;
}

static bool play_look(void)
{
    uint8_t unit = (uint8_t)number[0];
    uint32_t sector = (uint32_t)number[1];
    rosadenca_part part = rosadenca_look_lent(&board, unit, sector);
    /* a part of a unit that has no image here would be the board's mistake: its length is told, and nothing is read */
    size_t length = unit < ROSADENCA_UNITS ? part.length : 0;
    const uint8_t *image = images[unit < ROSADENCA_UNITS ? unit : 0];
    printf("look %d %zu %08" PRIx32 "\n", rosadenca_look_number_lent(&board, unit, sector), part.length,
           digest(of_nothing, image + part.at, length));
    return number[0] <= UINT8_MAX;
}

static bool play_place(void)
{
    rosadenca_placed placed = rosadenca_place(board.drives.units[chosen], (uint32_t)number[0]);
    printf("place %d %d %d %d\n", placed.number, placed.place.cylinder, placed.place.head, placed.place.sector);
    return true;
}

static void print_fields(rosadenca_iopb v)
{
    printf(" %d %d %d %d %d %d", v.errs, v.done, v.chen, v.sgm, v.command, v.completion);
    printf(" %d %d %d %d %d %d", v.wrpt, v.oncl, v.drdy, v.internal, v.subfunction, v.unit);
    printf(" %d %d %d %d %" PRIu32 " %" PRIu32 "\n", v.count, v.cylinder, v.head, v.sector, v.data_address, v.next_address);
}

/* The archive views even addresses alone, so an odd one is viewed one byte earlier in the memory that begins one byte later. */
static bool play_fields(void)
{
    uint32_t at = (uint32_t)number[0];
    size_t later = at % 2 != 0 && board.memory_length > 0 ? 1 : 0;
    fputs("fields", stdout);
    print_fields(rosadenca_view(memory + later, board.memory_length - later, at - at % 2));
    return true;
}

static bool play_view(void)
{
    uint32_t at = (uint32_t)number[0];
    rosadenca_iopb v = rosadenca_view(memory, board.memory_length, at);
    printf("view %d", v.number);
    print_fields(v);
    return true;
}

/* Each word, the fewest and the most numbers that follow it, and what is done. */
static const struct {
    const char *word;
    size_t least, most;
    bool (*play)(void);
} words[] = {
    {"case", 1, 1, play_case},         {"memory", 3, 3, play_memory},       {"put", 2, 65, play_put},
    {"image", 4, 4, play_image},       {"disk", 2, 65, play_disk},          {"drive", 5, 5, play_drive},
    {"record", 11, 11, play_record},   {"range", 4, 4, play_range},         {"spoil", 3, 3, play_spoil},
    {"commands", 1, 1, play_commands}, {"lent", 1, 1, play_lent},           {"walk", 1, 1, play_walk},
    {"pick", 1, 1, play_pick},         {"picks", 0, 256, play_picks},       {"written", 1, 1, play_written},
    {"look", 2, 2, play_look},         {"fields", 1, 1, play_fields},       {"view", 1, 1, play_view},
    {"lentwalk", 1, 1, play_lent_walk}, {"lentpick", 1, 1, play_lent_pick}, {"steps", 0, 0, play_steps},
    {"place", 1, 1, play_place},       {"unit", 1, 1, play_unit},           {"there", 1, 1, play_there},
};

/* Plays one line, which is taken apart. Whether it is in the format. */
static bool play(char *line)
{
    char *rest = strchr(line, ' ');
    numbers = 0;
    if (rest != NULL)
        *rest++ = '\0';
    while (rest != NULL && *rest != '\0') {
        char *end;
        if (numbers == MOST_NUMBERS || *rest < '0' || *rest > '9')
            return false;
        number[numbers++] = strtoull(rest, &end, 10);
        rest = *end == ' ' ? end + 1 : end;
    }
    for (size_t k = 0; k < sizeof words / sizeof words[0]; k++)
        if (strcmp(line, words[k].word) == 0)
            return words[k].least <= numbers && numbers <= words[k].most && words[k].play();
    return false;
}

int main(void)
{
    static char line[LINE_BYTES];
    for (unsigned long at = 1; fgets(line, LINE_BYTES, stdin) != NULL; at++) {
        char *end = strchr(line, '\n');
        if (end != NULL)
            *end = '\0';
        if (end == NULL || !play(line)) {
            fprintf(stderr, "player: line %lu is outside the format\n", at);
            return 1;
        }
    }
    return fflush(stdout) == 0 ? 0 : 1;
}
