/* A month's draw, with the plan and the campaign's record kept in files from month to month.
 *
 *     month PLAN RECORD    draws a month and prints how many cartons to open; where neither file is there, it plans and starts first
 *     month                plays a round of ten months in files that it removes, and prints what no draw changes
 *
 * The record file is that of docs/FORMS.md, which the Rust crate and the Python module write and read too. */
#define _DEFAULT_SOURCE
#include "lufodimi.h"

#include <stdbool.h>
#include <stdio.h>
#include <stdlib.h>
#include <string.h>
#include <sys/random.h>
#include <unistd.h>

enum { ZONES = 3, KINDS = 4, CELLS = ZONES * KINDS, DENOMINATOR = 10, BITS = (DENOMINATOR + 7) / 8 };
enum { HEAD = 20, RECORD_BYTES = HEAD + BITS + 8 * CELLS, LONGEST_NAME = 4096 };

static const char *const zones[ZONES] = {"front", "middle", "cold"};
static const char *const kinds[KINDS] = {"tablets", "ampoules", "insulin", "infusions"};

/* The cartons to open in ten months, a zone a line: 45 is an expected count of 4.5 a month. */
static const uint32_t table[CELLS] = {
    45, 23, 0, 12,
    31, 26, 4, 19,
    0, 14, 52, 14,
};

/* A plan and the record of its campaign, as the calls take them. */
struct campaign {
    uint8_t plan[LUFODIMI_LONGEST_PLAN + 1];
    size_t plan_length;
    struct lufodimi_record record;
    uint8_t bits[BITS];
    uint64_t tally[CELLS];
};

/* Ends the program with a sentence. */
static void fail(const char *name, const char *sentence)
{
    fprintf(stderr, "%s: %s\n", name, sentence);
    exit(EXIT_FAILURE);
}

/* Ends the program if a call was refused. */
static void expect_done(const char *call, uint32_t answer)
{
    if (answer != LUFODIMI_DONE) {
        fprintf(stderr, "%s: refused %u\n", call, (unsigned)answer);
        exit(EXIT_FAILURE);
    }
}

/* A random number below a bound, each with the same chance; examples/campaign.c says why some words are thrown back. */
static uint32_t random_below(uint32_t bound)
{
    const uint32_t even = UINT32_MAX - UINT32_MAX % bound;
    uint32_t word = 0;
    do {
        if (getrandom(&word, sizeof word, 0) != (ssize_t)sizeof word) {
            fail("getrandom", "no random number");
        }
    } while (word >= even);
    return word % bound;
}

/* One of the numbers that are free in this round, each with the same chance. */
static uint32_t random_free(const struct campaign *campaign)
{
    uint32_t before = random_below(DENOMINATOR - campaign->record.taken);
    for (uint32_t number = 0;; number++) {
        if ((campaign->bits[number / 8] >> number % 8 & 1) == 0 && before-- == 0) {
            return number;
        }
    }
}

/* Writes a number, the low byte first, and reads one. */
static void put(uint8_t *bytes, int width, uint64_t number)
{
    for (int i = 0; i < width; i++) {
        bytes[i] = (uint8_t)(number >> 8 * i);
    }
}

static uint64_t get(const uint8_t *bytes, int width)
{
    uint64_t number = 0;
    for (int i = 0; i < width; i++) {
        number |= (uint64_t)bytes[i] << 8 * i;
    }
    return number;
}

/* Replaces a file in one step, so that it is always whole. */
static void write_file(const char *name, const uint8_t *bytes, size_t length)
{
    char next[LONGEST_NAME] = {0};
    if (snprintf(next, sizeof next, "%s.next", name) >= (int)sizeof next) {
        fail(name, "the name is too long");
    }
    FILE *file = fopen(next, "wb");
    const bool written = file != NULL && fwrite(bytes, 1, length, file) == length && fflush(file) == 0 && fsync(fileno(file)) == 0;
    if (file == NULL || fclose(file) != 0 || !written || rename(next, name) != 0) {
        fail(name, "cannot be written");
    }
}

/* Reads a file into a buffer and returns its length; one that fills the buffer is too long. */
static size_t read_file(const char *name, uint8_t *bytes, size_t room)
{
    FILE *file = fopen(name, "rb");
    if (file == NULL) {
        fail(name, "cannot be read");
    }
    const size_t length = fread(bytes, 1, room, file);
    const bool whole = ferror(file) == 0 && length < room;
    fclose(file);
    if (!whole) {
        fail(name, "cannot be read, or is too long");
    }
    return length;
}

static void keep_record(const char *name, const struct campaign *campaign)
{
    uint8_t bytes[RECORD_BYTES] = {'L', 'U', 'F', 'R'};
    put(bytes + 4, 2, 2);
    put(bytes + 6, 2, campaign->record.rounds);
    put(bytes + 8, 4, campaign->record.taken);
    put(bytes + 12, 4, BITS);
    put(bytes + 16, 4, CELLS);
    memcpy(bytes + HEAD, campaign->bits, BITS);
    for (int cell = 0; cell < CELLS; cell++) {
        put(bytes + HEAD + BITS + 8 * cell, 8, campaign->tally[cell]);
    }
    write_file(name, bytes, sizeof bytes);
}

/* Plans the table, starts a campaign, and keeps both. */
static void begin(struct campaign *campaign, const char *plan, const char *record)
{
    const uint32_t length = lufodimi_plan(ZONES, KINDS, DENOMINATOR, table, CELLS, campaign->plan, LUFODIMI_LONGEST_PLAN);
    if (length < LUFODIMI_SHORTEST_PLAN) {
        expect_done("plan", length);
    }
    campaign->plan_length = length;
    expect_done("start", lufodimi_start(campaign->plan, length, &campaign->record, campaign->bits, BITS, campaign->tally, CELLS));
    write_file(plan, campaign->plan, length);
    keep_record(record, campaign);
}

/* Reads plan and record. The plan has to be one of this table; whether the record fits it, the next draw tells. */
static void resume(struct campaign *campaign, const char *plan, const char *record)
{
    uint32_t sizes[LUFODIMI_SIZES] = {0};
    uint32_t cells[CELLS] = {0};
    campaign->plan_length = read_file(plan, campaign->plan, sizeof campaign->plan);
    expect_done("sizes", lufodimi_sizes(campaign->plan, campaign->plan_length, sizes, LUFODIMI_SIZES));
    if (sizes[0] != ZONES || sizes[1] != KINDS || sizes[3] != DENOMINATOR) {
        fail(plan, "the plan has other sizes than the table");
    }
    expect_done("cells", lufodimi_cells(campaign->plan, campaign->plan_length, cells, CELLS));
    if (memcmp(cells, table, sizeof table) != 0) {
        fail(plan, "the plan is that of another table");
    }

    uint8_t bytes[RECORD_BYTES + 1] = {0};
    if (read_file(record, bytes, sizeof bytes) != RECORD_BYTES || memcmp(bytes, "LUFR", 4) != 0 || get(bytes + 4, 2) != 2 ||
        get(bytes + 12, 4) != BITS || get(bytes + 16, 4) != CELLS) {
        fail(record, "is no record of this size in form 2");
    }
    campaign->record.rounds = (uint16_t)get(bytes + 6, 2);
    campaign->record.taken = (uint32_t)get(bytes + 8, 4);
    memcpy(campaign->bits, bytes + HEAD, BITS);
    for (int cell = 0; cell < CELLS; cell++) {
        campaign->tally[cell] = get(bytes + HEAD + BITS + 8 * cell, 8);
    }
    /* A draw of 0 on a copy returns 0, 10 or 13 just if the record fits; only then may a free number be looked for. */
    struct campaign copy = *campaign;
    uint16_t counts[CELLS] = {0};
    const uint32_t answer = lufodimi_campaign_draw(copy.plan, copy.plan_length, 0, &copy.record, copy.bits, BITS, copy.tally, CELLS, counts, CELLS);
    if (answer != LUFODIMI_TAKEN && answer != LUFODIMI_ROUNDS) {
        expect_done("resume", answer);
    }
}

/* Draws a month from the files and keeps the record, before anything is told. */
static void draw_month(struct campaign *campaign, const char *plan, const char *record, uint16_t *counts)
{
    resume(campaign, plan, record);
    expect_done("draw", lufodimi_campaign_draw(campaign->plan, campaign->plan_length, random_free(campaign), &campaign->record,
                                               campaign->bits, BITS, campaign->tally, CELLS, counts, CELLS));
    keep_record(record, campaign);
}

/* A round of ten months. Each zone's expected count is whole, so every month opens just so many cartons there. */
static bool play(struct campaign *campaign)
{
    char folder[] = "/tmp/lufodimi-month-XXXXXX";
    char plan[sizeof folder + 8] = {0};
    char record[sizeof folder + 8] = {0};
    if (mkdtemp(folder) == NULL) {
        fail(folder, "cannot be made");
    }
    snprintf(plan, sizeof plan, "%s/plan", folder);
    snprintf(record, sizeof record, "%s/record", folder);
    begin(campaign, plan, record);
    for (int month = 1; month <= DENOMINATOR; month++) {
        uint16_t counts[CELLS] = {0};
        draw_month(campaign, plan, record, counts);
        printf("month %d:", month);
        for (int zone = 0; zone < ZONES; zone++) {
            unsigned cartons = 0;
            for (int kind = 0; kind < KINDS; kind++) {
                cartons += counts[zone * KINDS + kind];
            }
            printf(" %s %u,", zones[zone], cartons);
        }
        printf(" rounds completed %u\n", (unsigned)campaign->record.rounds);
    }
    resume(campaign, plan, record);
    const bool removed = remove(plan) == 0 && remove(record) == 0 && rmdir(folder) == 0;
    bool exact = campaign->record.rounds == 1;
    for (int cell = 0; cell < CELLS; cell++) {
        exact = exact && campaign->tally[cell] == table[cell];
    }
    printf("the record that was kept: the tally is %s\n", exact ? "the table" : "wrong");
    return exact && removed;
}

int main(int argc, char **argv)
{
    static struct campaign campaign = {0};
    if (argc == 1) {
        return play(&campaign) ? EXIT_SUCCESS : EXIT_FAILURE;
    }
    if (argc != 3) {
        fail("usage", "month [PLAN RECORD]");
    }
    if (access(argv[1], F_OK) != 0 && access(argv[2], F_OK) != 0) {
        begin(&campaign, argv[1], argv[2]);
    }
    uint16_t counts[CELLS] = {0};
    draw_month(&campaign, argv[1], argv[2], counts);
    for (int cell = 0; cell < CELLS; cell++) {
        printf("%s, %s: %u\n", zones[cell / KINDS], kinds[cell % KINDS], (unsigned)counts[cell]);
    }
    return EXIT_SUCCESS;
}
