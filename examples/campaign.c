/* Plans which cartons to open, three shelf zones by four carton kinds, runs two rounds of a campaign with the operating system's random numbers, and
 * prints what was drawn beside what was planned. It prints only what no draw changes. */
#define _DEFAULT_SOURCE
#include "lufodimi.h"

#include <stdbool.h>
#include <stdio.h>
#include <stdlib.h>
#include <sys/random.h>

enum { ZONES = 3, KINDS = 4, CELLS = ZONES * KINDS, DENOMINATOR = 10, BITS = (DENOMINATOR + 7) / 8, ROUNDS = 2 };

static const char *const zones[ZONES] = {"front", "middle", "cold"};
static const char *const kinds[KINDS] = {"tablets", "ampoules", "insulin", "infusions"};

/* The cartons to open in ten months, a zone a line: 45 is an expected count of 4.5 a month. */
static const uint32_t table[CELLS] = {
    45, 23, 0, 12,
    31, 26, 4, 19,
    0, 14, 52, 14,
};

/* Ends the program if a call was refused. */
static void expect_done(const char *call, uint32_t answer)
{
    if (answer != LUFODIMI_DONE) {
        fprintf(stderr, "%s: refused %u\n", call, (unsigned)answer);
        exit(EXIT_FAILURE);
    }
}

/* A random number of 32 bits of the operating system. */
static uint32_t random_word(void)
{
    uint32_t word = 0;
    if (getrandom(&word, sizeof word, 0) != (ssize_t)sizeof word) {
        perror("getrandom");
        exit(EXIT_FAILURE);
    }
    return word;
}

/* A random number below a bound, each with the same chance. The words from the highest multiple of the bound on are thrown back, since with them
 * the low remainders would come up more often. */
static uint32_t random_below(uint32_t bound)
{
    const uint32_t even = UINT32_MAX - UINT32_MAX % bound;
    uint32_t word = random_word();
    while (word >= even) {
        word = random_word();
    }
    return word % bound;
}

/* One of the numbers that a record leaves free in this round, each with the same chance; at least one always is. Numbers in turn would not do: an
 * array's numbers lie side by side, so that whoever is checked could foresee the arrays. */
static uint32_t random_free(const struct lufodimi_record *record, const uint8_t *bits)
{
    uint32_t before = random_below(DENOMINATOR - record->taken);
    uint32_t number = 0;
    for (;;) {
        const bool taken = (bits[number / 8] >> number % 8 & 1) != 0;
        if (!taken && before == 0) {
            return number;
        }
        before -= taken ? 0 : 1;
        number++;
    }
}

int main(void)
{
    static uint8_t plan[LUFODIMI_LONGEST_PLAN] = {0};
    const uint32_t length = lufodimi_plan(ZONES, KINDS, DENOMINATOR, table, CELLS, plan, sizeof plan);
    if (length < LUFODIMI_SHORTEST_PLAN) {
        expect_done("plan", length);
    }
    expect_done("open", lufodimi_open(plan, length));
    uint32_t sizes[LUFODIMI_SIZES] = {0};
    expect_done("sizes", lufodimi_sizes(plan, length, sizes, LUFODIMI_SIZES));
    printf("a plan of %u bytes: %u zones by %u kinds, %u arrays, %u draws a round\n", (unsigned)length,
           (unsigned)sizes[0], (unsigned)sizes[1], (unsigned)sizes[2], (unsigned)sizes[3]);

    struct lufodimi_record record = {0};
    uint8_t bits[BITS] = {0};
    uint64_t tally[CELLS] = {0};
    uint64_t drawn[CELLS] = {0};
    bool exact = true;
    expect_done("start", lufodimi_start(plan, length, &record, bits, BITS, tally, CELLS));
    for (int draw = 1; draw <= ROUNDS * DENOMINATOR; draw++) {
        uint16_t counts[CELLS] = {0};
        const uint32_t number = random_free(&record, bits);
        expect_done("draw", lufodimi_campaign_draw(plan, length, number, &record, bits, BITS, tally, CELLS, counts, CELLS));
        for (int cell = 0; cell < CELLS; cell++) {
            drawn[cell] += counts[cell];
        }
        /* The draw that takes the last free number completes the round, and the next one begins by itself. */
        if (record.taken == 0) {
            for (int cell = 0; cell < CELLS; cell++) {
                exact = exact && tally[cell] == (uint64_t)record.rounds * table[cell];
            }
            printf("after %d draws: rounds %u, the tally is %s\n", draw, (unsigned)record.rounds, exact ? "so many times the table" : "wrong");
        }
    }

    exact = exact && record.rounds == ROUNDS;
    for (int cell = 0; cell < CELLS; cell++) {
        printf("%s, %s: drawn %u, planned %u in each round\n", zones[cell / KINDS], kinds[cell % KINDS], (unsigned)drawn[cell], (unsigned)table[cell]);
        exact = exact && drawn[cell] == tally[cell];
    }
    return exact ? EXIT_SUCCESS : EXIT_FAILURE;
}
