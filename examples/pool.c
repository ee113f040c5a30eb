/* Pools a week's recall list with the standing table, three shelf zones by four carton kinds, plans the pooled table, and prints what is expected of
 * the cells that the list changes. It fails if anything is not as computed here by hand. */
#include "lufodimi.h"

#include <stdbool.h>
#include <stdio.h>
#include <stdlib.h>
#include <string.h>

/* The denominators of the standing table and of the list, and their least common multiple: 20 is 2 times 10, and 5 times 4. */
enum { ZONES = 3, KINDS = 4, CELLS = ZONES * KINDS, STANDING = 10, LIST = 4, POOLED = 20 };

static const char *const zones[ZONES] = {"front", "middle", "cold"};
static const char *const kinds[KINDS] = {"tablets", "ampoules", "insulin", "infusions"};

/* The standing table, a zone a line: 45 is an expected count of 4.5 cartons. */
static const uint32_t standing[CELLS] = {
    45, 23, 0, 12,
    31, 26, 4, 19,
    0, 14, 52, 14,
};

/* The week's list: 3 is an expected count of 0.75 of a carton. */
static const uint32_t list[CELLS] = {
    0, 0, 0, 0,
    0, 0, 0, 3,
    0, 2, 0, 0,
};

/* Ends the program if a call was refused. */
static void expect_done(const char *call, uint32_t answer)
{
    if (answer != LUFODIMI_DONE) {
        fprintf(stderr, "%s: refused %u\n", call, (unsigned)answer);
        exit(EXIT_FAILURE);
    }
}

/* Ends the program if something is not as computed by hand. */
static void expect(const char *what, bool as_computed)
{
    if (!as_computed) {
        fprintf(stderr, "%s: not as computed by hand\n", what);
        exit(EXIT_FAILURE);
    }
}

/* Prints an expected count, for a denominator that divides 100. */
static void print_count(uint32_t cell, uint32_t denominator, const char *where)
{
    const uint32_t hundredths = cell * (100 / denominator);
    printf(" %u.%02u %s", (unsigned)(hundredths / 100), (unsigned)(hundredths % 100), where);
}

int main(void)
{
    uint32_t by_hand[CELLS] = {0};
    for (int cell = 0; cell < CELLS; cell++) {
        by_hand[cell] = 2 * standing[cell] + 5 * list[cell];
    }

    uint32_t denominator = 0;
    uint32_t pooled[CELLS] = {0};
    expect_done("pool", lufodimi_pool(ZONES, KINDS, STANDING, standing, CELLS, LIST, list, CELLS, &denominator, 1, pooled, CELLS));
    expect("the multiple", denominator == POOLED);
    expect("the pooled cells", memcmp(pooled, by_hand, sizeof pooled) == 0);
    for (int cell = 0; cell < CELLS; cell++) {
        if (list[cell] != 0) {
            printf("%s, %s:", zones[cell / KINDS], kinds[cell % KINDS]);
            print_count(standing[cell], STANDING, "standing,");
            print_count(list[cell], LIST, "on the list,");
            print_count(pooled[cell], denominator, "pooled\n");
        }
    }

    static uint8_t plan[LUFODIMI_LONGEST_PLAN] = {0};
    const uint32_t length = lufodimi_plan(ZONES, KINDS, denominator, pooled, CELLS, plan, sizeof plan);
    if (length < LUFODIMI_SHORTEST_PLAN) {
        expect_done("plan", length);
    }
    expect_done("open", lufodimi_open(plan, length));
    uint32_t sizes[LUFODIMI_SIZES] = {0};
    expect_done("sizes", lufodimi_sizes(plan, length, sizes, LUFODIMI_SIZES));
    expect("the plan's sizes", sizes[0] == ZONES && sizes[1] == KINDS && sizes[3] == POOLED);
    printf("the pooled plan: %u bytes, %u arrays, %u draws\n", (unsigned)length, (unsigned)sizes[2], (unsigned)sizes[3]);

    uint32_t drawn[CELLS] = {0};
    for (uint32_t number = 0; number < POOLED; number++) {
        uint16_t counts[CELLS] = {0};
        expect_done("draw", lufodimi_draw(plan, length, number, counts, CELLS));
        for (int cell = 0; cell < CELLS; cell++) {
            drawn[cell] += counts[cell];
        }
    }
    expect("all draws together", memcmp(drawn, by_hand, sizeof drawn) == 0);
    return EXIT_SUCCESS;
}
