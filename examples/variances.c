/* Plans a table of three shelf zones by four carton kinds and prints how much the counts of its cells vary, and which two cells replace each other
 * most. It fails if anything is not as computed here from all draws of the plan. */
#include "lufodimi.h"

#include <stdbool.h>
#include <stdio.h>
#include <stdlib.h>

enum { ZONES = 3, KINDS = 4, CELLS = ZONES * KINDS, DENOMINATOR = 10 };

static const char *const zones[ZONES] = {"front", "middle", "cold"};
static const char *const kinds[KINDS] = {"tablets", "ampoules", "insulin", "infusions"};

/* The table, a zone a line: 45 is an expected count of 4.5 cartons. */
static const uint32_t cells[CELLS] = {
    45, 23, 0, 12,
    31, 26, 4, 19,
    0, 14, 52, 14,
};

/* The array of each draw number. */
static uint16_t draws[DENOMINATOR][CELLS];

/* Ends the program if a call was refused. */
static void expect_done(const char *call, uint32_t answer)
{
    if (answer != LUFODIMI_DONE) {
        fprintf(stderr, "%s: refused %u\n", call, (unsigned)answer);
        exit(EXIT_FAILURE);
    }
}

/* Ends the program if something is not as computed here. */
static void expect(const char *what, bool as_computed)
{
    if (!as_computed) {
        fprintf(stderr, "%s: not as computed from all draws\n", what);
        exit(EXIT_FAILURE);
    }
}

/* The numerator of the covariance of two cells. An array belongs to as many draw numbers as its weight says, so a sum over all numbers is the
 * weighted sum over the arrays. */
static int64_t covariance(int a, int b)
{
    int64_t sum = 0;
    for (int number = 0; number < DENOMINATOR; number++) {
        sum += (int64_t)draws[number][a] * draws[number][b];
    }
    return DENOMINATOR * sum - (int64_t)cells[a] * cells[b];
}

/* Prints a numerator over the squared denominator, which is 100. */
static void print_hundredths(int64_t numerator)
{
    const long long size = numerator < 0 ? -numerator : numerator;
    printf(" %s%lld.%02lld\n", numerator < 0 ? "-" : "", size / 100, size % 100);
}

/* Prints two cells, what they tend to do, and their covariance. */
static void print_pair(const int pair[2], const char *what, int64_t numerator)
{
    const int a = pair[0], b = pair[1];
    printf("%s, %s and %s, %s tend to %s:", zones[a / KINDS], kinds[a % KINDS], zones[b / KINDS], kinds[b % KINDS], what);
    print_hundredths(numerator);
}

int main(void)
{
    static uint8_t plan[LUFODIMI_LONGEST_PLAN] = {0};
    const uint32_t length = lufodimi_plan(ZONES, KINDS, DENOMINATOR, cells, CELLS, plan, sizeof plan);
    if (length < LUFODIMI_SHORTEST_PLAN) {
        expect_done("plan", length);
    }
    for (uint32_t number = 0; number < DENOMINATOR; number++) {
        expect_done("draw", lufodimi_draw(plan, length, number, draws[number], CELLS));
    }

    int64_t numerators[LUFODIMI_VARIANCES] = {0};
    expect_done("variances", lufodimi_variances(plan, length, numerators, LUFODIMI_VARIANCES));

    /* A cell's variance is f times (denominator minus f), where f is its remainder by the denominator. */
    int64_t sum = 0;
    for (int cell = 0; cell < CELLS; cell++) {
        const int64_t remainder = cells[cell] % DENOMINATOR;
        expect("a cell's variance", covariance(cell, cell) == remainder * (DENOMINATOR - remainder));
        sum += covariance(cell, cell);
    }
    expect("the sum of all cell variances", numerators[0] == sum);

    /* The two cells that replace each other most, and those that come together most. */
    int low[2] = {0, 1};
    int high[2] = {0, 1};
    for (int a = 0; a < CELLS; a++) {
        for (int b = a + 1; b < CELLS; b++) {
            if (covariance(a, b) < covariance(low[0], low[1])) {
                low[0] = a;
                low[1] = b;
            }
            if (covariance(a, b) > covariance(high[0], high[1])) {
                high[0] = a;
                high[1] = b;
            }
        }
    }
    expect("the smallest covariance", numerators[1] == covariance(low[0], low[1]));
    expect("the largest covariance", numerators[2] == covariance(high[0], high[1]));

    /* Each zone's total is whole and never varies: over all ordered pairs of its cells, a cell with itself included, the covariances add up to 0. */
    for (int zone = 0; zone < ZONES; zone++) {
        int64_t of_zone = 0;
        for (int a = 0; a < KINDS; a++) {
            for (int b = 0; b < KINDS; b++) {
                of_zone += covariance(zone * KINDS + a, zone * KINDS + b);
            }
        }
        expect("a zone's variance", of_zone == 0);
    }

    printf("all cell variances together:");
    print_hundredths(numerators[0]);
    print_pair(low, "replace each other", numerators[1]);
    print_pair(high, "come together", numerators[2]);
    return EXIT_SUCCESS;
}
