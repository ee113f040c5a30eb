/* Plans a table of two shelf zones by three carton kinds and prints the plan array by array: the weight, the counts, and which entry set the weight.
 * It fails if anything is not as worked out here from the limits of all entries. */
#include "lufodimi.h"

#include <stdbool.h>
#include <stdio.h>
#include <stdlib.h>

enum { ZONES = 2, KINDS = 3, CELLS = ZONES * KINDS, DENOMINATOR = 10, MOST_ARRAYS = DENOMINATOR };

static const char *const zones[ZONES] = {"front", "cold"};
static const char *const kinds[KINDS] = {"tablets", "ampoules", "insulin"};

/* The table, a zone a line: 22 is an expected count of 2.2 cartons. */
static const uint32_t cells[CELLS] = {
    22, 1, 0,
    14, 16, 6,
};

/* An entry as a reason names it, with row and column from 1. Where a kind has no row or no column, 0, it adds up all of them. */
struct entry {
    uint32_t kind, row, column;
};

/* All entries, in their order. */
enum { ENTRIES = CELLS + ZONES + KINDS + 1 };
static const struct entry entries[ENTRIES] = {
    {LUFODIMI_CELL, 1, 1}, {LUFODIMI_CELL, 1, 2}, {LUFODIMI_CELL, 1, 3},
    {LUFODIMI_CELL, 2, 1}, {LUFODIMI_CELL, 2, 2}, {LUFODIMI_CELL, 2, 3},
    {LUFODIMI_ROW_TOTAL, 1, 0}, {LUFODIMI_ROW_TOTAL, 2, 0},
    {LUFODIMI_COLUMN_TOTAL, 0, 1}, {LUFODIMI_COLUMN_TOTAL, 0, 2}, {LUFODIMI_COLUMN_TOTAL, 0, 3},
    {LUFODIMI_GRAND_TOTAL, 0, 0},
};

/* How many arrays the plan has, and their weights and counts, from 0 on. */
static int arrays;
static uint32_t weights[MOST_ARRAYS];
static uint16_t counts[MOST_ARRAYS][CELLS];

/* Ends the program if a call was refused. */
static void expect_done(const char *call, uint32_t answer)
{
    if (answer != LUFODIMI_DONE) {
        fprintf(stderr, "%s: refused %u\n", call, (unsigned)answer);
        exit(EXIT_FAILURE);
    }
}

/* Ends the program if something is not as worked out here. */
static void expect(const char *what, bool as_worked_out)
{
    if (!as_worked_out) {
        fprintf(stderr, "%s: not as worked out from the limits\n", what);
        exit(EXIT_FAILURE);
    }
}

/* The count of an array at an entry: its cells there, added up. */
static uint32_t count_at(int array, struct entry entry)
{
    uint32_t sum = 0;
    for (uint32_t cell = 0; cell < CELLS; cell++) {
        const uint32_t row = cell / KINDS + 1, column = cell % KINDS + 1;
        if ((entry.row == 0 || entry.row == row) && (entry.column == 0 || entry.column == column)) {
            sum += counts[array][cell];
        }
    }
    return sum;
}

/* An entry when an array got its weight: what was left of it, over which weight, and its count. */
struct rounding {
    uint32_t left, weight, count;
};

/* What was left then is what this array and all after it give out. */
static struct rounding rounding_of(int array, struct entry entry)
{
    struct rounding found = {0, 0, count_at(array, entry)};
    for (int later = array; later < arrays; later++) {
        found.left += weights[later] * count_at(later, entry);
        found.weight += weights[later];
    }
    return found;
}

static uint32_t direction_of(struct rounding entry)
{
    if (entry.count * entry.weight == entry.left) {
        return LUFODIMI_ALL_WHOLE;
    }
    return entry.count * entry.weight < entry.left ? LUFODIMI_DOWN : LUFODIMI_UP;
}

/* How much weight of the array the entry bears: the two lines of Ernst's Step 5, a whole entry as one that is rounded down. */
static uint32_t limit_of(struct rounding entry)
{
    if (direction_of(entry) == LUFODIMI_UP) {
        return entry.left - (entry.count - 1) * entry.weight;
    }
    return (entry.count + 1) * entry.weight - entry.left;
}

/* Checks the reason of an array: it names the first entry whose limit is the weight, and no limit is below it. */
static void check(int array, const uint32_t reason[LUFODIMI_REASON])
{
    for (int at = 0; at < ENTRIES; at++) {
        expect("the weight", limit_of(rounding_of(array, entries[at])) >= weights[array]);
    }
    /* The search stays within the entries: where no limit is the weight it ends at the last one, whose limit then is another. */
    int first = 0;
    while (first < ENTRIES - 1 && limit_of(rounding_of(array, entries[first])) != weights[array]) {
        first++;
    }
    const struct rounding set_by = rounding_of(array, entries[first]);
    expect("an entry that bears no more", limit_of(set_by) == weights[array]);
    expect("the kind", reason[0] == entries[first].kind);
    expect("row and column", reason[1] == entries[first].row && reason[2] == entries[first].column);
    expect("the direction", reason[3] == direction_of(set_by));
    expect("the last array", (reason[3] == LUFODIMI_ALL_WHOLE) == (array == arrays - 1));
}

/* Prints the reason of an array. */
static void print_reason(const uint32_t reason[LUFODIMI_REASON])
{
    if (reason[3] == LUFODIMI_ALL_WHOLE) {
        printf("all entries are whole\n");
        return;
    }
    switch (reason[0]) {
    case LUFODIMI_CELL:
        printf("%s, %s", zones[reason[1] - 1], kinds[reason[2] - 1]);
        break;
    case LUFODIMI_ROW_TOTAL:
        printf("the %s zone's total", zones[reason[1] - 1]);
        break;
    case LUFODIMI_COLUMN_TOTAL:
        printf("the total of %s", kinds[reason[2] - 1]);
        break;
    default:
        printf("the grand total");
        break;
    }
    printf(", rounded %s\n", reason[3] == LUFODIMI_DOWN ? "down" : "up");
}

int main(void)
{
    static uint8_t plan[LUFODIMI_LONGEST_PLAN] = {0};
    const uint32_t length = lufodimi_plan(ZONES, KINDS, DENOMINATOR, cells, CELLS, plan, sizeof plan);
    if (length < LUFODIMI_SHORTEST_PLAN) {
        expect_done("plan", length);
    }
    uint32_t sizes[LUFODIMI_SIZES] = {0};
    expect_done("sizes", lufodimi_sizes(plan, length, sizes, LUFODIMI_SIZES));

    /* No weight is below 1, so there are at most as many arrays as the denominator says. */
    arrays = (int)sizes[2];
    expect("the number of arrays", arrays <= MOST_ARRAYS);
    for (int array = 0; array < arrays; array++) {
        expect_done("array", lufodimi_array(plan, length, (uint32_t)array + 1, &weights[array], 1, counts[array], CELLS));
    }

    for (int array = 0; array < arrays; array++) {
        uint32_t reason[LUFODIMI_REASON] = {0};
        expect_done("reason", lufodimi_reason(ZONES, KINDS, DENOMINATOR, cells, CELLS, (uint32_t)array + 1, reason, LUFODIMI_REASON));
        check(array, reason);
        printf("%u of %u:", (unsigned)weights[array], (unsigned)DENOMINATOR);
        for (int cell = 0; cell < CELLS; cell++) {
            printf("%s %u", cell == KINDS ? "," : "", (unsigned)counts[array][cell]);
        }
        printf(": ");
        print_reason(reason);
    }
    return EXIT_SUCCESS;
}
