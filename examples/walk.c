/* Walks through all controlled roundings of a table of three by three, Jessen's of 1970, and prints them side by side: the arrays that a draw could give. Below
 * each stands by how much a count of it is off at most, and how many of the ten draw numbers it has in the table's plan. It fails if the arrays are not those
 * that are found here by trying all. */
#include "lufodimi.h"

#include <stdbool.h>
#include <stdio.h>
#include <stdlib.h>
#include <string.h>

enum { ROWS = 3, COLUMNS = 3, CELLS = ROWS * COLUMNS, DENOMINATOR = 10, MOST_ARRAYS = 1 << CELLS };

/* The table: 8 is an expected count of 0.8. Each row and each column expects 2. */
static const uint32_t cells[CELLS] = {
    8, 5, 7,
    7, 8, 5,
    5, 7, 8,
};

/* How many arrays were found, and their counts. */
static int arrays;
static uint16_t counts[MOST_ARRAYS][CELLS];

/* Ends the program if a call was refused. */
static void expect_done(const char *call, uint32_t answer)
{
    if (answer != LUFODIMI_DONE) {
        fprintf(stderr, "%s: refused %u\n", call, (unsigned)answer);
        exit(EXIT_FAILURE);
    }
}

/* Ends the program if something is not as found here. */
static void expect(const char *what, bool as_found)
{
    if (!as_found) {
        fprintf(stderr, "%s: not as found by trying\n", what);
        exit(EXIT_FAILURE);
    }
}

/* Begins with the first array, and goes on from each to the next until one is the last. */
static void walk(void)
{
    expect_done("walk_first", lufodimi_walk_first(ROWS, COLUMNS, DENOMINATOR, cells, CELLS, counts[0], CELLS));
    for (arrays = 1; arrays < MOST_ARRAYS; arrays++) {
        const uint16_t *array = counts[arrays - 1];
        const uint32_t answer = lufodimi_walk_next(ROWS, COLUMNS, DENOMINATOR, cells, CELLS, array, CELLS, counts[arrays], CELLS);
        if (answer == LUFODIMI_LAST) {
            return;
        }
        expect_done("walk_next", answer);
    }
    expect("the end of the walk", false);
}

/* Whether a sum of counts is that of the same cells over the denominator, rounded down or up: it is less than one off, and so a whole one stays. */
static bool rounds(uint32_t count, uint32_t entry)
{
    return abs((int)count * DENOMINATOR - (int)entry) < DENOMINATOR;
}

/* Whether an array is a controlled rounding. With ROWS for the row or COLUMNS for the column, an entry is the total over all of them. */
static bool is_rounding(const uint16_t array[CELLS])
{
    for (int row = 0; row <= ROWS; row++) {
        for (int column = 0; column <= COLUMNS; column++) {
            uint32_t count = 0, entry = 0;
            for (int cell = 0; cell < CELLS; cell++) {
                if ((row == ROWS || row == cell / COLUMNS) && (column == COLUMNS || column == cell % COLUMNS)) {
                    count += array[cell];
                    entry += cells[cell];
                }
            }
            if (!rounds(count, entry)) {
                return false;
            }
        }
    }
    return true;
}

/* Tries all arrays of 0 and 1, since no cell expects more than 1. A bit for each cell, the highest for the first, is its count: numbers in their order are
 * then arrays in theirs. */
static void check(void)
{
    int found = 0;
    for (uint32_t bits = 0; bits < UINT32_C(1) << CELLS; bits++) {
        uint16_t array[CELLS];
        for (int cell = 0; cell < CELLS; cell++) {
            array[cell] = bits >> (CELLS - 1 - cell) & 1;
        }
        if (is_rounding(array)) {
            expect("an array", found < arrays && memcmp(counts[found], array, sizeof array) == 0);
            found++;
        }
    }
    expect("the number of arrays", found == arrays);
}

/* The largest difference of a count from its expected count, times the denominator. */
static int largest_difference(const uint16_t array[CELLS])
{
    int largest = 0;
    for (int cell = 0; cell < CELLS; cell++) {
        const int difference = abs(array[cell] * DENOMINATOR - (int)cells[cell]);
        largest = difference > largest ? difference : largest;
    }
    return largest;
}

/* Finds the weight of each array in the plan of the table, by drawing every number; an array that is not in the plan has the weight 0. */
static void find_weights(int weights[MOST_ARRAYS])
{
    static uint8_t plan[LUFODIMI_LONGEST_PLAN] = {0};
    const uint32_t length = lufodimi_plan(ROWS, COLUMNS, DENOMINATOR, cells, CELLS, plan, sizeof plan);
    if (length < LUFODIMI_SHORTEST_PLAN) {
        expect_done("plan", length);
    }
    for (uint32_t number = 0; number < DENOMINATOR; number++) {
        uint16_t drawn[CELLS] = {0};
        expect_done("draw", lufodimi_draw(plan, length, number, drawn, CELLS));
        int array = 0;
        while (array < arrays && memcmp(counts[array], drawn, sizeof drawn) != 0) {
            array++;
        }
        expect("a drawn array", array < arrays);
        weights[array]++;
    }
}

int main(void)
{
    static int weights[MOST_ARRAYS] = {0};
    walk();
    check();
    find_weights(weights);

    printf("%-18s", "expected");
    for (int array = 0; array < arrays; array++) {
        printf("   array %d", array + 1);
    }
    for (int row = 0; row < ROWS; row++) {
        printf("\n");
        for (int column = 0; column < COLUMNS; column++) {
            printf("%-6.1f", (double)cells[row * COLUMNS + column] / DENOMINATOR);
        }
        for (int array = 0; array < arrays; array++) {
            printf("    ");
            for (int column = 0; column < COLUMNS; column++) {
                printf(" %u", (unsigned)counts[array][row * COLUMNS + column]);
            }
        }
    }
    printf("\n%-18s", "largest difference");
    for (int array = 0; array < arrays; array++) {
        printf("%10.1f", (double)largest_difference(counts[array]) / DENOMINATOR);
    }
    printf("\n%-18s", "weight in the plan");
    for (int array = 0; array < arrays; array++) {
        printf("%10d", weights[array]);
    }
    printf("\n");
    return EXIT_SUCCESS;
}
