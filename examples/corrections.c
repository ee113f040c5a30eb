/* Rounds a correction sheet of three shelf zones by four carton kinds, and prints it before and after. The stock was counted in quarters of a carton, since
 * opened cartons count too, and only whole cartons are booked. It fails if the rounding is not the one that is found here by trying arrays in their order. */
#include "lufodimi.h"

#include <stdbool.h>
#include <stdio.h>
#include <stdlib.h>

enum { ZONES = 3, KINDS = 4, CELLS = ZONES * KINDS, DENOMINATOR = 4 };

/* Last, the names of the totals. */
static const char *const zones[ZONES + 1] = {"front", "middle", "cold", "together"};
static const char *const kinds[KINDS + 1] = {"tablets", "ampoules", "insulin", "infusions", "together"};

/* The sheet, a zone a line: -6 is one carton and a half too few. */
static const int32_t sheet[CELLS] = {
    -6, 1, 0, -3,
    2, -3, -2, 4,
    0, -5, -10, 1,
};

/* Ends the program if a call was refused. */
static void expect_done(const char *call, uint32_t answer)
{
    if (answer != LUFODIMI_DONE) {
        fprintf(stderr, "%s: refused %u\n", call, (unsigned)answer);
        exit(EXIT_FAILURE);
    }
}

/* Ends the program if something is not as found here. */
static void expect(const char *what, bool as_found)
{
    if (!as_found) {
        fprintf(stderr, "%s: not as found by trying\n", what);
        exit(EXIT_FAILURE);
    }
}

/* The entry of a zone and a kind; ZONES stands for all zones together, and KINDS for all kinds. */
static int32_t entry_of(const int32_t cells[CELLS], int zone, int kind)
{
    int32_t sum = 0;
    for (int cell = 0; cell < CELLS; cell++) {
        if ((zone == ZONES || zone == cell / KINDS) && (kind == KINDS || kind == cell % KINDS)) {
            sum += cells[cell];
        }
    }
    return sum;
}

/* Whether each entry of an array is the sheet's rounded down or up: it is less than one carton off, and so a whole one stays. */
static bool is_rounding(const int32_t counts[CELLS])
{
    for (int zone = 0; zone <= ZONES; zone++) {
        for (int kind = 0; kind <= KINDS; kind++) {
            if (abs(entry_of(counts, zone, kind) * DENOMINATOR - entry_of(sheet, zone, kind)) >= DENOMINATOR) {
                return false;
            }
        }
    }
    return true;
}

/* A cell over the denominator, rounded down, which is towards minus infinity. C rounds a quotient towards 0. */
static int32_t rounded_down(int32_t cell)
{
    return cell / DENOMINATOR - (cell % DENOMINATOR < 0 ? 1 : 0);
}

/* Finds the first rounding. A bit for each cell, the highest for the first, tells whether it is one more than rounded down: numbers in their order are then
 * arrays in theirs. */
static void find_first(int32_t counts[CELLS])
{
    for (uint32_t bits = 0; bits < UINT32_C(1) << CELLS; bits++) {
        for (int cell = 0; cell < CELLS; cell++) {
            counts[cell] = rounded_down(sheet[cell]) + (int32_t)(bits >> (CELLS - 1 - cell) & 1);
        }
        if (is_rounding(counts)) {
            return;
        }
    }
    expect("a rounding", false);
}

/* Prints cells over a denominator under a heading, a zone a line, with their totals. */
static void print_cells(const char *heading, const int32_t cells[CELLS], int denominator, int decimals)
{
    printf("%-8s", heading);
    for (int kind = 0; kind <= KINDS; kind++) {
        printf(" %9s", kinds[kind]);
    }
    printf("\n");
    for (int zone = 0; zone <= ZONES; zone++) {
        printf("%-8s", zones[zone]);
        for (int kind = 0; kind <= KINDS; kind++) {
            printf(" %9.*f", decimals, (double)entry_of(cells, zone, kind) / denominator);
        }
        printf("\n");
    }
}

int main(void)
{
    int16_t counts[CELLS] = {0};
    expect_done("round_signed", lufodimi_round_signed(ZONES, KINDS, DENOMINATOR, sheet, CELLS, counts, CELLS));

    int32_t first[CELLS] = {0}, booked[CELLS] = {0};
    find_first(first);
    for (int cell = 0; cell < CELLS; cell++) {
        booked[cell] = counts[cell];
        expect("the first rounding", booked[cell] == first[cell]);
    }

    print_cells("off by", sheet, DENOMINATOR, 2);
    printf("\n");
    print_cells("to book", booked, 1, 0);
    return EXIT_SUCCESS;
}
