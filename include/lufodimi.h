/* Controlled selection: roundings, walks, pooled tables, plans, draws, campaigns and variances. For x86-64 and the C ABI of its systems.
 *
 * A table has rows and columns of cells, whole numbers in row order, over one denominator: a cell over the denominator is the count
 * expected there. A plan is a list of whole-number arrays, one count a cell, with weights that add up to the denominator. Draw numbers
 * run from 0 to the denominator minus 1, and each belongs to one array. The chances of a plan hold only if the draw number is drawn
 * evenly at random, in a campaign evenly among the numbers that are not taken yet in this round; the caller makes the random numbers.
 *
 * A correction sheet is a table whose cells may be negative. Only lufodimi_round_signed takes one; it has no plan. In every other call a
 * negative cell, handed over as its bits, is above every bound and refused (4).
 *
 * Every call checks what it is lent. It returns LUFODIMI_DONE, lufodimi_plan the plan's length, and lufodimi_walk_next LUFODIMI_LAST where
 * a walk is at its end; or the number of the first refusal that applies: a call's comment lists its refusals in the order in which they
 * are tested. A refusal changes no buffer.
 *
 * What a call is lent:
 * - A length counts elements, not bytes. A pointer is never null, not even with length 0, and is aligned for its elements.
 * - Lent memory holds values, whichever: initialise a buffer before it is lent, even one that a call only writes.
 * - A buffer that a call writes overlaps no other buffer of that call; the record counts as such a buffer.
 * - A result stands at the start of its buffer, and what lies beyond it is not touched.
 * - Lend a campaign's record, its bits and its tally to each draw as the call before left them; to go on later, keep all three and lend
 *   them again. A draw refuses a record that does not fit the plan (9): a spare bit of the last byte is set, the count is not that of the
 *   set bits, the rounds are above LUFODIMI_MOST_ROUNDS, no number is free, a number is taken after the last round, or the tally is not
 *   the rounds times the table plus the arrays of the numbers taken in this round. A draw of 0 on a copy of the record tells whether it
 *   fits: it returns 0, 10 or 13.
 * - A refused start or draw leaves the record as it was. The record has to be writable in any case.
 *
 * No call keeps a pointer, none uses a heap, none has a state of its own, so calls may run at the same time on different buffers.
 * Planning needs about 60 KB of stack, variances about 55 KB, every other call less than 10 KB.
 */
#ifndef LUFODIMI_H
#define LUFODIMI_H

#include <stddef.h>
#include <stdint.h>

#ifdef __cplusplus
extern "C" {
#endif

/* The version of this header: 10000 for each major, 100 for each minor. */
#define LUFODIMI_VERSION 100

/* The most rows and columns, and the largest denominator. */
#define LUFODIMI_MOST_ROWS 12
#define LUFODIMI_MOST_COLUMNS 12
#define LUFODIMI_LARGEST_DENOMINATOR 65535

/* The most rows and columns of a table that is walked through. */
#define LUFODIMI_MOST_WALK_ROWS 4
#define LUFODIMI_MOST_WALK_COLUMNS 4

/* How many rounds a campaign has. */
#define LUFODIMI_MOST_ROUNDS 1000

/* The shortest and the longest stored plan, in bytes. */
#define LUFODIMI_SHORTEST_PLAN 30
#define LUFODIMI_LONGEST_PLAN 50912

/* How many numbers lufodimi_sizes writes. */
#define LUFODIMI_SIZES 4

/* How many numbers lufodimi_reason writes. */
#define LUFODIMI_REASON 4

/* How many numbers lufodimi_variances writes. */
#define LUFODIMI_VARIANCES 3

/* What a call returns, but for the length of a plan. */
enum lufodimi_answer {
    LUFODIMI_DONE = 0,
    LUFODIMI_SIZE = 1,          /* rows or columns not from 1 to 12 */
    LUFODIMI_DENOMINATOR = 2,   /* denominator not from 1 to 65,535 */
    LUFODIMI_CELL_COUNT = 3,    /* the cells are not rows times columns many */
    LUFODIMI_LARGE_CELL = 4,    /* a cell above 1000 times the denominator, or a correction below -1000 times it */
    LUFODIMI_LAYOUT = 5,        /* the stored plan's form, zero field, rows, columns, arrays, denominator, an offset or the length wrong */
    LUFODIMI_CONTENT = 6,       /* another condition of opening unmet: a cell, a weight or a count, or what they add up to */
    LUFODIMI_BUFFER = 7,        /* a lent buffer shorter than its result or record */
    LUFODIMI_NUMBER = 8,        /* draw number not below the denominator */
    LUFODIMI_RECORD = 9,        /* the record does not fit the plan */
    LUFODIMI_TAKEN = 10,        /* the number is taken in this round */
    LUFODIMI_MULTIPLE = 11,     /* the least common multiple of the two denominators is above 65,535 */
    LUFODIMI_POOLED_CELL = 12,  /* a pooled cell is above 1000 times the multiple */
    LUFODIMI_ROUNDS = 13,       /* the 1,000 rounds of the campaign are done */
    LUFODIMI_ARRAY = 14,        /* the plan has no array of that number */
    LUFODIMI_WALK_SIZE = 15,    /* rows or columns above 4, of a table that is walked through */
    LUFODIMI_NOT_ROUNDING = 16, /* the array is no controlled rounding of the table, or has another length */
    LUFODIMI_LAST = 255         /* no refusal: the array was the last of the walk */
};

/* The kind of an entry, the first number that lufodimi_reason writes. */
enum lufodimi_entry {
    LUFODIMI_CELL = 1,
    LUFODIMI_ROW_TOTAL = 2,
    LUFODIMI_COLUMN_TOTAL = 3,
    LUFODIMI_GRAND_TOTAL = 4
};

/* How an entry was rounded, the last number that lufodimi_reason writes. */
enum lufodimi_direction {
    LUFODIMI_ALL_WHOLE = 0, /* this entry and all others are whole */
    LUFODIMI_DOWN = 1,
    LUFODIMI_UP = 2
};

/* The part of a campaign record that is no buffer: how many numbers are taken in this round, and how many rounds are completed. */
struct lufodimi_record {
    uint32_t taken;
    uint16_t rounds;
};

/* Writes the first controlled rounding of a table: rows times columns counts, in row order. Refusals 1, 2, 3, 4, 7. */
uint32_t lufodimi_round(uint32_t rows, uint32_t columns, uint32_t denominator,
                        const uint32_t *cells, size_t cells_length,
                        uint16_t *counts, size_t counts_length);

/* Writes the first controlled rounding of a correction sheet, whose cells are from -1000 to 1000 times the denominator: rows times
 * columns counts, which may be negative, in row order. Each cell, row total, column total and the grand total is rounded down or up, and
 * a whole one stays. Down is towards minus infinity: -1 over 2 lies between -1 and 0. First is the one with the smaller count at the first
 * cell where two differ, so that -1 goes before 0. Where no cell is negative, the counts are those of lufodimi_round. Refusals 1, 2, 3, 4,
 * 7. */
uint32_t lufodimi_round_signed(uint32_t rows, uint32_t columns, uint32_t denominator,
                               const int32_t *cells, size_t cells_length,
                               int16_t *counts, size_t counts_length);

/* Begins a walk through all controlled roundings of a table of up to LUFODIMI_MOST_WALK_ROWS by LUFODIMI_MOST_WALK_COLUMNS: writes the
 * first, just as lufodimi_round does. A controlled rounding has each cell, row total, column total and the grand total at the table's over
 * the denominator, rounded down or up, and a whole one stays. Refusals 1, 15, 2, 3, 4, 7. */
uint32_t lufodimi_walk_first(uint32_t rows, uint32_t columns, uint32_t denominator,
                             const uint32_t *cells, size_t cells_length,
                             uint16_t *counts, size_t counts_length);

/* Goes on with the walk: takes a controlled rounding of the table, writes the one after it to another buffer and returns LUFODIMI_DONE, or
 * returns LUFODIMI_LAST where it is the last and writes nothing. They stand in the order of the smaller count at the first cell, in row
 * order, where two differ. Begun with lufodimi_walk_first, and handed each time the array that was written last, the walk comes to each
 * controlled rounding of the table exactly once, and to nothing else; it may as well begin at any of them. Refusals 1, 15, 2, 3, 4, 16, 7,
 * and 7 at the last array too. */
uint32_t lufodimi_walk_next(uint32_t rows, uint32_t columns, uint32_t denominator,
                            const uint32_t *cells, size_t cells_length,
                            const uint16_t *array, size_t array_length,
                            uint16_t *counts, size_t counts_length);

/* Pools two tables of the same rows and columns: writes the least common multiple of their denominators, one number, and the cells over
 * it, rows times columns numbers, in row order, each exactly the sum of the two expected counts. Refusals 1, 2, 3, 4, 11, 12, 7; 2, 3 and
 * 4 apply if they apply to either table. */
uint32_t lufodimi_pool(uint32_t rows, uint32_t columns,
                       uint32_t first_denominator, const uint32_t *first, size_t first_length,
                       uint32_t second_denominator, const uint32_t *second, size_t second_length,
                       uint32_t *denominator, size_t denominator_length, uint32_t *cells, size_t cells_length);

/* Writes the stored plan of a table and returns its length, LUFODIMI_SHORTEST_PLAN or more; a lower number is a refusal: 1, 2, 3, 4, 7.
 * A buffer of LUFODIMI_LONGEST_PLAN bytes is enough for every table, and one of just the plan's length for this one. */
uint32_t lufodimi_plan(uint32_t rows, uint32_t columns, uint32_t denominator,
                       const uint32_t *cells, size_t cells_length,
                       uint8_t *plan, size_t plan_length);

/* Tells which entry set the weight of an array of a table's plan; arrays are counted from 1. When planning comes to an array, each entry of
 * what is left, cell or total, bears some weight of it before it leaves its bounds, its limit, and the smallest limit is the weight. Writes
 * LUFODIMI_REASON numbers about the first entry whose limit is the weight, cells in row order first, then row totals, column totals and the
 * grand total: its kind, its row and its column from 1, 0 where the kind has none, and its direction. For the last array, and for no other,
 * all entries are whole: LUFODIMI_CELL, 1, 1, LUFODIMI_ALL_WHOLE. Refusals 1, 2, 3, 4, 14, 7. */
uint32_t lufodimi_reason(uint32_t rows, uint32_t columns, uint32_t denominator,
                         const uint32_t *cells, size_t cells_length, uint32_t array,
                         uint32_t *reply, size_t reply_length);

/* Opens a stored plan, whoever made it; its length is just the plan's. It opens if form, zero field, sizes, offsets and length are right,
 * else 5; and if each cell is at most 1000 times the denominator, each weight is at least 1, the weights add up to the denominator, each
 * array's cells, row totals, column totals and grand total are the table's over the denominator, rounded down or up, and the weighted arrays
 * add up to the table, else 6. It writes nothing. Refusals 5, 6. */
uint32_t lufodimi_open(const uint8_t *plan, size_t plan_length);

/* Writes the sizes of a plan, LUFODIMI_SIZES numbers: rows, columns, arrays, denominator. Refusals 5, 6, 7. */
uint32_t lufodimi_sizes(const uint8_t *plan, size_t plan_length, uint32_t *sizes, size_t sizes_length);

/* Writes the cells of a plan's table: rows times columns numbers, in row order. Refusals 5, 6, 7. */
uint32_t lufodimi_cells(const uint8_t *plan, size_t plan_length, uint32_t *cells, size_t cells_length);

/* Writes one of a plan's arrays, which are counted from 1: its weight, one number, and rows times columns counts, in row order. Refusals 5,
 * 6, 14, 7. */
uint32_t lufodimi_array(const uint8_t *plan, size_t plan_length, uint32_t array,
                        uint32_t *weight, size_t weight_length, uint16_t *counts, size_t counts_length);

/* Writes the array that belongs to a draw number: rows times columns counts, in row order. Refusals 5, 6, 7, 8. */
uint32_t lufodimi_draw(const uint8_t *plan, size_t plan_length, uint32_t number,
                       uint16_t *counts, size_t counts_length);

/* Writes how much a plan's cells vary, exactly: LUFODIMI_VARIANCES numerators over the squared denominator, which are the sum of all cell
 * variances, the smallest and then the largest covariance of two different cells; the last two are 0 and 0 for a plan of one cell. The
 * numerator of the covariance of two cells is the denominator times the weighted sum of the products of their counts, minus the product of
 * their table cells, and it is negative if one tends to replace the other; a cell's variance is its covariance with itself. Refusals 5, 6,
 * 7. */
uint32_t lufodimi_variances(const uint8_t *plan, size_t plan_length, int64_t *numerators, size_t numerators_length);

/* Starts a campaign, whatever the record held: sets to zero the count, the rounds, (denominator + 7) / 8 bytes of bits, one bit for each
 * draw number, and rows times columns numbers of the tally, one for each cell. Refusals 5, 6, 7. */
uint32_t lufodimi_start(const uint8_t *plan, size_t plan_length, struct lufodimi_record *record,
                        uint8_t *bits, size_t bits_length, uint64_t *tally, size_t tally_length);

/* Takes a number: writes its array, rows times columns counts, adds it to the tally, sets its bit (bit number mod 8, the lowest first, of
 * byte number / 8) and counts it. The last free number completes the round: one is added to the rounds, and the count and the
 * (denominator + 7) / 8 bytes of bits are set to zero, so that the next round begins with all numbers free; the tally goes on. The count
 * is thus never the denominator. After LUFODIMI_MOST_ROUNDS rounds no number is taken any more (13). Bits and tally need what a start
 * sets. Refusals 5, 6, 7, 8, 9, 13, 10. */
uint32_t lufodimi_campaign_draw(const uint8_t *plan, size_t plan_length, uint32_t number, struct lufodimi_record *record,
                                uint8_t *bits, size_t bits_length, uint64_t *tally, size_t tally_length,
                                uint16_t *counts, size_t counts_length);

#ifdef __cplusplus
}
#endif

#endif
