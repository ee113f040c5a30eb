/* How much stack the calls use, each on a stack of its own that was filled before: prints those that use more than the header says. */
#define _XOPEN_SOURCE 700
#include "lufodimi.h"
#include <stdio.h>
#include <stdlib.h>
#include <string.h>
#include <ucontext.h>

enum { ROOM = 1 << 18, FILL = 0xA7, SMALL = 10000, PLANNING = 60000, VARIANCES = 55000 };

static uint32_t cells[144], others[144], pooled[144], numbers[144], length, taken;
static int32_t corrections[144];
static uint16_t counts[144], next[144];
static int16_t signed_counts[144];
static int64_t numerators[3];
static uint64_t tally[144];
static uint8_t plan[LUFODIMI_LONGEST_PLAN], bits[8192];
static struct lufodimi_record record;

static uint32_t plans(void) { return (length = lufodimi_plan(12, 12, 65535, cells, 144, plan, sizeof plan)) < LUFODIMI_SHORTEST_PLAN; }
static uint32_t reasons(void) { return lufodimi_reason(12, 12, 65535, cells, 144, 100, numbers, 4); }
static uint32_t rounds(void) { return lufodimi_round(12, 12, 65535, cells, 144, counts, 144); }
static uint32_t corrects(void) { return lufodimi_round_signed(12, 12, 65535, corrections, 144, signed_counts, 144); }
static uint32_t begins(void) { return lufodimi_walk_first(4, 4, 65535, cells, 16, counts, 16); }
static uint32_t goes_on(void) { return lufodimi_walk_next(4, 4, 65535, cells, 16, counts, 16, next, 16); }
static uint32_t pools(void) { return lufodimi_pool(12, 12, 255, others, 144, 257, others, 144, numbers, 1, pooled, 144); }
static uint32_t opens(void) { return lufodimi_open(plan, length); }
static uint32_t sizes(void) { return lufodimi_sizes(plan, length, numbers, 4); }
static uint32_t reads(void) { return lufodimi_cells(plan, length, numbers, 144); }
static uint32_t arrays(void) { return lufodimi_array(plan, length, 3, numbers, 1, counts, 144); }
static uint32_t draws(void) { return lufodimi_draw(plan, length, 3000, counts, 144); }
static uint32_t varies(void) { return lufodimi_variances(plan, length, numerators, 3); }
static uint32_t starts(void) { return lufodimi_start(plan, length, &record, bits, sizeof bits, tally, 144); }
static uint32_t takes(void) { return lufodimi_campaign_draw(plan, length, taken++, &record, bits, sizeof bits, tally, 144, counts, 144); }
static uint32_t nothing(void) { return 0; }

static uint32_t (*call)(void), answer;
static unsigned char *room;
static void run(void) { answer = call(); }

/* The bytes that a call changed, from the end of its stack to the last one that differs. It was called before, so that the C library is at hand. */
static size_t used(uint32_t (*function)(void)) {
    ucontext_t back, there;
    size_t kept = 0;
    answer = function();
    memset(room, FILL, ROOM);
    call = function;
    if (getcontext(&there) != 0) exit(2);
    there.uc_stack.ss_sp = room;
    there.uc_stack.ss_size = ROOM;
    there.uc_link = &back;
    makecontext(&there, run, 0);
    if (swapcontext(&back, &there) != 0) exit(2);
    while (kept < ROOM && room[kept] == FILL) kept++;
    return ROOM - kept;
}

int main(void) {
    static const struct { const char *name; uint32_t (*function)(void); size_t most; } calls[] = {
        {"plan", plans, PLANNING}, {"reason", reasons, SMALL}, {"round", rounds, SMALL}, {"round_signed", corrects, SMALL},
        {"walk_first", begins, SMALL}, {"walk_next", goes_on, SMALL}, {"pool", pools, SMALL}, {"open", opens, SMALL},
        {"sizes", sizes, SMALL}, {"cells", reads, SMALL}, {"array", arrays, SMALL}, {"draw", draws, SMALL},
        {"variances", varies, VARIANCES}, {"start", starts, SMALL}, {"campaign_draw", takes, SMALL}};
    uint32_t seed = 1;
    size_t i, before;
    int good = 1;
    for (i = 0; i < 144; i++) {
        seed = seed * 1103515245u + 12345u;
        cells[i] = (seed >> 8) % 65535;
        others[i] = cells[i] % 255;
        corrections[i] = i % 2 ? (int32_t)cells[i] : -(int32_t)cells[i];
    }
    room = malloc(ROOM);
    if (room == NULL) return 2;
    before = used(nothing);
    for (i = 0; i < sizeof calls / sizeof calls[0]; i++) {
        size_t bytes = used(calls[i].function) - before;
        if (answer != 0 || bytes >= calls[i].most) {
            printf("%s: answer %u, %zu bytes of stack\n", calls[i].name, (unsigned)answer, bytes);
            good = 0;
        }
    }
    free(room);
    return !good;
}
