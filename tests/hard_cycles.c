// r at its edges and far off, the cycles with every room, and which of two faults is told where one of them is about r or the call
// is for cycles or a ring fetch.
#include <string.h>

#include "hard.h"

static const uint32_t no_cycles[] = {0, 9, 256, 257, 264, 65536, 65537, 1u << 31, UINT32_MAX};
enum { NO_CYCLES = sizeof no_cycles / sizeof *no_cycles };

// The cross under its plan in a picture whose sides are those of a ring; nothing refuses a call.
static void sound(struct input *x) {
    cross(x);
    x->a = 5, x->b = 2, x->d = 1, x->w = 10, x->h = 10, x->limit = 1024;
    x->i = x->j = 4;
    x->v[0] = 5, x->v[2] = 2, x->v[3] = 1;
    just_enough(x);
    x->fetch_room = x->cycles_room = 5;
    eight_calls(x, 3, 2);
}

// Every call that takes r gives this number. A list is carried out whatever r is; its fetches are asked as single calls.
static void every_r_call(struct input *x, uint64_t number) {
    const enum which takes[] = {FIND, CHECK, WRITE_CYCLES, FETCH, RING_FETCH, FIND_AND_RUN};
    for (int k = 0; k < 6; k++) try_told(takes[k], x, number, 0);
    try_told(RUN_LIST, x, 0, 0);
}

static void every_r(struct input *x) {
    sound(x);
    for (x->r = 1; x->r <= 8; x->r++) every_r_call(x, 0);
    for (int k = 0; k < NO_CYCLES; k++) {
        x->r = no_cycles[k];
        every_r_call(x, 20);
    }
}

// The cross in one, two, three and five banks: 10 where a bank has more than r of its pixels, else 16 until there is room.
static void every_room(struct input *x) {
    const uint32_t plans[][4] = {{1, 0, 1, 5}, {2, 0, 1, 3}, {3, 1, 1, 2}, {5, 2, 1, 1}}; // a, b, d, and the most in a bank
    sound(x);
    for (int k = 0; k < 4; k++) {
        x->a = plans[k][0], x->b = plans[k][1], x->d = plans[k][2];
        just_enough(x);
        for (x->r = 1; x->r <= 8; x->r++)
            for (x->cycles_room = 0; x->cycles_room <= 7; x->cycles_room++) {
                uint64_t number = plans[k][3] > x->r ? 10 : x->cycles_room < 5 ? 16 : 0;
                x->fetch_room = x->cycles_room;
                try_told(WRITE_CYCLES, x, number, 0);
                try_told(FETCH, x, number, 0);
                try_told(RUN_LIST, x, 0, 0);
            }
    }
}

// Breaks one condition of a sound input.
static void break_one(struct input *x, uint64_t number) {
    switch (number) {
    case 2: x->used[0] = 65; break;
    case 3: x->rows[1] = -17; break; // this pixel and that of 4 are lower than the one before, too
    case 4: x->columns[3] = x->columns[1], x->rows[3] = x->rows[1]; break;
    case 19: x->columns[4] = 15, x->rows[4] = -1; break;
    case 6: x->limit = 1025; break;
    case 7: x->limit = 4; break;
    case 20: x->r = 9; break;
    case 8: memset(x->v, 0, sizeof x->v); break;
    case 11: x->b = x->a; break;
    case 12: x->w = 0; break;
    case 13: x->words = 3; break;
    case 17: x->n = 1; break;
    case 10: x->a = 2, x->b = 0; break;
    case 18: x->w = 9; break; // 2 and 5 do not divide it
    default: x->cycles_room = x->fetch_room = 4;
    }
}

// Two faults, of which the first is told.
static void two_faults(struct input *x, enum which c, uint64_t first, uint64_t second) {
    sound(x);
    break_one(x, second);
    break_one(x, first);
    try_told(c, x, first, 0);
}

static void every_two(struct input *x) {
    const uint64_t cycles[] = {2, 3, 4, 19, 20, 11, 17, 10, 16}, behind[] = {11, 12, 13, 17};
    const uint64_t ring[] = {2, 3, 4, 19, 20, 11, 12, 13, 17, 10, 18, 16};
    two_faults(x, FIND, 19, 6);
    two_faults(x, FIND, 6, 20);
    two_faults(x, FIND, 20, 7);
    two_faults(x, FIND_AND_RUN, 6, 20);
    two_faults(x, FIND_AND_RUN, 20, 7);
    two_faults(x, CHECK, 19, 20);
    two_faults(x, CHECK, 20, 8);
    for (int k = 0; k < 4; k++) two_faults(x, FETCH, 20, behind[k]);
    two_faults(x, FETCH, 19, 20);
    // the neighbours, and those farther apart
    for (int k = 0; k < 9; k++)
        for (int m = k + 1; m < 9; m++) two_faults(x, WRITE_CYCLES, cycles[k], cycles[m]);
    for (int k = 0; k < 12; k++)
        for (int m = k + 1; m < 12; m++) two_faults(x, RING_FETCH, ring[k], ring[m]);
}

void every_cycle(struct input *x) {
    every_r(x);
    every_room(x);
    every_two(x);
}
