// The sums of the banks (Card 6 of document 02): the edges of 13, which of two faults is told, and sums that pass 0 and 2^64. Where
// there are just N entries, nobody may touch what stands behind them.
#include <string.h>

#include "hard.h"

static const uint32_t plans[][3] = {{1, 0, 1}, {2, 1, 1}, {5, 2, 1}, {3, 2, 4}, {1024, 1023, 1}, {1, 0, 1024}, {32, 31, 32}};
enum { PLANS = sizeof plans / sizeof *plans };
static const enum which with_sums[] = {STORE, CLEAR, MAKE_SUMS, READ_SUM}, without[] = {LOAD, SUM, FETCH};

// One pixel, (0, -1), which every plan suits, and a picture with just what it needs; nothing refuses a call.
static void sound(struct input *x, const uint32_t plan[3]) {
    cross(x);
    x->used[0] = x->fetch_room = 1;
    x->a = plan[0], x->b = plan[1], x->d = plan[2], x->w = 7, x->h = 4, x->limit = 1024;
    x->i = 6, x->j = 3, x->word = 65535;
    x->bank = x->a * x->d - 1;
    just_enough(x);
    eight_calls(x, 6, 3);
}

// No entry, one less than there are banks, just as many, and more. A call that is not lent the sums does not ask for them.
static void every_entry(struct input *x, const uint32_t plan[3]) {
    sound(x, plan);
    size_t banks = banks_of(x), counts[] = {0, banks / 2, banks - 1, banks, banks + 1, banks + 9};
    for (int k = 0; k < 6; k++) {
        x->entries = counts[k];
        for (int m = 0; m < 4; m++) try_told(with_sums[m], x, x->entries < banks ? 13 : 0, 0);
        for (int m = 0; m < 3; m++) try_told(without[m], x, 0, 0);
        try_told(RUN_LIST, x, 0, 0);
        try_told(FIND_AND_RUN, x, 0, 0);
        x->bank = banks; // past the banks, though it may be an entry
        try_told(CLEAR, x, x->entries < banks ? 13 : 15, 0);
        try_told(READ_SUM, x, x->entries < banks ? 13 : 15, 0);
        try_told(SUM, x, 15, 0);
        x->bank = banks - 1;
    }
}

enum fault { NONE, PLAN, SIDES, FEW_WORDS, FEW_ENTRIES, PIXEL, CELL };

static void break_one(struct input *x, enum fault fault) {
    switch (fault) {
    case PLAN: x->b = x->a; break;
    case SIDES: x->h = 4097; break;
    case FEW_WORDS: x->words--; break;
    case FEW_ENTRIES: x->entries--; break;
    case PIXEL: x->i = -1; break;
    case CELL: x->bank++; break;
    case NONE: break;
    }
}

// Two faults and the number that is told. A call that reads a sum goes by no sides and no memory.
static const struct {
    enum which call;
    enum fault first, second;
    uint64_t number;
} rows[] = {
    {STORE, PLAN, FEW_ENTRIES, 11},          {STORE, SIDES, FEW_ENTRIES, 12},
    {STORE, FEW_WORDS, FEW_ENTRIES, 13},     {STORE, FEW_ENTRIES, PIXEL, 13},
    {STORE, FEW_WORDS, PIXEL, 13},           {STORE, PIXEL, CELL, 14},
    {CLEAR, PLAN, FEW_ENTRIES, 11},          {CLEAR, SIDES, FEW_ENTRIES, 12},
    {CLEAR, FEW_WORDS, FEW_ENTRIES, 13},     {CLEAR, FEW_ENTRIES, CELL, 13},
    {CLEAR, FEW_WORDS, CELL, 13},            {CLEAR, CELL, PIXEL, 15},
    {MAKE_SUMS, PLAN, FEW_ENTRIES, 11},      {MAKE_SUMS, SIDES, FEW_ENTRIES, 12},
    {MAKE_SUMS, FEW_WORDS, FEW_ENTRIES, 13}, {MAKE_SUMS, FEW_ENTRIES, CELL, 13},
    {MAKE_SUMS, FEW_WORDS, CELL, 13},        {MAKE_SUMS, PIXEL, CELL, 0},
    {READ_SUM, PLAN, FEW_ENTRIES, 11},       {READ_SUM, PLAN, CELL, 11},
    {READ_SUM, FEW_ENTRIES, CELL, 13},       {READ_SUM, FEW_ENTRIES, SIDES, 13},
    {READ_SUM, CELL, SIDES, 15},             {READ_SUM, CELL, FEW_WORDS, 15},
    {READ_SUM, SIDES, FEW_WORDS, 0},         {READ_SUM, CELL, NONE, 15},
};

static void every_two(struct input *x, const uint32_t plan[3]) {
    for (size_t k = 0; k < sizeof rows / sizeof *rows; k++) {
        sound(x, plan);
        break_one(x, rows[k].first);
        break_one(x, rows[k].second);
        try_told(rows[k].call, x, rows[k].number, 0);
        try_told(RUN_LIST, x, 0, 0);
    }
}

// Words at every pixel, and every bank, or many: the sums begin near 0, near 2^64 and far from both, so that some pass the one or
// the other.
static void every_store(struct input *x, const uint32_t plan[3]) {
    const uint16_t words[] = {0, 1, 40000, 65535};
    sound(x, plan);
    for (int k = 0; k < 28 * 4; k++) {
        x->i = (int16_t)(k % 7), x->j = (int16_t)(k / 7 % 4), x->word = words[k / 28];
        try_told(STORE, x, 0, 0);
    }
    for (x->bank = 0; x->bank < banks_of(x); x->bank += 1 + x->bank / 16) {
        try_told(CLEAR, x, 0, 0);
        try_told(READ_SUM, x, 0, 0);
        try_told(SUM, x, 0, 0);
    }
}

void every_sum(struct input *x, bool all) {
    for (int k = 0; k < PLANS; k++) {
        every_entry(x, plans[k]);
        every_two(x, plans[k]);
        if (all || k % 2 == 0) every_store(x, plans[k]);
    }
}
