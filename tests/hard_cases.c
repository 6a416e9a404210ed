// The cases: edges one by one, then any inputs.
#include <string.h>

#include "hard.h"

void cross(struct input *x) {
    static const int8_t columns[5] = {0, -1, 0, 1, 0}, rows[5] = {-1, 0, 0, 0, 1};
    memset(x, 0, sizeof *x);
    memcpy(x->columns, columns, 5);
    memcpy(x->rows, rows, 5);
    x->used[0] = 5;
    x->count = 1;
    x->r = 1;
}

static void read_and_part(struct input *x) {
    const size_t numbers[] = {0, x->count - 1, x->count, SIZE_MAX};
    try_call(READ_BOOK, x);
    for (int k = 0; k < 4; k++) {
        x->n = numbers[k];
        try_call(PATTERN_PART, x);
    }
}

// A book cut at every length, and longer by one and two bytes.
static void every_length(struct input *x, size_t step) {
    plain_book(x);
    size_t length = x->book_length;
    for (x->book_length = 0; x->book_length <= length + 2; x->book_length += step) read_and_part(x);
    for (x->book_length = length - 3; x->book_length <= length + 2; x->book_length++) read_and_part(x);
    x->book_length = SMALL;
    read_and_part(x);
}

// Every byte of a small book takes every value.
static void every_byte(struct input *x) {
    plain_book(x);
    for (size_t at = 0; at < x->book_length; at++)
        for (int value = 0; value < 256; value++) {
            uint8_t kept = x->book[at];
            x->book[at] = (uint8_t)value;
            read_and_part(x);
            x->book[at] = kept;
        }
}

static void every_room(struct input *x, size_t most) {
    for (x->write_room = 0; x->write_room <= most; x->write_room++) try_call(WRITE_BOOK, x);
}

static void limits_and_vectors(struct input *x) {
    const uint32_t limits[] = {0, 1, 2, 4, 5, 6, 1023, 1024, 1025, 65536, UINT32_MAX};
    const int16_t ends[] = {-32768, -32, -1, 0, 1, 31, 32, 1024, 1025, 32767};
    for (int k = 0; k < 11; k++) {
        x->limit = limits[k];
        try_call(FIND, x);
    }
    for (int k = 0; k < 10000; k += 7) {
        for (int m = 0, rest = k; m < 4; m++, rest /= 10) x->v[m] = ends[rest % 10];
        try_call(NORMAL_FORM, x);
        if (x->used[0] < 64 || k % 5 == 0) try_call(CHECK, x);
    }
}

// Pixels, banks and addresses at their edges, under the plan and sides given.
static void every_number(struct input *x) {
    const int16_t ends[] = {-32768, -1, 0, 1, 4095, 4096, 32767};
    const uint64_t places[] = {0, 1, 1023, 1024, 4095, (1u << 24) - 1, 1u << 24, 1ull << 32, UINT64_MAX};
    for (int k = 0; k < 49; k++) {
        x->i = ends[k % 7];
        x->j = ends[k / 7];
        try_call(BANK, x);
        try_call(ADDRESS, x);
    }
    for (int k = 0; k < 81; k++) {
        x->bank = places[k % 9];
        x->address = places[k / 9];
        try_call(LOCATE, x);
    }
    try_call(DEPTH, x);
}

// The calls on a picture, at its first and last pixel and bank, with a memory and sums of just their size, one word less, and one
// entry less.
static void every_memory_call(struct input *x, bool one_less) {
    for (int k = 0; k < 5; k++) {
        just_enough(x); // nothing where the plan is none
        x->words -= k == 3 && one_less && x->words;
        x->entries -= k == 4 && one_less && x->entries;
        x->i = (int16_t)(k % 2 ? x->w - 1 : 0);
        x->j = (int16_t)(k % 2 ? x->h - 1 : 0);
        x->bank = k % 2 ? x->a * x->d - 1 : k == 2 ? x->a * x->d : 0;
        for (int c = STORE; c <= RING_FETCH; c++) try_call(c, x);
        if (!one_less && k == 1) return;
    }
}

// 1024 banks in every shape, or in three of them; b as it may be, and at last one too large.
static void every_shape(struct input *x, bool all) {
    const uint32_t sides[] = {1, 4096, 7, 0, 4097};
    cross(x);
    x->fetch_room = 5;
    for (x->d = 1; x->d <= 1024; x->d *= all ? 2 : 32) {
        x->a = 1024 / x->d;
        const uint32_t columns[] = {0, 1 % x->a, x->a / 2, x->a - 1, x->a};
        for (int k = 0; k < 5; k += all ? 1 : 4) {
            x->b = columns[k];
            for (int m = 0; m < 25; m += 1 + k) {
                x->w = sides[m % 5];
                x->h = sides[m / 5];
                every_number(x);
            }
            x->w = 1 + k, x->h = 5 - k;
            every_memory_call(x, true);
        }
    }
}

// Fetches of the cross under its plan, of which the sides make a ring, with every room and positions at the ends.
static void every_fetch(struct input *x) {
    const int16_t ends[] = {-32768, -1, 0, 1, 9, 10, 4096, 32767};
    cross(x);
    x->a = 5, x->b = 2, x->d = 1, x->w = 10, x->h = 15;
    just_enough(x);
    for (int k = 0; k < 64; k++) {
        x->i = ends[k % 8];
        x->j = ends[k / 8];
        for (x->fetch_room = 0; x->fetch_room <= 7; x->fetch_room++) {
            try_call(FETCH, x);
            try_call(RING_FETCH, x);
        }
    }
}

// Lists of every length, all inside, and with a pixel outside at every place.
static void every_list(struct input *x) {
    cross(x);
    x->a = 6, x->b = 4, x->d = 2, x->w = 100, x->h = 4096;
    for (x->list_length = 0; x->list_length < 100; x->list_length++) {
        bankplan_pixel_record *last = &x->list[x->list_length], kept = {(int16_t)x->list_length, 4095, 7, 7};
        try_call(FILL_RECORDS, x);
        *last = kept;
    }
    for (size_t k = 0; k < x->list_length; k++) {
        int16_t column = x->list[k].column;
        x->list[k].column = k % 2 ? -1 : 100;
        try_call(FILL_RECORDS, x);
        x->list[k].column = column;
    }
}

static void both_lists(struct input *x) {
    try_call(RUN_LIST, x);
    try_call(FIND_AND_RUN, x);
}

// A call of each kind at these pixels, with just the room that they need.
void eight_calls(struct input *x, uint64_t i, uint64_t j) {
    const uint64_t numbers[EIGHT_CALLS] = {BANKPLAN_KIND_STORE,     i, j, 77, 0, BANKPLAN_KIND_LOAD,       i, j, 0, 0,
                                           BANKPLAN_KIND_FETCH,     3, 2, 0,  5, BANKPLAN_KIND_RING_FETCH, i, j, 0, 5,
                                           BANKPLAN_KIND_CLEAR,     0, 0, 0,  0, BANKPLAN_KIND_SUM,        0, 0, 1, 0,
                                           BANKPLAN_KIND_MAKE_SUMS, 0, 0, 0,  0, BANKPLAN_KIND_READ_SUM,   0, 0, 1, 0};
    memcpy(x->numbers, numbers, sizeof numbers);
    x->numbers_length = EIGHT_CALLS, x->outs_room = 10, x->replies_length = 8 * BANKPLAN_REPLY_NUMBERS;
}

// Lists of calls with every length, room and count of replies, and with edge values at every place.
static void every_run(struct input *x, bool all) {
    const uint64_t edges[] = {0, 1, 2, 3, 4, 5, 6, 7, 8, 32768, 65535, 65536, 1ull << 32, 1ull << 63, UINT64_MAX - 4, UINT64_MAX};
    const uint32_t limits[] = {5, 1024, 4, 0, 1025};
    cross(x);
    x->a = 5, x->b = 2, x->d = 1, x->w = 7, x->h = 4, x->limit = 5;
    for (x->words = 38; x->words <= 42; x->words++)
        for (x->entries = 3; x->entries <= 7; x->entries++) {
            eight_calls(x, 6, 3);
            both_lists(x);
        }
    just_enough(x);
    for (x->numbers_length = 0; x->numbers_length <= EIGHT_CALLS; x->numbers_length++)
        for (x->outs_room = 0; x->outs_room <= 11; x->outs_room += all ? 1 : 5)
            for (x->replies_length = 0; x->replies_length <= 98; x->replies_length += all ? 1 : 7) both_lists(x);
    x->w = 10, x->h = 5; // a ring
    just_enough(x);
    for (int k = 0; k < EIGHT_CALLS * 16; k++) {
        eight_calls(x, 0, 0);
        x->numbers[k / 16] = edges[k % 16];
        both_lists(x);
    }
    for (int k = 0; k < 5; k++) {
        eight_calls(x, 0, 0);
        x->limit = limits[k];
        both_lists(x);
    }
}

// Pictures of 4096 by 4096; the last has the largest memory that there is.
static void large_pictures(struct input *x) {
    const uint32_t plans[][3] = {{1, 0, 1}, {1024, 341, 1}, {1, 0, 1024}, {32, 7, 32}, {1023, 5, 1}};
    cross(x);
    x->fetch_room = 5;
    x->w = x->h = 4096;
    for (int k = 0; k < 5; k++) {
        x->a = plans[k][0], x->b = plans[k][1], x->d = plans[k][2];
        every_memory_call(x, false);
        eight_calls(x, 4095, 4095);
        try_call(RUN_LIST, x);
    }
}

void all_cases(uint64_t how_many, bool large) {
    static struct input x;
    cross(&x);
    every_length(&x, 1);
    if (large) every_byte(&x);
    every_room(&x, 20);
    limits_and_vectors(&x);
    hardest_record(&x);
    every_length(&x, large ? 1 : 97);
    if (large) every_room(&x, 2070);
    if (large) limits_and_vectors(&x);
    x.limit = 1024;
    for (x.r = 1; x.r <= 8; x.r++) try_call(FIND, &x);
    every_shape(&x, large);
    every_fetch(&x);
    every_list(&x);
    every_run(&x, large);
    every_order(&x, large);
    every_cycle(&x);
    every_ring(&x, large);
    every_sum(&x, large);
    if (large) large_pictures(&x);
    for (uint64_t k = 0; k < how_many; k++) {
        any_input(&x);
        try_all(&x);
    }
}
