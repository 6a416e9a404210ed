// Makes what the calls are given: legal things, things at the edges, and any numbers at all.
#include <stdlib.h>
#include <string.h>

#include "hard.h"

uint16_t *memory_words;
uint64_t sum_numbers[MOST_ENTRIES];
static uint64_t state;

static uint64_t next(void) {
    state ^= state >> 12;
    state ^= state << 25;
    state ^= state >> 27;
    return state * 0x2545f4914f6cdd1d;
}

uint64_t below(uint64_t bound) { return next() % bound; }

void inputs_begin(uint64_t seed) {
    state = seed;
    if (memory_words) return;
    memory_words = malloc(MOST_WORDS * sizeof *memory_words);
    for (size_t k = 0; k < MOST_WORDS; k++) memory_words[k] = (uint16_t)(k * 40503 >> 3 | 1);
    // at both ends of 64 bits, and any
    for (size_t k = 0; k < MOST_ENTRIES; k++)
        sum_numbers[k] = k % 4 == 0 ? k + 1 : k % 4 == 1 ? UINT64_MAX - k : k * 0x9e3779b97f4a7c15;
}

uint64_t any_number(void) {
    static const uint64_t edges[] = {0, 1, 15, 16, 17, 63, 64, 65, 1023, 1024, 1025, 4095, 4096, 4097, 32767, 32768};
    switch (below(5)) {
    case 0: return edges[below(16)];
    case 1: return below(40);
    case 2: return (1ull << below(64)) - below(3) + 1;
    case 3: return UINT64_MAX - below(3);
    default: return next() >> below(64);
    }
}

// A coordinate: near 0, at the ends of 16 bits, or any.
static int16_t any_coordinate(void) {
    switch (below(4)) {
    case 0: return (int16_t)any_number();
    case 1: return (int16_t)(below(2) ? 32767 - below(18) : below(18) - 32768);
    default: return (int16_t)((int)below(40) - 4);
    }
}

static void any_plan(struct input *x) {
    if (below(4) == 0) {
        x->a = (uint32_t)any_number();
        x->b = (uint32_t)any_number();
        x->d = (uint32_t)any_number();
        return;
    }
    uint32_t most = below(3) ? 40 : 1024;
    x->d = 1 + (uint32_t)below(below(2) ? most : 4);
    x->a = 1 + (uint32_t)below(most / x->d > 0 ? most / x->d : 1);
    x->b = (uint32_t)below(x->a + (below(8) == 0));
}

// Often a multiple of the step, so that many sides are those of a ring.
static uint32_t any_side(uint32_t step) {
    switch (below(8)) {
    case 0: return (uint32_t)any_number();
    case 1:
    case 2:
    case 3: return step <= 24 ? step * (1 + (uint32_t)below(3)) : 1;
    case 4: return 1;
    default: return 1 + (uint32_t)below(24);
    }
}

uint64_t banks_of(const struct input *x) {
    bool plan = x->a >= 1 && x->d >= 1 && x->b < x->a && (uint64_t)x->a * x->d <= 1024;
    return plan ? x->a * x->d : 0;
}

bool is_picture(const struct input *x) {
    return banks_of(x) && x->w >= 1 && x->w <= 4096 && x->h >= 1 && x->h <= 4096;
}

uint64_t depth_of(const struct input *x) {
    return (uint64_t)((x->w + x->a - 1) / x->a) * ((x->h + x->d - 1) / x->d);
}

uint64_t words_needed(const struct input *x) { return is_picture(x) ? x->a * x->d * depth_of(x) : 0; }

void just_enough(struct input *x) {
    x->words = words_needed(x);
    x->entries = banks_of(x);
}

// As many entries as there are banks, one less, or more; or any small count.
static size_t any_entries(size_t banks) {
    switch (below(8)) {
    case 0: return banks ? banks - 1 : 0;
    case 1: return banks + 1 + below(9);
    case 2: return below(3) * below(200);
    default: return banks;
    }
}

// Sides, and a memory of just the size, of one word more or less, or of any small size.
static void any_picture(struct input *x) {
    uint32_t banks = x->a * x->d;
    x->w = any_side(x->a);
    x->h = below(6) ? any_side(below(2) ? x->d : banks) : x->w;
    uint64_t needed = words_needed(x);
    if (needed > 1 << 15) needed = below(1 << 10); // large ones have cases of their own
    switch (below(8)) {
    case 0: x->words = needed ? needed - 1 : 0; break;
    case 1: x->words = needed + 1 + below(9); break;
    case 2: x->words = below(3) * below(200); break;
    default: x->words = needed;
    }
    x->entries = any_entries(banks_of(x));
    x->bank = below(3) ? below(banks ? banks : 1) : below(2) ? banks : any_number();
    x->address = below(3) && is_picture(x) ? below(depth_of(x)) : any_number();
}

static void exchange(int8_t *columns, int8_t *rows, size_t m, size_t k) {
    int8_t column = columns[m], row = rows[m];
    columns[m] = columns[k], rows[m] = rows[k];
    columns[k] = column, rows[k] = row;
}

// By row, then column: each pixel goes down while it is lower than the one before it.
static void put_in_order(int8_t *columns, int8_t *rows, size_t used) {
    for (size_t m = 1; m < used; m++)
        for (size_t k = m; k > 0; k--) {
            int step = rows[k] != rows[k - 1] ? rows[k] - rows[k - 1] : columns[k] - columns[k - 1];
            if (step < 0) exchange(columns, rows, k, k - 1);
        }
}

// Different pixels in order; the window's corners come often.
static void any_pattern(struct input *x, size_t n, size_t used) {
    int8_t *columns = x->columns + 64 * n, *rows = x->rows + 64 * n;
    uint64_t side = used > 40 || below(3) == 0 ? 32 : 8;
    for (size_t m = 0; m < used; m++) {
        size_t k = 0;
        columns[m] = (int8_t)(below(9) ? (int)below(side) - (int)side / 2 : below(2) ? 15 : -16);
        rows[m] = (int8_t)(below(9) ? (int)below(side) - (int)side / 2 : below(2) ? 15 : -16);
        while (k < m && (columns[k] != columns[m] || rows[k] != rows[m])) k++;
        if (k < m) m--;
    }
    put_in_order(columns, rows, used);
    x->used[n] = used;
}

// Any bytes everywhere; what a legal record does not use stays so.
static void noise(struct input *x) {
    for (int k = 0; k < 1024; k++) x->columns[k] = (int8_t)next(), x->rows[k] = (int8_t)next();
    for (int n = 0; n < 16; n++) x->used[n] = any_number();
}

static void any_record(struct input *x) {
    noise(x);
    if (below(6) == 0) {
        x->count = any_number();
        return;
    }
    bool large = below(60) == 0;
    x->count = 1 + below(large ? 16 : 3);
    for (size_t n = 0; n < x->count; n++) any_pattern(x, n, 1 + below(large ? 64 : 8));
    size_t n = below(x->count), m = below(x->used[n]);
    switch (below(14)) { // some damage
    case 0: x->count = any_number(); break;
    case 1: x->used[n] = any_number(); break;
    case 2: x->columns[64 * n + m] = (int8_t)(below(2) ? 16 : -17); break;
    case 3: x->rows[64 * n + m] = (int8_t)next(); break;
    case 4: x->columns[64 * n + m] = x->columns[64 * n], x->rows[64 * n + m] = x->rows[64 * n]; break;
    case 5: exchange(x->columns + 64 * n, x->rows + 64 * n, m, below(x->used[n])); break;
    default: break;
    }
}

// The window of 32 by 32 in 16 patterns, so that the finder has most to do.
void hardest_record(struct input *x) {
    x->count = 16;
    for (int n = 0; n < 16; n++) x->used[n] = 64;
    for (int k = 0; k < 1024; k++) {
        x->columns[k] = (int8_t)(k % 32 - 16);
        x->rows[k] = (int8_t)(k / 32 - 16);
    }
}

void plain_book(struct input *x) {
    size_t at = 0;
    x->book[at++] = (uint8_t)x->count;
    for (size_t n = 0; n < x->count && n < 16; n++) {
        x->book[at++] = (uint8_t)x->used[n];
        for (size_t m = 0; m < x->used[n] && m < 64; m++) {
            x->book[at++] = (uint8_t)x->columns[64 * n + m];
            x->book[at++] = (uint8_t)x->rows[64 * n + m];
        }
    }
    x->book_length = at;
}

void damaged_book(struct input *x) {
    size_t length = x->book_length;
    switch (below(6)) {
    case 0: x->book_length = below(length + 1); break;
    case 1: x->book[below(length)] = (uint8_t)next(); break;
    case 2: x->book[below(length)] ^= (uint8_t)(1 << below(8)); break;
    case 3: x->book_length = length + 1 + below(SMALL - length); break;
    case 4:
        x->book_length = below(below(2) ? 40 : SMALL + 1);
        for (size_t k = 0; k < x->book_length; k++) x->book[k] = (uint8_t)next();
        break;
    default: break;
    }
}

// Mostly pixels inside, so that many lists are filled.
static void any_list(struct input *x) {
    bool inside = below(3) > 0 && is_picture(x);
    x->list_length = below(5) ? below(12) : below(101);
    for (size_t k = 0; k < x->list_length; k++) {
        x->list[k].column = inside ? (int16_t)below(x->w) : any_coordinate();
        x->list[k].row = inside ? (int16_t)below(x->h) : any_coordinate();
        x->list[k].bank = (uint32_t)next();
        x->list[k].address = (uint32_t)next();
    }
}

// One call of a list, mostly one that it can be; its room.
static uint64_t any_call(const struct input *x, uint64_t *call) {
    uint64_t pattern = below(4) ? below(3) : any_number(), banks = x->a * x->d;
    size_t needed = pattern < 16 && x->used[pattern] <= 64 ? x->used[pattern] : 0;
    call[0] = below(60) ? below(KINDS) : any_number();
    for (int k = 1; k < 3; k++) call[k] = below(60) ? (uint16_t)any_coordinate() : any_number();
    call[3] = any_number();
    call[4] = any_number();
    if (call[0] == BANKPLAN_KIND_STORE) call[3] = below(60) ? (uint16_t)next() : any_number();
    bool of_bank = call[0] == BANKPLAN_KIND_CLEAR || call[0] == BANKPLAN_KIND_SUM || call[0] == BANKPLAN_KIND_READ_SUM;
    if (of_bank && below(3)) call[3] = below(banks ? banks : 1);
    if (call[0] != BANKPLAN_KIND_FETCH && call[0] != BANKPLAN_KIND_RING_FETCH) return 0;
    call[3] = pattern;
    call[4] = below(60) ? needed + (below(4) ? 0 : below(20)) - (needed && below(4) == 0) : any_number();
    return call[4];
}

// A list, with outputs and replies of just the size, or some more or less.
static void any_calls(struct input *x) {
    size_t calls = below(4) ? below(6) : below(MOST_CALLS + 1), left = below(12) ? 0 : below(5);
    uint64_t rooms = 0;
    for (size_t k = 0; k < calls; k++) rooms += any_call(x, x->numbers + k * BANKPLAN_CALL_NUMBERS);
    for (size_t k = 0; k < left; k++) x->numbers[calls * BANKPLAN_CALL_NUMBERS + k] = any_number();
    x->numbers_length = calls * BANKPLAN_CALL_NUMBERS + left;
    x->outs_room = rooms > SMALL / 2 - 2 ? SMALL / 2 - 2 : rooms;
    x->replies_length = calls * BANKPLAN_REPLY_NUMBERS;
    if (below(12) == 0) x->outs_room -= x->outs_room > 0;
    else if (below(4) == 0) x->outs_room += 1 + below(2);
    if (below(12) == 0) x->replies_length -= x->replies_length > 0;
    else if (below(4) == 0) x->replies_length += 1 + below(14);
}

// About as much room as is needed; less or more too.
static size_t any_room(size_t needed, size_t most) {
    size_t room = below(4) == 0 ? below(most) : needed + below(4) - 1;
    return room > most ? 0 : room;
}

// 1 or 2 most often, so that many plans clash.
static uint32_t any_cycles(void) {
    switch (below(4)) {
    case 0: return 1;
    case 1: return 1 + (uint32_t)below(2);
    case 2: return 1 + (uint32_t)below(8);
    default: return (uint32_t)(below(2) ? below(10) : any_number());
    }
}

void any_input(struct input *x) {
    any_record(x);
    plain_book(x);
    x->write_room = any_room(x->book_length, 3000);
    damaged_book(x);
    any_plan(x);
    any_picture(x);
    any_list(x);
    x->r = any_cycles();
    x->limit = (uint32_t)(below(2) ? below(40) : any_number());
    x->i = any_coordinate();
    x->j = any_coordinate();
    for (int k = 0; k < 4; k++) x->v[k] = any_coordinate();
    if (below(4) == 0) x->v[1] = 0;
    x->word = (uint16_t)next();
    x->n = below(4) ? below(3) : any_number();
    size_t pixels = x->n < 16 && x->used[x->n] <= 64 ? x->used[x->n] : 0;
    x->fetch_room = any_room(pixels, 100);
    x->cycles_room = any_room(pixels, 100);
    any_calls(x);
}
