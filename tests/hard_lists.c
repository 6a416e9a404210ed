// A list of calls beside its single calls.
#include <stdlib.h>
#include <string.h>

#include "hard.h"

const enum which of_kind[KINDS] = {
    [BANKPLAN_KIND_STORE] = STORE,           [BANKPLAN_KIND_CLEAR] = CLEAR,
    [BANKPLAN_KIND_LOAD] = LOAD,             [BANKPLAN_KIND_FETCH] = FETCH,
    [BANKPLAN_KIND_RING_FETCH] = RING_FETCH, [BANKPLAN_KIND_MAKE_SUMS] = MAKE_SUMS,
    [BANKPLAN_KIND_SUM] = SUM,               [BANKPLAN_KIND_READ_SUM] = READ_SUM,
};
unsigned replied[KINDS];

size_t calls_in(const struct input *x) { return x->numbers_length / BANKPLAN_CALL_NUMBERS; }
uint64_t room_of(const uint64_t *call) {
    return call[0] == BANKPLAN_KIND_FETCH || call[0] == BANKPLAN_KIND_RING_FETCH ? call[4] : 0;
}

#define BOOK_ARGUMENTS x->columns, x->rows, x->used, x->count, x->r
#define PLAN_ARGUMENTS x->a, x->b, x->d
#define PICTURE_ARGUMENTS PLAN_ARGUMENTS, x->w, x->h, mem, x->words

// The call of five numbers by its own function: its number, and what it puts into the answer.
static uint64_t single_call(const struct input *x, const uint64_t *call, uint16_t *mem, uint64_t *sums, uint16_t *out,
                            uint64_t *answer) {
    int16_t i = (int16_t)(uint16_t)call[1], j = (int16_t)(uint16_t)call[2];
    uint64_t what = call[3], entries = x->entries;
    switch (call[0]) {
    case BANKPLAN_KIND_STORE: return bankplan_store(PICTURE_ARGUMENTS, sums, entries, i, j, (uint16_t)what, answer);
    case BANKPLAN_KIND_CLEAR: return bankplan_clear(PICTURE_ARGUMENTS, sums, entries, what, answer);
    case BANKPLAN_KIND_LOAD: return bankplan_load(PICTURE_ARGUMENTS, i, j, answer);
    case BANKPLAN_KIND_FETCH: return bankplan_fetch(BOOK_ARGUMENTS, PICTURE_ARGUMENTS, what, i, j, out, call[4], answer);
    case BANKPLAN_KIND_MAKE_SUMS: return bankplan_make_sums(PICTURE_ARGUMENTS, sums, entries, answer);
    case BANKPLAN_KIND_SUM: return bankplan_sum(PICTURE_ARGUMENTS, what, answer);
    case BANKPLAN_KIND_READ_SUM: return bankplan_read_sum(PLAN_ARGUMENTS, sums, entries, what, answer);
    default: return bankplan_ring_fetch(BOOK_ARGUMENTS, PICTURE_ARGUMENTS, what, i, j, out, call[4], answer);
    }
}

// Replies, outputs, the picture's words, and the sums of its banks.
bool as_single_calls(const struct input *x) {
    static uint16_t outs[SMALL / 2];
    static uint64_t sums[MOST_ENTRIES];
    const uint64_t *replies = lent(REPLIES);
    uint16_t *mem = malloc(2 * x->words + 2);
    size_t at = 0, needed = words_needed(x), banks = banks_of(x);
    bool same = mem != NULL;
    memcpy(mem, memory_words, 2 * x->words);
    memcpy(sums, sum_numbers, x->entries * sizeof *sums);
    memset(outs, 0xee, sizeof outs);
    for (size_t k = 0; k < calls_in(x); k++) {
        const uint64_t *call = x->numbers + k * BANKPLAN_CALL_NUMBERS;
        uint64_t reply[BANKPLAN_REPLY_NUMBERS + 1] = {0};
        reply[0] = single_call(x, call, mem, sums, outs + at, reply + 1);
        if (reply[0] == 0 && room_of(call)) same &= lent_known(OUTPUT, 2 * at, 2 * (at + reply[1]));
        replied[call[0] % KINDS] |= bit_of(reply[0]);
        same &= call[0] < KINDS && memcmp(replies + k * BANKPLAN_REPLY_NUMBERS, reply, BANKPLAN_REPLY_NUMBERS * sizeof *reply) == 0;
        at += room_of(call);
    }
    lent_known_again(OUTPUT);
    same &= memcmp(lent(OUTPUT), outs, 2 * x->outs_room) == 0;
    same &= needed > x->words || memcmp(lent(MEMORY), mem, 2 * needed) == 0;
    same &= banks > x->entries || memcmp(lent(SUMS), sums, banks * sizeof *sums) == 0;
    free(mem);
    return same;
}
