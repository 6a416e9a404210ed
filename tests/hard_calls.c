// The exported functions: how each is called, and what it may say and change.
#include <stdlib.h>
#include <string.h>

#include "hard.h"

#define RECORD_ARGUMENTS lent(COLUMNS), lent(ROWS), lent(USED), x->count
#define PLAN_ARGUMENTS x->a, x->b, x->d
#define SIDES x->w, x->h
#define MEMORY_ARGUMENTS lent(MEMORY), x->words
#define SUMS_ARGUMENTS lent(SUMS), x->entries

static uint64_t normal_form(const struct input *x) {
    return bankplan_normal_form(x->v[0], x->v[1], x->v[2], x->v[3], lent(ANSWER));
}
static uint64_t bank(const struct input *x) { return bankplan_bank(PLAN_ARGUMENTS, x->i, x->j, lent(ANSWER)); }
static uint64_t depth(const struct input *x) { return bankplan_depth(PLAN_ARGUMENTS, SIDES, lent(ANSWER)); }
static uint64_t address(const struct input *x) {
    return bankplan_address(PLAN_ARGUMENTS, SIDES, x->i, x->j, lent(ANSWER));
}
static uint64_t locate(const struct input *x) {
    return bankplan_locate(PLAN_ARGUMENTS, SIDES, x->bank, x->address, lent(ANSWER));
}
static uint64_t read_book(const struct input *x) {
    return bankplan_read_book(lent(BOOK), x->book_length, lent(COLUMNS), lent(ROWS), lent(USED), lent(ANSWER));
}
static uint64_t pattern_part(const struct input *x) {
    return bankplan_pattern_part(lent(BOOK), x->book_length, x->n, lent(ANSWER));
}
static uint64_t write_book(const struct input *x) {
    return bankplan_write_book(RECORD_ARGUMENTS, lent(OUTPUT), x->write_room, lent(ANSWER));
}
static uint64_t test_record(const struct input *x) { return bankplan_test_record(RECORD_ARGUMENTS, lent(ANSWER)); }
static uint64_t find(const struct input *x) { return bankplan_find(RECORD_ARGUMENTS, x->r, x->limit, lent(ANSWER)); }
static uint64_t check(const struct input *x) {
    return bankplan_check(RECORD_ARGUMENTS, x->r, x->v[0], x->v[1], x->v[2], x->v[3], lent(ANSWER));
}

// Whether each cycle is the count of earlier pixels in its bank, and below r.
static bool are_cycles(const struct input *x, const uint8_t *cycles) {
    uint64_t banks[64], answer[ANSWER_LENGTH] = {0};
    for (size_t e = 0; e < x->used[x->n]; e++) {
        unsigned earlier = 0;
        if (bankplan_bank(PLAN_ARGUMENTS, x->columns[64 * x->n + e], x->rows[64 * x->n + e], answer) != 0) return false;
        banks[e] = answer[0];
        for (size_t m = 0; m < e; m++) earlier += banks[m] == banks[e];
        if (cycles[e] != earlier || earlier >= x->r) return false;
    }
    return true;
}
// 99, which no call gives, if the cycles are others.
static uint64_t write_cycles(const struct input *x) {
    uint64_t number = bankplan_write_cycles(RECORD_ARGUMENTS, x->r, PLAN_ARGUMENTS, x->n, lent(OUTPUT), x->cycles_room,
                                            lent(ANSWER));
    return number == 0 && !are_cycles(x, lent(OUTPUT)) ? 99 : number;
}
// The bank of a pixel of the picture, and where its word stands.
static uint64_t bank_at(const struct input *x) {
    int64_t q = x->j / x->d, column = (x->i - x->b * q) % x->a;
    return x->j % x->d * x->a + (column < 0 ? column + x->a : column);
}
static uint64_t word_at(const struct input *x) {
    return bank_at(x) * depth_of(x) + x->j / x->d * ((x->w + x->a - 1) / x->a) + x->i / x->a;
}
// The sum of a bank's words as they were lent.
static uint64_t walk(const struct input *x, uint64_t k) {
    uint64_t total = 0, deep = depth_of(x);
    for (uint64_t e = 0; e < deep; e++) total += memory_words[k * deep + e];
    return total;
}

// These give 99, which no call gives, if a word or a sum is another than it must be.
static uint64_t store(const struct input *x) {
    const uint64_t *sums = lent(SUMS);
    const uint16_t *words = lent(MEMORY);
    uint64_t number = bankplan_store(PLAN_ARGUMENTS, SIDES, MEMORY_ARGUMENTS, SUMS_ARGUMENTS, x->i, x->j, x->word, lent(ANSWER));
    if (number != 0) return number;
    uint64_t k = bank_at(x), at = word_at(x);
    return words[at] != x->word || sums[k] != sum_numbers[k] - memory_words[at] + x->word ? 99 : 0;
}
static uint64_t load(const struct input *x) {
    return bankplan_load(PLAN_ARGUMENTS, SIDES, MEMORY_ARGUMENTS, x->i, x->j, lent(ANSWER));
}
static uint64_t clear(const struct input *x) {
    const uint64_t *sums = lent(SUMS);
    const uint16_t *words = lent(MEMORY);
    uint64_t number = bankplan_clear(PLAN_ARGUMENTS, SIDES, MEMORY_ARGUMENTS, SUMS_ARGUMENTS, x->bank, lent(ANSWER));
    if (number != 0) return number;
    for (uint64_t e = 0, deep = depth_of(x); e < deep; e++)
        if (words[x->bank * deep + e] != 0) return 99;
    return sums[x->bank] != 0 ? 99 : 0;
}
static uint64_t sum(const struct input *x) {
    const uint64_t *answer = lent(ANSWER);
    uint64_t number = bankplan_sum(PLAN_ARGUMENTS, SIDES, MEMORY_ARGUMENTS, x->bank, lent(ANSWER));
    return number == 0 && answer[0] != walk(x, x->bank) ? 99 : number;
}
static uint64_t make_sums(const struct input *x) {
    const uint64_t *sums = lent(SUMS);
    uint64_t number = bankplan_make_sums(PLAN_ARGUMENTS, SIDES, MEMORY_ARGUMENTS, SUMS_ARGUMENTS, lent(ANSWER));
    for (uint64_t k = 0; number == 0 && k < banks_of(x); k++)
        if (sums[k] != walk(x, k)) return 99;
    return number;
}
static uint64_t read_sum(const struct input *x) {
    const uint64_t *answer = lent(ANSWER);
    uint64_t number = bankplan_read_sum(PLAN_ARGUMENTS, SUMS_ARGUMENTS, x->bank, lent(ANSWER));
    return number == 0 && answer[0] != sum_numbers[x->bank] ? 99 : number;
}

// Whether the words are those that loads give at the pixels, wrapped; those of a plain fetch are inside.
static bool are_loaded(const struct input *x, const uint16_t *words) {
    for (size_t e = 0; e < x->used[x->n]; e++) {
        uint64_t answer[ANSWER_LENGTH] = {0};
        int32_t i = (x->i + x->columns[64 * x->n + e]) % (int32_t)x->w, j = (x->j + x->rows[64 * x->n + e]) % (int32_t)x->h;
        int16_t column = (int16_t)(i < 0 ? i + (int32_t)x->w : i), row = (int16_t)(j < 0 ? j + (int32_t)x->h : j);
        uint64_t number = bankplan_load(PLAN_ARGUMENTS, SIDES, MEMORY_ARGUMENTS, column, row, answer);
        if (number != 0 || answer[0] != words[e]) return false;
    }
    return true;
}
// 99, which no call gives, if the words are others.
static uint64_t fetch(const struct input *x) {
    uint64_t number = bankplan_fetch(RECORD_ARGUMENTS, x->r, PLAN_ARGUMENTS, SIDES, MEMORY_ARGUMENTS, x->n, x->i, x->j,
                                     lent(OUTPUT), x->fetch_room, lent(ANSWER));
    return number == 0 && !are_loaded(x, lent(OUTPUT)) ? 99 : number;
}
static uint64_t ring_fetch(const struct input *x) {
    uint64_t number = bankplan_ring_fetch(RECORD_ARGUMENTS, x->r, PLAN_ARGUMENTS, SIDES, MEMORY_ARGUMENTS, x->n, x->i, x->j,
                                          lent(OUTPUT), x->fetch_room, lent(ANSWER));
    return number == 0 && !are_loaded(x, lent(OUTPUT)) ? 99 : number;
}

// Whether a record has the bank and address that the calls for one pixel tell.
static bool is_filled(const struct input *x, bankplan_pixel_record r) {
    uint64_t k[ANSWER_LENGTH] = {0}, at[ANSWER_LENGTH] = {0};
    return bankplan_bank(PLAN_ARGUMENTS, r.column, r.row, k) == 0 && r.bank == k[0] &&
           bankplan_address(PLAN_ARGUMENTS, SIDES, r.column, r.row, at) == 0 && r.address == at[0];
}
// 99, which no call gives, if a column or a row changed or a record is not filled.
static uint64_t fill_records(const struct input *x) {
    const bankplan_pixel_record *list = lent(LIST);
    uint64_t number = bankplan_fill_records(PLAN_ARGUMENTS, SIDES, lent(LIST), x->list_length, lent(ANSWER));
    for (size_t k = 0; k < x->list_length; k++) {
        if (list[k].column != x->list[k].column || list[k].row != x->list[k].row) return 99;
        if (number == 0 && !is_filled(x, list[k])) return 99;
    }
    return number;
}

const struct input *under_plan(enum which c, const struct input *x) {
    static struct input found;
    uint64_t answer[ANSWER_LENGTH] = {0}; // no plan is 0, 0, 0
    if (c != FIND_AND_RUN) return x;
    found = *x;
    if (bankplan_find(x->columns, x->rows, x->used, x->count, x->r, x->limit, answer) != 0) answer[0] = 0;
    found.a = (uint32_t)answer[0], found.b = (uint32_t)answer[1], found.d = (uint32_t)answer[2];
    return &found;
}

#define LIST_ARGUMENTS \
    lent(NUMBERS), x->numbers_length, lent(OUTPUT), x->outs_room, lent(REPLIES), x->replies_length, lent(ANSWER)
// 99, which no call gives, if the single calls leave something else or a fault is not told at the start of a call.
static uint64_t judged_list(enum which c, const struct input *x, uint64_t number) {
    const uint64_t *answer = lent(ANSWER);
    if (number == BANKPLAN_NOT_CALLS && answer[0] % BANKPLAN_CALL_NUMBERS != 0) return 99;
    return number == 0 && !as_single_calls(under_plan(c, x)) ? 99 : number;
}
static uint64_t run_list(const struct input *x) {
    return judged_list(
        RUN_LIST, x,
        bankplan_run_list(RECORD_ARGUMENTS, x->r, PLAN_ARGUMENTS, SIDES, MEMORY_ARGUMENTS, SUMS_ARGUMENTS, LIST_ARGUMENTS));
}
static uint64_t find_and_run(const struct input *x) {
    return judged_list(
        FIND_AND_RUN, x,
        bankplan_find_and_run(RECORD_ARGUMENTS, x->r, x->limit, SIDES, MEMORY_ARGUMENTS, SUMS_ARGUMENTS, LIST_ARGUMENTS));
}

// The whole picture, the sums of its banks, the rooms of all fetches, the replies of all calls.
static struct range by_list(enum which c, enum slot s, const struct input *x) {
    const struct input *own = under_plan(c, x);
    uint64_t rooms = 0, needed = words_needed(own), banks = banks_of(own);
    for (size_t k = 0; k < calls_in(x); k++) rooms += room_of(x->numbers + k * BANKPLAN_CALL_NUMBERS);
    if (s == MEMORY) return (struct range){0, needed <= x->words ? 2 * needed : 0};
    if (s == SUMS) return (struct range){0, banks <= x->entries ? banks * sizeof(uint64_t) : 0};
    if (s == OUTPUT) return (struct range){0, 2 * rooms};
    return (struct range){0, calls_in(x) * BANKPLAN_REPLY_NUMBERS * sizeof(uint64_t)};
}
static struct range under_given(enum slot s, const struct input *x, const uint64_t *answer) {
    (void)answer;
    return by_list(RUN_LIST, s, x);
}
static struct range under_found(enum slot s, const struct input *x, const uint64_t *answer) {
    (void)answer;
    return by_list(FIND_AND_RUN, s, x);
}

static struct range arrays(enum slot s, const struct input *x, const uint64_t *answer) {
    (void)answer;
    return (struct range){0, s == USED ? sizeof x->used : 1024};
}
static struct range written(enum slot s, const struct input *x, const uint64_t *answer) {
    (void)s, (void)x;
    return (struct range){0, answer[0]};
}
static struct range fetched(enum slot s, const struct input *x, const uint64_t *answer) {
    (void)s, (void)x;
    return (struct range){0, 2 * answer[0]};
}
static struct range entry(uint64_t k) { return (struct range){k * sizeof(uint64_t), (k + 1) * sizeof(uint64_t)}; }
static struct range one_word(enum slot s, const struct input *x, const uint64_t *answer) {
    (void)answer;
    if (s == SUMS) return entry(bank_at(x));
    return (struct range){2 * word_at(x), 2 * word_at(x) + 2};
}
static struct range one_bank(enum slot s, const struct input *x, const uint64_t *answer) {
    (void)answer;
    if (s == SUMS) return entry(x->bank);
    return (struct range){2 * x->bank * depth_of(x), 2 * (x->bank + 1) * depth_of(x)};
}
static struct range all_sums(enum slot s, const struct input *x, const uint64_t *answer) {
    (void)s, (void)answer;
    return (struct range){0, banks_of(x) * sizeof(uint64_t)};
}
static struct range records(enum slot s, const struct input *x, const uint64_t *answer) {
    (void)s, (void)answer;
    return (struct range){0, x->list_length * sizeof *x->list};
}

enum {
    IN_RECORD = BIT(2) | BIT(3) | BIT(4) | BIT(19),
    IN_BOOK = BIT(1) | IN_RECORD | BIT(5),
    IN_PICTURE = BIT(11) | BIT(12) | BIT(13),
    IN_FETCH = IN_RECORD | BIT(20) | IN_PICTURE | BIT(17) | BIT(10) | BIT(16),
    IN_CYCLES = IN_RECORD | BIT(20) | BIT(11) | BIT(17) | BIT(10) | BIT(16),
    IN_LIST = BIT(16) | NO_LIST,
    BY_LIST = BIT(MEMORY) | BIT(SUMS) | BIT(OUTPUT) | BIT(REPLIES),
};

const struct call calls[CALLS] = {
    [NORMAL_FORM] = {"normal_form", BIT(0) | BIT(8) | BIT(9), 3, 0, 0, normal_form, NULL},
    [BANK] = {"bank", BIT(0) | BIT(11), 1, 0, 0, bank, NULL},
    [DEPTH] = {"depth", BIT(0) | BIT(11) | BIT(12), 1, 0, 0, depth, NULL},
    [ADDRESS] = {"address", BIT(0) | BIT(11) | BIT(12) | BIT(14), 1, 0, 0, address, NULL},
    [LOCATE] = {"locate", BIT(0) | BIT(11) | BIT(12) | BIT(15), 2, 0, 0, locate, NULL},
    [READ_BOOK] = {"read_book", BIT(0) | IN_BOOK, 1, BIT(BOOK), RECORD, read_book, arrays},
    [PATTERN_PART] = {"pattern_part", BIT(0) | IN_BOOK | BIT(17), 2, BIT(BOOK), 0, pattern_part, NULL},
    [WRITE_BOOK] = {"write_book", BIT(0) | IN_RECORD | BIT(16), 1, RECORD, BIT(OUTPUT), write_book, written},
    [TEST_RECORD] = {"test_record", BIT(0) | IN_RECORD, 0, RECORD, 0, test_record, NULL},
    [FIND] = {"find", BIT(0) | IN_RECORD | BIT(6) | BIT(20) | BIT(7), 3, RECORD, 0, find, NULL},
    [CHECK] = {"check", BIT(0) | IN_RECORD | BIT(20) | BIT(8) | BIT(9) | BIT(10), 4, RECORD, 0, check, NULL},
    [WRITE_CYCLES] = {"write_cycles", BIT(0) | IN_CYCLES, 1, RECORD, BIT(OUTPUT), write_cycles, written},
    [STORE] = {"store", BIT(0) | IN_PICTURE | BIT(14), 0, 0, BIT(MEMORY) | BIT(SUMS), store, one_word},
    [LOAD] = {"load", BIT(0) | IN_PICTURE | BIT(14), 1, BIT(MEMORY), 0, load, NULL},
    [CLEAR] = {"clear", BIT(0) | IN_PICTURE | BIT(15), 0, 0, BIT(MEMORY) | BIT(SUMS), clear, one_bank},
    [SUM] = {"sum", BIT(0) | IN_PICTURE | BIT(15), 1, BIT(MEMORY), 0, sum, NULL},
    [MAKE_SUMS] = {"make_sums", BIT(0) | IN_PICTURE, 0, BIT(MEMORY), BIT(SUMS), make_sums, all_sums},
    [READ_SUM] = {"read_sum", BIT(0) | BIT(11) | BIT(13) | BIT(15), 1, BIT(SUMS), 0, read_sum, NULL},
    [FETCH] = {"fetch", BIT(0) | IN_FETCH | BIT(14), 1, RECORD | BIT(MEMORY), BIT(OUTPUT), fetch, fetched},
    [RING_FETCH] = {"ring_fetch", BIT(0) | IN_FETCH | BIT(18), 1, RECORD | BIT(MEMORY), BIT(OUTPUT), ring_fetch, fetched},
    [FILL_RECORDS] = {"fill_records", BIT(0) | BIT(11) | BIT(12) | BIT(14), 0, 0, BIT(LIST), fill_records, records},
    [RUN_LIST] = {"run_list", BIT(0) | IN_LIST, 0, RECORD | BIT(NUMBERS), BY_LIST, run_list, under_given},
    [FIND_AND_RUN] = {"find_and_run", BIT(0) | IN_RECORD | BIT(6) | BIT(20) | BIT(7) | IN_LIST, 3, RECORD | BIT(NUMBERS),
                      BY_LIST, find_and_run, under_found},
};

size_t output_size(enum which c, const struct input *x) {
    if (c == RUN_LIST || c == FIND_AND_RUN) return 2 * x->outs_room;
    return c == WRITE_BOOK ? x->write_room : c == WRITE_CYCLES ? x->cycles_room : 2 * x->fetch_room;
}
