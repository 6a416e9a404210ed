// Hard use of the static library: hard guard|heap CASES. Every function is lent buffers that end or begin at a page that nobody
// may touch, or heap blocks of just their size, and is given legal things, edges and any numbers at all. What is asked here
// needs no second version of the library: numbers that a call can give, nothing changed that may not change, the same answer
// to the same question. That the answers are right is asked elsewhere, but for the order of pixels (hard_order.c), the order of the
// checks about r and of a ring fetch (hard_cycles.c), which ring fetches are served (hard_rings.c), and the sums (hard_sums.c).
#define _GNU_SOURCE
#include <signal.h>
#include <stdio.h>
#include <stdlib.h>
#include <string.h>
#include <unistd.h>

#include "hard.h"

static const uint64_t UNTOUCHED = 0xabad1deaabad1dea;

static uint64_t cases, wrong, digest;
static unsigned given[CALLS]; // the numbers that each call gave
static const char *now = "nothing";
static uint64_t last_number, last_place; // what the call made last gave

// A call that touches what it was not lent, traps or hangs ends the test.
static void ended(int signal_number) {
    char line[200];
    const char *why = signal_number == SIGALRM ? "hangs" : signal_number == SIGILL ? "traps" : "touches what was not lent";
    int length = snprintf(line, sizeof line, "hard use: wrong: %s %s (signal %d)\n", now, why, signal_number);
    if (write(2, line, (size_t)length) < 0) _exit(2);
    _exit(1);
}

static void say_wrong(const char *what, uint64_t number) {
    if (wrong++ >= 20) return;
    fprintf(stderr, "hard use: wrong: %s, case %lu, number %lu: %s\n", now, (unsigned long)cases, (unsigned long)number, what);
}

static void lend_all(const struct call *c, const struct input *x) {
    static uint64_t untouched[ANSWER_LENGTH];
    static uint8_t before[SMALL];
    if (!before[0]) memset(before, 0xee, sizeof before);
    for (int k = 0; k < ANSWER_LENGTH; k++) untouched[k] = UNTOUCHED;
    size_t room = output_size((enum which)(c - calls), x);
    const struct {
        const void *content;
        size_t size;
    } all[SLOTS] = {
        [BOOK] = {x->book, x->book_length},       [COLUMNS] = {x->columns, sizeof x->columns},
        [ROWS] = {x->rows, sizeof x->rows},       [USED] = {x->used, sizeof x->used},
        [MEMORY] = {memory_words, 2 * x->words},  [SUMS] = {sum_numbers, x->entries * sizeof *sum_numbers},
        [OUTPUT] = {before, room},
        [LIST] = {x->list, x->list_length * sizeof *x->list},
        [NUMBERS] = {x->numbers, x->numbers_length * sizeof *x->numbers},
        [REPLIES] = {before, x->replies_length * sizeof(uint64_t)},
        [ANSWER] = {untouched, sizeof untouched},
    };
    for (int s = 0; s < SLOTS; s++)
        if ((c->reads | c->writes | BIT(ANSWER)) & BIT(s)) lend(s, all[s].content, all[s].size, !(c->reads & BIT(s)));
}

// Entries past N of the sums are unknown; so are all where they are made afresh, and all but the one that is read.
static void make_sums_unknown(enum which c, const struct input *x) {
    size_t all = x->entries * sizeof(uint64_t), own = x->bank < x->entries ? x->bank * sizeof(uint64_t) : 0;
    if (c == MAKE_SUMS) lent_unknown(SUMS, 0, all);
    if (c == READ_SUM) lent_unknown(SUMS, 0, own), lent_unknown(SUMS, own + sizeof(uint64_t), all);
    lent_unknown(SUMS, banks_of(x) * sizeof(uint64_t), all);
}

// What a call is lent to be filled, a record's unused entries and the words past a picture's are unknown to valgrind.
static void make_unknown(const struct call *c, const struct input *x) {
    lent_unknown(ANSWER, 0, ANSWER_LENGTH * sizeof(uint64_t));
    if (c->writes & BIT(OUTPUT)) lent_unknown(OUTPUT, 0, output_size((enum which)(c - calls), x));
    if (c->writes & BIT(REPLIES)) lent_unknown(REPLIES, 0, x->replies_length * sizeof(uint64_t));
    if (c->writes & RECORD)
        for (int s = COLUMNS; s <= USED; s++) lent_unknown(s, 0, s == USED ? sizeof x->used : 1024);
    if (c->reads & RECORD && x->count <= 16) lent_unknown(USED, x->count * sizeof(size_t), sizeof x->used);
    for (size_t n = 0; c->reads & RECORD && x->count <= 16 && n < 16; n++) {
        size_t used = n < x->count ? x->used[n] : 0;
        lent_unknown(COLUMNS, 64 * n + used, used < 64 ? 64 * n + 64 : 0);
        lent_unknown(ROWS, 64 * n + used, used < 64 ? 64 * n + 64 : 0);
    }
    for (size_t k = 0; c->writes & BIT(LIST) && k < x->list_length; k++)
        lent_unknown(LIST, k * sizeof *x->list + offsetof(bankplan_pixel_record, bank), (k + 1) * sizeof *x->list);
    if (!((c->reads | c->writes) & (BIT(MEMORY) | BIT(SUMS)))) return;
    x = under_plan((enum which)(c - calls), x);
    if ((c->reads | c->writes) & BIT(SUMS)) make_sums_unknown((enum which)(c - calls), x);
    if ((c->reads | c->writes) & BIT(MEMORY) && is_picture(x)) lent_unknown(MEMORY, 2 * words_needed(x), 2 * x->words);
}

// The answer: what a refusal or the call tells at its start, the rest untouched.
static void judge_answer(const struct call *c, const struct input *x, uint64_t number) {
    const uint64_t *answer = lent(ANSWER);
    int values = number == 0 ? c->values : number == 10 ? 3 + (int)x->r : 1; // of a clash r + 1 positions
    if (!lent_known(ANSWER, 0, values * sizeof *answer)) say_wrong("told what is not known", number);
    lent_known_again(ANSWER);
    for (int k = 0; k < ANSWER_LENGTH; k++)
        if ((answer[k] == UNTOUCHED) != (k >= values)) say_wrong("the answer's row", number);
    if (!lent_same(ANSWER, 0, values * sizeof *answer)) say_wrong("the answer's rest", number);
    bool placed = number >= 1 && (number <= 5 || number == 19) && c->reads & BIT(BOOK);
    uint64_t most = placed ? x->book_length : number == BANKPLAN_NOT_CALLS ? x->numbers_length : 0;
    if (number && answer[0] > most) say_wrong("the place", number);
}

static void judge_lent(const struct call *c, const struct input *x, uint64_t number) {
    for (int s = 0; s < ANSWER; s++) {
        struct range r = {0, 0};
        if (!((c->reads | c->writes) & BIT(s))) continue;
        if (number == 0 && c->writes & BIT(s)) r = c->may_change(s, x, lent(ANSWER));
        if (!lent_known(s, r.from, r.to)) say_wrong("wrote what is not known", number);
        lent_known_again(s);
        if (!lent_same(s, r.from, r.to)) say_wrong("changed what it may not", number);
    }
}

unsigned bit_of(uint64_t number) { return number == BANKPLAN_NOT_CALLS ? NO_LIST : BIT(number <= 20 ? number : 31); }

// One call: what it was given stays, and what it says and leaves goes into the digest.
static uint64_t make_once(const struct call *c, const struct input *x) {
    uint64_t of_this = 0xcbf29ce484222325;
    lend_all(c, x);
    make_unknown(c, x);
    alarm(60);
    uint64_t number = c->make(x);
    alarm(0);
    if (!(c->numbers & bit_of(number))) say_wrong("not a number of this call", number);
    else given[c - calls] |= bit_of(number);
    judge_answer(c, x, number);
    judge_lent(c, x, number);
    last_number = number;
    last_place = *(const uint64_t *)lent(ANSWER);
    for (int s = 0; s < SLOTS; s++)
        if ((c->writes | BIT(ANSWER)) & BIT(s)) of_this = lent_digest(s, of_this);
    for (int s = 0; s < SLOTS; s++)
        if ((c->reads | c->writes | BIT(ANSWER)) & BIT(s)) lend_end(s);
    return (of_this ^ number) * 0x100000001b3;
}

void try_call(enum which c, const struct input *x) {
    now = calls[c].name;
    cases++;
    uint64_t first = make_once(&calls[c], x);
    if (make_once(&calls[c], x) != first) say_wrong("another answer the second time", 0);
    digest = (digest ^ first) * 0x100000001b3;
}

void try_told(enum which c, const struct input *x, uint64_t number, uint64_t place) {
    try_call(c, x);
    if (last_number != number) say_wrong("another number than it must be", last_number);
    else if (number && last_place != place) say_wrong("another place than it must be", number);
}

void try_all(const struct input *x) {
    for (int c = 0; c < CALLS; c++) try_call(c, x);
}

// All cases, lent one way; what the calls said in all.
static uint64_t pass(enum way way, uint64_t how_many) {
    lend_by(way);
    inputs_begin(0x9e3779b97f4a7c15);
    digest = 0;
    all_cases(how_many, way != HEAP);
    return digest;
}

static void guard_pages(uint64_t how_many) {
    const int signals[] = {SIGSEGV, SIGBUS, SIGILL, SIGALRM};
    for (int k = 0; k < 4; k++) signal(signals[k], ended);
    uint64_t first = pass(END, how_many);
    if (pass(BEGIN, how_many) != first) say_wrong("other answers where buffers begin at a guard page", 0);
    for (int c = 0; c < CALLS; c++) {
        now = calls[c].name;
        if (given[c] != calls[c].numbers) say_wrong("some number of this call never came", given[c]);
    }
    for (int k = 0; k < KINDS; k++) {
        now = calls[of_kind[k]].name;
        if (replied[k] != calls[of_kind[k]].numbers) say_wrong("some number of this call never came in a reply", replied[k]);
    }
}

int main(int count, char **words) {
    uint64_t how_many = count == 3 ? strtoull(words[2], NULL, 10) : 0;
    if (how_many && strcmp(words[1], "guard") == 0) guard_pages(how_many);
    else if (how_many && strcmp(words[1], "heap") == 0) pass(HEAP, how_many);
    else return fprintf(stderr, "usage: hard guard|heap CASES\n"), 2;
    printf("hard use: %lu cases, %lu wrong\n", (unsigned long)cases, (unsigned long)wrong);
    free(memory_words);
    return wrong != 0;
}
