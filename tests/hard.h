// What the parts of the hard use test share: what is lent to a call, and what a call is given.
#ifndef HARD_H
#define HARD_H
#include <stdbool.h>
#include <stddef.h>
#include <stdint.h>

#include "../include/bankplan.h"

// Everything that a call can be lent.
enum slot { BOOK, COLUMNS, ROWS, USED, MEMORY, SUMS, OUTPUT, LIST, NUMBERS, REPLIES, ANSWER, SLOTS };

// Where a lent buffer stands: up to a page that nobody may touch, from such a page on, or in a heap block of its size.
enum way { END, BEGIN, HEAP };

enum { ANSWER_LENGTH = 12 }; // numbers of an answer
enum { MOST_CALLS = 40 };   // calls of a list, at most
enum { SMALL = 8192, MOST_WORDS = 22 << 20 }; // bytes of a small slot; words of the largest picture's memory, and some
enum { MOST_ENTRIES = 2048 };                  // entries of the sums, at most

// hard_lend.c
void lend_by(enum way way);
void lend(enum slot s, const void *content, size_t size, bool writable);
void *lent(enum slot s);
// Only valgrind sees these: bytes that the call must not go by, and whether bytes are made of such.
void lent_unknown(enum slot s, size_t from, size_t to);
bool lent_known(enum slot s, size_t from, size_t to);
void lent_known_again(enum slot s);
// Whether all but the bytes from `from` to `to` is as it was lent, and what stands around it too.
bool lent_same(enum slot s, size_t from, size_t to);
uint64_t lent_digest(enum slot s, uint64_t digest);
void lend_end(enum slot s);

// What a call is given. `room` is in elements, bytes for the writer and the cycles and words for a fetch.
struct input {
    uint32_t r, a, b, d, w, h, limit;
    uint64_t bank, address;
    int16_t i, j, v[4];
    uint16_t word;
    size_t n, count;
    uint8_t book[SMALL];
    size_t book_length;
    int8_t columns[1024], rows[1024];
    size_t used[16];
    size_t words, entries, write_room, cycles_room, fetch_room; // entries: of the sums
    bankplan_pixel_record list[100];
    size_t list_length;
    uint64_t numbers[(MOST_CALLS + 1) * BANKPLAN_CALL_NUMBERS]; // a list of calls, the words of its outputs, its replies
    size_t numbers_length, outs_room, replies_length;
};

struct range {
    size_t from, to;
};

// One exported function: the numbers that it can give, how many values it tells, what it is lent, and which bytes of what it is
// lent for writing may change where it was not refused.
struct call {
    const char *name;
    unsigned numbers;
    int values;
    unsigned reads, writes;
    uint64_t (*make)(const struct input *x);
    struct range (*may_change)(enum slot s, const struct input *x, const uint64_t *answer);
};

// hard_calls.c
#define BIT(n) (1u << (n))
#define NO_LIST BIT(30) // 255
enum which {
    NORMAL_FORM, BANK, DEPTH, ADDRESS, LOCATE, READ_BOOK, PATTERN_PART, WRITE_BOOK, TEST_RECORD,
    FIND, CHECK, WRITE_CYCLES, STORE, LOAD, CLEAR, SUM, MAKE_SUMS, READ_SUM, FETCH, RING_FETCH, FILL_RECORDS,
    RUN_LIST, FIND_AND_RUN, CALLS
};
enum { RECORD = BIT(COLUMNS) | BIT(ROWS) | BIT(USED) };
extern const struct call calls[CALLS];
size_t output_size(enum which c, const struct input *x);
const struct input *under_plan(enum which c, const struct input *x); // with the plan that the call goes by

// hard_lists.c
enum { KINDS = BANKPLAN_KIND_READ_SUM + 1 };
extern const enum which of_kind[KINDS]; // the single call of each kind
extern unsigned replied[KINDS];         // the numbers that each kind of call gave in lists
size_t calls_in(const struct input *x);
uint64_t room_of(const uint64_t *call);
bool as_single_calls(const struct input *x); // whether a list left what its single calls leave

// hard.c
unsigned bit_of(uint64_t number); // of a number that some call can give; of another none that any has
void try_call(enum which c, const struct input *x);
void try_told(enum which c, const struct input *x, uint64_t number, uint64_t place); // must be told these; no place for 0
void try_all(const struct input *x);

// hard_cases.c
void all_cases(uint64_t how_many, bool large);
void cross(struct input *x); // the cross of five pixels, r = 1, and all else 0
enum { EIGHT_CALLS = 8 * BANKPLAN_CALL_NUMBERS };
void eight_calls(struct input *x, uint64_t i, uint64_t j); // one of each kind

// hard_order.c
void every_order(struct input *x, bool all);

// hard_cycles.c
void every_cycle(struct input *x);

// hard_rings.c
void every_ring(struct input *x, bool all);

// hard_sums.c
void every_sum(struct input *x, bool all);

// hard_input.c
extern uint16_t *memory_words; // what stands in every memory that is lent
extern uint64_t sum_numbers[MOST_ENTRIES]; // and in the sums
void inputs_begin(uint64_t seed);
uint64_t any_number(void); // edges, small ones, and any
uint64_t below(uint64_t bound);
void any_input(struct input *x);
void hardest_record(struct input *x);
void plain_book(struct input *x); // the record's bytes, where it is legal
void damaged_book(struct input *x);
bool is_picture(const struct input *x); // whether plan and sides are legal
uint64_t depth_of(const struct input *x);
uint64_t words_needed(const struct input *x);
uint64_t banks_of(const struct input *x); // 0 where the plan is none
void just_enough(struct input *x);        // the words and the entries that the picture needs
#endif
