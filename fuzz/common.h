// What the three targets share: exactly sized buffers, answers, the bytes of an input taken one by one, and document 01's
// conditions written out plainly.
#ifndef COMMON_H
#define COMMON_H
#include <stdbool.h>
#include <stddef.h>
#include <stdint.h>
#include <stdio.h>
#include <stdlib.h>
#include <string.h>

#include "../include/bankplan.h"

// A wrong answer ends the run; the fuzzer keeps the input.
#define MUST(condition) ((condition) ? (void)0 : wrong(#condition, __FILE__, __LINE__))
_Noreturn void wrong(const char *what, const char *file, int line);

// A buffer of exactly so many bytes; one of none begins where nothing may be touched.
void *lent(size_t bytes);
void *lent_copy(const void *from, size_t bytes);
void give_back(void *buffer, size_t bytes);

// What a call said: its number, the numbers of the answer, and how many of them it put there.
enum { ANSWER_LENGTH = 12 };
struct told {
    uint64_t number;
    uint64_t row[ANSWER_LENGTH];
    int values;
};
uint64_t *fresh_answer(void);
struct told take_answer(uint64_t number, uint64_t *answer);

// The call must be written with `answer` as its last argument.
#define TOLD(name, ...)                                 \
    struct told name;                                   \
    do {                                                \
        uint64_t *answer = fresh_answer();              \
        uint64_t number_ = __VA_ARGS__;                 \
        name = take_answer(number_, answer);            \
    } while (0)

// A refusal but 10 tells its place alone; here that is 0. 10 also tells the pattern and r + 1 positions.
enum { CLASH_LENGTH = BANKPLAN_MAX_CYCLES + 1 };
void must_refuse(struct told t, uint64_t number);
void must_clash(struct told t, uint32_t r, size_t n, const size_t positions[CLASH_LENGTH]);

// An input's bytes, 0 once they are used up.
struct feed {
    const uint8_t *next;
    size_t left;
};
unsigned byte(struct feed *f);
unsigned two(struct feed *f);
uint64_t eight(struct feed *f);
// Cycles: from 1 to 8 most often, near them, or any number.
uint32_t cycles_from(struct feed *f);
bool is_cycles(uint32_t r);

// A record in exactly sized arrays.
struct record {
    int8_t *columns, *rows;
    size_t *used;
    size_t count;
};
// From the input: patterns of different pixels, in order but for those that are not on purpose, or any bytes at all. What a
// record does not use is filled with other bytes.
struct record record_of(struct feed *f, bool drawn);
void drop_record(struct record *r);

struct plan {
    uint32_t a, b, d;
};
bool is_plan(struct plan p);
// p, q are pixels whose difference is (i, j); a plan suits if none is in its lattice
bool in_lattice(struct plan p, int i, int j);
int64_t floor_mod(int64_t x, int64_t m);
uint32_t plain_bank(struct plan p, int i, int j);

// 0, or the number that a record is refused by.
unsigned plain_test(const struct record *r);
// The first r + 1 positions of pattern n, compared one by one, whose differences are in the lattice; r is from 1 to 8.
bool plain_clash(const struct record *book, size_t n, uint32_t r, struct plan p, size_t positions[CLASH_LENGTH]);

// cycles.c: the cycles of pattern n under a plan, with an output of so many bytes, by the number that must be told and by the
// differences of the pixels. The plan and the record may be wrong; `refused` is the number of the record's refusal, or 0.
void cycles(const struct record *book, unsigned refused, uint32_t r, struct plan p, size_t n, size_t room);
#endif
