// What the lists of calls go by: a record, a plan, a picture with its memory and sums, a plain array from pixel to word, and what
// the sums must be.
#ifndef GAME_H
#define GAME_H
#include "common.h"

#define RECORD(r) (r)->columns, (r)->rows, (r)->used, (r)->count
#define PLAN(g) (g)->p.a, (g)->p.b, (g)->p.d
#define PICTURE(g) PLAN(g), (g)->w, (g)->h, (g)->memory, (g)->words
#define SUMS(g) (g)->sums, (g)->entries
enum { PAST = 0xbeef }; // what stands in the words past the picture's

struct game {
    struct record r;
    unsigned record_refused; // the number that the record is refused by, or 0
    uint32_t cycles;
    struct plan p;
    uint32_t w, h;
    uint64_t banks, depth; // 0 where there are none
    unsigned refused;      // 11, 12, 13 or 0, by the memory
    unsigned lent_refused; // the same where the sums are lent too
    bool ring;             // whether a ring fetch is allowed
    uint16_t *memory;
    size_t words;
    uint16_t *shadow; // the word last stored at each pixel
    uint64_t *sums, *kept; // as lent, and what each entry must be
    size_t entries;
    bool made; // whether the sums were made afresh, so that each is the walk's figure
};

// Taken from the input, in this order; `how` has a bit for each way.
void choose_plan(struct game *g, struct feed *f, unsigned how);
void choose_sides(struct game *g, struct feed *f, unsigned how);
void choose_memory(struct game *g, struct feed *f);
void choose_sums(struct game *g, struct feed *f, unsigned how);

// Numbers from the input: of 16 bits, and up to 64 without a sign; small ones, ones at an edge, or any.
int16_t coordinate(struct feed *f);
uint64_t number(struct feed *f);

bool inside(const struct game *g, int i, int j);
uint16_t *pixel(const struct game *g, int i, int j);
uint64_t plain_address(const struct game *g, int i, int j);

// The number that a call on the picture is refused by, where its own condition holds or not, or 0.
unsigned outcome(const struct game *g, unsigned condition, bool holds);
// That of a call that is lent the sums too, and that of reading the sum of bank k, which goes by no sides.
unsigned lent_outcome(const struct game *g, unsigned condition, bool holds);
unsigned read_outcome(const struct game *g, uint64_t k);
// That of a fetch, in document 01's order, with 20 behind the book; of a clash, where.
unsigned fetch_number(const struct game *g, size_t n, int i, int j, size_t room, bool ring, size_t clash[CLASH_LENGTH]);
// The word last stored at pixel m of pattern n, moved to (i, j); of a ring fetch at the wrapped one.
uint16_t fetched_word(const struct game *g, size_t n, size_t m, int i, int j, bool ring);

// What the calls do, on the plain array and on what the sums must be.
void plain_store(struct game *g, int i, int j, uint16_t word);
void plain_clear(struct game *g, uint64_t k);
uint64_t plain_sum(const struct game *g, uint64_t k);
void plain_make(struct game *g);
// Each entry of the sums is as it must be, those past N too.
void must_keep(const struct game *g);

// runs.c: some calls made as one list
void run(struct game *g, struct feed *f);
#endif
