// Target 2: the finder, the check and the cycles, on a record, cycles r, a limit and two vectors made from the input.
#include "common.h"

#define RECORD(book) (book)->columns, (book)->rows, (book)->used, (book)->count

static bool suits(const struct record *book, uint32_t r, struct plan p) {
    size_t positions[CLASH_LENGTH];
    for (size_t n = 0; n < book->count; n++)
        if (plain_clash(book, n, r, p, positions)) return false;
    return true;
}

static struct plan plan_of(struct told t) {
    MUST(t.number == 0 && t.values >= 3);
    struct plan p = {(uint32_t)t.row[0], (uint32_t)t.row[1], (uint32_t)t.row[2]};
    MUST(p.a == t.row[0] && p.b == t.row[1] && p.d == t.row[2] && is_plan(p));
    return p;
}

// No plan before p, by count, then b, then d, suits. Tried where there are few.
static void must_be_least(const struct record *book, uint32_t r, struct plan p) {
    uint32_t banks = p.a * p.d;
    for (uint32_t n = 1; n <= banks; n++)
        for (uint32_t b = 0; b < n; b++)
            for (uint32_t d = 1; b < n / d; d++) {
                if (n % d != 0) continue;
                if (n == banks && b == p.b && d == p.d) return;
                MUST(!suits(book, r, (struct plan){n / d, b, d}));
            }
    wrong("the plan is none of those tried", __FILE__, __LINE__);
}

// The count is within document 01's bounds, the lower one divided by r and rounded up.
static void must_be_bounded(const struct record *book, uint32_t r, uint32_t banks) {
    int wide = 0, high = 0;
    for (size_t n = 0; n < book->count; n++) {
        const int8_t *columns = book->columns + 64 * n, *rows = book->rows + 64 * n;
        MUST((uint64_t)banks * r >= book->used[n]);
        for (size_t m = 0; m < book->used[n]; m++)
            for (size_t k = 0; k < book->used[n]; k++) {
                if (columns[m] - columns[k] > wide) wide = columns[m] - columns[k];
                if (rows[m] - rows[k] > high) high = rows[m] - rows[k];
            }
    }
    MUST(banks <= (uint32_t)((1 + wide) * (1 + high)));
}

// The plan with the fewest banks: it suits, is within the bounds, and its own check has surplus 0.
static struct plan found(const struct record *book, uint32_t r) {
    TOLD(t, bankplan_find(RECORD(book), r, 1024, answer));
    MUST(t.values == 3);
    struct plan p = plan_of(t);
    MUST(suits(book, r, p));
    must_be_bounded(book, r, p.a * p.d);
    if (p.a * p.d <= 12) must_be_least(book, r, p);
    TOLD(c, bankplan_check(RECORD(book), r, p.a, 0, p.b, p.d, answer));
    MUST(c.number == 0 && c.values == 4 && memcmp(c.row, t.row, 3 * sizeof t.row[0]) == 0 && c.row[3] == 0);
    return p;
}

// 6 outside 1 to 1024, 7 exactly where the least count is above the limit, else the same plan.
static void at_limit(const struct record *book, uint32_t r, uint32_t limit, struct plan p) {
    TOLD(t, bankplan_find(RECORD(book), r, limit, answer));
    if (limit < 1 || limit > 1024) {
        must_refuse(t, 6);
    } else if (p.a * p.d > limit) {
        must_refuse(t, 7);
    } else {
        struct plan q = plan_of(t);
        MUST(t.values == 3 && q.a == p.a && q.b == p.b && q.d == p.d);
    }
}

// The clash told is that of the lowest pattern that has one.
static void must_clash_first(const struct record *book, uint32_t r, struct plan p, struct told t) {
    size_t n = 0, positions[CLASH_LENGTH];
    while (n < book->count && !plain_clash(book, n, r, p, positions)) n++;
    MUST(n < book->count);
    must_clash(t, r, n, positions);
}

// The normal form generates the same lattice: it has both vectors, and the size of their determinant.
static struct plan normal(const int16_t v[4], uint64_t size) {
    TOLD(t, bankplan_normal_form(v[0], v[1], v[2], v[3], answer));
    MUST(t.values == 3);
    struct plan p = plan_of(t);
    MUST(p.a * p.d == size && in_lattice(p, v[0], v[1]) && in_lattice(p, v[2], v[3]));
    return p;
}

// The check of two vectors, given the least count.
static void checked(const struct record *book, uint32_t r, const int16_t v[4], struct plan least) {
    int64_t determinant = (int64_t)v[0] * v[3] - (int64_t)v[1] * v[2];
    uint64_t size = determinant < 0 ? -determinant : determinant;
    TOLD(t, bankplan_check(RECORD(book), r, v[0], v[1], v[2], v[3], answer));
    if (size == 0 || size > 1024) {
        must_refuse(t, size ? 9 : 8);
        TOLD(f, bankplan_normal_form(v[0], v[1], v[2], v[3], answer));
        must_refuse(f, size ? 9 : 8);
        return;
    }
    struct plan p = normal(v, size);
    for (size_t n = 0; n < book->count; n++) cycles(book, 0, r, p, n, 64);
    if (!suits(book, r, p)) {
        must_clash_first(book, r, p, t);
        return;
    }
    struct plan q = plan_of(t);
    MUST(t.values == 4 && q.a == p.a && q.b == p.b && q.d == p.d && t.row[3] == size - least.a * least.d);
}

// A vector of any size, or one near 0, so that many determinants are within 1024.
static void vectors(struct feed *f, bool near, int16_t v[4]) {
    for (int k = 0; k < 4; k++) {
        v[k] = (int16_t)two(f);
        if (near) v[k] = v[k] % 33;
    }
}

static void legal_record(const struct record *book, uint32_t r, uint32_t limit, const int16_t v[4]) {
    struct plan p = found(book, r);
    at_limit(book, r, limit, p);
    at_limit(book, r, p.a * p.d, p);
    at_limit(book, r, p.a * p.d - 1, p);
    checked(book, r, v, p);
    for (size_t n = 0; n <= book->count; n++) cycles(book, 0, r, p, n, n % 3 ? 64 : book->used[n % book->count]);
}

// r is none: 6 before 20, and 20 before what is wrong with the vectors.
static void no_cycles(const struct record *book, uint32_t r, uint32_t limit, const int16_t v[4]) {
    TOLD(f, bankplan_find(RECORD(book), r, limit, answer));
    must_refuse(f, limit < 1 || limit > 1024 ? 6 : 20);
    TOLD(c, bankplan_check(RECORD(book), r, v[0], v[1], v[2], v[3], answer));
    must_refuse(c, 20);
    cycles(book, 0, r, (struct plan){limit, 0, 1}, 0, 64);
}

static void refused_record(const struct record *book, uint32_t r, uint32_t limit, const int16_t v[4], unsigned number) {
    TOLD(f, bankplan_find(RECORD(book), r, limit, answer));
    must_refuse(f, number);
    TOLD(c, bankplan_check(RECORD(book), r, v[0], v[1], v[2], v[3], answer));
    must_refuse(c, number);
    cycles(book, number, r, (struct plan){limit, 0, 1}, 0, 64);
    uint8_t *out = lent(0);
    TOLD(w, bankplan_write_book(RECORD(book), out, 0, answer));
    must_refuse(w, number);
}

int LLVMFuzzerTestOneInput(const uint8_t *data, size_t size) {
    struct feed f = {data, size};
    unsigned how = byte(&f);
    uint32_t r = cycles_from(&f), limit = how & 1 ? two(&f) % 1030 : (uint32_t)eight(&f);
    int16_t v[4];
    vectors(&f, how & 2, v);
    struct record book = record_of(&f, how & 12), same = book;
    same.columns = lent_copy(book.columns, 1024);
    same.rows = lent_copy(book.rows, 1024);
    same.used = lent_copy(book.used, 16 * sizeof(size_t));
    unsigned number = plain_test(&book);
    TOLD(t, bankplan_test_record(RECORD(&book), answer));
    if (number) {
        must_refuse(t, number);
        refused_record(&book, r, limit, v, number);
    } else {
        MUST(t.number == 0 && t.values == 0);
        (is_cycles(r) ? legal_record : no_cycles)(&book, r, limit, v);
    }
    MUST(memcmp(same.columns, book.columns, 1024) == 0 && memcmp(same.rows, book.rows, 1024) == 0);
    MUST(memcmp(same.used, book.used, 16 * sizeof(size_t)) == 0);
    drop_record(&book);
    drop_record(&same);
    return 0;
}
