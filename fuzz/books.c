// Target 1: the book reader, a pattern's part and the writer, on the input as a book.
#include "common.h"

struct place {
    unsigned number;
    size_t at;
};

static bool coordinate(uint8_t x) { return x <= 15 || x >= 240; }

// Whether the pixel of these two bytes is lower than the one of the two before: by row, then column.
static bool lower(const uint8_t *pixel) {
    int8_t row = (int8_t)pixel[1], before = (int8_t)pixel[-1];
    return row < before || (row == before && (int8_t)pixel[0] < (int8_t)pixel[-2]);
}

// One pattern from `at` on; moves it past the pattern.
static struct place plain_pattern(const uint8_t *s, size_t length, size_t *at) {
    if (*at == length) return (struct place){1, length};
    unsigned pixels = s[*at];
    if (pixels < 1 || pixels > 64) return (struct place){2, *at};
    size_t first = ++*at;
    for (unsigned m = 0; m < pixels; m++, *at += 2) {
        if (length - *at < 2) return (struct place){1, length};
        if (!coordinate(s[*at])) return (struct place){3, *at};
        if (!coordinate(s[*at + 1])) return (struct place){3, *at + 1};
        for (size_t k = first; k < *at; k += 2)
            if (s[k] == s[*at] && s[k + 1] == s[*at + 1]) return (struct place){4, *at};
        if (m > 0 && lower(s + *at)) return (struct place){19, *at};
    }
    return (struct place){0, 0};
}

// Document 01's reader, plainly: the number and place of the refusal, or 0.
static struct place plain_read(const uint8_t *s, size_t length) {
    if (length == 0) return (struct place){1, 0};
    if (s[0] < 1 || s[0] > 16) return (struct place){2, 0};
    size_t at = 1;
    for (unsigned n = 0; n < s[0]; n++) {
        struct place p = plain_pattern(s, length, &at);
        if (p.number) return p;
    }
    return at < length ? (struct place){5, at} : (struct place){0, 0};
}

static void must_tell_place(struct told t, struct place p) {
    MUST(t.number == p.number && t.values == 1 && t.row[0] == p.at);
}

// A refused book: the arrays are as they were, and every part has the same refusal.
static void refused(const uint8_t *s, size_t length, struct place p, const struct record *before, const struct record *r) {
    MUST(p.at <= length);
    MUST(memcmp(before->columns, r->columns, 1024) == 0 && memcmp(before->rows, r->rows, 1024) == 0);
    MUST(memcmp(before->used, r->used, 16 * sizeof(size_t)) == 0);
    const size_t numbers[] = {0, 1, 15, 16, SIZE_MAX};
    for (int k = 0; k < 5; k++) {
        TOLD(part, bankplan_pattern_part(s, length, numbers[k], answer));
        must_tell_place(part, p);
    }
}

// The parts follow each other, one count byte before each, up to the end; the pixels are theirs, unused entries 0.
static void parts(const uint8_t *s, size_t length, const struct record *r) {
    size_t at = 1;
    for (size_t n = 0; n < 16; n++) {
        size_t used = r->used[n];
        for (size_t m = 0; m < 64; m++) {
            bool is = n < r->count && m < used;
            MUST(r->columns[64 * n + m] == (is ? (int8_t)s[at + 1 + 2 * m] : 0));
            MUST(r->rows[64 * n + m] == (is ? (int8_t)s[at + 2 + 2 * m] : 0));
        }
        TOLD(part, bankplan_pattern_part(s, length, n, answer));
        if (n >= r->count) {
            MUST(used == 0);
            must_refuse(part, 17);
            continue;
        }
        MUST(used == s[at]);
        MUST(part.number == 0 && part.values == 2 && part.row[0] == at + 1 && part.row[1] == 2 * used);
        at += 1 + 2 * used;
    }
    MUST(at == length);
    TOLD(beyond, bankplan_pattern_part(s, length, SIZE_MAX, answer));
    must_refuse(beyond, 17);
}

// Two neighbours of one pattern exchanged: the later one is then lower, in the bytes and in the record.
static void exchanged(const uint8_t *s, size_t length, const struct record *r) {
    size_t n = length % r->count, at = 1;
    if (r->used[n] < 2) return;
    for (size_t k = 0; k < n; k++) at += 1 + 2 * r->used[k];
    size_t m = length % (r->used[n] - 1), first = at + 1 + 2 * m;
    uint8_t *other = lent_copy(s, length);
    struct record same = {lent_copy(r->columns, 1024), lent_copy(r->rows, 1024), lent_copy(r->used, 16 * sizeof(size_t)), r->count};
    for (size_t k = 0; k < 2; k++) {
        memcpy(other + first + 2 * k, s + first + 2 * (1 - k), 2);
        same.columns[64 * n + m + k] = r->columns[64 * n + m + 1 - k];
        same.rows[64 * n + m + k] = r->rows[64 * n + m + 1 - k];
    }
    TOLD(part, bankplan_pattern_part(other, length, n, answer));
    must_tell_place(part, (struct place){19, first + 2});
    TOLD(test, bankplan_test_record(same.columns, same.rows, same.used, same.count, answer));
    must_refuse(test, 19);
    give_back(other, length);
    drop_record(&same);
}

// Writes into so much room: the same bytes and the rest unchanged, or 16 and nothing changed.
static void write_into(const uint8_t *s, size_t length, size_t room, const struct record *r) {
    uint8_t *out = lent(room);
    if (room) memset(out, 0xee, room);
    TOLD(t, bankplan_write_book(r->columns, r->rows, r->used, r->count, out, room, answer));
    size_t written = 0;
    if (room < length) {
        must_refuse(t, 16);
    } else {
        MUST(t.number == 0 && t.values == 1 && t.row[0] == length);
        MUST(memcmp(out, s, length) == 0);
        written = length;
    }
    for (size_t k = written; k < room; k++) MUST(out[k] == 0xee);
    give_back(out, room);
}

int LLVMFuzzerTestOneInput(const uint8_t *data, size_t size) {
    struct feed none = {NULL, 0};
    struct record before = record_of(&none, false), r = record_of(&none, false);
    uint8_t *s = lent_copy(data, size);
    struct place p = plain_read(data, size);
    TOLD(t, bankplan_read_book(s, size, r.columns, r.rows, r.used, answer));
    if (p.number) {
        must_tell_place(t, p);
        refused(s, size, p, &before, &r);
    } else {
        MUST(t.number == 0 && t.values == 1 && t.row[0] == data[0]);
        r.count = t.row[0];
        parts(s, size, &r);
        exchanged(s, size, &r);
        TOLD(test, bankplan_test_record(r.columns, r.rows, r.used, r.count, answer));
        MUST(test.number == 0 && test.values == 0);
        write_into(s, size, size, &r);
        write_into(s, size, size + 3, &r);
        write_into(s, size, size - 1, &r);
        write_into(s, size, 0, &r);
    }
    MUST(size == 0 || memcmp(s, data, size) == 0);
    give_back(s, size);
    drop_record(&before);
    drop_record(&r);
    return 0;
}
