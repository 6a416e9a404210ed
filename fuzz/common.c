// See common.h.
#include "common.h"

static const uint64_t UNTOUCHED = 0xabad1deaabad1dea;

_Noreturn void wrong(const char *what, const char *file, int line) {
    fprintf(stderr, "%s:%d: wrong: %s\n", file, line, what);
    abort();
}

// The end of a block: nothing there may be read or written.
static char *nowhere(void) {
    static char *block;
    if (!block) block = malloc(16);
    return block + 16;
}

void *lent(size_t bytes) {
    if (bytes == 0) return nowhere();
    void *buffer = malloc(bytes);
    if (!buffer) wrong("no memory", __FILE__, __LINE__);
    return buffer;
}

void *lent_copy(const void *from, size_t bytes) {
    void *buffer = lent(bytes);
    if (bytes) memcpy(buffer, from, bytes);
    return buffer;
}

void give_back(void *buffer, size_t bytes) {
    if (bytes) free(buffer);
}

uint64_t *fresh_answer(void) {
    uint64_t *answer = lent(ANSWER_LENGTH * sizeof *answer);
    for (int k = 0; k < ANSWER_LENGTH; k++) answer[k] = UNTOUCHED;
    return answer;
}

struct told take_answer(uint64_t number, uint64_t *answer) {
    struct told t = {.number = number, .values = ANSWER_LENGTH};
    memcpy(t.row, answer, sizeof t.row);
    free(answer);
    while (t.values > 0 && t.row[t.values - 1] == UNTOUCHED) t.values--;
    return t;
}

void must_refuse(struct told t, uint64_t number) {
    MUST(number != 10 && t.number == number);
    MUST(t.values == 1 && t.row[0] == 0);
}

void must_clash(struct told t, uint32_t r, size_t n, const size_t positions[CLASH_LENGTH]) {
    MUST(t.number == 10 && t.values == (int)r + 3);
    MUST(t.row[0] == 0 && t.row[1] == n);
    for (uint32_t m = 0; m <= r; m++) MUST(t.row[2 + m] == positions[m]);
}

unsigned byte(struct feed *f) {
    if (f->left == 0) return 0;
    f->left--;
    return *f->next++;
}

unsigned two(struct feed *f) {
    unsigned low = byte(f);
    return low | byte(f) << 8;
}

uint64_t eight(struct feed *f) {
    uint64_t x = 0;
    for (int k = 0; k < 8; k++) x |= (uint64_t)byte(f) << (8 * k);
    return x;
}

uint32_t cycles_from(struct feed *f) {
    unsigned x = byte(f);
    return x < 200 ? 1 + x % 8 : x < 250 ? x - 200 : (uint32_t)eight(f);
}

bool is_cycles(uint32_t r) { return r >= 1 && r <= 8; }

// Whether (i, j) is lower than (x, y): by row, then column.
static bool lower(int i, int j, int x, int y) { return j < y || (j == y && i < x); }

// The last pixel goes down to its place among those before it.
static void put_in_order(int8_t *columns, int8_t *rows, size_t last) {
    int8_t column = columns[last], row = rows[last];
    size_t m = last;
    for (; m > 0 && lower(column, row, columns[m - 1], rows[m - 1]); m--) {
        columns[m] = columns[m - 1];
        rows[m] = rows[m - 1];
    }
    columns[m] = column;
    rows[m] = row;
}

// Up to 64 different pixels of the window; at least one. In order, or as they come where the count's highest bit is set.
static size_t pattern_of(struct feed *f, int8_t *columns, int8_t *rows) {
    unsigned how = byte(f);
    size_t wanted = 1 + how % 64, used = 0;
    for (size_t m = 0; m < wanted && (used == 0 || f->left > 0); m++) {
        unsigned x = two(f);
        int8_t column = (int)(x & 31) - 16, row = (int)(x >> 8 & 31) - 16;
        size_t same = 0;
        while (same < used && (columns[same] != column || rows[same] != row)) same++;
        if (same < used) continue;
        columns[used] = column;
        rows[used] = row;
        if (how < 128) put_in_order(columns, rows, used);
        used++;
    }
    return used;
}

static size_t any_count(struct feed *f) {
    unsigned x = byte(f);
    return x == 255 ? (size_t)eight(f) : x;
}

struct record record_of(struct feed *f, bool drawn) {
    struct record r = {lent(1024), lent(1024), lent(16 * sizeof(size_t)), 0};
    for (int k = 0; k < 1024; k++) {
        r.columns[k] = k * 7 % 256 - 128;
        r.rows[k] = k * 11 % 256 - 128;
    }
    for (int n = 0; n < 16; n++) r.used[n] = n % 2 ? SIZE_MAX - n : 65 + n;
    r.count = drawn ? 1 + byte(f) % 16 : any_count(f);
    size_t patterns = 0;
    for (size_t n = 0; n < r.count && n < 16 && (n == 0 || f->left > 0); n++) {
        int8_t *columns = r.columns + 64 * n, *rows = r.rows + 64 * n;
        if (drawn) {
            r.used[n] = pattern_of(f, columns, rows);
        } else {
            r.used[n] = any_count(f);
            for (size_t m = 0; m < r.used[n] && m < 64; m++) {
                columns[m] = byte(f);
                rows[m] = byte(f);
            }
        }
        patterns++;
    }
    if (drawn) r.count = patterns;
    return r;
}

void drop_record(struct record *r) {
    free(r->columns);
    free(r->rows);
    free(r->used);
}

bool is_plan(struct plan p) { return p.a >= 1 && p.d >= 1 && p.b < p.a && (uint64_t)p.a * p.d <= 1024; }

int64_t floor_mod(int64_t x, int64_t m) {
    int64_t rest = x % m;
    return rest < 0 ? rest + m : rest;
}

bool in_lattice(struct plan p, int i, int j) {
    int64_t a = p.a, b = p.b, d = p.d;
    return j % d == 0 && (i - b * (j / d)) % a == 0;
}

uint32_t plain_bank(struct plan p, int i, int j) {
    int64_t r = floor_mod(j, p.d), q = (j - r) / (int64_t)p.d;
    return (uint32_t)(r * p.a + floor_mod(i - (int64_t)p.b * q, p.a));
}

static bool in_window(int z) { return z >= -16 && z <= 15; }

unsigned plain_test(const struct record *r) {
    if (r->count < 1 || r->count > 16) return 2;
    for (size_t n = 0; n < r->count; n++) {
        const int8_t *columns = r->columns + 64 * n, *rows = r->rows + 64 * n;
        if (r->used[n] < 1 || r->used[n] > 64) return 2;
        for (size_t m = 0; m < r->used[n]; m++) {
            if (!in_window(columns[m]) || !in_window(rows[m])) return 3;
            for (size_t k = 0; k < m; k++)
                if (columns[k] == columns[m] && rows[k] == rows[m]) return 4;
            if (m > 0 && lower(columns[m], rows[m], columns[m - 1], rows[m - 1])) return 19;
        }
    }
    return 0;
}

bool plain_clash(const struct record *book, size_t n, uint32_t r, struct plan p, size_t positions[CLASH_LENGTH]) {
    const int8_t *columns = book->columns + 64 * n, *rows = book->rows + 64 * n;
    for (size_t m = 0; m < book->used[n]; m++) {
        size_t count = 0;
        for (size_t k = m; k < book->used[n] && count <= r; k++)
            if (in_lattice(p, columns[k] - columns[m], rows[k] - rows[m])) positions[count++] = k;
        if (count > r) return true;
    }
    return false;
}
