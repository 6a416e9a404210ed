// The cycles of a pattern, by the differences of its pixels and by the library's own banks.
#include "common.h"

enum { BEFORE = 0xee }; // what stands in an output before

static unsigned cycles_number(const struct record *book, unsigned refused, uint32_t r, struct plan p, size_t n, size_t room,
                              size_t clash[CLASH_LENGTH]) {
    if (refused) return refused;
    if (!is_cycles(r)) return 20;
    if (!is_plan(p)) return 11;
    if (n >= book->count) return 17;
    if (plain_clash(book, n, r, p, clash)) return 10;
    return room < book->used[n] ? 16 : 0;
}

// Each cycle is the count of earlier pixels whose difference is in the lattice, and below r; no two pixels have both their bank and
// their cycle in common.
static void must_be_cycles(const struct record *book, uint32_t r, struct plan p, size_t n, const uint8_t *out) {
    const int8_t *columns = book->columns + 64 * n, *rows = book->rows + 64 * n;
    uint64_t banks[64];
    for (size_t e = 0; e < book->used[n]; e++) {
        unsigned earlier = 0;
        TOLD(b, bankplan_bank(p.a, p.b, p.d, columns[e], rows[e], answer));
        MUST(b.number == 0 && b.values == 1);
        banks[e] = b.row[0];
        for (size_t m = 0; m < e; m++) {
            earlier += in_lattice(p, columns[e] - columns[m], rows[e] - rows[m]);
            MUST(banks[m] != banks[e] || out[m] != out[e]);
        }
        MUST(out[e] == earlier && out[e] < r);
    }
}

void cycles(const struct record *book, unsigned refused, uint32_t r, struct plan p, size_t n, size_t room) {
    size_t clash[CLASH_LENGTH], written = 0;
    unsigned no = cycles_number(book, refused, r, p, n, room, clash);
    uint8_t *out = lent(room);
    if (room) memset(out, BEFORE, room);
    TOLD(t, bankplan_write_cycles(book->columns, book->rows, book->used, book->count, r, p.a, p.b, p.d, n, out, room, answer));
    if (no == 10) {
        must_clash(t, r, n, clash);
    } else if (no) {
        must_refuse(t, no);
    } else {
        written = book->used[n];
        MUST(t.number == 0 && t.values == 1 && t.row[0] == written);
        must_be_cycles(book, r, p, n, out);
    }
    for (size_t k = written; k < room; k++) MUST(out[k] == BEFORE);
    give_back(out, room);
}
