// Target 3: lists of calls on a picture, against a plain array from pixel to word and what the sums must be.
#include "game.h"

static void store(struct game *g, struct feed *f) {
    int16_t i = coordinate(f), j = coordinate(f);
    uint16_t word = two(f);
    unsigned no = lent_outcome(g, 14, !inside(g, i, j));
    TOLD(t, bankplan_store(PICTURE(g), SUMS(g), i, j, word, answer));
    if (no) {
        must_refuse(t, no);
    } else {
        MUST(t.number == 0 && t.values == 0);
        plain_store(g, i, j, word);
    }
    must_keep(g);
}

static void load(const struct game *g, struct feed *f) {
    int16_t i = coordinate(f), j = coordinate(f);
    unsigned no = outcome(g, 14, !inside(g, i, j));
    TOLD(t, bankplan_load(PICTURE(g), i, j, answer));
    if (no) must_refuse(t, no);
    else MUST(t.number == 0 && t.values == 1 && t.row[0] == *pixel(g, i, j));
}

// The sum of a bank's words; then clears it if so asked.
static void bank(struct game *g, struct feed *f) {
    uint64_t k = number(f);
    bool clear = byte(f) % 2;
    unsigned no = outcome(g, 15, k >= g->banks);
    TOLD(s, bankplan_sum(PICTURE(g), k, answer));
    if (no) must_refuse(s, no);
    else MUST(s.number == 0 && s.values == 1 && s.row[0] == plain_sum(g, k));
    if (!clear) return;
    no = lent_outcome(g, 15, k >= g->banks);
    TOLD(c, bankplan_clear(PICTURE(g), SUMS(g), k, answer));
    if (no) {
        must_refuse(c, no);
    } else {
        MUST(c.number == 0 && c.values == 0);
        plain_clear(g, k);
    }
    must_keep(g);
}

static void make_sums(struct game *g) {
    unsigned no = lent_outcome(g, 0, false);
    TOLD(t, bankplan_make_sums(PICTURE(g), SUMS(g), answer));
    if (no) {
        must_refuse(t, no);
    } else {
        MUST(t.number == 0 && t.values == 0);
        plain_make(g);
    }
    must_keep(g);
}

// The sum that is kept of a bank; once they were made afresh it is the walk's figure.
static void read_sum(const struct game *g, struct feed *f) {
    uint64_t k = number(f);
    unsigned no = read_outcome(g, k);
    TOLD(t, bankplan_read_sum(PLAN(g), SUMS(g), k, answer));
    if (no) must_refuse(t, no);
    else MUST(t.number == 0 && t.values == 1 && t.row[0] == g->kept[k]);
    if (no || !g->made) return;
    TOLD(s, bankplan_sum(PICTURE(g), k, answer));
    MUST(s.number == 0 && s.row[0] == t.row[0]);
}

// Bank, depth and address of a pixel, and the pixel of that bank and address.
static void numbers(const struct game *g, struct feed *f) {
    int16_t i = coordinate(f), j = coordinate(f);
    unsigned no = g->refused == 13 ? 0 : g->refused;
    TOLD(b, bankplan_bank(PLAN(g), i, j, answer));
    if (no == 11) must_refuse(b, 11);
    else MUST(b.number == 0 && b.values == 1 && b.row[0] == plain_bank(g->p, i, j));
    TOLD(d, bankplan_depth(PLAN(g), g->w, g->h, answer));
    if (no) must_refuse(d, no);
    else MUST(d.number == 0 && d.values == 1 && d.row[0] == g->depth);
    TOLD(t, bankplan_address(PLAN(g), g->w, g->h, i, j, answer));
    if (no || !inside(g, i, j)) {
        must_refuse(t, no ? no : 14);
        return;
    }
    MUST(t.number == 0 && t.values == 1 && t.row[0] == plain_address(g, i, j));
    TOLD(l, bankplan_locate(PLAN(g), g->w, g->h, b.row[0], t.row[0], answer));
    MUST(l.number == 0 && l.values == 2 && l.row[0] == (uint64_t)i && l.row[1] == (uint64_t)j);
}

// Any bank and address: 15, or a pixel inside that has them.
static void locate(const struct game *g, struct feed *f) {
    uint64_t k = number(f), i = number(f);
    unsigned no = g->refused == 13 ? 0 : g->refused;
    TOLD(t, bankplan_locate(PLAN(g), g->w, g->h, k, i, answer));
    if (no) {
        must_refuse(t, no);
        return;
    }
    if (t.number == 0) {
        MUST(t.values == 2 && t.row[0] < g->w && t.row[1] < g->h);
        MUST(plain_bank(g->p, t.row[0], t.row[1]) == k && plain_address(g, t.row[0], t.row[1]) == i);
        return;
    }
    must_refuse(t, 15);
    if (k >= g->banks || i >= g->depth || (uint64_t)g->w * g->h > 4096) return;
    for (uint32_t y = 0; y < g->h; y++)
        for (uint32_t x = 0; x < g->w; x++) MUST(plain_bank(g->p, x, y) != k || plain_address(g, x, y) != i);
}

static void fetch(const struct game *g, struct feed *f, bool ring) {
    size_t n = number(f), room = byte(f) % 67, clash[CLASH_LENGTH], used = 0;
    int16_t i = coordinate(f), j = coordinate(f);
    unsigned no = fetch_number(g, n, i, j, room, ring, clash);
    uint16_t *out = lent(room * sizeof *out);
    for (size_t m = 0; m < room; m++) out[m] = PAST;
    TOLD(t, (ring ? bankplan_ring_fetch : bankplan_fetch)(RECORD(&g->r), g->cycles, PICTURE(g), n, i, j, out, room, answer));
    if (no == 10) {
        must_clash(t, g->cycles, n, clash);
    } else if (no) {
        must_refuse(t, no);
    } else {
        used = g->r.used[n];
        MUST(t.number == 0 && t.values == 1 && t.row[0] == used);
    }
    for (size_t m = 0; m < used; m++) MUST(out[m] == fetched_word(g, n, m, i, j, ring));
    for (size_t m = used; m < room; m++) MUST(out[m] == PAST);
    give_back(out, room * sizeof *out);
}

// A list of pixel records: every bank and address filled in, or none changed.
static void fill(const struct game *g, struct feed *f) {
    unsigned no = g->refused == 13 ? 0 : g->refused;
    size_t length = byte(f) % 9;
    bankplan_pixel_record *list = lent(length * sizeof *list), before[9];
    for (size_t k = 0; k < length; k++) {
        before[k].column = coordinate(f);
        before[k].row = coordinate(f);
        before[k].bank = before[k].address = PAST;
        if (!no && !inside(g, before[k].column, before[k].row)) no = 14;
        list[k] = before[k];
    }
    TOLD(t, bankplan_fill_records(PLAN(g), g->w, g->h, list, length, answer));
    if (no) must_refuse(t, no);
    else MUST(t.number == 0 && t.values == 0);
    for (size_t k = 0; k < length; k++) {
        int i = before[k].column, j = before[k].row;
        MUST(list[k].column == i && list[k].row == j);
        MUST(list[k].bank == (no ? PAST : plain_bank(g->p, i, j)));
        MUST(list[k].address == (no ? PAST : plain_address(g, i, j)));
    }
    give_back(list, length * sizeof *list);
}

static void step(struct game *g, struct feed *f) {
    switch (byte(f) % 13) {
    case 0:
    case 1: store(g, f); break;
    case 2: load(g, f); break;
    case 3: bank(g, f); break;
    case 4: numbers(g, f); break;
    case 5: locate(g, f); break;
    case 6: fetch(g, f, false); break;
    case 7: fetch(g, f, true); break;
    case 8: fill(g, f); break;
    case 9: run(g, f); break;
    case 11: make_sums(g); break;
    case 12: read_sum(g, f); break;
    default: {
        size_t n = number(f), room = byte(f) % 67;
        cycles(&g->r, g->record_refused, g->cycles, g->p, n, room);
    }
    }
}

// The sum of the words of bank k in the memory.
static uint64_t walked(const struct game *g, size_t k) {
    uint64_t sum = 0;
    for (size_t i = k * g->depth; i < (k + 1) * g->depth; i++) sum += g->memory[i];
    return sum;
}

// After the list: every word last stored in its place, the other words of the picture 0, the rest as at the start. The sums are as
// they must be; once they were made afresh each is that of its bank's words.
static void after(const struct game *g) {
    uint64_t sum = 0, stored = 0;
    uint64_t picture = g->refused ? 0 : g->banks * g->depth;
    for (uint32_t j = 0; picture && j < g->h; j++)
        for (uint32_t i = 0; i < g->w; i++) {
            stored += *pixel(g, i, j);
            MUST(g->memory[plain_bank(g->p, i, j) * g->depth + plain_address(g, i, j)] == *pixel(g, i, j));
        }
    for (size_t k = 0; k < picture; k++) sum += g->memory[k];
    MUST(sum == stored);
    for (size_t k = g->banks * g->depth; k < g->words; k++) MUST(g->memory[k] == PAST);
    for (size_t k = 0; g->refused == 13 && k < g->words; k++) MUST(g->memory[k] == 0);
    must_keep(g);
    for (size_t k = 0; g->made && k < g->banks; k++) MUST(g->sums[k] == walked(g, k));
}

int LLVMFuzzerTestOneInput(const uint8_t *data, size_t size) {
    struct feed f = {data, size};
    struct game g = {0};
    unsigned how = byte(&f);
    g.cycles = cycles_from(&f);
    g.r = record_of(&f, !(how & 32));
    g.record_refused = plain_test(&g.r);
    choose_plan(&g, &f, how);
    choose_sides(&g, &f, how);
    choose_memory(&g, &f);
    choose_sums(&g, &f, how);
    for (int steps = 0; f.left > 0 && steps < 200; steps++) step(&g, &f);
    after(&g);
    give_back(g.memory, g.words * sizeof *g.memory);
    give_back(g.sums, g.entries * sizeof *g.sums);
    give_back(g.kept, g.entries * sizeof *g.kept);
    free(g.shadow);
    drop_record(&g.r);
    return 0;
}
