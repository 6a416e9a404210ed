// What the lists of calls go by.
#include "game.h"

enum { MOST = 1 << 16 }; // words of a memory, at most
static const uint64_t PAST_SUM = 0x0ddba11c0ffee000; // what stands in the entries past the picture's

static uint64_t up(uint64_t n, uint64_t m) { return (n + m - 1) / m; }

bool inside(const struct game *g, int i, int j) {
    return i >= 0 && j >= 0 && (uint32_t)i < g->w && (uint32_t)j < g->h;
}

uint16_t *pixel(const struct game *g, int i, int j) { return g->shadow + (size_t)j * g->w + i; }

uint64_t plain_address(const struct game *g, int i, int j) {
    return (uint64_t)j / g->p.d * up(g->w, g->p.a) + (uint64_t)i / g->p.a;
}

// A number of 16 bits: small, one at an edge, or any.
int16_t coordinate(struct feed *f) {
    static const int16_t edges[8] = {-32768, -1, 1023, 1024, 4095, 4096, 32752, 32767};
    unsigned x = byte(f);
    return x < 200 ? (int)x - 20 : x < 208 ? edges[x - 200] : (int16_t)two(f);
}

// The same without a sign, up to 64 bits.
uint64_t number(struct feed *f) {
    static const uint64_t edges[12] = {1023,  1024,  1025,       4095,       4096,       4097,
                                       65535, 65536, UINT32_MAX, 1ull << 32, 1ull << 63, UINT64_MAX};
    unsigned x = byte(f);
    return x < 240 ? x : x < 252 ? edges[x - 240] : x < 254 ? two(f) : eight(f);
}

void choose_plan(struct game *g, struct feed *f, unsigned how) {
    if (how & 1) {
        g->p.a = 1 + byte(f) % 40;
        g->p.d = 1 + byte(f) % 25;
        g->p.b = byte(f) % g->p.a;
    } else if (how & 2) {
        g->p.a = (uint32_t)number(f);
        g->p.b = (uint32_t)number(f);
        g->p.d = (uint32_t)number(f);
    } else {
        TOLD(t, bankplan_find(RECORD(&g->r), g->cycles, 1024, answer));
        MUST(t.number == (g->record_refused ? g->record_refused : is_cycles(g->cycles) ? 0 : 20));
        if (t.number == 0) g->p = (struct plan){(uint32_t)t.row[0], (uint32_t)t.row[1], (uint32_t)t.row[2]};
    }
}

void choose_sides(struct game *g, struct feed *f, unsigned how) {
    g->w = 1 + byte(f) % 80;
    g->h = 1 + byte(f) % 80;
    if (how & 4 && is_plan(g->p)) { // sides of a ring, or such that only the slant is in its way
        g->w = g->p.a * (1 + g->w % 4);
        g->h = g->p.d * (how & 64 ? g->p.a : 1) * (1 + g->h % 8);
    }
    if (how & 8) g->w = (uint32_t)number(f);
    if (how & 16) g->h = (uint32_t)number(f);
}

// Whether a step of w columns and one of h rows keep the bank of every pixel of a period, a columns by d rows. The banks alone
// decide, no divisor is asked for.
static bool steps_keep_banks(struct plan p, uint32_t w, uint32_t h) {
    for (uint32_t j = 0; j < p.d; j++)
        for (uint32_t i = 0; i < p.a; i++) {
            uint32_t bank = plain_bank(p, i, j);
            if (plain_bank(p, i + w, j) != bank || plain_bank(p, i, j + h) != bank) return false;
        }
    return true;
}

// The memory: as many words as the picture needs, and some more or one less.
void choose_memory(struct game *g, struct feed *f) {
    unsigned more = byte(f);
    bool sides = g->w >= 1 && g->w <= 4096 && g->h >= 1 && g->h <= 4096;
    g->refused = !is_plan(g->p) ? 11 : !sides ? 12 : 0;
    g->banks = is_plan(g->p) ? g->p.a * g->p.d : 0;
    if (!g->refused) {
        g->depth = up(g->w, g->p.a) * up(g->h, g->p.d);
        g->ring = steps_keep_banks(g->p, g->w, g->h);
    }
    uint64_t needed = g->banks * g->depth;
    g->words = needed > MOST ? MOST : more == 255 && needed ? needed - 1 : needed + more % 4;
    if (!g->refused && g->words < needed) g->refused = 13;
    g->memory = lent(g->words * sizeof *g->memory);
    for (size_t k = 0; k < g->words; k++) g->memory[k] = k < needed ? 0 : PAST;
    g->shadow = g->refused ? NULL : calloc((size_t)g->w * g->h, sizeof *g->shadow);
}

// The sums: an entry to each bank and one behind, all banks' 0; or, if so asked, more behind or one less, and any numbers to begin
// with.
void choose_sums(struct game *g, struct feed *f, unsigned how) {
    unsigned more = how & 128 ? byte(f) : 1;
    uint64_t start = more != 255 && more & 64 ? eight(f) : 0;
    g->entries = more == 255 && g->banks ? g->banks - 1 : g->banks + more % 4;
    g->lent_refused = !g->refused && g->entries < g->banks ? 13 : g->refused;
    g->sums = lent(g->entries * sizeof *g->sums);
    for (size_t k = 0; k < g->entries; k++) g->sums[k] = k < g->banks ? start * (k + 1) : PAST_SUM + k;
    g->kept = lent_copy(g->sums, g->entries * sizeof *g->sums);
}

unsigned outcome(const struct game *g, unsigned condition, bool holds) {
    return g->refused ? g->refused : holds ? condition : 0;
}

unsigned lent_outcome(const struct game *g, unsigned condition, bool holds) {
    return g->lent_refused ? g->lent_refused : holds ? condition : 0;
}

unsigned read_outcome(const struct game *g, uint64_t k) {
    return !is_plan(g->p) ? 11 : g->entries < g->banks ? 13 : k >= g->banks ? 15 : 0;
}

unsigned fetch_number(const struct game *g, size_t n, int i, int j, size_t room, bool ring, size_t clash[CLASH_LENGTH]) {
    if (g->record_refused) return g->record_refused;
    if (!is_cycles(g->cycles)) return 20;
    if (g->refused) return g->refused;
    if (n >= g->r.count) return 17;
    if (plain_clash(&g->r, n, g->cycles, g->p, clash)) return 10;
    if (ring && !g->ring) return 18;
    for (size_t m = 0; !ring && m < g->r.used[n]; m++)
        if (!inside(g, i + g->r.columns[64 * n + m], j + g->r.rows[64 * n + m])) return 14;
    return room < g->r.used[n] ? 16 : 0;
}

uint16_t fetched_word(const struct game *g, size_t n, size_t m, int i, int j, bool ring) {
    int x = i + g->r.columns[64 * n + m], y = j + g->r.rows[64 * n + m];
    return ring ? *pixel(g, (int)floor_mod(x, g->w), (int)floor_mod(y, g->h)) : *pixel(g, x, y);
}

void plain_store(struct game *g, int i, int j, uint16_t word) {
    uint64_t *sum = g->kept + plain_bank(g->p, i, j);
    *sum = *sum - *pixel(g, i, j) + word;
    *pixel(g, i, j) = word;
}

void plain_clear(struct game *g, uint64_t k) {
    for (uint32_t j = 0; j < g->h; j++)
        for (uint32_t i = 0; i < g->w; i++)
            if (plain_bank(g->p, i, j) == k) *pixel(g, i, j) = 0;
    g->kept[k] = 0;
}

uint64_t plain_sum(const struct game *g, uint64_t k) {
    uint64_t sum = 0;
    for (uint32_t j = 0; j < g->h; j++)
        for (uint32_t i = 0; i < g->w; i++)
            if (plain_bank(g->p, i, j) == k) sum += *pixel(g, i, j);
    return sum;
}

void plain_make(struct game *g) {
    for (uint64_t k = 0; k < g->banks; k++) g->kept[k] = 0;
    for (uint32_t j = 0; j < g->h; j++)
        for (uint32_t i = 0; i < g->w; i++) g->kept[plain_bank(g->p, i, j)] += *pixel(g, i, j);
    g->made = true;
}

void must_keep(const struct game *g) {
    for (size_t k = 0; k < g->entries; k++) MUST(g->sums[k] == g->kept[k]);
}
