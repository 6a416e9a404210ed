// Some calls made as one list: its answer, replies and outputs by the plain array from pixel to word, and the sums behind it. The
// memory is looked at when all calls of the input are made.
#include "game.h"

enum { MOST_CALLS = 12, MOST_NUMBERS = (MOST_CALLS + 1) * BANKPLAN_CALL_NUMBERS };
static const uint64_t NO_REPLY = 0x5eed5eed5eed5eed; // what stands in the replies before

// A list, and its buffers in exactly sized blocks.
struct list {
    uint64_t *numbers, *replies;
    uint16_t *outs;
    size_t length, room, places;
};

// A number at an edge of what a call can have, or any.
static uint64_t edge(struct feed *f) {
    static const uint64_t edges[17] = {0,  1,     2,     3,     4,     5,          7,          8,         64,
                                       65, 32767, 32768, 65535, 65536, 1ull << 32, 1ull << 63, UINT64_MAX};
    unsigned x = byte(f) % 18;
    return x < 17 ? edges[x] : number(f);
}

// The words of outputs that a call takes up: those of a fetch, plain or around the ring.
static uint64_t room_of(const uint64_t *call) {
    return call[0] == BANKPLAN_KIND_FETCH || call[0] == BANKPLAN_KIND_RING_FETCH ? call[4] : 0;
}

// A call's numbers; now and then it is one of the sums', or one of its numbers is at an edge. The highest bit of a fetch's room is
// for a ring fetch.
static uint64_t draw_call(struct feed *f, uint64_t *call) {
    unsigned how = byte(f);
    call[0] = (how >> 2 & 7) == 6 ? BANKPLAN_KIND_MAKE_SUMS + (how & 3) % 3 : how & 3;
    call[1] = (uint16_t)coordinate(f);
    call[2] = (uint16_t)coordinate(f);
    call[3] = call[0] == BANKPLAN_KIND_STORE ? two(f) : number(f);
    call[4] = UINT64_MAX;
    if (call[0] == BANKPLAN_KIND_FETCH) {
        unsigned room = byte(f);
        if (room & 128) call[0] = BANKPLAN_KIND_RING_FETCH;
        call[4] = (room & 127) % 67;
    }
    if ((how >> 2 & 7) == 7) call[(how >> 5) % 5] = edge(f);
    return room_of(call);
}

// The room is what the fetches need, where that is little; then some more or less, for outputs and replies.
static struct list draw(struct feed *f) {
    uint64_t numbers[MOST_NUMBERS], rooms = 0;
    unsigned how = byte(f);
    size_t calls = byte(f) % (MOST_CALLS + 1);
    for (size_t k = 0; k < calls; k++) rooms += draw_call(f, numbers + k * BANKPLAN_CALL_NUMBERS) % 4096;
    struct list x = {.length = calls * BANKPLAN_CALL_NUMBERS, .room = rooms, .places = calls * BANKPLAN_REPLY_NUMBERS};
    if (how & 1)
        for (unsigned left = byte(f) % 5; left > 0; left--) numbers[x.length++] = edge(f);
    if (how & 2) x.room += byte(f) % 3;
    if (how & 4) x.places += byte(f) % 3;
    if (how & 8) x.room -= x.room > 0;
    if (how & 16) x.places -= x.places > 0;
    x.numbers = lent_copy(numbers, x.length * sizeof *numbers);
    x.outs = lent(x.room * sizeof *x.outs);
    x.replies = lent(x.places * sizeof *x.replies);
    for (size_t k = 0; k < x.room; k++) x.outs[k] = PAST;
    for (size_t k = 0; k < x.places; k++) x.replies[k] = NO_REPLY;
    return x;
}

// 0, or 255 or 16 with the place.
static unsigned plain_fault(const struct list *x, uint64_t *place) {
    size_t room = x->room, at = 0;
    *place = 0;
    for (; x->length - at >= BANKPLAN_CALL_NUMBERS; at += BANKPLAN_CALL_NUMBERS) {
        const uint64_t *call = x->numbers + at;
        *place = at;
        if (call[0] > 7 || call[1] > 65535 || call[2] > 65535 || (call[0] == 0 && call[3] > 65535)) return BANKPLAN_NOT_CALLS;
        *place = 0;
        if (room_of(call) > room) return BANKPLAN_OUTPUT;
        room -= room_of(call);
    }
    *place = x->length > at ? at : 0;
    if (x->length > at) return BANKPLAN_NOT_CALLS;
    return x->places / BANKPLAN_REPLY_NUMBERS < x->length / BANKPLAN_CALL_NUMBERS ? BANKPLAN_OUTPUT : 0;
}

// A call on whole banks: its reply.
static void plain_bank_call(struct game *g, const uint64_t *call, uint64_t reply[BANKPLAN_REPLY_NUMBERS]) {
    uint64_t k = call[3];
    switch (call[0]) {
    case BANKPLAN_KIND_CLEAR:
        reply[0] = lent_outcome(g, 15, k >= g->banks);
        if (!reply[0]) plain_clear(g, k);
        break;
    case BANKPLAN_KIND_MAKE_SUMS:
        reply[0] = lent_outcome(g, 0, false);
        if (!reply[0]) plain_make(g);
        break;
    case BANKPLAN_KIND_SUM:
        reply[0] = outcome(g, 15, k >= g->banks);
        if (!reply[0]) reply[1] = plain_sum(g, k);
        break;
    default:
        reply[0] = read_outcome(g, k);
        if (!reply[0]) reply[1] = g->kept[k];
    }
}

// A fetch on the plain array: its reply and its words; how many there are.
static size_t plain_fetch(const struct game *g, const uint64_t *call, int i, int j, uint64_t reply[BANKPLAN_REPLY_NUMBERS],
                          uint16_t words[64]) {
    size_t n = call[3], clash[CLASH_LENGTH];
    bool ring = call[0] == BANKPLAN_KIND_RING_FETCH;
    reply[0] = fetch_number(g, n, i, j, call[4], ring, clash);
    if (reply[0] == 10) reply[2] = n;
    for (uint32_t m = 0; reply[0] == 10 && m <= g->cycles; m++) reply[3 + m] = clash[m];
    if (reply[0]) return 0;
    reply[1] = g->r.used[n];
    for (size_t m = 0; m < reply[1]; m++) words[m] = fetched_word(g, n, m, i, j, ring);
    return reply[1];
}

// A call on the plain array: its reply and, of a fetch, its words; how many there are.
static size_t plain_call(struct game *g, const uint64_t *call, uint64_t reply[BANKPLAN_REPLY_NUMBERS], uint16_t words[64]) {
    int i = (int16_t)(uint16_t)call[1], j = (int16_t)(uint16_t)call[2];
    memset(reply, 0, BANKPLAN_REPLY_NUMBERS * sizeof *reply);
    switch (call[0]) {
    case BANKPLAN_KIND_STORE:
        reply[0] = lent_outcome(g, 14, !inside(g, i, j));
        if (!reply[0]) plain_store(g, i, j, (uint16_t)call[3]);
        return 0;
    case BANKPLAN_KIND_LOAD:
        reply[0] = outcome(g, 14, !inside(g, i, j));
        if (!reply[0]) reply[1] = *pixel(g, i, j);
        return 0;
    case BANKPLAN_KIND_FETCH:
    case BANKPLAN_KIND_RING_FETCH: return plain_fetch(g, call, i, j, reply, words);
    default: plain_bank_call(g, call, reply); return 0;
    }
}

// The list was made: its replies one after the other, each fetch's words at the start of its room, the rest as it was.
static void must_be_made(struct game *g, const struct list *x) {
    size_t calls = x->length / BANKPLAN_CALL_NUMBERS, at = 0;
    for (size_t k = 0; k < calls; k++) {
        const uint64_t *call = x->numbers + k * BANKPLAN_CALL_NUMBERS;
        uint64_t reply[BANKPLAN_REPLY_NUMBERS];
        uint16_t words[64];
        size_t count = plain_call(g, call, reply, words), room = room_of(call);
        MUST(memcmp(x->replies + k * BANKPLAN_REPLY_NUMBERS, reply, sizeof reply) == 0);
        for (size_t m = 0; m < room; m++) MUST(x->outs[at + m] == (m < count ? words[m] : PAST));
        at += room;
    }
    for (; at < x->room; at++) MUST(x->outs[at] == PAST);
    for (size_t k = calls * BANKPLAN_REPLY_NUMBERS; k < x->places; k++) MUST(x->replies[k] == NO_REPLY);
}

static void must_not_be_made(const struct list *x) {
    for (size_t k = 0; k < x->room; k++) MUST(x->outs[k] == PAST);
    for (size_t k = 0; k < x->places; k++) MUST(x->replies[k] == NO_REPLY);
}

#define LIST(x) (x)->numbers, (x)->length, (x)->outs, (x)->room, (x)->replies, (x)->places
// By the finder first, if its plan is the one that the picture has or it gives none; else under the plan.
static struct told make(const struct game *g, const struct list *x, unsigned limit, struct told *found) {
    TOLD(f, bankplan_find(RECORD(&g->r), g->cycles, limit, answer));
    *found = f;
    if (f.number != 0 || (f.row[0] == g->p.a && f.row[1] == g->p.b && f.row[2] == g->p.d)) {
        TOLD(t, bankplan_find_and_run(RECORD(&g->r), g->cycles, limit, g->w, g->h, g->memory, g->words, SUMS(g), LIST(x),
                                      answer));
        return t;
    }
    *found = (struct told){0};
    TOLD(t, bankplan_run_list(RECORD(&g->r), g->cycles, PICTURE(g), SUMS(g), LIST(x), answer));
    return t;
}

void run(struct game *g, struct feed *f) {
    unsigned limit = byte(f) % 4 ? 1024 : (unsigned)number(f);
    bool finder = byte(f) % 2;
    struct list x = draw(f);
    struct told t, found = {0};
    uint64_t place;
    unsigned no = plain_fault(&x, &place);
    if (finder) {
        t = make(g, &x, limit, &found);
    } else {
        TOLD(u, bankplan_run_list(RECORD(&g->r), g->cycles, PICTURE(g), SUMS(g), LIST(&x), answer));
        t = u;
    }
    if (found.number) { // the finder's refusal before all that is wrong with the list
        must_refuse(t, found.number);
        must_not_be_made(&x);
    } else if (no) {
        MUST(t.number == no && t.values == 1 && t.row[0] == place);
        must_not_be_made(&x);
    } else {
        MUST(t.number == 0 && t.values == found.values);
        for (int k = 0; k < found.values; k++) MUST(t.row[k] == found.row[k]);
        must_be_made(g, &x);
    }
    must_keep(g);
    give_back(x.numbers, x.length * sizeof *x.numbers);
    give_back(x.outs, x.room * sizeof *x.outs);
    give_back(x.replies, x.places * sizeof *x.replies);
}
