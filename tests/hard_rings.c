// Which ring fetches are served (Card 5 of document 02): rows with the number that they get, and every small plan with every small
// picture, by looking at banks. The memory has just the words that it needs, so that a word read outside of it is seen.
#include <string.h>

#include "hard.h"

static const struct {
    uint32_t a, b, d, w, h;
    uint64_t number;
} rows[] = {
    {6, 0, 2, 12, 6, 0},          {5, 2, 1, 7, 5, 18},           // the card's
    {4, 2, 2, 8, 4, 0},           {4, 2, 2, 6, 4, 18},           // a does not divide w
    {4, 2, 2, 8, 5, 18},          {4, 2, 2, 8, 6, 18},           // d does not divide h; a does not divide b * (h / d)
    {6, 0, 2, 2, 6, 18},          {6, 0, 2, 6, 2, 0},            // w and h exchanged
    {2, 0, 3, 2, 3, 0},           {4, 1, 2, 4, 4, 18},           // d does not divide w; a divides b * h
    {32, 0, 32, 32, 32, 0},       {8, 4, 8, 8, 8, 18},           // far below N
    {1, 0, 1, 1, 1, 0},           {2, 0, 1, 1, 1, 18},           // the least sides
    {1024, 0, 1, 4096, 1, 0},     {1, 0, 1024, 1, 4096, 0},      // the greatest
    {1024, 512, 1, 1024, 2, 0},   {1024, 512, 1, 1024, 1, 18},
    {1023, 1022, 1, 4092, 9, 18}, {1024, 1023, 1, 4096, 1, 18},
};

// One pixel, (0, -1), which every plan suits, and a list of two ring fetches of it, with a store before them.
static void one_pixel(struct input *x) {
    const uint64_t numbers[] = {BANKPLAN_KIND_STORE,      x->w - 1, x->h - 1, 77, 0, BANKPLAN_KIND_RING_FETCH, 65535, 0, 0, 1,
                                BANKPLAN_KIND_RING_FETCH, 32767,    32768,    0,  2};
    memcpy(x->numbers, numbers, sizeof numbers);
    x->numbers_length = 15, x->outs_room = 3, x->replies_length = 3 * BANKPLAN_REPLY_NUMBERS;
    x->used[0] = x->fetch_room = 1;
    just_enough(x);
}

// A ring fetch at the corners and far off. 17 and 13 come before 18, and 18 before 16.
static void ask(struct input *x, uint64_t number, bool far) {
    const int16_t ends[] = {0, -1, -32768, 32767};
    one_pixel(x);
    for (int k = 0; k < (far ? 16 : 2); k++) {
        x->i = ends[k % 4], x->j = ends[far ? k / 4 : k];
        try_told(RING_FETCH, x, number, 0);
    }
    try_told(RUN_LIST, x, 0, 0);
    if (!far) return;
    x->fetch_room = 0;
    try_told(RING_FETCH, x, number ? number : 16, 0);
    x->n = 1;
    try_told(RING_FETCH, x, 17, 0);
    x->words--;
    try_told(RING_FETCH, x, 13, 0);
    x->words++, x->n = 0;
}

static uint64_t bank_at(const struct input *x, uint32_t i, uint32_t j) {
    uint64_t answer[ANSWER_LENGTH] = {0};
    bankplan_bank(x->a, x->b, x->d, (int16_t)i, (int16_t)j, answer);
    return answer[0];
}

// Whether a step of w or of h leads some pixel of one period, N by N, to another bank.
static bool parted(const struct input *x) {
    uint32_t banks = x->a * x->d;
    for (uint32_t k = 0; k < banks * banks; k++) {
        uint32_t i = k % banks, j = k / banks;
        uint64_t own = bank_at(x, i, j);
        if (bank_at(x, i + x->w, j) != own || bank_at(x, i, j + x->h) != own) return true;
    }
    return false;
}

static void every_picture(struct input *x, uint32_t most) {
    for (x->w = 1; x->w <= most; x->w++)
        for (x->h = 1; x->h <= most; x->h++) ask(x, parted(x) ? 18 : 0, false);
}

void every_ring(struct input *x, bool all) {
    cross(x);
    for (size_t k = 0; k < sizeof rows / sizeof *rows; k++) {
        x->a = rows[k].a, x->b = rows[k].b, x->d = rows[k].d, x->w = rows[k].w, x->h = rows[k].h;
        ask(x, rows[k].number, true);
    }
    for (x->a = 1; x->a <= (all ? 6 : 3); x->a++)
        for (x->b = 0; x->b < x->a; x->b++)
            for (x->d = 1; x->d <= (all ? 4 : 2); x->d++) every_picture(x, all ? 12 : 6);
}
