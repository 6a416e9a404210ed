// The order of a pattern's pixels: patterns at its edges, each with the number that turns it down, if any, and the place.
#include <string.h>

#include "hard.h"

// A pattern, and its fault: the byte of it is counted from the pattern's count byte, so that pixel m is at 1 + 2 * m.
struct ordered {
    size_t used;
    int8_t pixels[4][2]; // column, row
    uint64_t number;
    size_t byte;
};

static const struct ordered patterns[] = {
    {1, {{15, 15}}, 0, 0},                               // the first pixel is not lower than anything
    {2, {{0, 0}, {1, 0}}, 0, 0},                         // same row, next column
    {2, {{1, 0}, {0, 0}}, 19, 3},                        // same row, the column before
    {2, {{15, 0}, {-16, 0}}, 19, 3},                     // same row, the least column
    {2, {{0, 0}, {0, 1}}, 0, 0},                         // next row
    {2, {{0, 1}, {0, 0}}, 19, 3},                        // lower row by one
    {2, {{0, 0}, {15, -1}}, 19, 3},                      // lower row, greater column
    {2, {{15, 0}, {-16, 1}}, 0, 0},                      // next row, lower column
    {2, {{-16, -16}, {15, 15}}, 0, 0},                   // the ends of the window
    {2, {{15, 15}, {-16, -16}}, 19, 3},                  // the same the other way
    {3, {{0, 0}, {2, 0}, {1, 0}}, 19, 5},                // lower than the one before, not than the first
    {3, {{1, 0}, {0, 1}, {2, 0}}, 19, 5},                // the same by its row
    {4, {{0, 0}, {0, 2}, {0, 1}, {0, 3}}, 19, 5},        // the pixel behind it is in order again
    {2, {{0, 0}, {0, 0}}, 4, 3},                         // the same pixel is a repeat
    {3, {{0, 0}, {1, 0}, {0, 0}}, 4, 5},                 // a repeat that is lower: 4 comes first
    {4, {{-1, 0}, {0, 0}, {0, 1}, {0, 0}}, 4, 7},        // the same of a pixel in the middle
    {3, {{1, 0}, {0, 0}, {0, 0}}, 19, 3},                // a lower pixel, then its repeat
    {2, {{0, 0}, {-17, 0}}, 3, 3},                       // lower, and its column out of range: 3 comes first
    {2, {{0, 0}, {0, -17}}, 3, 4},                       // the same with its row
    {2, {{0, 0}, {16, -1}}, 3, 3},                       // the same with a greater column
    {3, {{1, 0}, {0, 0}, {16, 0}}, 19, 3},               // a lower pixel, then one out of range
};
enum { PATTERNS = sizeof patterns / sizeof *patterns };

static void put(struct input *x, size_t n, const struct ordered *p) {
    for (size_t m = 0; m < p->used; m++) {
        x->columns[64 * n + m] = p->pixels[m][0];
        x->rows[64 * n + m] = p->pixels[m][1];
    }
    x->used[n] = p->used;
    x->count = n + 1;
}

// Every call that is given a book: its bytes with this place, and the record with none.
static void every_book_call(struct input *x, uint64_t number, uint64_t place) {
    plain_book(x);
    x->write_room = x->book_length;
    x->limit = 1024;
    x->v[0] = x->v[3] = 32;
    try_told(READ_BOOK, x, number, place);
    try_told(PATTERN_PART, x, number, place);
    try_told(TEST_RECORD, x, number, 0);
    try_told(WRITE_BOOK, x, number, 0);
    try_told(FIND, x, number, 0);
    try_told(CHECK, x, number, 0);
    eight_calls(x, 0, 0);
    try_told(RUN_LIST, x, 0, 0); // its fetches are refused, not the list
    if (number == 0) return;
    try_told(FETCH, x, number, 0); // before 11: the plan is 0, 0, 0
    try_told(RING_FETCH, x, number, 0);
    try_told(FIND_AND_RUN, x, number, 0);
}

// Each pattern alone, behind the cross, whose last pixel has no say in it, and before a pattern that is refused too.
static void every_pattern(struct input *x) {
    for (int k = 0; k < PATTERNS; k++) {
        const struct ordered *p = &patterns[k];
        cross(x);
        put(x, 0, p);
        every_book_call(x, p->number, 1 + p->byte);
        cross(x);
        put(x, 1, p);
        every_book_call(x, p->number, 12 + p->byte);
        cross(x);
        put(x, 0, p);
        x->count = 2; // its pixel count is 0
        every_book_call(x, p->number ? p->number : 2, 1 + (p->number ? p->byte : 1 + 2 * p->used));
    }
}

// Two pixels at the edges of the window, each with each: in order, a repeat, or lower.
static void every_pair(struct input *x, int step) {
    const int8_t ends[] = {-16, -15, -1, 0, 1, 14, 15};
    for (int k = 0; k < 49 * 49; k += step) {
        struct ordered p = {2, {{ends[k % 7], ends[k / 7 % 7]}, {ends[k / 49 % 7], ends[k / 343]}}, 0, 3};
        int first = 32 * p.pixels[0][1] + p.pixels[0][0], second = 32 * p.pixels[1][1] + p.pixels[1][0];
        p.number = second < first ? 19 : second == first ? 4 : 0;
        cross(x);
        put(x, 0, &p);
        plain_book(x);
        try_told(READ_BOOK, x, p.number, 1 + p.byte);
        try_told(PATTERN_PART, x, p.number, 1 + p.byte);
        try_told(TEST_RECORD, x, p.number, 0);
    }
}

// A book whose second pixel is lower, cut at every length: it ends early until both of that pixel's bytes are there. What stands
// behind them has no say, not even bytes behind the book.
static void every_cut(struct input *x) {
    static const uint8_t shuffled[] = {1, 5, 0, 0, 0xff, 0, 1, 0, 0, 0xff, 0, 1, 0, 0};
    memcpy(x->book, shuffled, sizeof shuffled);
    for (x->book_length = 0; x->book_length <= sizeof shuffled; x->book_length++) {
        bool there = x->book_length >= 6;
        for (x->n = 0; x->n < 2; x->n++) try_told(PATTERN_PART, x, there ? 19 : 1, there ? 4 : x->book_length);
        try_told(READ_BOOK, x, there ? 19 : 1, there ? 4 : x->book_length);
    }
}

void every_order(struct input *x, bool all) {
    every_pattern(x);
    every_pair(x, all ? 1 : 11);
    every_cut(x);
}
