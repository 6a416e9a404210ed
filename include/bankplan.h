/*
 * Bank plans for image buffers: this header declares the functions of the static library `capi`, for C99 and later and for C++.
 * Document 01 is the project's scope paper, and document 02 has the requests that changed it since; docs/GUIDE.md says in plain
 * words what patterns, books and plans are.
 *
 * What a call answers. Every function returns a number; bankplan_refusal_text gives the text of each:
 *   0                  the call was not refused
 *   1 to 20            the call was refused by this number (enum bankplan_refusal)
 *   255                the numbers that it was given are no list of calls (BANKPLAN_NOT_CALLS)
 * A function also puts a row of numbers at the start of the lent array `answer` of 12, and leaves the rest of the 12 as they
 * were. The row is:
 *   not refused        the values that stand behind "tells" below, from answer[0] on
 *   refused            answer[0]: the place
 *   refused by 10      answer[0]: the place; answer[1]: the pattern's number; answer[2] to answer[2 + r]: the clash, that is the
 *                      numbers of r + 1 pixels in it that share a bank, ascending; all are counted from 0
 * The place is a byte offset for 1 to 5 and 19 where the call was given a book's bytes, for 255 the index of a number in the
 * list, and 0 elsewhere. For 4 and 19 it is the pixel's first byte. What a caller hands over for the time of a call is lent. A
 * refused call leaves all that it was lent as it was, but for the answer's row.
 *
 * What a call tests. A call takes every value of its parameters' types, and tests them all itself. No call relies on one made
 * before. "Refused by" below has the numbers in the order of the tests; that of the first fault found is returned. "In
 * book order" is the pattern count first, then for each pattern its pixel count, then for each of its pixels the column, the
 * row, whether it stood there before (4), and whether it is lower than the pixel just before it (19).
 *
 * What things are. A plan is a, b, d; it has N = a * d banks. Its lattice is all whole-number combinations of (a, 0) and (b, d):
 * two pixels share a bank exactly if their difference is in it. A picture has width w and height h. A pixel is (i, j), column and
 * row.
 *
 * A camera may take r cycles for a pattern, r from 1 to 8. A plan suits a pattern for r if no bank has more than r of its pixels.
 * The cycle of a pixel is the count of earlier pixels of its pattern in its bank; it is below r under a plan that suits. So each
 * bank gives at most one word in each cycle. Of several clashes of a pattern that one is told whose pixels' numbers come first,
 * compared one by one.
 *
 * The pixels of a pattern ascend by row, then by column: each has a greater row than the one before it, or the same row and a
 * greater column. The caller puts them so; no call sorts them. So two books with the same patterns under the same numbers are the
 * same bytes.
 *
 * A book record is flat arrays: columns[1024] and rows[1024], of which pattern n has the entries 64 * n to 64 * n + 63;
 * used[16], the pixel counts; and the pattern count. Of pattern n the first used[n] entries count, of the patterns the first
 * `count`. What the others hold does not matter.
 *
 * A picture's memory is mem_length 16-bit words, and the output of a fetch is such words too. Bank k has the words k * depth to
 * (k + 1) * depth - 1; the words from N * depth on are never touched.
 *
 * The sums of a picture's banks are sums_length 64-bit numbers: entry k is that of bank k, and the entries from N on are never
 * touched. A store takes the old word off its bank's entry and adds the new one, modulo 2^64. A clear sets the bank's entry to 0.
 * bankplan_make_sums makes all N afresh from the memory, for start-up; bankplan_read_sum tells one by a look-up; bankplan_sum
 * walks through the bank's words and is not lent the sums. From a bankplan_make_sums that was not refused on, each entry is the
 * figure that bankplan_sum tells, as long as the memory and the sums change only through calls of this library, all under one
 * plan and one size of picture. Where it is not so, an entry is only what the calls made of it.
 *
 * A record list is list_length records of 12 bytes: column, row, bank and address at the offsets 0, 2, 4 and 8.
 *
 * What is lent. A pointer with a length points to that many elements, an array parameter to as many as stand in its brackets.
 * No pointer may be null and each must be aligned for its type, also where the length is 0: an empty stretch still needs such
 * a pointer, which is not followed. What a call writes, the answer too, must not overlap anything else that is lent to it. A
 * pointer to const is only read. The library keeps no pointer, allocates nothing and has no state of its own: calls may run
 * at the same time where none writes what another is lent.
 *
 * Where it runs. The library is built for Linux on x86-64; pointers and size_t have 64 bits. Beside what it is lent, a call
 * uses only the stack of the thread that makes it. docs/GUIDE.md says how many bytes.
 */
#ifndef BANKPLAN_H
#define BANKPLAN_H

#include <stddef.h>
#include <stdint.h>

#ifdef __cplusplus
extern "C" {
#endif

/* The version of this header, and of the library that is built from the same tree. */
#define BANKPLAN_VERSION_MAJOR 0
#define BANKPLAN_VERSION_MINOR 7
#define BANKPLAN_VERSION_PATCH 0
#define BANKPLAN_VERSION "0.7.0"

/* The limits of documents 01 and 02, and how long the arrays are that go with them. */
enum bankplan_limit {
    BANKPLAN_MAX_BANKS = 1024,         /* banks of a plan, the finder's limit, and a determinant's size */
    BANKPLAN_MAX_PIXELS = 64,          /* pixels of a pattern, so words of a fetch */
    BANKPLAN_MAX_PATTERNS = 16,        /* patterns of a book, and entries of `used` */
    BANKPLAN_MAX_BOOK_BYTES = 2065,    /* bytes of the longest book: 1 + 16 * (1 + 2 * 64) */
    BANKPLAN_MAX_SIDE = 4096,          /* width or height of a picture */
    BANKPLAN_MAX_CYCLES = 8,           /* cycles of a pattern, r; a clash has one pixel more */
    BANKPLAN_LEAST_COORDINATE = -16,   /* column or row of a pattern's pixel */
    BANKPLAN_GREATEST_COORDINATE = 15, /* the same */
    BANKPLAN_ENTRIES = 1024,           /* entries of `columns`, and of `rows`: 16 * 64 */
    BANKPLAN_ANSWER_NUMBERS = 12       /* numbers of `answer` */
};

/* Why a call was turned down: each refusal's name, number and text. The number and the text are those of document 01, and of
   Cards 5, 3 and 4 of document 02 for 18, 19 and 20; Card 6 adds the sums to 13. Two texts hold signs that are not ASCII, × and
   ≥; they are UTF-8. */
#define BANKPLAN_REFUSALS(X)                                                         \
    X(BANKPLAN_ENDS, 1, "book ends early")                                           \
    X(BANKPLAN_COUNT, 2, "pattern count not 1-16 or pixel count not 1-64")           \
    X(BANKPLAN_COORDINATE, 3, "coordinate not -16..15")                              \
    X(BANKPLAN_REPEAT, 4, "pixel already in this pattern")                           \
    X(BANKPLAN_EXTRA, 5, "bytes after the last pattern")                             \
    X(BANKPLAN_LIMIT, 6, "limit not 1-1024")                                         \
    X(BANKPLAN_NO_PLAN, 7, "no suiting plan within limit")                           \
    X(BANKPLAN_DEPENDENT, 8, "determinant 0")                                        \
    X(BANKPLAN_LARGE, 9, "determinant's size above 1024")                            \
    X(BANKPLAN_UNSUITED, 10, "plan doesn't suit")                                    \
    X(BANKPLAN_NOT_PLAN, 11, "not a plan as defined")                                \
    X(BANKPLAN_SIDES, 12, "W or H not 1-4096")                                       \
    X(BANKPLAN_MEMORY, 13, "memory shorter than N × depth, or sums shorter than N")  \
    X(BANKPLAN_OUTSIDE, 14, "pixel outside the picture")                             \
    X(BANKPLAN_CELL, 15, "bank ≥ N, address ≥ depth, or their pixel outside")        \
    X(BANKPLAN_OUTPUT, 16, "output too short")                                       \
    X(BANKPLAN_NO_PATTERN, 17, "pattern number not in the book")                     \
    X(BANKPLAN_RING, 18, "(W, 0) or (0, H) not in the lattice")                      \
    X(BANKPLAN_LOWER, 19, "pixel lower than the one before it, by row, then column") \
    X(BANKPLAN_CYCLES, 20, "r outside 1 to 8")

/* The refusals' names as constants: BANKPLAN_ENDS is 1, and so on. */
#define BANKPLAN_CONSTANT(name, number, text) , name = number
enum bankplan_refusal { BANKPLAN_NOT_REFUSED = 0 BANKPLAN_REFUSALS(BANKPLAN_CONSTANT) };
#undef BANKPLAN_CONSTANT

/* Gives the text of a number that a function returned. It is never null. */
static inline const char *bankplan_refusal_text(uint64_t number) {
#define BANKPLAN_CASE(name, number, text) case name: return text;
    switch (number) {
    case BANKPLAN_NOT_REFUSED: return "not refused";
    BANKPLAN_REFUSALS(BANKPLAN_CASE)
    case 255: return "not a list of calls"; /* BANKPLAN_NOT_CALLS */
    default: return "no such number";
    }
#undef BANKPLAN_CASE
}

/* ---- books */

/* Reads a book's bytes into a record. Refused by 1, 2, 3, 4, 19, 5 as they come in the bytes. Tells the pattern count.
   Lent: columns, rows, used are filled, unused entries with 0; on a refusal they stay as they were. */
uint64_t bankplan_read_book(const uint8_t *s, size_t s_length, int8_t columns[1024], int8_t rows[1024], size_t used[16],
                            uint64_t answer[12]);

/* Says where the pixel bytes of pattern n stand in a book's bytes. Refused by 1, 2, 3, 4, 19, 5 as they come in the bytes, 17.
   Tells the offset from s and the length in bytes. */
uint64_t bankplan_pattern_part(const uint8_t *s, size_t s_length, size_t n, uint64_t answer[12]);

/* Writes a record's bytes, at most 2,065. Refused by 2, 3, 4, 19 in book order, 16. Tells the count of bytes.
   Lent: the bytes stand at the start of out, the rest of it stays; on a refusal all of it does. */
uint64_t bankplan_write_book(const int8_t columns[1024], const int8_t rows[1024], const size_t used[16], size_t count,
                             uint8_t *out, size_t out_length, uint64_t answer[12]);

/* Tests whether a record is a book. Refused by 2, 3, 4, 19 in book order. Tells nothing. */
uint64_t bankplan_test_record(const int8_t columns[1024], const int8_t rows[1024], const size_t used[16], size_t count,
                              uint64_t answer[12]);

/* ---- finding and checking */

/* Finds the plan with the fewest banks, at most limit, that suits a book for r; of several the one with the least b, then the
   least d. Refused by 2, 3, 4, 19 in book order, 6, 20, 7. Tells a, b, d. */
uint64_t bankplan_find(const int8_t columns[1024], const int8_t rows[1024], const size_t used[16], size_t count, uint32_t r,
                       uint32_t limit, uint64_t answer[12]);

/* Checks a supplier's vectors (x1, x2) and (y1, y2) for a book and r. Refused by 2, 3, 4, 19 in book order, 20, 8, 9, and by 10
   with the clash of the lowest pattern that has one. Tells a, b, d of their normal form and the surplus, N less the least count
   for r. */
uint64_t bankplan_check(const int8_t columns[1024], const int8_t rows[1024], const size_t used[16], size_t count, uint32_t r,
                        int16_t x1, int16_t x2, int16_t y1, int16_t y2, uint64_t answer[12]);

/* Writes the cycles of pattern n of a book under a plan, a byte to each pixel in the book's order. Refused by 2, 3, 4, 19 in book
   order, 20, 11, 17, by 10 with the clash where the plan does not suit pattern n for r, 16. Tells the count of bytes.
   Lent: the cycles stand at the start of out, the rest of it stays; on a refusal all of it does. */
uint64_t bankplan_write_cycles(const int8_t columns[1024], const int8_t rows[1024], const size_t used[16], size_t count,
                               uint32_t r, uint32_t a, uint32_t b, uint32_t d, size_t n, uint8_t *out, size_t out_length,
                               uint64_t answer[12]);

/* Gives the normal form of the vectors (x1, x2) and (y1, y2): the one plan under which the same pixels share a bank. Refused by
   8, 9. Tells a, b, d. */
uint64_t bankplan_normal_form(int16_t x1, int16_t x2, int16_t y1, int16_t y2, uint64_t answer[12]);

/* ---- banks and addresses */

/* Gives the bank of a pixel, inside a picture or not. Refused by 11. Tells the bank. */
uint64_t bankplan_bank(uint32_t a, uint32_t b, uint32_t d, int16_t i, int16_t j, uint64_t answer[12]);

/* Counts the words of one bank. Refused by 11, 12. Tells this count, the depth. */
uint64_t bankplan_depth(uint32_t a, uint32_t b, uint32_t d, uint32_t w, uint32_t h, uint64_t answer[12]);

/* Gives the address of a pixel in its bank. Refused by 11, 12, 14. Tells the address. */
uint64_t bankplan_address(uint32_t a, uint32_t b, uint32_t d, uint32_t w, uint32_t h, int16_t i, int16_t j,
                          uint64_t answer[12]);

/* Gives the pixel of bank k and address i. Refused by 11, 12, 15. Tells the column and the row. */
uint64_t bankplan_locate(uint32_t a, uint32_t b, uint32_t d, uint32_t w, uint32_t h, uint64_t k, uint64_t i,
                         uint64_t answer[12]);

/* ---- pictures */

/* Stores the word x at a pixel and keeps its bank's sum. Refused by 11, 12, 13 (mem or sums too short), 14. Tells nothing.
   Lent: the word at the pixel's bank and address is x, and the bank's entry of sums is what it was, less the old word, plus x,
   modulo 2^64. The rest of mem and of sums stays; on a refusal all of both does. */
uint64_t bankplan_store(uint32_t a, uint32_t b, uint32_t d, uint32_t w, uint32_t h, uint16_t *mem, size_t mem_length,
                        uint64_t *sums, size_t sums_length, int16_t i, int16_t j, uint16_t x, uint64_t answer[12]);

/* Loads the word at a pixel. Refused by 11, 12, 13, 14. Tells the word. */
uint64_t bankplan_load(uint32_t a, uint32_t b, uint32_t d, uint32_t w, uint32_t h, const uint16_t *mem, size_t mem_length,
                       int16_t i, int16_t j, uint64_t answer[12]);

/* Clears bank k and its sum. Refused by 11, 12, 13 (mem or sums too short), 15 (k not below N). Tells nothing.
   Lent: each word of the bank is 0, and so is its entry of sums. The rest of mem and of sums stays; on a refusal all of both
   does. */
uint64_t bankplan_clear(uint32_t a, uint32_t b, uint32_t d, uint32_t w, uint32_t h, uint16_t *mem, size_t mem_length,
                        uint64_t *sums, size_t sums_length, uint64_t k, uint64_t answer[12]);

/* Adds up the words of bank k, exactly. Refused by 11, 12, 13, 15 (k not below N). Tells the sum. This is the walk. */
uint64_t bankplan_sum(uint32_t a, uint32_t b, uint32_t d, uint32_t w, uint32_t h, const uint16_t *mem, size_t mem_length,
                      uint64_t k, uint64_t answer[12]);

/* Makes the sums of all banks afresh from the memory, whatever they were. Refused by 11, 12, 13 (mem or sums too short). Tells
   nothing.
   Lent: entry k of sums is the sum of bank k's words, for each k below N. The rest of sums stays; on a refusal all of it does. */
uint64_t bankplan_make_sums(uint32_t a, uint32_t b, uint32_t d, uint32_t w, uint32_t h, const uint16_t *mem, size_t mem_length,
                            uint64_t *sums, size_t sums_length, uint64_t answer[12]);

/* Reads the sum that is kept of bank k: a look-up, in the same time for every bank and picture. Refused by 11, 13 (sums too
   short), 15 (k not below N). Tells the sum. It is given no sides and no memory, so it is never refused by 12. */
uint64_t bankplan_read_sum(uint32_t a, uint32_t b, uint32_t d, const uint64_t *sums, size_t sums_length, uint64_t k,
                           uint64_t answer[12]);

/* Fetches pattern n of a book with (0, 0) moved to (i, j), for r. Refused by 2, 3, 4, 19 in book order, 20, 11, 12, 13, 17, by 10
   with the clash where the plan does not suit pattern n for r, 14 where any of its pixels is outside, 16. Tells the count of
   words.
   Lent: the words stand at the start of out in the book's pixel order, the rest of it stays; on a refusal all of it does. */
uint64_t bankplan_fetch(const int8_t columns[1024], const int8_t rows[1024], const size_t used[16], size_t count, uint32_t r,
                        uint32_t a, uint32_t b, uint32_t d, uint32_t w, uint32_t h, const uint16_t *mem, size_t mem_length,
                        size_t n, int16_t i, int16_t j, uint16_t *out, size_t out_length, uint64_t answer[12]);

/* Does the same with columns modulo w and rows modulo h. Refused by 2, 3, 4, 19 in book order, 20, 11, 12, 13, 17, by 10 with
   the clash, 18, 16. Tells the count of words. Lent: as for a fetch.
   It is allowed, and 18 is not told, exactly if a divides w, d divides h, and a divides b * (h / d). Then (w, 0) and (0, h) are in
   the plan's lattice: a step of w columns or of h rows leads to the same bank. So w = 12 and h = 6 will do for the plan 6, 0, 2. */
uint64_t bankplan_ring_fetch(const int8_t columns[1024], const int8_t rows[1024], const size_t used[16], size_t count,
                             uint32_t r, uint32_t a, uint32_t b, uint32_t d, uint32_t w, uint32_t h, const uint16_t *mem,
                             size_t mem_length, size_t n, int16_t i, int16_t j, uint16_t *out, size_t out_length,
                             uint64_t answer[12]);

/* ---- lists of calls */

/*
 * Two functions carry out a list of calls, each on the memory and the sums as the one before left them. A call is a store, a
 * clear, a load, a fetch, a ring fetch, or one of bankplan_make_sums, bankplan_sum and bankplan_read_sum. The list is numbers,
 * five to a call:
 *
 *   number       store    clear, sum,   load     fetch,               make sums
 *                         read sum               ring fetch
 *   0: kind      0        1, 6, 7       2        3, 4                 5
 *   1: column    column   below 65536   column   column of position   below 65536
 *   2: row       row      below 65536   row      row of position      below 65536
 *   3: what      word     bank          any      pattern number       any
 *   4: room      any      any           any      words of its output  any
 *
 * A column or a row is 16 bits in two's complement, in a number below 65536: (uint16_t)-1 is 65535, which is -1. A word is below
 * 65536 too. Banks, pattern numbers and rooms may be any numbers. "Any" is not looked at; "below 65536" is all that is tested of
 * such a number. What is said of fetches below holds for ring fetches too.
 *
 * The fetches' outputs stand in `outs`, in the list's order: the first fetch has the first `room` words, the next one the words
 * behind them, and so on. Each puts its words at the start of its own; the rest of outs stays.
 *
 * The replies stand in `replies` in the list's order, twelve numbers to a call. The first is the number that the single call
 * returns, the others are what it puts into its answer, and 0 for what it leaves there:
 *
 *   store, clear or make sums, not refused    0, then 0
 *   load, not refused                         0, the word, then 0
 *   fetch, not refused                        0, the count of words, then 0
 *   sum or read sum, not refused              0, the sum, then 0
 *   refused                                   the refusal's number, its place (0), then 0
 *   refused by 10                             10, 0, the pattern's number, the numbers of the clash's r + 1 pixels, then 0
 *
 * A refused call is no fault of the list: the calls behind it are carried out. What stands in replies behind the last reply
 * stays.
 */

/* The kinds of calls. */
enum bankplan_kind {
    BANKPLAN_KIND_STORE = 0,
    BANKPLAN_KIND_CLEAR = 1,
    BANKPLAN_KIND_LOAD = 2,
    BANKPLAN_KIND_FETCH = 3,
    BANKPLAN_KIND_RING_FETCH = 4,
    BANKPLAN_KIND_MAKE_SUMS = 5,
    BANKPLAN_KIND_SUM = 6,     /* the walk */
    BANKPLAN_KIND_READ_SUM = 7 /* the look-up */
};

/* How many numbers a call and a reply have; and what a function returns for numbers that are no list of calls. Document 01 has
   no number for that. */
enum bankplan_list {
    BANKPLAN_CALL_NUMBERS = 5,
    BANKPLAN_REPLY_NUMBERS = 12,
    BANKPLAN_NOT_CALLS = 255
};

/* Carries out a list of calls under one plan, with one book, one r and one picture. Tells nothing. It returns
     0      The list was carried out, whatever its replies are.
     255    Five numbers are no call's, or fewer than five are left at the end. answer[0] is the index of the first.
     16     outs has not the room of all fetches, or replies has not twelve numbers to a call. The place is 0.
   The list is tested from its start on, the five numbers of a call before its room; then what is left at the end, then the
   replies' length.
   After a make-sums in the list that was not refused, each of the N sums is the figure of bankplan_sum, to the end of the list.
   Lent: mem, sums, outs and replies as said above; where the list was not carried out all of them stay. */
uint64_t bankplan_run_list(const int8_t columns[1024], const int8_t rows[1024], const size_t used[16], size_t count, uint32_t r,
                           uint32_t a, uint32_t b, uint32_t d, uint32_t w, uint32_t h, uint16_t *mem, size_t mem_length,
                           uint64_t *sums, size_t sums_length, const uint64_t *numbers, size_t numbers_length, uint16_t *outs,
                           size_t outs_length, uint64_t *replies, size_t replies_length, uint64_t answer[12]);

/* Finds the plan with the fewest banks, at most limit, for a book and r, and carries out a list of calls under it. Refused by 2,
   3, 4, 19 in book order, 6, 20, 7 where there is no plan; then 255 and 16 as above. Tells a, b, d.
   The memory is to have N * depth words under the plan that is found, and the sums N entries, or calls are refused by 13. Always
   enough are (w + limit) * (h + limit) words and limit entries. If these N * depth words are 0, each word that is fetched or
   loaded is the one last stored at its pixel, or 0 where there is none since the last clear of its bank (demand 3 of document
   01). The pixels of a ring fetch are the wrapped ones.
   Lent: as above; where there is no plan or the list was not carried out all of it stays. */
uint64_t bankplan_find_and_run(const int8_t columns[1024], const int8_t rows[1024], const size_t used[16], size_t count,
                               uint32_t r, uint32_t limit, uint32_t w, uint32_t h, uint16_t *mem, size_t mem_length,
                               uint64_t *sums, size_t sums_length, const uint64_t *numbers, size_t numbers_length,
                               uint16_t *outs, size_t outs_length, uint64_t *replies, size_t replies_length,
                               uint64_t answer[12]);

/* ---- record lists */

/* A pixel of a picture, and where its word stands. */
typedef struct bankplan_pixel_record {
    int16_t column;
    int16_t row;
    uint32_t bank;
    uint32_t address;
} bankplan_pixel_record;

/* Fills in the bank and the address of every record of a list. Refused by 11, 12, 14 where any pixel is outside. Tells nothing.
   Lent: every record's bank and address are filled in, its column and row stay; on a refusal the whole list does. */
uint64_t bankplan_fill_records(uint32_t a, uint32_t b, uint32_t d, uint32_t w, uint32_t h, bankplan_pixel_record *list,
                               size_t list_length, uint64_t answer[12]);

/* The sizes that the library counts on, tested from C11 and C++11 on. */
#if defined(__cplusplus) && __cplusplus >= 201103L
#define BANKPLAN_ASSERT static_assert
#elif defined(__STDC_VERSION__) && __STDC_VERSION__ >= 201112L
#define BANKPLAN_ASSERT _Static_assert
#endif
#ifdef BANKPLAN_ASSERT
BANKPLAN_ASSERT(sizeof(size_t) == 8, "size_t has 8 bytes");
BANKPLAN_ASSERT(sizeof(bankplan_pixel_record) == 12, "a pixel record has 12 bytes");
BANKPLAN_ASSERT(offsetof(bankplan_pixel_record, column) == 0, "the column is at 0");
BANKPLAN_ASSERT(offsetof(bankplan_pixel_record, row) == 2, "the row is at 2");
BANKPLAN_ASSERT(offsetof(bankplan_pixel_record, bank) == 4, "the bank is at 4");
BANKPLAN_ASSERT(offsetof(bankplan_pixel_record, address) == 8, "the address is at 8");
#undef BANKPLAN_ASSERT
#endif

#ifdef __cplusplus
}
#endif

#endif
