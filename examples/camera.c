/*
 * A camera's buffer, from C: a filter of five pixels in a cross, the plan with the fewest banks for it, a picture of 7 by 4 under
 * that plan, what shuffled books, suppliers and wrong positions get, the sum of a bank by a look-up and by the walk, a list of
 * calls made at once, the same filter read in two cycles, and a turntable, whose pixels are fetched around its edges. camera.rs
 * does the same in Rust.
 *
 *   cc -std=c11 -o target/camera-c examples/camera.c target/staticlib/libcapi.a
 */
#include <stdio.h>
#include <stdlib.h>
#include <string.h>

#include "../include/bankplan.h"

enum { WIDTH = 7, HEIGHT = 4 };

/* Says what turned a call down; the number is handed on. */
static uint64_t said(const char *call, uint64_t number) {
    if (number != 0)
        printf("%s: refused %d\n", call, (int)number);
    return number;
}

/* The same of a call for r, whose clash is r + 1 pixels. */
static uint64_t said_for(uint32_t r, const char *call, uint64_t number, const uint64_t answer[12]) {
    if (number != BANKPLAN_UNSUITED)
        return said(call, number);
    printf("%s: refused %d, pixels", call, (int)number);
    for (uint32_t k = 0; k <= r; k++)
        printf("%s%d", k == 0 ? " " : k < r ? ", " : " and ", (int)answer[2 + k]);
    printf(" of pattern %d share a bank\n", (int)answer[1]);
    return number;
}

/* The replies of some calls for r = 1; the words are those of the fetch. */
static void show(int calls, const uint64_t *numbers, const uint64_t *replies, const uint16_t *words) {
    for (int k = 0; k < calls; k++) {
        const uint64_t *reply = replies + k * BANKPLAN_REPLY_NUMBERS;
        uint64_t kind = numbers[k * BANKPLAN_CALL_NUMBERS];
        int fetch = kind == BANKPLAN_KIND_FETCH || kind == BANKPLAN_KIND_RING_FETCH;
        int sum = kind == BANKPLAN_KIND_SUM || kind == BANKPLAN_KIND_READ_SUM;
        if (said_for(1, "list", reply[0], reply + 1) != 0)
            continue;
        printf(kind == BANKPLAN_KIND_LOAD ? "list: word" : fetch ? "list: words" : sum ? "list: sum" : "list: done");
        if (kind == BANKPLAN_KIND_LOAD || sum)
            printf(" %02d", (int)reply[1]);
        for (uint64_t e = 0; fetch && e < reply[1]; e++)
            printf(" %02d", words[e]);
        printf("\n");
    }
}

/* A camera that may take two cycles needs fewer banks: each pixel's bank and cycle, and what a plan of two banks gets. */
static int two_cycles(const int8_t columns[1024], const int8_t rows[1024], const size_t used[16], size_t count) {
    uint64_t answer[12];
    uint8_t cycles[64];
    if (said("find", bankplan_find(columns, rows, used, count, 2, 1024, answer)) != 0)
        return 1;
    uint32_t a = (uint32_t)answer[0], b = (uint32_t)answer[1], d = (uint32_t)answer[2];
    printf("plan in two cycles: %d %d %d, %d banks\n", (int)a, (int)b, (int)d, (int)(a * d));
    if (said_for(2, "cycles", bankplan_write_cycles(columns, rows, used, count, 2, a, b, d, 0, cycles, 64, answer), answer) != 0)
        return 1;
    size_t written = (size_t)answer[0];
    for (size_t e = 0; e < written; e++)
        if (said("bank", bankplan_bank(a, b, d, columns[e], rows[e], answer)) == 0)
            printf("cycles: (%d, %d) from bank %d in cycle %d\n", columns[e], rows[e], (int)answer[0], cycles[e]);
    said_for(2, "check in two cycles", bankplan_check(columns, rows, used, count, 2, 2, 0, 0, 1, answer), answer);
    return 0;
}

/* A turntable's picture of 12 by 6 closes to a ring both ways. Its filter is 6 by 2 pixels, and the plan for it is 6, 0, 2. A list
   stores a word at each pixel, then fetches around the corner. */
static int turntable(void) {
    enum { WIDE = 12, HIGH = 6, STORES = WIDE * HIGH, CALLS = STORES + 1 };
    static const uint8_t bytes[] = {1, 12, 0, 0, 1, 0, 2, 0, 3, 0, 4, 0, 5, 0, 0, 1, 1, 1, 2, 1, 3, 1, 4, 1, 5, 1};
    static int8_t columns[1024], rows[1024];
    static size_t used[16];
    static uint64_t numbers[CALLS][BANKPLAN_CALL_NUMBERS], replies[CALLS][BANKPLAN_REPLY_NUMBERS];
    uint16_t mem[WIDE * HIGH] = {0}, words[12];
    uint64_t sums[12] = {0}, answer[12]; /* the sums of 12 banks, all words of which are 0 */
    if (said("read", bankplan_read_book(bytes, sizeof bytes, columns, rows, used, answer)) != 0)
        return 1;
    for (uint64_t k = 0; k < STORES; k++) {
        uint64_t i = k % WIDE, j = k / WIDE, store[] = {BANKPLAN_KIND_STORE, i, j, 100 * j + i, 0};
        memcpy(numbers[k], store, sizeof store);
    }
    static const uint64_t fetch[] = {BANKPLAN_KIND_RING_FETCH, 9, 5, 0, 12}; /* pattern 0 at (9, 5) */
    memcpy(numbers[STORES], fetch, sizeof fetch);
    if (said("turntable", bankplan_find_and_run(columns, rows, used, 1, 1, 1024, WIDE, HIGH, mem, STORES, sums, 12, numbers[0],
                                                CALLS * BANKPLAN_CALL_NUMBERS, words, 12, replies[0],
                                                CALLS * BANKPLAN_REPLY_NUMBERS, answer)) != 0)
        return 1;
    printf("turntable: plan %d %d %d\n", (int)answer[0], (int)answer[1], (int)answer[2]);
    show(1, fetch, replies[STORES], words);
    return 0;
}

int main(void) {
    /* one pattern of five pixels, which ascend by row, then column: (0,-1), (-1,0), (0,0), (1,0), (0,1); column byte first */
    static const uint8_t bytes[] = {1, 5, 0, 0xff, 0xff, 0, 0, 0, 1, 0, 0, 1};
    /* the same pixels, but (-1,0) behind (0,0) */
    static const uint8_t shuffled[] = {1, 5, 0, 0, 0xff, 0, 1, 0, 0, 0xff, 0, 1};
    static int8_t columns[1024], rows[1024];
    static size_t used[16];
    uint16_t words[64];
    uint64_t sums[BANKPLAN_MAX_BANKS], answer[12];

    /* the book, as a record */
    if (said("read", bankplan_read_book(bytes, sizeof bytes, columns, rows, used, answer)) != 0)
        return 1;
    size_t count = (size_t)answer[0];
    printf("book: %d pattern, %d pixels\n", (int)count, (int)used[0]);

    /* shuffled pixels are no book; the record stays as it is */
    said("shuffled", bankplan_read_book(shuffled, sizeof shuffled, columns, rows, used, answer));

    /* the plan with the fewest banks, all pixels in one cycle */
    if (said("find", bankplan_find(columns, rows, used, count, 1, 1024, answer)) != 0)
        return 1;
    uint32_t a = (uint32_t)answer[0], b = (uint32_t)answer[1], d = (uint32_t)answer[2];
    printf("plan: %d %d %d, %d banks\n", (int)a, (int)b, (int)d, (int)(a * d));

    /* what two suppliers send: twice as many banks as needed, and too few */
    if (said_for(1, "check", bankplan_check(columns, rows, used, count, 1, 10, 0, 2, 1, answer), answer) == 0)
        printf("check: %d %d %d, surplus %d\n", (int)answer[0], (int)answer[1], (int)answer[2], (int)answer[3]);
    said_for(1, "check", bankplan_check(columns, rows, used, count, 1, 2, 0, 0, 1, answer), answer);

    /* the memory that the picture needs: N * depth words */
    if (said("depth", bankplan_depth(a, b, d, WIDTH, HEIGHT, answer)) != 0)
        return 1;
    size_t length = (size_t)(a * d * answer[0]);
    printf("memory: %d words, %d to a bank\n", (int)length, (int)answer[0]);
    uint16_t *mem = calloc(length, sizeof *mem);
    if (mem == NULL)
        return 1;

    /* the sums of the N banks, made from the memory at the start; the stores and clears below keep them */
    size_t banks = a * d;
    if (said("make sums", bankplan_make_sums(a, b, d, WIDTH, HEIGHT, mem, length, sums, banks, answer)) != 0)
        return 1;

    /* each pixel gets a word of its own: its row, then its column */
    for (int16_t j = 0; j < HEIGHT; j++)
        for (int16_t i = 0; i < WIDTH; i++) {
            uint16_t word = (uint16_t)(10 * j + i);
            if (said("store", bankplan_store(a, b, d, WIDTH, HEIGHT, mem, length, sums, banks, i, j, word, answer)) != 0)
                return 1;
        }

    /* the cross at (3, 2): five words from five banks */
    if (said_for(1, "fetch",
                 bankplan_fetch(columns, rows, used, count, 1, a, b, d, WIDTH, HEIGHT, mem, length, 0, 3, 2, words, 64, answer),
                 answer) != 0)
        return 1;
    size_t fetched = (size_t)answer[0];
    for (size_t e = 0; e < fetched; e++) {
        int16_t i = (int16_t)(3 + columns[e]), j = (int16_t)(2 + rows[e]);
        if (said("bank", bankplan_bank(a, b, d, i, j, answer)) == 0)
            printf("fetch: word %02d at (%d, %d) from bank %d\n", words[e], i, j, (int)answer[0]);
    }

    /* where the words of three pixels stand */
    bankplan_pixel_record list[3] = {{0, 0, 0, 0}, {3, 2, 0, 0}, {6, 3, 0, 0}};
    if (said("records", bankplan_fill_records(a, b, d, WIDTH, HEIGHT, list, 3, answer)) == 0)
        for (int k = 0; k < 3; k++)
            printf("record: (%d, %d) in bank %d, address %d\n", list[k].column, list[k].row, (int)list[k].bank,
                   (int)list[k].address);

    /* at the corner the cross leaves the picture */
    said_for(1, "fetch at the corner",
             bankplan_fetch(columns, rows, used, count, 1, a, b, d, WIDTH, HEIGHT, mem, length, 0, 0, 0, words, 64, answer),
             answer);

    /* a ring fetch goes around the edges, but not with these sides: 5 does not divide 7 */
    said_for(1, "ring fetch at the corner",
             bankplan_ring_fetch(columns, rows, used, count, 1, a, b, d, WIDTH, HEIGHT, mem, length, 0, 0, 0, words, 64, answer),
             answer);

    /* the sum of bank 0, by a look-up and by a walk through its words, before and after it is cleared */
    for (int round = 0; round < 2; round++) {
        if (said("read sum", bankplan_read_sum(a, b, d, sums, banks, 0, answer)) != 0)
            return 1;
        uint64_t kept = answer[0];
        if (said("sum", bankplan_sum(a, b, d, WIDTH, HEIGHT, mem, length, 0, answer)) != 0)
            return 1;
        printf("bank 0: sum %d by a look-up, %d by the walk\n", (int)kept, (int)answer[0]);
        said("clear", bankplan_clear(a, b, d, WIDTH, HEIGHT, mem, length, sums, banks, 0, answer));
    }

    /* six calls in one list: five numbers each, replies of twelve; the fetch has an output of five words */
    enum { CALLS = 6 };
    static const uint64_t numbers[] = {
        BANKPLAN_KIND_MAKE_SUMS, 0, 0, 0, 0, /* the sums afresh */
        BANKPLAN_KIND_STORE, 4, 2, 99, 0, /* word 99 at (4, 2) */
        BANKPLAN_KIND_LOAD, (uint16_t)-1, 2, 0, 0, /* the word at (-1, 2) */
        BANKPLAN_KIND_CLEAR, 0, 0, 3, 0, /* bank 3 */
        BANKPLAN_KIND_READ_SUM, 0, 0, 0, 0, /* the sum of bank 0 */
        BANKPLAN_KIND_FETCH, 3, 2, 0, 5, /* pattern 0 at (3, 2) */
    };
    uint64_t replies[CALLS * BANKPLAN_REPLY_NUMBERS];
    if (said("list",
             bankplan_run_list(columns, rows, used, count, 1, a, b, d, WIDTH, HEIGHT, mem, length, sums, banks, numbers,
                               CALLS * BANKPLAN_CALL_NUMBERS, words, 5, replies, CALLS * BANKPLAN_REPLY_NUMBERS, answer)) != 0)
        return 1;
    show(CALLS, numbers, replies, words);

    /* the finder too, and the same list on a memory of 0, which the list itself makes the sums of */
    for (size_t k = 0; k < length; k++)
        mem[k] = 0;
    if (said("find and run",
             bankplan_find_and_run(columns, rows, used, count, 1, 1024, WIDTH, HEIGHT, mem, length, sums, banks, numbers,
                                   CALLS * BANKPLAN_CALL_NUMBERS, words, 5, replies, CALLS * BANKPLAN_REPLY_NUMBERS,
                                   answer)) != 0)
        return 1;
    printf("list under plan %d %d %d\n", (int)answer[0], (int)answer[1], (int)answer[2]);
    show(CALLS, numbers, replies, words);
    free(mem);
    return two_cycles(columns, rows, used, count) || turntable();
}
