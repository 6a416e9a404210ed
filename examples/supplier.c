/*
 * A supplier sends a plan as two vectors. Does it suit our book of patterns, and how many banks has it too many?
 *
 *   cc -o target/supplier examples/supplier.c target/staticlib/libcapi.a && target/supplier 10 0 2 1 < examples/cross.book
 *
 * The arguments are the vectors (x1, x2) and (y1, y2), each a column and a row, and then r, the cycles that a camera may take for
 * a pattern; without it r is 1. The book's bytes come from standard input. The status is 0 where the vectors suit, 1 where
 * something is refused, 2 where the arguments are wrong or the input or output fails.
 */
#include <stdio.h>
#include <stdlib.h>

#include "../include/bankplan.h"

/* Whether the whole text is a number of 16 bits with a sign, and which. */
static int is_number(const char *text, int16_t *number) {
    char *end;
    long value = strtol(text, &end, 10);
    *number = (int16_t)value;
    return (*text == '-' || (*text >= '0' && *text <= '9')) && end != text && *end == 0 && value == *number;
}

static int8_t columns[BANKPLAN_ENTRIES], rows[BANKPLAN_ENTRIES];

/* A clash is told with r + 1 pixels. */
static int refused(const char *what, uint32_t r, uint64_t number, const uint64_t *answer) {
    printf("%s: refused %d (%s)", what, (int)number, bankplan_refusal_text(number));
    if (number <= BANKPLAN_EXTRA || number == BANKPLAN_LOWER)
        printf(": at byte %d", (int)answer[0]);
    for (uint32_t k = 0; number == BANKPLAN_UNSUITED && k <= r; k++) {
        size_t e = (size_t)answer[1] * BANKPLAN_MAX_PIXELS + (size_t)answer[2 + k];
        printf("%s(%d, %d)", k == 0 ? ": " : k < r ? ", " : " and ", columns[e], rows[e]);
    }
    if (number == BANKPLAN_UNSUITED)
        printf(" of pattern %d share a bank", (int)answer[1]);
    printf("\n");
    return 1;
}

/* Finds the least plan for r, checks the supplier's vectors, and gives the status. */
static int judge(const uint8_t *bytes, size_t length, const int16_t v[4], uint32_t r) {
    static size_t used[BANKPLAN_MAX_PATTERNS];
    uint64_t answer[BANKPLAN_ANSWER_NUMBERS], number;
    if ((number = bankplan_read_book(bytes, length, columns, rows, used, answer)) != 0) {
        if (length > 0 && bytes[0] > BANKPLAN_MAX_PATTERNS)
            fprintf(stderr, "supplier: is this a drawing? bash examples/book makes the bytes of its book\n");
        return refused("book", r, number, answer);
    }
    size_t count = (size_t)answer[0];
    if (r != 1)
        printf("cycles: %d\n", (int)r);
    if ((number = bankplan_find(columns, rows, used, count, r, BANKPLAN_MAX_BANKS, answer)) != 0)
        return refused("least", r, number, answer);
    int a = (int)answer[0], b = (int)answer[1], d = (int)answer[2];
    printf("least: %d banks, plan %d %d %d\n", a * d, a, b, d);
    printf("vectors (%d, %d) and (%d, %d)\n", v[0], v[1], v[2], v[3]);
    if ((number = bankplan_check(columns, rows, used, count, r, v[0], v[1], v[2], v[3], answer)) != 0)
        return refused("yours", r, number, answer);
    a = (int)answer[0], b = (int)answer[1], d = (int)answer[2];
    return printf("yours: %d banks, plan %d %d %d, surplus %d\n", a * d, a, b, d, (int)answer[3]), 0;
}

int main(int count, char **words) {
    uint8_t bytes[BANKPLAN_MAX_BOOK_BYTES + 1]; /* one more than the longest book has, so that bytes behind it are seen */
    int16_t v[5] = {0, 0, 0, 0, 1};
    for (int k = 0; k < 5; k++)
        if (count < 5 || count > 6 || (k + 1 < count && !is_number(words[k + 1], &v[k])))
            return fprintf(stderr, "usage: supplier x1 x2 y1 y2 [r] < FILE.book: vectors (x1, x2) and (y1, y2) of whole "
                           "numbers from -32768 to 32767, and cycles r from 1 to 8\n"), 2;
    size_t length = fread(bytes, 1, sizeof bytes, stdin);
    int status = ferror(stdin) ? 2 : judge(bytes, length, v, (uint32_t)v[4]);
    return ferror(stdin) || fflush(stdout) != 0 ? perror("supplier"), 2 : status;
}
