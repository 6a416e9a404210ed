/*
 * How many banks does a book of patterns need, if a camera may take r cycles for a pattern? The answer is a line of eight numbers,
 * for r from 1 to 8. The script examples/cycles makes a table of such lines.
 *
 *   cc -o target/cycles examples/cycles.c target/staticlib/libcapi.a && target/cycles < examples/cross.book
 *
 * The book's bytes come from standard input. The status is 0, or 1 where the book is refused, or 2 where the input or output fails.
 */
#include <stdio.h>

#include "../include/bankplan.h"

static int refused(uint64_t number) {
    return fprintf(stderr, "cycles: refused %d: %s\n", (int)number, bankplan_refusal_text(number)), 1;
}

/* Prints the least bank count for each r, and gives the status. */
static int show(const uint8_t *bytes, size_t length) {
    static int8_t columns[BANKPLAN_ENTRIES], rows[BANKPLAN_ENTRIES];
    static size_t used[BANKPLAN_MAX_PATTERNS];
    uint64_t answer[BANKPLAN_ANSWER_NUMBERS], number;
    if ((number = bankplan_read_book(bytes, length, columns, rows, used, answer)) != 0)
        return refused(number);
    size_t count = (size_t)answer[0];
    for (uint32_t r = 1; r <= BANKPLAN_MAX_CYCLES; r++) {
        if ((number = bankplan_find(columns, rows, used, count, r, BANKPLAN_MAX_BANKS, answer)) != 0)
            return refused(number);
        printf(r < BANKPLAN_MAX_CYCLES ? "%d " : "%d\n", (int)(answer[0] * answer[2]));
    }
    return 0;
}

int main(void) {
    uint8_t bytes[BANKPLAN_MAX_BOOK_BYTES + 1]; /* one more than the longest book has, so that bytes behind it are seen */
    size_t length = fread(bytes, 1, sizeof bytes, stdin);
    int status = ferror(stdin) ? 2 : show(bytes, length);
    return ferror(stdin) || fflush(stdout) != 0 ? perror("cycles"), 2 : status;
}
