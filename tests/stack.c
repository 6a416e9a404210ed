// How many bytes of stack each call uses: stack guard|heap CASES. This file is linked with the hard use test, hard*.c, and
// watches its calls: the linker's --wrap sends each of them through a door below. The door fills the 32,768 bytes of stack
// below its caller with marks, calls the function, and looks how far down the marks are gone. At the end there is a line to
// each function with the most bytes that a call used. The return address counts. Arguments that pass on the stack do not: they
// stand in the caller's frame.
#ifndef __x86_64__
#error "the doors are in the assembly language of x86-64"
#endif
#include <stdio.h>
#include <stdlib.h>
#include <string.h>

#include "hard.h"

void *door_back;       // where the call returns to
const char *door_name; // the function's name
static size_t most[CALLS];

#define DOOR(name)                                     \
    ".globl __wrap_bankplan_" #name "\n"               \
    "__wrap_bankplan_" #name ":\n"                     \
    "    lea 1f(%rip), %r10\n"                         \
    "    mov %r10, door_name(%rip)\n"                  \
    "    lea __real_bankplan_" #name "(%rip), %r10\n"  \
    "    jmp door\n"                                   \
    "1:  .asciz \"" #name "\"\n"

__asm__(
    ".text\n"
    DOOR(read_book) DOOR(pattern_part) DOOR(write_book) DOOR(test_record) DOOR(find) DOOR(check) DOOR(write_cycles)
    DOOR(normal_form) DOOR(bank) DOOR(depth) DOOR(address) DOOR(locate) DOOR(store) DOOR(load) DOOR(clear) DOOR(sum)
    DOOR(make_sums) DOOR(read_sum) DOOR(fetch) DOOR(ring_fetch) DOOR(run_list) DOOR(find_and_run) DOOR(fill_records)
    "door:\n"
    "    popq door_back(%rip)\n"              // so the stack is as before the call, and arguments stay in their places
    "    movabs $0x6d61726b6d61726b, %rax\n"  // the mark
    "    mov $-8, %r11\n"
    "1:  mov %rax, (%rsp,%r11)\n"
    "    sub $8, %r11\n"
    "    cmp $-32768, %r11\n"
    "    jge 1b\n"
    "    call *%r10\n"
    "    movabs $0x6d61726b6d61726b, %rcx\n"
    "    mov $-32768, %r11\n"
    "2:  cmp %rcx, (%rsp,%r11)\n"
    "    jne 3f\n"
    "    add $8, %r11\n"                      // ends at the return address at the latest
    "    jmp 2b\n"
    "3:  mov %r11, %rdi\n"
    "    neg %rdi\n"
    "    push %rax\n"                         // the number that the function returned
    "    sub $8, %rsp\n"
    "    call door_used\n"
    "    add $8, %rsp\n"
    "    pop %rax\n"
    "    jmp *door_back(%rip)\n");

void door_used(size_t bytes) {
    int c = 0;
    while (c < CALLS && strcmp(calls[c].name, door_name) != 0) c++;
    if (c == CALLS || bytes == 32768) {
        fprintf(stderr, "stack: %s is not known, or used all that was marked\n", door_name);
        abort();
    }
    if (bytes > most[c]) most[c] = bytes;
}

// Euclid's longest way in 16 bits: vectors of four Fibonacci numbers that follow each other have determinant 1 or -1.
static void longest_gcd(const struct input *x) {
    uint64_t answer[BANKPLAN_ANSWER_NUMBERS];
    bankplan_normal_form(17711, 28657, 10946, 17711, answer);
    bankplan_check(x->columns, x->rows, x->used, x->count, 1, 17711, 28657, 10946, 17711, answer);
}

__attribute__((destructor)) static void show(void) {
    static struct input x;
    hardest_record(&x);
    longest_gcd(&x);
    x.used[0] = x.count = 1;
    longest_gcd(&x);
    for (int c = 0; c < CALLS; c++) printf("bankplan_%s %zu\n", calls[c].name, most[c]);
}
