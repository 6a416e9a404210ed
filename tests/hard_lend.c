// Lends buffers: at guard pages, the read-only ones through a second mapping that can't be written; or on the heap.
#define _GNU_SOURCE
#include <errno.h>
#include <stdio.h>
#include <stdlib.h>
#include <string.h>
#include <sys/mman.h>
#include <unistd.h>

#include "hard.h"

#if __has_include(<valgrind/memcheck.h>)
#include <valgrind/memcheck.h>
#else
#define VALGRIND_MAKE_MEM_UNDEFINED(p, n) (void)(p)
#define VALGRIND_MAKE_MEM_DEFINED(p, n) (void)(p)
#define VALGRIND_CHECK_MEM_IS_DEFINED(p, n) 0
#endif

enum { PAGE = 4096, AROUND = 0xa5 };

static struct {
    uint8_t *writable, *readable; // two views of the same bytes
    size_t room;
    const uint8_t *content;
    size_t size, margin; // margin: bytes beside the buffer that are looked at
    uint8_t *mine, *passed, *block;
} slots[SLOTS];
static enum way how;

static void fail(const char *what) {
    fprintf(stderr, "hard use: %s: %s\n", what, strerror(errno));
    exit(2);
}

// The file's bytes between two pages that nobody may touch.
static uint8_t *view(int file, size_t room, int rights) {
    uint8_t *all = mmap(NULL, room + 2 * PAGE, PROT_NONE, MAP_PRIVATE | MAP_ANONYMOUS, -1, 0);
    if (all == MAP_FAILED) fail("mmap");
    if (mmap(all + PAGE, room, rights, MAP_SHARED | MAP_FIXED, file, 0) == MAP_FAILED) fail("mmap");
    return all + PAGE;
}

static void map_slot(enum slot s) {
    size_t room = s == MEMORY ? MOST_WORDS * sizeof(uint16_t) : s == SUMS ? MOST_ENTRIES * sizeof(uint64_t) : SMALL;
    int file = memfd_create("hard", 0);
    if (file < 0 || ftruncate(file, (off_t)room) != 0) fail("memfd_create");
    slots[s].room = room;
    slots[s].writable = view(file, room, PROT_READ | PROT_WRITE);
    slots[s].readable = view(file, room, PROT_READ);
    close(file);
}

void lend_by(enum way way) {
    if (sysconf(_SC_PAGESIZE) != PAGE) fail("a page is not 4096 bytes");
    how = way;
    for (int s = 0; way != HEAP && s < SLOTS; s++)
        if (!slots[s].room) map_slot(s);
}

// A block of exactly this size; for none, the end of a block.
static void lend_block(enum slot s, size_t size) {
    slots[s].block = malloc(size ? size : 16);
    if (!slots[s].block) fail("malloc");
    slots[s].mine = slots[s].passed = slots[s].block + (size ? 0 : 16);
    slots[s].margin = 0;
}

static void lend_at_guard(enum slot s, size_t size, bool writable) {
    if (size > slots[s].room) fail("larger than its slot");
    size_t rest = slots[s].room - size, at = how == END ? rest : 0;
    slots[s].margin = rest < SMALL ? rest : SMALL;
    slots[s].mine = slots[s].writable + at;
    slots[s].passed = (writable ? slots[s].writable : slots[s].readable) + at;
    memset(how == END ? slots[s].mine - slots[s].margin : slots[s].mine + size, AROUND, slots[s].margin);
}

void lend(enum slot s, const void *content, size_t size, bool writable) {
    slots[s].content = content;
    slots[s].size = size;
    if (how == HEAP) lend_block(s, size);
    else lend_at_guard(s, size, writable);
    if (size) memcpy(slots[s].mine, content, size);
}

void *lent(enum slot s) { return slots[s].passed; }

void lent_unknown(enum slot s, size_t from, size_t to) {
    if (how == HEAP && from < to) VALGRIND_MAKE_MEM_UNDEFINED(slots[s].mine + from, to - from);
}

bool lent_known(enum slot s, size_t from, size_t to) {
    return how != HEAP || from >= to || VALGRIND_CHECK_MEM_IS_DEFINED(slots[s].mine + from, to - from) == 0;
}

void lent_known_again(enum slot s) {
    if (how == HEAP && slots[s].size) VALGRIND_MAKE_MEM_DEFINED(slots[s].mine, slots[s].size);
}

static bool around_same(enum slot s) {
    const uint8_t *p = how == END ? slots[s].mine - slots[s].margin : slots[s].mine + slots[s].size;
    size_t n = slots[s].margin;
    return n == 0 || (p[0] == AROUND && memcmp(p, p + 1, n - 1) == 0);
}

bool lent_same(enum slot s, size_t from, size_t to) {
    const uint8_t *now = slots[s].mine, *then = slots[s].content;
    size_t size = slots[s].size;
    if (to < from || to > size) return false;
    return around_same(s) && (from == 0 || memcmp(now, then, from) == 0) &&
           (to == size || memcmp(now + to, then + to, size - to) == 0);
}

uint64_t lent_digest(enum slot s, uint64_t digest) {
    // of a large buffer only some bytes: the rest was compared already
    size_t step = slots[s].size > SMALL ? slots[s].size / SMALL : 1;
    for (size_t k = 0; k < slots[s].size; k += step) digest = (digest ^ slots[s].mine[k]) * 0x100000001b3;
    return digest;
}

void lend_end(enum slot s) {
    free(slots[s].block);
    slots[s].block = NULL;
}
