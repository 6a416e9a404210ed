// Runs inputs that the fuzzer kept, TARGET FOLDER TARGET FOLDER ..., and says how much of the library they reach together.
// The code points that are not reached go to the standard output, one address to a line.
#include <dirent.h>
#include <stdint.h>
#include <stdio.h>
#include <stdlib.h>
#include <string.h>

// The entry of each target, renamed when it is linked here.
int books_input(const uint8_t *data, size_t size);
int checks_input(const uint8_t *data, size_t size);
int lists_input(const uint8_t *data, size_t size);

// The instrumented library's counters, and an address and a flag for each.
extern uint8_t __start___sancov_cntrs[], __stop___sancov_cntrs[];
extern uintptr_t __start___sancov_pcs[];

static uint8_t *seen;

// Counters go round after 255, so they are looked at after each input.
static void look(void) {
    for (uint8_t *p = __start___sancov_cntrs; p < __stop___sancov_cntrs; p++)
        if (*p) seen[p - __start___sancov_cntrs] = 1;
}

static void replay(const char *target, const char *path) {
    static uint8_t data[1 << 16];
    FILE *file = fopen(path, "rb");
    if (!file) return;
    size_t size = fread(data, 1, sizeof data, file);
    fclose(file);
    if (strcmp(target, "books") == 0) books_input(data, size);
    else if (strcmp(target, "checks") == 0) checks_input(data, size);
    else if (strcmp(target, "lists") == 0) lists_input(data, size);
    else exit(2);
    look();
}

static void replay_all(const char *target, const char *folder) {
    DIR *all = opendir(folder);
    if (!all) exit(2);
    for (struct dirent *one; (one = readdir(all));) {
        char path[4096];
        snprintf(path, sizeof path, "%s/%s", folder, one->d_name);
        if (one->d_name[0] != '.') replay(target, path);
    }
    closedir(all);
}

int main(int count, char **words) {
    size_t points = __stop___sancov_cntrs - __start___sancov_cntrs, reached = 0;
    seen = calloc(points, 1);
    for (int k = 1; k + 1 < count; k += 2) replay_all(words[k], words[k + 1]);
    for (size_t p = 0; p < points; p++) {
        reached += seen[p];
        if (!seen[p]) printf("%#lx\n", (unsigned long)__start___sancov_pcs[2 * p]);
    }
    fprintf(stderr, "all three reach %zu of the library's %zu code points\n", reached, points);
    free(seen);
    return 0;
}
