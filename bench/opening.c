// How long opening takes, beside a plain C reader of files of kind 1 that checks the same rules: whitespace around blocks, start and end
// of headers, statements, lengths of keys and values, repeated keys by a hash table, Size and end of the file. One line for each case.
#include <stdint.h>
#include <stdio.h>
#include <stdlib.h>
#include <string.h>
#include <time.h>
#include "edf.h"

static double now(void) {
    struct timespec t;
    clock_gettime(CLOCK_MONOTONIC, &t);
    return t.tv_sec * 1e6 + t.tv_nsec / 1e3;
}

// ---- The plain reader

enum { SLOTS = 32768 };
static uint8_t folded[256], keys[70000];
static uint32_t stamp[SLOTS], offset_of[SLOTS], length_of[SLOTS], generation;

static int white(uint8_t c) { return c == ' ' || (c >= 9 && c <= 13); }

// Whether the key of `length` bytes at `start` of `keys`, with hash h, is new in this header.
static int is_new(uint32_t h, size_t start, size_t length) {
    uint32_t s = h % SLOTS;
    for (; stamp[s] == generation; s = (s + 1) % SLOTS)
        if (length_of[s] == length && memcmp(keys + offset_of[s], keys + start, length) == 0) return 0;
    stamp[s] = generation, offset_of[s] = start, length_of[s] = length;
    return 1;
}

// Reads the statements of a body; the value of Size, or -1.
static long long size_in(const uint8_t *f, size_t p, size_t end) {
    long long size = 0;
    size_t filled = 0;
    generation++;
    for (;;) {
        while (p < end && white(f[p])) p++;
        if (p >= end) return size;
        size_t start = filled;
        uint32_t h = 2166136261u;
        for (; p < end && f[p] != '='; p++) {
            if (f[p] == ';') return -1;
            if (white(f[p])) continue;
            keys[filled] = folded[f[p]];
            h = (h ^ keys[filled++]) * 16777619u;
        }
        if (p >= end) return -1;
        size_t first = ++p;
        while (p < end && f[p] != ';') p++;
        if (p >= end) return -1;
        size_t last = p++, length = filled - start;
        while (first < last && white(f[first])) first++;
        while (last > first && white(f[last - 1])) last--;
        if (length == 0 || length > 64 || last - first > 2048 || !is_new(h, start, length)) return -1;
        if (length == 4 && memcmp(keys + start, "size", 4) == 0)
            for (size = 0; first < last; first++) size = size * 10 + f[first] - '0';
    }
}

// The first offset from `at` on whose byte is no whitespace, or n.
static size_t past_white(const uint8_t *f, size_t n, size_t at) {
    while (at < n && white(f[at])) at++;
    return at;
}

static size_t plain_open(const uint8_t *f, size_t n) {
    size_t at = past_white(f, n, 0), count = 0;
    while (at < n) {
        if (f[at] != '{' || count == 256) return 0;
        size_t i = at + 1, limit = at + 65536 < n ? at + 65536 : n;
        while (i < limit && f[i] != 0 && f[i] < 128 && f[i] != '{' && f[i] != '}') i++;
        if (i + 1 >= limit || f[i] != '}' || f[i + 1] != '\n') return 0;
        long long size = size_in(f, at + 1, i);
        size_t header = i + 2 - at;
        if (size < 0 || at + header + size > n) return 0;
        at = past_white(f, n, at + header + size), count++;
    }
    return count;
}

// ---- The files

static size_t put_block(uint8_t *f, size_t at, int keywords, size_t size) {
    size_t start = at;
    at += sprintf((char *)f + at, "{\nSize = %zu ;\n", size);
    for (int i = 0; i < keywords - 1; i++) at += sprintf((char *)f + at, "Keyword_%d_of_block = some value %d ;\n", i, i * 37);
    while ((at - start + 2) % 512) f[at++] = ' ';
    f[at++] = '}', f[at++] = '\n';
    memset(f + at, 7, size);
    return at + size;
}

static size_t put_white(uint8_t *f, size_t at, size_t length) {
    for (size_t i = 0; i < length; i++) f[at + i] = i % 64 == 63 ? '\n' : ' ';
    return at + length;
}

// A file of blocks with 65,536 bytes of data in each and `gap` bytes of whitespace between them.
static size_t put_blocks(uint8_t *f, int blocks, int keywords, size_t gap) {
    size_t n = put_block(f, 0, keywords, 65536);
    for (int i = 1; i < blocks; i++) n = put_block(f, put_white(f, n, gap), keywords, 65536);
    return n;
}

// ---- The times

typedef struct {
    double plain, edf;
} times;

// The best times in microseconds of so many turns. A wrong answer ends the program.
static times best_of(const uint8_t *f, size_t n, int blocks, int turns) {
    static edf_row table[256];
    times best = {1e18, 1e18};
    for (int turn = 0; turn < turns; turn++) {
        size_t count = 0, position = 0;
        double t0 = now();
        size_t expected = plain_open(f, n);
        double t1 = now();
        uint8_t code = edf_open(f, n, (uint64_t *)table, 7 * 256, &count, &position);
        double t2 = now();
        if (code != 0 || count != expected || (int)count != blocks) {
            printf("wrong: code %d at %zu, %zu blocks for %zu\n", code, position, count, expected);
            exit(1);
        }
        if (t1 - t0 < best.plain) best.plain = t1 - t0;
        if (t2 - t1 < best.edf) best.edf = t2 - t1;
    }
    return best;
}

static void blocks_case(uint8_t *f, int blocks, int keywords, size_t gap) {
    size_t n = put_blocks(f, blocks, keywords, gap);
    times t = best_of(f, n, blocks, 500);
    printf("| %d | %d | %zu | %.1f MiB | %.1f | %.1f | %.2f | %.2f |\n", blocks, keywords, gap, n / 1048576.0, t.plain, t.edf, t.edf / blocks,
           t.edf / t.plain);
}

// One block, then whitespace up to the most bytes of a file.
static void white_case(uint8_t *f) {
    size_t start = put_block(f, 0, 10, 65536), n = put_white(f, start, EDF_MOST_BYTES - start);
    times t = best_of(f, n, 1, 5);
    double nanoseconds = 1e3 / (n - start);
    printf("| %zu | %.3f | %.3f | %.2f |\n", n - start, t.plain * nanoseconds, t.edf * nanoseconds, t.edf / t.plain);
}

int main(void) {
    uint8_t *f = malloc(EDF_MOST_BYTES);
    for (int i = 0; i < 256; i++) folded[i] = i >= 'A' && i <= 'Z' ? i + 32 : i;
    printf("| blocks | keywords in each | whitespace between | file | plain C us | edf us | edf us a block | edf / C |\n");
    printf("|---|---|---|---|---|---|---|---|\n");
    int blocks[] = {1, 16, 256}, keywords[] = {10, 60};
    for (int b = 0; b < 3; b++)
        for (int k = 0; k < 2; k++) blocks_case(f, blocks[b], keywords[k], 0);
    blocks_case(f, 256, 60, 1000);
    printf("\n| bytes of whitespace after one block | plain C ns a byte | edf ns a byte | edf / C |\n|---|---|---|---|\n");
    white_case(f);
    return 0;
}
