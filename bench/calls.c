// How long the calls on a block take, beside opening the same file: each opens it anew. One line for each case, with the last block
// of the file; the best of several turns of many calls.
#include <stdint.h>
#include <stdio.h>
#include <stdlib.h>
#include <string.h>
#include <time.h>
#include "edf.h"

static double now(void) {
    struct timespec t;
    clock_gettime(CLOCK_MONOTONIC, &t);
    return t.tv_sec * 1e6 + t.tv_nsec / 1e3;
}

static uint8_t *file;
static size_t file_length, last;

static size_t put_block(size_t at, int keywords) {
    size_t start = at, size = 2 * 256 * 256;
    at += sprintf((char *)file + at, "{\nByteOrder = LowByteFirst ;\nDataType = UnsignedShort ;\nDim_1 = 256 ;\nDim_2 = 256 ;\nSize = %zu ;\n", size);
    for (int i = 0; i < keywords - 5; i++) at += sprintf((char *)file + at, "Keyword_%d_of_block = some value %d ;\n", i, i * 37);
    while ((at - start + 2) % 512) file[at++] = ' ';
    file[at++] = '}', file[at++] = '\n';
    memset(file + at, 7, size);
    return at + size;
}

// ---- The calls, each answering its code

static uint8_t open_it(void) {
    static edf_row table[256];
    size_t count, position;
    return edf_open(file, file_length, (uint64_t *)table, 7 * 256, &count, &position);
}

static uint8_t find_it(void) {
    size_t offset, length, position;
    return edf_find(file, file_length, last, (const uint8_t *)"Dim_1", 5, &offset, &length, &position);
}

static uint8_t describe_it(void) {
    edf_description description;
    size_t position;
    return edf_describe(file, file_length, last, &description, &position);
}

static uint8_t pixel_of_it(void) {
    uint8_t class_;
    uint64_t unsigned_ = 0;
    int64_t signed_;
    float float32;
    double float64;
    size_t position;
    uint8_t code = edf_read_pixel(file, file_length, last, 3, 4, 0, &class_, &unsigned_, &signed_, &float32, &float64, &position);
    return unsigned_ == 0x0707 ? code : 99;
}

static uint8_t (*const calls[])(void) = {open_it, find_it, describe_it, pixel_of_it};
enum { CALLS = 4, TURNS = 15 };

int main(void) {
    file = malloc(64u << 20);
    printf("| blocks | keywords in each | open us | find us | describe us | read_pixel us | find / open | describe / open | read_pixel / open |\n"
           "|---|---|---|---|---|---|---|---|---|\n");
    int blocks[] = {1, 16, 256}, keywords[] = {10, 60};
    for (int b = 0; b < 3; b++)
        for (int k = 0; k < 2; k++) {
            file_length = 0, last = blocks[b] - 1;
            for (int i = 0; i < blocks[b]; i++) file_length = put_block(file_length, keywords[k]);
            int times = 1024 / blocks[b];
            double best[CALLS];
            for (int c = 0; c < CALLS; c++) best[c] = 1e18;
            for (int turn = 0; turn < TURNS; turn++)
                for (int c = 0; c < CALLS; c++) {
                    uint8_t code = 0;
                    double t = now();
                    for (int i = 0; i < times; i++) code |= calls[c]();
                    t = (now() - t) / times;
                    if (code != 0) return printf("wrong: call %d answers %d\n", c, code), 1;
                    if (t < best[c]) best[c] = t;
                }
            printf("| %d | %d | %.2f | %.2f | %.2f | %.2f | %.2f | %.2f | %.2f |\n", blocks[b], keywords[k], best[0], best[1], best[2], best[3],
                   best[1] / best[0], best[2] / best[0], best[3] / best[0]);
        }
    return 0;
}
