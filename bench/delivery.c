// How long the delivery of an array takes, beside memcpy and beside plain C that does the same. One line for each case: the
// times in ms, and the ratios. All of it in one run, from and to the same two buffers, which are touched first, so that all three find
// the caches alike; the best of nine turns or more (300 ms), each with all three, so that other work on the machine falls on all alike.
#include <stdint.h>
#include <stdio.h>
#include <stdlib.h>
#include <string.h>
#include <time.h>
#include "edf.h"

// Processor time in ms: what other processes take does not count.
static double now(void) {
    struct timespec t;
    clock_gettime(CLOCK_THREAD_CPUTIME_ID, &t);
    return t.tv_sec * 1e3 + t.tv_nsec / 1e6;
}

// ---- Plain C, compiled apart (bench/plain.c)

void plain(const uint8_t *in, uint8_t *out, int width, int is_signed, int low_in, int low_out, int64_t offset,
           ptrdiff_t at, const ptrdiff_t step[3], const size_t dim[3]);

// ---- The file

static const struct {
    const char *word;
    int width, is_signed;
} types[] = {{"UnsignedByte", 1, 0}, {"UnsignedShort", 2, 0}, {"UnsignedInteger", 4, 0}, {"Unsigned64", 8, 0}, {"SignedShort", 2, 1}, {"SignedInteger", 4, 1}, {"SignedByte", 1, 1}, {"Signed64", 8, 1}};

static size_t make_header(uint8_t *file, int type, int low_first, int n, const size_t dim[3], int configuration, long long offset, size_t size) {
    int k = sprintf((char *)file, "{\nByteOrder = %s ;\nDataType = %s ;\n", low_first ? "LowByteFirst" : "HighByteFirst", types[type].word);
    for (int i = 0; i < n; i++) k += sprintf((char *)file + k, "Dim_%d = %zu ;\n", i + 1, dim[i]);
    k += sprintf((char *)file + k, "DataRasterConfiguration = %d ;\nDataValueOffset = %lld ;\nSize = %zu ;\n", configuration, offset, size);
    memset(file + k, ' ', 512 - k);
    file[510] = '}';
    file[511] = '\n';
    return 512;
}

// The steps of a configuration in elements, by the rule of the format: N is inserted into the order for N - 1.
static void steps_of(int n, int number, const size_t dim[3], ptrdiff_t *at, ptrdiff_t step[3]) {
    int order[3], count[] = {1, 2, 8}, k[3], m = number - 1, length = 0;
    for (int i = n - 1; i >= 0; i--) k[i] = m / count[i], m %= count[i];
    for (int i = 0; i < n; i++) {
        int place = length - k[i] / 2;
        for (int j = length; j > place; j--) order[j] = order[j - 1];
        order[place] = k[i] % 2 ? -(i + 1) : i + 1;
        length++;
    }
    ptrdiff_t before = 1;
    *at = 0;
    step[0] = step[1] = step[2] = 0;
    for (int j = 0; j < n; j++) {
        int i = abs(order[j]) - 1;
        step[i] = order[j] < 0 ? -before : before;
        if (order[j] < 0) *at += before * (ptrdiff_t)(dim[i] - 1);
        before *= (ptrdiff_t)dim[i];
    }
}

// ---- One case

enum { TURNS = 9, LEAST_MS = 300 };
static uint8_t *file, *out, *expected;

// The highest ratio of the cases that share a limit, and how many are above it.
static struct {
    const char *what;
    double limit, highest;
    int cases, above;
} groups[] = {{"configuration 1 as it stands, no offset: times memcpy", 1.2},
              {"configuration 1 reversed, no offset: times memcpy", 2.5},
              {"every other configuration, no offset: times plain C", 1.3},
              {"every other configuration with an offset: times plain C", 1.3},
              {"configuration 1 with an offset: times plain C", 1.3}};

static void judge(int configuration, int reversed, int offset, double to_memcpy, double to_c) {
    int group = configuration > 1 ? (offset ? 3 : 2) : offset ? 4 : reversed;
    double ratio = group < 2 ? to_memcpy : to_c;
    groups[group].cases++;
    if (ratio > groups[group].limit) groups[group].above++;
    if (ratio > groups[group].highest) groups[group].highest = ratio;
}

static void measure(int type, int low_first, int asked_low, int n, size_t d1, size_t d2, size_t d3, int configuration, long long offset) {
    size_t dim[3] = {d1, d2, d3}, size = d1 * d2 * d3 * types[type].width;
    size_t head = make_header(file, type, low_first, n, dim, configuration, offset, size);
    ptrdiff_t at, step[3];
    steps_of(n, configuration, dim, &at, step);
    double best[3] = {1e9, 1e9, 1e9};
    size_t length = 0, position = 0;
    uint8_t code = 0;
    plain(file + head, expected, types[type].width, types[type].is_signed, low_first, asked_low, offset, at, step, dim);
    double start = now();
    for (int turn = 0; turn < TURNS || now() < start + LEAST_MS; turn++)
        for (int what = 0; what < 3; what++) {
            double t = now();
            if (what == 0) memcpy(out, file + head, size);
            if (what == 1) plain(file + head, out, types[type].width, types[type].is_signed, low_first, asked_low, offset, at, step, dim);
            if (what == 2) code = edf_read_array(file, head + size, 0, asked_low ? 2 : 1, out, size, &length, &position);
            t = now() - t;
            if (t < best[what]) best[what] = t;
        }
    memset(out, ~expected[0], size);
    if (code == 0) code = edf_read_array(file, head + size, 0, asked_low ? 2 : 1, out, size, &length, &position);
    if (code != 0 || length != size || memcmp(out, expected, size) != 0) {
        printf("wrong: %s configuration %d: code %d at %zu\n", types[type].word, configuration, code, position);
        exit(1);
    }
    printf("| %-15s | %s | %s | %d | %2d | %6lld | %7.2f | %7.2f | %7.2f | %5.2f | %5.2f |\n", types[type].word, low_first ? "low " : "high",
           asked_low ? "low " : "high", n, configuration, offset, best[0], best[1], best[2], best[2] / best[0], best[2] / best[1]);
    fflush(stdout);
    judge(configuration, types[type].width > 1 && low_first != asked_low, offset != 0, best[2] / best[0], best[2] / best[1]);
}

// Every integer type, both orders stored and asked for, without and with an offset, in every configuration of two dimensions.
static void measure_all(size_t d1, size_t d2) {
    for (int type = 0; type < 8; type++)
        for (int orders = 0; orders < 4; orders++)
            for (int offset = -10; offset <= 10; offset += 10)
                for (int c = 1; c <= 8; c++) measure(type, orders / 2, orders % 2, 2, d1, d2, 1, c, offset);
}

// Writing the pixels of a frame of UnsignedShort, beside reading the same array from the file written.
static void measure_writing(uint8_t low_first, uint32_t configuration) {
    size_t d1 = 2048, d2 = 2048, size = d1 * d2 * 2, length = 0, position = 0;
    double best[2] = {1e9, 1e9};
    for (int turn = 0; turn < TURNS; turn++) {
        double t0 = now();
        uint8_t code = edf_write(1, 1, 1, 3, low_first ? 2 : 1, 2, d1, d2, 0, configuration, (const uint8_t *)"x;", 2, expected, size, file, size + 4096, &length, &position);
        double t1 = now();
        size_t read = 0;
        uint8_t again = edf_read_array(file, length, 0, 1, out, size, &read, &position);
        double t2 = now();
        if (code != 0 || again != 0 || read != size || memcmp(out, expected, size) != 0) {
            printf("wrong: written and read, configuration %u: codes %d %d\n", configuration, code, again);
            exit(1);
        }
        if (t1 - t0 < best[0]) best[0] = t1 - t0;
        if (t2 - t1 < best[1]) best[1] = t2 - t1;
    }
    printf("| %s | %u | %.2f | %.2f | %.2f |\n", low_first ? "low byte first" : "high byte first", configuration, best[0], best[1], best[0] / best[1]);
}

static void measure_some(void) {
    for (int type = 0; type < 4; type++) {
        size_t side = 2048;
        for (int reversed = 0; reversed < 2; reversed++)
            for (int c = 1; c <= 8; c++) measure(type, reversed, 0, 2, side, side, 1, c, 0);
        for (int low = 0; low < 2; low++)
            for (int asked = 0; asked < 2; asked++) measure(type, low, asked, 2, side, side, 1, 1, low ? -10 : 10);
        measure(type, 1, 1, 2, side, side, 1, 2, 10);
        measure(type, 1, 0, 2, side, side, 1, 6, -10);
    }
    for (int type = 4; type < 6; type++) {
        measure(type, 0, 0, 2, 2048, 2048, 1, 1, 10);
        measure(type, 1, 1, 2, 2048, 2048, 1, 1, -10);
    }
    int cubes[] = {1, 17, 33, 48};
    for (int i = 0; i < 4; i++) measure(1, 0, 0, 3, 256, 256, 64, cubes[i], 0);
}

// With two numbers: all cases of an array of these dimensions. Without: some cases of 2,048 by 2,048, and writing.
int main(int count, char **words) {
    size_t d1 = count == 3 ? strtoul(words[1], 0, 10) : 2048, d2 = count == 3 ? strtoul(words[2], 0, 10) : 2048;
    size_t most = d1 * d2 * 8 > 64u << 20 ? d1 * d2 * 8 : 64u << 20;
    file = malloc(most + 4096), out = malloc(most), expected = malloc(most);
    for (size_t i = 0; i < most + 512; i++) file[i] = (uint8_t)(i * 2654435761u >> 13);
    memset(out, 1, most), memset(expected, 1, most);
    printf("| type | stored | asked | N | configuration | offset | memcpy ms | plain C ms | edf ms | edf / memcpy | edf / C |\n");
    printf("|---|---|---|---|---|---|---|---|---|---|---|\n");
    if (count == 3)
        measure_all(d1, d2);
    else
        measure_some();
    printf("\n| what | limit | highest | cases | above the limit |\n|---|---|---|---|---|\n");
    for (int i = 0; i < 5; i++)
        printf("| %s | %.1f | %.2f | %d | %d |\n", groups[i].what, groups[i].limit, groups[i].highest, groups[i].cases, groups[i].above);
    if (count == 3) return 0;
    printf("\n| writing 2048 by 2048 UnsignedShort | configuration | write ms | read_array ms | write / read |\n|---|---|---|---|---|\n");
    for (size_t i = 0; i < most; i++) expected[i] = (uint8_t)(i * 2654435761u >> 11);
    for (int low = 0; low < 2; low++)
        for (uint32_t c = 1; c <= 8; c++) measure_writing(low, c);
    return 0;
}
