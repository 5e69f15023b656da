// How long reading a real number takes, beside strtod on the same bytes of the same file. edf_real opens the file and finds the keyword
// before it reads the number, and edf_find does just these two: the time of the reading is that of edf_real less that of edf_find. strtod
// is measured in the same way, after edf_find and less edf_find; and alone, where the processor has nothing else to do and foresees each
// byte. One line for each text, and one for all of them. Where code and stack stand changes the time of opening by as much as the reading
// takes: the addresses are those of every run, and the times are means over 64 places of the stack, at each the best of several turns
// of many calls, in which all take turns.
#include <stdint.h>
#include <stdio.h>
#include <stdlib.h>
#include <string.h>
#include <sys/personality.h>
#include <time.h>
#include <unistd.h>
#include "edf.h"

static double now(void) {
    struct timespec t;
    clock_gettime(CLOCK_MONOTONIC, &t);
    return t.tv_sec * 1e9 + t.tv_nsec;
}

static uint8_t file[512];
static size_t offset;
static double value;

// A file of one block with one keyword.
static void make_file(const char *text) {
    memset(file, ' ', sizeof file);
    int length = sprintf((char *)file, "{\nw = %s", text);
    memcpy(file + length, " ;\n", 3);
    memcpy(file + sizeof file - 2, "}\n", 2);
}

// ---- The calls, each answering a code

static uint8_t find_it(void) {
    size_t length, position;
    return edf_find(file, sizeof file, 0, (const uint8_t *)"w", 1, &offset, &length, &position);
}

static uint8_t read_it(void) {
    uint8_t unit;
    size_t position;
    return edf_real(file, sizeof file, 0, (const uint8_t *)"w", 1, &unit, &value, &position);
}

static uint8_t convert_it(void) {
    char *end;
    value = strtod((const char *)file + offset, &end);
    return *end != ' ' && *end != '_';
}

static uint8_t find_and_convert_it(void) {
    uint8_t code = find_it();
    return code != 0 ? code : convert_it();
}

enum { FIND, READ, FIND_AND_CONVERT, CONVERT, CALLS, PLACES = 64, TURNS = 20, TIMES = 50 };
static uint8_t (*const calls[CALLS])(void) = {find_it, read_it, find_and_convert_it, convert_it};

// The time of a call on the file, in nanoseconds, with the stack lower by so many bytes.
static __attribute__((noinline)) double time_of(int call, size_t lower) {
    volatile uint8_t room[lower];
    room[0] = 0;
    uint8_t code = room[0];
    double t = now();
    for (int i = 0; i < TIMES; i++) code |= calls[call]();
    t = (now() - t) / TIMES;
    if (code != 0) printf("wrong: call %d answers %d\n", call, code), exit(1);
    return t;
}

// Adds the best times of the calls at a place of the stack.
static void measure_at(size_t lower, double times[CALLS]) {
    double best[CALLS] = {1e18, 1e18, 1e18, 1e18}, values[CALLS];
    for (int turn = 0; turn < TURNS; turn++)
        for (int c = 0; c < CALLS; c++) {
            double t = time_of(c, lower);
            if (t < best[c]) best[c] = t;
            values[c] = value;
        }
    if (memcmp(&values[READ], &values[CONVERT], sizeof *values) != 0)
        printf("wrong: %.17g, for strtod %.17g\n", values[READ], values[CONVERT]), exit(1);
    for (int c = 0; c < CALLS; c++) times[c] += best[c] / PLACES;
}

static void print_row(const char *text, const double times[CALLS]) {
    double reading = times[READ] - times[FIND], converting = times[FIND_AND_CONVERT] - times[FIND];
    printf("| %s | %.0f | %.0f | %.0f | %.1f | %.1f | %.1f | %.2f | %.2f |\n", text, times[FIND], times[READ], times[FIND_AND_CONVERT],
           reading, converting, times[CONVERT], reading / converting, reading / times[CONVERT]);
}

// Starts the program again at addresses that are the same in every run, where the system allows it.
static void fix_addresses(char **words) {
    int flags = personality(0xffffffff);
    if (!(flags & ADDR_NO_RANDOMIZE) && personality(flags | ADDR_NO_RANDOMIZE) != -1) execv("/proc/self/exe", words);
}

int main(int count, char **words) {
    (void)count;
    fix_addresses(words);
    static const char *const texts[] = {"269", "32.5_deg", "0.000343", "9.82514_m", "9.90376e-11", "-1.5707963267949_rad", "1e-22", "10e22",
                                        "9007199254740991e-22"};
    double all[CALLS] = {0, 0, 0, 0};
    printf("| text | find ns | real ns | find, strtod ns | real less find | strtod less find | strtod alone | real / strtod | real / strtod alone |\n"
           "|---|---|---|---|---|---|---|---|---|\n");
    for (size_t i = 0; i < sizeof texts / sizeof *texts; i++) {
        double times[CALLS] = {0, 0, 0, 0};
        make_file(texts[i]);
        for (int place = 0; place < PLACES; place++) measure_at(64 + 64 * place, times);
        print_row(texts[i], times);
        for (int c = 0; c < CALLS; c++) all[c] += times[c];
    }
    print_row("all of them", all);
    return 0;
}
