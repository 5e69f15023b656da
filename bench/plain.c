// What a C programmer would write for the delivery of an array: a loop for each case. The width, the byte orders, the sign, the
// offset, and whether elements stand one after another are settled before it.
#include <stddef.h>
#include <stdint.h>
#include <string.h>

typedef void row_function(const uint8_t *restrict, ptrdiff_t, size_t, uint8_t *restrict, int64_t);

#define LOOP(NAME, U, STEP, ELEMENT)                                                                          \
    static void NAME(const uint8_t *restrict in, ptrdiff_t step, size_t n, uint8_t *restrict out, int64_t offset) { \
        (void)step, (void)offset;                                                                             \
        for (size_t i = 0; i < n; i++) {                                                                      \
            U u;                                                                                              \
            memcpy(&u, in, sizeof u);                                                                         \
            u = ELEMENT;                                                                                      \
            memcpy(out, &u, sizeof u);                                                                        \
            in += STEP;                                                                                       \
            out += sizeof u;                                                                                  \
        }                                                                                                     \
    }

// A row of n elements of type U, each made anew: `step` bytes apart, and one after another.
#define ROW(NAME, U, ELEMENT)        \
    LOOP(NAME, U, step, ELEMENT)     \
    LOOP(NAME##_run, U, sizeof(U), ELEMENT)

#define SAME(u) (u)
#define CLAMP(v, low, high) ((v) < (low) ? (low) : (v) > (high) ? (high) : (v))
// The number of type N that u stands for, with the offset added in type V.
#define SUM(u, N, V, LOW, HIGH) CLAMP((V)(N)(u) + (V)offset, (V)(LOW), (V)(HIGH))

// Both byte orders stored and asked for: h is the high byte first, l the low byte first, as this machine has it.
#define ADDED(NAME, U, N, V, LOW, HIGH, SWAP)                     \
    ROW(NAME##_hh, U, SWAP((U)SUM(SWAP(u), N, V, LOW, HIGH)))     \
    ROW(NAME##_hl, U, (U)SUM(SWAP(u), N, V, LOW, HIGH))           \
    ROW(NAME##_lh, U, SWAP((U)SUM(u, N, V, LOW, HIGH)))           \
    ROW(NAME##_ll, U, (U)SUM(u, N, V, LOW, HIGH))

#define ALL(B, END)                                                                                                            \
    {kept##B##END,   reversed##B##END, u##B##_hh##END, u##B##_hl##END, u##B##_lh##END, u##B##_ll##END, s##B##_hh##END, \
     s##B##_hl##END, s##B##_lh##END,   s##B##_ll##END}

#define WIDTH(B, V, SWAP)                                                                     \
    ROW(kept##B, uint##B##_t, u)                                                              \
    ROW(reversed##B, uint##B##_t, SWAP(u))                                                    \
    ADDED(u##B, uint##B##_t, uint##B##_t, V, 0, UINT##B##_MAX, SWAP)                          \
    ADDED(s##B, uint##B##_t, int##B##_t, V, INT##B##_MIN, INT##B##_MAX, SWAP)                 \
    static row_function *const rows##B[2][10] = {ALL(B, ), ALL(B, _run)};

WIDTH(8, int32_t, SAME)
WIDTH(16, int32_t, __builtin_bswap16)
WIDTH(32, int64_t, __builtin_bswap32)
WIDTH(64, __int128, __builtin_bswap64)

void plain(const uint8_t *in, uint8_t *out, int width, int is_signed, int low_in, int low_out, int64_t offset, ptrdiff_t at,
           const ptrdiff_t step[3], const size_t dim[3]) {
    row_function *const(*rows)[10] = width == 1 ? rows8 : width == 2 ? rows16 : width == 4 ? rows32 : rows64;
    row_function *row = rows[step[0] == 1][offset ? 2 + 4 * is_signed + 2 * low_in + low_out : low_in != low_out];
    // More than twice the range clamps as twice the range does; the sum then fits its type.
    if (width < 8) offset = CLAMP(offset, -(INT64_C(1) << (8 * width + 1)), INT64_C(1) << (8 * width + 1));
    for (size_t k = 0; k < dim[2]; k++)
        for (size_t j = 0; j < dim[1]; j++) {
            row(in + (at + step[2] * (ptrdiff_t)k + step[1] * (ptrdiff_t)j) * width, step[0] * width, dim[0], out, offset);
            out += dim[0] * width;
        }
}
