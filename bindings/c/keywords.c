/* The keywords of a header, listed. The proved calls look keys up and do not list them; so the statements are found here, by the rule
 * of the format: a body is between `{` and `}`, a statement ends at the first `;` after its `=`, its key at the first `=`. The text
 * of each value is edf_unescape's. */
#include "edf.h"

static int is_whitespace(uint8_t byte) {
    return byte == ' ' || (byte >= 9 && byte <= 13);
}

/* The offset of the first `one` or `other` at or after `at`; `length` where there is none. */
static size_t first(const uint8_t *bytes, size_t length, size_t at, uint8_t one, uint8_t other) {
    while (at < length && bytes[at] != one && bytes[at] != other) at++;
    return at;
}

/* What a statement from `start` to its `;` at `end` puts at `out`, its length: never more than end + 1 - start, so that all of them
 * fit into as many bytes as the header has. */
static size_t put(const uint8_t *header, size_t start, size_t equals, size_t end, uint8_t *out) {
    size_t filled = 0, length = 0, position = 0;
    for (size_t i = start; i < equals; i++)
        if (!is_whitespace(header[i])) out[filled++] = header[i];
    out[filled++] = 0;
    if (edf_unescape(header + equals + 1, end - equals - 1, out + filled, end - equals - 1, &length, &position) == EDF_OK)
        filled += length;
    else
        out[filled++] = EDF_NO_TEXT;
    out[filled++] = 0;
    return filled;
}

uint8_t edf_keywords(const uint8_t *header, size_t header_length, uint8_t *out, size_t out_length, size_t *length, size_t *position) {
    if (out_length < header_length) return *position = 0, EDF_BUFFER_TOO_SMALL;
    size_t filled = 0, start = first(header, header_length, 0, '{', '{') + 1;
    for (;;) {
        size_t equals = first(header, header_length, start, '=', '}');
        if (equals >= header_length || header[equals] == '}') break;
        size_t end = first(header, header_length, equals, ';', '}');
        if (end >= header_length || header[end] == '}') break;
        filled += put(header, start, equals, end, out + filled);
        start = end + 1;
    }
    *length = filled;
    return EDF_OK;
}
