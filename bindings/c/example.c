/* Opens a file and prints one pixel of a block, its data type, and where that came from:
 *
 *     example FILE BLOCK I1 [I2 [I3]]
 *
 * An index counts from 0, and index 1 runs fastest. The exit status is 0, 1 for an error of the file, or 2 for anything else. */
#include <inttypes.h>
#include <stdio.h>
#include <stdlib.h>
#include "edf.h"

/* The bytes of a file, and their number in *length; NULL where it cannot be read. One byte more is asked for than the file has, so
 * that the pointer is not NULL for an empty file. */
static uint8_t *read_whole(const char *path, size_t *length) {
    FILE *stream = fopen(path, "rb");
    if (stream == NULL) return NULL;
    uint8_t *bytes = NULL;
    if (fseek(stream, 0, SEEK_END) == 0) {
        long size = ftell(stream);
        rewind(stream);
        if (size >= 0 && (bytes = malloc((size_t)size + 1)) != NULL) *length = fread(bytes, 1, (size_t)size, stream);
    }
    if (ferror(stream)) free(bytes), bytes = NULL;
    fclose(stream);
    return bytes;
}

static int failed(const char *path, uint8_t code, size_t position) {
    printf("%s: error %d at %zu: %s\n", path, code, position, edf_words(code));
    return 1;
}

int main(int argc, char **argv) {
    if (argc < 4 || argc > 6) return fprintf(stderr, "usage: example FILE BLOCK I1 [I2 [I3]]\n"), 2;
    size_t length = 0;
    uint8_t *file = read_whole(argv[1], &length);
    if (file == NULL) return perror(argv[1]), 2;

    static edf_row table[EDF_MOST_BLOCKS];
    size_t count = 0, position = 0;
    uint8_t code = edf_open(file, length, (uint64_t *)table, 7 * EDF_MOST_BLOCKS, &count, &position);
    if (code != EDF_OK) return failed(argv[1], code, position);

    size_t block = strtoull(argv[2], NULL, 10), index[3] = {0, 0, 0};
    for (int i = 3; i < argc; i++) index[i - 3] = strtoull(argv[i], NULL, 10);
    edf_description d;
    code = edf_describe(file, length, block, &d, &position);
    if (code != EDF_OK) return failed(argv[1], code, position);

    uint8_t class_ = 0;
    uint64_t unsigned_ = 0;
    int64_t signed_ = 0;
    float float32 = 0;
    double float64 = 0;
    code = edf_read_pixel(file, length, block, index[0], index[1], index[2], &class_, &unsigned_, &signed_, &float32, &float64, &position);
    if (code != EDF_OK) return failed(argv[1], code, position);

    printf("block %zu of %zu: ", block, count);
    switch (class_) {
    case EDF_UNSIGNED: printf("%" PRIu64, unsigned_); break;
    case EDF_SIGNED: printf("%" PRId64, signed_); break;
    case EDF_FLOAT32: printf("%g", float32); break;
    default: printf("%g", float64); break;
    }
    printf(" (%s, %s)\n", edf_datatype_name((uint8_t)d.datatype), edf_origin_name(d.origins.datatype));
    free(file);
    return 0;
}
