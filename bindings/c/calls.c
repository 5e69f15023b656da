/* Each call of edf.h once in success and once in an error, and the words for all numbers. Prints the checks that fail, then
 * `N passed, M failed`. */
#include <errno.h>
#include <stdio.h>
#include <stdlib.h>
#include <string.h>
#include "edf.h"

static int passed, wrong;

static void check(int holds, const char *what) {
    holds ? passed++ : wrong++;
    if (!holds) printf("wrong: %s\n", what);
}
#define CHECK(condition) check((condition) != 0, #condition)

#define BYTES(text) (const uint8_t *)(text), strlen(text)

static uint8_t file[8192], out[4096];
static size_t file_length;

/* An array of 3 by 2, in configuration 6. */
static void writing(void) {
    const uint8_t pixels[] = {0, 1, 0, 2, 0, 3, 0, 4, 0, 5, 0, 6};
    size_t position = 99;
    CHECK(edf_write(1, EDF_PSD, 1, EDF_UNSIGNED_SHORT, EDF_HIGH_BYTE_FIRST, 2, 3, 2, 0, 6, BYTES("x;"), pixels, sizeof pixels, file,
                    sizeof file, &file_length, &position) == EDF_OK);
    CHECK(file_length == 1024 && position == 99);
    CHECK(memcmp(file + 512, "\0\3\0\6\0\2\0\5\0\1\0\4", 12) == 0);
    size_t length = 99;
    CHECK(edf_write(1, 3, 1, EDF_UNSIGNED_SHORT, EDF_HIGH_BYTE_FIRST, 2, 3, 2, 0, 6, BYTES("x;"), pixels, sizeof pixels, out,
                    sizeof out, &length, &position) == EDF_BAD_ARGUMENT);
    CHECK(length == 99 && position == 0);
}

static void opening(void) {
    static edf_row table[EDF_MOST_BLOCKS];
    size_t count = 99, position = 99;
    CHECK(edf_open(file, file_length, (uint64_t *)table, 7 * EDF_MOST_BLOCKS, &count, &position) == EDF_OK);
    CHECK(count == 1 && position == 99);
    CHECK(table[0].start == 0 && table[0].header == 512 && table[0].size == 512 && table[0].kind == EDF_DATA_BLOCK);
    CHECK(table[0].sequence == 1 && table[0].instance == EDF_PSD && table[0].memory == 1);
    CHECK(edf_open(file, file_length, (uint64_t *)table, 7 * 255, &count, &position) == EDF_TABLE_TOO_SMALL);
    CHECK(edf_open(file, file_length - 1, (uint64_t *)table, 7 * EDF_MOST_BLOCKS, &count, &position) == EDF_DATA_PAST_END);
    CHECK(count == 1 && position == 0);
}

static void keywords(void) {
    size_t offset = 99, length = 99, position = 99;
    int64_t value = 99;
    CHECK(edf_find(file, file_length, 0, BYTES("t i t l e"), &offset, &length, &position) == EDF_OK);
    CHECK(length == 3 && memcmp(file + offset, "x\\:", 3) == 0);
    CHECK(edf_find(file, file_length, 0, BYTES("Subtitle"), &offset, &length, &position) == EDF_NOT_FOUND);
    CHECK(edf_text(file, file_length, 0, BYTES("Title"), out, EDF_TEXT_CAPACITY, &length, &position) == EDF_OK);
    CHECK(length == 2 && memcmp(out, "x;", 2) == 0);
    CHECK(edf_text(file, file_length, 0, BYTES("Title"), out, 1, &length, &position) == EDF_BUFFER_TOO_SMALL);
    CHECK(edf_whole_number(file, file_length, 0, BYTES("Dim_1"), &value, &position) == EDF_OK && value == 3);
    CHECK(edf_whole_number(file, file_length, 0, BYTES("Title"), &value, &position) == EDF_BAD_NUMBER && value == 3);
    CHECK(edf_escape(BYTES("x;"), out, EDF_VALUE_CAPACITY, &length, &position) == EDF_OK);
    CHECK(length == 5 && memcmp(out, "\"x\\:\"", 5) == 0);
    CHECK(edf_escape(BYTES("\x80"), out, EDF_VALUE_CAPACITY, &length, &position) == EDF_BAD_ARGUMENT);
    CHECK(edf_unescape(BYTES(" a\\:b "), out, EDF_TEXT_CAPACITY, &length, &position) == EDF_OK);
    CHECK(length == 3 && memcmp(out, "a;b", 3) == 0);
    CHECK(edf_unescape(BYTES(";"), out, EDF_TEXT_CAPACITY, &length, &position) == EDF_BAD_ARGUMENT);
}

/* Whether the origins are those of the seven letters, in the order of edf_origins. */
static int has_origins(const edf_origins *origins, const char *letters) {
    uint64_t numbers[7];
    memcpy(numbers, origins, sizeof numbers);
    for (int i = 0; i < 7; i++)
        if (numbers[i] != (letters[i] == 'o' ? EDF_ORIGIN_OWN : letters[i] == 'g' ? EDF_ORIGIN_GENERAL : EDF_ORIGIN_DEFAULT)) return 0;
    return 1;
}

static void descriptions(void) {
    edf_description d, before;
    size_t position = 99;
    memset(&d, 99, sizeof d);
    CHECK(edf_describe(file, file_length, 0, &d, &position) == EDF_OK && position == 99);
    CHECK(d.datatype == EDF_UNSIGNED_SHORT && d.byteorder == EDF_HIGH_BYTE_FIRST && d.compression == EDF_COMPRESSION_NONE);
    CHECK(d.n == 2 && d.dim1 == 3 && d.dim2 == 2 && d.dim3 == 1 && d.configuration == 6 && d.orientation == 1 && d.offset == 0);
    CHECK(has_origins(&d.origins, "oodoodd") && sizeof d == 17 * sizeof(uint64_t));
    memset(&d, 99, sizeof d);
    before = d;
    CHECK(edf_describe(file, file_length, 1, &d, &position) == EDF_NOT_FOUND && position == 0);
    CHECK(memcmp(&d, &before, sizeof d) == 0);
}

/* Puts the header of a block with these statements at `at`, 512 bytes, and answers its end. */
static size_t put_header(uint8_t *bytes, size_t at, const char *statements) {
    memset(bytes + at, ' ', 510);
    bytes[at] = '{';
    memcpy(bytes + at + 1, statements, strlen(statements));
    memcpy(bytes + at + 510, "}\n", 2);
    return at + 512;
}

/* Numbers in each form and unit, both sides of each bound, and what is no real number; the answer is a code, and for EDF_OK a unit and
 * a value. */
static const struct {
    const char *written;
    uint8_t code, unit;
    double value;
} numbers[] = {
    {"32.5_deg", EDF_OK, EDF_UNIT_DEGREES, 32.5},
    {"9.82514_m", EDF_OK, EDF_UNIT_METRES, 9.82514},
    {"-1.5_rad", EDF_OK, EDF_UNIT_RADIANS, -1.5},
    {"9.90376e-11", EDF_OK, EDF_UNIT_NONE, 9.90376e-11},
    {"-0", EDF_OK, EDF_UNIT_NONE, -0.0},
    {"-.0_deg", EDF_OK, EDF_UNIT_DEGREES, -0.0},
    {"0", EDF_OK, EDF_UNIT_NONE, 0.0},
    {".5", EDF_OK, EDF_UNIT_NONE, 0.5},
    {"+5.e1_m", EDF_OK, EDF_UNIT_METRES, 50.0},
    {"0.1", EDF_OK, EDF_UNIT_NONE, 0.1},
    {"9007199254740992", EDF_OK, EDF_UNIT_NONE, 9007199254740992.0},
    {"9007199254740993", EDF_OUT_OF_BOUNDS, 0, 0},
    {"1e22", EDF_OK, EDF_UNIT_NONE, 1e22},
    {"10e22", EDF_OK, EDF_UNIT_NONE, 1e23},
    {"1e23", EDF_OUT_OF_BOUNDS, 0, 0},
    {"1e-22_m", EDF_OK, EDF_UNIT_METRES, 1e-22},
    {"1.5e-22_m", EDF_OUT_OF_BOUNDS, 0, 0},
    {"0e23", EDF_OUT_OF_BOUNDS, 0, 0},
    {"1e9223372036854775807", EDF_OUT_OF_BOUNDS, 0, 0},
    {"1e9223372036854775808", EDF_BAD_NUMBER, 0, 0},
    {"", EDF_BAD_NUMBER, 0, 0},
    {".", EDF_BAD_NUMBER, 0, 0},
    {"1E5", EDF_BAD_NUMBER, 0, 0},
    {"1e+", EDF_BAD_NUMBER, 0, 0},
    {"1_mm", EDF_BAD_NUMBER, 0, 0},
    {"1 _m", EDF_BAD_NUMBER, 0, 0},
    {"nan", EDF_BAD_NUMBER, 0, 0},
};

static void reals(void) {
    static uint8_t bytes[1024];
    for (size_t i = 0; i < sizeof numbers / sizeof *numbers; i++) {
        char statement[64];
        int is_real = numbers[i].code == EDF_OK;
        uint8_t unit = 99;
        double value = 99, expected = is_real ? numbers[i].value : 99;
        size_t position = 77;
        sprintf(statement, "w = %s ;", numbers[i].written);
        size_t length = put_header(bytes, 0, statement);
        uint8_t code = edf_real(bytes, length, 0, BYTES("W"), &unit, &value, &position);
        check(code == numbers[i].code && unit == (is_real ? numbers[i].unit : 99), numbers[i].written);
        check(memcmp(&value, &expected, sizeof value) == 0 && position == (is_real ? 77 : 0), numbers[i].written);
    }
}

/* Errors before the value is looked at, and a value of the general header. */
static void reals_of_files(void) {
    static uint8_t bytes[1024];
    uint8_t unit = 99;
    double value = 99;
    size_t position = 77, length = put_header(bytes, 0, "w = 1_m ;");
    CHECK(edf_real(bytes, length, 0, BYTES("v"), &unit, &value, &position) == EDF_NOT_FOUND && position == 0);
    position = 77;
    CHECK(edf_real(bytes, length, 1, BYTES("w"), &unit, &value, &position) == EDF_NOT_FOUND && position == 0);
    bytes[7] = 0;
    CHECK(edf_real(bytes, length, 0, BYTES("w"), &unit, &value, &position) == EDF_BAD_HEADER_BYTE && position == 7);
    CHECK(edf_real(bytes, 0, 0, BYTES("w"), &unit, &value, &position) == EDF_NO_HEADER && position == 0);
    CHECK(unit == 99 && value == 99);
    length = put_header(bytes, 0, "EDF_DataFormatVersion=2.42;EDF_DataBlocks=1;WaveLength=1.5e-10_m;");
    length = put_header(bytes, length, "EDF_DataBlockID=1.Image.Psd;EDF_BinarySize=0;");
    position = 77;
    CHECK(edf_real(bytes, length, 1, BYTES("wave length"), &unit, &value, &position) == EDF_OK && position == 77);
    CHECK(unit == EDF_UNIT_METRES && value == 1.5e-10);
}

/* Each field in turn in a block's own header, in the general header, in both and in none. */
static void origins_of_each_field(void) {
    static const char *const statements[] = {"DataType=SignedByte;",       "ByteOrder=LowByteFirst;", "Compression=None;",  "Dim_1=4;",
                                             "DataRasterConfiguration=2;", "RasterOrientation=2;",    "DataValueOffset=0;"};
    static uint8_t bytes[2048];
    for (int field = 0; field < 7; field++)
        for (int where = 0; where < 4; where++) {
            char general[256] = "EDF_DataFormatVersion=2.42;EDF_DataBlocks=1;", own[256] = "EDF_DataBlockID=1.Image.Psd;EDF_BinarySize=16;";
            char letters[] = "ddddddd";
            edf_description d;
            size_t position = 99;
            if (where & 1) strcat(own, statements[field]);
            if (where & 2) strcat(general, statements[field]);
            letters[field] = "dogo"[where];
            size_t length = put_header(bytes, put_header(bytes, 0, general), own) + 16;
            CHECK(edf_describe(bytes, length, 1, &d, &position) == EDF_OK && has_origins(&d.origins, letters));
        }
}

static void arrays(void) {
    uint8_t class_ = 0;
    size_t length = 0, position = 99;
    int64_t signed_ = 99;
    uint64_t unsigned_ = 99;
    float float32 = 99;
    double float64 = 99;
    CHECK(edf_read_array(file, file_length, 0, EDF_LOW_BYTE_FIRST, out, sizeof out, &length, &position) == EDF_OK);
    CHECK(length == 3 * 2 * edf_datatype_width(EDF_UNSIGNED_SHORT) && memcmp(out, "\1\0\2\0\3\0\4\0\5\0\6\0", 12) == 0);
    CHECK(edf_read_array(file, file_length, 0, 3, out, sizeof out, &length, &position) == EDF_BAD_ARGUMENT);
    CHECK(edf_read_pixel(file, file_length, 0, 2, 1, 0, &class_, &unsigned_, &signed_, &float32, &float64, &position) == EDF_OK);
    CHECK(class_ == EDF_UNSIGNED && unsigned_ == 6 && signed_ == 99 && float32 == 99 && float64 == 99);
    CHECK(edf_read_pixel(file, file_length, 0, 3, 0, 0, &class_, &unsigned_, &signed_, &float32, &float64, &position) == EDF_INDEX_OUTSIDE);
}

/* A file of two rows of two elements, low byte first: an array that is stored as it is asked for. */
static size_t plain_file(uint8_t *bytes) {
    const uint8_t pixels[] = {0, 1, 0, 2, 0, 3, 1, 4};
    size_t length = 0, position = 0;
    CHECK(edf_write(1, EDF_PSD, 1, EDF_UNSIGNED_SHORT, EDF_LOW_BYTE_FIRST, 2, 2, 2, 0, 1, BYTES(""), pixels, sizeof pixels, bytes,
                    4096, &length, &position) == EDF_OK);
    return length;
}

static void stored_arrays(void) {
    static uint8_t bytes[4096];
    edf_description d;
    uint8_t delivered = 99;
    size_t start = 0, length = 0, position = 99, size = plain_file(bytes);
    memset(&d, 99, sizeof d);
    CHECK(edf_stored_array(bytes, size, 0, EDF_LOW_BYTE_FIRST, &d, &start, &length, &delivered, &position) == EDF_OK);
    CHECK(d.datatype == EDF_UNSIGNED_SHORT && d.byteorder == EDF_LOW_BYTE_FIRST && d.compression == EDF_COMPRESSION_NONE);
    CHECK(d.n == 2 && d.dim1 == 2 && d.dim2 == 2 && d.dim3 == 1 && d.configuration == 1 && d.orientation == 1 && d.offset == 0);
    CHECK(has_origins(&d.origins, "oodoodd"));
    CHECK(delivered == 1 && length == 8 && memcmp(bytes + start, "\1\0\2\0\3\0\4\1", 8) == 0 && position == 99);
    CHECK(edf_stored_array(bytes, size, 0, EDF_HIGH_BYTE_FIRST, &d, &start, &length, &delivered, &position) == EDF_OK);
    CHECK(delivered == 0 && start == 512 && length == 8);
    d.n = start = length = delivered = 99;
    CHECK(edf_stored_array(bytes, size, 0, 3, &d, &start, &length, &delivered, &position) == EDF_BAD_ARGUMENT);
    CHECK(d.n == 99 && start == 99 && length == 99 && delivered == 99 && position == 0);
}

static void write_file(const char *path, const uint8_t *bytes, size_t length) {
    FILE *stream = fopen(path, "wb");
    CHECK(stream != NULL && fwrite(bytes, 1, length, stream) == length && fclose(stream) == 0);
}

/* Images of a file, in both byte orders. */
static void images(const char *path) {
    static uint8_t bytes[4096];
    edf_image image;
    size_t position = 99, length = plain_file(bytes);
    write_file(path, bytes, length);
    for (uint8_t order = EDF_HIGH_BYTE_FIRST; order <= EDF_LOW_BYTE_FIRST; order++) {
        const char *expected = order == EDF_LOW_BYTE_FIRST ? "\1\0\2\0\3\0\4\1" : "\0\1\0\2\0\3\1\4";
        CHECK(edf_image_open(path, 0, order, &image, &position) == EDF_OK && image.file_length == length);
        CHECK(image.length == 8 && image.description.n == 2 && image.description.dim1 == 2);
        CHECK(image.delivered == (order == EDF_LOW_BYTE_FIRST));
        CHECK(edf_image_read(&image, out, image.length, &position) == EDF_OK && memcmp(out, expected, 8) == 0 && position == 99);
        CHECK(edf_image_read(&image, out, 7, &position) == EDF_BUFFER_TOO_SMALL && position == 0);
        edf_image_close(&image);
        position = 99;
    }
}

static void images_that_are_none(const char *path) {
    static uint8_t bytes[4096];
    edf_image image;
    size_t position = 99, length = plain_file(bytes);
    write_file(path, bytes, length);
    image.length = 99;
    CHECK(edf_image_open(path, 1, EDF_LOW_BYTE_FIRST, &image, &position) == EDF_NOT_FOUND && image.length == 99 && position == 0);
    CHECK(edf_image_open(path, 0, 3, &image, &position) == EDF_BAD_ARGUMENT);
    CHECK(edf_image_open(path, 0, EDF_LOW_BYTE_FIRST, &image, &position) == EDF_OK && image.length == 8);
    write_file(path, bytes, 516); /* cut off after it was mapped, in the middle of its pixels */
    CHECK(edf_image_read(&image, out, image.length, &position) == EDF_SYSTEM_ERROR && errno == EIO);
    edf_image_close(&image);
    write_file(path, bytes, 0);
    CHECK(edf_image_open(path, 0, EDF_LOW_BYTE_FIRST, &image, &position) == EDF_NO_HEADER);
    position = 99;
    CHECK(edf_image_open("/nowhere/image.edf", 0, EDF_LOW_BYTE_FIRST, &image, &position) == EDF_SYSTEM_ERROR && errno == ENOENT);
    CHECK(edf_image_open("/", 0, EDF_LOW_BYTE_FIRST, &image, &position) == EDF_SYSTEM_ERROR && errno == EISDIR);
    CHECK(edf_image_open("/dev/null", 0, EDF_LOW_BYTE_FIRST, &image, &position) == EDF_SYSTEM_ERROR && errno == ESPIPE);
    CHECK(position == 99);
}

/* An array of some megabytes: its bytes differ along all of it. */
static void large_image(const char *path) {
    enum { SIDE = 2048, SIZE = 4 * SIDE * SIDE };
    uint8_t *bytes = malloc(512 + SIZE), *read = malloc(SIZE);
    edf_image image;
    size_t position = 99;
    CHECK(bytes != NULL && read != NULL);
    int used = sprintf((char *)bytes, "{\nDataType = UnsignedInteger ;\nByteOrder = LowByteFirst ;\nDim_1 = %d ;\nDim_2 = %d ;\nSize = %d ;\n",
                       SIDE, SIDE, SIZE);
    memset(bytes + used, ' ', 510 - (size_t)used);
    memcpy(bytes + 510, "}\n", 2);
    for (size_t i = 0; i < SIZE; i++) bytes[512 + i] = (uint8_t)(i * 2654435761u >> 13);
    write_file(path, bytes, 512 + SIZE);
    CHECK(edf_image_open(path, 0, EDF_LOW_BYTE_FIRST, &image, &position) == EDF_OK && image.delivered == 1);
    CHECK(edf_image_read(&image, read, SIZE, &position) == EDF_OK && memcmp(read, bytes + 512, SIZE) == 0);
    edf_image_close(&image);
    free(bytes);
    free(read);
}

static void listing(void) {
    static const char expected[] = "blocks 1\n0 0 512 512 1.Image.Psd UnsignedShorto HighByteFirsto 3x2o 6o 1d 0d\n";
    static uint8_t list[EDF_LIST_CAPACITY];
    size_t length = 99, position = 99;
    CHECK(edf_list(file, file_length, list, sizeof list, &length, &position) == EDF_OK && position == 99);
    CHECK(length == strlen(expected) && memcmp(list, expected, length) == 0);
    CHECK(edf_list(file, file_length, list, length - 1, &length, &position) == EDF_BUFFER_TOO_SMALL && position == 0);
    CHECK(edf_list(file, 0, list, sizeof list, &length, &position) == EDF_OK && length == 12 && memcmp(list, "refused 3 0\n", 12) == 0);
    CHECK(edf_part(file, file_length, 0, file_length) == file_length && edf_part(file, file_length, 1000, 24) == 24);
    CHECK(edf_part(file, file_length, 1000, 25) == 0 && edf_part(file, file_length, SIZE_MAX, 2) == 0);
}

/* Keys without their whitespace, texts, and no text for a value that is too long. */
static void keyword_list(void) {
    static uint8_t header[4096];
    size_t length = 99, position = 99, used = (size_t)sprintf((char *)header, "\r\n{ a b= \"x\\:y\" ;\nC=;long = ");
    memset(header + used, 'z', 1024);
    strcpy((char *)header + used + 1024, "; d = = ;  }\n");
    used = strlen((char *)header);
    CHECK(edf_keywords(header, used, out, used, &length, &position) == EDF_OK && position == 99);
    CHECK(length == 21 && memcmp(out, "ab\0x;y\0C\0\0long\0\377\0d\0=\0", 21) == 0);
    CHECK(edf_keywords(header, used, out, used - 1, &length, &position) == EDF_BUFFER_TOO_SMALL && length == 21 && position == 0);
    CHECK(edf_keywords((const uint8_t *)"{\n }\n", 6, out, 6, &length, &position) == EDF_OK && length == 0);
    CHECK(edf_keywords(file, 512, out, 512, &length, &position) == EDF_OK);
    CHECK(memcmp(out, "EDF_DataBlockID\0001.Image.Psd\0EDF_BinarySize\000512", 46) == 0 && memcmp(out + length - 9, "Title\0x;", 9) == 0);
}

static void words(void) {
    for (int code = EDF_OK; code <= EDF_OUT_OF_BOUNDS; code++)
        for (int other = 0; other < code; other++)
            CHECK(strlen(edf_words((uint8_t)code)) > 5 && strcmp(edf_words((uint8_t)code), edf_words((uint8_t)other)) != 0);
    CHECK(strcmp(edf_words(EDF_OK), "no error") == 0);
    CHECK(strcmp(edf_words(EDF_FILE_TOO_LARGE), "file over 1,073,741,824 bytes") == 0);
    CHECK(strcmp(edf_words(EDF_DATA_PAST_END), "data past the end of the file") == 0);
    CHECK(strcmp(edf_words(EDF_BUFFER_TOO_SMALL), "buffer too small") == 0);
    CHECK(strcmp(edf_words(EDF_TEXT_TOO_LONG), "text over 1,023 characters") == 0);
    CHECK(strncmp(edf_words(EDF_OUT_OF_BOUNDS), "number outside the bounds: ", 27) == 0);
    CHECK(strcmp(edf_words(26), "unknown code") == 0);
    CHECK(strcmp(edf_words(28), "unknown code") == 0 && strcmp(edf_words(255), "unknown code") == 0);
    CHECK(strcmp(edf_field_name(1), "DataType") == 0 && strcmp(edf_field_name(7), "DataValueOffset") == 0);
    CHECK(strcmp(edf_field_name(0), "") == 0 && strcmp(edf_field_name(8), "") == 0);
    CHECK(strcmp(edf_datatype_name(EDF_UNSIGNED_SHORT), "UnsignedShort") == 0 && edf_datatype_width(EDF_UNSIGNED_SHORT) == 2);
    CHECK(strcmp(edf_datatype_name(EDF_FLOAT_IEEE64), "FloatIEEE64") == 0 && edf_datatype_width(EDF_FLOAT_IEEE64) == 8);
    CHECK(strcmp(edf_datatype_name(11), "") == 0 && edf_datatype_width(0) == 0 && edf_datatype_width(11) == 0);
    CHECK(strcmp(edf_byteorder_name(EDF_LOW_BYTE_FIRST), "LowByteFirst") == 0 && strcmp(edf_byteorder_name(3), "") == 0);
    CHECK(strcmp(edf_origin_name(EDF_ORIGIN_OWN), "own header") == 0 && strcmp(edf_origin_name(EDF_ORIGIN_DEFAULT), "default") == 0);
    CHECK(strcmp(edf_origin_name(EDF_ORIGIN_GENERAL), "general header") == 0);
    CHECK(!*edf_origin_name(0) && !*edf_origin_name(4) && !*edf_origin_name(256 + EDF_ORIGIN_OWN));
    CHECK(strcmp(edf_unit_name(EDF_UNIT_METRES), "m") == 0 && strcmp(edf_unit_name(EDF_UNIT_DEGREES), "deg") == 0);
    CHECK(strcmp(edf_unit_name(EDF_UNIT_RADIANS), "rad") == 0);
    CHECK(!*edf_unit_name(EDF_UNIT_NONE) && !*edf_unit_name(4) && !*edf_unit_name(255));
}

int main(int count, char **arguments) {
    if (count != 2) return fputs("usage: calls PATH (of a file that it may write)\n", stderr), 2;
    writing(), opening(), keywords(), reals(), reals_of_files(), descriptions(), origins_of_each_field(), arrays(), stored_arrays();
    listing(), keyword_list(), words();
    images(arguments[1]), images_that_are_none(arguments[1]), large_image(arguments[1]);
    printf("%d passed, %d failed\n", passed, wrong);
    return wrong != 0;
}
