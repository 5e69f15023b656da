/* ESRF Data Format files, from C and C++. `bash bindings/build` makes target/lib/libedf.a and target/lib/libedf.so; link one of them.
 *
 * Every call that answers a uint8_t answers EDF_OK, or the code of an error. In success the numbers behind `value`, `offset`,
 * `length` .. are set and *position stays as it was; in an error *position is set, and all the other numbers and buffers that are
 * lent stay as they were.
 * A slice is a pointer and the number of its bytes, or for the table of edf_open the number of its 64-bit numbers. No pointer may be
 * NULL, also where that number is 0, and what is lent for writing must not overlap anything else that the call gets. The bytes of
 * a file must not change during a call: a file that another program may still write is to be read, not mapped.
 *
 * Calls with `file` and `block` judge the whole file first: its errors are "those of opening", 1 and 3 to 15, with their positions.
 * Blocks are numbered from 0. Every call may be made from several threads at once. No call keeps anything.
 *
 * A file is of kind 2 if the first key of its first header starts with EDF_, else of kind 1. In kind 1 whitespace (space, tab, LF,
 * VT, FF, CR) may stand before the first block, between blocks and after the last; a block starts at its `{`, and its header may have
 * any length up to 65,536. In kind 2 blocks are contiguous; a block starts at its `{`, or at an LF or CR LF just before it, and the
 * length of its header is a multiple of the boundary: EDF_BlockBoundary, or 512.
 */
#ifndef EDF_H
#define EDF_H

#include <stddef.h>
#include <stdint.h>

#ifdef __cplusplus
extern "C" {
#endif

/* ---- Numbers */

/* The codes of errors. Positions: for 1, 2 and 15 it is 0; for 3 and 5 to 14 the offset of the block's start in the file; for 4 the
 * offset of the byte; for 17 and 18 the number of the field, 1 to 7 (edf_field_name), or 0 where a keyword is read as a whole
 * number or as a real number; for all others 0. edf_words gives the words. No error has the code 26.
 * The start of a block that is refused: in kind 1 the first byte after the block before that is no whitespace, or the length of a file
 * of whitespace alone; in kind 2 the byte after the block before, or 0. Up to error 6 the first block has its start as in kind 1. If
 * its header is then one of kind 2, the start is 0, and before 7 come 3, if no start of a header is at 0, and 5, if the header from
 * there on is over 65,536 bytes. */
enum {
    EDF_OK = 0,
    EDF_FILE_TOO_LARGE = 1,        /* file over 1,073,741,824 bytes */
    EDF_TABLE_TOO_SMALL = 2,       /* table under 256 rows */
    EDF_NO_HEADER = 3,             /* no start of a header here */
    EDF_BAD_HEADER_BYTE = 4,       /* byte 0, a byte above 127 or `{` inside a header */
    EDF_NO_HEADER_END = 5,         /* no `}` with LF or CR LF after it in the 65,536 bytes from the block's start */
    EDF_BAD_STATEMENT = 6,         /* something after the last `;`, a statement without `=`, or an empty key */
    EDF_TOO_LONG = 7,              /* key over 64 characters or value over 2,048 bytes */
    EDF_KEY_REPEATED = 8,          /* key twice in a header */
    EDF_KEY_RULE_BROKEN = 9,       /* a rule on EDF_ keys or Size broken */
    EDF_DATA_ELSEWHERE = 10,       /* EDF_BinaryFileName counts: the data is in another file */
    EDF_BAD_HEADER_LENGTH = 11,    /* kind 2: header length not a multiple of the boundary, or not EDF_HeaderSize */
    EDF_DATA_PAST_END = 12,        /* data past the end of the file */
    EDF_IDENTITY_REPEATED = 13,    /* identity twice */
    EDF_TOO_MANY_BLOCKS = 14,      /* bytes left after 256 blocks; in kind 1 other than whitespace */
    EDF_BLOCK_COUNT_WRONG = 15,    /* EDF_DataBlocks does not match */
    EDF_NOT_FOUND = 16,            /* no such block or keyword, or an array asked of the general block */
    EDF_UNKNOWN_WORD = 17,         /* unknown word */
    EDF_BAD_NUMBER = 18,           /* bad number or range */
    EDF_TOO_MANY_DIMENSIONS = 19,  /* Dim_1 to Dim_4 all found */
    EDF_DATA_TOO_SHORT = 20,       /* data shorter than the array */
    EDF_OFFSET_ON_FLOATS = 21,     /* nonzero offset on floats */
    EDF_BUFFER_TOO_SMALL = 22,     /* buffer too small */
    EDF_INDEX_OUTSIDE = 23,        /* index outside the array */
    EDF_BAD_ARGUMENT = 24,         /* bad argument */
    EDF_TEXT_TOO_LONG = 25,        /* text over 1,023 characters */
    EDF_OUT_OF_BOUNDS = 27         /* real number with digits over 9,007,199,254,740,992 or a power of ten outside -22 to 22 */
};

/* Data types, as edf_describe gives them and edf_write takes them. */
enum {
    EDF_UNSIGNED_BYTE = 1,
    EDF_SIGNED_BYTE = 2,
    EDF_UNSIGNED_SHORT = 3,
    EDF_SIGNED_SHORT = 4,
    EDF_UNSIGNED_INTEGER = 5,
    EDF_SIGNED_INTEGER = 6,
    EDF_FLOAT_IEEE32 = 7,
    EDF_UNSIGNED_64 = 8,
    EDF_SIGNED_64 = 9,
    EDF_FLOAT_IEEE64 = 10
};

/* Byte orders; compression; kinds of blocks; instances; classes of pixels. */
enum { EDF_HIGH_BYTE_FIRST = 1, EDF_LOW_BYTE_FIRST = 2 };
enum { EDF_COMPRESSION_NONE = 1 };
enum { EDF_GENERAL_BLOCK = 0, EDF_DATA_BLOCK = 1 };
enum { EDF_PSD = 1, EDF_ERROR = 2 };
enum { EDF_UNSIGNED = 1, EDF_SIGNED = 2, EDF_FLOAT32 = 3, EDF_FLOAT64 = 4 };

/* Where a field of a description came from: the block's own header; the general header; or the default, because no header in reach
 * has the keyword. A written value has its header's origin, also where it equals the default. */
enum { EDF_ORIGIN_OWN = 1, EDF_ORIGIN_GENERAL = 2, EDF_ORIGIN_DEFAULT = 3 };

/* The unit that a real number is written with: none, `_m`, `_deg` or `_rad`. */
enum { EDF_UNIT_NONE = 0, EDF_UNIT_METRES = 1, EDF_UNIT_DEGREES = 2, EDF_UNIT_RADIANS = 3 };

/* The most blocks of a file and bytes of a file; buffers that always suffice for edf_text and edf_unescape, for edf_escape, and for
 * edf_list. */
enum { EDF_MOST_BLOCKS = 256, EDF_MOST_BYTES = 1073741824, EDF_TEXT_CAPACITY = 1023, EDF_VALUE_CAPACITY = 2048, EDF_LIST_CAPACITY = 76828 };

/* ---- Blocks */

/* A block of a file, as edf_open gives it: its start, the length of its header, the size of its data, and its kind,
 * EDF_GENERAL_BLOCK or EDF_DATA_BLOCK; then its identity, with instance EDF_PSD or EDF_ERROR. The identity of a general block, and
 * of any block of a file of kind 1, is 0, 0, 0. A block may start after the end of the one before: whitespace between blocks is in no
 * row. */
typedef struct {
    uint64_t start, header, size, kind;
    int64_t sequence;
    uint64_t instance;
    int64_t memory;
} edf_row;

/* Opens a file into a table of at least 256 rows: *count is the number of its blocks, and the first rows are theirs, in order; the
 * other rows stay as they were. The table is lent as numbers, 7 to a row: for `edf_row table[EDF_MOST_BLOCKS]`, `rows` is
 * (uint64_t *)table and `rows_length` is 7 * EDF_MOST_BLOCKS. Errors: 1 to 15. */
uint8_t edf_open(const uint8_t *file, size_t file_length, uint64_t *rows, size_t rows_length, size_t *count, size_t *position);

/* The listing of a file at the front of `out`, as the lister prints it but for a file of any length; *length is its bytes: `blocks`
 * and their number, then a line for each block; or, for a file that does not open, `refused`, code, position. Straight after the
 * type, byte order, dimensions, configuration, orientation and offset of a block a letter says where the field came from: `o` its
 * own header, `g` the general header, `d` the default. EDF_LIST_CAPACITY bytes always suffice. Errors: 22. */
uint8_t edf_list(const uint8_t *file, size_t file_length, uint8_t *out, size_t out_length, size_t *length, size_t *position);

/* The length of the part of a file that `length` bytes from `offset` are: `length` where they lie inside the file, else 0. */
size_t edf_part(const uint8_t *file, size_t file_length, size_t offset, size_t length);

/* ---- Keywords. A key is looked up without its whitespace and without regard to case: in the block's own header, then, unless it
 * starts with EDF_, in the general header. */

/* Where the value of a keyword stands in the file. Errors: those of opening, 16. */
uint8_t edf_find(const uint8_t *file, size_t file_length, size_t block, const uint8_t *key, size_t key_length, size_t *offset,
                 size_t *length, size_t *position);

/* The value of a keyword as text at the front of `out`; *length is its bytes. Errors: those of opening, 16, 25, 22. */
uint8_t edf_text(const uint8_t *file, size_t file_length, size_t block, const uint8_t *key, size_t key_length, uint8_t *out,
                 size_t out_length, size_t *length, size_t *position);

/* The value of a keyword as a whole number. Errors: those of opening, 16, 18 at position 0. */
uint8_t edf_whole_number(const uint8_t *file, size_t file_length, size_t block, const uint8_t *key, size_t key_length,
                         int64_t *value, size_t *position);

/* The value of a keyword as a real number: *unit is EDF_UNIT_NONE, EDF_UNIT_METRES, EDF_UNIT_DEGREES or EDF_UNIT_RADIANS.
 * Form: an optional sign; digits with at most one point before, among or after them, at least one digit; optionally `e` and a whole
 * number of 64 bits; optionally `_m`, `_deg` or `_rad`. As `9.90376e-11`, `-.5_rad`, `32.5_deg`. Letters are small, and no whitespace
 * stands inside.
 * Bounds: the digits without the point, read as a whole number, are at most 9,007,199,254,740,992. The power of ten is from -22 to 22:
 * the number after `e`, 0 where there is none, less the number of digits after the point. Nothing is reduced first: `1e23` and `0e23`
 * are outside, `10e22` and `0.1e23` inside.
 * *value is the 64-bit float nearest to the written number, rounded once, ties to even. The sign is put on last, so that `-0` is minus
 * zero. Degrees are not converted: for `32.5_deg` it is 32.5. The locale plays no part.
 * The proofs are about the processor's default mode. A host that changes it (fesetround, flush to zero) is outside the proofs.
 * Errors: those of opening, 16; 18 at position 0 for another form; then 27 outside the bounds. */
uint8_t edf_real(const uint8_t *file, size_t file_length, size_t block, const uint8_t *key, size_t key_length, uint8_t *unit,
                 double *value, size_t *position);

/* Text in value form, in quotes and with escapes, at the front of `out`; *length is its bytes. Errors: 24 (byte 0 or a byte above
 * 127), 25, 22. */
uint8_t edf_escape(const uint8_t *bytes, size_t bytes_length, uint8_t *out, size_t out_length, size_t *length, size_t *position);

/* The text of the bytes between `=` and `;` at the front of `out`; *length is its bytes. Errors: 24 (byte 0, a byte above 127,
 * `{`, `}` or `;`), 25, 22. */
uint8_t edf_unescape(const uint8_t *value, size_t value_length, uint8_t *out, size_t out_length, size_t *length, size_t *position);

/* ---- Arrays */

/* The origins of the fields of a description, each EDF_ORIGIN_OWN, EDF_ORIGIN_GENERAL or EDF_ORIGIN_DEFAULT. */
typedef struct {
    uint64_t datatype;
    uint64_t byteorder;
    uint64_t compression;
    uint64_t dims;          /* that of Dim_1 */
    uint64_t configuration;
    uint64_t orientation;
    uint64_t offset;
} edf_origins;

/* The description of a block's array. The dimensions past `n` are 1. */
typedef struct {
    uint64_t datatype;      /* EDF_UNSIGNED_BYTE to EDF_FLOAT_IEEE64 */
    uint64_t byteorder;     /* EDF_HIGH_BYTE_FIRST or EDF_LOW_BYTE_FIRST */
    uint64_t compression;   /* EDF_COMPRESSION_NONE */
    uint64_t n;             /* the number of dimensions, 1 to 3 */
    uint64_t dim1;          /* elements along index 1 */
    uint64_t dim2;          /* elements along index 2 */
    uint64_t dim3;          /* elements along index 3 */
    uint64_t configuration; /* the raster configuration, in which the array is stored */
    uint64_t orientation;   /* the raster orientation, reported and not applied */
    int64_t offset;         /* the value offset, added to each element that is delivered */
    edf_origins origins;    /* where each of these fields came from */
} edf_description;

/* Describes the array of a block. In an error *description stays as it was. Errors: those of opening, 16 to 21. */
uint8_t edf_describe(const uint8_t *file, size_t file_length, size_t block, edf_description *description, size_t *position);

/* The array of a block at the front of `out`, in raster configuration 1 (index 1 runs fastest), with its value offset added, in the
 * byte order `order`; *length is its bytes, dim1 * dim2 * dim3 * edf_datatype_width(datatype). Errors: those of edf_describe, 24 (a
 * bad order), 22. */
uint8_t edf_read_array(const uint8_t *file, size_t file_length, size_t block, uint8_t order, uint8_t *out, size_t out_length,
                       size_t *length, size_t *position);

/* The array of a block as it is stored: its description, as edf_describe gives it, and its bytes, the *length bytes of the file from
 * *start on. *delivered is 1 where these are just the bytes that edf_read_array gives in the byte order `order`, so that nothing
 * need be copied; else 0. Errors: those of edf_describe, 24 (a bad order). */
uint8_t edf_stored_array(const uint8_t *file, size_t file_length, size_t block, uint8_t order, edf_description *description,
                         size_t *start, size_t *length, uint8_t *delivered, size_t *position);

/* One pixel of a block's array, at an index of three numbers from 0; those past the array's dimensions are 0. *class_ is
 * EDF_UNSIGNED, EDF_SIGNED, EDF_FLOAT32 or EDF_FLOAT64, and the number of that class is set; the numbers of the other classes stay
 * as they were. Which bits a NaN has is not said; edf_read_array moves the bits. Errors: those of edf_describe, 23. */
uint8_t edf_read_pixel(const uint8_t *file, size_t file_length, size_t block, size_t i1, size_t i2, size_t i3, uint8_t *class_,
                       uint64_t *unsigned_, int64_t *signed_, float *float32, double *float64, size_t *position);

/* ---- Writing */

/* A file of one block at the front of `out`; *length is its bytes. Dimensions past `n` are not read. The pixels come in raster
 * configuration 1, high byte first; they are stored in the configuration and byte order asked for. `pixels_length + 4096` bytes
 * always suffice. Errors: 24 (a code, dimension, configuration or memory that there is not, pixels of another length, a byte 0 or
 * above 127 in the title, a file over the limit), 25, 22. */
uint8_t edf_write(int64_t sequence, uint8_t instance, int64_t memory, uint8_t datatype, uint8_t byteorder, uint8_t n, size_t dim1,
                  size_t dim2, size_t dim3, uint32_t configuration, const uint8_t *title, size_t title_length,
                  const uint8_t *pixels, size_t pixels_length, uint8_t *out, size_t out_length, size_t *length, size_t *position);

/* ---- What is not proved: C, in libedf (bindings/c), not in libedf_c */

/* The keywords of a header, in its order: `header` and `header_length` are the bytes of a header that edf_open accepted. For each, at
 * the front of `out`: its key as it is written but without whitespace, byte 0, its value as text, byte 0; for a text over 1,023
 * characters the byte EDF_NO_TEXT alone. *length is the number of bytes. `header_length` bytes suffice and are asked for.
 * Errors: 22. */
enum { EDF_NO_TEXT = 255 };
uint8_t edf_keywords(const uint8_t *header, size_t header_length, uint8_t *out, size_t out_length, size_t *length, size_t *position);

/* An image by the path of its file, on POSIX systems; no other program may change the file while it is open. edf_image_open maps a
 * regular file, judges it, and describes the array of a block in the byte order `order` (edf_stored_array). edf_image_read puts the
 * `length` bytes of the array at the front of `out`: where they are stored as they are asked for, they are read from the file, else
 * edf_read_array makes them. edf_image_close lets the file go. Errors: those of edf_stored_array, for edf_image_read 22, or
 * EDF_SYSTEM_ERROR: a call of the system failed, errno says why, and *position stays as it was; errno is EIO where the file ends
 * before its array. After an error of edf_image_open nothing is open, and *image is as it was. */
enum { EDF_SYSTEM_ERROR = 255 };
typedef struct {
    edf_description description;
    size_t start, length;
    size_t block, file_length;
    const uint8_t *file;
    int descriptor;
    uint8_t order, delivered;
} edf_image;
uint8_t edf_image_open(const char *path, size_t block, uint8_t order, edf_image *image, size_t *position);
uint8_t edf_image_read(const edf_image *image, uint8_t *out, size_t out_length, size_t *position);
void edf_image_close(edf_image *image);

/* The words for the code of an error, which like those below live as long as the program; "no error" for 0, "unknown code" for 26 and
 * above 27. */
const char *edf_words(uint8_t code);

/* The field that position 1 to 7 of errors 17 and 18 names: "DataType", "ByteOrder", "Compression", "Dim_1 to Dim_3",
 * "DataRasterConfiguration", "RasterOrientation", "DataValueOffset"; "" for every other number. */
const char *edf_field_name(size_t field);

/* The word of a data type, as "UnsignedShort", and the bytes of its elements; "" and 0 for a code that is none. */
const char *edf_datatype_name(uint8_t datatype);
size_t edf_datatype_width(uint8_t datatype);

/* The word of a byte order, "HighByteFirst" or "LowByteFirst"; "" for a code that is none. */
const char *edf_byteorder_name(uint8_t byteorder);

/* The words of an origin, "own header", "general header" or "default"; "" for a number that is none. */
const char *edf_origin_name(uint64_t origin);

/* The unit of a real number as it is written, "m", "deg" or "rad"; "" for EDF_UNIT_NONE and for a number that is no unit. */
const char *edf_unit_name(uint8_t unit);

#ifdef __cplusplus
}
#endif

#endif
