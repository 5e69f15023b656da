/* The words for the numbers of edf.h: the one table of them for C, Rust and Python. */
#include "edf.h"

#define COUNT(table) (sizeof(table) / sizeof *(table))

static const char *const words[] = {
    "no error",
    "file over 1,073,741,824 bytes",
    "table under 256 rows",
    "no start of a header here",
    "a byte that can't stand in a header: 0, above 127, or `{`",
    "header without an end: no `}` with LF or CR LF after it in the block's first 65,536 bytes",
    "statement broken: something after the last `;`, no `=`, or an empty key",
    "key over 64 characters or value over 2,048 bytes",
    "key twice in a header",
    "a rule on EDF_ keys or Size broken",
    "EDF_BinaryFileName counts: data in another file is not read",
    "header length not a multiple of the boundary, or not EDF_HeaderSize",
    "data past the end of the file",
    "identity twice",
    "bytes left after 256 blocks",
    "EDF_DataBlocks does not match the data blocks",
    "no such block or keyword, or an array asked of the general block",
    "unknown word",
    "bad number or range",
    "Dim_1 to Dim_4 all found: at most three dimensions are read",
    "data shorter than the array",
    "nonzero offset on floats",
    "buffer too small",
    "index outside the array",
    "bad argument",
    "text over 1,023 characters",
    "unknown code", /* no error has the code 26 */
    "number outside the bounds: digits over 9,007,199,254,740,992 or a power of ten outside -22 to 22",
};

static const char *const fields[] = {
    "", "DataType", "ByteOrder", "Compression", "Dim_1 to Dim_3", "DataRasterConfiguration", "RasterOrientation", "DataValueOffset",
};

static const struct {
    const char *name;
    size_t width;
} datatypes[] = {
    {"", 0},
    {"UnsignedByte", 1},
    {"SignedByte", 1},
    {"UnsignedShort", 2},
    {"SignedShort", 2},
    {"UnsignedInteger", 4},
    {"SignedInteger", 4},
    {"FloatIEEE32", 4},
    {"Unsigned64", 8},
    {"Signed64", 8},
    {"FloatIEEE64", 8},
};

static const char *const byteorders[] = {"", "HighByteFirst", "LowByteFirst"};

static const char *const origins[] = {"", "own header", "general header", "default"};

static const char *const units[] = {"", "m", "deg", "rad"};

const char *edf_words(uint8_t code) {
    return code < COUNT(words) ? words[code] : "unknown code";
}

const char *edf_field_name(size_t field) {
    return field < COUNT(fields) ? fields[field] : "";
}

const char *edf_datatype_name(uint8_t datatype) {
    return datatype < COUNT(datatypes) ? datatypes[datatype].name : "";
}

size_t edf_datatype_width(uint8_t datatype) {
    return datatype < COUNT(datatypes) ? datatypes[datatype].width : 0;
}

const char *edf_byteorder_name(uint8_t byteorder) {
    return byteorder < COUNT(byteorders) ? byteorders[byteorder] : "";
}

const char *edf_origin_name(uint64_t origin) {
    return origin < COUNT(origins) ? origins[origin] : "";
}

const char *edf_unit_name(uint8_t unit) {
    return unit < COUNT(units) ? units[unit] : "";
}
