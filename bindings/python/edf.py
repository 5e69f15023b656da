"""Files of the ESRF Data Format, through the proved library (libedf.so.2, which `bash bindings/build` makes).

    import edf

    image = edf.read("image.edf")           # the array of its first block: a numpy array where numpy is installed, else bytes

    with edf.open("image.edf") as file:
        for block in file.blocks:
            print(block.number, block.identity)
        print(file.header(0)["Title"])      # header(n): a mapping from keys to text
        print(file.real(0, "WaveLength"))   # a number with its unit: Real(value=1.5e-10, unit='m')
        image = file.array(0)               # as edf.read
        file.array(0, out=image)            # with numpy: the same into an array that is there, no new memory
        print(file.pixel(0, 2, 1))          # index 1 is 2, index 2 is 1
        d = file.describe(0)                # type, byte order, dimensions ..
        print(d.origins.data_type)          # where the type came from: "own", "general" or "default"

    data = edf.write(image, title="a copy") # the bytes of a file of one block

Errors of the library are EdfError, with `code`, `position` and `words`; a file that cannot be read is OSError.

The shared object is looked for in the environment variable EDF_LIBRARY, beside this file, in ../../target/lib, and where the system
looks. What of this is proved, and what is not, is said in docs/BINDINGS.md.
"""

import collections.abc
import ctypes
import enum
import errno
import io
import math
import mmap
import operator
import os
import sys
from ctypes import POINTER, byref, c_char, c_char_p, c_double, c_float, c_int64, c_size_t, c_uint8, c_uint32, c_uint64, c_void_p
from typing import NamedTuple, Optional, Tuple

_LIBRARY = "libedf.so.2"  # the library whose structs these are
MOST_BLOCKS = 256
MOST_BYTES = 1 << 30
_TEXT_CAPACITY = 1023
_VALUE_CAPACITY = 2048
_LIST_CAPACITY = 76828
_HEADER_CAPACITY = 4096  # more than the header and the filling of a written file

# ---- The library


class _Row(ctypes.Structure):
    """edf_row"""

    _fields_ = [("start", c_uint64), ("header", c_uint64), ("size", c_uint64), ("kind", c_uint64), ("sequence", c_int64),
                ("instance", c_uint64), ("memory", c_int64)]


class _Description(ctypes.Structure):
    """edf_description"""

    _fields_ = [(name, c_uint64) for name in ("datatype", "byteorder", "compression", "n", "dim1", "dim2", "dim3", "configuration",
                                              "orientation")] + [("offset", c_int64), ("origins", c_uint64 * 7)]


_Table = _Row * MOST_BLOCKS
_TABLE_LENGTH = 7 * MOST_BLOCKS  # in numbers
_Front = c_char * 0  # the front of a buffer, which may be empty


def _load():
    here = os.path.dirname(os.path.abspath(__file__))
    named = os.environ.get("EDF_LIBRARY")
    beside = [os.path.join(here, _LIBRARY), os.path.join(here, "..", "..", "target", "lib", _LIBRARY)]
    paths = [named] if named else [path for path in beside if os.path.exists(path)] + [_LIBRARY]
    library = ctypes.CDLL(paths[0])
    bytes_in, number_out = [c_void_p, c_size_t], POINTER(c_size_t)
    keyword = bytes_in + [c_size_t] + bytes_in
    buffer_out = [c_void_p, c_size_t, number_out, number_out]
    calls = {
        "edf_open": bytes_in + [c_void_p, c_size_t, number_out, number_out],
        "edf_list": bytes_in + buffer_out,
        "edf_find": keyword + [number_out] * 3,
        "edf_text": keyword + buffer_out,
        "edf_whole_number": keyword + [POINTER(c_int64), number_out],
        "edf_real": keyword + [POINTER(c_uint8), POINTER(c_double), number_out],
        "edf_keywords": bytes_in + buffer_out,
        "edf_escape": bytes_in + buffer_out,
        "edf_unescape": bytes_in + buffer_out,
        "edf_describe": bytes_in + [c_size_t, POINTER(_Description), number_out],
        "edf_stored_array": bytes_in + [c_size_t, c_uint8, POINTER(_Description), number_out, number_out, POINTER(c_uint8), number_out],
        "edf_read_array": bytes_in + [c_size_t, c_uint8] + buffer_out,
        "edf_read_pixel": bytes_in + [c_size_t] * 4
        + [POINTER(c_uint8), POINTER(c_uint64), POINTER(c_int64), POINTER(c_float), POINTER(c_double), number_out],
        "edf_write": [c_int64, c_uint8, c_int64, c_uint8, c_uint8, c_uint8, c_size_t, c_size_t, c_size_t, c_uint32]
        + bytes_in + bytes_in + buffer_out,
    }
    for name, arguments in calls.items():
        function = getattr(library, name)
        function.argtypes, function.restype = arguments, c_uint8
    for name, argument in (("edf_words", c_uint8), ("edf_field_name", c_size_t), ("edf_datatype_name", c_uint8),
                           ("edf_byteorder_name", c_uint8), ("edf_unit_name", c_uint8)):
        function = getattr(library, name)
        function.argtypes, function.restype = [argument], c_char_p
    library.edf_part.argtypes, library.edf_part.restype = bytes_in + [c_size_t, c_size_t], c_size_t
    library.edf_datatype_width.argtypes, library.edf_datatype_width.restype = [c_uint8], c_size_t
    return library


_library = _load()

# ---- Errors and words


class Code(enum.IntEnum):
    """The codes of errors; EdfError.words says what they mean."""

    FILE_TOO_LARGE = 1
    TABLE_TOO_SMALL = 2
    NO_HEADER = 3
    BAD_HEADER_BYTE = 4
    NO_HEADER_END = 5
    BAD_STATEMENT = 6
    TOO_LONG = 7
    KEY_REPEATED = 8
    KEY_RULE_BROKEN = 9
    DATA_ELSEWHERE = 10
    BAD_HEADER_LENGTH = 11
    DATA_PAST_END = 12
    IDENTITY_REPEATED = 13
    TOO_MANY_BLOCKS = 14
    BLOCK_COUNT_WRONG = 15
    NOT_FOUND = 16
    UNKNOWN_WORD = 17
    BAD_NUMBER = 18
    TOO_MANY_DIMENSIONS = 19
    DATA_TOO_SHORT = 20
    OFFSET_ON_FLOATS = 21
    BUFFER_TOO_SMALL = 22
    INDEX_OUTSIDE = 23
    BAD_ARGUMENT = 24
    TEXT_TOO_LONG = 25
    OUT_OF_BOUNDS = 27


class EdfError(ValueError):
    """An error of the library. `position` is an offset in the file for codes 3 to 14: the start of the block, behind whitespace
    where that may stand before it, or for 4 the byte. It is the number of the field for 17 and 18 (0 for a keyword read as a whole
    number or as a real number), else 0. `field` is the name of that field, or None."""

    def __init__(self, code, position):
        self.code = Code(code)
        self.position = position
        self.words = _library.edf_words(code).decode("ascii")
        in_field = code in (Code.UNKNOWN_WORD, Code.BAD_NUMBER) and position > 0
        self.field = _library.edf_field_name(position).decode("ascii") if in_field else None
        where = " in " + self.field if in_field else ""
        super().__init__("error %d at %d: %s%s" % (code, position, self.words, where))

    def __reduce__(self):
        return EdfError, (int(self.code), self.position)


_DATA_TYPES = [_library.edf_datatype_name(n).decode("ascii") for n in range(11)]
_BYTE_ORDERS = [_library.edf_byteorder_name(n).decode("ascii") for n in range(3)]
_WIDTHS = [_library.edf_datatype_width(n) for n in range(11)]
_KINDS = " uiuiuifuif"  # numpy's letter for each data type
_NUMPY_TYPES = ["=%s%d" % pair for pair in zip(_KINDS, _WIDTHS)]  # numpy's name for each, in this machine's byte order
_INSTANCES = ["", "Psd", "Error"]
_ORIGINS = ["", "own", "general", "default"]
_UNITS = [_library.edf_unit_name(n).decode("ascii") or None for n in range(4)]
_NATIVE_ORDER = 1 if sys.byteorder == "big" else 2
_NATIVE = _BYTE_ORDERS[_NATIVE_ORDER]


def _number_of(words, word, what):
    """The library's number for a word."""
    if word in words[1:]:
        return words.index(word)
    raise ValueError("%s is %r: one of %s" % (what, word, ", ".join(words[1:])))


class Identity(NamedTuple):
    """Which data block this is, in files that start with an EDF_ key."""

    sequence: int
    instance: str
    memory: int

    def __str__(self):
        return "%d.Image.%s" % self[:2] + ("" if self.memory == 1 else ".%d" % self.memory)


class Block(NamedTuple):
    """A block: where it stands in the file. `kind` is "general" or "data"; `identity` is None for a general block, and in files
    that do not start with an EDF_ key. In these whitespace may stand before a block, between blocks and after the last: it is in
    no block."""

    number: int
    start: int
    header_length: int
    data_length: int
    kind: str
    identity: Optional[Identity]


class Origins(NamedTuple):
    """Where each field of a description came from: "own", the block's own header; "general", the general header; or "default",
    because no header in reach has the keyword. That of `dims` is that of Dim_1."""

    data_type: str
    byte_order: str
    compression: str
    dims: str
    configuration: str
    orientation: str
    offset: str


class Description(NamedTuple):
    """How an array is stored. `dims` are one to three, the first runs fastest: a numpy array has them in reverse. `origins` says
    where each field came from."""

    data_type: str
    byte_order: str
    compression: str
    dims: Tuple[int, ...]
    configuration: int
    orientation: int
    offset: int
    origins: Origins


class Real(NamedTuple):
    """A real number of a header. `unit` is "m" for metres, "deg" for degrees, "rad" for radians, or None for a bare number. `value` is
    the number in that unit, nothing converted; float() gives it too."""

    value: float
    unit: Optional[str]

    def __float__(self):
        return self.value

    @property
    def radians(self):
        """The angle in radians. One in degrees is converted by Python's math.radians: that is not proved, and is rounded again.
        ValueError for metres and for a bare number."""
        return math.radians(self.value) if self._angle_unit() == "deg" else self.value

    @property
    def degrees(self):
        """The angle in degrees. One in radians is converted by Python's math.degrees: that is not proved, and is rounded again.
        ValueError for metres and for a bare number."""
        return math.degrees(self.value) if self._angle_unit() == "rad" else self.value

    def _angle_unit(self):
        if self.unit not in ("deg", "rad"):
            raise ValueError("%r is no angle: its unit is neither deg nor rad" % (self,))
        return self.unit


# ---- What calls get


def _whole(value, lowest, highest, code):
    """A whole number within limits, else an error: ctypes would cut it to its low bits."""
    value = operator.index(value)
    if not lowest <= value <= highest:
        raise EdfError(code, 0)
    return value


def _lent(data):
    """Bytes that calls read: their address, their number, and what keeps them there. They are copied where they are read-only (but
    for bytes), scattered or none."""
    if not isinstance(data, bytes):
        try:
            owner = c_char.from_buffer(data)
            return ctypes.addressof(owner), memoryview(data).nbytes, owner
        except (TypeError, ValueError):
            data = memoryview(data).tobytes()
    return ctypes.cast(c_char_p(data), c_void_p).value, len(data), data


def _into(capacity, call, *arguments):
    """The bytes that a call writes into a buffer of this size."""
    out, length, position = ctypes.create_string_buffer(max(capacity, 1)), c_size_t(), c_size_t()
    code = call(*arguments, out, capacity, byref(length), byref(position))
    if code:
        raise EdfError(code, position.value)
    return ctypes.string_at(out, length.value)


def _encoded(text):
    return text if isinstance(text, bytes) else text.encode("utf-8")


def _numpy():
    """numpy, or None where it is not installed."""
    try:
        import numpy
    except ImportError:
        return None
    return numpy


# ---- Text


def escape(text):
    """Text in value form: in quotes, with escapes."""
    text = _encoded(text)
    return _into(_VALUE_CAPACITY, _library.edf_escape, text, len(text)).decode("ascii")


def unescape(value):
    """The text of what stands between `=` and `;` of a statement."""
    value = _encoded(value)
    return _into(_TEXT_CAPACITY, _library.edf_unescape, value, len(value)).decode("ascii")


# ---- Headers

_WHITESPACE = b" \t\n\r\v\f"
_NO_TEXT = "\xff"  # in place of a text that is too long


def _keywords(address, length):
    """Key and text of each statement of a header that the library accepted."""
    listed = _into(length, _library.edf_keywords, address, length).decode("latin-1").split("\0")
    return dict(zip(listed[0:-1:2], listed[1::2]))


def _folded(key):
    """A sought key as keys are compared."""
    return _encoded(key).translate(None, _WHITESPACE).lower().decode("utf-8", "replace")


class Header(collections.abc.Mapping):
    """The keywords of a block as text. Keys are compared without whitespace and without regard to case. Those of the block's own
    header come first, then those of the general header that hold for the block."""

    def __init__(self, own, general):
        taken = {key.lower() for key in own}
        held = {key: text for key, text in general.items() if key.lower() not in taken and not key.lower().startswith("edf_")}
        self._texts = {**own, **held}  # by key as it is written
        self._written = {key.lower(): key for key in self._texts}  # by key as keys are compared

    def _found(self, key):
        """The key as it is written in the header, or None."""
        if key in self._texts:
            return key
        return self._written.get(_folded(key)) if isinstance(key, (str, bytes)) else None

    def __getitem__(self, key):
        found = self._found(key)
        if found is None:
            raise KeyError(key)
        text = self._texts[found]
        if text == _NO_TEXT:
            raise EdfError(Code.TEXT_TOO_LONG, 0)
        return text

    def __contains__(self, key):
        return self._found(key) is not None

    def __iter__(self):
        return iter(self._texts)

    def __len__(self):
        return len(self._texts)

    def __repr__(self):
        return "Header(%r)" % self._texts


# ---- Files


class _Place(NamedTuple):
    """Where a call on a block looks: bytes, the block's number there, the start in the file, and what keeps the bytes there."""

    address: int
    length: int
    number: int
    start: int
    owner: object


def _opened(address, length):
    """The blocks of a file."""
    table, count, position = _Table(), c_size_t(), c_size_t()
    code = _library.edf_open(address, length, table, _TABLE_LENGTH, byref(count), byref(position))
    if code:
        raise EdfError(code, position.value)
    return tuple(_block(number, table[number]) for number in range(count.value))


def _block(number, row):
    identity = Identity(row.sequence, _INSTANCES[row.instance], row.memory) if row.instance else None
    return Block(number, row.start, row.header, row.size, "data" if row.kind else "general", identity)


def _is_alone(place, block):
    """Whether the library opens the bytes of a block alone as one block with the same row but for its start."""
    try:
        return _opened(place.address, place.length) == (block._replace(number=0, start=0),)
    except EdfError:
        return False


def _answered(place, call, *arguments):
    """Makes a call on a block."""
    position = c_size_t()
    code = call(place.address, place.length, place.number, *arguments, byref(position))
    if code:
        raise EdfError(code, position.value)


def _read(place, order, out):
    """Writes the array of a block to the front of a buffer; the answer is the number of its bytes."""
    owner, capacity, length = _Front.from_buffer(out), memoryview(out).nbytes, c_size_t()
    address = ctypes.addressof(owner)
    if address < place.address + place.length and place.address < address + capacity:
        raise ValueError("the array would be written over the bytes of its file")
    _answered(place, _library.edf_read_array, order, address, capacity, byref(length))
    return length.value


class _Stream(io.FileIO):
    """An open file, which is closed when no File and no call uses it any more."""

    __del__ = io.FileIO.close

    def fill(self, out, offset):
        """Fills a buffer with the bytes from an offset on."""
        rest = memoryview(out).cast("B")
        while rest:
            count = os.preadv(self.fileno(), [rest], offset)
            if count == 0:
                raise OSError(errno.EIO, "the file ends before its array")
            rest, offset = rest[count:], offset + count


def _array_for(d, length, numpy, out):
    """What an array is put into: a new one, or `out` where it suits."""
    if numpy is None:
        if out is not None:
            raise ValueError("out is for numpy arrays, and numpy is not installed: read_into takes other buffers")
        return bytearray(length)
    shape, kind = (d.dim3, d.dim2, d.dim1)[3 - d.n :], _NUMPY_TYPES[d.datatype]
    if out is None:
        return numpy.empty(shape, kind)
    if not (isinstance(out, numpy.ndarray) and out.shape == shape and out.dtype == kind and out.flags.c_contiguous
            and out.flags.writeable):
        raise ValueError("out must be a numpy array of shape %s, type %s and this machine's byte order, C-contiguous and writable"
                         % (shape, kind[1:]))
    return out


def _array(place, stream, out=None):
    """The array of a block. It is read from the file, where that is open and stores it as it is asked for; else the library makes it."""
    numpy = _numpy()
    d, start, length, delivered = _Description(), c_size_t(), c_size_t(), c_uint8()
    _answered(place, _library.edf_stored_array, _NATIVE_ORDER, byref(d), byref(start), byref(length), byref(delivered))
    out = _array_for(d, length.value, numpy, out)
    if delivered.value and stream is not None:
        stream.fill(out, place.start + start.value)
    else:
        _read(place, _NATIVE_ORDER, out)
    return out if numpy else bytes(out)


class File:
    """A file, opened: its bytes and its blocks. The bytes must not change while a call runs; they are not copied where they are
    bytes or a writable buffer."""

    def __init__(self, data, _stream=None):
        self._stream = _stream  # the file that the bytes are mapped from
        self._bytes = address, length, _owner = _lent(data)
        self._blocks = _opened(address, length)

    @property
    def blocks(self):
        """The blocks of the file, in order."""
        return self._blocks

    def close(self):
        """Lets the file's bytes go."""
        self._bytes = self._stream = None

    def __enter__(self):
        return self

    def __exit__(self, *_):
        self.close()

    def __len__(self):
        return len(self._blocks)

    def _has_general_block(self):
        return self._blocks[0].kind == "general"

    def _block(self, block):
        """A block that there is: ctypes would cut other numbers to their low bits."""
        number = operator.index(block)
        if not 0 <= number < len(self._blocks):
            raise EdfError(Code.NOT_FOUND, 0)
        return self._blocks[number]

    def _place(self, block):
        """Where a call on a block looks: as little of the file as answers the same. A call judges the whole file that it gets, so
        that with the whole file each would cost the time of all headers. A block of a file without a general block is looked at by
        itself, if it is the same alone: its answers are then the same, with spans counted from its start. This is proved
        (docs/BINDINGS.md)."""
        block, (address, length, owner) = self._block(block), self._open_bytes()
        alone = _Place(address + block.start, block.header_length + block.data_length, 0, block.start, owner)
        if alone.length < length and not self._has_general_block() and _is_alone(alone, block):
            return alone
        return _Place(address, length, block.number, 0, owner)

    def _open_bytes(self):
        lent = self._bytes
        if lent is None:
            raise ValueError("the file is closed")
        return lent

    def header(self, block):
        """The keywords of a block, a mapping from keys to text."""
        block = self._block(block)
        general = self._keywords(self._blocks[0]) if block.number != 0 and self._has_general_block() else {}
        return Header(self._keywords(block), general)

    def _keywords(self, block):
        """The keywords of a block's own header."""
        address, _length, _owner = self._open_bytes()
        return _keywords(address + block.start, block.header_length)

    def part(self, offset, length):
        """The bytes at a span of the file, as `find` gives it; none where it does not lie inside."""
        address, size, _owner = self._open_bytes()
        if min(offset, length) < 0 or max(offset, length) > size:
            return b""  # no span of a file, and no number for ctypes, which would cut it
        return ctypes.string_at(address + offset, _library.edf_part(address, size, offset, length))

    def find(self, block, key):
        """Offset and length of the value of a keyword in the file."""
        key, offset, length = _encoded(key), c_size_t(), c_size_t()
        place = self._place(block)
        _answered(place, _library.edf_find, key, len(key), byref(offset), byref(length))
        return place.start + offset.value, length.value

    def text(self, block, key):
        """The value of a keyword as text."""
        key, out, length = _encoded(key), ctypes.create_string_buffer(_TEXT_CAPACITY), c_size_t()
        _answered(self._place(block), _library.edf_text, key, len(key), out, _TEXT_CAPACITY, byref(length))
        return ctypes.string_at(out, length.value).decode("ascii")

    def whole_number(self, block, key):
        """The value of a keyword as a whole number."""
        key, value = _encoded(key), c_int64()
        _answered(self._place(block), _library.edf_whole_number, key, len(key), byref(value))
        return value.value

    def real(self, block, key):
        """The value of a keyword as a real number with its unit, a Real. Errors of the value: 18 where it has not the form of a number,
        27 where its digits are over 9,007,199,254,740,992 or its power of ten is outside -22 to 22."""
        key, unit, value = _encoded(key), c_uint8(), c_double()
        _answered(self._place(block), _library.edf_real, key, len(key), byref(unit), byref(value))
        return Real(value.value, _UNITS[unit.value])

    def describe(self, block):
        """The description of a block's array."""
        d = _Description()
        _answered(self._place(block), _library.edf_describe, byref(d))
        words = _DATA_TYPES[d.datatype], _BYTE_ORDERS[d.byteorder], "None"
        origins = Origins(*(_ORIGINS[number] for number in d.origins))
        return Description(*words, (d.dim1, d.dim2, d.dim3)[: d.n], d.configuration, d.orientation, d.offset, origins)

    def array(self, block, out=None):
        """The array of a block, in raster configuration 1 and with its value offset added: a numpy array of this machine's byte
        order, shape (.., Dim_2, Dim_1); where numpy is not installed, bytes of this machine's byte order. It is put into `out` where
        that is given: a numpy array of just this type, byte order and shape, C-contiguous and writable."""
        return _array(self._place(block), self._stream, out)

    def read_into(self, block, out, byte_order=_NATIVE):
        """The array of a block at the front of a writable buffer, as a bytearray or a contiguous numpy array; the answer is the
        number of bytes."""
        return _read(self._place(block), _number_of(_BYTE_ORDERS, byte_order, "byte_order"), out)

    def pixel(self, block, i1, i2=0, i3=0):
        """One pixel. Indices count from 0; index 1 runs fastest."""
        index = [_whole(i, 0, MOST_BYTES, Code.INDEX_OUTSIDE) for i in (i1, i2, i3)]
        class_, numbers = c_uint8(), (c_uint64(), c_int64(), c_float(), c_double())
        _answered(self._place(block), _library.edf_read_pixel, *index, byref(class_), *map(byref, numbers))
        return numbers[class_.value - 1].value


def _mapped(path):
    """The bytes of a file, mapped, and the open file; its bytes and None where there is nothing to map: an empty file, or a pipe."""
    stream = _Stream(os.fspath(path))
    if os.fstat(stream.fileno()).st_size == 0:
        return stream.readall(), None
    return mmap.mmap(stream.fileno(), 0, access=mmap.ACCESS_COPY), stream


def open(path):
    """Opens a file by its path. It is mapped, so that only what is asked for is read; no other program may change it meanwhile. A
    file that may change is read instead: edf.File(pathlib.Path(path).read_bytes())."""
    return File(*_mapped(path))


def read(path, block=0):
    """The array of a block of a file by its path, as `open` and File.array give it. The file is judged once."""
    number = operator.index(block)
    if not 0 <= number < MOST_BLOCKS:
        number = MOST_BLOCKS  # which no block has: ctypes would cut other numbers
    data, stream = _mapped(path)
    address, length, owner = _lent(data)
    return _array(_Place(address, length, number, 0, owner), stream)


def listing(data):
    """What the lister prints for the bytes of a file, whether it opens or not. Straight after each field of an array a letter says
    where it came from: `o` the block's own header, `g` the general header, `d` the default."""
    address, length, _owner = _lent(data)
    return _into(_LIST_CAPACITY, _library.edf_list, address, length).decode("ascii")


# ---- Writing


def write(pixels, title="", data_type=None, dims=None, byte_order="HighByteFirst", configuration=1, sequence=1, instance="Psd",
          memory=1):
    """The bytes of a file of one block. `pixels` is a numpy array, or bytes in raster configuration 1, high byte first, with
    `data_type` and `dims` (the first runs fastest). `byte_order` and `configuration` say how they are stored."""
    if hasattr(pixels, "dtype"):
        numpy = _numpy()
        data_type = data_type or _data_type_of(pixels.dtype)
        dims = pixels.shape[::-1] if dims is None else dims
        pixels = numpy.ascontiguousarray(pixels, pixels.dtype.newbyteorder(">")).tobytes()
    if data_type is None or dims is None:
        raise TypeError("bytes need data_type and dims")
    pixels, title, n = bytes(pixels), _encoded(title), len(dims)
    identity = (_whole(sequence, -1 << 63, (1 << 63) - 1, Code.BAD_ARGUMENT), _number_of(_INSTANCES, instance, "instance"),
                _whole(memory, 0, (1 << 63) - 1, Code.BAD_ARGUMENT))
    codes = _number_of(_DATA_TYPES, data_type, "data_type"), _number_of(_BYTE_ORDERS, byte_order, "byte_order"), n
    sizes = [_whole(dim, 0, MOST_BYTES, Code.BAD_ARGUMENT) for dim in dims] + [0] * (3 - n)
    configuration = _whole(configuration, 0, (1 << 32) - 1, Code.BAD_ARGUMENT)
    return _into(len(pixels) + _HEADER_CAPACITY, _library.edf_write, *identity, *codes, *sizes[:3], configuration, title, len(title),
                 pixels, len(pixels))


def _data_type_of(dtype):
    """The data type of a numpy type."""
    for number in range(1, 11):
        if dtype.kind == _KINDS[number] and dtype.itemsize == _WIDTHS[number]:
            return _DATA_TYPES[number]
    raise TypeError("no data type of the format for numpy's %s" % dtype)
