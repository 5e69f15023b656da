"""Tests of edf.py: python3 -m unittest, in this folder. numpy is not needed; what needs it is skipped where it is not installed."""

import errno
import gc
import glob
import math
import os
import pathlib
import pickle
import subprocess
import sys
import tempfile
import threading
import unittest
import unittest.mock
import warnings

import edf

try:
    import numpy
except ImportError:
    numpy = None

FIXTURES = os.path.join(os.path.dirname(os.path.abspath(__file__)), "..", "..", "tests", "fixtures")
with_numpy = unittest.skipIf(numpy is None, "numpy is not installed")


def fixture(name):
    return os.path.join(FIXTURES, name)


def fixtures():
    """The paths of all fixtures, those of the folder requests too."""
    return sorted(glob.glob(fixture("*.edf")) + glob.glob(fixture("requests/*.edf")))


def opened():
    """Every fixture that opens."""
    for path in fixtures():
        try:
            yield os.path.basename(path), edf.open(path)
        except edf.EdfError:
            pass


def answer(call, file):
    """What a call answers, or its error."""
    try:
        return call(file)
    except edf.EdfError as error:
        return error.code, error.position


def without_numpy():
    """edf as it is where numpy is not installed."""
    return unittest.mock.patch.dict(sys.modules, numpy=None)


def listed(path):
    """What the lister prints for a file, from the calls of edf.py."""
    try:
        file = edf.open(path)
    except edf.EdfError as error:
        return "refused %d %d\n" % (error.code, error.position)
    lines = ["blocks %d" % len(file)]
    for block in file.blocks:
        line = "%d %d %d %d " % (block.number, block.start, block.header_length, block.data_length)
        if block.kind == "general":
            lines.append(line + "general")
            continue
        line += str(block.identity or "-")
        try:
            d = file.describe(block.number)
            dims = "x".join(map(str, d.dims))
            fields = (d.data_type, d.byte_order, None, dims, d.configuration, d.orientation, d.offset)
            told = ["%s%s" % (field, origin[0]) for field, origin in zip(fields, d.origins) if field is not None]
            lines.append(" ".join([line] + told))
        except edf.EdfError as error:
            lines.append("%s refused %d %d" % (line, error.code, error.position))
    return "\n".join(lines) + "\n"


class Fixtures(unittest.TestCase):
    def test_listings(self):
        self.assertGreater(len(fixtures()), 120)
        for path in fixtures():
            with open(path[:-4] + ".list") as expected:
                self.assertEqual(listed(path), expected.read(), path)

    def test_listing(self):
        for path in fixtures():
            with open(path, "rb") as data, open(path[:-4] + ".list") as expected:
                self.assertEqual(edf.listing(data.read()), expected.read(), path)
        self.assertEqual(edf.listing(b""), "refused 3 0\n")

    def test_header_agrees_with_lookup(self):
        compared = 0
        for name, file in opened():
            for block in range(len(file)):
                for key in file.header(block):
                    looked_up = answer(lambda f: f.text(block, key), file)
                    self.assertEqual(answer(lambda f: f.header(block)[key], file), looked_up, (name, key))
                    compared += 1
        self.assertGreater(compared, 100)

    def test_pixels_are_the_array(self):
        compared = 0
        for name, file in opened():
            for block in file.blocks:
                try:
                    d = file.describe(block.number)
                except edf.EdfError:
                    continue
                with without_numpy():
                    pixels = file.array(block.number)
                letter = dict(zip(edf._DATA_TYPES, " BbHhIifQqd"))[d.data_type]
                numbers = memoryview(pixels).cast(letter)
                dims = d.dims + (1, 1)
                for n in range(min(len(numbers), 500)):
                    index = n % dims[0], n // dims[0] % dims[1], n // dims[0] // dims[1]
                    self.assertEqual(file.pixel(block.number, *index), numbers[n], (name, index))
                    compared += 1
        self.assertGreater(compared, 500)


class Blocks(unittest.TestCase):
    def test_general_block(self):
        with edf.open(fixture("general_defaults.edf")) as file:
            self.assertEqual([block.kind for block in file.blocks], ["general", "data", "data"])
            self.assertEqual([str(block.identity) for block in file.blocks], ["None", "1.Image.Psd", "2.Image.Psd"])
            header = file.header(1)
            self.assertEqual(header["data type"], "UnsignedShort")
            self.assertEqual(header[b"DATATYPE"], "UnsignedShort")
            self.assertIn("DataType", list(header))
            self.assertNotIn("EDF_DataBlocks", header)
            self.assertIn("EDF_DataBlocks", file.header(0))
            self.assertEqual(len(header), len(list(header)))
            self.assertEqual(dict(header), {key: file.text(1, key) for key in header})
            with self.assertRaises(KeyError):
                header["no such key"]

    def test_text_too_long(self):
        file = edf.File(("{ Long = %s ; Short = y ; " % ("x" * 1024)).ljust(1534).encode("ascii") + b"}\n")
        header = file.header(0)
        self.assertEqual((list(header), header["short"]), (["Long", "Short"], "y"))
        self.assertIn("Long", header)
        for call in (lambda: header["Long"], lambda: file.text(0, "Long")):
            with self.assertRaises(edf.EdfError) as caught:
                call()
            self.assertEqual((caught.exception.code, caught.exception.position), (edf.Code.TEXT_TOO_LONG, 0))

    def test_keywords(self):
        with edf.open(fixture("title_escapes.edf")) as file:
            offset, length = file.find(0, "Title")
            with open(fixture("title_escapes.edf"), "rb") as stream:
                raw = stream.read()[offset : offset + length]
            self.assertEqual(edf.unescape(b'"' + raw + b'"'), file.text(0, "Title"))
            self.assertEqual(file.part(offset, length), raw)
            for span in ((1024, 0), (1000, 25), (-1, 1), (0, 1 << 64), (1 << 64, 0), (1 << 64, 1)):
                self.assertEqual(file.part(*span), b"", span)
            self.assertEqual(file.whole_number(0, "Dim_1"), 3)

    def test_errors(self):
        with self.assertRaises(edf.EdfError) as caught:
            edf.open(fixture("nul_in_header.edf"))
        error = caught.exception
        self.assertEqual((error.code, error.position), (edf.Code.BAD_HEADER_BYTE, 152))
        self.assertEqual(str(error), "error 4 at 152: a byte that can't stand in a header: 0, above 127, or `{`")
        again = pickle.loads(pickle.dumps(error))
        self.assertEqual((again.code, again.position, str(again)), (error.code, error.position, str(error)))
        file = edf.open(fixture("order_unknown.edf"))
        with self.assertRaises(edf.EdfError) as caught:
            file.array(0)
        self.assertEqual((caught.exception.code, caught.exception.field), (17, "ByteOrder"))
        with self.assertRaises(edf.EdfError) as caught:
            file.read_into(0, bytearray(12))
        self.assertEqual((caught.exception.code, caught.exception.field), (17, "ByteOrder"))
        for code in edf.Code:
            self.assertGreater(len(edf.EdfError(code, 0).words), 5)
            self.assertNotEqual(edf.EdfError(code, 0).words, "unknown code")
        self.assertEqual(sorted(edf.Code), list(range(1, 26)) + [27])

    def test_numbers_out_of_range(self):
        file = edf.open(fixture("raster_7.edf"))
        for block in (-1, 1, 1 << 64, -1 << 64):
            for call in (file.header, file.describe, file.array, lambda b: file.text(b, "Title"), lambda b: file.pixel(b, 0),
                         lambda b: file.real(b, "Dim_1")):
                with self.assertRaises(edf.EdfError) as caught:
                    call(block)
                self.assertEqual(caught.exception.code, edf.Code.NOT_FOUND)
        for index in ((3, 0), (0, 2), (0, 0, 1), (-1,), (1 << 64,), (0, 1 << 64), (0, 0, 1 << 64)):
            with self.assertRaises(edf.EdfError) as caught:
                file.pixel(0, *index)
            self.assertEqual(caught.exception.code, edf.Code.INDEX_OUTSIDE)
        with self.assertRaises(TypeError):
            file.pixel(0, 0.5)

    def test_a_block_alone_answers_as_in_the_file(self):
        compared = 0
        for name, file in opened():
            for block in range(len(file)):
                for call in (lambda f: f.describe(block), lambda f: f.find(block, "Dim_1"), lambda f: f.text(block, "datatype"),
                             lambda f: f.pixel(block, 1), lambda f: bytes(f.array(block)), lambda f: f.whole_number(block, "SIZE"),
                             lambda f: f.real(block, "dim_1")):
                    with unittest.mock.patch.object(edf, "_is_alone", lambda *_: False):
                        whole = answer(call, file)
                    self.assertEqual(answer(call, file), whole, (name, block))
                    compared += 1
        self.assertGreater(compared, 100)

    def test_a_block_that_alone_is_another(self):
        def block(*statements):
            body = "{\n" + "".join("%s ;\n" % statement for statement in statements)
            return body.ljust(510).encode("ascii") + b"}\n1234"

        first = block("Size = 4", "DataType = UnsignedByte", "Dim_1 = 4")
        for keys in (["EDF_BinarySize = 4"], ["EDF_DataBlockID = 1.Image.Psd", "EDF_BinarySize = 4"], ["EDF_DataBlockID = 1.Image.Psd"]):
            file = edf.File(first + block(*keys + ["Size = 4", "DataType = UnsignedShort", "Dim_1 = 2"]) + first)
            self.assertEqual(file.pixel(1, 1), 0x3334)
            self.assertEqual(file.find(1, "size")[0], 516 + len("{\n" + "".join(key + " ;\n" for key in keys) + "Size = "))
            self.assertEqual(file.pixel(2, 1), 0x32)
            places = [(place.start, place.length, place.number) for place in map(file._place, (1, 2))]
            self.assertEqual(places, [(0, 3 * 516, 1), (2 * 516, 516, 0)])

    def test_missing_and_closed(self):
        with self.assertRaises(FileNotFoundError):
            edf.open(fixture("no such file"))
        with self.assertRaises(IsADirectoryError) as caught:
            edf.open(FIXTURES)
        self.assertEqual(caught.exception.filename, FIXTURES)
        with edf.open(fixture("raster_7.edf")) as file:
            pass
        for call in (file.header, file.describe, file.array):
            with self.assertRaises(ValueError):
                call(0)

    def test_empty_and_other_buffers(self):
        for empty in (b"", bytearray(), memoryview(b"")):
            with self.assertRaises(edf.EdfError) as caught:
                edf.File(empty)
            self.assertEqual((caught.exception.code, caught.exception.position), (edf.Code.NO_HEADER, 0))
        with tempfile.NamedTemporaryFile() as stream:
            with self.assertRaises(edf.EdfError):
                edf.open(stream.name)
        with open(fixture("raster_7.edf"), "rb") as stream:
            data = stream.read()
        reading, writing = os.pipe()
        os.write(writing, data)
        os.close(writing)
        self.assertEqual(edf.open("/dev/fd/%d" % reading).pixel(0, 2, 1), 6)
        os.close(reading)
        with tempfile.TemporaryDirectory() as folder:
            pipe = os.path.join(folder, "pipe")
            os.mkfifo(pipe)
            writer = threading.Thread(target=pathlib.Path(pipe).write_bytes, args=[data])
            writer.start()
            self.assertEqual(edf.open(pipe).pixel(0, 2, 1), 6)
            writer.join()
        twice = bytes(byte for byte in data for _ in range(2))
        for same in (data, bytearray(data), memoryview(data), memoryview(bytearray(data)), memoryview(twice)[::2]):
            self.assertEqual(edf.File(same).pixel(0, 2, 1), 6)
        with self.assertRaises(TypeError):
            edf.File("text")

    def test_bytes_live_as_long_as_the_file(self):
        with open(fixture("raster_7.edf"), "rb") as stream:
            file = edf.File(bytearray(stream.read()))
        self.assertEqual([file.pixel(0, i, j) for j in range(2) for i in range(3)], [1, 2, 3, 4, 5, 6])

    def test_threads(self):
        file, wrong = edf.open(fixture("fabio_multi_10.edf")), []

        def read():
            for turn in range(200):
                if file.header(turn % 10)["EDF_DataBlockID"] != "%d.Image.Psd" % (turn % 10):
                    wrong.append(turn)

        self.run_threads(read)
        self.assertEqual(wrong, [])

    def run_threads(self, *targets):
        """Runs four threads of each target at once."""
        threads = [threading.Thread(target=target) for target in targets for _ in range(4)]
        for thread in threads:
            thread.start()
        for thread in threads:
            thread.join()

    def test_threads_with_one_file_and_with_files_of_their_own(self):
        names, wrong = ["fabio_multi_10.edf", "raster_7.edf", "silx_3d_uint16.edf", "general_defaults.edf"], []
        files = [edf.open(fixture(name)) for name in names]

        def answers(file):
            last = len(file) - 1
            return file.blocks, file.describe(last), bytes(file.array(last)), file.pixel(last, 1)

        expected = [answers(edf.open(fixture(name))) for name in names]

        def read(of):
            for turn in range(200):
                try:
                    if answers(of(turn % 4)) != expected[turn % 4]:
                        wrong.append(turn)
                except Exception as error:
                    wrong.append(error)

        self.run_threads(lambda: read(lambda n: files[n]), lambda: read(lambda n: edf.open(fixture(names[n]))))
        self.assertEqual(wrong, [])

    def test_closing_while_another_thread_reads(self):
        expected, wrong = bytes(edf.open(fixture("raster_7.edf")).array(0)), []
        for _ in range(50):
            file = edf.open(fixture("raster_7.edf"))

            def read():
                try:
                    while True:
                        if bytes(file.array(0)) != expected:
                            wrong.append("array")
                except Exception as error:
                    if str(error) != "the file is closed":
                        wrong.append(error)

            threads = [threading.Thread(target=read) for _ in range(2)]
            for thread in threads:
                thread.start()
            file.close()
            for thread in threads:
                thread.join()
        self.assertEqual(wrong, [])


class Origins(unittest.TestCase):
    """Where the fields of a description came from."""

    STATEMENTS = {"data_type": "DataType = SignedByte ;", "byte_order": "ByteOrder = LowByteFirst ;", "compression": "Compression = None ;",
                  "dims": "Dim_1 = 4 ;", "configuration": "DataRasterConfiguration = 2 ;", "orientation": "RasterOrientation = 2 ;",
                  "offset": "DataValueOffset = 0 ;"}

    @staticmethod
    def block(statements):
        return ("{ " + statements).ljust(510).encode("ascii") + b"}\n" + bytes(16)

    def general(self, statements):
        return self.block("EDF_DataFormatVersion = 2.42 ; EDF_DataBlocks = 2 ; EDF_BinarySize = 16 ; " + statements)

    def data(self, sequence, statements):
        return self.block("EDF_DataBlockID = %d.Image.Psd ; EDF_BinarySize = 16 ; %s" % (sequence, statements))

    def test_each_field_in_each_header(self):
        self.assertEqual(tuple(self.STATEMENTS), edf.Origins._fields)
        self.assertEqual(edf.Description._fields, edf.Origins._fields + ("origins",))
        default = edf.Origins(*["default"] * 7)
        for field, statement in self.STATEMENTS.items():
            for general, own, origin in (("", "", "default"), ("", statement, "own"), (statement, "", "general"),
                                         (statement, statement, "own")):
                file = edf.File(self.general(general) + self.data(1, own) + self.data(2, ""))
                self.assertEqual(file.describe(1).origins, default._replace(**{field: origin}), (field, general, own))
                inherited = default._replace(**{field: "general" if general else "default"})
                self.assertEqual(file.describe(2).origins, inherited, (field, general, own))

    def test_without_a_general_header(self):
        for field, statement in self.STATEMENTS.items():
            others = "".join(other for other in self.STATEMENTS.values() if other != statement)
            own, default = edf.Origins(*["own"] * 7), edf.Origins(*["default"] * 7)
            plain = [self.block("Size = 16 ; " + statements) for statements in (statement, others)]
            for blocks in (plain, [self.data(1, statement), self.data(2, others)]):
                file = edf.File(b"".join(blocks))
                self.assertEqual([file._place(number).start for number in (0, 1)], [0, 528])  # each is looked at by itself
                self.assertEqual(file.describe(0).origins, default._replace(**{field: "own"}))
                self.assertEqual(file.describe(1).origins, own._replace(**{field: "default"}))

    def test_dimensions(self):
        def dims(general, own):
            file = edf.File(self.general("DataType = UnsignedByte ; " + general) + self.data(1, own) + self.data(2, ""))
            return file.describe(1).dims, file.describe(1).origins.dims

        self.assertEqual(dims("Dim_1 = 2 ;", "Dim_2 = 3 ;"), ((2, 3), "general"))
        self.assertEqual(dims("Dim_2 = 3 ;", "Dim_1 = 2 ;"), ((2, 3), "own"))
        self.assertEqual(dims("Dim_2 = 3 ;", "Dim_3 = 2 ;"), ((0,), "default"))

    def test_written(self):
        d = edf.File(edf.write(b"\1\2", "", "UnsignedByte", [2])).describe(0)
        self.assertEqual(d.origins, edf.Origins(*["own"] * 7)._replace(compression="default", orientation="default", offset="default"))
        self.assertIn("origins=Origins(data_type='own', byte_order='own', compression='default', dims='own', ", repr(d))


class Reals(unittest.TestCase):
    """Keywords as real numbers."""

    @staticmethod
    def real(written):
        return edf.File(("{ w = %s ;" % written).ljust(510).encode("ascii") + b"}\n").real(0, "W")

    def test_forms_and_units(self):
        for written, value, unit in (("32.5_deg", 32.5, "deg"), ("9.82514_m", 9.82514, "m"), ("-1.5_rad", -1.5, "rad"),
                                     ("9.90376e-11", 9.90376e-11, None), ("0.000343", 0.000343, None), (".5", 0.5, None),
                                     ("5.e1_m", 50.0, "m"), ("+1e+5", 1e5, None), ("10e22", 1e23, None), ("0.1e23", 1e22, None),
                                     ("9007199254740992e-22", 9007199254740992e-22, None)):
            self.assertEqual(self.real(written), edf.Real(value, unit), written)
            self.assertEqual(float(self.real(written)), value, written)
        for written, sign in (("-0", -1.0), ("-.0_deg", -1.0), ("0", 1.0), ("+0e5_m", 1.0)):
            real = self.real(written)
            self.assertEqual((real.value, math.copysign(1.0, real.value)), (0.0, sign), written)

    def test_values_are_those_of_python(self):
        for digits in (0, 1, 3, 7, 123456789, 4503599627370497, 8999999999999999, 9007199254740991, 9007199254740992):
            for power in range(-22, 23):
                written = "-%de%d" % (digits, power)
                self.assertEqual(self.real(written + "_m").value.hex(), float(written).hex(), written)

    def test_a_number_and_its_unit(self):
        with edf.open(fixture("fabio_hdr_saxs.edf")) as file:
            distance, wavelength = file.real(0, "SampleDistance"), file.real(0, b"wave length")
            self.assertEqual((distance.value, distance.unit, float(distance)), (9.82514, "m", 9.82514))
            self.assertEqual(repr(distance), "Real(value=9.82514, unit='m')")
            self.assertEqual(repr(wavelength), "Real(value=9.90376e-11, unit=None)")
            value, unit = wavelength
            self.assertEqual((value, unit), (9.90376e-11, None))
            self.assertEqual(pickle.loads(pickle.dumps(distance)), distance)
        with self.assertRaises(ValueError):
            file.real(0, "WaveLength")

    def test_refusals(self):
        def error(call):
            with self.assertRaises(edf.EdfError) as caught:
                call()
            return caught.exception.code, caught.exception.position

        for written in ("", ".", ".e1", "1e", "1E5", "1_M", "1_mm", "1_", "1m", "1 _m", "inf", "nan", "1e9223372036854775808"):
            self.assertEqual(error(lambda: self.real(written)), (edf.Code.BAD_NUMBER, 0), written)
        for written in ("1e23", "0e23", "1.5e-22", "9007199254740993", "1e9223372036854775807"):
            self.assertEqual(error(lambda: self.real(written)), (edf.Code.OUT_OF_BOUNDS, 0), written)
        self.assertEqual(error(lambda: edf.open(fixture("raster_7.edf")).real(0, "WaveLength")), (edf.Code.NOT_FOUND, 0))

    def test_angles(self):
        for real in (edf.Real(180.0, "deg"), edf.Real(math.pi, "rad")):
            self.assertEqual((real.radians, real.degrees), (math.pi, 180.0))
        self.assertEqual((self.real("32.5_deg").degrees, self.real("32.5_rad").radians), (32.5, 32.5))
        self.assertEqual(self.real("32.5_deg").radians, math.radians(32.5))
        self.assertEqual(self.real("32.5_rad").degrees, math.degrees(32.5))

    def test_no_angles(self):
        for real in (self.real("1_m"), self.real("1")):
            for name in ("radians", "degrees"):
                with self.assertRaises(ValueError) as caught:
                    getattr(real, name)
                self.assertEqual(str(caught.exception), "%r is no angle: its unit is neither deg nor rad" % (real,))

    def test_general_header(self):
        def block(statements):
            return ("{ " + statements).ljust(510).encode("ascii") + b"}\n"

        file = edf.File(block("EDF_DataFormatVersion = 2.42 ; EDF_DataBlocks = 2 ; WaveLength = 1.5e-10_m ;")
                        + block("EDF_DataBlockID = 1.Image.Psd ; EDF_BinarySize = 0 ; WaveLength = 2_m ;")
                        + block("EDF_DataBlockID = 2.Image.Psd ; EDF_BinarySize = 0 ;"))
        self.assertEqual([file.real(number, "wavelength").value for number in range(3)], [1.5e-10, 2.0, 1.5e-10])


class Arrays(unittest.TestCase):
    def test_bytes_without_numpy(self):
        with without_numpy(), edf.open(fixture("raster_7.edf")) as file:
            expected = b"".join(n.to_bytes(2, sys.byteorder) for n in (1, 2, 3, 4, 5, 6))
            self.assertEqual(file.array(0), expected)
            self.assertIsInstance(file.array(0), bytes)
            for out in (bytearray(12), []):
                with self.assertRaises(ValueError) as caught:
                    file.array(0, out=out)
                self.assertIn("numpy is not installed", str(caught.exception))

    def test_read_into(self):
        with edf.open(fixture("raster_7.edf")) as file:
            out = bytearray(b"\x09" * 14)
            self.assertEqual(file.read_into(0, out, "HighByteFirst"), 12)
            self.assertEqual(out, b"\0\1\0\2\0\3\0\4\0\5\0\6\x09\x09")
            with self.assertRaises(edf.EdfError) as caught:
                file.read_into(0, bytearray(11))
            self.assertEqual(caught.exception.code, edf.Code.BUFFER_TOO_SMALL)
            with self.assertRaises(ValueError):
                file.read_into(0, out, "MiddleByteFirst")

    def test_read_into_the_file_itself(self):
        with open(fixture("raster_7.edf"), "rb") as stream:
            data = bytearray(stream.read())
        before = bytes(data)
        with edf.File(data) as file:
            for out in (data, memoryview(data)[:12], memoryview(data)[-12:]):
                with self.assertRaises(ValueError) as caught:
                    file.read_into(0, out)
                self.assertEqual(str(caught.exception), "the array would be written over the bytes of its file")
        self.assertEqual(data, before)

    def test_value_offset_below_zero(self):
        file = edf.File(b"{ Size = 2 ; DataType = SignedByte ; Dim_1 = 2 ; DataValueOffset = -3 ;".ljust(510) + b"}\n\x05\x80")
        origins = ("own", "default", "default", "own", "default", "default", "own")
        self.assertEqual(file.describe(0), ("SignedByte", "HighByteFirst", "None", (2,), 1, 1, -3, origins))
        self.assertEqual(bytes(file.array(0)), b"\x02\x80")

    def test_empty_array(self):
        body = b"{\nSize = 0 ;\n"
        file = edf.File(body + b" " * (510 - len(body)) + b"}\n")
        self.assertEqual((file.describe(0).dims, set(file.describe(0).origins)), ((0,), {"default"}))
        with without_numpy():
            self.assertEqual(file.array(0), b"")
        self.assertEqual(len(file.array(0)), 0)

    def test_numpy_is_not_imported_before_it_is_needed(self):
        code = "import sys, edf; edf.open(sys.argv[1]).header(0); print('numpy' in sys.modules)"
        here = os.path.dirname(os.path.abspath(__file__))
        printed = subprocess.check_output([sys.executable, "-c", code, fixture("raster_7.edf")], cwd=here)
        self.assertEqual(printed.strip(), b"False")

    @with_numpy
    def test_numpy_array(self):
        with edf.open(fixture("raster_7.edf")) as file:
            array = file.array(0)
        self.assertEqual(array.dtype, numpy.dtype("uint16"))
        self.assertEqual(array.tolist(), [[1, 2, 3], [4, 5, 6]])
        with edf.open(fixture("silx_3d_uint16.edf")) as file:
            array = file.array(0)
            self.assertEqual(array.shape, (2, 3, 4))
            self.assertEqual(array[1, 2, 3], file.pixel(0, 3, 2, 1))
            self.assertEqual(file.pixel(numpy.int64(0), numpy.int64(3), numpy.uint8(2), 1), array[1, 2, 3])

    @with_numpy
    def test_array_into_one_that_is_there(self):
        with edf.open(fixture("raster_7.edf")) as file:
            stack = numpy.full((3, 2, 3), 9, "uint16")
            unaligned = numpy.zeros(13, "uint8")[1:].view("uint16").reshape(2, 3)
            for out in (numpy.zeros((2, 3), "uint16"), stack[1], unaligned, numpy.zeros((1, 2, 3), "uint16")[0]):
                self.assertIs(file.array(0, out=out), out)
                self.assertEqual(out.tolist(), [[1, 2, 3], [4, 5, 6]])
            self.assertEqual([stack[0].tolist(), stack[2].tolist()], [[[9, 9, 9]] * 2] * 2)
            read_only = numpy.zeros((2, 3), "uint16")
            read_only.flags.writeable = False
            wrong = {"shape": numpy.zeros((3, 2), "uint16"), "more": numpy.zeros((3, 3), "uint16"), "dims": numpy.zeros(6, "uint16"),
                     "dtype": numpy.zeros((2, 3), "int16"), "width": numpy.zeros((2, 3), "uint32"),
                     "byte order": numpy.zeros((2, 3), numpy.dtype("uint16").newbyteorder()),
                     "turned": numpy.zeros((3, 2), "uint16").T, "scattered": numpy.zeros((2, 6), "uint16")[:, ::2],
                     "read-only": read_only}
            for name, out in wrong.items():
                with self.assertRaises(ValueError, msg=name) as caught:
                    file.array(0, out=out)
                self.assertEqual(str(caught.exception), "out must be a numpy array of shape (2, 3), type u2 and this machine's byte "
                                 "order, C-contiguous and writable", name)
                self.assertFalse(out.any(), name)
            for out in (bytearray(12), [[0] * 3] * 2, "uint16", 0):
                self.assertRaises(ValueError, file.array, 0, out)
        with self.assertRaises(ValueError):
            file.array(0, out=stack[0])
        with edf.open(fixture("order_unknown.edf")) as refused, self.assertRaises(edf.EdfError):
            refused.array(0, out=stack[0])
        self.assertEqual(stack[0].tolist(), [[9, 9, 9]] * 2)

    @with_numpy
    def test_array_into_one_of_each_type(self):
        for letter in "BbHhIifQqd":
            for shape in ((5,), (3, 5), (2, 3, 5)):
                array = (numpy.arange(numpy.prod(shape)) * 7 - 20).astype(letter).reshape(shape)
                out = numpy.zeros(shape, letter)
                self.assertIs(edf.File(edf.write(array)).array(0, out=out), out)
                self.assertTrue((out == array).all(), (letter, shape))
        file = edf.File(b"{\nSize = 0 ;\n".ljust(510) + b"}\n")
        out = numpy.zeros(0, file.array(0).dtype)
        self.assertIs(file.array(0, out=out), out)

    @with_numpy
    def test_array_into_the_file_itself(self):
        data = bytearray(edf.write(numpy.arange(6, dtype="uint8")))
        with self.assertRaises(ValueError) as caught:
            edf.File(data).array(0, out=numpy.frombuffer(data, "uint8", 6, 512))
        self.assertEqual(str(caught.exception), "the array would be written over the bytes of its file")

    @with_numpy
    def test_read_into_a_stack(self):
        with edf.open(fixture("fabio_multi_10.edf")) as file:
            stack = numpy.zeros((len(file), 4, 6), "uint16")
            for block in range(len(file)):
                file.read_into(block, stack[block])
            self.assertTrue(all((stack[block] == file.array(block)).all() for block in range(len(file))))
            with self.assertRaises((TypeError, ValueError)):
                file.read_into(0, stack[0].T)


class Reading(unittest.TestCase):
    """edf.read: the array of a file by its path, which is that of the same bytes in memory."""

    def setUp(self):
        self.folder = tempfile.TemporaryDirectory()
        self.addCleanup(self.folder.cleanup)
        self.path = os.path.join(self.folder.name, "image.edf")

    def write(self, data):
        with open(self.path, "wb") as stream:
            stream.write(data)
        return self.path

    def both(self, path, block):
        """What `read` answers, without numpy too; which is what is answered for the bytes of the file in memory."""
        data = pathlib.Path(path).read_bytes()
        with without_numpy():
            expected = answer(lambda p: edf.File(data).array(block), path)
            self.assertEqual(answer(lambda p: edf.read(p, block), path), expected, (path, block))
        given = answer(lambda p: edf.read(p, block), path)
        if numpy and not isinstance(given, tuple):
            array = edf.File(data).array(block)
            self.assertEqual((given.dtype, given.shape, given.tobytes()), (array.dtype, array.shape, array.tobytes()), (path, block))
            self.assertTrue(given.flags.writeable and given.flags.aligned and given.flags.c_contiguous)
            given = given.tobytes()
        self.assertEqual(given, expected, (path, block))
        return given

    def test_fixtures(self):
        arrays = sum(isinstance(self.both(path, block), bytes) for path in fixtures() for block in (0, 1, 9, 10))
        self.assertGreater(arrays, 25)

    @with_numpy
    def test_types_orders_and_configurations(self):
        for letter in "BbHhIifQqd":
            array = (numpy.arange(2 * 3 * 5) * 7 - 20).astype(letter).reshape(2, 3, 5)
            for order in ("HighByteFirst", "LowByteFirst"):
                for configuration in (1, 2, 17, 48):
                    self.write(edf.write(array, byte_order=order, configuration=configuration))
                    self.assertEqual(self.both(self.path, 0), array.tobytes(), (letter, order, configuration))

    @with_numpy
    def test_arrays_are_their_own(self):
        array = numpy.arange(4000, dtype="uint8").reshape(40, 100)
        data = edf.write(array)
        image = edf.read(self.write(data))
        self.assertIsNone(image.base)
        self.write(bytes(len(data)))
        self.assertEqual(image.tolist(), array.tolist())

    def test_headers_that_leave_the_data_unaligned(self):
        header = b"{ EDF_DataFormatVersion = 1.00 ; EDF_DataBlocks = 1 ; EDF_BlockBoundary = 1 ; }\n"
        data = b"{ EDF_DataBlockID = 1.Image.Psd ; EDF_BinarySize = 16 ; DataType = Unsigned64 ; ByteOrder = LowByteFirst ; Dim_1 = 2 ;%s}\n"
        for spaces in range(8):
            self.write(header + data % (b" " * spaces) + bytes(range(16)))
            self.assertEqual(self.both(self.path, 1), bytes(range(16)))

    def test_paths(self):
        expected = bytes(edf.read(fixture("raster_7.edf")))
        for path in (pathlib.Path(fixture("raster_7.edf")), os.fsencode(fixture("raster_7.edf"))):
            self.assertEqual(bytes(edf.read(path)), expected)
        self.assertRaises(FileNotFoundError, edf.read, fixture("no such file"))
        self.assertRaises(IsADirectoryError, edf.read, fixture("."))
        self.assertRaises(ValueError, edf.read, fixture("raster_7.edf\0.edf"))
        self.assertRaises(TypeError, edf.read, 0)
        self.assertRaises(TypeError, edf.read, fixture("raster_7.edf"), "0")

    def test_blocks_that_there_are_not(self):
        for block in (-1, 1, 255, 256, 1 << 64):
            with self.assertRaises(edf.EdfError) as caught:
                edf.read(fixture("raster_7.edf"), block)
            self.assertEqual((caught.exception.code, caught.exception.position), (edf.Code.NOT_FOUND, 0))
            self.assertEqual(answer(lambda path: edf.read(path, block), fixture("nul_in_header.edf"))[0], edf.Code.BAD_HEADER_BYTE)

    def test_empty_files_and_pipes(self):
        self.assertEqual(self.both(self.write(b""), 0), (3, 0))
        with open(fixture("raster_7.edf"), "rb") as stream:
            data = stream.read()
        pipe = os.path.join(self.folder.name, "pipe")
        os.mkfifo(pipe)
        for read in (edf.read, lambda path: edf.open(path).array(0)):
            writer = threading.Thread(target=pathlib.Path(pipe).write_bytes, args=[data])
            writer.start()
            self.assertEqual(bytes(read(pipe)), bytes(edf.File(data).array(0)))
            writer.join()

    def test_a_file_that_is_cut_off(self):
        data = b"{\nDataType = UnsignedByte ;\nDim_1 = 8192 ;\nSize = 8192 ;\n".ljust(510) + b"}\n" + bytes(8192)
        with edf.open(self.write(data)) as file:
            os.truncate(self.path, 600)
            with self.assertRaises(OSError) as caught:
                file.array(0)
        self.assertEqual(caught.exception.errno, errno.EIO)

    def test_descriptors_are_closed(self):
        gc.collect()  # files of other tests
        before = os.listdir("/dev/fd")
        with warnings.catch_warnings(record=True) as warned:
            warnings.simplefilter("always")
            for name in ("raster_7.edf", "fabio_uint16_64x256.edf", "type_unknown.edf", "nul_in_header.edf", "no such file", "."):
                for call in (edf.read, edf.open, lambda path: edf.open(path).close()):
                    try:
                        call(fixture(name))
                    except (edf.EdfError, OSError):
                        pass
        self.assertEqual((os.listdir("/dev/fd"), warned), (before, []))

    def image(self, side, order="<", name="image.edf"):
        """Writes a file with an image of side by side elements of 4 bytes; its path and the image."""
        array = (numpy.arange(side * side, dtype="uint32") * 2654435761 >> 7).astype("uint32").reshape(side, side)
        body = b"{\nDataType = UnsignedInteger ;\nByteOrder = %s ;\nDim_1 = %d ;\nDim_2 = %d ;\nSize = %d ;\n"
        body %= (b"LowByteFirst" if order == "<" else b"HighByteFirst", side, side, array.nbytes)
        path = os.path.join(self.folder.name, name)
        pathlib.Path(path).write_bytes(body.ljust(510) + b"}\n" + array.astype(order + "u4").tobytes())
        return path, array

    @with_numpy
    def test_large_arrays(self):
        for side, order in ((1500, "<"), (1500, ">"), (3000, "<"), (3000, ">")):
            path, array = self.image(side, order)
            self.assertTrue((edf.read(path) == array).all())

    def test_reads_that_give_less_than_is_asked_for(self):
        preadv = os.preadv
        with unittest.mock.patch("os.preadv", side_effect=lambda number, buffers, offset: preadv(number, [buffers[0][:1000]], offset)) as call:
            self.both(fixture("fabio_uint16_64x256.edf"), 0)
        self.assertGreaterEqual(call.call_count, 64 * 256 * 2 // 1000)

    @with_numpy
    def test_large_arrays_in_several_threads(self):
        images = [self.image(side, order, "%d%s" % (side, order)) for side in (500, 1000, 1500) for order in "<>"]
        wrong = []

        def read(first):
            for n in range(12):
                path, array = images[(first + n) % len(images)]
                if not (edf.read(path) == array).all():
                    wrong.append(path)

        threads = [threading.Thread(target=read, args=[first]) for first in range(4)]
        for thread in threads:
            thread.start()
        for thread in threads:
            thread.join()
        self.assertEqual(wrong, [])


class Writing(unittest.TestCase):
    def test_example(self):
        data = edf.write(b"\0\1\0\2\0\3\0\4\0\5\0\6", "x;", "UnsignedShort", (3, 2), configuration=6)
        self.assertEqual(data[512:524], b"\0\3\0\6\0\2\0\5\0\1\0\4")
        with tempfile.NamedTemporaryFile() as stream:
            stream.write(data)
            stream.flush()
            self.assertEqual(listed(stream.name), "blocks 1\n0 0 512 512 1.Image.Psd UnsignedShorto HighByteFirsto 3x2o 6o 1d 0d\n")
        file = edf.File(data)
        self.assertEqual(file.header(0)["title"], "x;")
        self.assertEqual(edf.File(edf.write(b"\1", "", "UnsignedByte", [1], sequence=-5, instance="Error", memory=7)).blocks[0].identity,
                         (-5, "Error", 7))

    def test_bad_arguments(self):
        def code(*arguments, **named):
            with self.assertRaises(edf.EdfError) as caught:
                edf.write(*arguments, **named)
            return caught.exception.code

        bad = edf.Code.BAD_ARGUMENT
        self.assertEqual(code(b"\1", "", "UnsignedByte", [2]), bad)
        self.assertEqual(code(b"\1", "", "UnsignedByte", []), bad)
        self.assertEqual(code(b"\1", "", "UnsignedByte", [1, 1, 1, 1]), bad)
        self.assertEqual(code(b"\1", "", "UnsignedByte", [(1 << 64) + 1]), bad)
        self.assertEqual(code(b"\1", "", "UnsignedByte", [-1]), bad)
        self.assertEqual(code(b"\1", "\x80", "UnsignedByte", [1]), bad)
        self.assertEqual(code(b"\1", "", "UnsignedByte", [1], configuration=(1 << 32) + 1), bad)
        self.assertEqual(code(b"\1", "", "UnsignedByte", [1], sequence=1 << 63), bad)
        self.assertEqual(code(b"\1", "", "UnsignedByte", [1], memory=0), bad)
        self.assertEqual(code(b"\1", "", "UnsignedByte", [1], memory=(1 << 64) + 1), bad)
        self.assertEqual(code(b"\1", "x" * 1024, "UnsignedByte", [1]), edf.Code.TEXT_TOO_LONG)
        self.assertRaises(ValueError, edf.write, b"\1", "", "UnsignedBits", [1])
        self.assertRaises(ValueError, edf.write, b"\1", "", "UnsignedByte", [1], instance="Pds")
        self.assertRaises(TypeError, edf.write, b"\1")

    def test_text_forms(self):
        for text in ("", "x;", '"', "\\", " a ", "\r\n", "{}"):
            self.assertEqual(edf.unescape(edf.escape(text)), text)
        self.assertEqual(edf.escape("x;"), '"x\\:"')
        self.assertEqual(edf.unescape(" a\\:b "), "a;b")
        self.assertRaises(edf.EdfError, edf.escape, "x" * 1024)
        self.assertRaises(edf.EdfError, edf.unescape, "{")

    @with_numpy
    def test_numpy_round_trip(self):
        for letter in "BbHhIifQqd":
            for shape in ((5,), (3, 5), (2, 3, 5)):
                for byte_order in ("HighByteFirst", "LowByteFirst"):
                    array = (numpy.arange(numpy.prod(shape)) * 7 - 20).astype(letter).reshape(shape)
                    for source in (array, array.astype(array.dtype.newbyteorder())):
                        data = edf.write(source, byte_order=byte_order, configuration=2)
                        again = edf.File(data).array(0)
                        self.assertEqual((again.dtype, again.shape), (array.dtype, array.shape))
                        self.assertTrue((again == array).all())
        self.assertRaises(TypeError, edf.write, numpy.zeros(3, "complex64"))
        turned = numpy.arange(6, dtype="uint16").reshape(2, 3).T
        self.assertTrue((edf.File(edf.write(turned)).array(0) == turned).all())


if __name__ == "__main__":
    unittest.main()
