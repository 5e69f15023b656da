"""How long Python takes to read files of this format: fabio, numpy by hand, and this library through bindings/python/edf.py, on the
same files, in one run, in turns; the best of many. What they read is compared first. Prints tables, and the limits with the rows
above them.

fabio is the reader that this field uses. "numpy" is what one writes with numpy alone: it reads the first header, takes from it how
the pixels are stored, then numpy.fromfile, the bytes in this machine's order and the array in raster configuration 1. It checks
next to nothing. "fromfile" is the same for one who knows already where the pixels are and how they are stored: it does not read the
header. "edf" is edf.read. Each answers an array of its own, in this machine's byte order; but for the table of arrays that are there
already, into which all put their pixels."""

import os
import random
import shutil
import sys
import tempfile
import time

here = os.path.dirname(os.path.abspath(__file__))
sys.path.insert(0, os.path.join(here, "..", "bindings", "python"))

import logging  # noqa: E402

import edf  # noqa: E402
import fabio  # noqa: E402
import numpy  # noqa: E402

logging.disable(logging.CRITICAL)
READERS = ("fabio", "numpy", "fromfile")

# What is limited, as this library's time divided by another reader's: the limit, and name and ratio of each row.
limits = {"fabio": (1.0, []), "numpy, but for plain moves": (1.0, []), "fromfile, plain moves": (1.2, [])}


def best(calls):
    """The least time of each call in ms, over turns in which each is made four times in a row, the first of which is not counted: it
    finds the memory as another one left it. Each turn has an order of its own: at least 8 turns, and for three seconds."""
    least, turns, end = [float("inf")] * len(calls), 0, time.perf_counter() + 3
    order, numbers = random.Random(1), list(range(len(calls)))
    while turns < 8 or time.perf_counter() < end:
        turns += 1
        order.shuffle(numbers)
        for n in numbers:
            for repeat in range(4):
                start = time.perf_counter()
                result = calls[n]()
                took = time.perf_counter() - start
                del result
                least[n] = min(least[n], took) if repeat else least[n]
    return [1000 * t for t in least]


def row(name, others, own):
    """Prints a row: the times of other readers, None where there is none, this library's, and the ratios to it."""
    times = ["%.3f" % t if t is not None else "-" for t in others + [own]]
    ratios = ["%.2f" % (t / own) if t is not None else "-" for t in others]
    print("| " + " | ".join([name] + times + ratios) + " |", flush=True)


def judge(what, name, other, own):
    """Notes the ratio of a row that is limited."""
    if other is not None:
        limits[what][1].append((own / other, name))


def judgement():
    print("| edf / | limit | highest | rows | above the limit |\n|---|---|---|---|---|")
    for what, (limit, rows) in limits.items():
        above = ["%s: %.2f" % (name, ratio) for ratio, name in rows if ratio > limit]
        print("| %s | %.1f | %.2f | %d | %s |" % (what, limit, max(rows)[0], len(rows), "; ".join(above) or "none"))


def header(statements):
    """A header of a file without EDF_ keys, filled up to a multiple of 512."""
    body = "{\n" + "".join("%s = %s ;\n" % statement for statement in statements)
    return body.encode("ascii") + b" " * (-(len(body) + 2) % 512) + b"}\n"


KINDS = {"UnsignedByte": "u1", "UnsignedShort": "u2", "SignedShort": "i2", "UnsignedInteger": "u4", "SignedInteger": "i4",
         "Unsigned64": "u8", "FloatIEEE32": "f4", "FloatIEEE64": "f8"}

# ---- numpy alone


def first_header(stream):
    """The keywords of the first header of a file, and where its data starts."""
    text = more = stream.read(4096)
    while more and b"}\n" not in text:
        more = stream.read(4096)
        text += more
    end = text.index(b"}\n")
    keywords = {}
    for statement in text[text.index(b"{") + 1 : end].decode("ascii").split(";"):
        key, equals, value = statement.partition("=")
        if equals:
            keywords[key.strip()] = value.strip()
    return keywords, end + 2


def delivered(array, configuration=1, offset=0):
    """An array as it is stored, in this machine's byte order, in raster configuration 1 and with a value offset added."""
    if configuration in (2, 4):
        array = array[:, ::-1]
    if configuration in (3, 4):
        array = array[::-1]
    if configuration == 6:  # (2,-1)
        array = array[::-1].T
    array = numpy.ascontiguousarray(array, array.dtype.newbyteorder("="))
    if offset:
        wide = array.astype("i8") + offset
        limits = numpy.iinfo(array.dtype)
        array = numpy.clip(wide, limits.min, limits.max).astype(array.dtype)
    return array


def numpy_alone(path):
    """The array of the first block of a file."""
    with open(path, "rb", buffering=0) as stream:
        keywords, start = first_header(stream)
        stored = numpy.dtype(("<" if keywords["ByteOrder"] == "LowByteFirst" else ">") + KINDS[keywords["DataType"]])
        width, height = int(keywords["Dim_1"]), int(keywords["Dim_2"])
        stream.seek(start)
        array = numpy.fromfile(stream, stored, width * height).reshape(height, width)
    return delivered(array, int(keywords.get("DataRasterConfiguration", 1)), int(keywords.get("DataValueOffset", 0)))


# ---- One image


def stored_image(path, data_type, low_first, configuration=1, offset=0, side=2048):
    """Writes a file of one image of side by side elements: its numpy type, and where its data starts."""
    stored = numpy.dtype(("<" if low_first else ">") + KINDS[data_type])
    statements = [("ByteOrder", "LowByteFirst" if low_first else "HighByteFirst"), ("DataType", data_type), ("Dim_1", side),
                  ("Dim_2", side), ("Size", side * side * stored.itemsize)]
    if configuration != 1:
        statements.append(("DataRasterConfiguration", configuration))
    if offset:
        statements.append(("DataValueOffset", offset))
    start = header(statements)
    with open(path, "wb") as stream:
        stream.write(start)
        numpy.random.default_rng(1).integers(0, 200, (side, side)).astype(stored).tofile(stream)
    return stored, len(start)


def one_image(folder, data_type, low_first, configuration=1, offset=0, side=2048):
    """A row: reading an image of side by side elements from its path."""
    path = os.path.join(folder, "image.edf")
    stored, start = stored_image(path, data_type, low_first, configuration, offset, side)

    def by_fabio():
        return fabio.open(path).data

    def by_numpy():
        return numpy_alone(path)

    def by_fromfile():
        return delivered(numpy.fromfile(path, stored, side * side, offset=start).reshape(side, side), configuration, offset)

    def by_edf():
        return edf.read(path)

    plain = configuration == 1 and not offset
    moves = plain and (stored.isnative or stored.itemsize == 1)
    expected = by_fromfile()
    assert (by_edf() == expected).all() and by_edf().dtype == expected.dtype
    assert (by_numpy() == expected).all() and by_numpy().dtype == expected.dtype
    assert not plain or (by_fabio() == expected).all()
    readers = {"fabio": by_fabio, "numpy": by_numpy, "fromfile": by_fromfile, "edf": by_edf}
    if not plain:
        del readers["fabio"]
    times = dict(zip(readers, best(list(readers.values()))))
    name = "%s, %s" % (data_type, "low byte first" if low_first else "high byte first")
    name += ", configuration %d" % configuration if configuration != 1 else ""
    name += ", offset %d" % offset if offset else ""
    row(name, [times.get(reader) for reader in READERS], times["edf"])
    judge("fabio", name, times.get("fabio"), times["edf"])
    if moves:
        judge("fromfile, plain moves", name, times["fromfile"], times["edf"])
    else:
        judge("numpy, but for plain moves", name, times["numpy"], times["edf"])
    os.remove(path)


def images(folder):
    print("| reading an image of 2,048 by 2,048 | %s | edf ms | %s |" % (" | ".join(reader + " ms" for reader in READERS),
                                                                       " | ".join(reader + " / edf" for reader in READERS)))
    print("|---" * (2 * len(READERS) + 2) + "|")
    for data_type in KINDS:
        for low_first in (True, False):
            one_image(folder, data_type, low_first)
    one_image(folder, "UnsignedByte", True, 3)
    for configuration in (2, 3, 4, 6):
        one_image(folder, "UnsignedShort", True, configuration)
    one_image(folder, "UnsignedShort", True, 1, 10)
    print("\nfabio does not undo raster configurations and does not add value offsets: `-`.\n")


# ---- An array that is there


def image_into(folder, side, low_first):
    """A row: reading an image of side by side elements of two bytes into a new array, and into one that is there already."""
    path = os.path.join(folder, "image.edf")
    stored, start = stored_image(path, "UnsignedShort", low_first, side=side)
    out = numpy.zeros((side, side), stored.newbyteorder("="))

    def by_readinto():
        with open(path, "rb", buffering=0) as stream:
            stream.seek(start)
            stream.readinto(out)
        return out if stored.isnative else out.byteswap(inplace=True)

    def by_edf():
        with edf.open(path) as file:
            return file.array(0)

    def by_edf_out():
        with edf.open(path) as file:
            return file.array(0, out=out)

    expected = by_edf()
    for call in (by_readinto, by_edf_out):
        out[:] = 0
        assert (call() == expected).all()
    del expected
    *others, own = best([by_readinto, by_edf, by_edf_out])
    row("%d MiB, %s" % (out.nbytes >> 20, "low byte first" if low_first else "high byte first"), others, own)
    os.remove(path)


def arrays_that_are_there(folder):
    print("| reading UnsignedShort into an array that is there | readinto ms | edf, new array ms | edf, out= ms | readinto / out= "
          "| new array / out= |\n|---|---|---|---|---|---|")
    for side in (2048, 4096, 8192):
        for low_first in (True, False):
            image_into(folder, side, low_first)
    print()


# ---- Many frames


def many_frames(folder, frames, keywords, side):
    """Rows: opening a file of several frames, reading all its keywords, one frame, all frames."""
    path = os.path.join(folder, "frames.edf")
    size = side * side * 2
    fixed = [("ByteOrder", "LowByteFirst"), ("DataType", "UnsignedShort"), ("Dim_1", side), ("Dim_2", side), ("Size", size)]
    others = [("Keyword_%d" % n, "some value %d" % (37 * n)) for n in range(keywords - len(fixed) - 1)]
    rng = numpy.random.default_rng(2)
    with open(path, "wb") as stream:
        for frame in range(frames):
            stream.write(header([("Frame", frame)] + fixed + others))
            rng.integers(0, 60000, side * side).astype("<u2").tofile(stream)

    def fabio_frames():
        with fabio.open(path) as file:
            return [file.get_frame(n).data for n in range(file.nframes)]

    def edf_frames():
        with edf.open(path) as file:
            return [file.array(n) for n in range(len(file))]

    def fabio_headers():
        with fabio.open(path) as file:
            return [dict(file.get_frame(n).header) for n in range(file.nframes)]

    def edf_headers():
        with edf.open(path) as file:
            return [dict(file.header(n)) for n in range(len(file))]

    def fabio_open():
        with fabio.open(path) as file:
            return file.nframes

    def edf_open():
        with edf.open(path) as file:
            return len(file)

    def fabio_last():
        with fabio.open(path) as file:
            return file.get_frame(frames - 1).data

    def edf_last():
        with edf.open(path) as file:
            return file.array(frames - 1)

    assert fabio_open() == edf_open() == frames
    assert (fabio_last() == edf_last()).all()
    assert all((one == other).all() for one, other in zip(fabio_frames(), edf_frames()))
    for one, other in zip(fabio_headers(), edf_headers()):
        assert all(one[key] == other[key] for key in other), (one, other)
    about = "%d frame%s of %d by %d, %d keywords each: " % (frames, "s" if frames > 1 else "", side, side, keywords)
    for name, calls in (("open", (fabio_open, edf_open)), ("all keywords", (fabio_headers, edf_headers)),
                        ("the last image", (fabio_last, edf_last)), ("all images", (fabio_frames, edf_frames))):
        theirs, own = best(calls)
        row(about + name, [theirs], own)
        judge("fabio", about + name, theirs, own)
    os.remove(path)


def main():
    folder = tempfile.mkdtemp()
    try:
        print("fabio %s, numpy %s, Python %s\n" % (fabio.version, numpy.__version__, sys.version.split()[0]))
        images(folder)
        arrays_that_are_there(folder)
        print("| files of several frames | fabio ms | edf ms | fabio / edf |\n|---|---|---|---|")
        for frames in (1, 16, 256):
            for keywords in (10, 60):
                many_frames(folder, frames, keywords, 256)
        many_frames(folder, 16, 10, 2048)
    finally:
        shutil.rmtree(folder)
    print()
    judgement()


main()
