#!/usr/bin/env python3
"""Writes segmented executables at the limits of the format, each with the parts that cost a reader most.

KIND is one of
  names      a library with SIZE exported names of three bytes, which refers to itself by 65,535 imports by name
  twice      SIZE names of one byte, as the resident and as the nonresident table at once
  twin       the same in a program, of one segment
  fronts     SIZE names of twelve bytes of which the first nine are the same, as both tables at once
  ordinals   SIZE segments that share the records of 65,535 imports by ordinal, of a module with a name of 255 bytes
  shared     SIZE segments that share the records of 65,535 imports by name, over 8,000 names
  astride    SIZE segments, the bytes and the records of each 16 bytes after those of the one before it in the file, so that
             they meet and no two have the same: some 59,000 imports by name each
  apart      the same segments, each before those that lie before it in the file
  lost       the same again, with one record that leads nowhere: the first in the file, which the last segment alone has
  services   the same with imports of a service by its name, one of which the services haven't
  entries    SIZE such segments, of which each record leads to one of 21,000 entries of the library itself
  fixups     56 segments whose records, all of them system fixups, lie at each place of the file but every eighth: the most records
             that a file can have
  program    a program of SIZE segments that share 65,535 records, each to the program itself
"""
import os
import random
import struct
import sys

sys.dont_write_bytecode = True
sys.path[:0] = [os.path.join(os.path.dirname(os.path.realpath(__file__)), "..", room) for room in ("lib", ".")]
import command

MOST = 4_194_304
NE = 64
BYTES = [b for b in range(1, 256) if not 65 <= b <= 90 and b not in (10, 13)]


def three(n):
    """The n-th name of three bytes, none of which an ASCII fold changes."""
    base = len(BYTES)
    return bytes([BYTES[n % base], BYTES[n // base % base], BYTES[n // base // base]])


def counted(text):
    return bytes([len(text)]) + text


def table(own, names):
    """A name table: the module's name with ordinal 0, and the others, each with ordinal 1."""
    rows = [counted(own) + b"\0\0"] + [counted(text) + b"\1\0" for text in names]
    return b"".join(rows) + b"\0"


def bundles(count, last):
    """An entry table: ordinals 1 to `count`, a multiple of 255, and the ordinal `last`, all of segment 1."""
    dense = b"".join(b"\xff\1" + b"\1\0\0" * 255 for _ in range(count // 255))
    skipped = last - 1 - count
    return dense + b"\xff\0" * (skipped // 255) + bytes([skipped % 255, 0]) + b"\1\1\1\0\0\0"


def build(own, names, imported, records, segments, twice=False, program=False, step=0, falling=False, entries=bytes([1, 1, 1, 0, 0, 0])):
    """A library, or a program whose last segment is its stack: with these entries, `segments` segments with the same records,
    or each with those `step` units of 16 bytes after the one before it, or before it where they are falling, and a reference to
    the first imported name."""
    at = 64
    parts = b""
    places = {}
    tables = (
        ("references", struct.pack("<H", 0)),
        ("entries", entries),
        ("imported", b"".join(counted(text) for text in imported)),
        ("resident", table(own, names)),
    )
    # the longest last, since each begins at most 65,535 bytes after the header
    for name, content in (("segments", b"\0" * (8 * segments)), *sorted(tables, key=lambda part: len(part[1]))):
        places[name] = at + len(parts)
        parts += content
    end = NE + at + len(parts)
    shift = 4 if step else 9
    start = (end + (1 << shift) - 1) >> shift
    data = 0x100 if program else 0x101
    begins = [start + step * k for k in range(segments)]
    rows = [struct.pack("<HHHH", begin, 0, data, 0) for begin in (begins[::-1] if falling else begins)]
    rows[-1] = rows[-1][:4] + struct.pack("<HH", 0x101, 0)
    header = bytearray(64)
    header[0:2] = b"NE"
    words = {
        4: places["entries"], 6: len(entries), 12: 0 if program else 0x8000, 28: segments, 30: 1, 34: places["segments"],
        38: places["resident"], 40: places["references"], 42: places["imported"], 50: shift,
    }
    if program:
        words.update({22: 1, 26: segments, 30: 0})
    for offset, word in words.items():
        struct.pack_into("<H", header, offset, word)
    header[54] = 1
    if twice:
        struct.pack_into("<H", header, 32, 1)
        struct.pack_into("<I", header, 44, NE + places["resident"] + len(own) + 3)
    mz = bytearray(64)
    mz[0:2] = b"MZ"
    struct.pack_into("<I", mz, 60, NE)
    file = bytearray(bytes(mz) + bytes(header) + b"".join(rows) + parts[8 * segments:])
    file += b"\0" * ((start << shift) - end) + b"\x90" * 65536
    count = struct.pack("<H", len(records) - 2 * step * (segments - 1))
    file += count + b"".join(records)
    # where segments meet, the count of each lies in a record of those before it, as the name that it imports
    for k in range(1, segments if step else 0):
        at = (start << shift) + 16 * step * k + 65536
        file[at:at + 2] = count
    return bytes(file)


def fixups(own):
    """A library of eight groups of segments. The records of a group begin at places 7 to 1 of eight bytes, so that each byte of the file is
    the source of one, the kind of another, and part of five more. A group ends before the next begins, so that no record meets the word
    with their number."""
    count = 0xFF03
    groups = 8
    rows = 7 * groups
    head = build(own, [], [own], [], rows)
    begin = (len(head) - 65538 + 1023) // 64 * 64
    file = bytearray(head[:begin - 512] + b"\3" * (MOST - begin + 512))
    table = NE + 64
    place = begin
    for group in range(groups):
        for row in range(7):
            first = place + 7 * (row + 1)
            at = (first - 3) // 64
            length = first - 2 - 64 * at
            flags = 0x100
            struct.pack_into("<HHHH", file, table + 8 * (7 * group + row), at, length, flags, length)
            struct.pack_into("<H", file, first - 2, count)
        place += 56 + 8 * count
    struct.pack_into("<H", file, NE + 50, 6)
    return bytes(file)


def record(kind, place, second):
    """An import of the first reference that patches one byte."""
    return struct.pack("<BBHHH", 0, kind, place, 1, second)


def make(kind, size, number):
    own = b"LIB%02d" % number
    if kind == "names":
        names = [three(n) for n in range(size)]
        random.Random(24).shuffle(names)
        asked = names[-8000:]
        starts = [1 + len(own) + 4 * k for k in range(len(asked))]
        records = [record(2, place, starts[place % len(starts)]) for place in range(65535)]
        return build(own, names, [own] + asked, records, 1)
    if kind in ("twice", "twin"):
        names = [bytes([BYTES[n % len(BYTES)]]) for n in range(size)]
        return build(own, names, [own], [], 1, twice=True, program=kind == "twin")
    if kind == "fronts":
        names = [b"exports__" + three(n) for n in range(size)]
        random.Random(24).shuffle(names)
        return build(own, names, [own], [], 1, twice=True)
    if kind == "program":
        return build(own, [], [own], [struct.pack("<BBHHH", 0, 0, place, 1, 0) for place in range(65535)], size, program=True)
    if kind == "ordinals":
        own = b"%02d" % number + b"L" * 253
        return build(own, [], [own], [record(1, place, 1) for place in range(65535)], size)
    if kind == "fixups":
        return fixups(own)
    if kind == "services":
        # the service that is found last, by each of the names
        names = [b"DosMemAvai_"] + [b"DosMemAvail"] * 5_400
        starts = [1 + len("DOSCALLS") + 12 * k for k in range(len(names))]
        records = [record(2, n % 65536, starts[1 + n % (len(names) - 1)]) for n in range(starts[-1] + 2 * (size - 1))]
        records[0] = record(2, 0, starts[0])
        return build(own, [], [b"DOSCALLS"] + names, records, size, step=1, falling=True)
    if kind == "entries":
        count, dense, some = 65_000, 21_165, random.Random(24)
        ordinals = [some.randrange(1, dense + 1) for _ in range(count + 2 * (size - 1))]
        records = [struct.pack("<BBHHH", 0, 0, n % 65536, 255, ordinal) for n, ordinal in enumerate(ordinals)]
        return build(own, [], [own], records, size, step=1, entries=bundles(dense, count))
    meet = kind in ("astride", "apart", "lost")
    names = [three(n) for n in range(14_800 if meet else 8000)]
    random.Random(24).shuffle(names)
    starts = [1 + len(own) + 4 * k for k in range(len(names))]
    if meet:
        count = starts[-1]
        used = starts[1:] if kind == "lost" else starts
        records = [record(2, n % 65536, used[n % len(used)]) for n in range(count + 2 * (size - 1))]
        if kind == "lost":
            records[0] = record(2, 0, starts[0])
        return build(own, names[1:] if kind == "lost" else names, [own] + names, records, size, step=1, falling=kind != "astride")
    records = [record(2, place, starts[place % len(starts)]) for place in range(65535)]
    return build(own, names, [own] + names, records, size)


DEFAULT = {
    "names": 590_000, "twice": 1_000_000, "twin": 1_000_000, "fronts": 270_000, "ordinals": 254, "shared": 254, "astride": 254,
    "apart": 254, "lost": 254, "services": 254, "entries": 254, "fixups": 56, "program": 254,
}


def main():
    words = command.parser("tools/make/limits.py", __doc__)
    words.add_argument("kind", metavar="KIND", choices=DEFAULT, help="one of those above")
    words.add_argument("file", metavar="FILE", help="what is written")
    words.add_argument("size", metavar="SIZE", nargs="?", type=command.number(1, MOST), help="how much of it there is; where it isn't given, nearly as much as can be")
    words.add_argument("number", metavar="NUMBER", nargs="?", type=command.number(0, 99), default=0, help="makes the module's name another one, so that up to 64 of them can be listed together")
    given = words.parse_args()
    file = make(given.kind, given.size or DEFAULT[given.kind], given.number)
    if len(file) > MOST:
        return f"{len(file)} bytes are more than {MOST}"
    try:
        with open(given.file, "wb") as out:
            out.write(file)
    except OSError as error:
        return f"{given.file}: {error.strerror}"
    return 0


if __name__ == "__main__":
    command.end(main)
