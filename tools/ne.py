#!/usr/bin/env python3
"""Makes a segmented executable (NE) for OS/2 from a listing, or from a source for nasm: a file whose name ends in .asm is assembled first.

A listing is read line by line; what follows a `;` is a comment.

    module NAME [library] [single]
                                 the module's name; in a library with single data that data is one for all processes
    stack BYTES, heap BYTES      of the automatic data segment; 0 if the line is missing
    start SEGMENT:OFFSET         where the program begins
    segment N KIND [WORD ..]     a segment, from 1 in order: code, data; words: readonly, shared, auto, size=BYTES
    export NAME SEGMENT:OFFSET [nonresident] [ordinal=N]
                                 an entry, with the next ordinal from 1, or with a higher one
    OOOO  BB BB ..  TEXT [@OOOO KIND TARGET]
                                 bytes at an offset of the segment, which must be the next one, and after two
                                 blanks what they mean; a relocation of the place OOOO:
                                 far, selector, offset or byte, with `add-` before it if it is additive, to
                                 SEGMENT:OFFSET, SEGMENT, ENTRY (as in `entry.2`), MODULE.ORDINAL or MODULE.NAME

A text that is an instruction, or a list of strings and numbers as `'hello', 10`, must be what its bytes are. Other text says what it likes.

A source for nasm, and the listing that `nasm -f bin -l LISTING` makes of it, has the same lines in comments, `;@ module NAME` and so on,
a segment's in front of its `section NAME vstart=0`. A relocation is a comment at the end of its line, `;@+N KIND TARGET`; N counts from the
first byte of the line.

The file is laid out by the format: an MZ stub of 64 bytes, the NE header, the segment table, the resident names, the module
references, the imported names, the entry table, and each segment with its records, at multiples of 16 bytes.
"""
import os
import re
import shutil
import struct
import subprocess
import sys
import tempfile

sys.dont_write_bytecode = True
sys.path.insert(0, os.path.join(os.path.dirname(os.path.realpath(__file__)), "lib"))
import command
import instructions

SOURCES = {"byte": 0, "selector": 2, "far": 3, "offset": 5}
WIDTHS = {0: 1, 2: 2, 3: 4, 5: 2}
LINE = re.compile(r"([0-9A-F]{4})  ((?:[0-9A-F]{2} )*[0-9A-F]{2})(?:  (.*?))?(?:@([0-9A-F]{4}) ([a-z-]+) (\S+))?$")
NASM = re.compile(r" *\d+ (?:([0-9A-F]{8}) ((?:[^\s<]|<[a-z]+ [0-9A-F]+h?>)+) *|\s*)(?:<\d+>)?(.*)$")
PLACE = re.compile(r"(\d{1,3}):([0-9A-Fa-f]{4})$")


class Refused(Exception):
    """Why no executable is made, and the number of the line, where one is to blame."""

    def __init__(self, why, line=None):
        super().__init__(why)
        self.line = line


def must(holds, why):
    if not holds:
        raise Refused(why)


def number(text, most, what):
    must(re.fullmatch(r"[0-9]{1,6}", text) and int(text) <= most, f"{what} is a decimal number up to {most}, and not {text}")
    return int(text)


def name(text):
    must(1 <= len(text) <= 255, "a name has 1 to 255 letters")
    return bytes([len(text)]) + text.encode("ascii")


def place(text):
    found = PLACE.match(text)
    must(found, f"{text} is no SEGMENT:OFFSET, as 1:0000")
    return int(found[1]), int(found[2], 16)


def word(value, what):
    must(0 <= value <= 65535, f"{what} doesn't fit the format: {value} is above 65535")
    return value


class Segment:
    def __init__(self, kind, words, line):
        must(kind in ("code", "data"), f"a segment is code or data, and not {kind}")
        self.is_code, self.line = kind == "code", line
        self.flags = (0 if self.is_code else 1) | 0x0C00
        self.auto, self.size = False, 0
        for it in words:
            if it.startswith("size="):
                self.size = number(it[5:], 65536, "a size")
            else:
                must(it in ("readonly", "shared", "auto"), f"a segment has the words readonly, shared, auto and size=BYTES, and not {it}")
                self.auto = self.auto or it == "auto"
                self.flags |= {"readonly": 0x80, "shared": 0x20, "auto": 0}[it]
        must(not self.auto or not (self.is_code or self.flags & 0x80), "the automatic data segment is data that may be written")
        self.bytes, self.zeros = b"", 0
        self.relocations = []

    def length(self):
        return len(self.bytes) + self.zeros

    def add(self, more):
        self.bytes += bytes(self.zeros) + more
        self.zeros = 0
        must(len(self.bytes) <= 65536, "a segment has at most 65,536 bytes")

    def reserve(self, count):
        self.zeros += count
        must(self.length() <= 65536, "a segment has at most 65,536 bytes")

    def whole(self):
        return max(self.size, self.length())


class Module:
    """An executable to be: what its listing says, or what a linker puts together."""

    def __init__(self):
        self.name, self.library, self.single = None, False, False
        self.stack = self.heap = 0
        self.start, self.start_line = None, None
        self.segments, self.exports, self.modules = [], [], []
        self.ordinals = {}
        self.imported = b"\0"
        self.at = None

    def segment(self):
        must(self.segments, "bytes come after a line of segment")
        return self.segments[-1]

    def string(self, text):
        """The offset of a text in the table of imported names."""
        at = self.imported.find(name(text))
        if at < 0:
            at = len(self.imported)
            self.imported += name(text)
        return word(at, "the table of imported names")

    def relocate(self, at, kind, target, segment=None):
        """Keeps a relocation of the last segment or of the one given; its place and target are looked at when all is read."""
        base = kind[4:] if kind.startswith("add-") else kind
        must(base in SOURCES, f"a relocation is far, selector, offset or byte, or add- and one of these, and not {kind}")
        source, additive = SOURCES[base], 4 if kind.startswith("add-") else 0
        (segment or self.segment()).relocations.append((self.at, source, at, self.target(source, additive, at, target)))

    def target(self, source, additive, at, target):
        if ":" in target:
            segment, offset = place(target)
            return struct.pack("<BBHBBH", source, additive, word(at, "a place"), segment % 256, 0, offset), ("segment", segment)
        if "." not in target:
            segment = number(target, 255, "a relocation's segment")
            return struct.pack("<BBHBBH", source, additive, word(at, "a place"), segment, 0, 0), ("segment", segment)
        module, _, symbol = target.partition(".")
        must(module and symbol, f"{target} is no MODULE.NAME")
        if module == "entry":
            ordinal = number(symbol, 65535, "an entry")
            return struct.pack("<BBHBBH", source, additive, word(at, "a place"), 0xFF, 0, ordinal), ("entry", ordinal)
        if module not in [m for m, _ in self.modules]:
            must(len(self.modules) < 255, "there are at most 255 other modules")
            self.modules.append((module, self.string(module)))
        reference = [m for m, _ in self.modules].index(module) + 1
        if symbol.isdigit():
            return struct.pack("<BBHHH", source, 1 | additive, word(at, "a place"), reference, number(symbol, 65535, "an ordinal")), None
        return struct.pack("<BBHHH", source, 2 | additive, word(at, "a place"), reference, self.string(symbol)), None

    def check(self):
        """What can be told only once all lines are read."""
        must(self.name is not None, "there is no line of module")
        must(self.segments, "there is no segment")
        autos = [segment for segment in self.segments if segment.auto]
        must(autos or not self.single, "single data is an automatic data segment, and there is none")
        if len(autos) > 1:
            raise Refused("there are two automatic data segments", autos[1].line)
        if autos:
            total = autos[0].whole() + self.stack + self.heap
            if total > 65536:
                raise Refused(f"the automatic data segment, stack and heap have {total} bytes together, and at most 65,536", autos[0].line)
        if self.start or not self.library:
            must(self.start, "there is no line of start")
            self.check_code(self.start, self.start_line)
        for text, (segment, _), _, line in self.exports:
            if not 1 <= segment <= len(self.segments):
                raise Refused(f"{text} is in segment {segment}, and there are {len(self.segments)}", line)
        for segment in self.segments:
            for line, source, at, (_, inside) in segment.relocations:
                if at + WIDTHS[source] > len(segment.bytes):
                    raise Refused(f"the relocation's place {at:04X} lies outside the segment's bytes", line)
                if inside and inside[1] not in (range(1, len(self.segments) + 1) if inside[0] == "segment" else self.numbers()):
                    raise Refused(f"the relocation's {inside[0]} {inside[1]} isn't there", line)
            must(len(segment.relocations) <= 65535, "a segment has at most 65,535 relocations")

    def check_code(self, start, line):
        segment, offset = start
        if not 1 <= segment <= len(self.segments):
            raise Refused(f"the start is in segment {segment}, and there are {len(self.segments)}", line)
        if not self.segments[segment - 1].is_code:
            raise Refused(f"the start is in segment {segment}, which is data", line)
        if offset >= self.segments[segment - 1].whole():
            raise Refused(f"the start {offset:04X} lies past the end of segment {segment}", line)

    def numbers(self):
        """The ordinals of the exports: the one that a line gives, or else the next one."""
        numbers, last = [], 0
        for k in range(len(self.exports)):
            last = self.ordinals.get(k, last + 1)
            numbers.append(last)
        return numbers

    def names(self, nonresident):
        """The exported names of one of the two tables, with their ordinals."""
        exports = zip(self.numbers(), self.exports)
        return b"".join(name(text) + struct.pack("<H", word(k, "an ordinal")) for k, (text, _, other, _) in exports if other == nonresident)

    def entries(self):
        """One bundle of a single entry for each export, bundles of ordinals that aren't used in front of it, and the end of the table."""
        table, last = b"", 0
        for ordinal, (_, (segment, offset), _, _) in zip(self.numbers(), self.exports):
            unused = ordinal - last - 1
            table += b"\xff\0" * (unused // 255) + (struct.pack("<BB", unused % 255, 0) if unused % 255 else b"")
            table += struct.pack("<BBBH", 1, segment, 1, offset)
            last = ordinal
        return table + b"\0\0" if self.exports else b""

    def file(self):
        at, shift = 64, 4
        resident = name(self.name) + b"\0\0"
        resident += self.names(False) + b"\0"
        nonresident = self.names(True)
        nonresident = name(self.name) + b"\0\0" + nonresident + b"\0" if nonresident else b""
        entries = self.entries()
        segments_at = 64
        resident_at = segments_at + 8 * len(self.segments)
        references_at = resident_at + len(resident)
        imported_at = references_at + 2 * len(self.modules)
        entries_at = word(imported_at + len(self.imported), "the tables of the header")
        table, body = b"", b""
        nonresident_at = at + entries_at + len(entries)
        body_at = -(-(nonresident_at + len(nonresident)) // 16) * 16
        for segment in self.segments:
            relocations = struct.pack("<H", len(segment.relocations)) + b"".join(it[3][0] for it in segment.relocations)
            flags = segment.flags | (0x100 if segment.relocations else 0)
            where = word((body_at + len(body)) >> shift, "the file") if segment.bytes else 0
            table += struct.pack("<HHHH", where, len(segment.bytes) % 65536, flags, segment.whole() % 65536)
            if segment.bytes:
                body += segment.bytes + (relocations if segment.relocations else b"")
                if segment is not self.segments[-1]:
                    body = body.ljust(-(-len(body) // 16) * 16, b"\0")
        auto = [n for n, segment in enumerate(self.segments, 1) if segment.auto]
        start = self.start or (0, 0)
        header = struct.pack(
            "<2sBBHHI16HI3HBB8s",
            b"NE", 5, 0, entries_at, word(len(entries), "the entry table"), 0,
            ((1 if self.single else 2) if auto else 0) | (0x8000 if self.library else 0),
            auto[0] if auto else 0,
            self.heap, self.stack,
            start[1], start[0],
            0, auto[0] if auto and not self.library else 0,
            len(self.segments), len(self.modules), word(len(nonresident), "the table of nonresident names"),
            segments_at, word(resident_at, "a table"), word(resident_at, "a table"), word(references_at, "a table"), word(imported_at, "a table"),
            nonresident_at if nonresident else 0, 0, shift, 0, 1, 0, bytes(8),
        )
        stub = bytearray(64)
        stub[0:2] = b"MZ"
        struct.pack_into("<I", stub, 0x3C, at)
        references = b"".join(struct.pack("<H", offset) for _, offset in self.modules)
        front = bytes(stub) + header + table + resident + references + self.imported + entries + nonresident
        return front.ljust(body_at, b"\0") + body



class Listing(Module):
    """An executable as a listing has it."""

    def __init__(self, text):
        super().__init__()
        self.in_macro = False
        lines = text.replace("\r", "").split("\n")
        is_nasm = any(re.match(r" *\d+ +;@ ", line) for line in lines)
        for self.at, line in enumerate(lines, 1):
            try:
                self.read_nasm(line) if is_nasm else self.read(line.split(";")[0].rstrip())
            except Refused as why:
                raise Refused(f"{why}: {line.strip()}", self.at) from None
        self.check()

    def read(self, line):
        words = line.split()
        if not words:
            return
        counts = {"module": (2, 4), "stack": (2, 2), "heap": (2, 2), "start": (2, 2), "export": (3, 5), "segment": (3, 9)}
        if words[0] in counts:
            least, most = counts[words[0]]
            must(least <= len(words) <= most, f"a line of {words[0]} has {least - 1} to {most - 1} words after it")
        if words[0] == "module":
            must(self.name is None, "there is a line of module already")
            must(words[2:] in ([], ["library"], ["library", "single"]), f"a module has the words library and single after its name, and not {words[-1]}")
            self.name, self.library, self.single = words[1], "library" in words[2:], "single" in words[2:]
            name(self.name)
        elif words[0] in ("stack", "heap"):
            setattr(self, words[0], number(words[1], 65535, "a size"))
        elif words[0] == "start":
            self.start, self.start_line = place(words[1]), self.at
        elif words[0] == "export":
            after = [word for word in words[3:] if not word.startswith("ordinal=")]
            must(after in ([], ["nonresident"]), f"an export has the words nonresident and ordinal=N after its place, and not {words[-1]}")
            name(words[1])
            for text in words[3:]:
                if text.startswith("ordinal="):
                    ordinal = number(text[8:], 65535, "an ordinal")
                    must(ordinal > max([0, *self.numbers()]), f"ordinals rise, and {ordinal} doesn't")
                    self.ordinals[len(self.exports)] = ordinal
            self.exports.append((words[1], place(words[2]), "nonresident" in words[3:], self.at))
        elif words[0] == "segment":
            following = len(self.segments) + 1
            must(number(words[1], 255, "a segment's number") == following, f"segments come in order, and {following} comes next")
            must(following <= 254, "there are at most 254 segments")
            self.segments.append(Segment(words[2], words[3:], self.at))
        else:
            self.read_bytes(line)

    def add(self, offset, more):
        segment = self.segment()
        must(offset == segment.length(), f"the offset {segment.length():04X} comes next")
        segment.add(more)

    def read_bytes(self, line):
        found = LINE.match(line)
        must(found, "no line of a listing")
        at, code = int(found[1], 16), bytes.fromhex(found[2])
        self.add(at, code)
        why = instructions.differs((found[3] or "").strip(), code, at, self.segments[-1].is_code, bool(found[4]))
        must(not why, why)
        if found[4]:
            self.relocate(int(found[4], 16), found[5], found[6])

    def read_nasm(self, line):
        if "****" in line[:40]:
            must(" error:" not in line, "nasm found an error")
            return
        found = NASM.match(line)
        if not found:
            must(not line.strip(), "no line of a listing of nasm")
            return
        source = found[3]
        if re.match(r"\s*%i?macro\b", source):
            self.in_macro = True
        if self.in_macro:
            # (a macro's own lines; what a call of it makes comes with that call)
            self.in_macro = not re.match(r"\s*%endm(acro)?\b", source)
            return
        note = re.search(r";@(\+(\d{1,5}))? ?(.*)$", source)
        begins = self.segments[-1].length() if self.segments else 0
        if found[1]:
            self.nasm_bytes(int(found[1], 16), found[2])
        if note and note[1]:
            words = note[3].split()
            must(len(words) >= 2, "a relocation is written ;@+N KIND TARGET")
            self.relocate(begins + int(note[2]), words[0], words[1])
        elif note:
            self.read(note[3].split(";")[0].rstrip())

    def nasm_bytes(self, offset, text):
        found = re.fullmatch(r"([0-9A-F\[\]()?]*)(?:<(rep|res) ([0-9A-F]+)h?>)?-?", text)
        must(found, "these bytes can't be read from a listing")
        digits = re.sub(r"[\[\]()]", "", found[1])
        must(len(digits) % 2 == 0, "these bytes can't be read from a listing")
        count = int(found[3], 16) if found[3] else 1
        must(count <= 65536, "a segment has at most 65,536 bytes")
        segment = self.segment()
        must(offset == segment.length(), f"the offset {segment.length():04X} comes next (has each section its line ;@ segment, and vstart=0?)")
        if found[2] == "res" or (digits and set(digits) == {"?"}):
            segment.reserve(count if found[2] == "res" else count * len(digits) // 2)
        else:
            segment.add(bytes.fromhex(digits.replace("?", "0")) * count)


def text_of(path):
    try:
        with open(path, "rb") as file:
            content = file.read()
    except OSError as error:
        raise Refused(error.strerror) from None
    for number_, line in enumerate(content.split(b"\n"), 1):
        if not line.isascii() or b"\0" in line:
            raise Refused("a listing is text of ASCII characters", number_)
    return content.decode("ascii")


def assembled(path):
    """The listing that nasm makes of a source."""
    text_of(path)
    must(shutil.which("nasm"), "a source wants nasm, which isn't installed")
    with tempfile.TemporaryDirectory() as folder:
        listing = os.path.join(folder, "made.lst")
        run = subprocess.run(["nasm", "-f", "bin", "-l", listing, "-o", os.path.join(folder, "made.bin"), path], stdin=subprocess.DEVNULL, stderr=subprocess.PIPE, encoding="latin-1")
        if run.returncode:
            said = re.search(rf"(?m)^{re.escape(path)}:(\d+): (?:error: )?(.*)$", run.stderr)
            raise Refused(f"nasm: {said[2] if said else run.stderr.strip()}", int(said[1]) if said else None)
        return text_of(listing)


def write(path, content):
    try:
        with open(path, "wb") as out:
            out.write(content)
    except OSError as error:
        sys.exit(f"{path}: {error.strerror}")


def main():
    words = command.parser("tools/ne.py", __doc__)
    words.add_argument("listing", metavar="LISTING", help="what is read: a listing, or a source NAME.asm")
    words.add_argument("file", metavar="FILE", help="the executable that is written")
    given = words.parse_args()
    is_source, text = given.listing.endswith(".asm"), None
    try:
        text = (assembled if is_source else text_of)(given.listing)
        content = Listing(text).file()
    except Refused as why:
        line = why.line
        if line and is_source and text:
            # (a line of nasm's listing begins with that of the source)
            found = re.match(r" *(\d+) ", text.split("\n")[line - 1])
            line = int(found[1]) if found else None
        return f"{given.listing}:{line}: {why}" if line else f"{given.listing}: {why}"
    write(given.file, content)
    return 0


if __name__ == "__main__":
    command.end(main)
