#!/usr/bin/env python3
"""Makes a segmented executable (NE) for OS/2 of object files in Intel's and Microsoft's object module format (OMF), as
nasm -f obj writes them.

Segments of one name and class that are public follow one another, and the segments of a group make one segment of the
executable. The group DGROUP is the automatic data segment; without one it is the only segment of data. Data outside of it is far
data: segments of their own, which the program reaches by their selectors. A segment of the kind `stack` is no bytes of the file: its length is
the stack's, unless --stack gives another. The classes that end in CODE are code.

A name that no object has is an import: by the record that nasm writes for `import NAME MODULE [ORDINAL]`, or from DOSCALLS by its name where
that begins with Dos. MODULE is FILE's name in capitals where -m gives none.

Refused by name: 32-bit segments, libraries, common variables, near calls into another segment, and kinds of records and fixups that
aren't in the list above.
"""
import os
import struct
import sys

sys.dont_write_bytecode = True
sys.path.insert(0, os.path.join(os.path.dirname(os.path.realpath(__file__)), "lib"))
import command
import ne
from ne import Refused, must

THEADR, COMENT, MODEND, EXTDEF, PUBDEF, LINNUM, LNAMES = 0x80, 0x88, 0x8A, 0x8C, 0x90, 0x94, 0x96
SEGDEF, GRPDEF, FIXUPP, LEDATA, LIDATA, COMDEF = 0x98, 0x9A, 0x9C, 0xA0, 0xA2, 0xB0
LEXTDEF, LPUBDEF, LCOMDEF, LHEADR = 0xB4, 0xB6, 0xB8, 0x82
# classes of segments that only a debugger reads
DEBUG = ("DWARF", "DEBSYM", "DEBTYP")
WIDTH = {0: 1, 1: 2, 2: 2, 3: 4, 5: 2}


class Reader:
    """The fields of a record, from its front to its end."""

    def __init__(self, data):
        self.data, self.at = data, 0

    def more(self):
        return self.at < len(self.data)

    def take(self, count):
        must(self.at + count <= len(self.data), "a record ends early")
        self.at += count
        return self.data[self.at - count : self.at]

    def byte(self):
        return self.take(1)[0]

    def word(self):
        return struct.unpack("<H", self.take(2))[0]

    def index(self):
        first = self.byte()
        return first if first < 128 else (first & 127) << 8 | self.byte()

    def text(self):
        return self.take(self.byte()).decode("latin-1")


class Piece:
    """A segment of one object file, and where it comes to lie."""

    def __init__(self, name, kind, combine, align, length):
        self.name, self.kind, self.combine, self.align, self.length = name, kind, combine, align, length
        self.bytes = bytearray(length)
        self.filled = 0
        self.fixups = []
        self.group, self.segment, self.base = None, None, 0

    def is_code(self):
        return self.kind.upper().endswith("CODE")


class Object:
    """What the records of one object file say."""

    def __init__(self, path, content):
        self.path = path
        self.names, self.pieces, self.groups, self.externals = [""], [None], [None], [None]
        self.publics, self.imports, self.exports, self.start = {}, {}, [], None
        self.threads = {}
        self.last, self.in_debug = None, False
        self.locals = {}
        must(content, "the file is empty")
        must(content[0] != 0xF0, "this is a library; give the object files")
        must(content[0] in (THEADR, LHEADR), "this is no object file in OMF (nasm -f obj makes one)")
        at, is_over = 0, False
        while at < len(content) and not is_over:
            must(at + 3 <= len(content), f"the file ends in a record, at {at:X}h")
            kind, length = content[at], struct.unpack_from("<H", content, at + 1)[0]
            must(length >= 1 and at + 3 + length <= len(content), f"the file ends in a record, at {at:X}h")
            try:
                is_over = self.record(kind, Reader(content[at + 3 : at + 2 + length]))
            except Refused as why:
                raise Refused(f"record {kind:02X} at {at:X}h: {why}") from None
            at += 3 + length
        must(is_over, "the file has no end record")

    def item(self, items, index, what):
        must(1 <= index < len(items), f"there is no {what} {index}")
        return items[index]

    def record(self, kind, reader):
        """Reads one record, and returns whether it is the last."""
        base = kind & 0xFE if kind not in (THEADR, LHEADR) else kind
        readers = {LNAMES: self.lnames, SEGDEF: self.segdef, GRPDEF: self.grpdef, EXTDEF: self.extdef, PUBDEF: self.pubdef,
                   LEDATA: self.ledata, LIDATA: self.lidata, FIXUPP: self.fixupp, COMENT: self.coment, LEXTDEF: self.extdef,
                   LPUBDEF: self.lpubdef}
        if base in (MODEND,):
            self.modend(kind, reader)
            return True
        must(base not in (COMDEF, LCOMDEF), "common variables aren't linked here")
        must(base in readers or base in (THEADR, LHEADR, LINNUM), "records of this kind aren't linked here")
        if base in readers:
            must(kind == base or base in (SEGDEF, PUBDEF, LEDATA, LIDATA, FIXUPP, LEXTDEF, LPUBDEF), "records of this kind aren't linked here")
            wide = kind != base and base not in (LEXTDEF, LPUBDEF)
            if base == SEGDEF:
                self.segdef(reader, wide)
            elif base in (LEDATA, LIDATA, FIXUPP) and self.is_passed(base, reader):
                return False
            else:
                must(not wide, "this is 32-bit code: give each segment the word use16")
                readers[base](reader)
        return False

    def lnames(self, reader):
        while reader.more():
            self.names.append(reader.text())

    def segdef(self, reader, wide):
        attributes = reader.byte()
        align, combine = attributes >> 5, attributes >> 2 & 7
        must(align != 0, "a segment at an absolute address")
        length = reader.word() + (65536 if attributes & 2 else 0)
        if wide:
            length += reader.word() << 16
        name, kind = self.item(self.names, reader.index(), "name"), self.item(self.names, reader.index(), "name")
        if kind.upper() in DEBUG:
            # what only a debugger reads
            self.pieces.append(Piece(name, kind, None, 1, 0))
            return
        must(not wide and not attributes & 1, f"segment {name} is 32-bit code or data: give each segment the word use16")
        steps = {1: 1, 2: 2, 3: 16, 4: 256, 5: 4}
        must(align in steps, "a segment of an unknown alignment")
        must(combine in (0, 2, 4, 5, 7), f"segment {name} is combined in a way that isn't linked here")
        must(length <= 65536, f"segment {name} has more than 65,536 bytes")
        self.pieces.append(Piece(name, kind, combine, steps[align], length))

    def is_passed(self, base, reader):
        """Whether these bytes, or this fixup of the last bytes, are of a segment that only a debugger reads."""
        if base != FIXUPP:
            piece = self.item(self.pieces, reader.index(), "segment")
            reader.at = 0
            self.in_debug = piece.combine is None
        return self.in_debug

    def grpdef(self, reader):
        name, members = self.item(self.names, reader.index(), "name"), []
        while reader.more():
            must(reader.byte() == 0xFF, "a group has segments alone here")
            members.append(self.item(self.pieces, reader.index(), "segment"))
        for piece in members:
            must(piece.group in (None, name), f"segment {piece.name} is in two groups")
            piece.group = name
        self.groups.append((name, members))

    def extdef(self, reader):
        while reader.more():
            self.externals.append(reader.text())
            reader.index()

    def lpubdef(self, reader):
        self.pubdef(reader, self.locals)

    def pubdef(self, reader, into=None):
        into = self.publics if into is None else into
        group, segment = reader.index(), reader.index()
        if segment == 0:
            reader.word()
        while reader.more():
            name, offset = reader.text(), reader.word()
            reader.index()
            must(segment != 0, f"{name} is a number, and not a place in a segment")
            into[name] = (self.item(self.pieces, segment, "segment"), offset)

    def data(self, piece, offset, content):
        must(offset + len(content) <= piece.length, f"bytes past the end of segment {piece.name}")
        piece.bytes[offset : offset + len(content)] = content
        piece.filled = max(piece.filled, offset + len(content))
        self.last = (piece, offset, len(content))

    def ledata(self, reader):
        piece, offset = self.item(self.pieces, reader.index(), "segment"), reader.word()
        self.data(piece, offset, reader.data[reader.at :])

    def lidata(self, reader):
        piece, offset = self.item(self.pieces, reader.index(), "segment"), reader.word()
        content = b""
        while reader.more():
            content += self.repeated(reader, 0)
            must(len(content) <= 65536, "more than 65,536 repeated bytes")
        self.data(piece, offset, content)
        self.last = None

    def repeated(self, reader, depth):
        must(depth < 17, "repeated bytes in more than 17 levels")
        count, blocks = reader.word(), reader.word()
        content = b"".join(self.repeated(reader, depth + 1) for _ in range(blocks)) if blocks else reader.take(reader.byte())
        must(count * len(content) <= 65536, "more than 65,536 repeated bytes")
        return content * count

    def fixupp(self, reader):
        while reader.more():
            first = reader.byte()
            if not first & 0x80:
                self.thread(first, reader)
                continue
            must(self.last, "a fixup that belongs to no bytes")
            piece, offset, length = self.last
            place = (first & 3) << 8 | reader.byte()
            location, is_relative = first >> 2 & 15, not first & 0x40
            must(location in WIDTH, f"a fixup of kind {location}, which isn't linked here")
            must(place + WIDTH[location] <= length, "a fixup outside its bytes")
            target, added = self.target(reader)
            piece.fixups.append((offset + place, location, is_relative, target, added))

    def thread(self, first, reader):
        method = first >> 2 & 7
        is_frame = bool(first & 0x40)
        must(method <= (5 if is_frame else 2), "a thread of an unknown method")
        index = reader.index() if not is_frame or method < 3 else 0
        self.threads[is_frame, first & 3] = (method, index)

    def target(self, reader):
        """A fixup's or a start's target, as a piece or the name of an external, and what is added to it. Each segment's frame is that of the executable's
        segment in which it comes to lie, so the frame is passed."""
        flags = reader.byte()
        if flags & 0x80:
            must((True, flags >> 4 & 3) in self.threads, "a thread that isn't there")
        else:
            method = flags >> 4 & 7
            must(method <= 5, "a frame of an unknown method")
            if method < 3:
                reader.index()
        if flags & 8:
            must((False, flags & 3) in self.threads, "a thread that isn't there")
            method, index = self.threads[False, flags & 3]
        else:
            method, index = flags & 3, reader.index()
        added = reader.word() if not flags & 4 else 0
        if method == 0:
            return self.item(self.pieces, index, "segment"), added
        if method == 1:
            return self.item(self.groups, index, "group"), added
        must(method == 2, "a target of an unknown method")
        return self.item(self.externals, index, "external name"), added

    def coment(self, reader):
        reader.byte()
        if reader.byte() != 0xA0:
            return
        kind = reader.byte()
        if kind == 1:
            by_ordinal, inner, module = reader.byte(), reader.text(), reader.text()
            self.imports[inner] = f"{module}.{reader.word()}" if by_ordinal else f"{module}.{reader.text() or inner}"
        elif kind == 2:
            flags, outer, inner = reader.byte(), reader.text(), reader.text()
            must(not flags & 0x80 or reader.word() == len(self.exports) + 1, f"{outer} is exported by an ordinal out of order")
            self.exports.append((outer, inner or outer))

    def modend(self, kind, reader):
        must(kind == MODEND, "this is 32-bit code: give each segment the word use16")
        if reader.byte() & 0x40:
            self.start = self.target(reader)


class Linker:
    def __init__(self, objects):
        self.objects = objects
        self.publics, self.imports, self.groups = {}, {}, {}
        for it in objects:
            for name, where in it.publics.items():
                must(name not in self.publics, f"{it.path}: {name} is defined twice")
                self.publics[name] = where
            self.imports.update(it.imports)
        self.stacks = [piece for it in objects for piece in it.pieces[1:] if piece.combine == 5]
        self.parts = []

    def lay(self):
        """Puts the segments of the objects together: a list of names with the pieces that follow one another."""
        parts = {}
        for it in self.objects:
            for k, piece in enumerate(it.pieces[1:]):
                if piece.combine in (5, None) or (not piece.length and not piece.group):
                    continue
                key = ("group", piece.group) if piece.group else ("segment", piece.name, piece.kind.upper())
                if not piece.group and piece.combine == 0:
                    key += (it.path, k)
                parts.setdefault(key, []).append(piece)
        for key, pieces in parts.items():
            if key[0] == "group":
                names = list(dict.fromkeys((p.name, p.kind.upper()) for p in pieces))
                pieces = [p for name in names for p in pieces if (p.name, p.kind.upper()) == name]
                # what has no bytes of its own comes last
                pieces = [p for p in pieces if p.filled] + [p for p in pieces if not p.filled]
            codes = {p.is_code() for p in pieces}
            must(len(codes) <= 1, f"the group {key[1]} has code and data")
            self.parts.append((key[1], pieces, codes == {True}, key[0] == "group"))
        must(self.parts, "there are no segments")
        for number, (name, pieces, _, _) in enumerate(self.parts, 1):
            at = 0
            for piece in pieces:
                at = -(-at // piece.align) * piece.align
                piece.segment, piece.base = number, at
                at += piece.length
            must(at <= 65536, f"segment {name} has {at} bytes, and at most 65,536")

    def automatic(self):
        """The number of the automatic data segment, or 0."""
        groups = [n for n, part in enumerate(self.parts, 1) if part[3] and part[0].upper() == "DGROUP"]
        data = [n for n, part in enumerate(self.parts, 1) if not part[2]]
        if groups:
            return groups[0]
        must(len(data) <= 1, "there are several segments of data: the automatic one is the group DGROUP")
        return data[0] if data else 0

    def where(self, target, it):
        """A target as (segment, offset), or as an import's MODULE.NAME."""
        if isinstance(target, tuple):
            name, members = target
            pieces = [p for p in members if p.segment] or [p for other in self.objects for p in other.pieces[1:] if p.group == name and p.segment]
            must(pieces, f"{it.path}: the group {name} has no bytes")
            return pieces[0].segment, 0
        if isinstance(target, Piece):
            must(target.segment, f"{it.path}: segment {target.name} has no bytes of its own")
            return target.segment, target.base
        if target in it.locals or target in self.publics:
            piece, offset = it.locals.get(target) or self.publics[target]
            must(piece.segment, f"{it.path}: {target} lies in segment {piece.name}, which has no bytes of its own")
            return piece.segment, piece.base + offset
        if target in self.imports:
            return self.imports[target]
        must(target.upper().startswith("DOS"), f"{it.path}: {target} isn't defined in any object")
        return f"DOSCALLS.{target}"

    def link(self, name, stack, heap):
        self.lay()
        module = ne.Module()
        module.name, module.heap = name, heap
        auto = self.automatic()
        given = sum(piece.length for piece in self.stacks)
        module.stack = stack if stack is not None else given
        for number, (part, pieces, is_code, _) in enumerate(self.parts, 1):
            segment = ne.Segment("code" if is_code else "data", ["auto"] if number == auto else [], None)
            whole = pieces[-1].base + pieces[-1].length
            content = bytearray(whole)
            for piece in pieces:
                content[piece.base : piece.base + piece.length] = piece.bytes
            filled = max([piece.base + piece.filled for piece in pieces if piece.filled] or [0])
            segment.size = whole
            segment.bytes = content
            module.segments.append(segment)
            # (the place of a fixup is always filled)
            segment.filled = filled
        if auto:
            for piece in self.stacks:
                # the stack follows the data, so that its names can be used
                piece.segment, piece.base = auto, module.segments[auto - 1].size
        for it in self.objects:
            for piece in it.pieces[1:]:
                for fixup in piece.fixups:
                    self.fix(module, it, piece, *fixup)
        for segment in module.segments:
            segment.bytes = bytes(segment.bytes[: segment.filled])
        starts = [(it, it.start) for it in self.objects if it.start]
        must(len(starts) == 1, "no object has a start (nasm: ..start:)" if not starts else "two objects have a start")
        it, (target, added) = starts[0]
        where = self.where(target, it)
        must(isinstance(where, tuple), f"{it.path}: the start is an import")
        module.start = (where[0], (where[1] + added) % 65536)
        for it in self.objects:
            for outer, inner in it.exports:
                where = self.where(inner, it)
                must(isinstance(where, tuple), f"{it.path}: {outer} is exported and imported")
                module.exports.append((outer, where, False, None))
        module.check()
        return module.file()

    def fix(self, module, it, piece, offset, location, is_relative, target, added):
        where = self.where(target, it)
        segment = module.segments[piece.segment - 1] if piece.segment else None
        must(segment, f"{it.path}: a fixup in the stack segment")
        place = piece.base + offset
        what = target if isinstance(target, str) else target[0] if isinstance(target, tuple) else target.name
        width = WIDTH[location]
        held = int.from_bytes(segment.bytes[place : place + min(width, 2)], "little")
        if is_relative:
            must(location in (0, 1, 5), f"{it.path}: a far call in a form that isn't linked here")
            must(isinstance(where, tuple) and where[0] == piece.segment, f"{it.path}: a near call or jump to {what}, which lies in another segment: make it far")
            value = where[1] + added + held - (place + width)
            if location == 0:
                # a displacement in a byte is read with its sign
                value = where[1] + added + (held ^ 0x80) - 0x80 - (place + 1)
                must(-128 <= value <= 127, f"{it.path}: a short jump to {what} is too long")
            self.store(segment, place, value, width)
        elif isinstance(where, tuple):
            value = (where[1] + added + held) % 65536
            if location in (1, 5):
                self.store(segment, place, value, 2)
            elif location == 0:
                self.store(segment, place, value % 256, 1)
            elif location == 2:
                self.store(segment, place, 0xFFFF, 2)
                module.relocate(place, "selector", str(where[0]), segment)
            else:
                self.store(segment, place, 0xFFFF, 4)
                module.relocate(place, "far", f"{where[0]}:{value:04X}", segment)
        else:
            must(not held and not added, f"{it.path}: a place past {what}, which is an import")
            kind = {0: "byte", 1: "offset", 5: "offset", 2: "selector", 3: "far"}[location]
            self.store(segment, place, 0xFFFF if location else 0, width)
            module.relocate(place, kind, where, segment)

    def store(self, segment, place, value, width):
        segment.bytes[place : place + width] = (value % (1 << 8 * width)).to_bytes(width, "little")


def main():
    words = command.parser("tools/link.py", __doc__)
    words.add_argument("-o", required=True, dest="out", metavar="FILE", help="the executable that is written")
    words.add_argument("-m", dest="module", metavar="MODULE", help="the module's name; FILE's in capitals where it isn't given")
    words.add_argument("--stack", type=command.number(0, 65535), metavar="BYTES", help="the stack, in place of the segments of that kind")
    words.add_argument("--heap", type=command.number(0, 65535), default=0, metavar="BYTES", help="the local heap, 0 where it isn't given")
    words.add_argument("objects", nargs="+", metavar="OBJECT", help="object files")
    given = command.given(words)
    module = given.module or os.path.splitext(os.path.basename(given.out))[0].upper()
    try:
        must(module.isascii() and module.isprintable() and " " not in module, f"{module!r} is no name of a module: give one by -m")
        objects = []
        for path in given.objects:
            try:
                with open(path, "rb") as file:
                    objects.append(Object(path, file.read()))
            except OSError as error:
                raise Refused(f"{path}: {error.strerror}") from None
            except Refused as why:
                raise Refused(f"{path}: {why}") from None
        ne.write(given.out, Linker(objects).link(module, given.stack, given.heap))
    except Refused as why:
        return f"link.py: {why}"
    return 0


if __name__ == "__main__":
    command.end(main)
