"""Core images, as docs/machine.md and crates/o2_dump/README.md have them: bytes from segments, memory and processes, and back."""
import struct

REGISTERS = ("ax", "cx", "dx", "bx", "sp", "bp", "si", "di", "ip", "flags", "cs", "ds", "es", "ss")


def segment(size, kept, place, flags=0, lock=0, clean=0, gone=0, form=2):
    """A segment's entry. Its place is None (zeros), ("image", module, segment), ("memory", base) or ("swap", [(block, bytes), ..]).
    Whether it was discarded stands in images of the second form alone."""
    kind = {None: 0, "image": 1, "memory": 2, "swap": 3}[place and place[0]]
    entry = struct.pack("<IIBBBB", size, kept, flags, lock, clean, kind) + bytes([gone][: form - 1])
    if kind == 1:
        return entry + struct.pack("<HH", *place[1:])
    if kind == 2:
        return entry + struct.pack("<I", place[1])
    if kind == 3:
        return entry + struct.pack("<I", len(place[1])) + b"".join(struct.pack("<I", number) + held for number, held in place[1])
    return entry


def held(index, limit, base, access, number, holds):
    """What a process holds at an index: the descriptor, the segment's number and the number of holds."""
    return struct.pack("<HHHBBHII", index, limit, base & 0xFFFF, base >> 16, access, 0, number, holds)


def process(number, state, code, entries, **registers):
    """A process; state 0 lives, 1 has ended, 2 was ended by an exception. Registers that aren't named are 0."""
    words = [registers.get(name, 0) for name in REGISTERS]
    return struct.pack("<3H14HI", number, state, code, *words, len(entries)) + b"".join(entries)


def image(memory, blocks, segments, processes, steps=0, console=0, form=2):
    head = b"OS2CORE%d" % form + struct.pack("<IIIIQQ", len(memory), blocks, len(segments), len(processes), steps, console)
    return head + b"".join(segments) + memory + b"".join(processes) + b"END!"


def small():
    """The image of examples/small.core: 1,024 bytes of memory with two segments and a gap between them, one in two swap blocks of four,
    one in the image of a module, and one of zeros; one process that lives and one that an exception has ended. It is of the first form."""
    memory = bytes(64) + b"Hello, world\r\n".ljust(32, b"\0") + bytes(160) + bytes(range(256)) + bytes(512)
    segments = [
        segment(25, 25, ("image", 1, 1), 13, 0, 1, form=1),
        segment(20, 20, ("memory", 64), 1, form=1),
        segment(600, 600, ("swap", [(2, b"a" * 512), (0, b"b" * 88 + bytes(424))]), 1, form=1),
        segment(256, 256, ("memory", 256), 1, 2, form=1),
        segment(4096, 0, None, 1, form=1),
    ]
    first = [held(2, 24, 0, 0x7B, 0, 1), held(3, 19, 64, 0xF3, 1, 1), held(4, 599, 0, 0x73, 2, 2), held(5, 255, 256, 0xF3, 3, 1)]
    second = [held(3, 4095, 0, 0x73, 4, 1)]
    return image(memory, 4, segments, [
        process(1, 0, 0, first, ax=1, sp=510, ip=16, flags=2, cs=0x17, ds=0x1F, ss=0x1F),
        process(2, 2, 13, second, ip=7, flags=2, cs=0x17, ds=0x1F, ss=0x1F),
    ], 1000, 28, form=1)


class Refused(Exception):
    """Why a file is no core image, as os2core says it."""


class Entry:
    """A segment of an image that was read. Its place is as `segment` has it, and its bytes are known but where they stay with an image."""

    def __init__(self, size, kept, flags, lock, clean, gone, place, content):
        self.size, self.kept, self.flags, self.lock, self.clean, self.gone, self.place = size, kept, flags, lock, clean, gone, place
        self.bytes = None if content is None else content[:kept] + bytes(size - kept)


class Read:
    """An image, read by the rules of its format; faults come in the order of the bytes."""

    def __init__(self, file):
        self.file, self.at = file, 0
        if file[:8] not in (b"OS2CORE1"[: len(file)], b"OS2CORE2"[: len(file)]):
            raise Refused("it doesn't begin with OS2CORE1 or OS2CORE2")
        self.number(8)
        self.form = file[7] - ord("0")
        size, self.blocks, segments, processes = (self.number(4) for _ in range(4))
        self.steps, self.console = self.number(8), self.number(8)
        self.size, self.ranges, self.used, self.segments, self.blocks_at = size, [], set(), [], []
        for _ in range(segments):
            self.segments.append(self.segment())
        self.memory_at = self.at
        self.memory = self.bytes(size)
        for entry in self.segments:
            if entry.place and entry.place[0] == "memory":
                entry.bytes = self.memory[entry.place[1] :][: entry.size]
        self.processes, last = {}, -1
        for _ in range(processes):
            last = self.process(last)
        self.bad(self.at, self.number(4) != int.from_bytes(b"END!", "little"))
        if self.at < len(file):
            raise Refused(f"it goes on behind its end at {self.at:X}h")

    def bytes(self, count):
        if self.at + count > len(self.file):
            raise Refused(f"it ends at {len(self.file):X}h, within a field")
        self.at += count
        return self.file[self.at - count : self.at]

    def number(self, count):
        return int.from_bytes(self.bytes(count), "little")

    def bad(self, place, is_bad):
        if is_bad:
            raise Refused(f"what begins at {place:X}h is bad")

    def segment(self):
        start = self.at
        size = self.number(4)
        self.bad(start, not 1 <= size <= 65536)
        kept = self.number(4)
        self.bad(start, kept > size)
        flags, lock, clean = self.number(1), self.number(1), self.number(1)
        self.bad(start, clean > 1)
        kind = self.number(1)
        self.bad(start, kind > 3 or kind == 0 and kept > 0 or kind == 2 and kept < size)
        gone = self.number(1) if self.form == 2 else 0
        self.bad(start, gone > 1 or gone == 1 and (kind != 0 or not flags & 4 or lock != 0))
        place, content = None, b""
        if kind == 1:
            place, content = ("image", self.number(2), self.number(2)), None
        elif kind == 2:
            base = self.number(4)
            top = base + (size + 15) // 16 * 16
            self.bad(start, top > self.size or any(base < other_top and other < top for other, other_top in self.ranges))
            self.ranges.append((base, top))
            place = ("memory", base)
        elif kind == 3:
            count = self.number(4)
            self.bad(start, count != (kept + 511) // 512)
            held = [self.block(start) for _ in range(count)]
            place, content = ("swap", held), b"".join(bytes_ for _, bytes_ in held)
        return Entry(size, kept, flags, lock, clean, gone, place, content)

    def block(self, start):
        number = self.number(4)
        self.bad(start, number >= self.blocks or number in self.used)
        self.used.add(number)
        self.blocks_at.append(self.at)
        return number, self.bytes(512)

    def process(self, last):
        """Its state, its code, its registers by name, and by index what it holds: limit, base, access byte, segment and holds."""
        start = self.at
        number = self.number(2)
        self.bad(start, number <= last)
        state = self.number(2)
        self.bad(start, state > 2)
        code = self.number(2)
        registers = {name: self.number(2) for name in REGISTERS}
        entries, before = {}, -1
        for _ in range(self.number(4)):
            start = self.at
            index = self.number(2)
            self.bad(start, index <= before)
            before = index
            limit, base, access = self.number(2), self.number(3), self.number(1)
            self.bad(start, self.number(2) != 0)
            segment = self.number(4)
            self.bad(start, segment >= len(self.segments))
            holds = self.number(4)
            self.bad(start, holds == 0)
            entries[index] = (limit, base, access, segment, holds)
        self.processes[number] = (state, code, registers, entries)
        return number
