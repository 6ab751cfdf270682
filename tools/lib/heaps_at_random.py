"""Processes that share a segment and take and give back blocks of a heap in it at random, for tools/checks/memory.py. The heap is a list of
units, free or not (tools/lib/heaps.py); beside it stands for each heap which of its units are taken.
"""
import heaps
from calls_at_random import DATA, FRONT, NAMES, SHARED, TEXTS, Sharer


def units_in(offset, size):
    """The units of a block."""
    return range(offset // heaps.UNIT, offset // heaps.UNIT + heaps.rounded(size))


class Heaper(Sharer):
    """A process with a heap that others have, too. Some also keep heaps in segments of their own."""

    # A put among the control words makes most heaps bad, so there are few of these.
    SPOILS = 0.01

    def __init__(self, dice, machine, pid):
        super().__init__(dice, machine, pid)
        self.actions, self.blocks = 200, []

    # What a step does.

    def heap(self, selector):
        """The segment that a heap may lie in, which the step needs then, or None."""
        hold = self.under(selector)
        if not hold or hold.kind != "data":
            return None
        self.touched.append(hold.segment)
        return hold.segment

    def sub_set(self, selector, flags, size):
        heap = self.heap(selector)
        error = heaps.sub_set(heap.bytes, flags, size) if heap else 315
        if flags == 1 and not error:
            heap.taken = set()
        self.back("DosSubSet", f"{selector:04X} {flags:04X} {size:04X}", error)

    def sub_alloc(self, selector, other, at, size):
        put, heap = self.pointer(other, at, 2, True), self.heap(selector)
        error, offset = heaps.sub_alloc(heap.bytes, size) if heap else (315, 0)
        if not error:
            self.takes(heap, units_in(offset, size))
            self.blocks.append((selector, offset, size))
            self.write_over(self.under(other).segment, put, at, offset.to_bytes(2, "little"))
        self.back("DosSubAlloc", f"{selector:04X} {other:04X}:{at:04X} {size:04X}", error, f"{offset:04X}")

    def sub_free(self, selector, offset, size):
        heap = self.heap(selector)
        error = heaps.sub_free(heap.bytes, offset, size) if heap else 315
        if not error and heap.taken is not None:
            self.machine.goes_well &= heap.taken.issuperset(units_in(offset, size))
            heap.taken -= set(units_in(offset, size))
        self.back("DosSubFree", f"{selector:04X} {offset:04X} {size:04X}", error)

    def takes(self, heap, units):
        """Nobody has taken these units of a heap of which only calls have written the control words."""
        if heap.taken is not None:
            self.machine.goes_well &= heap.taken.isdisjoint(units)
            heap.taken |= set(units)

    def write_over(self, segment, held, at, piece):
        """Writes bytes that may be control words: then nothing is known of what is taken, up to the next new heap."""
        before = heaps.units_of(held)
        held[at : at + len(piece)] = piece
        if segment.taken is not None and heaps.units_of(held) != before:
            segment.taken = None

    def put(self, at, byte):
        segment = self.byte(self.es, at, True)
        self.write_over(segment, segment.bytes, at, bytes([byte]))

    # What is chosen.

    def choices(self):
        if SHARED not in self.held:
            return [self.choose_join]
        calls = [self.choose_sub_alloc] * 6 + [self.choose_sub_free] * 4 + [self.choose_sub_set]
        return [*calls, self.choose_load, self.choose_put, self.choose_add, self.choose_write, self.choose_null, self.choose_more, self.choose_longer]

    def choose_join(self):
        """Makes the shared segment, or gets it where it is made; who comes too early is told so."""
        name, selector = NAMES[0], 8 * TEXTS + 7
        if self.pid == 1 and self.dice.random() < 0.5:
            size = self.heap_size()
            self.call(12, lambda: self.name_segment(size, selector, self.where(name), 8 * DATA + 7, 0), size, selector, self.where(name), 8 * DATA + 7, 0)
        elif self.pid == 1:
            size = self.heap_size()
            self.call(5, lambda: self.alloc(size, 8 * DATA + 7, 0, 3), size, 8 * DATA + 7, 0, 3)
        elif self.machine.named(name.lower()):
            self.call(13, lambda: self.get_named(selector, self.where(name), 8 * DATA + 7, 0), selector, self.where(name), 8 * DATA + 7, 0)
        else:
            self.call(15, lambda: self.get(8 * SHARED + 7), 8 * SHARED + 7)

    def heap_size(self):
        return self.dice.choice([64, 67, 200, 500, 1000, self.dice.randint(12, 3000), 8000])

    def some_heap(self):
        return self.any([*[SHARED] * 8, *self.made("data")])

    def length(self, selector):
        hold = self.under(selector)
        return len(hold.segment.bytes) if hold else 64

    def is_bad(self, selector):
        hold = self.under(selector)
        return bool(hold) and heaps.units_of(hold.segment.bytes) is None

    def choose_sub_set(self, selector=None):
        dice, selector = self.dice, selector or self.some_heap()
        flags = 1 if self.is_bad(selector) else dice.choice([0, 0, 0, 0, 0, 0, 1, 2, 0xFFFF])
        length = self.length(selector) % 65536
        size = dice.choice([length, length, dice.randint(0, length), min(length + dice.randrange(6), 65535), dice.randrange(16)])
        self.call(20, lambda: self.sub_set(selector, flags, size), selector, flags, size)

    def choose_sub_alloc(self):
        dice, selector = self.dice, self.some_heap()
        if self.is_bad(selector) and dice.random() < 0.7:
            self.choose_sub_set(selector)
            return
        other, at = self.target(2)
        size = dice.choice([4, dice.randint(1, 9), dice.randint(1, 40), dice.randint(1, max(1, self.length(selector) // 4)), dice.randrange(65536) if dice.random() < 0.2 else 8])
        self.call(21, lambda: self.sub_alloc(selector, other, at, size), selector, other, at, size)

    def choose_sub_free(self):
        """Gives back a block or a part of one, mostly one of those that the process has; by chance it keeps it in mind all the same."""
        dice = self.dice
        if not self.blocks or dice.random() < 0.05:
            selector = self.some_heap()
            offset, size = dice.randrange(self.length(selector)) // dice.choice([1, 4, 4]) * 4 % 65536, dice.randrange(12)
        else:
            block = dice.choice(self.blocks)
            if dice.random() < 0.9:
                self.blocks.remove(block)
            selector, offset, size = block
            if size > 4 and dice.random() < 0.2:
                front = 4 * dice.randint(1, (size - 1) // 4)
                # one part is given back, and the other one kept
                parts = [(selector, offset, front), (selector, offset + front, size - front)]
                (_, offset, size), kept = dice.sample(parts, 2)
                self.blocks.append(kept)
        self.call(22, lambda: self.sub_free(selector, offset, size), selector, offset, size)

    def target(self, count):
        """A pointer for a value: into the program's data, or by chance anywhere."""
        if self.dice.random() < self.SPOILS:
            return super().target(count)
        return 8 * DATA + 7, self.dice.randrange(FRONT - count + 1)

    def choose_put(self):
        """A byte goes into a block that is taken, or by chance anywhere."""
        hold = self.under(self.es)
        units = heaps.units_of(hold.segment.bytes) if hold and hold.kind == "data" else None
        taken = [place for place, is_free in enumerate(units or ()) if place >= 2 and not is_free]
        if not taken or self.dice.random() < self.SPOILS:
            super().choose_put()
            return
        at, byte = heaps.UNIT * self.dice.choice(taken) + self.dice.randrange(heaps.UNIT), self.dice.randrange(256)
        self.emit("26C606" + self.word(at) + f"{byte:02X}", lambda: self.put(at, byte))

    def choose_more(self):
        """A segment of the process's own."""
        size, (selector, at) = self.dice.choice([12, 64, 300, 5000, 20000]), self.target(2)
        self.call(5, lambda: self.alloc(size, selector, at, 0), size, selector, at, 0)

    def choose_longer(self):
        """The shared segment becomes longer, so that its heap may reach further."""
        size = min(self.length(8 * SHARED + 7) + self.dice.randrange(40), 8000)
        self.call(6, lambda: self.realloc(size, 8 * SHARED + 7), size, 8 * SHARED + 7)
