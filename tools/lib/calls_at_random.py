"""Programs made at random that call on segments, for tools/check_memory and tools/check_dumps: what each must write, and how much memory
each step needs."""
import ne

CODE, DATA, TEXTS, ENVIRONMENT = 1, 2, 3, 4
SHARED = 4096
STACK, FRONT = 512, 256
RETF = 0xCB
# What LAR tells of a segment that can be written, and of one that can be executed and read.
RIGHTS = {"data": 0xF300, "alias": 0xFB00, "code": 0xFB00}

# Texts by which a segment may be shared, of which some are the same but for capitals; texts that are no names; and one without a zero
# behind it, at the end of its segment.
LONGEST = b"\\SHAREMEM\\" + bytes(range(0x21, 0x7F)) + bytes(range(0x40, 0x58))
NAMES = [b"\\SHAREMEM\\A", b"\\sharemem\\a", b"\\ShareMem\\b.txt", b"\\SHAREMEM\\B.TXT", b"\\SHAREMEM\\@", b"\\SHAREMEM\\`", LONGEST, LONGEST.swapcase()]
NO_NAMES = [b"", b"\\SHAREMEM\\", LONGEST + b"!", b"\\SHAREMEM\\A B", b"\\SHAREMEM\\\x7f", b"\\SHAREMEM\\\xc1", b"\\SHAREMEN\\A", b"SHAREMEM\\A"]
ENDLESS = b"\\SHAREMEM\\C"

# The calls on semaphores by their numbers, of which two have a timeout, and the timeout of one that waits.
SEMAPHORES = {25: "DosSemRequest", 26: "DosSemClear", 27: "DosSemWait", 28: "DosSemSet"}
REQUEST, CLEAR, WAIT, SET = SEMAPHORES
FOREVER = 0xFFFFFFFF


def whole(n):
    """A length in whole paragraphs of 16 bytes."""
    return -(-n // 16) * 16


def name_of(text):
    """The name that a text is, with small letters, or None."""
    front, rest = text[:10].lower(), text[10:]
    is_name = front == b"\\sharemem\\" and 1 <= len(rest) <= 118 and all(0x21 <= byte <= 0x7E for byte in rest)
    return text.lower() if is_name else None


class Segment:
    def __init__(self, content, flags=0, is_code=False):
        """Some bytes, or so many zeros."""
        self.bytes, self.flags, self.is_code = bytearray(content), flags, is_code
        self.lock, self.gone = 1 if flags & 4 else 0, False
        # which units of a heap in it are taken, where that is known
        self.taken = None


class Hold:
    def __init__(self, segment, kind, by_load=False, run=(), count=1):
        """What a process holds; in a run all its indexes, of which the first ones are held."""
        self.segment, self.kind, self.by_load, self.run, self.count = segment, kind, by_load, run, count


class Trap(Exception):
    """The process ends by an exception, 13 where none is given."""


class Waits(Exception):
    """The process waits for a semaphore, of this segment and at this offset: its next step is this one again."""


class Process:
    """A process that is made while it runs: each action is chosen when its first step is due, by what is held then."""

    def __init__(self, dice, machine, pid):
        self.dice, self.machine, self.pid, self.name = dice, machine, pid, f"P{pid}"
        self.code, self.steps, self.live = bytearray(), [], True
        self.texts = [*NAMES, *NO_NAMES]
        dice.shuffle(self.texts)
        self.texts.append(ENDLESS)
        self.held = {
            CODE: Hold(Segment(0, is_code=True), "code", True),
            DATA: Hold(Segment(FRONT + STACK), "data", True),
            TEXTS: Hold(Segment(b"\0".join(self.texts)), "data", True),
            ENVIRONMENT: Hold(Segment(b"\0" + self.name.encode("ascii") + b"\0\0\0"), "data", True),
        }
        self.cs, self.ds, self.es, self.bx, self.ax, self.cx = 8 * CODE + 7, 8 * DATA + 7, 0, 1, 0, 0
        self.actions, self.waits = dice.randint(5, 60), None

    # What a step does. Each adds to `touched` what it needs beside the segment registers, and to `lines` and `piece` what it writes.

    def under(self, selector):
        return self.held.get(selector >> 3) if selector & 4 else None

    def seats(self):
        holds = (self.under(selector) for selector in (self.cs, self.ds, self.es, 8 * DATA + 7))
        return [hold.segment for hold in holds if hold]

    def take(self):
        """Takes the next step."""
        self.touched, self.lines, self.piece, self.waits = [], [], b"", None
        if not self.steps:
            self.choose()
        at, act = self.steps.pop(0)
        try:
            act()
        except Trap as trap:
            self.lines.append(f"{self.pid} end trap {(trap.args or [13])[0]} at {8 * CODE + 7:04X}:{at:04X}")
            self.end()
        except Waits as semaphore:
            self.steps.insert(0, (at, act))
            self.waits = semaphore.args

    def end(self):
        self.live, self.held = False, {}

    def loaded(self, selector):
        """A selector for DS or ES."""
        if selector & 0xFFFC:
            hold = self.under(selector)
            if not hold:
                raise Trap
            if hold.segment.gone:
                raise Trap(11)
            self.touched.append(hold.segment)
        return selector

    def load(self, register, selector):
        setattr(self, register, self.loaded(selector))

    def byte(self, selector, at, writes):
        """The segment of an access to one byte."""
        hold = self.under(selector)
        if not hold or writes and hold.kind != "data" or at >= len(hold.segment.bytes):
            raise Trap
        return hold.segment

    def put(self, at, byte):
        self.byte(self.es, at, True).bytes[at] = byte

    def add(self, at):
        self.bx = self.bx & 0xFF00 | (self.bx + self.byte(self.es, at, False).bytes[at]) & 0xFF

    def count(self, at):
        held = self.byte(self.ds, at, True).bytes
        held[at] = (held[at] + 1) & 0xFF

    def go(self, selector):
        """A far call of an alias, or the way back from it."""
        segment = self.under(selector).segment
        if segment.gone:
            raise Trap(11)
        self.touched.append(segment)
        self.cs = selector

    def tell(self):
        self.bx = (self.bx + self.ax) & 0xFFFF

    def pointer(self, selector, at, count, writes):
        """The bytes behind a pointer of a call."""
        hold = self.under(selector)
        if not hold or hold.segment.gone:
            raise Trap
        self.touched.append(hold.segment)
        if writes and hold.kind != "data" or at + count > len(hold.segment.bytes):
            raise Trap
        return hold.segment.bytes

    def text(self, selector, at):
        """The text behind a pointer, up to its zero; without a zero among its first 129 bytes these."""
        hold = self.under(selector)
        if not hold or hold.segment.gone:
            raise Trap
        self.touched.append(hold.segment)
        front = bytes(hold.segment.bytes[at : at + 129])
        if 0 not in front and len(front) < 129:
            raise Trap
        return front.split(b"\0")[0]

    def back(self, name, shown, error, value=None, moved=()):
        """The lines of a call that comes back; what it moves are holds and drops of an index, of this process or another, in order."""
        self.ax = error
        self.lines.append(f"{self.pid} call {name} {shown} = {error}" + (f" {value}" if value and not error else ""))
        if not error:
            self.lines += [f"{(of or [self.pid])[0]} {what} {8 * index + 7:04X} by {name}" for what, index, *of in moved]

    def free_index(self, shared, count=1):
        """The first of so many indexes in a row that are free."""
        holders = self.machine.modules if shared else [self]
        taken = {i for it in holders for index, hold in it.held.items() for i in (index, *hold.run)}
        first, end = (SHARED, 8192) if shared else (1, SHARED)
        return next((i for i in range(first, end - count + 1) if taken.isdisjoint(range(i, i + count))), None)

    def hold_more(self, index, segment, run=()):
        if index in self.held:
            self.held[index].count += 1
        else:
            self.held[index] = Hold(segment, "data", run=run)

    def members(self, index):
        """The index of a segment alone, or those of all segments that are held of the run of which it is the first; or none."""
        run = self.held[index].run
        return [i for i in run if i in self.held] if run and run[0] == index else [] if run else [index]

    def forget(self, indexes):
        """Selectors in DS and ES of what isn't held any more are 0."""
        self.ds, self.es = (0 if it & 4 and it >> 3 in indexes else it for it in (self.ds, self.es))

    def alloc(self, size, selector, at, flags):
        put = self.pointer(selector, at, 2, True)
        index = self.free_index(flags & 3)
        full = self.machine.is_full() or index is None
        error = 87 if flags > 15 else 8 if full else 0
        value = 8 * (index or 0) + 7
        if not error:
            put[at : at + 2] = value.to_bytes(2, "little")
            self.held[index] = Hold(Segment(size or 65536, flags), "data")
        self.back("DosAllocSeg", f"{size:04X} {selector:04X}:{at:04X} {flags:04X}", error, f"{value:04X}", [("hold", index)])

    def realloc(self, size, selector):
        hold, full = self.under(selector), size or 65536
        shrinks = hold and full < len(hold.segment.bytes)
        refused = not hold or hold.kind != "data" or hold.run or selector >> 3 >= SHARED and shrinks and not hold.segment.flags & 8
        if not refused:
            del hold.segment.bytes[full:]
            hold.segment.bytes.extend(bytes(full - len(hold.segment.bytes)))
            if hold.segment.gone:
                hold.segment.lock, hold.segment.gone = 1, False
        self.back("DosReallocSeg", f"{size:04X} {selector:04X}", 5 if refused else 0)

    def free(self, selector):
        hold, index = self.under(selector), selector >> 3
        error = 5 if not hold or hold.by_load or not self.members(index) else 0
        members = [] if error else self.members(index)
        for i in members:
            self.held[i].count -= 1
            if not self.held[i].count:
                del self.held[i]
                self.forget([i])
        self.back("DosFreeSeg", f"{selector:04X}", error, None, [("drop", i) for i in members])

    def size(self, selector, other, at):
        put, hold = self.pointer(other, at, 4, True), self.under(selector)
        value = len(hold.segment.bytes) if hold else 0
        if hold:
            put[at : at + 4] = value.to_bytes(4, "little")
        self.back("DosSizeSeg", f"{selector:04X} {other:04X}:{at:04X}", 0 if hold else 5, f"{value:08X}")

    def lock(self, selector):
        hold = self.under(selector)
        error = 5 if not hold or not hold.segment.flags & 4 else 157 if hold.segment.gone else 0
        if not error:
            hold.segment.lock = min(hold.segment.lock + 1, 255)
        self.back("DosLockSeg", f"{selector:04X}", error)

    def unlock(self, selector):
        hold = self.under(selector)
        error = 5 if not hold or not hold.segment.flags & 4 else 0 if hold.segment.lock else 158
        if not error and hold.segment.lock < 255:
            hold.segment.lock -= 1
        self.back("DosUnlockSeg", f"{selector:04X}", error)

    def alias(self, selector, other, at):
        put, hold, index = self.pointer(other, at, 2, True), self.under(selector), self.free_index(False)
        error = 5 if not hold or selector >> 3 >= SHARED or hold.kind != "data" or hold.run else 8 if index is None else 0
        value = 8 * (index or 0) + 7
        if not error:
            put[at : at + 2] = value.to_bytes(2, "little")
            self.held[index] = Hold(hold.segment, "alias")
        self.back("DosCreateCSAlias", f"{selector:04X} {other:04X}:{at:04X}", error, f"{value:04X}", [("hold", index)])

    def alloc_huge(self, whole_ones, part, selector, at, most, flags):
        put, sizes = self.pointer(selector, at, 2, True), [65536] * whole_ones + [part] * (part > 0)
        count = max(len(sizes), most)
        index = self.free_index(flags & 3, count)
        wrong = flags > 15 or flags & 4 or not sizes or 0 < most < len(sizes)
        error = 87 if wrong else 8 if index is None or self.machine.left() < len(sizes) else 0
        value = 8 * (index or 0) + 7
        if not error:
            put[at : at + 2] = value.to_bytes(2, "little")
            for k, size in enumerate(sizes):
                self.held[index + k] = Hold(Segment(size, flags), "data", run=range(index, index + count))
        shown = f"{whole_ones:04X} {part:04X} {selector:04X}:{at:04X} {most:04X} {flags:04X}"
        self.back("DosAllocHuge", shown, error, f"{value:04X}", [("hold", (index or 0) + k) for k in range(len(sizes))])

    def realloc_huge(self, whole_ones, part, selector):
        hold, index, sizes = self.under(selector), selector >> 3, [65536] * whole_ones + [part] * (part > 0)
        members = self.members(index) if hold and hold.run else []
        shorter = index >= SHARED and sum(sizes) < sum(len(self.held[i].segment.bytes) for i in members)
        going, new = members[len(sizes) :], range(index + len(members), index + len(sizes))
        used = {self.cs >> 3, DATA} & set(going)
        error = 5 if not members else 87 if not sizes else 8 if len(sizes) > len(hold.run) else 5 if shorter or used else 0
        error = error or 8 * (self.machine.left() < len(new))
        moved = []
        if not error:
            for i, size in zip(members, sizes):
                held = self.held[i].segment.bytes
                del held[size:]
                held.extend(bytes(size - len(held)))
            owners = [it for it in self.machine.modules if it is self or index >= SHARED and index in it.held]
            for i, size in zip(new, sizes[len(members) :]):
                segment = Segment(size, hold.segment.flags)
                for it in owners:
                    it.held[i] = Hold(segment, "data", run=hold.run, count=it.held[index].count)
            moved = [("hold", i, it.pid) for it in owners for i in new for _ in range(it.held[index].count)]
            moved += [("drop", i) for i in going for _ in range(hold.count)]
            for i in going:
                del self.held[i]
            self.forget(going)
        self.back("DosReallocHuge", f"{whole_ones:04X} {part:04X} {selector:04X}", error, None, moved)

    def shift(self, selector, at):
        self.pointer(selector, at, 2, True)[at : at + 2] = (3).to_bytes(2, "little")
        self.back("DosGetHugeShift", f"{selector:04X}:{at:04X}", 0, "0003")

    def semaphore(self, service, selector, at, timeout):
        held = self.pointer(selector, at, 4, True)
        is_clear, has_timeout, shown = not any(held[at : at + 4]), service in (REQUEST, WAIT), f"{selector:04X}:{at:04X}"
        error = 0
        if has_timeout:
            shown += f" {timeout:08X}"
            if not is_clear and timeout == FOREVER:
                raise Waits(self.under(selector).segment, at)
            error = 87 if timeout not in (0, FOREVER) else 0 if is_clear else 121
        if not error and service != WAIT:
            held[at : at + 4] = {REQUEST: self.pid, CLEAR: 0, SET: 0xFFFF}[service].to_bytes(4, "little")
        self.back(SEMAPHORES[service], shown, error)

    def write(self, selector, at, count, other, to):
        piece = bytes(self.pointer(selector, at, count, False)[at : at + count])
        self.pointer(other, to, 2, True)[to : to + 2] = count.to_bytes(2, "little")
        self.piece, self.ax = piece, 0
        self.lines.append(f"{self.pid} call DosWrite 0001 {selector:04X}:{at:04X} {count:04X} {other:04X}:{to:04X} = 0 {count:04X}")

    def exit(self):
        self.lines += [f"{self.pid} call DosExit 0001 {self.bx:04X}", f"{self.pid} end exit {self.bx}"]
        self.end()

    # What is chosen.

    def emit(self, text, act=lambda: None):
        self.steps.append((len(self.code), act))
        self.code += bytes.fromhex(text)

    def word(self, value):
        return value.to_bytes(2, "little").hex()

    def call(self, service, act, *words):
        for value in words:
            self.emit("68" + self.word(value))
        self.emit("9A0000" + self.word(8 * (16 + service) + 3), act)
        self.emit("01C3", self.tell)

    def any(self, indexes):
        """A selector of one of these indexes, with low bits by chance, or one under which nothing may be held."""
        if not indexes or self.dice.random() < 0.08:
            return self.dice.choice([0, 3, 0xA3, 0x23, 8 * self.dice.randrange(5, 10) + 7, 0x8007 + 8 * self.dice.randrange(4)])
        return 8 * self.dice.choice(indexes) + self.dice.choice([7, 7, 7, 4, 5, 6])

    def made(self, *kinds):
        """Indexes that came by calls."""
        return [index for index, hold in self.held.items() if not hold.by_load and hold.kind in (kinds or ("data", "alias"))]

    def room_of(self, selector):
        """How many bytes of a segment are known, and are free for values."""
        hold = self.under(selector)
        return 0 if not hold or hold.segment.is_code else FRONT if hold.segment is self.held[DATA].segment else len(hold.segment.bytes)

    def place(self, selector, count):
        """Where in a segment some bytes may lie; by chance, and where there is no such place, past its end."""
        room = self.room_of(selector)
        if room < count or self.dice.random() < 0.01:
            hold = self.under(selector)
            return (len(hold.segment.bytes) if hold else 0) % 65536
        return self.dice.randrange(room - count + 1)

    def target(self, count):
        """A pointer for a value, mostly into the program's data."""
        made = [index for index in self.made("data") if len(self.held[index].segment.bytes) >= count]
        selector = self.any(made) if made and self.dice.random() < 0.3 else 8 * DATA + 7
        return selector, self.place(selector, count)

    def new_size(self):
        dice = self.dice
        return dice.choice([1, 16, 17, 512, 4096, dice.randint(1, 600), dice.randint(1, 20000), dice.randint(0, 65535), 0])

    def choose(self):
        self.actions -= 1
        if self.actions < 0:
            self.emit("6A01")
            self.emit("53")
            self.emit("9A00008B00", self.exit)
            return
        self.dice.choice(self.choices())()
        if not self.steps:
            self.emit("90")

    def choices(self):
        return [self.choose_alloc, self.choose_alloc, self.choose_realloc, self.choose_free, self.choose_size, self.choose_lock,
                self.choose_unlock, self.choose_alias, self.choose_load, self.choose_load, self.choose_null, self.choose_put,
                self.choose_put, self.choose_add, self.choose_count, self.choose_write, self.choose_go, self.choose_alloc_huge,
                self.choose_realloc_huge, self.choose_realloc_huge, self.choose_shift, self.choose_semaphore]

    def new_flags(self):
        dice = self.dice
        return dice.choice([0, 0, 0, 4, 4, 8, 1, 2, 3, dice.randrange(16), dice.randrange(16, 65536) if dice.random() < 0.2 else 5])

    def choose_alloc(self):
        size, (selector, at), flags = self.new_size(), self.target(2), self.new_flags()
        self.call(5, lambda: self.alloc(size, selector, at, flags), size, selector, at, flags)

    def choose_realloc(self):
        size, selector = self.new_size(), self.any([*self.made(), *self.made(), CODE])
        self.call(6, lambda: self.realloc(size, selector), size, selector)

    def choose_free(self):
        selector = self.any([*self.made(), *self.made(), *self.made(), CODE, DATA, TEXTS, ENVIRONMENT])
        self.call(7, lambda: self.free(selector), selector)

    def new_lengths(self):
        """Full segments, and a part behind them."""
        dice = self.dice
        return dice.choice([0, 0, 1, 1, 2, 3, dice.randrange(65536) if dice.random() < 0.1 else 1]), dice.choice([0, self.new_size()])

    def choose_alloc_huge(self):
        dice, (whole_ones, part), (selector, at) = self.dice, self.new_lengths(), self.target(2)
        count = whole_ones + (part > 0)
        most = dice.choice([0, count, (count + 1) % 65536, (count + 2) % 65536, dice.randrange(6), dice.randrange(4000, 4200)])
        flags = self.new_flags() & ~4 if dice.random() < 0.9 else self.new_flags()
        self.call(16, lambda: self.alloc_huge(whole_ones, part, selector, at, most, flags), whole_ones, part, selector, at, most, flags)

    def choose_realloc_huge(self):
        runs = [index for index, hold in self.held.items() if hold.run]
        first, (whole_ones, part) = [index for index in runs if self.held[index].run[0] == index], self.new_lengths()
        if not runs and self.dice.random() < 0.9:
            return
        selector = self.any([*first, *first, *first, *first, *runs] if self.dice.random() < 0.9 else self.made())
        self.call(17, lambda: self.realloc_huge(whole_ones, part, selector), whole_ones, part, selector)

    def choose_shift(self):
        selector, at = self.target(2)
        self.call(18, lambda: self.shift(selector, at), selector, at)

    def ask(self, service, selector, at, timeout=0):
        words = [timeout >> 16, timeout & 0xFFFF] if service in (REQUEST, WAIT) else []
        self.call(service, lambda: self.semaphore(service, selector, at, timeout), selector, at, *words)

    def may_wait(self, selector, at):
        """Whether a call may wait: of a semaphore that is the process's own, none does that would."""
        hold = self.under(selector)
        return bool(hold) and selector >> 3 < SHARED and not any(hold.segment.bytes[at : at + 4])

    def ask_any(self, selector, at):
        dice = self.dice
        timeout = dice.choice([0, 0, FOREVER, FOREVER, dice.randrange(1 << 32)])
        self.ask(dice.choice([REQUEST, REQUEST, CLEAR, WAIT, SET]), selector, at, 0 if timeout == FOREVER and not self.may_wait(selector, at) else timeout)

    def choose_semaphore(self):
        self.ask_any(*self.target(4))

    def choose_size(self):
        selector, (other, at) = self.any([*self.made(), DATA, TEXTS, ENVIRONMENT]), self.target(4)
        self.call(8, lambda: self.size(selector, other, at), selector, other, at)

    def choose_lock(self):
        selector = self.any([*self.made(), DATA])
        self.call(9, lambda: self.lock(selector), selector)

    def choose_unlock(self):
        selector = self.any([*self.made(), DATA])
        self.call(10, lambda: self.unlock(selector), selector)

    def choose_alias(self):
        selector, (other, at) = self.any([*self.made(), *self.made("data"), CODE, DATA]), self.target(2)
        self.call(11, lambda: self.alias(selector, other, at), selector, other, at)

    def choose_load(self):
        register, text = self.dice.choice([("es", "8EC0"), ("es", "8EC0"), ("ds", "8ED8")])
        selector = self.any([*self.made(), *self.made(), DATA, TEXTS, CODE])
        if not self.under(selector) and self.dice.random() < 0.7:
            return
        self.emit("B8" + self.word(selector))
        self.emit(text, lambda: self.load(register, selector))

    def choose_null(self):
        self.emit("31C0")
        self.emit("8EC0", lambda: self.load("es", 0))

    def choose_put(self):
        hold, at = self.under(self.es), self.place(self.es, 1)
        if hold and hold.kind == "data" or self.dice.random() < 0.02:
            byte = RETF if at == 0 else self.dice.randrange(256)
            self.emit("26C606" + self.word(at) + f"{byte:02X}", lambda: self.put(at, byte))

    def choose_add(self):
        at = self.place(self.es, 1)
        if self.room_of(self.es) and self.under(self.es) is not self.held[ENVIRONMENT]:
            self.emit("26021E" + self.word(at), lambda: self.add(at))

    def choose_count(self):
        hold, at = self.under(self.ds), self.place(self.ds, 1)
        if hold and hold.kind == "data" or self.dice.random() < 0.02:
            self.emit("FE06" + self.word(at), lambda: self.count(at))

    def choose_write(self):
        count, selector = self.dice.randint(1, 9), self.any([*self.made(), *self.made(), DATA])
        at, (other, to) = self.place(selector, count), self.target(2)
        if selector >> 3 != ENVIRONMENT and (self.room_of(selector) or self.dice.random() < 0.1):
            self.call(4, lambda: self.write(selector, at, count, other, to), 1, selector, at, count, other, to)

    def choose_go(self):
        """Calls what is under an alias, which goes back at once; first writes it, where nothing is there yet."""
        routines = [index for index in self.made("alias") if self.held[index].segment.bytes[0] == RETF]
        if routines:
            selector = 8 * self.dice.choice(routines) + 7
            self.emit("9A0000" + self.word(selector), lambda: self.go(selector))
            self.steps.append((0, lambda: self.go(8 * CODE + 7)))
            return
        own = [index for index in self.made("data") if index < SHARED and not self.held[index].run]
        if own:
            selector = 8 * self.dice.choice(own) + 7
            self.emit("B8" + self.word(selector))
            self.emit("8EC0", lambda: self.load("es", selector))
            self.emit(f"26C6060000{RETF:02X}", lambda: self.put(0, RETF))
            self.call(11, lambda: self.alias(selector, 8 * DATA + 7, 0), selector, 8 * DATA + 7, 0)

    def file(self):
        rows = [f"module {self.name}", f"stack {STACK}", "start 1:0000", f"segment {CODE} code size={self.whole_code}"]
        rows += [f"{at:04X}  {self.code[at : at + 16].hex(' ').upper()}" for at in range(0, len(self.code), 16)]
        rows += [f"segment {DATA} data size={FRONT} auto", f"segment {TEXTS} data"]
        texts = b"\0".join(self.texts)
        rows += [f"{at:04X}  {texts[at : at + 16].hex(' ').upper()}" for at in range(0, len(texts), 16)]
        return ne.Listing("\n".join(rows)).file()

    def start(self):
        holds = (f"hold {8 * index + 7:04X} by load" for index in (CODE, DATA, TEXTS, ENVIRONMENT))
        return [f"{self.pid} {line}" for line in (f"start {self.name}", *holds)]


class Sharer(Process):
    """A process that shares segments with others, too: by name, by gift and by asking for them."""

    # What a step does.

    def name_segment(self, size, front, offset, selector, at):
        name, put = name_of(self.text(front, offset)), self.pointer(selector, at, 2, True)
        index = self.free_index(True)
        full = self.machine.is_full() or index is None
        error = 123 if name is None else 183 if self.machine.named(name) else 8 if full else 0
        value = 8 * (index or 0) + 7
        if not error:
            put[at : at + 2] = value.to_bytes(2, "little")
            self.held[index] = Hold(Segment(size or 65536), "data")
            self.machine.texts[name] = self.held[index].segment
        shown = f"{size:04X} {front:04X}:{offset:04X} {selector:04X}:{at:04X}"
        self.back("DosAllocShrSeg", shown, error, f"{value:04X}", [("hold", index)])

    def get_named(self, front, offset, selector, at):
        name, put = name_of(self.text(front, offset)), self.pointer(selector, at, 2, True)
        index = name and self.machine.named(name)
        error = 123 if name is None else 0 if index else 2
        value = 8 * (index or 0) + 7
        if not error:
            put[at : at + 2] = value.to_bytes(2, "little")
            self.hold_more(index, self.machine.texts[name])
        self.back("DosGetShrSeg", f"{front:04X}:{offset:04X} {selector:04X}:{at:04X}", error, f"{value:04X}", [("hold", index)])

    def give(self, selector, number, other, at):
        put, hold, to, index = self.pointer(other, at, 2, True), self.under(selector), self.machine.living(number), selector >> 3
        members = self.members(index) if hold and index >= SHARED and hold.segment.flags & 1 else []
        error = 5 if not members else 0 if to else 303
        value = 8 * index + 7
        if not error:
            put[at : at + 2] = value.to_bytes(2, "little")
            for i in members:
                to.hold_more(i, self.held[i].segment, hold.run)
        moved = [("hold", i, number) for i in members]
        self.back("DosGiveSeg", f"{selector:04X} {number:04X} {other:04X}:{at:04X}", error, f"{value:04X}", moved)

    def get(self, selector):
        index = selector >> 3
        holder = self.machine.holder(index) if selector & 4 and index >= SHARED else None
        members = holder.members(index) if holder and holder.held[index].segment.flags & 2 else []
        for i, hold in [(i, holder.held[i]) for i in members]:
            self.hold_more(i, hold.segment, hold.run)
        self.back("DosGetSeg", f"{selector:04X}", 0 if members else 5, None, [("hold", i) for i in members])

    def move(self, source, target):
        byte = self.byte(self.ds, source, False).bytes[source]
        self.byte(self.es, target, True).bytes[target] = byte

    def probe(self, selector):
        """LAR of a selector, which tells whether the process could load it."""
        hold = self.under(selector)
        self.cx, self.asked = RIGHTS[hold.kind] if hold else 0, (selector, self.machine.told)

    def tell_register(self, register):
        self.cx = getattr(self, register)

    def keep(self, at):
        self.held[DATA].segment.bytes[at : at + 2] = self.cx.to_bytes(2, "little")

    def show(self, at, other, to):
        """Writes what was kept: who asked, of which selector, behind how many lines, and where in the console the answer stands."""
        place = self.machine.written
        self.write(8 * DATA + 7, at, 2, other, to)
        self.machine.probes.append((self.pid, *self.asked, place))

    # What is chosen.

    def choices(self):
        shares = [self.choose_name, self.choose_named, self.choose_give, self.choose_get, self.choose_probe, self.choose_post, self.choose_look,
                  self.choose_semaphore]
        return [*super().choices(), *shares, *shares, self.choose_free, self.choose_let_go, self.choose_let_go, self.choose_copy]

    def new_flags(self):
        return self.dice.choice([super().new_flags(), 1, 2, 3, self.dice.randrange(16)])

    def some_text(self):
        """A pointer to a text: one of the program's own, mostly a name, or one that was copied."""
        dice = self.dice
        copies = [(8 * index + 7, at) for index, segment, at in self.copies if index in self.held and self.held[index].segment is segment]
        if copies and dice.random() < 0.4:
            return dice.choice(copies)
        if dice.random() < 0.03:
            selector = self.any(self.made())
            return selector, self.place(selector, 1)
        kind = dice.random()
        text = ENDLESS if kind < 0.01 else dice.choice(NO_NAMES if kind < 0.15 else NAMES)
        return 8 * TEXTS + dice.choice([7, 7, 4, 5, 6]), self.where(text)

    copies = ()

    def where(self, text):
        """Where one of the program's texts stands, as the program begins."""
        return sum(len(it) + 1 for it in self.texts[: self.texts.index(text)])

    def choose_name(self):
        size, (front, offset), (selector, at) = self.new_size(), self.some_text(), self.target(2)
        self.call(12, lambda: self.name_segment(size, front, offset, selector, at), size, front, offset, selector, at)

    def choose_named(self):
        (front, offset), (selector, at) = self.some_text(), self.target(2)
        self.call(13, lambda: self.get_named(front, offset, selector, at), front, offset, selector, at)

    def choose_give(self):
        shared = [index for index in self.held if index >= SHARED]
        giveable = [index for index in shared if self.held[index].segment.flags & 1]
        selector, (other, at) = self.any([*giveable, *giveable, *giveable, *shared, *self.made()]), self.target(2)
        count, living = len(self.machine.modules), [it.pid for it in self.machine.modules if it.live]
        number = self.dice.choice([*living, *living, *range(1, count + 1), 0, count + 1, self.dice.randrange(65536)])
        self.call(14, lambda: self.give(selector, number, other, at), selector, number, other, at)

    def choose_get(self):
        selector = self.any([*sorted(self.machine.shared()), *self.made()])
        self.call(15, lambda: self.get(selector), selector)

    def choose_probe(self):
        selector, at, (other, to) = self.any([*sorted(self.machine.shared()), *self.held]) | 4, self.place(8 * DATA + 7, 2), self.target(2)
        self.emit("31C9")
        self.emit("B8" + self.word(selector))
        self.emit("0F02C8", lambda: self.probe(selector))
        if at + 2 <= FRONT:
            self.emit("36890E" + self.word(at), lambda: self.keep(at))
            self.call(4, lambda: self.show(at, other, to), 1, 8 * DATA + 7, at, 2, other, to)

    def front(self):
        """One of the shared segments that are held, and its first bytes, which are put and looked at more often than others."""
        shared = [index for index in self.held if index >= SHARED]
        index = self.dice.choice(shared) if shared else None
        return index and 8 * index + 7, index and min(8, len(self.held[index].segment.bytes))

    def choose_post(self):
        selector, count = self.front()
        if selector:
            at, byte = self.dice.randrange(count), self.dice.randrange(256)
            self.emit("B8" + self.word(selector))
            self.emit("8EC0", lambda: self.load("es", selector))
            self.emit("26C606" + self.word(at) + f"{byte:02X}", lambda: self.put(at, byte))

    def choose_look(self):
        selector, count = self.front()
        if selector:
            other, to = self.target(2)
            self.call(4, lambda: self.write(selector, 0, count, other, to), 1, selector, 0, count, other, to)

    def may_wait(self, selector, at):
        return super().may_wait(selector, at) or bool(self.under(selector)) and selector >> 3 >= SHARED

    def awaited(self):
        """The semaphores for which others wait, of what this process holds too."""
        waits = [it.waits for it in self.machine.modules if it.live and it.waits]
        return [(8 * index + 7, at) for index, hold in self.held.items() for segment, at in waits if hold.segment is segment]

    def choose_semaphore(self):
        """Mostly clears one for which another process waits."""
        awaited, (selector, count) = self.awaited(), self.front()
        if awaited and self.dice.random() < 0.7:
            self.ask(CLEAR, *self.dice.choice(awaited))
        elif selector and count >= 4:
            self.ask_any(selector, self.dice.randrange(count - 3))
        else:
            super().choose_semaphore()

    def choose(self):
        """At the end, too: nobody is left waiting where that can be helped."""
        if self.actions < 1 and self.awaited():
            self.ask(CLEAR, *self.dice.choice(self.awaited()))
        else:
            super().choose()

    def choose_let_go(self):
        """Frees what DS or ES names, and writes to the console what the register has then."""
        (register, text), at, (other, to) = self.dice.choice([("ds", "8CD9"), ("es", "8CC1")]), self.dice.randrange(FRONT - 1), self.target(2)
        selector = getattr(self, register)
        self.call(7, lambda: self.free(selector), selector)
        self.emit(text, lambda: self.tell_register(register))
        self.emit("36890E" + self.word(at), lambda: self.keep(at))
        self.call(4, lambda: self.write(8 * DATA + 7, at, 2, other, to), 1, 8 * DATA + 7, at, 2, other, to)

    def choose_copy(self):
        """Copies a text to a segment that a call has made."""
        text = self.dice.choice([*NAMES, *NO_NAMES])
        made = [index for index in self.made("data") if len(self.held[index].segment.bytes) > len(text)]
        if made:
            index = self.dice.choice(made)
            at, source = self.place(8 * index + 7, len(text) + 1), self.where(text)
            self.emit("B8" + self.word(8 * index + 7))
            self.emit("8EC0", lambda: self.load("es", 8 * index + 7))
            self.emit("B8" + self.word(8 * TEXTS + 7))
            self.emit("8ED8", lambda: self.load("ds", 8 * TEXTS + 7))
            for code, value in (("B9", len(text) + 1), ("BE", source), ("BF", at)):
                self.emit(code + self.word(value))
            self.steps += [(len(self.code), lambda k=k: self.move(source + k, at + k)) for k in range(len(text) + 1)]
            self.code += bytes.fromhex("F3A4")
            self.copies = [*self.copies, (index, self.held[index].segment, at)]


class Discarder(Sharer):
    """A process that has segments which may be discarded, lets them go, and asks for them again."""

    def new_flags(self):
        return self.dice.choice([super().new_flags(), 4, 5, 6, 7, 12, 15])

    def choices(self):
        mine = [self.choose_alloc, self.choose_lock, self.choose_unlock, self.choose_unlock, self.choose_realloc, self.choose_null]
        return [*super().choices(), *mine * 6]

    def gone(self):
        return [index for index in self.made() if self.held[index].segment.gone]

    def any(self, indexes):
        """Mostly what isn't discarded: a process that uses what is ends."""
        gone = self.gone() if self.dice.random() < 0.97 else []
        return super().any([index for index in indexes if index not in gone])

    def front(self):
        selector, count = super().front()
        spares = selector and self.under(selector).segment.gone and self.dice.random() < 0.9
        return (None, None) if spares else (selector, count)

    def choose_lock(self):
        gone = self.gone()
        if not gone:
            super().choose_lock()
            return
        selector = 8 * self.dice.choice(gone) + 7
        self.call(9, lambda: self.lock(selector), selector)

    def choose_unlock(self):
        locked = [index for index in self.made() if self.held[index].segment.lock]
        if not locked or self.dice.random() < 0.2:
            super().choose_unlock()
            return
        selector = 8 * self.dice.choice(locked) + 7
        self.call(10, lambda: self.unlock(selector), selector)

    def choose_realloc(self):
        gone = self.gone()
        if not gone or self.dice.random() < 0.2:
            super().choose_realloc()
            return
        size, selector = self.new_size(), 8 * self.dice.choice(gone) + 7
        self.call(6, lambda: self.realloc(size, selector), size, selector)


class Callers:
    """Processes in turns, each with a program of its own, and all that the boundless machine writes of them, step by step."""

    FEWEST, MOST, KIND = 1, 3, Process

    def __init__(self, dice):
        count = dice.randint(self.FEWEST, self.MOST)
        self.texts, self.probes, self.reaches, self.written = {}, [], [], 0
        self.modules = [self.KIND(dice, self, pid) for pid in range(1, count + 1)]
        self.segments = 4 * count + dice.choice([0, 1, 2, 4, 8, 100, 100, 100])
        self.quantum = dice.choice([1, 1, 2, 7, 1000])
        self.opening = [line for it in self.modules for line in it.start()]
        self.told, self.standing = len(self.opening), self.stand()
        steps = list(self.turns())
        self.over, self.budget = ("budget spent\n", len(steps)) if self.is_stuck() else ("all ended\n", 1000000)
        for it in self.modules:
            it.whole_code = max(len(it.code), dice.choice([0, 1000, 20000]))
        code = {it.pid: whole(it.whole_code) for it in self.modules}
        self.events = [(code[pid] + room, lines, piece, sum(code[k] for k in live) + load, blocks)
                       for pid, live, room, lines, piece, load, blocks in steps]

    def names(self):
        return list({id(hold.segment): hold.segment for it in self.modules for hold in it.held.values()}.values())

    def stand(self):
        """Each segment but code with its size, its lock count and the bytes that it has, which calls, ends and words alone change: steps that
        have lines."""
        parts = ((segment, len(segment.bytes)) for segment in self.names() if not segment.is_code)
        return {id(segment): (segment, size, segment.lock, 0 if segment.gone else size) for segment, size in parts}

    def discard(self):
        """The word `discard`: what isn't locked, and stands in no segment register of a process that lives."""
        seated = {id(segment) for it in self.modules if it.live for segment in it.seats()}
        for segment in self.names():
            if segment.flags & 4 and not segment.lock and id(segment) not in seated:
                segment.bytes, segment.gone = bytearray(len(segment.bytes)), True
        self.standing = self.stand()

    def left(self):
        """How many segments more may live."""
        return self.segments - len(self.names())

    def is_full(self):
        return self.left() < 1

    def shared(self):
        return {index for it in self.modules for index in it.held if index >= SHARED}

    def living(self, number):
        """The process of this number, where it lives."""
        return next((it for it in self.modules if it.live and it.pid == number), None)

    def holder(self, index):
        """A process that holds something under a shared index."""
        return next((it for it in self.modules if index in it.held), None)

    def under(self, index):
        """The segment that somebody holds under a shared index."""
        holder = self.holder(index)
        return holder and holder.held[index].segment

    def named(self, name):
        """The index of the segment that has a name, which goes with its last hold."""
        return next((index for index in self.shared() if self.under(index) is self.texts.get(name)), None)

    def reach(self):
        """How often each process that lives holds what."""
        return {(it.pid, 8 * index + 7): hold.count for it in self.modules for index, hold in it.held.items()}

    def is_stuck(self):
        """Whether all that live wait, each for a semaphore that isn't clear."""
        living = [it for it in self.modules if it.live]
        return bool(living) and all(it.waits and any(it.waits[0].bytes[it.waits[1] : it.waits[1] + 4]) for it in living)

    def turns(self):
        """Each step: its process, who lives, and without the code its room, lines, piece, and the loads of it."""
        while any(it.live for it in self.modules) and not self.is_stuck():
            for it in [it for it in self.modules if it.live]:
                for _ in range(self.quantum):
                    if not it.live:
                        break
                    yield self.step(it)

    def step(self, it):
        live = [other.pid for other in self.modules if other.live]
        old, need = self.standing, it.seats()
        it.take()
        need += it.touched + it.seats()
        if it.lines:
            self.standing = self.stand()
        sides = [old, self.standing] if it.lines else [old]
        names = {name for side in sides for name in side}
        most, kept = ({name: whole(max(side[name][part] for side in sides if name in side)) for name in names} for part in (1, 3))
        counted = {id(segment) for segment in need} | {name for side in sides for name, (_, _, lock, _) in side.items() if lock}
        room, load = sum(kept[name] for name in counted if name in kept), sum(most.values())
        blocks = sum(-(-size // 512) for _, size, _, _ in old.values())
        self.told += len(it.lines)
        self.written += len(it.piece)
        if it.lines and self.told % 16 == 0:
            self.reaches.append((self.told, self.reach()))
        return it.pid, live, room, it.lines, it.piece, load, blocks

    def text(self, memory, swap):
        keys = f"memory = {memory}\nswap = {swap}\nsegments = {self.segments}\nbudget = {self.budget}\nquantum = {self.quantum}\n"
        modules = ", ".join(f'"{it.name}.exe"' for it in self.modules)
        return keys + f"modules = [{modules}]\n" + "".join(f'[[process]]\nmodule = "{it.name}"\n' for it in self.modules)
