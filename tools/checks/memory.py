#!/usr/bin/env python3
"""Tries the program in small memories: that programs can't tell what moves and swaps, and that a run stops exactly where it must.

    random     programs at random, one to three at a time, in memories from less than they need up to 1 MiB. What each must write, and
               how much memory each of its steps needs, is reckoned here, instruction by instruction; where a step needs more than there
               is, the run must end just before it. With few swap blocks a run may end for want of them, where what lives doesn't fit.
    calls      the same of programs that make, free, lock and size segments and runs of them (tools/lib/calls_at_random.py).
    sharing    the same of two to eight programs that share segments, too: by name, by gift, and by asking for a selector. What each holds is
               computed from the report by tools/reach.py, and must be what it holds here, and what the programs see of it by LAR.
    discards   the same of one to four processes that share segments which a script discards now and then.
    heaps      the same of two processes that share a segment and call on a heap in it (tools/lib/heaps_at_random.py), where no unit may be
               taken twice without being given back in between; and a heap of 8,191 free blocks.
    examples   each example in the least memory in which it isn't stopped, which must write what it writes in an ample one, and in 16
               bytes less, which must write a front of that.
    rows       the same of the programs of the table of commands that a proved program takes (tools/lib/row_programs.py), with what the table says of them.
    full       64 processes that all hold a run of all 4,096 shared selectors.
    swap       the swap file: when there is one, what is said where it can't be used, and where somebody else changes it while the run waits.

OS2RUN in the environment names another program to try; SEED another beginning.
"""
import glob
import os
import random
import re
import shutil
import signal
import struct
import subprocess
import sys
import time

sys.dont_write_bytecode = True
sys.path.insert(0, os.path.join(os.path.dirname(os.path.realpath(__file__)), "..", "lib"))
import trying
from trying import EXAMPLES, program, wants
import ne
import reach
import row_programs
from calls_at_random import Callers, Discarder, Sharer
from heaps_at_random import Heaper

LEAST, MOST = 4096, 16_777_216
AMPLE = 1_048_576
STEP = 4096
LINES = {8: ("stop room\n", "os2run: no room\n"), 9: ("stop swap full\n", "os2run: swap full\n"), 10: ("stop swap fault\n", "os2run: swap fault\n")}
is_every_size = False


def run(words, stdin=b"", cwd="."):
    """Status, console, and standard error of a command."""
    made = subprocess.run([program(), *words], input=stdin, capture_output=True, cwd=cwd)
    return made.returncode, made.stdout, made.stderr.decode("latin-1")


def whole(n):
    """A length in whole paragraphs of 16 bytes."""
    return -(-n // 16) * 16


class Step:
    """What a step needs in memory together, the lines of the report, and the piece for the console."""

    def __init__(self, need, lines=(), piece=b"", ends=False):
        self.need, self.lines, self.piece, self.ends = need, list(lines), piece, ends


class Program:
    """A program made at random, with its steps. Segment 1 is its code, 2 its data and stack, and behind them come more of both."""

    STACK = 512

    def __init__(self, dice, name):
        self.dice, self.name = dice, name
        self.code, self.makes = bytearray(), []
        self.data = {2: bytearray(dice.choice([16, 100, 3000]) + self.STACK)}
        for number in range(3, 3 + dice.randint(1, 5)):
            self.data[number] = bytearray(dice.choice([1, 16, 17, 512, 4096, 8192, 16384, dice.randint(1, 20000), dice.randint(1, 65536)]))
        self.calls = range(3 + len(self.data) - 1, 3 + len(self.data) - 1 + dice.randint(0, 3))
        self.size = {number: len(held) for number, held in self.data.items()}
        for number in self.calls:
            self.size[number] = dice.choice([2, 100, 4096, 16000])
        # (at the start BX points to the command line, behind the zero byte that ends the environment strings)
        self.es, self.ds, self.cs, self.bx = None, 2, 1, 1
        self.steps = []
        for _ in range(dice.randint(5, 40)):
            dice.choice([self.load_es, self.load_es, self.load_ds, self.leave, self.put, self.put, self.take, self.count, self.move,
                         self.pop, self.call, self.write])()
        self.end()
        self.size[1] = max(len(self.code), dice.choice([0, 1000, 20000]))

    def selector(self, number):
        return 8 * number + 7

    def emit(self, text, *needs, lines=(), piece=b"", ends=False):
        """An instruction of one step, with what it needs beside the segment registers before it; those behind it come by `seat`."""
        self.code += bytes.fromhex(text)
        self.step(*needs, lines=lines, piece=piece, ends=ends)

    def step(self, *needs, lines=(), piece=b"", ends=False):
        self.steps.append(Step({self.cs, 2, self.ds, self.es, *needs} - {None}, lines, piece, ends))

    def word(self, value):
        return value.to_bytes(2, "little").hex()

    def place(self, number, most=1):
        return self.dice.randrange(len(self.data[number]) - (self.STACK if number == 2 else 0) - most + 1)

    def roomy(self, most):
        return [number for number in self.data if self.size[number] - (self.STACK if number == 2 else 0) >= most]

    def load_es(self):
        number = self.dice.choice(list(self.data))
        self.emit("B8" + self.word(self.selector(number)))
        self.emit("8EC0", number)
        self.es = number

    def load_ds(self):
        number = self.dice.choice(list(self.data))
        self.emit("B8" + self.word(self.selector(number)))
        self.emit("8ED8", number)
        self.ds = number

    def leave(self):
        self.emit("31C0")
        self.emit("8EC0")
        self.es = None

    def put(self):
        if self.es is not None:
            at, byte = self.place(self.es), self.dice.randrange(256)
            self.emit("26C606" + self.word(at) + f"{byte:02X}")
            self.data[self.es][at] = byte

    def take(self):
        if self.es is not None:
            at = self.place(self.es)
            self.emit("26021E" + self.word(at))
            self.bx = self.bx & 0xFF00 | (self.bx + self.data[self.es][at]) & 0xFF

    def count(self):
        at = self.place(self.ds)
        self.emit("FE06" + self.word(at))
        self.data[self.ds][at] = (self.data[self.ds][at] + 1) & 0xFF

    def move(self):
        most = self.dice.randint(1, 12)
        if self.es not in self.roomy(most) or self.ds not in self.roomy(most):
            return
        source, target = self.place(self.ds, most), self.place(self.es, most)
        self.emit("B9" + self.word(most))
        self.emit("BE" + self.word(source))
        self.emit("BF" + self.word(target))
        self.code += bytes.fromhex("F3A4")
        for k in range(most):
            self.step()
            self.data[self.es][target + k] = self.data[self.ds][source + k]

    def pop(self):
        """Pushes ES, takes it away, and pops it again."""
        kept = self.es
        self.emit("06")
        self.leave()
        self.emit("07", kept)
        self.es = kept

    def call(self):
        """Calls a segment of code that adds 1 to BX."""
        if self.calls:
            number = self.dice.choice(self.calls)
            self.emit("9A0000" + self.word(self.selector(number)), number)
            self.cs = number
            self.step()
            self.step(1)
            self.cs, self.bx = 1, (self.bx + 1) & 0xFFFF

    def write(self):
        """Writes some bytes of one segment to the console, and their number into another."""
        count = self.dice.randint(1, 9)
        source, target = self.dice.choice(self.roomy(count) or [None]), self.dice.choice(self.roomy(2) or [None])
        if source is None or target is None:
            return
        at, to = self.place(source, count), self.place(target, 2)
        words = [1, self.selector(source), at, count, self.selector(target), to]
        for value in words:
            self.emit("68" + self.word(value))
        handle, one, offset, number, other, where = (f"{value:04X}" for value in words)
        line = f"call DosWrite {handle} {one}:{offset} {number} {other}:{where} = 0 {number}"
        self.emit("9A0000A300", source, target, lines=[line], piece=bytes(self.data[source][at : at + count]))
        self.data[target][to : to + 2] = count.to_bytes(2, "little")

    def end(self):
        self.emit("6A01")
        self.emit("53")
        self.emit("9A00008B00", lines=[f"call DosExit 0001 {self.bx:04X}", f"end exit {self.bx}"], ends=True)

    def file(self):
        rows = [f"module {self.name}", f"stack {self.STACK}", "start 1:0000"]
        for number in sorted(self.size):
            if number in self.data:
                size = self.size[number] - (self.STACK if number == 2 else 0)
                rows.append(f"segment {number} data size={size}" + (" auto" if number == 2 else ""))
                continue
            rows.append(f"segment {number} code size={self.size[number]}")
            code = self.code if number == 1 else bytes.fromhex("43CB")
            rows += [f"{at:04X}  {code[at : at + 16].hex(' ').upper()}" for at in range(0, len(code), 16)]
        return ne.Listing("\n".join(rows)).file()

    def environment(self):
        return len(self.name) + 4

    def room(self, step):
        return sum(whole(self.size[number]) for number in step.need)

    def start(self):
        count = len(self.size) + 1
        return [f"start {self.name}"] + [f"hold {self.selector(number):04X} by load" for number in range(1, count + 1)]


class Machine:
    """Processes of such programs in turns, and all that the boundless machine writes of them, step by step."""

    def __init__(self, dice):
        self.modules = [Program(dice, name) for name in ["ONE", "OTHER"][: dice.randint(1, 2)]]
        self.processes = [dice.choice(self.modules) for _ in range(dice.randint(1, 3))]
        self.quantum, self.over = dice.choice([1, 1, 2, 7, 1000]), "all ended\n"
        self.opening = [f"{pid} {line}" for pid, program in enumerate(self.processes, 1) for line in program.start()]
        self.events = list(self.turns())

    def turns(self):
        """Each step in the order of the dispatch: its process's number, its room, its lines and its piece, and the loads before it."""
        left = {pid: list(program.steps) for pid, program in enumerate(self.processes, 1)}
        while left:
            for pid in sorted(left):
                for _ in range(self.quantum):
                    if pid not in left:
                        break
                    step = left[pid].pop(0)
                    lines = [f"{pid} {line}" for line in step.lines]
                    yield self.processes[pid - 1].room(step), lines, step.piece, *self.living(left)
                    if step.ends:
                        del left[pid]

    def living(self, live):
        """The bytes of all that lives, in whole paragraphs, and the swap blocks of all that can be written."""
        programs = [self.processes[pid - 1] for pid in live]
        data = [size for it in programs for size in [it.environment(), *(it.size[number] for number in it.data)]]
        code = [it.size[number] for it in self.modules if it in programs for number in it.size if number not in it.data]
        return sum(map(whole, data + code)), sum(-(-size // 512) for size in data)

    def text(self, memory, swap):
        keys = f"memory = {memory}\nswap = {swap}\nsegments = 100\nbudget = 100000\nquantum = {self.quantum}\n"
        modules = ", ".join(f'"{it.name}.exe"' for it in self.modules)
        return keys + f"modules = [{modules}]\n" + "".join(f'[[process]]\nmodule = "{it.name}"\n' for it in self.processes)

    def wanted(self, until):
        """Console and report before a step."""
        console = b"".join(piece for _, _, piece, _, _ in self.events[:until])
        lines = self.opening + [line for _, lines, _, _, _ in self.events[:until] for line in lines]
        return console, "".join(line + "\n" for line in lines)

    def most(self):
        return max(room for room, _, _, _, _ in self.events)

    def loads(self):
        """The most bytes and swap blocks of all that lives at a step."""
        return max(event[3] for event in self.events), max(event[4] for event in self.events)

    def stop_in(self, memory):
        """The first step whose room exceeds the memory, or the number of steps."""
        return next((k for k, event in enumerate(self.events) if event[0] > memory), len(self.events))


class Calling(Callers, Machine):
    """Processes that call on segments: other steps, of which the same is wanted."""


class Sharing(Calling):
    """Processes that share segments, too."""

    FEWEST, MOST, KIND = 2, 8, Sharer


class Discarding(Calling):
    """Processes whose segments a script discards now and then: slices in any order first, and words between them."""

    FEWEST, MOST, KIND = 1, 4, Discarder

    def __init__(self, dice):
        self.dice, self.script = dice, []
        super().__init__(dice)

    def turns(self):
        for _ in range(self.dice.randrange(300)):
            if self.is_stuck() or not any(it.live for it in self.modules):
                break
            if self.dice.random() < 0.2:
                self.script.append("discard")
                self.discard()
            it, count = self.dice.choice(self.modules), self.dice.randint(1, 8)
            self.script.append(f"{it.pid}:{count}")
            for _ in range(count):
                if it.live and not self.is_stuck():
                    yield self.step(it)
        yield from super().turns()

    def text(self, memory, swap):
        return "script = [" + ", ".join(f'"{word}"' for word in self.script) + "]\n" + super().text(memory, swap)


class Heaping(Calling):
    """Processes that keep a heap in a segment which they share. `goes_well` tells that no unit was taken twice without being given back in between."""

    FEWEST, MOST, KIND = 2, 2, Heaper
    goes_well = True


def tail(status, over="all ended\n"):
    return over if status == 0 else "".join(LINES[status])


def sizes_for(dice, machine):
    """Memories below the room of the run, at it, and from there to 1 MiB."""
    most = machine.most()
    above = [most, most + 16, whole(machine.loads()[0]), AMPLE]
    above += [whole(dice.randint(most, max(most, AMPLE))) for _ in range(3)]
    below = [most - 16, LEAST, whole(dice.randint(LEAST, max(LEAST, most)))]
    if is_every_size:
        above += range(most, AMPLE, STEP)
    return sorted({size for size in above + below if LEAST <= size <= MOST})


def in_memory(title, machine, memory):
    """With blocks for all: whole texts, or a stop just before the first step that doesn't fit. Gives both texts."""
    with open("a.toml", "w") as file:
        file.write(machine.text(memory, 65536))
    status, console, report = run(["run", "a.toml"])
    until = machine.stop_in(memory)
    code = 0 if until == len(machine.events) else 8
    texts = machine.wanted(until)
    well = (status, console, report) == (code, texts[0], texts[1] + tail(code, machine.over))
    wants(f"{title} in {memory}", well, f"status {status}, wanted {code} before step {until + 1}; {report.splitlines()[-2:]}")
    return console, report


def reached(lines):
    """What each process holds and how often, by the lines of a report so far."""
    return {(process, selector): holds for process, selector, holds, _, _, until, _ in reach.spans(lines) if until is None}


def as_reached(title, machine, console, report):
    """The report tells behind some of its lines what each process holds, and what LAR tells the processes goes by that."""
    lines = report.split("\n")
    for count, held in machine.reaches:
        wants(f"{title}: what is held behind line {count}", reached(lines[:count]) == held, sorted(set(reached(lines[:count])) ^ set(held)))
    for process, selector, count, place in machine.probes:
        seen = console[place : place + 2] != bytes(2)
        holds = (process, selector | 3) in reached(lines[:count])
        wants(f"{title}: LAR of {selector:04X} by process {process} behind line {count}", seen == holds, (seen, holds))


def with_blocks(title, machine, memory, swap):
    """With few blocks: the same, or a stop before a step at which neither blocks nor memory have place for what lives."""
    with open("a.toml", "w") as file:
        file.write(machine.text(memory, swap))
    status, console, report = run(["run", "a.toml"])
    until = machine.stop_in(memory)
    if status == 9:
        front = [k for k in range(until + 1) if (console, report) == (machine.wanted(k)[0], machine.wanted(k)[1] + tail(9))]
        well = any(k < len(machine.events) and machine.events[k][3] > memory and machine.events[k][4] > swap for k in front)
    else:
        code = 0 if until == len(machine.events) else 8
        texts = machine.wanted(until)
        well = (status, console, report) == (code, texts[0], texts[1] + tail(code, machine.over))
    wants(f"{title} in {memory} with {swap} blocks", well, f"status {status}; {report.splitlines()[-2:]}")


def at_random(kind=Machine, count=200):
    seed = int(os.environ.get("SEED", "1"))
    for k in range(count):
        dice = random.Random(f"{seed} {k}")
        machine = kind(dice)
        for it in machine.modules:
            with open(f"{it.name}.exe", "wb") as file:
                file.write(it.file())
        title = f"program {k} of SEED={seed}"
        for memory in sizes_for(dice, machine):
            texts = in_memory(title, machine, memory)
        if isinstance(machine, Heaping):
            wants(f"{title}: what is taken", machine.goes_well, "a unit is taken twice")
        # (the last memory is the largest, which has the room of each step)
        if isinstance(machine, Sharing):
            as_reached(title, machine, *texts)
        live, blocks = machine.loads()
        for memory, swap in ((machine.most(), blocks), (machine.most(), blocks // 2), (machine.most(), 0), (whole(live), 0)):
            if memory >= LEAST:
                with_blocks(title, machine, memory, swap)


def module_name(path):
    """The own name of the module in an executable."""
    with open(path, "rb") as file:
        content = file.read()
    header = int.from_bytes(content[0x3C:0x40], "little")
    at = header + int.from_bytes(content[header + 0x26 : header + 0x28], "little")
    return content[at + 1 : at + 1 + content[at]].decode("ascii")


EXE = """swap = 2048
segments = 1024
budget = 1000000
quantum = 1000
avail = 524288
"""


def example_text(folder, name, memory):
    """The machine file of an example with this memory and blocks for all; of an executable the one that `exe` stands for."""
    path = os.path.join(folder, name)
    if not os.path.exists(path + ".toml"):
        process = f'modules = ["{name}.exe"]\n[[process]]\nmodule = "{module_name(path + ".exe")}"\n'
        return f"memory = {memory}\n" + EXE + process
    with open(path + ".toml") as file:
        return re.sub(r"(?m)^swap = \d+", "swap = 65536", re.sub(r"(?m)^memory = \d+", f"memory = {memory}", file.read()))


def content(path):
    if not os.path.exists(path):
        return b""
    with open(path, "rb") as file:
        return file.read()


def example_in(folder, name, memory):
    with open(os.path.join(folder, "memory.toml"), "w") as file:
        file.write(example_text(folder, name, memory))
    return run(["run", "memory.toml"], content(os.path.join(folder, name + ".input")), folder)


def in_least(title, made, wanted):
    """A run in the least memory in which it isn't stopped, in one paragraph more, in twice as much and in an ample one, which must come to what is
    wanted, and in 16 bytes less, which must be stopped with fronts of that. `made` gives status, console and report in a memory."""
    low, high = 0, AMPLE // 16
    while high - low > 1:
        middle = (low + high) // 2
        low, high = (middle, high) if 16 * middle < LEAST or made(16 * middle)[0] == 8 else (low, middle)
    for memory in sorted({16 * high, 16 * high + 16, 2 * 16 * high, AMPLE}):
        wants(f"{title} in {memory}", made(memory) == wanted, "other texts than in ample memory")
    if 16 * low >= LEAST:
        code, console, report = made(16 * low)
        lines = report[: -len(tail(8))]
        well = code == 8 and report.endswith(tail(8)) and wanted[1].startswith(console) and wanted[2].startswith(lines)
        wants(f"{title} in {16 * low}", well, f"status {code}; {report.splitlines()[-2:]}")
    return 16 * high


def an_example(folder, name):
    path = os.path.join(folder, name)
    status = int(content(path + ".status") or 0)
    wanted = (status, content(path + ".console"), content(path + ".report").decode("latin-1"))
    return in_least(path, lambda memory: example_in(folder, name, memory), wanted)


def examples():
    shutil.copytree(EXAMPLES, "examples")
    for folder in ["examples", *sorted(glob.glob("examples/*/"))]:
        for report in sorted(glob.glob(os.path.join(folder, "*.report"))):
            name = os.path.basename(report)[: -len(".report")]
            if not name.endswith((".exe", ".toml")) and content(report) and int(content(report[:-7] + ".status") or 0) in (0, 6):
                an_example(folder, name)


def row_in(row, memory):
    with open("a.toml", "w") as file:
        file.write(row.machine(memory))
    return run(["run", "a.toml"], row.given)


def rows():
    """Least memories, by how many programs have them."""
    count = {}
    for row in row_programs.all_rows():
        for name, held in row.files.items():
            with open(name, "wb") as file:
                file.write(held)
        ample = row_in(row, AMPLE)
        wants(f"{row.title} in ample memory", ample == (0, row.console, row.report), ample)
        least = in_least(row.title, lambda memory: row_in(row, memory), ample)
        count[least] = count.get(least, 0) + 1
    print("rows by their least memory: " + ", ".join(f"{number} in {least:,}" for least, number in sorted(count.items())))


# Writes a byte to each of two segments of 16,384 bytes, and reads the first back.
TWO = """module TWO
stack 512
start 1:0000
segment 1 code
0000  B8 1F 00 8E C0 26 C6 06 00 00 07 31 C0 8E C0
000F  B8 27 00 8E C0 26 C6 06 00 00 09 31 C0 8E C0
001E  B8 1F 00 8E C0 26 A0 00 00 30 E4
0029  6A 01 50 9A 00 00 8B 00
segment 2 data auto size=16
segment 3 data size=16384
segment 4 data size=16384
"""
# three data segments of which the memory holds one: each is filled, then a byte of the input is awaited, and two are written
WAITS = """module WAITS
stack 512
start 1:0000
segment 1 code
0000  FC
0001  B8 1F 00 8E C0 31 FF B9 00 20 B8 41 41 F3 AB 31 C0 8E C0
0014  B8 27 00 8E C0 31 FF B9 00 20 B8 42 42 F3 AB 31 C0 8E C0
0027  B8 2F 00 8E C0 31 FF B9 00 20 B8 43 43 F3 AB 31 C0 8E C0
003A  6A 00 1E 68 00 00 6A 01 1E 68 02 00 9A FF FF 00 00  @0047 far DOSCALLS.137
004B  B8 1F 00 8E C0 6A 01 06 6A 00 68 00 40 1E 68 02 00 9A FF FF 00 00  @005D far DOSCALLS.138
0061  31 C0 8E C0
0065  B8 27 00 8E C0 6A 01 06 6A 00 68 00 40 1E 68 02 00 9A FF FF 00 00  @0077 far DOSCALLS.138
007B  31 C0 8E C0
007F  6A 01 6A 00 9A FF FF 00 00  @0084 far DOSCALLS.5
segment 2 data auto size=16
segment 3 data size=16384
segment 4 data size=16384
segment 5 data size=16384
"""
OPENED = "1 start TWO\n" + "".join(f"1 hold {selector} by load\n" for selector in ("000F", "0017", "001F", "0027", "002F"))
DONE = OPENED + "1 call DosExit 0001 0007\n1 end exit 7\nall ended\n"


def two(memory, swap):
    with open("two.toml", "w") as file:
        file.write(f"memory = {memory}\nswap = {swap}\n" + EXE.split("\n", 1)[1] + 'modules = ["two.exe"]\n[[process]]\nmodule = "TWO"\n')
    return run(["run", "two.toml"])


def is_plain(path):
    return os.path.isfile(path) and not os.path.islink(path)


def swap_file():
    with open("two.exe", "wb") as file:
        file.write(ne.Listing(TWO).file())
    faulty = (10, b"", OPENED + tail(10))
    wants("no swapping", two(AMPLE, 64) == (0, b"", DONE) and not os.path.exists("os2run.swp"), "a swap file that isn't wanted")
    os.mkdir("os2run.swp")
    wants("no swapping beside a folder of that name", two(AMPLE, 64) == (0, b"", DONE), "other texts")
    wants("a folder of that name", two(20480, 64) == faulty, two(20480, 64))
    os.rmdir("os2run.swp")
    os.symlink("/dev/full", "os2run.swp")
    wants("a full disk", two(20480, 64) == faulty, two(20480, 64))
    os.remove("os2run.swp")
    wants("swapping", two(20480, 64) == (0, b"", DONE) and is_plain("os2run.swp"), "no swap file, or other texts")
    with open("os2run.swp", "wb") as file:
        file.write(b"\xff" * 100_000)
    wants("a swap file that is there", two(20480, 64) == (0, b"", DONE), "other texts")
    wants("a swap file that was there", b"\xff" not in content("os2run.swp"), "the bytes of another run")
    wants("no blocks", two(20480, 0) == (9, b"", OPENED + tail(9)), two(20480, 0))
    changed_underneath()
    limited()
    wants("no room", two(17408, 64) == (0, b"", DONE) and two(16912, 64) == (8, b"", OPENED + tail(8)), two(16912, 64))


def cut(name):
    os.truncate(name, 0)


def overwritten(name):
    size = os.path.getsize(name)
    with open(name, "r+b") as file:
        file.write(b"\xff" * size)


def one_byte(name):
    """The first byte of the second block is another one."""
    with open(name, "r+b") as file:
        file.seek(512)
        file.write(b"\x40")


def replaced(name):
    with open("other.swp", "wb") as file:
        file.write(b"\xff" * os.path.getsize(name))
    os.replace("other.swp", name)


def awaits_input(child):
    """Whether the program has come to sleep, and swapped before."""
    for _ in range(2000):
        time.sleep(0.01)
        with open(f"/proc/{child.pid}/stat") as file:
            sleeps = file.read().rpartition(")")[2].split()[0] == "S"
        if sleeps and os.path.exists("os2run.swp") and os.path.getsize("os2run.swp") > 0:
            return True
    return False


def while_it_waits(change):
    """Status, console and report of a run whose swap file somebody changes while it waits for a byte of its input."""
    child = subprocess.Popen([program(), "run", "waits.toml"], stdin=subprocess.PIPE, stdout=subprocess.PIPE, stderr=subprocess.PIPE)
    wants("a run that waits", awaits_input(child), "it doesn't wait, or it doesn't swap")
    if change:
        change("os2run.swp")
    console, report = child.communicate(b"x")
    return child.returncode, console, report.decode("latin-1")


def changed_underneath():
    """A block that comes back otherwise is a fault. A file that is replaced or removed is still the one that the run has open."""
    with open("waits.exe", "wb") as file:
        file.write(ne.Listing(WAITS).file())
    with open("waits.toml", "w") as file:
        file.write("memory = 20480\n" + EXE + 'modules = ["waits.exe"]\n[[process]]\nmodule = "WAITS"\n')
    wanted = while_it_waits(None)
    wants("a run that waits and swaps", wanted[:2] == (0, b"A" * 16384 + b"B" * 16384), wanted[::2])
    for change in (cut, overwritten, one_byte):
        status, console, report = while_it_waits(change)
        told = tail(10)
        well = status == 10 and console == b"" and report.endswith(told) and wanted[2].startswith(report[: -len(told)])
        wants(f"a swap file that is {change.__name__}", well, (status, console[:16], report[-80:]))
    for change in (replaced, os.remove):
        wants(f"a swap file that is {change.__name__}", while_it_waits(change) == wanted, "other texts")


def limited():
    """Past a limit on the size of files the system ends the program, unless the signal is ignored: then it is a fault of the swap file."""
    text = "ulimit -f 8; "
    shell = lambda front: subprocess.run(["/bin/bash", "-c", f"{front}{text}exec \"$0\" run waits.toml", program()], input=b"x", capture_output=True)
    wants("a limit on files", shell("").returncode == -signal.SIGXFSZ, shell("").returncode)
    wants("a limit on files, with the signal ignored", shell("trap '' XFSZ; ").returncode == 10, shell("trap '' XFSZ; ").returncode)


def full_run():
    """The first of 64 processes makes a run of all 4,096 shared selectors, the others get it in turn, and then all end."""
    end = ["6A 01", "6A 00", "9A FF FF 00 00 DosExit"]
    maker = ["68 00 10", "6A 00", "1E", "6A 00", "6A 00", "6A 03", "9A FF FF 00 00 DosAllocHuge"]
    getter = ["68 07 80", "9A FF FF 00 00 DosGetSeg"]
    for name, words in (("MAKER", maker + end), ("GETTER", getter + end)):
        rows, at = [], 0
        for word in words:
            code, _, call = word.partition(" Dos")
            rows.append(f"{at:04X}  {code}" + (f"  @{at + 1:04X} far DOSCALLS.Dos{call}" if call else ""))
            at += len(bytes.fromhex(code))
        listing = [f"module {name}", "stack 512", "start 1:0000", "segment 1 code", *rows, "segment 2 data auto size=16"]
        with open(f"{name}.exe", "wb") as file:
            file.write(ne.Listing("\n".join(listing)).file())
    pids = range(1, 65)
    script = ", ".join(f'"{pid}:{len(maker) if pid == 1 else len(getter)}"' for pid in pids)
    with open("a.toml", "w") as file:
        file.write("memory = 1048576\nswap = 2048\nsegments = 5000\nbudget = 1000000\nquantum = 1000\n")
        file.write(f'modules = ["MAKER.exe", "GETTER.exe"]\nscript = [{script}]\n[[process]]\nmodule = "MAKER"\n')
        file.write('[[process]]\nmodule = "GETTER"\n' * 63)
    lines = [line for pid in pids for line in
             [f"{pid} start {'MAKER' if pid == 1 else 'GETTER'}", *(f"{pid} hold {8 * k + 7:04X} by load" for k in (1, 2, 3))]]
    for pid in pids:
        call, by = ("1000 0000 0017:0000 0000 0003 = 0 8007", "DosAllocHuge") if pid == 1 else ("8007 = 0", "DosGetSeg")
        lines += [f"{pid} call {by} {call}", *(f"{pid} hold {0x8007 + 8 * k:04X} by {by}" for k in range(4096))]
    lines += [line for pid in pids for line in (f"{pid} call DosExit 0001 0000", f"{pid} end exit 0")]
    made = run(["run", "a.toml"])
    wants("a run of all shared selectors", made == (0, b"", "\n".join(lines) + "\nall ended\n"), made[2][-200:])


# A heap of 65,532 bytes is taken in blocks of four until there is none, and every second one is given back: then it has 8,191 free blocks. Behind
# that it is asked for more than any has, blocks are taken and joined, and the whole segment is written to the console.
BLOCKS = """module BLOCKS
stack 512
start 1:0000
segment 1 code
0000  68 1F 00 6A 01 6A 00 9A FF FF 00 00  @0008 far DOSCALLS.146
000C  68 1F 00 1E 6A 00 6A 04 9A FF FF 00 00 85 C0 74 EF  @0015 far DOSCALLS.147
001D  BE 08 00
0020  68 1F 00 56 6A 04 9A FF FF 00 00 83 C6 08 73 F0  @0027 far DOSCALLS.148
0030  68 1F 00 1E 6A 00 6A 08 9A FF FF 00 00  @0039 far DOSCALLS.147
003D  68 1F 00 1E 6A 00 6A 04 9A FF FF 00 00  @0046 far DOSCALLS.147
004A  68 1F 00 68 F4 FF 6A 04 9A FF FF 00 00  @0053 far DOSCALLS.148
0057  68 1F 00 1E 6A 00 6A 0C 9A FF FF 00 00  @0060 far DOSCALLS.147
0064  68 1F 00 6A 0C 6A 08 9A FF FF 00 00  @006C far DOSCALLS.148
0070  6A 01 68 1F 00 6A 00 68 FC FF 1E 6A 00 9A FF FF 00 00  @007E far DOSCALLS.138
0082  6A 01 6A 00 9A FF FF 00 00  @0087 far DOSCALLS.5
segment 2 data auto size=16
segment 3 data size=65532
"""
BLOCKS_ROOM = whole(0x8B) + whole(16 + 512) + 65536


def many_blocks():
    """The console and the report of that program, by sums: each block of four bytes is the front of the one free block, whose words stay in it."""
    heap, lines = bytearray(65532), ["call DosSubSet 001F 0001 0000 = 0"]
    for offset in range(8, 65532, 4):
        lines.append(f"call DosSubAlloc 001F 0017:0000 0004 = 0 {offset:04X}")
        struct.pack_into("<2H", heap, offset, 0, 65532 - offset)
    lines.append("call DosSubAlloc 001F 0017:0000 0004 = 311")
    for offset in range(8, 65532, 8):
        lines.append(f"call DosSubFree 001F {offset:04X} 0004 = 0")
        struct.pack_into("<2H", heap, offset, (offset + 8) % 65536, 4)
    struct.pack_into("<4H", heap, 0, 0x4253, 65532, 8, 0)
    # no block has eight bytes; the lowest has four; the two last ones are joined by what lies between, and taken; 000C joins nothing but 0010
    lines += ["call DosSubAlloc 001F 0017:0000 0008 = 311", "call DosSubAlloc 001F 0017:0000 0004 = 0 0008"]
    lines += ["call DosSubFree 001F FFF4 0004 = 0", "call DosSubAlloc 001F 0017:0000 000C = 0 FFF0", "call DosSubFree 001F 000C 0008 = 312"]
    struct.pack_into("<H", heap, 4, 0x10)
    struct.pack_into("<2H", heap, 0xFFF0, 0, 12)
    struct.pack_into("<H", heap, 0xFFE8, 0)
    lines += ["call DosWrite 0001 001F:0000 FFFC 0017:0000 = 0 FFFC", "call DosExit 0001 0000", "end exit 0"]
    opening = ["start BLOCKS"] + [f"hold {8 * index + 7:04X} by load" for index in range(1, 5)]
    return bytes(heap), "".join(f"1 {line}\n" for line in opening + lines) + "all ended\n"


# A heap is made in a segment of 20,000 bytes: one that can only be read, and one that can be written, too.
MADE = """module MADE
stack 512
start 1:0000
segment 1 code
0000  68 {:02X} 00 6A 01 6A 40 9A FF FF 00 00  @0008 far DOSCALLS.146
000C  6A 01 6A 00 9A FF FF 00 00  @0011 far DOSCALLS.5
segment 2 data auto size=16
segment 3 data readonly size=20000
segment 4 data size=20000
"""


def in_need(selector, error, memories):
    """A step needs the whole segment of its heap, 20,560 bytes with the code and the stack, and nothing of one in which no heap may lie."""
    with open("made.exe", "wb") as file:
        file.write(ne.Listing(MADE.format(selector)).file())
    opening = ["start MADE"] + [f"hold {8 * index + 7:04X} by load" for index in range(1, 6)]
    lines = [f"call DosSubSet {selector:04X} 0001 0040 = {error}", "call DosExit 0001 0000", "end exit 0"]
    for memory, is_enough in memories.items():
        with open("made.toml", "w") as file:
            file.write(f"memory = {memory}\n" + EXE + 'modules = ["made.exe"]\n[[process]]\nmodule = "MADE"\n')
        report = "".join(f"1 {line}\n" for line in opening + (lines if is_enough else []))
        wanted = (0, b"", report + tail(0)) if is_enough else (8, b"", report + tail(8))
        made = run(["run", "made.toml"])
        wants(f"a heap in {selector:04X}, in a memory of {memory}", made == wanted, made)


def heaps():
    """Heaps at random that two processes share; what a heap counts in need; and one of 8,191 free blocks, in the memory that holds what each of its
    steps needs, and in more."""
    at_random(Heaping, 40)
    in_need(0x1F, 315, {LEAST: True, AMPLE: True})
    in_need(0x27, 0, {LEAST: False, 20544: False, 20560: True, AMPLE: True})
    with open("blocks.exe", "wb") as file:
        file.write(ne.Listing(BLOCKS).file())
    console, report = many_blocks()
    for memory in (BLOCKS_ROOM - 16, BLOCKS_ROOM, AMPLE):
        with open("blocks.toml", "w") as file:
            file.write(f"memory = {memory}\n" + EXE + 'modules = ["blocks.exe"]\n[[process]]\nmodule = "BLOCKS"\n')
        made = run(["run", "blocks.toml"])
        if memory < BLOCKS_ROOM:
            opening = "".join(report.splitlines(True)[:5])
            wants("a heap that is larger than the memory", made == (8, b"", opening + tail(8)), (made[0], made[2][-200:]))
        else:
            different = [pair for pair in zip(made[2].splitlines(), report.splitlines()) if pair[0] != pair[1]][:2]
            wants(f"a heap of 8,191 free blocks in {memory}", made == (0, console, report), (made[0], made[1] == console, different, made[2][-80:]))


def every_size():
    global is_every_size
    is_every_size = True


PARTS = {"random": at_random, "calls": lambda: at_random(Calling, 100), "sharing": lambda: at_random(Sharing, 100),
         "discards": lambda: at_random(Discarding, 100), "heaps": heaps, "examples": examples, "rows": rows, "full": full_run, "swap": swap_file}
EVERY_SIZE = "run the programs at random in each memory from their room to 1 MiB in steps of 4,096 bytes, too: some 100,000 runs"

if __name__ == "__main__":
    trying.frame("memory", __doc__, PARTS, {"--all": (EVERY_SIZE, every_size)})
