"""The traces of the examples step by step by libx86emu: a loader and a processor that aren't this project's own."""
import os
import re
import struct
import subprocess

import heaps
import trying
from trying import EXAMPLES, program, wrong
from try_vectors import NAMES, built, unlike

STEP = re.compile(r"1 ([0-9A-F]{4}):([0-9A-F]{4}) ([0-9A-F]*) +(.*?)((?: (?:[ABCD]X|[SD]I|[BS]P|[CDES]S|IP|F)=[0-9A-F]{4})*)$")
PREFIXES = (0x26, 0x2E, 0x36, 0x3E, 0xF2, 0xF3)
STRINGS = (0xA4, 0xA5, 0xA6, 0xA7, 0xAA, 0xAB, 0xAC, 0xAD, 0xAE, 0xAF)
# The calls that are built, with their ordinals and the numbers of their gates.
GATES = {"DosExit": 1, "DosGetPID": 2, "DosRead": 3, "DosWrite": 4, "DosAllocSeg": 5, "DosReallocSeg": 6, "DosFreeSeg": 7, "DosSizeSeg": 8,
         "DosLockSeg": 9, "DosUnlockSeg": 10, "DosCreateCSAlias": 11, "DosAllocShrSeg": 12, "DosGetShrSeg": 13, "DosGiveSeg": 14, "DosGetSeg": 15,
         "DosAllocHuge": 16, "DosReallocHuge": 17, "DosGetHugeShift": 18, "DosMemAvail": 19, "DosSubSet": 20, "DosSubAlloc": 21, "DosSubFree": 22,
         "DosSemRequest": 25, "DosSemClear": 26, "DosSemWait": 27, "DosSemSet": 28}
ORDINALS = {5: "DosExit", 94: "DosGetPID", 137: "DosRead", 138: "DosWrite", 34: "DosAllocSeg", 38: "DosReallocSeg", 39: "DosFreeSeg", 126: "DosSizeSeg",
            122: "DosLockSeg", 123: "DosUnlockSeg", 43: "DosCreateCSAlias", 35: "DosAllocShrSeg", 36: "DosGetShrSeg", 37: "DosGiveSeg", 121: "DosGetSeg",
            40: "DosAllocHuge", 42: "DosReallocHuge", 41: "DosGetHugeShift", 127: "DosMemAvail", 146: "DosSubSet", 147: "DosSubAlloc", 148: "DosSubFree",
            140: "DosSemRequest", 141: "DosSemClear", 142: "DosSemWait", 143: "DosSemSet"}
# What calls on a semaphore write there, of process 1.
SEMAPHORES = {"DosSemRequest": 1, "DosSemClear": 0, "DosSemSet": 0xFFFF}
GROUPS = (0x80, 0x81, 0x83, 0xC0, 0xC1, 0xD0, 0xD1, 0xD2, 0xD3, 0xF6, 0xF7)
ARITHMETIC = 0x0CD5


def words_at(file, at, count):
    return struct.unpack_from(f"<{count}H", file, at)


def string_at(file, at):
    return file[at + 1 : at + 1 + file[at]]


def patch(bytes_, place, source, value, additive):
    """Puts selector and offset, or one of them, at a place, or at each place of its chain."""
    selector, offset = value
    while True:
        following = words_at(bytes_, place, 1)[0] if source else 0xFFFF
        for at, part in {0: [], 2: [(0, selector)], 3: [(0, offset), (2, selector)], 5: [(0, offset)]}[source]:
            before = words_at(bytes_, place + at, 1)[0] if additive else 0
            struct.pack_into("<H", bytes_, place + at, (before + part) % 65536)
        if source == 0:
            bytes_[place] = (offset + (bytes_[place] if additive else 0)) % 256
        if additive or following == 0xFFFF:
            return
        place = following


def entries_of(file, at, size):
    """Segment and offset of each entry of an entry table of so many bytes, by ordinal."""
    entries, ordinal, end = {}, 0, at + size
    while at < end and file[at]:
        count, kind = file[at], file[at + 1]
        at += 2
        for _ in range(count):
            ordinal += 1
            if kind == 255:
                entries[ordinal] = (file[at + 3], words_at(file, at + 4, 1)[0])
            elif kind:
                entries[ordinal] = (kind, words_at(file, at + 1, 1)[0])
            at += 6 if kind == 255 else 3 if kind else 0
    return entries


def loaded(file):
    """The segments of an executable that imports calls of DOSCALLS alone, by their selectors, and the registers at the start."""
    at = struct.unpack_from("<I", file, 0x3C)[0]
    _, auto, heap, stack, ip, cs, sp, ss, count = words_at(file, at + 0x0C, 9)
    table, _, resident, _, imported = words_at(file, at + 0x22, 5)
    shift = words_at(file, at + 0x32, 1)[0]
    name = string_at(file, at + resident)
    place, size = words_at(file, at + 4, 2)
    entries = entries_of(file, at + place, size)
    segments = {}
    for number in range(1, count + 1):
        sector, held, kind, size = words_at(file, at + table + 8 * (number - 1), 4)
        place, held = sector << shift, (held or 65536) if sector else 0
        size = (size or 65536) + (stack + heap if number == auto else 0)
        bytes_ = bytearray(file[place : place + held].ljust(size, b"\0"))
        for k in range(words_at(file, place + held, 1)[0] if kind & 0x100 else 0):
            source, flags, spot, first, second = struct.unpack_from("<BBHHH", file, place + held + 2 + 8 * k)
            if flags & 3:
                call = ORDINALS[second] if flags & 3 == 1 else string_at(file, at + imported + second).decode("ascii")
                value = (8 * (16 + GATES[call]) + 3, 0)
            else:
                target = entries[second] if first == 255 else (first, second)
                value = (8 * target[0] + 7, target[1])
            patch(bytes_, spot, source, value, flags & 4)
        segments[8 * number + 7] = bytes_
    segments[8 * count + 15] = bytearray(b"\0" + name + b"\0\0\0")
    whole = len(segments.get(8 * auto + 7, b""))
    regs = {"ax": 8 * count + 15, "bx": 1, "cx": whole % 65536, "dx": stack, "si": heap, "di": 1, "bp": 0, "es": 0, "flags": 0x0202, "cs": 8 * cs + 7, "ip": ip,
            "ds": 8 * auto + 7 if auto else 0, "ss": 8 * (ss or auto) + 7, "sp": sp if sp or (ss or auto) != auto else whole % 65536 & 0xFFFE}
    return segments, regs


class Processor:
    """libx86emu, which takes one step at a time."""

    def __init__(self):
        self.run = subprocess.Popen(["./steps"], stdin=subprocess.PIPE, stdout=subprocess.PIPE, text=True)

    def step(self, regs, segments):
        """Takes a step, and gives the registers behind it; the bytes change where they are. Segment n lies at n * 65536."""
        cells = [(selector // 8 * 65536 + at, byte) for selector, bytes_ in segments.items() for at, byte in enumerate(bytes_)]
        bases = [regs[name] // 8 * 65536 for name in ("cs", "ss", "ds", "es")]
        numbers = [*(regs[name] for name in NAMES), *bases, len(cells), *(part for cell in cells for part in cell)]
        self.run.stdin.write(" ".join(map(str, numbers)) + "\n")
        self.run.stdin.flush()
        got = [int(word) for word in self.run.stdout.readline().split()]
        behind = iter(got[14:])
        for bytes_ in segments.values():
            bytes_[:] = bytes(next(behind) for _ in bytes_)
        return dict(zip(NAMES, got))


def row_of(code):
    """The opcode, with the digit behind it in a group, as `unlike` names it."""
    while code[0] in PREFIXES:
        code = code[1:]
    return f"{code[0]:02X}.{code[1] >> 3 & 7}" if code[0] in GROUPS else f"{code[0]:02X}"


def is_alike(code):
    """Whether libx86emu does it as the processor in protected mode does."""
    return row_of(code) not in ("0F", "9C", "9D", "CF") and code != b"\xFF\xD4"


def served(segments, call, source):
    """What a call that has returned wrote, by its line in the report, and for DosRead the bytes of the input."""
    name, words, error, values = re.match(r"\| 1 call (\w+) (.*?) = (\d+)(.*)$", call).groups()
    if error != "0" or name == "DosExit":
        return
    pointers = [tuple(int(part, 16) for part in word.split(":")) for word in words.split(" ") if ":" in word]
    first, *others = [int(word, 16) for word in words.split(" ") if ":" not in word] or [0]
    numbers = [int(value, 16) for value in values.split()]
    if name.startswith("DosSub") and not heaps.called(segments[first | 7], name, others, numbers):
        wrong(f"{call!r}: the segment's bytes say something else")
    if name in SEMAPHORES:
        selector, at = pointers[0]
        struct.pack_into("<I", segments[selector | 7], at, SEMAPHORES[name])
    elif pointers:
        selector, at = pointers[-1]
        form = "<I" if name in ("DosMemAvail", "DosSizeSeg") else f"<{len(numbers)}H"
        struct.pack_into(form, segments[selector], at, *numbers)
    if name == "DosAllocSeg":
        segments[numbers[0]] = bytearray(first or 65536)
    elif name == "DosReallocSeg":
        selector = others[0] | 7
        segments[selector] = segments[selector][: first or 65536].ljust(first or 65536, b"\0")
    elif name == "DosFreeSeg":
        del segments[first | 7]
    if name == "DosRead":
        selector, at = pointers[0]
        segments[selector][at : at + numbers[0]] = source.read(numbers[0])


def repeated(processor, code, regs, segments):
    """One repetition: libx86emu would do all of them, so it is given one."""
    left = regs["cx"]
    behind = (regs["ip"] + len(code)) % 65536
    if left == 0:
        return {**regs, "ip": behind}
    got = processor.step({**regs, "cx": 1}, segments)
    compares = code[-1] & 0xF6 in (0xA6, 0xAE)
    over = left == 1 or compares and bool(got["flags"] & 0x40) != (0xF3 in code[:-1])
    return {**got, "cx": left - 1, "ip": behind if over else regs["ip"]}


def step_as(processor, code, regs, segments):
    """The registers behind a step, as libx86emu has it."""
    if code[-1] in STRINGS and (0xF2 in code[:-1] or 0xF3 in code[:-1]):
        return repeated(processor, code, regs, segments)
    return processor.step(regs, segments)


def told(regs, code, changes):
    """The registers behind a step, by those that a trace says have changed."""
    named = {word.split("=")[0]: int(word.split("=")[1], 16) for word in changes.split()}
    behind = {"IP": (regs["ip"] + len(code)) % 65536, **named}
    return {name: behind.get("F" if name == "flags" else name.upper(), regs[name]) for name in NAMES}


def groups(trace):
    """Each step of a trace with the lines behind it."""
    found = []
    for line in trace.splitlines():
        step = STEP.match(line)
        if step:
            found.append((line, int(step[1], 16), int(step[2], 16), bytes.fromhex(step[3]), step[5], []))
        elif found:
            found[-1][5].append(line)
    return found


def replay(name, file, trace, source):
    """Each step of a trace of one process: where it is, its bytes, and the registers behind it; how many were compared with libx86emu."""
    segments, regs = loaded(file)
    processor, compared = Processor(), 0
    for line, cs, ip, code, changes, behind in groups(trace):
        trying.count()
        if (cs, ip) != (regs["cs"], regs["ip"]) or segments[cs][ip : ip + len(code)] != code:
            wrong(f"{name}: {line!r}, where {regs['cs']:04X}:{regs['ip']:04X} is next, and {bytes(segments.get(cs, b'')[ip : ip + 10]).hex()} stands there")
            break
        if any(row.startswith(("!", "| 1 end")) for row in behind):
            break
        if line.endswith(" waits"):
            continue
        wanted, called = told(regs, code, changes), [row for row in behind if row.startswith("| 1 call")]
        if called:
            served(segments, called[0], source)
        elif is_alike(code):
            compared += 1
            got = step_as(processor, code, regs, segments)
            flags = (got["flags"] ^ wanted["flags"]) & ARITHMETIC & ~unlike(row_of(code))
            if flags or any(got[key] != wanted[key] for key in NAMES if key != "flags"):
                wrong(f"{name}: {line!r}, where libx86emu has {({key: f'{value:04X}' for key, value in got.items()})}")
                break
        regs = wanted
    processor.run.stdin.close()
    processor.run.wait()
    return compared


def check_replay():
    """The traces of all examples that `exe` runs, """
    if not built():
        print("traces: libx86emu or a C compiler isn't installed (apt-get install gcc libx86emu-dev), so none is compared with it")
        return
    compared = names = 0
    for folder, _, files in sorted(os.walk(EXAMPLES)):
        for file in sorted(files):
            name, end = os.path.splitext(file)
            if end != ".report" or name + ".exe" not in files or name + ".toml" in files:
                continue
            with open(os.path.join(folder, name + ".exe"), "rb") as program_file:
                image = program_file.read()
            stream = os.path.join(folder, name + ".input")
            stream = stream if os.path.exists(stream) else os.devnull
            with open(stream, "rb") as source:
                run = subprocess.run([program("os2trace"), "exe", name + ".exe"], cwd=folder, stdin=source, stdout=subprocess.PIPE)
            with open(stream, "rb") as source:
                compared += replay(name, image, run.stdout.decode("ascii"), source)
            names += 1
    print(f"traces: {compared} steps of {names} examples are those of libx86emu")
