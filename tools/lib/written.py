"""What the programs of a machine file have in their segments behind each step, by a loader and a processor that aren't this project's own: executables
are linked here, libx86emu takes the steps, and of calls the lines of the report say what they gave. The order of the steps, and the registers behind
each of them, are those of a trace (os2trace)."""
import json
import os
import re
import shutil
import struct
import subprocess

import heaps
import trying
from try_replay import GATES, ORDINALS, SEMAPHORES, STRINGS, entries_of, is_alike, patch, string_at, told, words_at
from try_vectors import NAMES

STEP = re.compile(r"(\d+) ([0-9A-F]{4}):([0-9A-F]{4}) ([0-9A-F]*) +(.*?)((?: (?:[ABCD]X|[SD]I|[BS]P|[CDES]S|IP|F)=[0-9A-F]{4})*)$")
SHARED = 4096


def built():
    """The other processor as a program, or None where there is none."""
    path = os.path.abspath("run")
    build = shutil.which("cc") and subprocess.run(["cc", "-o", path, os.path.join(trying.LIB, "x86emu_run.c"), "-lx86emu"], capture_output=True)
    return path if build and build.returncode == 0 else None


class Astray(Exception):
    """A trace isn't that of what is loaded here."""


def setting_of(text):
    """The keys of a machine file, each on a line of its own, with its processes as a list."""
    setting = table = {"process": []}
    for line in text.splitlines():
        key = re.match(r'(\w+)\s*=\s*(\[.*?\]|"(?:[^"\\]|\\.)*"|\d+)', line)
        if line.strip() == "[[process]]":
            table = {}
            setting["process"].append(table)
        elif key:
            table[key[1]] = json.loads(key[2])
    return setting


class Segment:
    """Bytes that somebody holds. They lie at `base` in the memory of the other processor, each segment apart from all others. A discardable one
    has a count of locks, and one that was discarded is gone."""

    def __init__(self, base, size):
        self.base, self.size, self.is_discardable, self.lock, self.gone = base, size, False, 0, False


class Module:
    """An executable: header, segments, entries and exported names."""

    def __init__(self, file):
        self.file = file
        self.at = at = struct.unpack_from("<I", file, 0x3C)[0]
        self.flags, self.auto, self.heap, self.stack, self.ip, self.cs, self.sp, self.ss, count = words_at(file, at + 0x0C, 9)
        references, = words_at(file, at + 0x1E, 1)
        table, _, resident, places, self.imported = words_at(file, at + 0x22, 5)
        behind, = struct.unpack_from("<I", file, at + 0x2C)
        shift, = words_at(file, at + 0x32, 1)
        self.is_library = bool(self.flags & 0x8000)
        self.name = string_at(file, at + resident).decode("latin-1").upper()
        self.names = {**self.listed(at + resident), **(self.listed(behind) if words_at(file, at + 0x20, 1)[0] else {})}
        place, size = words_at(file, at + 4, 2)
        self.entries = entries_of(file, at + place, size)
        self.references = [string_at(file, at + self.imported + words_at(file, at + places + 2 * k, 1)[0]).decode("latin-1").upper() for k in range(references)]
        self.table = [words_at(file, at + table + 8 * k, 4) for k in range(count)]
        self.shift = shift or 9

    def listed(self, at):
        """Ordinals by the names of a table, but for the first, which is the module's own."""
        names, at = {}, at + self.file[at] + 3
        while self.file[at]:
            names[string_at(self.file, at).decode("latin-1").upper()] = words_at(self.file, at + 1 + self.file[at], 1)[0]
            at += self.file[at] + 3
        return names

    def extent(self, number):
        """Where the bytes of a segment are in the file, how many there are, its flags, and its size in memory."""
        sector, held, kind, least = self.table[number - 1]
        held = (held or 65536) if sector else 0
        more = self.stack * (not self.is_library) + self.heap if number == self.auto else 0
        return sector << self.shift, held, kind, max(held, least or 65536) + more

    def is_own(self, number):
        """Whether each process has a segment of its own."""
        kind = self.table[number - 1][2]
        return kind & 0x81 == 1 and not kind & 0x20 and not (self.is_library and self.flags & 3 == 1)


class Linked:
    """The modules of a machine file, with the selectors of their segments."""

    def __init__(self, files, shim=None):
        self.modules, at = [Module(file) for file in files], SHARED
        self.by_name = {module.name: module for module in self.modules}
        # the library that answers for DOSCALLS where no call is built
        self.shim = self.by_name[shim.upper()] if shim else None
        for module in self.modules:
            module.first = at if module.is_library else 1
            at += len(module.table) if module.is_library else 0

    def selector(self, module, number):
        return 8 * (module.first + number - 1) + 7

    def target(self, module, flags, first, second):
        """The selector and the offset to which a record leads."""
        if flags & 3 == 0:
            number, offset = module.entries[second] if first & 255 == 255 else (first & 255, second)
            return self.selector(module, number), offset
        other = module.references[first - 1]
        name = None if flags & 3 == 1 else string_at(module.file, module.at + module.imported + second).decode("latin-1")
        call = name or ORDINALS.get(second)
        if other == "DOSCALLS" and (call in GATES or not self.shim):
            return 8 * (16 + GATES[call]) + 3, 0
        library = self.shim if other == "DOSCALLS" else self.by_name[other]
        number, offset = library.entries[second if name is None else library.names[name.upper()]]
        return self.selector(library, number), offset

    def image(self, module, number):
        """The bytes of a segment as they are linked, up to those that the file has."""
        place, held, kind, _ = module.extent(number)
        bytes_ = bytearray(module.file[place : place + held])
        for k in range(words_at(module.file, place + held, 1)[0] if kind & 0x100 and held else 0):
            source, flags, spot, first, second = struct.unpack_from("<BBHHH", module.file, place + held + 2 + 8 * k)
            if flags & 3 != 3:
                patch(bytes_, spot, source, self.target(module, flags, first, second), flags & 4)
        return bytes(bytes_)

    def reached(self, module):
        """The libraries that a program's references reach, in the order of the machine file."""
        found, left = set(), [module]
        while left:
            for name in left.pop().references:
                name = self.shim.name if name == "DOSCALLS" and self.shim else name
                if name != "DOSCALLS" and name not in found:
                    found.add(name)
                    left.append(self.by_name[name])
        return [library for library in self.modules if library.name in found]


class Process:
    """What a process holds, by selector: the segment and how often; and its registers."""

    def __init__(self):
        self.held, self.regs, self.is_live = {}, {}, True


class Written:
    """The processes of a machine, whose segments lie in the memory of the other processor."""

    def __init__(self, processor, setting, files, source):
        self.linked, self.source, self.count = Linked(files, setting.get("shim")), source, 0
        self.run = subprocess.Popen([processor], stdin=subprocess.PIPE, stdout=subprocess.PIPE, text=True)
        # segments that all processes share; images by the module's place and the segment's number, and of environments by 0 and the
        # process; how many segments each run has; what a call makes, and whether that is discardable
        self.common, self.processes, self.images, self.runs, self.news, self.is_discardable = {}, {}, {}, {}, [], False
        for number, module in enumerate(self.linked.modules, 1):
            for segment in range(1, len(module.table) + 1):
                self.images[number, segment] = self.linked.image(module, segment)
        for pid, row in enumerate(setting["process"], 1):
            self.processes[pid] = self.start(pid, row)

    # ---- the memory of the other processor

    def put(self, segment, at, bytes_):
        for k in range(0, len(bytes_), 4096):
            self.run.stdin.write(f"w {segment.base + at + k} {bytes_[k : k + 4096].hex()}\n")

    def get(self, segment, at=0, count=None):
        self.run.stdin.write(f"r {segment.base + at} {segment.size - at if count is None else count}\n")
        self.run.stdin.flush()
        return bytes.fromhex(self.run.stdout.readline())

    # ---- the start

    def made(self, bytes_, size):
        self.count += 1
        segment = Segment(self.count << 16, size)
        self.put(segment, 0, bytes_)
        return segment

    def loaded(self, module, number, place):
        """A segment of a module: of each process that takes it, or of all."""
        key = place, number
        if module.is_own(number) or key not in self.common:
            segment = self.made(self.images[key], module.extent(number)[3])
            if module.is_own(number):
                return segment
            self.common[key] = segment
        return self.common[key]

    def start(self, pid, row):
        name = row["module"].encode()
        module = self.linked.by_name[row["module"].upper()]
        process = Process()
        for one in [module, *self.linked.reached(module)]:
            place = self.linked.modules.index(one) + 1
            for number in range(1, len(one.table) + 1):
                process.held[self.linked.selector(one, number)] = [self.loaded(one, number, place), 1]
        strings = b"".join(text.encode() + b"\0" for text in row.get("environment", ()))
        self.images[0, pid] = strings + b"\0" + name + b"\0" + row.get("arguments", "").encode() + b"\0\0"
        own = 8 * len(module.table) + 15
        process.held[own] = [self.made(self.images[0, pid], len(self.images[0, pid])), 1]
        whole = module.extent(module.auto)[3] if module.auto else 0
        stack = module.ss or module.auto
        process.regs = {"ax": own, "bx": len(strings) + 1, "cx": whole % 65536, "dx": module.stack, "si": module.heap, "bp": 0, "es": 0, "flags": 0x0202,
                        "di": self.linked.modules.index(module) + 1, "cs": 8 * module.cs + 7, "ip": module.ip, "ds": 8 * module.auto + 7 if module.auto else 0,
                        "ss": 8 * stack + 7, "sp": module.sp if module.sp or module.ss not in (0, module.auto) else whole % 65536 & 0xFFFE}
        return process

    # ---- calls

    def called(self, pid, name, words, values):
        """What a call that has come to no error writes, and the segments that it makes or gives another size."""
        held = self.processes[pid].held
        pointers = [tuple(int(part, 16) for part in word.split(":")) for word in words if ":" in word]
        numbers = [int(word, 16) for word in words if ":" not in word]
        given = [int(value, 16) for value in values]
        if name == "DosRead" and given[0]:
            selector, at = pointers[0]
            self.put(held[selector | 3][0], at, self.source.read(given[0]))
        if name.startswith("DosSub"):
            segment = held[numbers[0] | 3][0]
            data = bytearray(self.get(segment))
            if not heaps.called(data, name, numbers[1:], given):
                raise Astray(f"{name} {words} = {values}, where the segment's bytes say something else")
            self.put(segment, 0, bytes(data))
        if name in SEMAPHORES:
            selector, at = pointers[0]
            self.put(held[selector | 3][0], at, struct.pack("<I", pid if name == "DosSemRequest" else SEMAPHORES[name]))
        elif pointers:
            selector, at = pointers[-1]
            form = "<I" if name in ("DosMemAvail", "DosSizeSeg") else f"<{len(given)}H"
            self.put(held[selector | 3][0], at, struct.pack(form, *given))
        self.is_discardable = name == "DosAllocSeg" and numbers[1] & 4 != 0
        if name in ("DosAllocSeg", "DosAllocShrSeg"):
            self.news = [numbers[0] or 65536]
        elif name == "DosReallocSeg":
            segment = held[numbers[1] | 3][0]
            self.sized(segment, numbers[0] or 65536)
            if segment.gone:
                segment.lock, segment.gone = 1, False
        elif name in ("DosLockSeg", "DosUnlockSeg"):
            segment = held[numbers[0] | 3][0]
            if segment.lock < 255:
                segment.lock += 1 if name == "DosLockSeg" else -1
        elif name == "DosCreateCSAlias":
            self.news = [held[numbers[0] | 3][0]]
        elif name in ("DosAllocHuge", "DosReallocHuge"):
            self.run_of(pid, given[0] if name == "DosAllocHuge" else numbers[2] | 3, [65536] * numbers[0] + [numbers[1]] * (numbers[1] > 0))

    def sized(self, segment, size):
        self.put(segment, segment.size, bytes(max(size - segment.size, 0)))
        segment.size = size

    def run_of(self, pid, first, sizes):
        """A run has these sizes: its segments so far, and then new ones."""
        owner = 0 if first >> 3 >= SHARED else pid
        count = self.runs.get((owner, first), 0) if first in self.processes[pid].held else 0
        self.runs[owner, first] = len(sizes)
        for k, size in enumerate(sizes[:count]):
            self.sized(self.processes[pid].held[first + 8 * k][0], size)
        self.news = sizes[count:]

    def holder(self, selector):
        """The segment that processes share under a selector, if one of them holds it."""
        return next((it.held[selector][0] for it in self.processes.values() if selector >> 3 >= SHARED and selector in it.held), None)

    def made_by_call(self, size):
        segment = self.made(bytes(size), size)
        segment.is_discardable, segment.lock = self.is_discardable, int(self.is_discardable)
        return segment

    def discard(self):
        """The word `discard`: zeros are left of what is discardable, not locked, and in no segment register of a process that lives."""
        living = [it for it in self.processes.values() if it.is_live]
        seated = [it.held[it.regs[name] | 3][0] for it in living for name in ("cs", "ss", "ds", "es") if it.regs[name] | 3 in it.held]
        for segment in [segment for it in self.processes.values() for segment, _ in it.held.values()]:
            if segment.is_discardable and not segment.lock and segment not in seated:
                self.put(segment, 0, bytes(segment.size))
                segment.gone = True

    def moved(self, pid, what, selector):
        """A line of a hold or of a drop behind a call."""
        held = self.processes[pid].held
        if what == "hold":
            new = held[selector][0] if selector in held else self.holder(selector) or self.news.pop(0)
            segment = self.made_by_call(new) if isinstance(new, int) else new
            held[selector] = [segment, 1 + (held[selector][1] if selector in held else 0)]
        elif held[selector][1] > 1:
            held[selector][1] -= 1
        else:
            del held[selector]

    # ---- steps

    def stepped(self, process, code):
        """A step of the processor, or one repetition. What libx86emu doesn't do as the processor does in protected mode is done here."""
        regs = process.regs
        if not is_alike(code):
            pushed = {b"\x9C": regs["flags"], b"\xFF\xD4": (regs["ip"] + 2) % 65536}.get(code)
            if pushed is not None:
                self.put(process.held[regs["ss"] | 3][0], (regs["sp"] - 2) % 65536, struct.pack("<H", pushed))
            return
        is_repeated = code[-1] in STRINGS and (0xF2 in code[:-1] or 0xF3 in code[:-1])
        if not is_repeated or regs["cx"]:
            bases = [process.held[regs[name] | 3][0].base if regs[name] | 3 in process.held else 0 for name in ("cs", "ss", "ds", "es")]
            given = {**regs, "cx": 1} if is_repeated else regs
            self.run.stdin.write("s " + " ".join(map(str, [*(given[name] for name in NAMES), *bases])) + "\n")

    def lines(self, behind):
        """What the lines of the report behind a step say."""
        for line in behind:
            call = re.match(r"\| (\d+) call (\w+) (.*?) ?= 0(.*)$", line)
            move = re.match(r"\| (\d+) (hold|drop) ([0-9A-F]{4}) by (\w+)$", line)
            end = re.match(r"\| (\d+) end ", line)
            if call:
                self.called(int(call[1]), call[2], call[3].split(), call[4].split())
            elif move:
                self.moved(int(move[1]), move[2], int(move[3], 16))
            elif end:
                process = self.processes[int(end[1])]
                process.held, process.is_live = {}, False

    def step(self, line, found, behind):
        process = self.processes[int(found[1])]
        regs, code = process.regs, bytes.fromhex(found[4])
        if (int(found[2], 16), int(found[3], 16)) != (regs["cs"], regs["ip"]) or self.get(process.held[regs["cs"] | 3][0], regs["ip"], len(code)) != code:
            raise Astray(f"{line!r}, where {regs['cs']:04X}:{regs['ip']:04X} is next, and other bytes may stand there")
        if line.endswith(" waits"):
            return
        faults = [it for it in behind if it.startswith("! ")]
        is_call = any(re.match(rf"\| {found[1]} call ", it) for it in behind)
        if not is_call and all(it.endswith("behind the step") for it in faults):
            self.stepped(process, code)
        process.regs = told(regs, code, found[6])
        self.lines(behind)

    def snapshot(self):
        """By process and selector the segment, how often it is held, its bytes, and whether it was discarded; and the registers of those that live."""
        held = {pid: {selector: (segment.base, holds, self.get(segment), segment.gone) for selector, (segment, holds) in it.held.items()}
                for pid, it in self.processes.items()}
        return held, {pid: it.regs for pid, it in self.processes.items() if it.is_live}


def groups(trace):
    """The lines of the starts; and each step of a trace with the lines behind it."""
    start, steps = [], []
    for line in trace.splitlines():
        found = STEP.match(line)
        if found:
            steps.append((line, found, []))
        else:
            (steps[-1][2] if steps else start).append(line)
    return start, steps


def snapshots(processor, setting, files, source, trace, wanted):
    """What there is behind these steps of a trace, or behind its last one, and the images of the modules."""
    start, steps = groups(trace)
    machine, found = Written(processor, setting, files, source), {}
    holds = [f"| {pid} hold {selector:04X} by load" for pid, it in machine.processes.items() for selector in sorted(it.held)]
    if holds != [line for line in start if " hold " in line]:
        raise Astray(f"{start}, where {holds} are loaded")
    found[0] = machine.snapshot()
    for number, (before, step) in enumerate(zip([start, *(behind for _, _, behind in steps)], steps), 1):
        if "discard" in before:
            machine.discard()
        machine.step(*step)
        if number in wanted or number == len(steps):
            found[number] = machine.snapshot()
    machine.run.stdin.close()
    machine.run.wait()
    return found, machine.images
