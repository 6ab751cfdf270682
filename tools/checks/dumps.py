#!/usr/bin/env python3
"""Tries the core images that the program dumps, against a reader and a model of its own.

    calls      programs at random that call on segments (tools/lib/calls_at_random.py), such that share them, and such whose segments a script
               discards, dumped at some of their steps in memories from what they need to 1 MiB: each process must hold just what it holds in
               the model, and as often, with its selectors and BX, and each segment have its size, flags, lock and bytes, wherever it lies,
               under a descriptor that says where that is, and be discarded or not
    examples   each example dumped at some of its steps in the least memory in which it comes so far, and in an ample one, and each that is
               stopped where it stops: registers, what is held and the bytes of each segment must be the same, ends and holds those of the report,
               and os2core must show of each image what the reader here finds in it, segment by segment, and of the two what differs. Each
               segment must have the bytes that the programs wrote by libx86emu, over executables that are linked here (tools/lib/written.py;
               where libx86emu and a C compiler are installed)
    stops      a program whose segment was in swap blocks when a script discarded it, and which then asks for a larger one than there is room for:
               before the step for which the run stops the segment is discarded, with the size that it had, and before the word it isn't
    damage     an image with segments in memory, in blocks, in an image and of zeros: each of its bytes changed, each length cut, and bytes
               behind it are refused, or read, by os2core as by the reader here

OS2RUN, OS2CORE and OS2TRACE in the environment name other programs to try; SEED another beginning.
"""
import concurrent.futures
import glob
import io
import os
import random
import re
import shutil
import subprocess
import sys

sys.dont_write_bytecode = True
sys.path.insert(0, os.path.join(os.path.dirname(os.path.realpath(__file__)), "..", "lib"))
import trying
from trying import EXAMPLES, program, wants
import core_image
import core_shown
import memory
import ne
import written
from calls_at_random import CODE, DATA, ENVIRONMENT, FRONT

KEPT = {"data": 0xF3, "alias": 0xFB, "code": 0xFB}
# How many bytes are known in the model of code and data; behind them are the stack and what isn't reckoned.
FRONTS = {CODE: 0, DATA: FRONT}
# How many segments of images were discarded, and how many not.
discarded = {False: 0, True: 0}
# How many steps of an example are looked at.
STEPS = 4000


class Snapshot:
    """What each process holds behind a step, with copies of the bytes."""

    def __init__(self, step, machine):
        self.step = step
        copies = {id(segment): (bytes(segment.bytes), segment.flags, segment.lock, segment.gone) for segment in machine.names()}
        self.held = {it.pid: {index: (id(hold.segment), hold.kind, hold.count) for index, hold in it.held.items()} for it in machine.modules}
        self.live = {it.pid: it.live for it in machine.modules}
        self.registers = {it.pid: (it.cs, it.ds, it.es, it.bx) for it in machine.modules}
        self.segments = copies
        # (by the segment, which another index of the process may be an alias of)
        self.fronts = {id(it.held[index].segment): front for it in machine.modules for index, front in FRONTS.items() if index in it.held}


class Dumped:
    """Processes of a kind, with what there is behind some of their steps."""

    def __init__(self, dice):
        self.snapshots, self.done, self.picker = [], 0, random.Random(dice.random())
        super().__init__(dice)

    def step(self, it):
        told = super().step(it)
        self.done += 1
        if self.picker.random() < 0.03:
            self.snapshots.append(Snapshot(self.done, self))
        return told


class DumpedCalling(Dumped, memory.Calling):
    pass


class DumpedSharing(Dumped, memory.Sharing):
    pass


class DumpedDiscarding(Dumped, memory.Discarding):
    pass


def read(title, file):
    """The image of a file, where it is one."""
    try:
        core = core_image.Read(file)
    except core_image.Refused as why:
        wants(f"{title}: an image", False, str(why))
        return None
    wants(f"{title}: an image", True)
    return core


def described(core, entries):
    """The first index whose descriptor doesn't say where its segment is, or None."""
    for index, (limit, base, access, number, _) in entries.items():
        entry = core.segments[number]
        there = entry.place is not None and entry.place[0] == "memory"
        if limit + 1 != entry.size or base != (entry.place[1] if there else 0) or bool(access & 0x80) != there:
            return index
    return None


def tidy(core):
    """What no image may have: a locked segment out of memory, a clean one in blocks, and one that nobody holds."""
    held = {number for _, _, _, entries in core.processes.values() for _, _, _, number, _ in entries.values()}
    for number, entry in enumerate(core.segments):
        kind = entry.place and entry.place[0]
        if entry.lock and kind != "memory" or entry.clean and kind == "swap" or number not in held:
            return number
    return None


def as_in_model(title, core, machine, snapshot):
    wants(f"{title}: processes", sorted(core.processes) == sorted(snapshot.live), sorted(core.processes))
    names = {}
    for it in machine.modules:
        state, _, registers, entries = core.processes[it.pid]
        held = snapshot.held[it.pid]
        wants(f"{title}: process {it.pid} lives or not", (state == 0) == snapshot.live[it.pid], state)
        words = tuple(registers[name] for name in ("cs", "ds", "es", "bx"))
        wants(f"{title}: registers of process {it.pid}", words == snapshot.registers[it.pid], (words, snapshot.registers[it.pid]))
        wants(f"{title}: what process {it.pid} holds", sorted(entries) == sorted(held), (sorted(entries), sorted(held)))
        wants(f"{title}: descriptors of process {it.pid}", described(core, entries) is None, described(core, entries))
        for index in set(entries) & set(held):
            name, kind, count = held[index]
            _, _, access, number, holds = entries[index]
            entry = core.segments[number]
            content, flags, lock, gone = snapshot.segments[name]
            wants(f"{title}: one number for one segment", names.setdefault(name, number) == number, (names[name], number))
            wants(f"{title}: how often {it.pid}:{index} is held", holds == count, (holds, count))
            size = it.whole_code if index == CODE else len(content)
            marks = (entry.size, entry.flags if index > ENVIRONMENT else 0, entry.lock, bool(entry.gone))
            discarded[gone] += 1
            wants(f"{title}: size, flags, lock and discarding of {it.pid}:{index}", marks == (size, flags, lock, gone), (marks, size, flags, lock, gone))
            wants(f"{title}: access of {it.pid}:{index}", access & 0x1E == KEPT[kind] & 0x1E & ~1, f"{access:02X}")
            front = snapshot.fronts.get(name)
            if entry.bytes is not None and front != 0:
                wants(f"{title}: bytes of {it.pid}:{index}", entry.bytes[:front] == content[:front], "other bytes")
    wants(f"{title}: places", tidy(core) is None, tidy(core))


def core_said(*words):
    """What os2core comes to: its status and both of its texts."""
    run = subprocess.run([program("os2core"), *words], stdin=subprocess.DEVNULL, capture_output=True, text=True)
    return run.returncode, run.stdout, run.stderr


def text_of(lines):
    return "".join(line + "\n" for line in lines)


def kept_as(name, file):
    with open(name, "wb") as out:
        out.write(file)


def as_shown(title, core, file):
    """os2core shows of an image, and of each segment in it, what the reader here finds."""
    kept_as("a.core", file)
    wants(f"{title}: os2core show", core_said("show", "a.core") == (0, text_of(core_shown.show_lines(core)), ""), core_said("show", "a.core"))
    drawn = core_said("svg", "a.core")
    wants(f"{title}: os2core svg", (drawn[0], core_shown.picture_shown(drawn[1]), drawn[2]) == (0, core_shown.picture(core), ""), drawn[1][:300])
    for number in range(len(core.segments)):
        said = core_said("segment", "a.core", str(number))
        wants(f"{title}: os2core segment {number}", said == (0, text_of(core_shown.segment_lines(core, number)), ""), "other bytes, or another line")


def dump(text, stdin=b"", cwd=".", name="a.toml"):
    with open(os.path.join(cwd, name), "w") as file:
        file.write(text)
    return memory.run(["dump", name], stdin, cwd)


def with_budget(text, steps):
    """A machine file that ends behind this step, or where it ends anyway."""
    return re.sub(r"(?m)^budget = (\d+)", lambda found: f"budget = {min(steps, int(found[1]))}", text)


def calls():
    seed = int(os.environ.get("SEED", "1"))
    for k in range(110):
        dice = random.Random(f"{seed} dump {k}")
        machine = (DumpedCalling if k < 50 else DumpedSharing if k < 80 else DumpedDiscarding)(dice)
        for it in machine.modules:
            with open(f"{it.name}.exe", "wb") as file:
                file.write(it.file())
        for size in sorted({max(memory.LEAST, machine.most()), max(memory.AMPLE, machine.most())}):
            if size > memory.MOST:
                continue
            for snapshot in machine.snapshots[:6]:
                title = f"program {k} of SEED={seed} in {size} behind step {snapshot.step}"
                status, console, report = dump(with_budget(machine.text(size, 65536), snapshot.step))
                texts = machine.wanted(snapshot.step)
                over = machine.over if snapshot.step == len(machine.events) else "budget spent\n"
                wants(f"{title}: report", (status, report) == (0, texts[1] + over), (status, report.splitlines()[-2:]))
                core = read(title, console)
                if core is not None:
                    counts = (core.size, core.blocks, core.steps, core.console)
                    wants(f"{title}: head", counts == (size, 65536, snapshot.step, len(texts[0])), counts)
                    as_in_model(title, core, machine, snapshot)
                    if snapshot is machine.snapshots[0] or any(entry.gone for entry in core.segments):
                        as_shown(title, core, console)
    wants("some segments that are dumped were discarded", discarded[True] >= 20, discarded)


def seen(core):
    """What doesn't hang on where segments are: registers, and what is held with the bytes that are known of it."""
    told = {0: (core.steps, core.console)}
    for number, (state, code, registers, entries) in core.processes.items():
        held = {}
        for index, (limit, _, access, segment, holds) in entries.items():
            entry = core.segments[segment]
            held[index] = (limit, access & 0x7E, segment, holds, entry.size, entry.flags, entry.lock, entry.clean, entry.gone)
        told[number] = (state, code, registers, held)
    return told


def least_to(folder, name, step, stdin):
    """The least memory in which an example isn't stopped up to this step."""
    low, high = memory.LEAST // 16 - 1, memory.LEAST // 16
    while high < memory.MOST // 16 and dumped(folder, name, 16 * high, step, stdin)[0] == 8:
        low, high = high, 2 * high
    while high - low > 1:
        middle = (low + high) // 2
        stopped = dumped(folder, name, 16 * middle, step, stdin)[0] == 8
        low, high = (middle, high) if stopped else (low, middle)
    return 16 * high


def dumped(folder, name, size, step, stdin):
    """Status, console and report of the dump of an example behind this step, in a memory of this size."""
    return dump(with_budget(memory.example_text(folder, name, size), step), stdin, folder, "memory.toml")


def as_reported(title, core, report):
    """The report tells which processes have ended and how, and what each holds."""
    ends, holds = {}, {}
    for line in report.splitlines():
        number, *words = line.split()
        if words and number.isdigit():
            mine = holds.setdefault(int(number), {})
            if words[0] in ("hold", "drop"):
                index = int(words[1], 16) >> 3
                mine[index] = mine.get(index, 0) + (1 if words[0] == "hold" else -1)
            elif words[0] == "end":
                ends[int(number)] = ({"exit": 1, "trap": 2}[words[1]], int(words[2]))
                mine.clear()
    for number, (state, code, _, entries) in core.processes.items():
        wants(f"{title}: end of process {number}", (state, code) == ends.get(number, (0, 0)), (state, code, ends.get(number)))
        held = {index: many for index, many in holds.get(number, {}).items() if many}
        wants(f"{title}: holds of process {number}", {index: entry[4] for index, entry in entries.items()} == held, (sorted(entries), held))


def in_two_memories(folder, name, step, stdin):
    """Dumps of an example behind a step, in the least memory in which it comes so far, and in an ample one: by their titles."""
    path = os.path.join(folder, name)
    cores, files, titles = [], [], []
    for size in (least_to(folder, name, step, stdin), memory.AMPLE):
        title = f"{path} in {size} to step {step}"
        status, console, report = dumped(folder, name, size, step, stdin)
        wants(title, status == 0, (status, report.splitlines()[-1:]))
        cores.append(read(title, console))
        files.append(console)
        titles.append(title)
        if cores[-1] is not None:
            as_shown(title, cores[-1], console)
            as_reported(title, cores[-1], report)
            spent = min(step, int(re.search(r"(?m)^budget = (\d+)", memory.example_text(folder, name, size))[1]))
            behind = cores[-1].steps == spent if report.endswith("budget spent\n") else cores[-1].steps <= spent
            wants(f"{title}: steps", behind, (cores[-1].steps, report.splitlines()[-1:]))
    if None not in cores:
        alike(f"{path} to step {step}", *cores)
        kept_as("b.core", files[0])
        said = core_said("difference", "b.core", "a.core")
        wants(f"{path} to step {step}: os2core difference", said == (0, text_of(core_shown.difference_lines(*cores)), ""), said)
    return dict(zip(titles, cores))


def where_it_stops(folder, name, status, stdin):
    """The dump of an example that is stopped for room or for swap, as it stands."""
    path = os.path.join(folder, name)
    with open(path + ".toml") as file:
        ended, console, report = dump(file.read(), stdin, folder, "memory.toml")
    wants(f"{path}: its stop", ended == status and memory.content(path + ".report").decode("latin-1") == report, (ended, report))
    core = read(path, console)
    if core is not None:
        as_shown(path, core, console)
        as_reported(path, core, report)
    return {path: core}


def traced(folder, name, stdin):
    """The machine file of an example in an ample memory, and the trace of its first steps."""
    text = memory.example_text(folder, name, memory.AMPLE)
    kept_as(os.path.join(folder, "memory.toml"), text.encode())
    run = subprocess.run([program("os2trace"), "run", "--to", str(STEPS), "memory.toml"], input=stdin, capture_output=True, cwd=folder)
    return written.setting_of(text), run.stdout.decode("ascii")


def content(entry, images):
    """All bytes of a segment, where those that an image of a module or of an environment has are known."""
    return entry.bytes if entry.bytes is not None else images.get(entry.place[1:], b"")[: entry.kept].ljust(entry.size, b"\0")


def as_written(title, core, snapshot, images):
    """Each process that lives has these registers, each holds these segments as often, and each segment has these bytes."""
    held, registers = snapshot
    names = {}
    for pid, mine in held.items():
        _, _, words, entries = core.processes[pid]
        wants(f"{title}: registers of process {pid}", words == registers.get(pid, words), (words, registers.get(pid)))
        wants(f"{title}: selectors of process {pid}", sorted(8 * index + 7 for index in entries) == sorted(mine), (sorted(entries), sorted(mine)))
        for index in (it for it in entries if 8 * it + 7 in mine):
            name, count, known, gone = mine[8 * index + 7]
            number, holds = entries[index][3:]
            wants(f"{title}: {pid}:{index} was discarded or not", core.segments[number].gone == gone, gone)
            wants(f"{title}: one number for one segment", names.setdefault(name, number) == number and list(names.values()).count(number) == 1, (names, number))
            wants(f"{title}: holds of {pid}:{index}", holds == count, (holds, count))
            wants(f"{title}: bytes of {pid}:{index} as they were written", content(core.segments[number], images) == known, "other bytes")


def an_example(folder, name, dice, processor):
    """Dumps of an example behind some of its steps, and behind the last one that is looked at; or where it is stopped."""
    path = os.path.join(folder, name)
    stdin, status = memory.content(path + ".input"), int(memory.content(path + ".status") or 0)
    setting, trace = traced(folder, name, stdin)
    count = len(written.groups(trace)[1])
    wants(f"{path}: its trace has steps", count > 0, trace[-200:])
    cores = where_it_stops(folder, name, status, stdin) if status in (8, 9) else {}
    for step in [] if status in (8, 9) else sorted({dice.randint(1, count), dice.randint(1, count), count}):
        cores.update(in_two_memories(folder, name, step, stdin))
    if processor:
        files = [memory.content(os.path.join(folder, file)) for file in setting["modules"]]
        steps = {core.steps for core in cores.values() if core is not None}
        found, images = written.snapshots(processor, setting, files, io.BytesIO(stdin), trace, steps)
        for title, core in cores.items():
            wants(f"{title}: its steps are in the trace", core is None or core.steps in found, core and core.steps)
            if core is not None and core.steps in found:
                as_written(title, core, found[core.steps], images)


def alike(title, small, ample):
    wants(title, seen(small) == seen(ample), "other registers or holds")
    for number, (one, other) in enumerate(zip(small.segments, ample.segments)):
        known_both = one.bytes is not None and other.bytes is not None
        wants(f"{title}: segment {number}", not known_both or one.bytes == other.bytes, "other bytes")
    for core in (small, ample):
        places = [described(core, entries) for _, _, _, entries in core.processes.values()]
        wants(f"{title}: places", tidy(core) is None and places.count(None) == len(places), (tidy(core), places))


def examples():
    shutil.copytree(EXAMPLES, "examples")
    dice, processor = random.Random(27), written.built()
    if not processor:
        print("images: libx86emu or a C compiler isn't installed (apt-get install gcc libx86emu-dev), so no segment is compared with what it writes")
    for folder in ["examples", *sorted(glob.glob("examples/*/"))]:
        for report in sorted(glob.glob(os.path.join(folder, "*.report"))):
            name = os.path.basename(report)[: -len(".report")]
            if not name.endswith((".exe", ".toml")) and memory.content(report) and int(memory.content(report[:-7] + ".status") or 0) in (0, 6, 8, 9):
                an_example(folder, name, dice, processor)


# A segment of 8,192 bytes is written, unlocked and driven to swap by another one; then it is asked for anew with 12,288 bytes, in the 24th step.
GROWS = """\
module GROWS
stack 512
start 1:0000
segment 1 code
0000  68 00 20  push 8192
0003  1E  push ds
0004  6A 00  push 0
0006  6A 04  push 4
0008  9A FF FF 00 00  call far DosAllocSeg  @0009 far DOSCALLS.34
000D  B8 27 00  mov ax, 0027h
0010  8E C0  mov es, ax
0012  26 C6 06 00 00 41  mov byte es:[0], 'A'
0018  6A 00  push 0
001A  07  pop es
001B  6A 27  push 0027h
001D  9A FF FF 00 00  call far DosUnlockSeg  @001E far DOSCALLS.123
0022  68 00 20  push 8192
0025  1E  push ds
0026  6A 00  push 0
0028  6A 00  push 0
002A  9A FF FF 00 00  call far DosAllocSeg  @002B far DOSCALLS.34
002F  B8 2F 00  mov ax, 002Fh
0032  8E C0  mov es, ax
0034  6A 00  push 0
0036  07  pop es
0037  68 00 30  push 12288
003A  6A 27  push 0027h
003C  9A FF FF 00 00  call far DosReallocSeg  @003D far DOSCALLS.38
0041  6A 01  push 1
0043  6A 00  push 0
0045  9A FF FF 00 00  call far DosExit  @0046 far DOSCALLS.5
segment 2 data size=16 auto
"""
GROWN = """\
memory = {}
swap = 64
segments = 64
budget = 1000
quantum = 1000
modules = ["grows.exe"]
script = ["1:23", "discard"]
[[process]]
module = "GROWS"
"""


def stops():
    kept_as("grows.exe", ne.Listing(GROWS).file())
    # 74 bytes of code, 528 of data and stack, and the new size, in whole paragraphs
    room = 80 + 528 + 12288
    for title, size, steps, status, last in (("room enough", room, 1000, 0, "all ended\n"),
                                             ("a paragraph less", room - 16, 1000, 8, "stop room\nos2run: no room\n"),
                                             ("before the word", room - 16, 23, 0, "budget spent\n")):
        ended, console, report = dump(with_budget(GROWN.format(size), steps))
        wants(f"{title}: its end", ended == status and report.endswith(f"\n{last}"), (ended, report))
        core = read(title, console)
        if core is None or last == "all ended\n":
            continue
        as_shown(title, core, console)
        wants(f"{title}: steps", core.steps == 23, core.steps)
        limit, base, access, number, holds = core.processes[1][3][4]
        entry = core.segments[number]
        marks = (limit, base, access & 0x80, holds, entry.size, entry.flags, entry.lock, entry.clean)
        wants(f"{title}: what is held", marks == (8191, 0, 0, 1, 8192, 4, 0, 0), marks)
        kind = entry.place and entry.place[0]
        if status == 8:
            wants(f"{title}: it is discarded", (entry.gone, entry.kept, kind, entry.bytes) == (1, 0, None, bytes(8192)), (entry.gone, entry.kept, kind))
        else:
            wants(f"{title}: it is in blocks", (entry.gone, kind, entry.bytes) == (0, "swap", b"A".ljust(8192, b"\0")), (entry.gone, kind))


def everywhere():
    """An image with segments in each kind of place: of examples/memory/moves.lst with segments an eighth as large, in the least memory,
    behind the step that allocates its last segment."""
    with open(os.path.join(EXAMPLES, "memory", "moves.lst")) as file:
        listing = re.sub("8192|12288", lambda it: str(int(it[0]) // 8), file.read().replace("68 00 20", "68 00 04").replace("68 00 30", "68 00 06"))
    kept_as("moves.exe", ne.Listing(listing).file())
    with open(os.path.join(EXAMPLES, "memory", "moved.toml")) as file:
        text = re.sub(r"(?m)^memory = \d+", f"memory = {memory.LEAST}", file.read())
    status, console, report = dump(with_budget(text, 56))
    wants("moves in the least memory", status == 0 and report.endswith("budget spent\n"), (status, report))
    return console


def damaged(file, core):
    """Images with each byte changed, those that tell more than a segment's bytes in seven ways; each front of the image; and the image with
    something behind it."""
    content = [range(core.memory_at, core.memory_at + core.size)]
    content += [range(at, at + 512) for at in core.blocks_at]
    for at, byte in enumerate(file):
        inside = any(at in part for part in content)
        for other in (byte ^ 255,) if inside else sorted({0, 1, 2, 4, 255, byte ^ 1, byte ^ 128} - {byte}):
            yield f"{other:02X} at {at:X}h", file[:at] + bytes([other]) + file[at + 1 :]
    for length in range(len(file)):
        yield f"{length} bytes of it", file[:length]
    for behind in (b"\0", b"END!", file):
        yield f"{len(behind)} bytes behind it", file + behind


def as_judged(whole, core, number, file):
    """Whether os2core reads a damaged image as the reader here does, or refuses it for the same reason."""
    name = f"{number}.core"
    kept_as(name, file)
    said = core_said("difference", "whole.core", name)
    os.remove(name)
    try:
        return said == (0, text_of(core_shown.difference_lines(core, core_image.Read(file))), ""), False, said
    except core_image.Refused as why:
        return said == (1, "", f"os2core: {name} is no core image: {why}\n"), True, said


def damage():
    whole = everywhere()
    kept_as("whole.core", whole)
    core = read("moves in the least memory", whole)
    kinds = {entry.place and entry.place[0] for entry in core.segments}
    wants("segments in each kind of place", kinds == {None, "image", "memory", "swap"}, kinds)
    as_shown("moves in the least memory", core, whole)
    titles, files = zip(*damaged(whole, core))
    with concurrent.futures.ThreadPoolExecutor(4) as pool:
        judged = list(pool.map(lambda number: as_judged(whole, core, number, files[number]), range(len(files))))
    for title, (well, _, said) in zip(titles, judged):
        wants(f"moves in the least memory, {title}", well, said)
    refused = sum(was for _, was, _ in judged)
    wants("most fronts and some changes are refused, and some are read", len(whole) < refused < len(files) - core.size, (refused, len(files)))


if __name__ == "__main__":
    trying.frame("dumps", __doc__, {"calls": calls, "examples": examples, "stops": stops, "damage": damage})
