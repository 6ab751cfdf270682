"""Test vectors: their form, and their steps by libx86emu."""
import json
import os
import shutil
import subprocess

import ne
import trying
import vectors
from trying import LIB, check_words, program, said, wrong

# What real and protected mode do alike: nothing that loads a segment register, no repetition, nothing that only one mode has.
ALIKE = [f"{op:02X}" for op in (
    *(8 * group + k for group in range(8) for k in range(6)), 0x06, 0x0E, 0x16, 0x1E, *range(0x40, 0x62), 0x68, 0x69, 0x6A, 0x6B, *range(0x70, 0x80),
    *range(0x84, 0x8C), 0x8C, 0x8D, *range(0x90, 0x9A), 0x9B, 0x9C, 0x9E, 0x9F, *range(0xA0, 0xC0), 0xC2, 0xC3, 0xC6, 0xC7, 0xC8, 0xC9, 0xD4, 0xD5, 0xD7,
    *range(0xE0, 0xE4), 0xE8, 0xE9, 0xEB, 0xF5, 0xF8, 0xF9, 0xFC, 0xFD)]
GROUPS = {**{op: "01234567" for op in ("80", "81", "83")}, **{op: "0123457" for op in ("C0", "C1", "D0", "D1", "D2", "D3")},
          **{op: "0234567" for op in ("F6", "F7")}, "8F": "0", "FE": "01", "FF": "01246"}
ALIKE += [f"{op}.{reg}" for op, regs in GROUPS.items() for reg in regs] + ["268B", "2E8A", "3601", "3E88"]
NAMES = ("ax", "bx", "cx", "dx", "cs", "ss", "ds", "es", "sp", "bp", "si", "di", "ip", "flags")


# Defined flags that libx86emu has otherwise than the manual: those of AAM, which it takes from AX in place of AL, and the overflow flag of SAR
# by 1, which it leaves as it was.
OTHERWISE = {"D4": 0x0C0, "D0.7": 0x800, "D1.7": 0x800}


def built():
    """Whether the other processor is there, as ./steps."""
    build = shutil.which("cc") and subprocess.run(["cc", "-o", "steps", os.path.join(LIB, "x86emu_steps.c"), "-lx86emu"], capture_output=True)
    return bool(build) and build.returncode == 0


def numbers(vector):
    """A state as numbers for the other processor."""
    state = vector["initial"]
    base = {row[0]: row[1] for row in state["segments"]}
    regs = [state["regs"][name] for name in NAMES]
    return [*regs, *(base[state["regs"][name]] for name in ("cs", "ss", "ds", "es")), len(state["ram"]), *(part for cell in state["ram"] for part in cell)]


def is_alike(opcode, vector):
    """Whether the step is done, and no shift by as many bits as there are or more: libx86emu doesn't take counts modulo 32."""
    if vector["answer"] != {"done": True}:
        return False
    count = vector["name"].rpartition(",")[2]
    places = 16 if opcode[:2] in ("C1", "D1", "D3") else 8
    shifts = opcode[:2] in ("C0", "C1", "D2", "D3")
    if vector["name"] == "call sp":  # libx86emu reads SP behind the push, the processor before
        return False
    by = vector["initial"]["regs"]["cx"] % 256 if count == "cl" else int(count, 16) if shifts else 0
    return not shifts or by < places


def unlike(opcode):
    """The flags that aren't compared after an opcode: those that the manual leaves undefined, and those that libx86emu has otherwise."""
    row = next((name for name in (opcode, opcode[2:], opcode + ".0") if name in vectors.FLAGS), None)
    return (vectors.undefined(row) if row else 0) | OTHERWISE.get(opcode, 0)


def compare(opcode, vector, line):
    """Registers, defined flags and bytes behind the step."""
    trying.count()
    got = [int(word) for word in line.split()]
    wanted = [vector["final"]["regs"][name] for name in NAMES]
    ram = {**dict(map(tuple, vector["initial"]["ram"])), **dict(map(tuple, vector["final"]["ram"]))}
    flags = (got[13] ^ wanted[13]) & 0x0CD5 & ~unlike(opcode)
    bytes_ = [ram[cell[0]] for cell in vector["initial"]["ram"]]
    if got[:13] != wanted[:13] or flags or got[14:] != bytes_:
        differ = {name: (g, w) for name, g, w in zip(NAMES, got, wanted) if g != w}
        wrong(f"{opcode}, {vector['name']}: libx86emu differs in {differ}" + ("" if got[14:] == bytes_ else " and in memory"))
    return True


# Code that can be read, and three segments of data that can be written, each of 64 bytes at level 3.
SEGMENTS = [[0x0F, 0x1000, 63, 0xFA], [0x17, 0x2000, 63, 0xF2], [0x1F, 0x3000, 63, 0xF2], [0x27, 0x4000, 63, 0xF2]]


def is_formed(opcode, vector):
    """The members that the tests of the field have, and the instruction's bytes where CS:IP is. An exception changes nothing, no segment is
    missed, and the bytes that are told of the state behind it are others than before."""
    trying.count()
    state, last, bytes_ = vector["initial"], vector["final"], vector["bytes"]
    ram, at = dict(map(tuple, state["ram"])), 0x1000 + state["regs"]["ip"]
    held = [state["regs"][name] for name in ("cs", "ds", "es", "ss")]
    formed = list(vector) == ["answer", "bytes", "final", "initial", "name"] and set(state["regs"]) == set(last["regs"]) == set(NAMES)
    formed = formed and list(ram) == [base + k for _, base, _, _ in SEGMENTS for k in range(64)] and [row[0] for row in SEGMENTS] == held
    if not formed or state["segments"] != SEGMENTS:
        wrong(f"os2vectors {opcode}: {vector}")
    if bytes_ != [ram[at + k] for k in range(len(bytes_))] or (vector["name"] == "no instruction") != (bytes_ == []):
        wrong(f"os2vectors {opcode}, the instruction's bytes: {vector}")
    head, _, reg = opcode.partition(".")
    if bytes_ and not bytes(bytes_).startswith(bytes.fromhex(head)) or bytes_ and reg and bytes_[len(head) // 2] // 8 % 8 != int(reg):
        wrong(f"os2vectors {opcode}: the bytes are {bytes_}")
    if list(vector["answer"]) not in (["done"], ["code", "trap"], ["gate", "next"]) or any(ram[place] == byte for place, byte in last["ram"]):
        wrong(f"os2vectors {opcode}, the state behind: {vector['answer']}, {last}")
    if "trap" in vector["answer"] and (last["regs"] != state["regs"] or last["ram"]):
        wrong(f"os2vectors {opcode}, an exception that changes something: {vector}")


def check_names(opcode, vector):
    """The name is the text that a listing has where the same bytes stand at the same offset."""
    trying.count()
    at, bytes_ = vector["initial"]["regs"]["ip"], vector["bytes"]
    rows = "".join(f"{k:04X}  90\n" for k in range(at)) + f"{at:04X}  {bytes(bytes_).hex(' ').upper()}\n"
    with open("named.exe", "wb") as file:
        file.write(ne.Listing(f"module A\nstack 512\nstart 1:0000\nsegment 1 code\n{rows}segment 2 data auto size=16\n").file())
    line = f"  {at:04X}  {bytes(bytes_).hex().upper():<20}  {vector['name']}"
    if line not in said("os2list", "named.exe")[1].splitlines():
        wrong(f"os2vectors {opcode}: os2list has no line {line!r}")


def forms_of_answers():
    """A call through a gate, one repetition a step, what an exception leaves, and one vector on each line."""
    for vector in json.loads(said("os2vectors", "9A0000A300", "20", "5")[1]):
        trying.count()
        if vector["answer"] != {"gate": 4, "next": vector["initial"]["regs"]["ip"] + 5} or vector["name"] != "call 0x00A3:0x0000":
            wrong(f"os2vectors, a gate: {vector['name']}, {vector['answer']}")
    for vector in json.loads(said("os2vectors", "F3AA", "200", "5")[1]):
        trying.count()
        before, after = vector["initial"]["regs"], vector["final"]["regs"]
        left = before["cx"] - 1 if before["cx"] and vector["answer"] == {"done": True} else before["cx"]
        if after["cx"] != left or len(vector["final"]["ram"]) > 1:
            wrong(f"os2vectors, a repetition: {vector}")
    trying.count()
    with subprocess.Popen([program("os2vectors"), "F4", "1000000", "1"], stdout=subprocess.PIPE, stderr=subprocess.PIPE) as run:
        front = run.stdout.read(2)
        run.stdout.close()
        if front != b"[\n" or run.stderr.read() or run.wait() != 3:
            wrong(f"os2vectors F4 1000000 1: {front!r}, status {run.returncode}")
    for count in (0, 1, 3):
        trying.count()
        status, text = said("os2vectors", "00", str(count), str(2**64 - 1))
        if status or len(json.loads(text)) != count or len(text.splitlines()) != count + 2:
            wrong(f"os2vectors 00 {count}: status {status}, {text!r}")


def check_list():
    """The opcodes that tools/vectors.py lists are those of the machine: each is an instruction with some ModRM byte, and no other first bytes
    are, but for prefixes and 0F."""
    heads = [f"{first:02X}" for first in range(256) if first not in (0x26, 0x2E, 0x36, 0x3E, 0xF0, 0xF2, 0xF3, 0x0F)]
    groups = {row.partition(".")[0] for row in vectors.FLAGS if "." in row}
    for head in [*heads, *(f"0F{second:02X}" for second in range(16))]:
        for row in [f"{head}.{reg}" for reg in range(8)] if head in groups else [head]:
            trying.count()
            named = {vector["name"] == "no instruction" for vector in json.loads(said("os2vectors", row, "4", "2")[1])}
            if (row in vectors.FLAGS) != (False in named):
                wrong(f"tools/vectors.py, {row}: {'listed' if row in vectors.FLAGS else 'not listed'}, and the machine has it otherwise")


def check_suite():
    """The suite of two opcodes: its files are what os2vectors writes, and its masks have the flags that the manual leaves undefined."""
    trying.count()
    tool = [os.path.join(trying.TOOLS, "vectors.py")]
    run = subprocess.run([*tool, "suite", "suite", "f7.4", "00", "--count", "3", "--seed", "5"], capture_output=True, text=True)
    rows = {"00": {"status": "normal"}, "F7": {"reg": {"4": {"status": "normal", "flags": "...szap.", "flags-mask": 0xFF2B}}}}
    if run.returncode or sorted(os.listdir("suite")) != ["00.json", "F7.4.json", "metadata.json"]:
        wrong(f"tools/vectors.py suite: {run}")
        return
    with open("suite/metadata.json") as file:
        told = json.load(file)
    if told != {"cpu": "80286", "mode": "protected", "opcodes": rows, "count": 3, "seed": 5}:
        wrong(f"tools/vectors.py suite: {told}")
    for opcode in ("00", "F7.4"):
        with open(f"suite/{opcode}.json") as file:
            trying.count()
            if file.read() != said("os2vectors", opcode, "3", "5")[1]:
                wrong(f"tools/vectors.py suite: {opcode}.json isn't what os2vectors writes")
    for traps, most in (("0", 0), ("25", 10), ("100", 40)):
        trying.count()
        run = subprocess.run([*tool, "suite", f"few{traps}", "F7.4", "F4", "--count", "40", "--traps", traps], capture_output=True, text=True)
        told = {}
        for opcode in ("F7.4", "F4"):
            with open(f"few{traps}/{opcode}.json") as file:
                told[opcode] = json.load(file)
        many = json.loads(trying.said("os2vectors", "F7.4", "320", "1")[1])
        places = [many.index(row) for row in told["F7.4"]]
        trapped = sum("trap" in row["answer"] for row in told["F7.4"])
        if run.returncode or places != sorted(set(places)) or len(places) != 40 or trapped > most or traps != "0" and not trapped or len(told["F4"]) != 40 or traps == "100" and places != list(range(40)):
            wrong(f"tools/vectors.py suite --traps {traps}: {trapped} of {len(places)} end by an exception; {run}")
    for words, status in ((["suite", "suite"], 1), (["suite", "other", "F1"], 2), (["all"], 2), ([], 2)):
        trying.count()
        run = subprocess.run([*tool, *words], capture_output=True, text=True)
        if run.returncode != status or run.stdout or not run.stderr or "Traceback" in run.stderr:
            wrong(f"tools/vectors.py {words}: {run}")
    for kind, first in (("opcodes", "00"), ("metadata", "{")):
        trying.count()
        run = subprocess.run([*tool, kind], capture_output=True, text=True)
        if run.returncode or run.stdout.splitlines()[0] != first or kind == "opcodes" and len(run.stdout.splitlines()) != len(vectors.FLAGS):
            wrong(f"tools/vectors.py {kind}: {run}")


def check_vectors():
    check_words("os2vectors", ["G7", "1", "1"])
    same = [said("os2vectors", "F7.4", "3", seed) for seed in ("1", "1", "2")]
    if same[0] != same[1] or same[0] == same[2] or len(json.loads(same[0][1])) != 3:
        wrong("os2vectors: the same words give other vectors, or other words the same")
    small = []
    for opcode in ("00", "8a", "F7.4", "F3A4", "0F02", "0F06", "D8", "F0", "F4", "9A", "26" * 10):
        made = json.loads(said("os2vectors", opcode, "50", "3")[1])
        for vector in made:
            is_formed(opcode, vector)
            small += [vector["initial"]["regs"][name] < 32 for name in ("ax", "bx", "cx", "dx", "sp", "bp", "si", "di")]
        for vector in [vector for vector in made if vector["bytes"]][:3]:
            check_names(opcode, vector)
    if 2 * sum(small) < len(small):
        wrong(f"os2vectors: {sum(small)} of {len(small)} registers are small")
    forms_of_answers()
    check_list()
    check_suite()
    if not built():
        print("vectors: libx86emu or a C compiler isn't installed (apt-get install gcc libx86emu-dev), so no step is compared with it")
        return
    steps, done = 0, set()
    for opcode in ALIKE:
        _, text = said("os2vectors", opcode, "100", "7")
        alike = [vector for vector in json.loads(text) if is_alike(opcode, vector)]
        source = "".join(" ".join(map(str, numbers(vector))) + "\n" for vector in alike)
        run = subprocess.run(["./steps"], input=source, capture_output=True, text=True)
        lines = run.stdout.splitlines()
        if run.returncode or len(lines) != len(alike):
            wrong(f"{opcode}: libx86emu took {len(lines)} of {len(alike)} steps")
        for vector, line in zip(alike, lines):
            steps += compare(opcode, vector, line)
            done.add(opcode)
    missing = sorted(set(ALIKE) - done)
    if missing:
        wrong(f"vectors: no step of {missing} is done")
    print(f"vectors: {steps} steps of {len(done)} opcodes are those of libx86emu")
