#!/usr/bin/env python3
"""Lists what an executable imports, with the place that wants it first, and whether this machine has it, which `os2why imports` says. So it
tells which call a reason 10, 11 or 12 is about. The status is 1 where one is missing.

OS2WHY in the environment names another program to ask.
"""
import os
import re
import struct
import subprocess
import sys

sys.dont_write_bytecode = True
sys.path.insert(0, os.path.join(os.path.dirname(os.path.realpath(__file__)), "lib"))
import calls
import command
from ne import Refused, must


def part(file, at, count):
    must(at + count <= len(file), f"the file ends at {len(file):X}h, and {at:X}h is wanted")
    return file[at : at + count]


def words(file, at, count):
    return struct.unpack(f"<{count}H", part(file, at, 2 * count))


def text(file, at):
    return part(file, at + 1, part(file, at, 1)[0]).decode("latin-1")


def imports(file):
    """The imports, each as MODULE, ordinal or name, with the place of the first relocation that wants it, and the module's name."""
    must(file[:2] == b"MZ", "this is no executable: it doesn't begin with MZ")
    head = struct.unpack("<I", part(file, 0x3C, 4))[0]
    must(part(file, head, 2) == b"NE", f"there is no NE header at {head:X}h: no 16-bit program of OS/2 or Windows")
    field = lambda offset: words(file, head + offset, 1)[0]
    references, names, shift = head + field(0x28), head + field(0x2A), field(0x32) or 9
    must(shift <= 15, "the alignment shift is above 15")
    found = {}
    for segment in range(field(0x1C)):
        where, length, flags, _ = words(file, head + field(0x22) + 8 * segment, 4)
        if not where or not flags & 0x100:
            continue
        at = (where << shift) + (length or 65536)
        for k in range(words(file, at, 1)[0]):
            _, kind, place, module, what = struct.unpack("<BBHHH", part(file, at + 2 + 8 * k, 8))
            if kind & 3 not in (1, 2):
                continue
            must(1 <= module <= field(0x1E), f"a relocation of segment {segment + 1} names module reference {module} of {field(0x1E)}")
            other = text(file, names + words(file, references + 2 * (module - 1), 1)[0])
            symbol = what if kind & 3 == 1 else text(file, names + what)
            found.setdefault((other, symbol), (segment + 1, place))
            must(len(found) <= 1000, "there are more than 1,000 imports")
    return text(file, head + field(0x26)), found


def judged(path):
    """The imports that the machine has and those that it hasn't, as MODULE.NAME in capitals; what os2why says of the file where it tells none."""
    program = command.program("os2why")
    must(program, "os2why isn't there, so nobody is asked")
    run = subprocess.run([program, "imports", path], stdin=subprocess.DEVNULL, stdout=subprocess.PIPE, encoding="latin-1")
    must(run.returncode == 0, f"os2why imports ends with status {run.returncode}")
    sets = {"built": set(), "missing": set()}
    for name, how in re.findall(r"(?m)^ *\d+ (\S+\.\S+) is (built|missing)$", run.stdout):
        sets[how].add(name.upper())
    return sets["built"], sets["missing"]


def main():
    words = command.parser("tools/imports.py", __doc__)
    words.add_argument("file", metavar="FILE", help="an executable")
    given = words.parse_args()
    try:
        with open(given.file, "rb") as it:
            name, found = imports(it.read())
        built, missing = judged(given.file)
    except OSError as error:
        return f"{given.file}: {error.strerror}"
    except Refused as why:
        return f"{given.file}: {why}"
    print(f"{name} imports {len(found)}:")
    lacking = 0
    for (module, symbol), (segment, place) in sorted(found.items(), key=lambda it: (it[0][0], str(it[0][1]).zfill(6))):
        called = calls.name_of(module, symbol) if isinstance(symbol, int) else symbol
        tells = f"{module}.{called or symbol}".upper()
        # (an ordinal that os2why names otherwise than the table here is told by its number)
        says = "is there" if tells in built or f"{module}.{symbol}".upper() in built else "isn't there"
        lacking += says != "is there"
        title = f"{module}.{symbol}" + (f" {called}" if called and called != symbol else "")
        print(f"    {title:<32} {says}" + ("" if says == "is there" else f", wanted first in segment {segment} at {place:04X}"))
    return 1 if lacking else 0


if __name__ == "__main__":
    command.end(main)
