#!/usr/bin/env python3
"""Tries each refusal that docs/machine.md names, with its causes: damaged executables, machine files, words and streams. It compares
the status, and the line on the standard error, and that nothing else was written where the machine didn't open. Then each exception,
with what ends a process by it.

OS2RUN in the environment names another program to try.
"""
import os
import shutil
import subprocess
import sys

sys.dont_write_bytecode = True
sys.path.insert(0, os.path.join(os.path.dirname(os.path.realpath(__file__)), "..", "lib"))
import trying
from trying import EXAMPLES, program
import ne

TOP = """memory = 1048576
swap = 2048
segments = 1024
budget = 1000000
quantum = 1000
modules = ["hello.exe"]
"""
PROCESS = '[[process]]\nmodule = "HELLO"\n'
HELLO = open(os.path.join(EXAMPLES, "hello.exe"), "rb").read()
# The NE header stands at 40h, and behind it the segment table. In hello.exe segment 2's row is at 88h.
NE, TABLE = 0x40, 0x80


def row(file, offset, *words):
    """The executable with words put at an offset."""
    out = bytearray(file)
    for k, word in enumerate(words):
        out[offset + 2 * k : offset + 2 * k + 2] = word.to_bytes(2, "little")
    return bytes(out)


def field(offset, word):
    """hello.exe with another word in its NE header."""
    return row(HELLO, NE + offset, word)


def listing(text):
    """An executable from a listing."""
    return ne.Listing(text).file()


def wants(title, words, status, line, **how):
    """Runs the words, and compares status and line; a status other than 0, 6 and 7 has nothing else."""
    run = subprocess.run([program(), *words], **{"stdin": subprocess.DEVNULL, "capture_output": True, **how})
    said = run.stderr.decode("latin-1") if run.stderr is not None else ""
    last = said.splitlines()[-1:] if status else []
    well = run.returncode == status and (last == ([line] if line else []))
    if status in (1, 2, 3, 4, 5, 11):
        well = well and said == line + "\n" and not run.stdout
    trying.count()
    if not well:
        trying.wrong(f"{title}: status {run.returncode}, {said.splitlines()[-1:]}; wanted {status}, {line!r}")


def tells(title, told, wanted):
    """Compares what a run told."""
    trying.wants(title, told == wanted, f"{told}; wanted {wanted}")


def machine(title, text, status, line):
    """A machine file, as text or as bytes."""
    with open("a.toml", "wb") as file:
        file.write(text if isinstance(text, bytes) else text.encode())
    wants(f"machine file, {title}", ["run", "a.toml"], status, line and "os2run: " + line)


def refuses(title, reason, key, text):
    machine(title, text, 3, f"machine file: reason {reason} {key}")


def reads(title, text):
    machine(title, text, 0, "")


def module(title, file, reason, verb="exe"):
    with open("a.exe", "wb") as out:
        out.write(file)
    words = ["exe", "a.exe"]
    if verb == "run":
        words = ["run", "a.toml"]
        with open("a.toml", "w") as out:
            out.write(TOP.replace("hello.exe", "a.exe") + PROCESS)
    wants(f"module, {title}", words, 4 if reason else 0, f"os2run: module a.exe: reason {reason}" if reason else "")


def words_and_files():
    usage = "os2run: usage: os2run exe FILE, run FILE, check FILE, bench N or dump FILE"
    for words in ([], ["exe"], ["exe", ""], ["exe", "-x"], ["exe", "a", "b"], ["EXE", "hello.exe"], ["check"], ["CHECK", "a.toml"],
                  ["bench"], ["bench", "0"], ["bench", "65"], ["bench", "01"], ["bench", "+1"], ["bench", "-1"], ["bench", "1", "2"], ["BENCH", "1"],
                  ["dump"], ["dump", ""], ["dump", "-x"], ["dump", "a", "b"], ["DUMP", "a.toml"], ["--help"], ["exe", b"\xff"]):
        wants(f"words {words}", words, 1, usage)
    # of a bench the steps, bytes and lines of one process are told, and the last line comes once
    for count in (1, 2, 4, 64):
        line = f"bench {count}: {1927 * count} steps, {count} console bytes, {23 * count + 1} report lines\n"
        run = subprocess.run([program(), "bench", str(count)], stdin=subprocess.DEVNULL, capture_output=True, text=True)
        tells(f"bench {count}", (run.returncode, run.stdout, len(run.stderr.splitlines()), run.stderr.splitlines()[-1:]), (0, line, 23 * count + 1, ["all ended"]))
    if os.path.exists("os2run.swp"):
        os.remove("os2run.swp")
    # the image of a machine whose only process has ended: head, memory, a process that holds nothing, and the end mark
    with open("a.toml", "w") as file:
        file.write((TOP + PROCESS).replace("1048576", "4096").replace("2048", "0"))
    run = subprocess.run([program(), "dump", "a.toml"], stdin=subprocess.DEVNULL, capture_output=True)
    tells("a dump", (run.returncode, run.stdout[:25].hex(" "), run.stdout[-4:], len(run.stdout), run.stderr.splitlines()[-1:]),
          (0, "4f 53 32 43 4f 52 45 32 00 10 00 00 00 00 00 00 00 00 00 00 01 00 00 00 0a", b"END!", 4178, [b"all ended"]))
    wants("no such machine file to dump", ["dump", "no.toml"], 2, "os2run: no file no.toml")
    wants("no such file", ["exe", "no.exe"], 2, "os2run: no file no.exe")
    wants("no such machine file", ["run", "no.toml"], 2, "os2run: no file no.toml")
    wants("no such machine file to check", ["check", "no.toml"], 2, "os2run: no file no.toml")
    machine("no such module file", TOP.replace("hello.exe", "no.exe") + PROCESS, 2, "no file no.exe")
    os.mkdir("below")
    with open("below/a.toml", "w") as file:
        file.write(TOP + PROCESS)
    wants("names are seen from the folder of the command", ["run", "below/a.toml"], 0, "")
    wants("a check of a machine file", ["check", "below/a.toml"], 0, "")
    with open("tight.toml", "w") as file:
        file.write((TOP + PROCESS).replace("segments = 1024", "segments = 1"))
    wants("a start that is refused", ["run", "tight.toml"], 4, "os2run: module hello.exe: reason 17")
    wants("a check doesn't start", ["check", "tight.toml"], 0, "")
    wants("and not from that of the machine file", ["run", "a.toml"], 2, "os2run: no file hello.exe", cwd="below")
    wants("a folder is no file", ["exe", "below"], 5, "os2run: file fault")
    wants("a file is no folder", ["exe", "hello.exe/a.exe"], 5, "os2run: file fault")
    wants("a name of 300 letters", ["exe", "x" * 300], 5, "os2run: file fault")
    # (root may read each file, so it takes another user's place)
    shutil.copyfile("hello.exe", "closed.exe")
    os.chmod(".", 0o755)
    others = {"user": 65534, "group": 65534, "extra_groups": []} if os.geteuid() == 0 else {}
    os.chmod("closed.exe", 0o644)
    wants("a file that may be read", ["exe", "closed.exe"], 0, "", **others)
    os.chmod("closed.exe", 0)
    wants("a file that may not be read", ["exe", "closed.exe"], 5, "os2run: file fault", **others)
    os.mkfifo("pipe")
    writer = subprocess.Popen(["sh", "-c", "echo no executable >pipe"])
    wants("a pipe is read to its end", ["exe", "pipe"], 4, "os2run: module pipe: reason 1")
    writer.wait()


def machine_files():
    good = TOP + PROCESS
    reads("as it stands", good)
    # TOML
    refuses("no document", 1, "", "memory")
    refuses("a key twice", 1, "", "swap = 1\n" + good)
    refuses("a backslash that begins no escape", 1, "", good + 'environment = ["PATH=C:\\OS2"]\n')
    refuses("a number with commas", 1, "", good.replace("1048576", "1,048,576"))
    refuses("a text without quotes", 1, "", good.replace('"HELLO"', "HELLO"))
    refuses("no UTF-8", 1, "", good.encode() + b"# \xff\n")
    refuses("[process] and [[process]]", 1, "", good + "[process]\n")
    reads("a byte order mark", b"\xef\xbb\xbf" + good.encode())
    reads("lines that end with CR and LF", good.replace("\n", "\r\n"))
    reads("80 levels", f"deep = {'[' * 80}{']' * 80}\n" + good)
    refuses("81 levels", 1, "", f"deep = {'[' * 81}{']' * 81}\n" + good)
    refuses("a key of 81 parts", 1, "", "a." * 80 + "a = 1\n" + good)
    reads("escapes of version 1.1", good + 'arguments = "\\e\\x41"\n')
    reads("line ends and a comma in a table of one line", good.replace(PROCESS, 'process = [{\n  module = "HELLO",\n}]\n'))
    reads("numbers with underlines, in hexadecimal", good.replace("1048576", "0x10_0000"))
    reads("other keys", "colour = 1\n" + good + "memory = 3\n[more]\nkey = 1\n")
    # what is missing
    for line in TOP.splitlines():
        key = line.split(" ")[0]
        refuses(f"no {key}", 2, key, good.replace(line + "\n", ""))
        refuses(f"{key} below [[process]]", 2, key, good.replace(line + "\n", "") + line + "\n")
    refuses("no process", 2, "process", TOP)
    refuses("a process without a module", 2, "process.module", TOP + "[[process]]\n")
    # wrong types and forms
    for key in ("memory", "swap", "segments", "budget", "quantum"):
        line = next(it for it in TOP.splitlines() if it.startswith(key))
        for value in ('"1000000"', "1000000.0", "true", "[16]"):
            refuses(f"{key} = {value}", 3, key, good.replace(line, f"{key} = {value}"))
        refuses(f"{key} = -1", 4, key, good.replace(line, f"{key} = -1"))
    refuses("avail of a wrong type", 3, "avail", "avail = 1.5\n" + good)
    refuses("modules as one text", 3, "modules", good.replace('["hello.exe"]', '"hello.exe"'))
    refuses("a module that is a number", 3, "modules", good.replace('["hello.exe"]', '["hello.exe", 1]'))
    refuses("a zero byte in a name", 3, "modules", good.replace("hello.exe", "hello\\u0000.exe"))
    refuses("[process]", 3, "process", good.replace("[[process]]", "[process]"))
    refuses("processes that are texts", 3, "process", TOP + 'process = ["HELLO"]\n')
    refuses("module is a number", 3, "process.module", good.replace('"HELLO"', "1"))
    refuses("arguments as an array", 3, "process.arguments", good + 'arguments = ["one", "two"]\n')
    refuses("environment as one text", 3, "process.environment", good + 'environment = "A=B"\n')
    refuses("a zero byte in the arguments", 3, "process.arguments", good + 'arguments = "\\u0000"\n')
    refuses("an unknown service", 3, "ordinals", good + "[ordinals]\nDosBeep = 50\n")
    refuses("a service in small letters", 3, "ordinals", good + "[ordinals]\ndoswrite = 138\n")
    refuses("two services of one ordinal", 3, "ordinals", good + "[ordinals]\nDosWrite = 5\nDosExit = 5\n")
    refuses("ordinals as a number", 3, "ordinals", "ordinals = 1\n" + good)
    for word in ("1", "1-5", "1:", ":5", "01:5", " 1:5", "1:5 ", "1:1_000", "a:1"):
        refuses(f"script word {word!r}", 3, "script", f'script = ["{word}"]\n' + good)
    refuses("script as one text", 3, "script", 'script = "1:5"\n' + good)
    refuses("shim as a number", 3, "shim", "shim = 1\n" + good)
    refuses("a zero byte in the name of the shim", 3, "shim", 'shim = "A\\u0000"\n' + good)
    # limits
    limits = {"memory": (4080, 16777232, 1048577), "swap": (65537,), "segments": (0, 65536), "budget": (4000000001,), "quantum": (0, 1000001)}
    for key, values in limits.items():
        line = next(it for it in TOP.splitlines() if it.startswith(key))
        for value in values:
            refuses(f"{key} = {value}", 4, key, good.replace(line, f"{key} = {value}"))
    refuses("avail = 4294967296", 4, "avail", "avail = 4294967296\n" + good)
    refuses("an empty name of the shim", 4, "shim", 'shim = ""\n' + good)
    refuses("a name of the shim of 256 bytes", 4, "shim", f'shim = "{"x" * 256}"\n' + good)
    refuses("no modules", 4, "modules", good.replace('["hello.exe"]', "[]"))
    refuses("65 modules", 4, "modules", good.replace('["hello.exe"]', str(["hello.exe"] * 65)))
    refuses("an empty module name", 4, "modules", good.replace("hello.exe", ""))
    refuses("a module name of 256 bytes", 4, "modules", good.replace("hello.exe", "x" * 256))
    refuses("an empty array of processes", 4, "process", TOP + "process = []\n")
    refuses("65 processes", 4, "process", TOP + PROCESS * 65)
    refuses("an empty module of a process", 4, "process.module", good.replace("HELLO", ""))
    refuses("an environment over 65,536 bytes", 4, "process.environment", good + f'environment = ["{"x" * 65527}"]\n')
    refuses("arguments over 65,536 bytes", 4, "process.environment", good + f'arguments = "{"x" * 65528}"\n')
    reads("an environment of 65,536 bytes", good + f'environment = ["{"x" * 65526}"]\n')
    refuses("the ordinal 0", 4, "ordinals", good + "[ordinals]\nDosWrite = 0\n")
    refuses("the ordinal 65536", 4, "ordinals", good + "[ordinals]\nDosWrite = 65536\n")
    for word in ("0:5", "1:0", "65536:5", "1:4000000001"):
        refuses(f"script word {word}", 4, "script", f'script = ["{word}"]\n' + good)
    refuses("100,001 words of a script", 4, "script", f"script = {['1:1'] * 100001}\n" + good)
    refuses("1,048,577 bytes", 4, "file", good + "#" * (1048577 - len(good)))
    refuses("two faults: the key that is read first", 4, "memory", good.replace("1048576", "0").replace("budget = 1000000", 'budget = "x"'))


def modules():
    module("as it stands", HELLO, 0)
    module("no bytes", b"", 1)
    module("a text", b"hello\n", 1)
    module("NE is PE", row(HELLO, NE, 0x4550), 2)
    module("NE is LX", row(HELLO, NE, 0x584C), 2)
    module("MZ and the 64 bytes end early", HELLO[:63], 3)
    module("the place at 3Ch lies behind the end", row(HELLO[:64], 0x3C, 0x100, 0), 3)
    module("the file ends in the segment table", HELLO[:0x84], 3)
    module("the file ends in a segment's bytes", HELLO[:0xB8], 3)
    module("the file ends in the relocations", HELLO[:0xCC], 3)
    module("a module reference's name that isn't in the file", row(HELLO, NE + int.from_bytes(HELLO[NE + 0x28 : NE + 0x2A], "little"), 0xFFFF), 3)
    for system in (2, 3, 4, 5):
        module(f"target {system}", row(HELLO, NE + 0x36, 0x100 * HELLO[NE + 0x37] + system), 4)
    module("target 0", row(HELLO, NE + 0x36, 0x100 * HELLO[NE + 0x37]), 0)
    module("the linker's mark for errors", field(0x0C, 0x2002), 5)
    module("data mode 3", field(0x0C, 0x0003), 6)
    module("alignment shift 16", field(0x32, 16), 6)
    module("automatic data in segment 3 of 2", field(0x0E, 3), 6)
    module("automatic data in the code", field(0x0E, 1), 6)
    module("automatic data that is read-only", row(HELLO, TABLE + 12, 0x0C81), 6)
    name = HELLO.index(b"\x05HELLO")
    module("no module name", HELLO[:name] + b"\0" + HELLO[name + 1 :], 6)
    module("a line end in the module name", HELLO.replace(b"HELLO", b"HE\nLO"), 6)
    exported = listing("module A\nstart 1:0000\nexport E 1:0000\nsegment 1 code\n0000  90  nop\n")
    entries = NE + int.from_bytes(exported[NE + 4 : NE + 6], "little")
    module("an entry in segment 9 of 1", exported[: entries + 1] + b"\x09" + exported[entries + 2 :], 6)
    module("an entry that is a constant", exported[: entries + 1] + b"\xfe" + exported[entries + 2 :], 7)
    module("4,194,305 bytes", HELLO + bytes(4194305 - len(HELLO)), 7)
    module("255 segments", field(0x1C, 255), 7)
    module("256 module references", field(0x1E, 256), 7)
    for title, flags in (("iterated", 0x0C09), ("expand-down", 0x0E01), ("at level 1", 0x0401), ("at level 2", 0x0801), ("of 32 bits", 0x2C01)):
        module(f"a data segment {title}", row(HELLO, TABLE + 12, flags), 7)
    module("conforming code", row(HELLO, TABLE + 4, 0x0F00), 7)
    module("data and stack over 65,536 bytes", field(0x12, 65530), 7)
    module("a library, by run", field(0x0C, 0x8002), 16, "run")
    module("a library, by exe", field(0x0C, 0x8002), 16)
    code = 0xB0
    module("a chain out of the segment's bytes", row(HELLO, code + 0x0C, 0x1000), 8)
    module("a chain that meets itself", row(HELLO, code + 0x0C, 0x000C), 8)
    records = code + int.from_bytes(HELLO[TABLE + 2 : TABLE + 4], "little") + 2
    module("a relocation of an unknown kind", HELLO[:records] + b"\x04" + HELLO[records + 1 :], 9)
    module("a relocation to reference 2 of 1", row(HELLO, records + 4, 2), 9)
    module("a relocation to segment 3 of 2", row(HELLO, records, 0x0003, 0x000C, 3, 0), 9)
    module("a relocation to an entry that isn't there", row(HELLO, records, 0x0003, 0x000C, 0xFF, 1), 9)
    module("a reference to another module", HELLO.replace(b"DOSCALLS", b"VIOCALLS"), 10)
    for ordinal in (144, 70, 999):
        module(f"DOSCALLS.{ordinal}", row(HELLO, records + 6, ordinal), 11)
    by_name = listing("module A\nstart 1:0000\nsegment 1 code\n0000  9A FF FF 00 00  call @0001 far DOSCALLS.DosOpen\n")
    module("DOSCALLS.DosOpen", by_name, 12)
    module("no stack segment", row(row(HELLO, NE + 0x1A, 0), NE + 0x0E, 0), 15)
    module("the stack in the code", field(0x1A, 1), 15)
    module("CS names the data", field(0x16, 2), 16)
    module("CS is 0", field(0x16, 0), 16)
    module("IP at the end of the code", field(0x14, 0x19), 16)
    with open("dos.exe", "wb") as file:
        file.write(listing("module DOSCALLS\nstart 1:0000\nsegment 1 code\n0000  90  nop\nsegment 2 data auto size=16\n"))
    wants("a module named DOSCALLS", ["exe", "dos.exe"], 4, "os2run: module dos.exe: reason 13")
    machine("a module twice", (TOP + PROCESS).replace('["hello.exe"]', '["hello.exe", "hello.exe"]'), 4, "module hello.exe: reason 13")
    machine("a process of no module", TOP + PROCESS.replace("HELLO", "hello.exe"), 4, "module hello.exe: reason 10")
    machine("names are the same in capitals and small letters", TOP + PROCESS.replace("HELLO", "hello"), 0, "")
    machine("three segments where two may live", (TOP + PROCESS).replace("segments = 1024", "segments = 2"), 4, "module hello.exe: reason 17")
    machine("three segments where three may live", (TOP + PROCESS).replace("segments = 1024", "segments = 3"), 0, "")
    machine("ordinals replace the whole list", TOP + PROCESS + "[ordinals]\nDosWrite = 138\n", 4, "module hello.exe: reason 11")


def libraries():
    program = "module P\nstart 1:0000\nsegment 1 code\n0000  9A FF FF 00 00  call @0001 far {}\nsegment 2 data auto size=16\n"
    library = "module LIB library\nexport E 1:0000\nsegment 1 code\n0000  CB\n"
    lost = listing(library).replace(b"\x01E\x01\0", b"\x01E\x09\0")

    def linked(title, target, other, modules, status, line):
        """The same by `run` and by `check`."""
        for name, file in (("p.exe", listing(program.format(target))), ("lib.dll", other)):
            with open(name, "wb") as out:
                out.write(file)
        with open("a.toml", "w") as out:
            out.write(TOP.replace('"hello.exe"', modules) + '[[process]]\nmodule = "P"\n')
        for verb in ("run", "check"):
            wants(f"{title}, by {verb}", [verb, "a.toml"], status, line)

    both = '"p.exe", "lib.dll"'
    linked("an entry of a library by its ordinal", "LIB.1", listing(library), both, 0, "")
    linked("an entry of a library by its name", "LIB.E", listing(library), both, 0, "")
    linked("the library before the program", "lib.e", listing(library), '"lib.dll", "p.exe"', 0, "")
    linked("an ordinal that the library hasn't", "LIB.2", listing(library), both, 4, "os2run: module p.exe: reason 11")
    linked("a name that the library doesn't export", "LIB.F", listing(library), both, 4, "os2run: module p.exe: reason 12")
    linked("a name whose ordinal it hasn't", "LIB.E", lost, both, 4, "os2run: module p.exe: reason 12")
    linked("a library that isn't listed", "LIB.1", listing(library), '"p.exe"', 4, "os2run: module p.exe: reason 10")
    linked("a program where a library is wanted", "LIB.1", listing(library.replace(" library", "\nstart 1:0000")), both, 4, "os2run: module p.exe: reason 10")
    wants("a library that isn't listed, by exe", ["exe", "p.exe"], 4, "os2run: module p.exe: reason 10")
    # a library that answers for DOSCALLS
    keyed = '"p.exe", "lib.dll"]\nshim = "{}" # '
    linked("an entry of the shim", "DOSCALLS.1", listing(library), keyed.format("lib"), 0, "")
    linked("a name of the shim", "DOSCALLS.E", listing(library), keyed.format("LIB"), 0, "")
    linked("an ordinal that the shim hasn't", "DOSCALLS.2", listing(library), keyed.format("LIB"), 4, "os2run: module p.exe: reason 11")
    linked("a name that the shim hasn't", "DOSCALLS.F", listing(library), keyed.format("LIB"), 4, "os2run: module p.exe: reason 12")
    linked("a shim that isn't listed", "DOSCALLS.1", listing(library), keyed.format("NOLIB"), 4, "os2run: module NOLIB: reason 18")
    linked("a shim that is a program", "DOSCALLS.1", listing(library), keyed.format("P"), 4, "os2run: module P: reason 18")
    # 16 libraries of 254 segments find selectors, and one more doesn't
    for k in range(17):
        with open(f"{k}.dll", "wb") as out:
            out.write(listing(f"module L{k} library\n" + "".join(f"segment {n + 1} data size=1\n" for n in range(254))))
    full = ", ".join(f'"{k}.dll"' for k in range(17))
    linked("4,064 segments of libraries", "DOSCALLS.5", lost, f'"p.exe", {full[:-10]}', 0, "")
    linked("4,318 segments of libraries", "DOSCALLS.5", lost, f'"p.exe", {full}', 4, "os2run: module 16.dll: reason 14")
    # what only a start asks for
    for title, file, name in (
        ("no stack", row(row(HELLO, NE + 0x1A, 0), NE + 0x0E, 0), "HELLO"),
        ("no entry point", field(0x16, 0), "HELLO"),
        ("a process of a library", listing(library), "LIB"),
    ):
        with open("a.exe", "wb") as out:
            out.write(file)
        with open("a.toml", "w") as out:
            out.write(TOP.replace("hello.exe", "a.exe") + PROCESS.replace("HELLO", name))
        wants(f"a check doesn't start: {title}", ["check", "a.toml"], 0, "")


# What ends a process by an exception: a title, the code (in hexadecimal; the segments are 1 code, 2 data with 16 bytes and a stack of
# 512, 3 read-only data, 4 execute-only code), the exception and the offset at which it comes.
EXCEPTIONS = (
    ("DIV byte by 0", "33C0 F6F0", 0, 2), ("IDIV by 0", "33C0 F7F8", 0, 2), ("IDIV, -32768 by -1", "B80080 99 BBFFFF F7FB", 0, 7),
    ("IDIV byte, 128 by 1", "B88000 B301 F6FB", 0, 5), ("AAM by 0", "D400", 0, 0),
    ("the trap flag by POPF", "680203 9D F8", 1, 4), ("the trap flag by IRET", "680203 0E 680800 CF F8", 1, 8),
    ("INT 3", "CC", 3, 0), ("INT 3 in two bytes", "CD03", 3, 0), ("INTO", "B07F 0401 CE", 4, 4), ("INT 4", "CD04", 4, 0),
    ("BOUND, below", "B8FFFF 62060000", 5, 3), ("BOUND, above", "B80100 62060000", 5, 3),
    ("opcode 82", "82C001", 6, 0), ("opcode D6", "D6", 6, 0), ("opcode F1", "F1", 6, 0), ("opcode 0F 0B", "0F0B", 6, 0), ("opcode 64", "64", 6, 0),
    ("MOV CS", "8ED8 8EC8", 6, 2), ("LEA of a register", "8DC0", 6, 0), ("LES of a register", "C4C0", 6, 0), ("half of an opcode at the end", "0F", 13, 0),
    ("SGDT", "0F01060000", 6, 0), ("SIDT", "0F010E0000", 6, 0), ("SLDT", "0F00C0", 6, 0), ("STR", "0F00C8", 6, 0), ("SMSW", "0F01E0", 6, 0),
    *((f"opcode {code:X}", f"{code:X}C0", 7, 0) for code in range(0xD8, 0xE0)), ("WAIT does nothing", "9B D6", 6, 1),
    ("PUSH", "BC0100 50", 12, 3), ("POP", "58", 12, 0), ("CALL", "BC0100 E80000 90", 12, 3), ("RET", "C3", 12, 0), ("RETF", "50 CB", 12, 1),
    ("IRET", "50 50 CF", 12, 2), ("PUSHA", "BC0E00 60", 12, 3), ("POPA", "61", 12, 0), ("LEAVE", "BD1002 C9", 12, 3), ("ENTER", "BC0100 C8000000", 12, 3),
    ("memory by BP", "BD1002 8A4600", 12, 3), ("memory by the prefix of SS", "36A01002", 12, 0), ("memory by BP and the prefix of DS", "BD1002 3E8A4600", 13, 3),
    ("a selector that isn't held", "B83700 8ED8", 13, 3), ("of the global table", "B80B00 8EC0", 13, 3), ("a service's gate in DS", "B88B00 8ED8", 13, 3),
    ("execute-only code in DS", "B82700 8ED8", 13, 3), ("execute-only code in ES, by POP", "6A27 07", 13, 2),
    ("null in SS", "33C0 8ED0", 13, 2), ("read-only data in SS", "B81F00 8ED0", 13, 3), ("code in SS", "8CC8 8ED0", 13, 2), ("level 0 in SS", "B81400 8ED0", 13, 3),
    ("a far jump to null", "EA00000000", 13, 0), ("a far jump to data", "EA00001700", 13, 0), ("a far jump to a gate", "EA00008B00", 13, 0),
    ("a far call to null", "9A00000300", 13, 0), ("a far call to data", "9A00001F00", 13, 0), ("a far call to what isn't held", "9A00003700", 13, 0),
    ("a far return to null", "6A00 6A00 CB", 13, 4), ("a far return to data", "6A17 6A00 CB", 13, 4), ("a far return to level 0", "6A0C 6A00 CB", 13, 4),
    ("a far return behind the end", "0E 6A7F CB", 13, 3), ("an interrupt's return to data", "6A00 6A17 6A00 CF", 13, 6),
    ("a far jump behind the end", "EA7F000F00", 13, 0), ("a jump behind the end", "EB20", 13, 0), ("a call behind the end", "E82000", 13, 0),
    ("a return behind the end", "6A7F C3", 13, 2), ("code that runs past its end", "90", 13, 1), ("half an instruction at the end", "90 B8", 13, 1),
    ("11 bytes", "26" * 10 + "90", 13, 0), ("10 bytes", "26" * 9 + "90 D6", 6, 10),
    ("a read by null", "33C0 8EC0 26A00000", 13, 4), ("a write by null", "33C0 8ED8 A20000", 13, 4), ("a byte behind the end", "A01002", 13, 0),
    ("a word at the last byte", "A10F02", 13, 0), ("a word at FFFF", "A1FFFF", 13, 0), ("a write into code", "2EA20000", 13, 0),
    ("a write into read-only data", "B81F00 8EC0 26A20000", 13, 5), ("a string's write into read-only data", "B81F00 8EC0 33FF AA", 13, 7),
    ("an addition to read-only data", "B81F00 8EC0 26FE060000", 13, 5), ("an exchange with code", "2E86060000", 13, 0),
    ("CLI", "FA", 13, 0), ("STI", "FB", 13, 0), ("HLT", "F4", 13, 0), *((f"IN {code:X}", f"{code:X}60", 13, 0) for code in (0xE4, 0xE5, 0xE6, 0xE7)),
    *((f"IN or OUT {code:X}", f"{code:X}", 13, 0) for code in (0xEC, 0xED, 0xEE, 0xEF, 0x6C, 0x6D, 0x6E, 0x6F)),
    ("LGDT", "0F01160000", 13, 0), ("LIDT", "0F011E0000", 13, 0), ("LLDT", "0F00D0", 13, 0), ("LTR", "0F00D8", 13, 0), ("LMSW", "0F01F0", 13, 0), ("CLTS", "0F06", 13, 0),
    ("LOCK", "F0 FF060000", 13, 0), ("LOCK before the division by 0", "33C0 F0F6360000", 13, 2),
    *((f"INT {number:02X}", f"CD{number:02X}", 13, 0) for number in (0, 1, 2, 5, 0x20, 0x21, 0x80, 0xFF)),
    ("IRET with the nested task", "680242 9D CF", 13, 4),
)


def exceptions():
    for title, code, vector, offset in EXCEPTIONS:
        code = bytes.fromhex(code.replace(" ", ""))
        rows = "".join(f"{k:04X}  {code[k : k + 8].hex(' ').upper()}\n" for k in range(0, len(code), 8))
        data = "segment 2 data auto size=16\n0000  02 00\nsegment 3 data readonly\n0000  01\nsegment 4 code readonly\n0000  90\n"
        if title.startswith("BOUND"):
            data = data.replace("02 00\n", "00 00 00 00\n")
        with open("a.exe", "wb") as file:
            file.write(listing("module A\nstack 512\nstart 1:0000\nsegment 1 code\n" + rows + data))
        wanted = f"1 end trap {vector} at 000F:{offset:04X}"
        trying.count()
        run = subprocess.run([program(), "exe", "a.exe"], capture_output=True, text=True, stdin=subprocess.DEVNULL)
        lines = run.stderr.splitlines()
        if (run.returncode, lines[-2:]) != (0, [wanted, "all ended"]):
            trying.wrong(f"exception, {title}: {lines[-2:]}; wanted {wanted}")


def streams():
    echo = open(os.path.join(EXAMPLES, "echo.exe"), "rb").read()
    with open("echo.exe", "wb") as file:
        file.write(echo)
    with open("out", "w") as out:
        wants("an input that can't be read", ["exe", "echo.exe"], 6, "os2run: input fault", stdin=out)
    read, write = os.pipe()
    os.set_blocking(read, False)
    wants("an input that doesn't wait", ["exe", "echo.exe"], 6, "os2run: input fault", stdin=read)
    os.close(read)
    os.close(write)
    for title, words, status, line in (
        ("a closed input", "exe echo.exe <&-", 6, "os2run: input fault"),
        ("a closed console", "exe hello.exe >&-", 7, "os2run: output fault"),
        ("a closed report", "exe hello.exe 2>&-", 7, None),
        ("a closed console of a bench", "bench 1 >&-", 7, "os2run: output fault"),
        ("a closed report of a bench", "bench 1 2>&-", 7, None),
        ("a closed console of a dump", "dump below/a.toml >&-", 7, "os2run: output fault"),
        ("a closed report of a dump", "dump below/a.toml 2>&-", 7, None),
        ("a console that nobody reads", "exe hello.exe | true", 7, "os2run: output fault"),
    ):
        trying.count()
        script = f'{{ sleep 0.2; "$0" {words.replace(" | true", "")}; echo $? >status; }}' + (" | true" if "|" in words else "")
        run = subprocess.run(["sh", "-c", script, program()], stdin=subprocess.DEVNULL, stdout=subprocess.PIPE, stderr=subprocess.PIPE, text=True)
        with open("status") as file:
            got = int(file.read())
        if got != status or line and run.stderr.splitlines()[-1:] != [line]:
            trying.wrong(f"{title}: status {got}, {run.stderr!r}; wanted {status}, {line}")
    with open("/dev/full", "w") as full:
        wants("a console that takes nothing", ["exe", "hello.exe"], 7, "os2run: output fault", stdout=full, capture_output=False, stderr=subprocess.PIPE)
        wants("a report that takes nothing", ["exe", "hello.exe"], 7, "", stderr=full, capture_output=False, stdout=subprocess.PIPE)
        wants("a console that doesn't take an image", ["dump", "below/a.toml"], 7, "os2run: output fault", stdout=full, capture_output=False, stderr=subprocess.PIPE)
        wants("a console that doesn't take a bench's line", ["bench", "1"], 7, "os2run: output fault", stdout=full, capture_output=False, stderr=subprocess.PIPE)


def whole():
    with open("hello.exe", "wb") as file:
        file.write(HELLO)
    for part in (words_and_files, machine_files, modules, libraries, exceptions, streams):
        part()


if __name__ == "__main__":
    trying.frame("refusals", __doc__, {"all": whole})
