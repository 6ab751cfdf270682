"""os2why over each refusal of tools/checks/refusals.py, over odd machine files, and over many executables."""
import json
import os
import subprocess

import ne
import trying
import refusals
from trying import EXAMPLES, check_words, program, said, wrong

# What is told of an import of DOSCALLS beside, without a shim and with the one that the refusals have.
MAY = ". A library that answers for DOSCALLS (the key `shim`) may give it\n"
NEITHER = ", and the shim LIB has none either\n"
# What stands in the sentence of a reason, or of one of its titles in tools/checks/refusals.py.
REASONS = {
    1: "it doesn't begin with MZ", 2: "there is no NE where the four bytes at 3Ch say", 3: "it ends early: byte", 4: "it is for another system",
    5: "its linker marked it", 9: "segment 1: its relocation 0, from 0,", 10: "it refers to the module LIB, which is neither",
    11: "it imports LIB.2, and LIB has no entry of that ordinal", 12: "it imports LIB.", 13: "another module has its name",
    14: "no selectors are left for the segments of the library L16", 15: "it has no stack", 16: "it has no entry point", 18: "no library among the files that are named has the name ", 17: "its processes want more segments than the key `segments` allows",
}
TITLES = {
    "MZ and the 64 bytes end early": "byte 63 (3Fh)", "the place at 3Ch lies behind the end": "byte 256 (100h)", "the file ends in the segment table": "byte 132 (84h)",
    "the file ends in a segment's bytes": "byte 184 (B8h)", "the file ends in the relocations": "byte 224 (E0h)",
    "data mode 3": "data mode", "alignment shift 16": "alignment shift", "automatic data in segment 3 of 2": "automatic data segment",
    "automatic data in the code": "automatic data segment", "automatic data that is read-only": "automatic data segment", "no module name": "no module name",
    "a line end in the module name": "with a line end in it", "an entry in segment 9 of 1": "an entry's segment", "an entry that is a constant": "constants",
    "4,194,305 bytes": "more than 4,194,304 bytes", "255 segments": "more than 254 segments", "256 module references": "more than 255 module references",
    "a data segment iterated": "iterated", "a data segment expand-down": "expand-down", "a data segment at level 1": "privilege level 1 or 2",
    "a data segment at level 2": "privilege level 1 or 2", "a data segment of 32 bits": "32 bits", "conforming code": "conforming code",
    "data and stack over 65,536 bytes": "more than 65,536 bytes", "a chain out of the segment's bytes": "offset 1000h", "a chain that meets itself": "offset 000Ch",
    "a reference to another module": "it refers to the module VIOCALLS, which is neither",
    "DOSCALLS.DosOpen": "it imports DOSCALLS.DosOpen, and this machine has no call of that name" + MAY,
    "machine file, ordinals replace the whole list": "it imports DOSCALLS.5 (DosExit), which the table [ordinals] of the machine file leaves out" + MAY,
    "DOSCALLS.144": "it imports DOSCALLS.144 (DosExecPgm), which isn't built yet" + MAY, "DOSCALLS.70": "it imports DOSCALLS.70, and this machine has no call of that ordinal" + MAY,
    "DOSCALLS.999": "it imports DOSCALLS.999, and this machine has no call of that ordinal" + MAY,
    "an ordinal that the shim hasn't, by run": "it imports DOSCALLS.2 (DosCWait), which isn't built yet" + NEITHER,
    "a name that the shim hasn't, by run": "it imports DOSCALLS.F, and this machine has no call of that name" + NEITHER,
    "machine file, a process of no module": "a process runs the module hello.exe, which no file of `modules` is",
}
FAULTS = {1: "it is no TOML document", 2: "is missing", 3: "has another type or form", 4: "is outside its limits"}
# The limits of each key, as the page os2run(5) has them.
LIMITS = {
    "file": "1,048,576", "memory": "a multiple of 16 from 4,096 to 16,777,216", "swap": "0 to 65,536", "segments": "1 to 65,535", "budget": "0 to 4,000,000,000",
    "quantum": "1 to 1,000,000", "avail": "0 to 4,294,967,295", "modules": "1 to 64, each of 1 to 255 bytes", "process": "1 to 64", "process.module": "1 to 255 bytes",
    "process.environment": "at most 65,536 bytes", "ordinals": "1 to 65,535", "script": "at most 100,000 words, of a process 1 to 65,535 with 1 to 4,000,000,000 steps",
    "shim": "1 to 255 bytes",
}
# The keys that each of these faults can have.
NEEDED = ["memory", "swap", "segments", "budget", "quantum", "modules", "process", "process.module"]
READ = [*NEEDED, "avail", "process.environment", "ordinals", "script", "shim"]
KEYS = {1: [""], 2: NEEDED, 3: [*READ, "process.arguments"], 4: [*READ, "file"]}
# The texts that were wanted so far.
seen = set()


def fault_of(reason, key):
    return ("it isn't opened: the machine file is refused\n", f"\n  reason {reason} {key}: ", FAULTS[reason], f"`{key}`" if key else "", LIMITS[key] if reason == 4 else "")


def sentence_of(title, status, line):
    """What has to stand in the text of a refusal: the first in front, and all others."""
    if status == 2:
        return (f"it isn't opened: there is no file {line.removeprefix('os2run: no file ')}\n",)
    if status == 5:
        return ("it isn't opened: a file can't be read\n",)
    words = line.split(" ")
    if status == 3:
        return fault_of(int(words[4]), words[5] if len(words) > 5 else "")
    head, reason = words[2].removesuffix(":"), int(words[4])
    name = title.removeprefix("module, ")
    first = f"it isn't opened: the module in {head} is refused\n"
    if reason == 10 and name.startswith("machine file"):
        first = "it isn't opened: a process has no module\n"
    if reason == 18:
        first = "it isn't opened: the key `shim` names no listed library\n"
    return (first, f"\n  reason {reason}: ", TITLES.get(name, REASONS.get(reason, "no sentence")))


def explains(title, words, status, line, **how):
    """In place of the comparison of tools/checks/refusals.py: what os2why says of these words, once for each text that is wanted."""
    if words[:1] not in (["exe"], ["run"]) or len(words) != 2 or words[1] == "" or status == 1:
        return
    wanted = ("it opens\n", words[0]) if status == 0 else sentence_of(title, status, line)
    if wanted in seen:
        return
    seen.add(wanted)
    trying.count()
    run, text = said("os2why", *words, cwd=how.get("cwd"))
    if status == 0:
        if (run, text) != (0, "it opens\n"):
            wrong(f"os2why, {title}: status {run}, {text!r}; wanted it opens")
    elif run != 1 or not text.startswith(wanted[0]) or any(part not in text for part in wanted) or "it opens" in text:
        wrong(f"os2why, {title}: status {run}, {text!r}; wanted {wanted}")


def refusals_each_once():
    """Each refusal of tools/checks/refusals.py, and no sentence of a refusal that none of them has."""
    refusals.wants = explains
    with open("hello.exe", "wb") as file:
        file.write(refusals.HELLO)
    for part in (refusals.words_and_files, refusals.machine_files, refusals.modules, refusals.libraries):
        part()
    told = {text for wanted in seen for text in wanted}
    for text in (*REASONS.values(), *TITLES.values()):
        if text not in told:
            wrong(f"os2why: no refusal was tried of which it says {text!r}")
    for reason, keys in KEYS.items():
        for key in keys:
            if fault_of(reason, key) not in seen:
                wrong(f"os2why: no machine file was tried that is refused for the reason {reason} {key}")
    return refusals


def odd(title, text, *wanted):
    """What os2why says of a machine file beside the refusal: exactly these lines."""
    trying.count()
    with open("odd.toml", "w") as file:
        file.write(text)
    _, told = said("os2why", "run", "odd.toml")
    beside = tuple(line for line in told.splitlines()[1:] if not line.startswith("  reason "))
    if beside != wanted:
        wrong(f"os2why, {title}: {told!r}; wanted {wanted}")


def check_why():
    check_words("os2why", ["exe"], {"exe": (), "run": (), "imports": ("--machine",)})
    refusals = refusals_each_once()
    good = refusals.TOP + refusals.PROCESS
    oddities(good)
    fronts(good)
    unshown()
    names(refusals)
    ordinals(refusals)
    lost(refusals)
    inventory(refusals)
    shims(refusals)
    runs_nothing()


def oddities(good):
    """Keys that nothing reads, names of files in place of a module's, and where a refused key stands."""
    odd("an unknown key", "colour = 1\n" + good, "  the key `colour` (line 1) is none of a machine file, and is ignored")
    odd("a key below a process", good.replace("quantum = 1000\n", "") + "quantum = 1000\n",
        "  the key `quantum` (line 8) stands below [[process]] and so belongs to process 1, which doesn't read it: put it above the first [[process]]")
    odd("an unknown key of a process", good + 'colour = "red"\n', "  the key `colour` (line 9) is none of a process, and is ignored")
    odd("a file's name for a module", good.replace("HELLO", "hello.exe"),
        "  `module` of process 1 (line 8) is hello.exe, which is the name of a file: it is to be the name in the executable")
    with open("HELLO", "wb") as file, open("hello.exe", "rb") as hello:
        file.write(hello.read())
    odd("a file that has its module's name", good.replace('"hello.exe"', '"HELLO"'))
    odd("a refused key's line", good.replace("swap = 2048", "swap = 65537"), "  that is in line 2")
    odd("a refused key's lines", good.replace('["hello.exe"]', '[\n"hello.exe",\n1]'), "  that is in lines 6 to 8")
    second = good + '[[process]]\nmodule = "HELLO"\n'
    odd("the process with a wrong type", second + "arguments = 1\n", "  that is in line 11")
    odd("the process with a wrong length", second.replace('"HELLO"', f'"{"x" * 256}"').replace("x" * 256, "HELLO", 1), "  that is in line 10")
    odd("the process with a zero byte", second + 'environment = ["A=\\u0000"]\n', "  that is in line 11")
    large = '[[process]]\nmodule = "HELLO"\nenvironment = 1\n'
    odd("the process with a large environment", good + f'environment = ["{"x" * 65_530}"]\n' + large, "  that is in line 9")
    odd("the process with long arguments", good + f'arguments = "{"x" * 65_528}"\n' + large, "  that is in line 7")
    odd("an environment of just the size", good + f'arguments = "{"x" * 65_527}"\n')
    odd("the process without a module", good + "[[process]]\n", "  that is in line 9")


def fronts(good):
    """A key is looked for in the first 5,000 lines, and no longer than until 64 MB of fronts have been read."""
    front, bad = "#\n" * 4_998, good.replace("swap = 2048", "swap = 65537")
    odd("a key in line 5000", front + bad, "  that is in line 5000")
    refused = "it isn't opened: the machine file is refused\n  reason 4 swap: the key `swap` is outside its limits: it is 0 to 65,536\n"
    with open("late.toml", "w") as file:
        file.write("#\n" + front + bad)
    with open("long.toml", "w") as file:
        file.write(f"#{'x' * 1_000_000}\n" + "#\n" * 100 + bad)
    with open("many.toml", "w") as file:
        file.write("".join(f"odd{number} = 1\n" for number in range(2_000)) + good)
    trying.count(3)
    for name in ("late.toml", "long.toml"):
        if said("os2why", "run", name) != (1, refused):
            wrong(f"os2why, {name}: {said('os2why', 'run', name)}; wanted {refused!r}")
    status, told = said("os2why", "run", "many.toml", timeout=60)
    wanted = {f"  the key `odd{number}`{place} is none of a machine file, and is ignored" for number in range(2_000) for place in ("", f" (line {number + 1})")}
    lines = told.splitlines()
    found = sum(" (line " in line for line in lines)
    if status or lines[0] != "it opens" or len(lines) != 2_001 or not wanted.issuperset(lines[1:]) or not 0 < found < 2_000 or "`odd0` (line 1)" not in told:
        wrong(f"os2why, 2,000 keys that nothing reads: status {status}, {len(lines)} lines, {found} with their places, {lines[:3]}")


def unshown():
    """A name that no terminal shows."""
    trying.count()
    wanted = (1, "it isn't opened: there is no file \\xC3\\xA9\\x0A.exe\n")
    if said("os2why", "exe", "\u00e9\n.exe") != wanted:
        wrong(f"os2why, a name that isn't shown: {said('os2why', 'exe', chr(233) + chr(10) + '.exe')}; wanted {wanted}")


def names(refusals):
    """Imports by name and by ordinal of a library that is listed, and of a call that isn't built."""
    with open("lib.dll", "wb") as file:
        file.write(ne.Listing("module LIB library\nexport ONE 1:0000\nsegment 1 code\n0000  90  nop\n").file())
    with open("names.toml", "w") as file:
        file.write(refusals.TOP.replace('"hello.exe"', '"use.exe", "lib.dll"') + '[[process]]\nmodule = "USE"\n')
    for target, line in (
        ("LIB.ONE", None), ("LIB.1", None), ("LIB.TWO", "  reason 12: it imports LIB.TWO, and LIB exports no such name"),
        ("LIB.2", "  reason 11: it imports LIB.2, and LIB has no entry of that ordinal"),
        ("DOSCALLS.DosExecPgm", "  reason 12: it imports DOSCALLS.DosExecPgm, which isn't built yet" + MAY.rstrip()),
        ("DOSCALLS.DOSEXECPGM", "  reason 12: it imports DOSCALLS.DOSEXECPGM, which isn't built yet" + MAY.rstrip()), ("DOSCALLS.DOSWRITE", None),
        ("DOSCALLS.DosAllocSeg", None), ("DOSCALLS.DosCreateCSAlias", None),
        ("A.B", "  reason 10: it refers to the module A, which is neither DOSCALLS nor a library among the files that are named"),
    ):
        trying.count()
        with open("use.exe", "wb") as file:
            file.write(ne.Listing(f"module USE\nstack 512\nstart 1:0000\nsegment 1 code\n0000  9A FF FF 00 00  call @0001 far {target}\nsegment 2 data auto size=16\n").file())
        wanted = (1, f"it isn't opened: the module in use.exe is refused\n{line}\n") if line else (0, "it opens\n")
        if said("os2why", "run", "names.toml") != wanted:
            wrong(f"os2why, {target}: {said('os2why', 'run', 'names.toml')}; wanted {wanted}")


def ordinals(refusals):
    """Imports by ordinal under a list of ordinals of the machine file's own."""
    with open("own.toml", "w") as file:
        file.write(refusals.TOP.replace("hello.exe", "use.exe") + '[[process]]\nmodule = "USE"\n[ordinals]\nDosWrite = 138\nDosExecPgm = 137\nDosCWait = 200\n')
    for ordinal, line in (
        (138, None), (137, "DOSCALLS.137 (DosExecPgm), which isn't built yet"), (200, "DOSCALLS.200 (DosCWait), which isn't built yet"),
        (144, "DOSCALLS.144 (DosExecPgm), which isn't built yet"), (34, "DOSCALLS.34 (DosAllocSeg), which the table [ordinals] of the machine file leaves out"), (94, "DOSCALLS.94 (DosGetPID), which the table [ordinals] of the machine file leaves out"),
        (201, "DOSCALLS.201, and this machine has no call of that ordinal"),
    ):
        trying.count()
        with open("use.exe", "wb") as file:
            file.write(ne.Listing(f"module USE\nstack 512\nstart 1:0000\nsegment 1 code\n0000  9A FF FF 00 00  call @0001 far DOSCALLS.{ordinal}\nsegment 2 data auto size=16\n").file())
        wanted = (1, f"it isn't opened: the module in use.exe is refused\n  reason 11: it imports {line}{MAY}") if line else (0, "it opens\n")
        if said("os2why", "run", "own.toml") != wanted:
            wrong(f"os2why, its own ordinals, {ordinal}: {said('os2why', 'run', 'own.toml')}; wanted {wanted}")


def lost(refusals):
    """Modules that aren't there, which a process asks for, or a module in a file of that name; a program is no library."""
    refers = "it refers to the module {}, which is neither DOSCALLS nor a library among the files that are named"
    asks = "a process runs the module {}, which no file of `modules` is. `module` is the name in the executable, and not the file's"
    for files, process, target, wanted in (
        (("SELF",), "SELF", "SELF.1", ("the module in SELF is refused", refers.format("SELF"))),
        (("OTHER",), "OTHER", "OTHER.1", ("the module in OTHER is refused", refers.format("OTHER"))),
        (("OTHER",), "OTHER", "DOSCALLS.138", ("a process has no module", asks.format("OTHER"))),
        (("DOSCALLS",), "DOSCALLS", "DOSCALLS.138", ("a process has no module", asks.format("DOSCALLS"))),
        (("SELF", "hello.exe"), "SELF", "HELLO.1", ("the module in SELF is refused", refers.format("HELLO"))),
        (("SELF",), "OTHER", "DOSCALLS.138", ("a process has no module", asks.format("OTHER"))),
    ):
        trying.count()
        for name in files:
            if name != "hello.exe":
                with open(name, "wb") as file:
                    file.write(ne.Listing(f"module SELF\nstack 512\nstart 1:0000\nsegment 1 code\n0000  9A FF FF 00 00  call @0001 far {target}\nsegment 2 data auto size=16\n").file())
        with open("lost.toml", "w") as file:
            file.write(refusals.TOP.replace('["hello.exe"]', json.dumps(files)) + f'[[process]]\nmodule = "{process}"\n')
        text = f"it isn't opened: {wanted[0]}\n  reason 10: {wanted[1]}\n"
        if process in files and wanted[0].startswith("a process"):
            text += f"  `module` of process 1 (line 8) is {process}, which is the name of a file: it is to be the name in the executable\n"
        status, told = said("os2why", "run", "lost.toml")
        if (status, told) != (1, text):
            wrong(f"os2why, {files}, {process}, {target}: status {status}, {told!r}; wanted {text!r}")


def inventory(refusals):
    """What executables import, how many open, and what is missing most."""
    trying.count()
    records = refusals.HELLO.index(b"\x03\x01\x0c\x00")
    for name, ordinal in (("one.exe", 144), ("two.exe", 144), ("three.exe", 70)):
        with open(name, "wb") as file:
            file.write(refusals.row(refusals.HELLO, records + 6, ordinal))
    with open("text.exe", "w") as file:
        file.write("no executable")
    with open("upper.exe", "wb") as file:
        file.write(ne.Listing("module UPPER\nstack 512\nstart 1:0000\nsegment 1 code\n0000  9A FF FF 00 00  call @0001 far DOSCALLS.DOSREAD\nsegment 2 data auto size=16\n").file())
    wanted = (0, "upper.exe: 1 of its imports are built, 0 are missing\n1 of 1 files open\n     1 DOSCALLS.DosRead is built\n")
    if said("os2why", "imports", "upper.exe") != wanted:
        wrong(f"os2why imports upper.exe: {said('os2why', 'imports', 'upper.exe')}; wanted {wanted}")
    status, text = said("os2why", "imports", "hello.exe", "one.exe", "two.exe", "three.exe", "text.exe")
    lines = text.splitlines()
    beside = ["  a shim would have to give 1 of them: DOSCALLS.DosExecPgm"] * 2 + ["  a shim would have to give 1 of them: DOSCALLS.70"]
    wanted = ["1 of 5 files open", "     2 DOSCALLS.DosExecPgm is missing", "     1 DOSCALLS.70 is missing", "     4 DOSCALLS.DosExit is built", "     1 DOSCALLS.DosWrite is built"]
    if status or lines[8:] != wanted or lines[1] != "one.exe: 1 of its imports are built, 1 are missing" or lines[2:7:2] != beside:
        wrong(f"os2why imports: status {status}, {text!r}; wanted {wanted}")


def program_of(*targets):
    """A program with a far pointer to each of these, or an offset where a target has a ~ before it."""
    rows = "".join(f"{5 * k:04X}  9A FF FF 00 00  call @{5 * k + 1:04X} {'offset' if target[0] == '~' else 'far'} {target.strip('~')}\n" for k, target in enumerate(targets))
    return ne.Listing(f"module USE\nstack 512\nstart 1:0000\nsegment 1 code\n{rows}segment 2 data auto size=16\n").file()


def shims(refusals):
    """What a shim gives and what it lacks, by ordinals and by names, beside built services, other libraries, and ordinals of the machine file's own."""
    library = "module {} library\nexport {} 1:0000 ordinal=92\nexport DOSWRITE 1:0001 ordinal=138\nsegment 1 code\n0000  90  nop\n0001  90  nop\n"
    for name, text in (("shim.dll", library.format("SHIM", "ASKED")), ("other.dll", library.format("OTHER", "THIS"))):
        with open(name, "wb") as file:
            file.write(ne.Listing(text).file())
    keys = {"with.toml": 'shim = "shim"\n', "without.toml": "", "lost.toml": 'shim = "LOST"\n', "own.toml": 'shim = "SHIM"\nordinals = { DosExit = 5, DosWrite = 92 }\n'}
    for name, key in keys.items():
        with open(name, "w") as file:
            file.write(refusals.TOP.replace('"hello.exe"', '"use.exe", "shim.dll", "other.dll"') + key + '[[process]]\nmodule = "USE"\n')
    targets = ("DOSCALLS.5", "~DOSCALLS.92", "DOSCALLS.asked", "DOSCALLS.DosWrite", "DOSCALLS.138", "DOSCALLS.93", "DOSCALLS.THIS", "OTHER.this", "OTHER.92", "OTHER.ASKED", "NOBODY.1")
    with open("use.exe", "wb") as file:
        file.write(program_of(*targets))
    built = ["     1 DOSCALLS.DosExit is built", "     1 DOSCALLS.DosWrite is built"]
    given = ["     1 OTHER.92 is given", "     1 OTHER.this is given"]
    missing = ["DOSCALLS.93", "DOSCALLS.THIS", "NOBODY.1", "OTHER.ASKED"]
    listed = lambda names, how: [f"     1 {name} is {how}" for name in sorted(names)]
    for words, wanted in (
        (["use.exe"], ["use.exe: 2 of its imports are built, 8 are missing", "  a shim would have to give 4 of them: DOSCALLS.92, DOSCALLS.93, DOSCALLS.THIS, DOSCALLS.asked", "0 of 1 files open",
                       *listed([*missing, "DOSCALLS.92", "DOSCALLS.asked", "OTHER.92", "OTHER.this"], "missing"), *built]),
        (["--machine", "with.toml", "use.exe"], ["use.exe: 2 of its imports are built, 4 are given by libraries, 4 are missing", "  the shim shim gives 2 of them: DOSCALLS.92, DOSCALLS.asked",
                                                 "  the shim shim lacks 2 of them: DOSCALLS.93, DOSCALLS.THIS", *listed(missing, "missing"),
                                                 *listed(["DOSCALLS.92", "DOSCALLS.asked", "OTHER.92", "OTHER.this"], "given"), *built]),
        (["-m", "without.toml", "use.exe"], ["use.exe: 2 of its imports are built, 2 are given by libraries, 6 are missing", "  a shim would have to give 4 of them: DOSCALLS.92, DOSCALLS.93, DOSCALLS.THIS, DOSCALLS.asked",
                                             *listed([*missing, "DOSCALLS.92", "DOSCALLS.asked"], "missing"), *given, *built]),
        (["-m", "lost.toml", "use.exe"], ["use.exe: 2 of its imports are built, 2 are given by libraries, 6 are missing", "  the shim LOST lacks 4 of them: DOSCALLS.92, DOSCALLS.93, DOSCALLS.THIS, DOSCALLS.asked",
                                          *listed([*missing, "DOSCALLS.92", "DOSCALLS.asked"], "missing"), *given, *built]),
        # DOSCALLS.92 is DosWrite here, so DOSCALLS.138 is the shim's; DosWrite by its name stays
        (["-m", "own.toml", "use.exe"], ["use.exe: 2 of its imports are built, 4 are given by libraries, 4 are missing", "  the shim SHIM gives 2 of them: DOSCALLS.138, DOSCALLS.asked",
                                         "  the shim SHIM lacks 2 of them: DOSCALLS.93, DOSCALLS.THIS", *listed(missing, "missing"),
                                         *listed(["DOSCALLS.138", "DOSCALLS.asked", "OTHER.92", "OTHER.this"], "given"), *built]),
        # two files, of which one is a library: each import counts once a file
        (["-m", "with.toml", "use.exe", "shim.dll", "use.exe"], ["use.exe: 2 of its imports are built, 4 are given by libraries, 4 are missing", "  the shim shim gives 2 of them: DOSCALLS.92, DOSCALLS.asked",
                                                                 "  the shim shim lacks 2 of them: DOSCALLS.93, DOSCALLS.THIS", "shim.dll: 0 of its imports are built, 0 are missing"] + 0 * [""]),
    ):
        trying.count()
        status, text = said("os2why", "imports", *words)
        lines = text.splitlines()
        if len(words) == 5:
            lines, counts = lines[: len(wanted)], [line for line in lines if line.startswith("     2 ")]
            if len(counts) != 10:
                wrong(f"os2why imports {' '.join(words)}: {text!r}; wanted ten that two files import")
        if status or lines != wanted:
            wrong(f"os2why imports {' '.join(words)}: status {status}, {lines}; wanted {wanted}")
    # what the sentence says of the same imports, one at a time
    with open("none.toml", "w") as file:
        file.write("x = 1\n")
    for target, line in (
        ("DOSCALLS.92", None), ("DOSCALLS.ASKED", None), ("DOSCALLS.138", None), ("OTHER.92", None),
        ("DOSCALLS.93", "11: it imports DOSCALLS.93, and this machine has no call of that ordinal, and the shim shim has none either"),
        ("DOSCALLS.144", "11: it imports DOSCALLS.144 (DosExecPgm), which isn't built yet, and the shim shim has none either"),
        ("DOSCALLS.THIS", "12: it imports DOSCALLS.THIS, and this machine has no call of that name, and the shim shim has none either"),
        ("DOSCALLS.DosCWait", "12: it imports DOSCALLS.DosCWait, which isn't built yet, and the shim shim has none either"),
        ("OTHER.ASKED", "12: it imports OTHER.ASKED, and OTHER exports no such name"), ("OTHER.93", "11: it imports OTHER.93, and OTHER has no entry of that ordinal"),
    ):
        trying.count()
        with open("use.exe", "wb") as file:
            file.write(program_of(target))
        wanted = (1, f"it isn't opened: the module in use.exe is refused\n  reason {line}\n") if line else (0, "it opens\n")
        if said("os2why", "run", "with.toml") != wanted:
            wrong(f"os2why, with a shim, {target}: {said('os2why', 'run', 'with.toml')}; wanted {wanted}")
    with open("text.dll", "w") as file:
        file.write("no library")
    with open("text.toml", "w") as file:
        file.write(refusals.TOP.replace('"hello.exe"', '"use.exe", "text.dll"') + '[[process]]\nmodule = "USE"\n')
    for name in ("none.toml", "nowhere.toml", "text.toml"):
        trying.count()
        run = subprocess.run([program("os2why"), "imports", "-m", name, "use.exe"], stdin=subprocess.DEVNULL, capture_output=True, text=True)
        wanted = (3, "", f"os2why: the machine file {name} isn't read, or a module of it: `os2why run` says why\n")
        if (run.returncode, run.stdout, run.stderr) != wanted:
            wrong(f"os2why imports -m {name}: {run}; wanted {wanted}")


def runs_nothing():
    """A program that would write and read, and one that would swap: no output of theirs, no input taken, and no swap file made."""
    for words in (["exe", os.path.join(EXAMPLES, "echo.exe")], ["imports", os.path.join(EXAMPLES, "echo.exe")], ["run", "swaps.toml"]):
        trying.count()
        if words[0] == "run":
            for name in ("swaps.toml", "rounds.exe"):
                os.symlink(os.path.join(EXAMPLES, "memory", name), name)
        reader, writer = os.pipe()
        os.write(writer, b"input")
        os.close(writer)
        with os.fdopen(reader, "rb") as source:
            run = subprocess.run([program("os2why"), *words], stdin=source, stdout=subprocess.PIPE, stderr=subprocess.PIPE)
            left = source.read()
        told = run.stdout.decode("ascii")
        if run.returncode or run.stderr or left != b"input" or words[0] != "imports" and told != "it opens\n" or os.path.exists("os2run.swp"):
            wrong(f"os2why {' '.join(words)}: status {run.returncode}, {told!r}, {run.stderr!r}, {left!r} left of the input")
