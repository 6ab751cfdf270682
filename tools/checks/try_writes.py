"""What os2trace tells of the bytes that a step changed, and its traces as JSON: against core images, and against each other."""
import json
import os
import re
import shutil
import subprocess

import core_image
import memory
import ne
from trying import EXAMPLES, program, said, wants, wrong

REGISTERS = {"AX", "BX", "CX", "DX", "SI", "DI", "BP", "SP", "CS", "DS", "ES", "SS", "IP", "FLAGS"}
KEYS = {"step", "process", "cs", "ip", "code", "text", "before", "after", "writes", "trap", "console", "report", "call", "end", "waits"}
# The keys of a process that waits at the end of the run.
WAITER = {"process", "cs", "ip", "waits"}
# The key of a word of the script.
WORD = {"word"}

# How many steps of an example are looked at.
STEPS = 600


def traced(words, stdin=b"", cwd="."):
    run = subprocess.run([program("os2trace"), *words], input=stdin, stdout=subprocess.PIPE, cwd=cwd)
    return run.returncode, run.stdout.decode("utf-8")


def objects(title, text):
    """The objects of a trace, each of which has the keys that the manual page names."""
    found = []
    # (a character of the console may be a line end to splitlines)
    for line in text.removesuffix("\n").split("\n"):
        try:
            found.append(json.loads(line))
        except ValueError as why:
            wrong(f"{title}: {line!r} is no JSON: {why}")
            continue
        keys = set(found[-1])
        if keys not in (KEYS, {"report"}, WAITER, WORD):
            wrong(f"{title}: the keys {sorted(keys)}")
    return found


def shown(text):
    """A text of characters below 256, as the other form shows it."""
    return "".join(char if 32 <= ord(char) < 127 else f"\\x{ord(char):02X}" for char in text)


def lines_of(bytes_):
    """Changed bytes as lines: up to sixteen that follow each other in each."""
    runs = []
    for selector, offset, old, new in bytes_:
        last = runs[-1] if runs else None
        if last and last[0] == selector and last[1] + len(last[2]) == offset and len(last[2]) < 16:
            last[2].append(old)
            last[3].append(new)
        else:
            runs.append((selector, offset, [old], [new]))
    return [f"* {selector:04X}:{offset:04X} {bytes(old).hex().upper()} -> {bytes(new).hex().upper()}" for selector, offset, old, new in runs]


def console_lines(text):
    parts = text.split("\n")
    return ["> " + shown(part) for part in (parts if parts[-1] else parts[:-1])]


def trap_line(it):
    """The line of an exception."""
    trap = it["trap"]
    places = {"instruction": "", "service": ", in the service", "behind": ", behind the step"}
    names = [f"{name}={it['before'][name.lower()]:04X}" for name in trap["segments"]]
    return f"! exception {trap['vector']}, error code {trap['code']:04X}{places[trap['place']]}" + (", segment " + " or ".join(names) if names else "")


def as_lines(it):
    """The lines of an object in the other form, but for the text that is a column's."""
    if set(it) == WAITER:
        return [f"process {it['process']} waits at {it['cs']:04X}:{it['ip']:04X} in {it['waits']}"]
    if set(it) == WORD:
        return [it["word"]]
    if "step" not in it:
        return ["| " + shown(line) for line in it["report"]]
    before, after, count = it["before"], it["after"], len(it["code"]) // 2
    following = it["ip"] if it["text"] == "no instruction" else (it["ip"] + count) % 65536
    changed = " waits" if it["waits"] else ""
    if after and not it["waits"]:
        for name in ("ax", "bx", "cx", "dx", "si", "di", "bp", "sp", "cs", "ds", "es", "ss"):
            changed += f" {name.upper()}={after[name]:04X}" if after[name] != before[name] else ""
        changed += f" IP={after['ip']:04X}" if after["ip"] != following else ""
        changed += f" F={after['flags']:04X}" if after["flags"] != before["flags"] else ""
    front = f"{it['process']} {it['cs']:04X}:{it['ip']:04X} {it['code']:<20} {it['text']}"
    head = front if not changed else front + " " * max(0, 32 - len(it["text"])) + changed
    trap = [trap_line(it)] if it["trap"] else []
    return [head, *trap, *lines_of(it["writes"]), *console_lines(it["console"]), *("| " + shown(line) for line in it["report"])]


def called(line):
    """What a call line says."""
    front, _, answer = line.partition(" = ")
    error, *values = answer.split() or [""]
    _, _, name, *arguments = front.split()
    return {"name": name, "arguments": arguments, "error": int(error) if error else None, "values": values}


def check_object(title, it):
    """An object's call and end are those of its lines, and its registers those of all sixteen-bit ones."""
    call = [called(line) for line in it["report"] if line.startswith(f"{it['process']} call ")] + [None]
    end = [line.split(" ", 2)[2] for line in it["report"] if line.startswith(f"{it['process']} end ")] + [None]
    if it["call"] != call[0] or it["end"] != end[0] or (it["after"] is None) != bool(end[0]):
        wrong(f"{title}: step {it['step']}: {it['call']}, {it['end']}; wanted {call[0]}, {end[0]}")
    if it["waits"] and (it["before"] != it["after"] or it["report"] or it["writes"] or it["waits"] not in ("DosSemRequest", "DosSemWait")):
        wrong(f"{title}: step {it['step']}: it waits in {it['waits']}, and changes something")
    for registers in (it["before"], it["after"] or it["before"]):
        if {name.upper() for name in registers} != REGISTERS or not all(0 <= value < 65536 for value in registers.values()):
            wrong(f"{title}: step {it['step']}: registers {registers}")
    if (it["before"]["cs"], it["before"]["ip"]) != (it["cs"], it["ip"]):
        wrong(f"{title}: step {it['step']}: it doesn't begin at its CS:IP")


def check_forms(title, words, stdin, cwd):
    """Both forms say the same, and without the lines of writes the trace is the plain one."""
    plain, writes, as_json = (traced([words[0], "--to", str(STEPS), *option, words[1]], stdin, cwd) for option in ([], ["--writes"], ["--json"]))
    found = objects(title, as_json[1])
    wants(f"{title}: status", plain[0] == writes[0] == as_json[0], (plain[0], writes[0], as_json[0]))
    lines = writes[1].splitlines()
    wants(f"{title}: without writes", [line for line in lines if not line.startswith("* ")] == plain[1].splitlines(), "other lines")
    wanted = [line for it in found for line in as_lines(it)]
    differs = next((pair for pair in zip(wanted, lines) if pair[0] != pair[1]), None)
    wants(f"{title}: JSON as lines", wanted == lines, (differs, len(wanted), len(lines)))
    steps = [it for it in found if "step" in it]
    wants(f"{title}: numbers of steps", [it["step"] for it in steps] == list(range(1, len(steps) + 1)), "others")
    for it in steps:
        check_object(title, it)
    return steps


def core_behind(text, count, stdin, cwd):
    """The core image of a run that ends behind this many steps."""
    with open(os.path.join(cwd, "cut.toml"), "w") as file:
        file.write(re.sub(r"(?m)^budget = \d+", f"budget = {count}", text))
    status, out, wrongs = memory.run(["dump", "cut.toml"], stdin, cwd)
    if status:
        wrong(f"dump behind {count} steps: status {status}, {wrongs}")
        return None
    return core_image.Read(out)


def differences(first, second, dropped):
    """Each byte that isn't the same in two images, where both know it: by segment and offset, what it was and is; and of each segment by
    process and selector its number, and how many bytes both images know. Only what a process holds under one selector in both, and hasn't
    dropped between them: another segment may have its number then."""
    found, numbers = {}, {}
    for pid in first.processes.keys() & second.processes.keys():
        one, other = first.processes[pid][3], second.processes[pid][3]
        for index in one.keys() & other.keys():
            number = one[index][3]
            if other[index][3] != number or (pid, 8 * index + 7) in dropped:
                continue
            old, new = first.segments[number].bytes, second.segments[number].bytes
            if old is None or new is None:
                continue
            numbers[pid, 8 * index + 7] = number, min(len(old), len(new))
            found.update(((number, at), pair) for at, pair in enumerate(zip(old, new)) if pair[0] != pair[1])
    return found, numbers


def between_words(begin, end, words):
    """The parts of these steps in which no word `discard` comes, which changes bytes by itself. The image behind the steps before a word is one
    from before the word."""
    cuts = [word for word in words if begin <= word < end]
    return [part for part in zip([begin, *(cut + 1 for cut in cuts)], [*cuts, end]) if part[0] < part[1]]


def check_cores(title, name, stdin, cwd):
    """What the steps between two core images wrote, taken together, is how the images differ."""
    text = memory.example_text(cwd, name, memory.AMPLE)
    with open(os.path.join(cwd, "whole.toml"), "w") as file:
        file.write(text)
    found = objects(title, traced(["run", "--json", "--to", str(STEPS), "whole.toml"], stdin, cwd)[1])
    steps = [it for it in found if "step" in it]
    words = [sum("step" in it for it in found[:place]) for place, it in enumerate(found) if set(it) == WORD]
    # the last image is taken before the first process ends, since an end takes its segments away
    last = next((it["step"] for it in steps if it["end"]), len(steps) + 1) - 1
    compared = 0
    for begin, end in {part for whole in ((0, last // 2), (last // 3, last), (0, last), (last - 1, last)) for part in between_words(*whole, words)}:
        if not 0 <= begin < end:
            continue
        cores = [core_behind(text, count, stdin, cwd) for count in (begin, end)]
        if None in cores:
            continue
        drops = [re.match(r"(\d+) drop ([0-9A-F]{4}) by", line) for it in steps[begin:end] for line in it["report"]]
        wanted, numbers = differences(*cores, {(int(drop[1]), int(drop[2], 16)) for drop in drops if drop})
        told = {}
        for it in steps[begin:end]:
            for selector, offset, old, new in it["writes"]:
                number, size = numbers.get((it["process"], selector), (None, 0))
                # (a segment may have grown between the images)
                if offset < size:
                    first, now = told.get((number, offset), (old, old))
                    if now != old:
                        wrong(f"{title}: step {it['step']}: {selector:04X}:{offset:04X} was {now:02X}, and isn't {old:02X}")
                    told[number, offset] = (first, new)
        told = {place: pair for place, pair in told.items() if pair[0] != pair[1]}
        wants(f"{title}: steps {begin + 1} to {end}", told == wanted, (sorted(told.items() ^ wanted.items())[:6], len(told), len(wanted)))
        compared += len(wanted)
    return compared


def check_writes():
    """A dozen of the examples: both forms of their traces, and their writes against core images."""
    shutil.copytree(EXAMPLES, "examples")
    compared = names = 0
    for path in sorted(examples()):
        cwd, name = os.path.split(os.path.join("examples", path))
        stdin = memory.content(os.path.join(cwd, name + ".input"))
        words = ["run", name + ".toml"] if os.path.exists(os.path.join(cwd, name + ".toml")) else ["exe", name + ".exe"]
        check_forms(path, words, stdin, cwd)
        if int(memory.content(os.path.join(cwd, name + ".status")) or 0) == 0:
            compared += check_cores(path, name, stdin, cwd)
            names += 1
    wants("writes: a dozen programs", names >= 12 and compared > 100, (names, compared))
    print(f"writes: {compared} bytes between core images of {names} examples")
    aliases()
    texts()
    calls()


def examples():
    """The examples with a report, by folder and name."""
    for folder, _, files in os.walk(EXAMPLES):
        for file in files:
            if file.endswith(".report") and not file.endswith((".exe.report", ".toml.report")):
                yield os.path.relpath(os.path.join(folder, file[: -len(".report")]), EXAMPLES)


def steps_of(listing, stdin=b""):
    with open("writes.exe", "wb") as file:
        file.write(ne.Listing(listing).file())
    status, text = traced(["exe", "--json", "writes.exe"], stdin)
    wants("writes.exe: status", status == 0, status)
    return [it for it in objects("writes.exe", text) if "step" in it]


def aliases():
    """A segment under two selectors is told once, under the lower one; and a byte that is written again as it was isn't told."""
    steps = steps_of("module ALIAS\nstack 512\nstart 1:0000\nsegment 1 code\n"
                     "0000  C6 06 00 00 F4  mov byte [0],0xf4\n0005  1E 1E 6A 08\n0009  9A FF FF 00 00  call DosCreateCSAlias @000A far DOSCALLS.43\n"
                     "000E  C6 06 00 00 CB  mov byte [0],0xcb\n0013  C6 06 00 00 CB  mov byte [0],0xcb\n0018  FF 1E 06 00  call far [6]\n001C  F4  hlt\n"
                     "segment 2 data auto size=16\n")
    alias = next((int(it["call"]["values"][0], 16) for it in steps if it["call"]), 0)
    wanted = {0: [[0x17, 0, 0, 0xF4]], 4: [[0x17, 8, 0, alias]], 5: [[0x17, 0, 0xF4, 0xCB]], 6: []}
    wants("writes: by a selector with an alias", alias > 0x17 and all(steps[at]["writes"] == bytes_ for at, bytes_ in wanted.items()), [it["writes"] for it in steps])
    wants("writes: the alias runs what was written", steps[8]["cs"] == alias and steps[8]["text"] == "retf" and steps[-1]["end"] == "trap 13 at 000F:001C", steps[8:])


def texts():
    """Bytes that JSON escapes: of the console, and of a module's name in the report."""
    with open(os.path.join(EXAMPLES, "hello.exe"), "rb") as file:
        hello = file.read()
    for put in (b"\x01\x80\\\nA", b'"\xff\x7f\t\r', b"\0\x1f\xc3\xa9/", b"\x85\x1c\x0b\xa0\xad"):
        with open("text.exe", "wb") as file:
            file.write(hello.replace(b"hello", put))
        status, text = traced(["exe", "--json", "text.exe"])
        console = "".join(it.get("console", "") for it in objects("text.exe", text))
        wants(f"writes: the console {put!r}", status == 0 and console.encode("latin-1") == put, console)


def calls():
    """What a call wrote: the bytes that DosRead brings, and the number of them."""
    steps = steps_of("module READS\nstack 512\nstart 1:0000\nsegment 1 code\n0000  6A 00 1E 6A 00 6A 03 1E 6A 06\n"
                     "000A  9A FF FF 00 00  call DosRead @000B far DOSCALLS.137\n000F  F4  hlt\nsegment 2 data auto size=16\n", b"ab\0c")
    read = next((it for it in steps if it["call"]), None)
    wants("writes: DosRead", read and sorted(read["writes"]) == [[0x17, 0, 0, 0x61], [0x17, 1, 0, 0x62], [0x17, 6, 0, 3]], read)
    wants("writes: its call", read and read["call"] == {"name": "DosRead", "arguments": ["0000", "0017:0000", "0003", "0017:0006"], "error": 0, "values": ["0003"]}, read)
    wants("writes: the end", steps[-1]["end"] == "trap 13 at 000F:000F" and steps[-1]["trap"] == {"vector": 13, "code": 0, "place": "instruction", "segments": []}, steps[-1])
    # without the options nothing of it is told
    wants("writes: the plain trace", "* " not in said("os2trace", "exe", "writes.exe")[1], "lines of writes")
