"""Traces of the examples, and of small programs."""
import os
import re
import select
import shutil
import subprocess

import ne
import trying
from trying import EXAMPLES, check_words, program, said, wrong


def shown(bytes_):
    """Bytes as a trace shows them."""
    return "".join(chr(byte) if 32 <= byte < 127 else f"\\x{byte:02X}" for byte in bytes_)


def check_trace():
    """Each example's trace has the lines of its report and the bytes of its console, in their order, without the line of a status behind
    them; where NAME.trace stands beside it, it is that."""
    options = ("--process <NUMBER>", "--from <STEP>", "--to <STEP>", "--selector <HEX>", "--writes", "--json")
    check_words("os2trace", ["exe"], {"exe": options, "run": options})
    for folder, _, files in sorted(os.walk(EXAMPLES)):
        for file in sorted(files):
            name, end = os.path.splitext(file)
            if end != ".report":
                continue
            trying.count()
            verb, what = ("run", name + ".toml") if name + ".toml" in files else ("exe", name + ".exe")
            stream = os.path.join(folder, name + ".input")
            with open(stream if os.path.exists(stream) else os.devnull, "rb") as source:
                run = subprocess.run([program("os2trace"), verb, what], cwd=folder, stdin=source, stdout=subprocess.PIPE)
            text = run.stdout.decode("ascii")
            with open(os.path.join(folder, file)) as wanted:
                lines = [line for line in wanted.read().splitlines() if not line.startswith("os2run: ")]
                if run.returncode or [line[2:] for line in text.splitlines() if line.startswith("| ")] != lines:
                    wrong(f"os2trace {verb} {what}: status {run.returncode}; the lines behind | aren't those of {file}")
            if name + ".console" in files:
                with open(os.path.join(folder, name + ".console"), "rb") as wanted:
                    console = "".join(line[2:] for line in text.splitlines() if line.startswith("> "))
                    if console != shown(wanted.read().replace(b"\n", b"")):
                        wrong(f"os2trace {verb} {what}: what stands behind > isn't {name}.console: {console!r}")
            if name + ".trace" in files:
                with open(os.path.join(folder, name + ".trace")) as wanted:
                    if text != wanted.read():
                        wrong(f"os2trace {verb} {what}: it isn't {name}.trace")
    choices()
    last_lines()
    swapped()
    many_starts()
    exceptions()
    pieces()
    first_input()
    read_in_between()
    written_by_another()
    waits()
    words()


def waits():
    """Who waits is told behind the last line of the run, whatever steps are shown, and not where the trace ends before; who stands at a jump to itself
    doesn't wait."""
    folder = os.path.join(EXAMPLES, "semaphores")
    told = [f"process {number} waits at 000F:002D in DosSemRequest" for number in (1, 2)]
    for words, wanted in (([], told), (["--to", "49"], []), (["--process", "1", "--from", "45"], told), (["--selector", "1F"], told)):
        trying.count()
        run = subprocess.run([program("os2trace"), "run", *words, "cross.toml"], cwd=folder, stdin=subprocess.DEVNULL, stdout=subprocess.PIPE, text=True)
        lines = run.stdout.splitlines()
        if run.returncode or [line for line in lines if line.startswith("process ")] != wanted or wanted and lines[-3:] != ["| budget spent", *wanted]:
            wrong(f"os2trace run {' '.join(words)} cross.toml: status {run.returncode}, {lines[-4:]}; wanted {wanted}")
    trying.count()
    with open("stands.exe", "wb") as file:
        file.write(ne.Listing("module STANDS\nstack 512\nstart 1:0000\nsegment 1 code\n0000  EB FE\nsegment 2 data auto size=16\n").file())
    with open("stands.toml", "w") as file:
        file.write('memory = 4096\nswap = 0\nsegments = 3\nbudget = 9\nquantum = 1\nmodules = ["stands.exe"]\n[[process]]\nmodule = "STANDS"\n')
    status, text = said("os2trace", "run", "stands.toml")
    if status or "waits" in text or text.splitlines()[-1:] != ["| budget spent"]:
        wrong(f"os2trace, a jump to itself: status {status}, {text.splitlines()[-3:]}")


def before_words(text):
    """How many steps a trace shows before each word of the script."""
    steps, found = 0, []
    for line in text.splitlines():
        steps += bool(re.match(r"\d", line))
        if line == "discard":
            found.append(steps)
    return found


def words():
    """A word `discard` of the script has a line before the step that follows it, as often as it stands there. One that no step follows has none."""
    for options, wanted in (([], [216]), (["--from", "217"], [0]), (["--from", "218"], []), (["--to", "216"], []), (["--to", "217"], [216]), (["--process", "2"], [0])):
        trying.count()
        status, text = said("os2trace", "run", *options, "cache.toml", cwd=os.path.join(EXAMPLES, "memory"))
        if status or before_words(text) != wanted:
            wrong(f"os2trace {' '.join(options)} cache.toml: status {status}, words behind steps {before_words(text)}; wanted {wanted}")
    shutil.copy(os.path.join(EXAMPLES, "hello.exe"), ".")
    for budget, wanted in ((1000, [0, 0, 4]), (5, [0, 0, 4]), (4, [0, 0]), (1, [0, 0]), (0, [])):
        trying.count()
        with open("words.toml", "w") as file:
            file.write(f'memory = 65536\nswap = 0\nsegments = 64\nbudget = {budget}\nquantum = 3\nmodules = ["hello.exe"]\n'
                       'script = ["discard", "9:5", "discard", "1:4", "discard", "1:6", "discard"]\n[[process]]\nmodule = "HELLO"\n')
        status, text = said("os2trace", "run", "words.toml")
        if status or before_words(text) != wanted:
            wrong(f"os2trace words.toml, budget {budget}: status {status}, words behind steps {before_words(text)}; wanted {wanted}")
    for load, wanted in (("8E 06 00 00  mov es,[0]", 11), ("8E 16 00 00  mov ss,[0]", 12)):
        trying.count()
        with open("drops.exe", "wb") as file:
            file.write(ne.Listing("module DROPS\nstack 512\nstart 1:0000\nsegment 1 code\n0000  6A 10 1E 6A 00 6A 04\n"
                                  "0007  9A FF FF 00 00  call DosAllocSeg @0008 far DOSCALLS.34\n000C  FF 36 00 00  push word [0]\n"
                                  f"0010  9A FF FF 00 00  call DosUnlockSeg @0011 far DOSCALLS.123\n0015  {load}\nsegment 2 data auto size=16\n").file())
        with open("drops.toml", "w") as file:
            file.write('memory = 65536\nswap = 0\nsegments = 64\nbudget = 100\nquantum = 9\nmodules = ["drops.exe"]\n'
                       'script = ["1:7", "discard"]\n[[process]]\nmodule = "DROPS"\n')
        status, text = said("os2trace", "run", "drops.toml")
        told = [line for line in text.splitlines() if line.startswith("!")]
        if status or before_words(text) != [7] or told != [f"! exception {wanted}, error code 0024"]:
            wrong(f"os2trace drops.toml, {load}: status {status}, words behind steps {before_words(text)}, {told}; wanted exception {wanted}")


def traced(code):
    """The lines of the trace of a program with these bytes, behind PUSH DS and POP ES."""
    rows = "".join(f"{at:04X}  {byte}\n" for at, byte in enumerate(("1E 07 " + code).split(" ")))
    with open("traced.exe", "wb") as file:
        file.write(ne.Listing(f"module TRACED\nstack 512\nstart 1:0000\nsegment 1 code\n{rows}segment 2 data auto size=16\n").file())
    status, text = said("os2trace", "exe", "traced.exe")
    if status:
        wrong(f"os2trace, {code}: status {status}")
    return text.splitlines()


def pieces():
    """A line for each repetition, exceptions that are no operand's, what has no instruction, and bytes that no terminal shows."""
    for code, wanted in (
        ("B9 03 00 BF 00 00 F3 AA F4", [  # mov cx,3; mov di,0; rep stosb; hlt
            "1 000F:0008 F3AA                 rep stosb                        CX=0002 DI=0001 IP=0008",
            "1 000F:0008 F3AA                 rep stosb                        CX=0001 DI=0002 IP=0008",
            "1 000F:0008 F3AA                 rep stosb                        CX=0000 DI=0003",
            "1 000F:000A F4                   hlt", "! exception 13, error code 0000", "| 1 end trap 13 at 000F:000A", "| all ended"]),
        ("9C 58 0D 00 01 50 9D 90 90", [  # pushf; pop ax; or ax,100h; push ax; popf; nop
            "1 000F:0009 90                   xchg ax,ax", "! exception 1, error code 0000, behind the step", "| 1 end trap 1 at 000F:0009", "| all ended"]),
        ("0F FF", ["1 000F:0002 0FFF                 no instruction", "! exception 6, error code 0000", "| 1 end trap 6 at 000F:0002", "| all ended"]),
        ("8C D8 8E D0 50", [  # mov ax,ds; mov ss,ax; push ax, with the stack's top at 0
            "1 000F:0006 50                   push ax                          SP=020E"]),
        ("BC 00 00 58", [  # mov sp,0; pop ax
            "1 000F:0005 58                   pop ax                           AX=0000 SP=0002"]),
        ("BC 01 00 50", ["1 000F:0005 50                   push ax", "! exception 12, error code 0000, segment SS=0017", "| 1 end trap 12 at 000F:0005", "| all ended"]),
    ):
        trying.count()
        lines = traced(code)
        if not any(lines[at : at + len(wanted)] == wanted for at in range(len(lines))):
            wrong(f"os2trace, {code}: {lines}; wanted {wanted}")
    protection = os.path.join(EXAMPLES, "protection")
    for file in sorted(os.listdir(protection)):
        name, end = os.path.splitext(file)
        if end == ".report":
            trying.count()
            _, text = said("os2trace", "exe", os.path.join(protection, name + ".exe"))
            lines = text.splitlines()
            ends = re.match(r"\| 1 end trap (\d+) at", lines[-2])
            told = [line for line in lines if line.startswith("!")]
            wanted = f"! exception {ends[1]}, error code " if ends else ""
            if len(told) != bool(ends) or not (told or [""])[0].startswith(wanted):
                wrong(f"os2trace exe {name}.exe: {told}, {lines[-2:]}")
            if name in ("pointer", "arguments") and not told[0].endswith(", error code 0000, in the service"):
                wrong(f"os2trace exe {name}.exe: {told}")
    with open(os.path.join(EXAMPLES, "hello.exe"), "rb") as file:
        hello = file.read()
    with open("shown.exe", "wb") as file:
        file.write(hello.replace(b"hello", b"\x01\x80\\\nA"))
    trying.count(2)
    _, text = said("os2trace", "exe", "shown.exe")
    if [line for line in text.splitlines() if line.startswith(">")] != ["> \\x01\\x80\\", "> A"]:
        wrong(f"os2trace, bytes that no terminal shows: {text!r}")
    starts = "| 1 start HELLO\n| 1 hold 000F by load\n| 1 hold 0017 by load\n| 1 hold 001F by load\n"
    if said("os2trace", "exe", "--process", "2", "shown.exe") != (0, starts + "| all ended\n"):
        wrong(f"os2trace, a process that isn't there: {said('os2trace', 'exe', '--process', '2', 'shown.exe')}")


def first_input():
    """The input is read as a DosRead asks for it: a program that reads nothing is traced while its input stays open."""
    trying.count()
    run = subprocess.Popen([program("os2trace"), "exe", os.path.join(EXAMPLES, "hello.exe")], stdin=subprocess.PIPE, stdout=subprocess.PIPE)
    early = select.select([run.stdout], [], [], 10)[0]
    text = run.stdout.read() if early else b""
    run.stdin.close()
    if not early or run.wait() or not text.endswith(b"| all ended\n"):
        wrong(f"os2trace, an input that stays open: early {bool(early)}, {text!r}")


def read_in_between():
    """What a call wrote into a segment is there at the step behind it: a selector that comes with the input, and isn't held."""
    trying.count()
    with open("reads.exe", "wb") as file:
        file.write(ne.Listing("module READS\nstack 512\nstart 1:0000\nsegment 1 code\n0000  6A 00 1E 6A 00 6A 02 1E 6A 04\n"
                              "000A  9A FF FF 00 00  call DosRead @000B far DOSCALLS.137\n000F  8E 06 00 00  mov es,[0]\nsegment 2 data auto size=16\n").file())
    run = subprocess.run([program("os2trace"), "exe", "reads.exe"], input=b"\x34\x12", stdout=subprocess.PIPE)
    lines = [line for line in run.stdout.decode("ascii").splitlines() if line.startswith("!")]
    if lines != ["! exception 13, error code 1234"]:
        wrong(f"os2trace, a selector that was read: {lines}")


def written_by_another():
    """And what another process wrote into bytes that both share, whose steps aren't shown. The first waits for a word, and loads it."""
    trying.count()
    programs = (("first", "83 3E 00 00 00 74 F9 8E 06 00 00"), ("second", "C7 06 00 00 34 12 F4"))
    for name, code in programs:
        with open(name + ".exe", "wb") as file:
            file.write(ne.Listing(f"module {name.upper()}\nstack 512\nstart 1:0000\nsegment 1 code\n0000  B8 FF FF  mov ax,SHARED @0001 selector SHARED.WORD\n"
                                  f"0003  8E D8  mov ds,ax\n0005  {code}\nsegment 2 data auto size=16\n").file())
    with open("shared.dll", "wb") as file:
        file.write(ne.Listing("module SHARED library\nexport WORD 1:0000\nsegment 1 data shared size=16\n").file())
    with open("both.toml", "w") as file:
        file.write('memory = 1048576\nswap = 0\nsegments = 64\nbudget = 100\nquantum = 4\nmodules = ["first.exe", "second.exe", "shared.dll"]\n'
                   '[[process]]\nmodule = "FIRST"\n[[process]]\nmodule = "SECOND"\n')
    _, text = said("os2trace", "run", "--process", "1", "both.toml")
    if [line for line in text.splitlines() if line.startswith("!")] != ["! exception 13, error code 1234"]:
        wrong(f"os2trace, a selector that another process wrote: {text!r}")


def exceptions():
    """What is told of an exception: its error code, and the segment registers of the operands that it may have come by."""
    for code, wanted in (
        ("A2 FF FF", "0000, segment DS=0017"),  # mov [FFFFh],al
        ("2E A0 FF FF", "0000, segment CS=000F"),  # mov al,[cs:FFFFh]
        ("BF FF FF AA", "0000, segment ES=0017"),  # stosb
        ("BF FF FF F3 AB", "0000, segment ES=0017"),  # rep stosw
        ("BF FF FF AE", "0000, segment ES=0017"),  # scasb
        ("BE FF FF A4", "0000, segment DS=0017 or ES=0017"),  # movsb
        ("BE FF FF 2E A6", "0000, segment CS=000F or ES=0017"),  # cs cmpsb
        ("BE FF FF AC", "0000, segment DS=0017"),  # lodsb
        ("BB FF FF 2E D7", "0000, segment CS=000F"),  # cs xlatb
        ("F0 01 07", "0000"),  # lock add [bx],ax
        ("0F 01 17", "0000"),  # lgdt [bx]
        ("6C", "0000"),  # insb
        ("B8 34 12 8E D8", "1234"),  # mov ds,1234h
        ("B8 37 12 8E D8", "1234"),  # mov ds,1237h
        ("B8 2F 00 8E D0", "002C"),  # mov ss,2Fh
        ("68 37 12 6A 00 CB", "1234"),  # retf to 1237:0000
        ("CD 21", "010A"),  # int 21h
        ("BB 00 00 C7 07 FF FF FF 17", "0000"),  # mov bx,0; mov word [bx],FFFFh; call [bx]
        ("BB 00 00 FF 1F", "0000"),  # mov bx,0; call far [bx], to an empty selector
        ("BB 00 00 8E 17", "0000"),  # mov bx,0; mov ss,[bx], which is empty
    ):
        trying.count()
        lines = [line for line in traced(code) if line.startswith("!")]
        if lines != ["! exception 13, error code " + wanted]:
            wrong(f"os2trace, {code}: {lines}; wanted {wanted}")


def pieces_of(trace):
    """A trace in pieces: what stands before the first step, each step with what stands behind it, and the last line of the run."""
    lines = trace.splitlines(keepends=True)
    front, steps = "", []
    for line in lines[:-1]:
        if re.match(r"\d", line):
            steps.append(line)
        elif steps:
            steps[-1] += line
        else:
            front += line
    return front, steps, lines[-1]


def choices():
    """Options choose among the steps of a whole trace, with what stands behind each, and change none. The lines of the starts stand in front
    of them, and the last line behind them, where the trace comes to it."""
    examples = EXAMPLES
    _, whole = said("os2trace", "run", "two.toml", cwd=examples)
    front, steps, last = pieces_of(whole)
    for words, wanted, end in (
        (["--process", "2"], [step for step in steps if step.startswith("2 ")], last),
        (["--from", "3", "--to", "6"], steps[2:6], ""),
        (["--to", str(len(steps))], steps, ""),
        (["--to", str(len(steps) + 1)], steps, last),
        (["--from", str(len(steps) + 1)], [], last),
        (["--process", "1", "--from", "4"], [step for step in steps[3:] if step.startswith("1 ")], last),
        (["--selector", "000F"], [step for step in steps if " 000F:" in step], last),
        (["--selector", "f"], [step for step in steps if " 000F:" in step], last),
        (["--selector", "0017"], [], last),
    ):
        trying.count()
        if said("os2trace", "run", *words, "two.toml", cwd=examples) != (0, front + "".join(wanted) + end):
            wrong(f"os2trace {' '.join(words)}: {said('os2trace', 'run', *words, 'two.toml', cwd=examples)}")


def swapped():
    """In a memory with room for one of two segments the trace is that in a memory for both."""
    trying.count()
    memory = os.path.join(EXAMPLES, "memory")
    ample, small = (said("os2trace", "run", name, cwd=memory) for name in ("ample.toml", "swaps.toml"))
    if ample != small or ample[0] or not ample[1].endswith("| all ended\n"):
        wrong(f"os2trace run swaps.toml: {small}; wanted that of ample.toml, {ample}")


def many_starts():
    """As many processes as there may be, with as many selectors as they may hold but a few: all lines of their starts are shown."""
    trying.count()
    count, libraries, segments = 64, 16, 254
    for k in range(libraries):
        with open(f"l{k}.dll", "wb") as file:
            rows = "".join(f"segment {n} code\n0000  CB\n" for n in range(1, segments + 1))
            file.write(ne.Listing(f"module L{k} library\nexport E 1:0000\n{rows}").file())
    calls = "".join(f"{5 * k:04X}  9A FF FF 00 00  call @{5 * k + 1:04X} far L{k}.E\n" for k in range(libraries))
    with open("many.exe", "wb") as file:
        file.write(ne.Listing(f"module MANY\nstack 512\nstart 1:0000\nsegment 1 code\n{calls}segment 2 data auto size=16\n").file())
    names = ", ".join(['"many.exe"', *(f'"l{k}.dll"' for k in range(libraries))])
    with open("many.toml", "w") as file:
        file.write(f"memory = 16777216\nswap = 0\nsegments = 65535\nbudget = 0\nquantum = 1\nmodules = [{names}]\n" + '[[process]]\nmodule = "MANY"\n' * count)
    status, text = said("os2trace", "run", "many.toml")
    wanted = [f"| {p} {what}" for p in range(1, count + 1)
              for what in ("start MANY", *(f"hold {8 * n + 7:04X} by load" for n in (*range(1, 4), *range(4096, 4096 + libraries * segments))))]
    lines = text.splitlines()
    if status or lines != [*wanted, "| budget spent"]:
        wrong(f"os2trace run many.toml: status {status}, {len(lines)} lines, {lines[:5]} .. {lines[-3:]}; wanted {len(wanted) + 1}")


def last_lines():
    """How a run ends that isn't over by itself: its last line, and status 0. Whether the step before which it stops is shown doesn't matter."""
    files = {"budget spent": ("budget = 4", "1 000F:"), "stop room": ("memory = 4096", "")}
    for line, (change, step) in files.items():
        key = change.split(" ")[0]
        text = 'memory = 1048576\nswap = 0\nsegments = 64\nbudget = 100\nquantum = 4\nmodules = ["large.exe"]\n[[process]]\nmodule = "LARGE"\n'
        with open("large.exe", "wb") as file:
            file.write(ne.Listing("module LARGE\nstack 512\nstart 1:0000\nsegment 1 code\n0000  EB FE\nsegment 2 data auto size=8000\n").file())
        with open("last.toml", "w") as file:
            file.write(re.sub(f"{key} = .*", change, text))
        for words in ([], ["--process", "2"]):
            trying.count()
            status, trace = said("os2trace", "run", *words, "last.toml")
            lines = trace.splitlines()
            shown_steps = [row for row in lines if re.match(r"\d", row)]
            if status or lines[-1] != "| " + line or len(shown_steps) != (4 if step and not words else 0):
                wrong(f"os2trace {' '.join(words)}, {line}: status {status}, {trace!r}")
