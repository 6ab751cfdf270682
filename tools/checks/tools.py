#!/usr/bin/env python3
"""Tries the tools around the programs: their words and their ends; which listings make no executable and why, what is linked of object
files, how tools/run.py ends, and what the package has. OS2RUN and the like in the environment name other programs to try.
"""
import glob
import os
import random
import re
import shutil
import subprocess
import sys

sys.dont_write_bytecode = True
sys.path.insert(0, os.path.join(os.path.dirname(os.path.realpath(__file__)), "..", "lib"))
import command
import trying
from trying import EXAMPLES, ROOT, TOOLS, program, wants, wrong
import core_image
import imports as imports_tool
import instructions
import link
import ne

FIVE = os.path.join(EXAMPLES, "five-minutes")

def says(tool, words, line, status=1, **how):
    """A tool ends with this status, and with a line on the standard error that has this text: no traceback, whatever it was given."""
    trying.count()
    run = subprocess.run([os.path.join(TOOLS, tool), *words], capture_output=True, text=True, stdin=subprocess.DEVNULL, **how)
    if run.returncode != status or line not in run.stderr or "Traceback" in run.stderr:
        wrong(f"{tool} {' '.join(words)}: status {run.returncode}, {run.stderr.strip()[-300:]}; wanted {status}, {line}")


FRONT = "module A\nstart 1:0000\n"
CODE = "segment 1 code\n0000  90  nop\n"
LISTINGS = (
    ("", "a.lst: there is no line of module"),
    ("module A\n", "a.lst: there is no segment"),
    ("module A\n" + CODE, "a.lst: there is no line of start"),
    (FRONT + CODE + "segment 2 data auto\nsegment 3 data auto\n", "a.lst:6: there are two automatic data segments"),
    ("module A\nstart 2:0000\n" + CODE + "segment 2 data\n", "a.lst:2: the start is in segment 2, which is data"),
    ("module A\nstart 3:0000\n" + CODE, "a.lst:2: the start is in segment 3, and there are 1"),
    ("module A\nstart 1:0001\n" + CODE, "a.lst:2: the start 0001 lies past the end of segment 1"),
    ("module A\nstart 1\n" + CODE, "a.lst:2: 1 is no SEGMENT:OFFSET, as 1:0000: start 1"),
    ("module\n", "a.lst:1: a line of module has 1 to 3 words after it: module"),
    ("module A driver\n", "a.lst:1: a module has the words library and single after its name, and not driver"),
    ("module A library single\nsegment 1 code\n0000  CB\n", "a.lst: single data is an automatic data segment, and there is none"),
    ("module A\nmodule B\n", "a.lst:2: there is a line of module already"),
    ("module " + "A" * 256, "a.lst:1: a name has 1 to 255 letters"),
    (FRONT + "stack many\n", "a.lst:3: a size is a decimal number up to 65535, and not many"),
    (FRONT + "segment 2 code\n", "a.lst:3: segments come in order, and 1 comes next"),
    (FRONT + "segment 1 stack\n", "a.lst:3: a segment is code or data, and not stack"),
    (FRONT + "segment 1 code auto\n", "a.lst:3: the automatic data segment is data that may be written"),
    (FRONT + "segment 1 data big\n", "a.lst:3: a segment has the words readonly, shared, auto and size=BYTES, and not big"),
    (FRONT + "0000  90  nop\n", "a.lst:3: bytes come after a line of segment"),
    (FRONT + CODE + "0002  90  nop\n", "a.lst:5: the offset 0001 comes next: 0002  90  nop"),
    (FRONT + CODE + "0001 90\n", "a.lst:5: no line of a listing"),
    (FRONT + CODE + "0001  90 nop\n", "a.lst:5: no line of a listing"),
    (FRONT + CODE + "0001  9A FF FF 00 00  call  @0002 near 1:0000\n", "a.lst:5: a relocation is far, selector, offset or byte"),
    (FRONT + CODE + "0001  9A FF FF 00 00  call  @0003 far 1:0000\n", "a.lst:5: the relocation's place 0003 lies outside the segment's bytes"),
    (FRONT + CODE + "0001  9A FF FF 00 00  call  @0002 far 2:0000\n", "a.lst:5: the relocation's segment 2 isn't there"),
    (FRONT + CODE + "0001  9A FF FF 00 00  call  @0002 far entry.1\n", "a.lst:5: the relocation's entry 1 isn't there"),
    (FRONT + CODE + "0001  9A FF FF 00 00  call  @0002 far DOSCALLS.\n", "a.lst:5: DOSCALLS. is no MODULE.NAME"),
    (FRONT + CODE + "export E 2:0000\n", "a.lst:5: E is in segment 2, and there are 1"),
    (FRONT + CODE + "export E 1:0000 public\n", "a.lst:5: an export has the words nonresident and ordinal=N after its place, and not public"),
    (FRONT + CODE + "export E 1:0000 ordinal=65536\n", "a.lst:5: an ordinal is a decimal number up to 65535, and not 65536"),
    (FRONT + CODE + "export E 1:0000 ordinal=2\nexport F 1:0000 ordinal=2\n", "a.lst:6: ordinals rise, and 2 doesn't"),
    (FRONT + CODE + "export E 1:0000 ordinal=65535\nexport F 1:0000\n", "a.lst: an ordinal doesn't fit the format: 65536 is above 65535"),
    (FRONT + "stack 65535\n" + CODE + "segment 2 data auto size=2\n", "a.lst:6: the automatic data segment, stack and heap have 65537 bytes together"),
    (FRONT + "segment 1 data size=65537\n", "a.lst:3: a size is a decimal number up to 65536"),
    (FRONT + "segment 1 code\n" + "".join("%04X  %s\n" % (k, "00 " * 4095 + "00") for k in range(0, 65536, 4096)) * 2, "a.lst:20: "),
    (FRONT + "segment 1 code\n0000  6A 05  push 6\n", "a.lst:4: the bytes are `push 5`, and the text says otherwise: push 6: 0000  6A 05  push 6"),
    (FRONT + "segment 1 code\n0000  6A 05  pop 5\n", "a.lst:4: the bytes are `push 5`, and the text says otherwise: pop 5"),
    (FRONT + "segment 1 code\n0000  8A 04  mov al, [di] ; the next\n", "a.lst:4: the bytes are `mov al, byte [si]`, and the text says otherwise: mov al, [di]"),
    (FRONT + "segment 1 code\n0000  75 FE  jnz 0010h\n", "a.lst:4: the bytes are `jnz 0`, and the text says otherwise: jnz 0010h"),
    (FRONT + "segment 1 code\n0000  26 A0 00 00  mov al, [0]\n", "a.lst:4: the bytes are `mov al, byte es:[0]`, and the text"),
    (FRONT + "segment 1 code\n0000  F3 A4  rep movsw\n", "a.lst:4: the bytes are `rep movsb`, and the text"),
    (FRONT + "segment 1 code\n0000  1E 1E  push ds\n", "a.lst:4: the bytes are more than one instruction, of which the first is `push ds`: push ds"),
    (FRONT + "segment 1 code\n0000  D6  nop\n", "a.lst:4: the bytes D6 are no such instruction: nop"),
    (FRONT + "segment 1 code\n0000  9A FF FF 00 00  push DosExit  @0001 far DOSCALLS.5\n", "a.lst:4: the bytes are `call 00h:0FFFFh`, and the text"),
    (FRONT + CODE + "segment 2 data\n0000  68 69  'ho'\n", "a.lst:6: the bytes are 68 69, and the text says 68 6F: 'ho'"),
    (FRONT + CODE + "segment 2 data\n0000  68 69  'hi', 10\n", "a.lst:6: the bytes are 68 69, and the text says 68 69 0A: 'hi', 10"),
    (FRONT + CODE + "segment 2 data\n0000  34 12  dw 1235h\n", "a.lst:6: the bytes are 34 12, and the text says 35 12: dw 1235h"),
    (FRONT + "; é\n", "a.lst:3: a listing is text of ASCII characters"),
    ("     1                                  ;@ module A\n     2 00000000 90                      nop\n", "a.lst:2: bytes come after"),
    ("     1                                  ;@ segment 1 code\n     2 00000004 90                      nop\n", "a.lst:2: the offset 0000 comes next (has each section"),
    ("     1                                  ;@ segment 1 code\n     2 00000000 <bin 4h>                x\n", "a.lst:2: these bytes can't be read from a listing"),
    ("     1                                  ;@ segment 1 code\n     2                                  nop ;@+1 far\n", "a.lst:2: a relocation is written ;@+N KIND TARGET"),
)


def listings():
    for text, line in LISTINGS:
        with open("a.lst", "w") as file:
            file.write(text)
        says("ne.py", ["a.lst", "a.exe"], line)
    says("ne.py", ["none.lst", "a.exe"], "none.lst: No such file or directory")
    says("ne.py", [os.path.join(FIVE, "first.lst"), "none/a.exe"], "none/a.exe: No such file or directory")
    says("ne.py", [os.path.join(FIVE, "first.exe"), "a.exe"], "first.exe:")
    says("ne.py", [], "usage: tools/ne.py [-h] LISTING FILE", 2)


# Texts that are what the bytes are, and texts that say nothing of them.
AGREES = (
    ("B8 34 12", "mov ax, 1234h"), ("B8 FF FF", "mov ax, -1"), ("6A FF", "push -1"), ("6A FF", "push 0FFFFh"), ("80 3C 41", "cmp byte [si], 'A'"), ("87 D9", "xchg bx, cx"),
    ("87 D9", "xchg cx, bx"), ("74 FE", "je 0000h"), ("74 FE", "jz short loop"), ("C8 04 00 01", "enter 4, 1"), ("6B C0 05", "imul ax, 5"), ("D4 0A", "aam"), ("FF 1E 00 00", "call far [0]"),
    ("FF 5E FC", "call far [bp-4]"), ("8D 40 05", "lea ax, [bx+si+5]"), ("0F 03 C8", "lsl cx, ax"), ("F3 26 AC", "rep es lodsb"), ("90", "the first nop"), ("90", "in the middle"), ("DB E3", "fninit"),
    ("9A 00 00 17 00", "call far 0017:0000"), ("E8 FD FF", "call 0"), ("C7 06 02 00 10 00", "mov word [2], 16"), ("A1 02 00", "mov ax, [here]"), ("CD 21", "int 21h"), ("D1 E0", "sal ax, 1"),
)


def agreeing():
    """Texts that ne.py takes, and nasm's own opinion of those that it can assemble."""
    for code, text in AGREES:
        trying.count()
        try:
            ne.Listing(f"module A\nstart 1:0000\nsegment 1 code\n0000  {code}  {text}\n").file()
        except ne.Refused as why:
            wrong(f"ne.py refuses {code} {text}: {why}")
    if shutil.which("nasm"):
        decoded_by_nasm()


def for_nasm(name, operands, length):
    """An instruction as nasm reads it. A jump's target counts from its own first byte."""
    text = instructions.shown(name, operands)
    if operands and operands[0][0] == "number" and re.match(r"j|loop|call", name):
        far = (operands[0][1] ^ 0x8000) - 0x8000
        return f"{name} {'short' if length == 2 else 'near'} $+{far}".replace("+-", "-")
    if name in ("call", "jmp") and operands[0][0] == "memory" and not operands[0][1]:
        return text.replace(" ", " far ", 1)
    return text


def decoded_by_nasm():
    """Instructions at random, as text: what nasm makes of it has the same meaning here as the bytes that it came from."""
    chance, rows = random.Random(3), []
    while len(rows) < 2000:
        code = bytes([chance.randrange(256) for _ in range(8)])
        try:
            name, operands, length = instructions.decoded(code)
        except instructions.Unread:
            continue
        if not re.match(r"(rep|lock|repne) ", name):
            rows.append((code[:length], name, operands, for_nasm(name, operands, length)))

    def assembled(left_out):
        with open("all.asm", "w") as file:
            file.write("bits 16\ncpu 286\n" + "".join("nop\n" if k in left_out else f"{row[3]}\n" for k, row in enumerate(rows)))
        return subprocess.run(["nasm", "-f", "bin", "-l", "all.lst", "-o", "all.bin", "all.asm"], capture_output=True, text=True)

    refused = {int(line) - 3 for line in re.findall(r"(?m)^all\.asm:(\d+): error", assembled(()).stderr)}
    run = assembled(refused)
    wants("nasm assembles them", run.returncode == 0 and len(refused) < 200, (run.stderr[-300:], len(refused)))
    found = {}
    with open("all.lst") as file:
        for line in file:
            row = re.match(r" *(\d+) [0-9A-F]{8} ([0-9A-F]+)", line)
            if row:
                found[int(row[1]) - 3] = bytes.fromhex(row[2])
    for k, (code, name, operands, text) in enumerate(rows):
        if k in refused:
            continue
        again = instructions.decoded(found[k])
        same = again[0] == name and len(again[1]) == len(operands) and again[2] == len(found[k])
        same = same and all(instructions.is_same(one, other, False) or instructions.is_same(other, one, False) for one, other in zip(again[1], operands))
        same = same or name == again[0] == "xchg" and again[1] == operands[::-1]
        wants(f"nasm: {code.hex(' ')} as {text}", same, (found[k].hex(" "), again))


def damaged():
    """Parts of listings and of object files, changed by chance, the same each time: an executable or a refusal, and nothing else."""
    chance = random.Random(1)
    texts = [open(os.path.join(FIVE, "first.lst")).read(), open(os.path.join(ROOT, "bench", "features.lst")).read()]
    objects = [open(os.path.join(FIVE, name), "rb").read() for name in ("main.obj", "medium.obj", "pascal/small/hello.o", "../pascal/huge/formula.o")]
    parts = ["module", "1:0000", "99999", "entry.1", ".", "@0001", ";@+1 far 3:1", "size=", "0000  90", "%macro", "<rep FFFFh>", "?", "["]
    for k in range(4000):
        text = chance.choice(texts)
        at, end = chance.randrange(len(text)), chance.randrange(30)
        text = text[:at] + chance.choice(["", chance.choice(parts), text[at : at + end] * 2]) + text[at + end :]
        try:
            ne.Listing(text).file()
        except ne.Refused:
            pass
        content = bytearray(chance.choice(objects))
        for _ in range(chance.randrange(1, 4)):
            content[chance.randrange(len(content))] = chance.randrange(256)
        try:
            link.Linker([link.Object("a.obj", bytes(content[: chance.choice([len(content), chance.randrange(len(content))])]))]).link("A", None, 0)
        except ne.Refused:
            pass
        trying.count(2)


def linked():
    pascal = lambda model, start: [os.path.join(FIVE, "pascal", model, name) for name in (start, "hello.o", "system.o")]
    made = (
        ("small.exe", ["main.obj", "greet.obj"], [], None),
        ("medium.exe", ["medium.obj", "fargreet.obj"], [], None),
        ("pascal/small.exe", pascal("small", "prt0s.o"), ["-m", "HELLO"], "line 1.\nline 2.\nline 3.\n"),
        ("pascal/medium.exe", pascal("medium", "prt0m.o"), ["-m", "HELLO"], "line 1.\nline 2.\nline 3.\n"),
    )
    far_data()
    for name, objects, flags, console in made:
        out = os.path.basename(name)
        says("link.py", ["-o", out, *flags, *(os.path.join(FIVE, it) for it in objects)], "", 0)
        with open(out, "rb") as one, open(os.path.join(FIVE, name), "rb") as other:
            if one.read() != other.read():
                wrong(f"{name} isn't what is linked")
        if console:
            run = subprocess.run([program(), "exe", out], capture_output=True, text=True, stdin=subprocess.DEVNULL)
            trying.count()
            if run.stdout != console or not run.stderr.endswith("1 call DosExit 0001 0000\n1 end exit 0\nall ended\n"):
                wrong(f"{name}: {run.stdout}{run.stderr}")
    main, greet, far = (os.path.join(FIVE, it) for it in ("main.obj", "greet.obj", "fargreet.obj"))
    says("link.py", ["-o", "a.exe", main], "link.py: " + main + ": greet isn't defined in any object")
    says("link.py", ["-o", "a.exe", greet], "greet.obj: text isn't defined in any object")
    says("link.py", ["-o", "a.exe", main, main], "main.obj: text is defined twice")
    says("link.py", ["-o", "a.exe", os.path.join(FIVE, "first.exe")], "first.exe: this is no object file in OMF")
    says("link.py", ["-o", "a.exe", "none.obj"], "none.obj: No such file or directory")
    says("link.py", ["-o", "a.exe", "--stack", "70000", main, greet], "'70000' is no number from 0 to 65535", 2)
    says("link.py", ["-o", "a.exe", "--stack", "65530", main, greet], "the automatic data segment, stack and heap have")
    says("link.py", ["-x", "-o", "a.exe", main], "unrecognized arguments: -x", 2)
    says("link.py", [], "usage: tools/link.py", 2)
    with open("a.lib", "wb") as file:
        file.write(b"\xf0\x0d\x00")
    says("link.py", ["-o", "a.exe", "a.lib"], "a.lib: this is a library; give the object files")


def far_data():
    """The memory models compact, large and huge: their units' data, and pointers to code and to data in data. The console is the same in each,
    and what a program takes from the heap it gives back."""
    folder = os.path.join(EXAMPLES, "pascal")
    parts = [os.path.join(folder, it) for it in ("large/prt0l.o", "huge/words.o", "huge/system.o")]
    says("link.py", ["-o", "a.exe", *parts], "link.py: there are several segments of data: the automatic one is the group DGROUP")
    for model, start, names in (("compact", "prt0c.o", ["words"]), ("large", "prt0l.o", ["words", "formula"]), ("huge", "prt0h.o", ["words", "formula"])):
        for name in names:
            objects = [os.path.join(folder, model, it) for it in (start, name + ".o", "system.o")]
            says("link.py", ["-o", "far.exe", "--stack", "4096", "-m", name.upper(), *objects], "", 0)
            with open("far.exe", "rb") as one, open(os.path.join(folder, model, name + ".exe"), "rb") as other:
                if one.read() != other.read():
                    wrong(f"pascal/{model}/{name}.exe isn't what is linked")
            with open(os.path.join(folder, name + ".input"), "rb") as source, open(os.path.join(folder, name + ".console")) as console:
                run = subprocess.run([program(), "exe", "far.exe"], capture_output=True, text=True, stdin=source)
                trying.count()
                lines = run.stderr.splitlines()
                held, dropped = (sorted(line.split()[2] for line in lines if re.fullmatch(f"1 {verb} [0-9A-F]{{4}} by ({calls})", line))
                                 for verb, calls in (("hold", "DosAllocSeg|DosCreateCSAlias"), ("drop", "DosFreeSeg")))
                if run.stdout != console.read() or lines[-3:] != ["1 call DosExit 0001 0000", "1 end exit 0", "all ended"] or not held or held != dropped:
                    wrong(f"pascal/{model}/{name}.exe: {run.stdout}{run.stderr}")


def nasm():
    """With nasm on the machine: what it makes of the sources is what stands here."""
    if not shutil.which("nasm"):
        print("tools: nasm isn't installed, so its listings and objects are tried as they stand")
        says("ne.py", [os.path.join(FIVE, "first.asm"), "a.exe"], "first.asm: a source wants nasm, which isn't installed")
        return
    says("ne.py", [os.path.join(FIVE, "first.asm"), "first.exe"], "", 0)
    shutil.copy(os.path.join(EXAMPLES, "echo.lst"), "echo.lst")
    says("make/sources.py", ["echo.lst"], "", 0)
    says("ne.py", ["echo.asm", "echo.exe"], "", 0)
    with open("echo.asm") as source, open("echo.exe", "rb") as one, open(os.path.join(EXAMPLES, "echo.exe"), "rb") as other:
        wants("make/sources.py names the jumps", "jnz L0046" in source.read() and one.read() == other.read())
    with open("first.exe", "rb") as one, open(os.path.join(FIVE, "first.exe"), "rb") as other:
        wants("ne.py assembles a source", one.read() == other.read())
    with open(os.path.join(FIVE, "first.asm")) as file:
        text = file.read()
    for source, line in ((text + "pusk 1\n", f"a.asm:{text.count(chr(10)) + 1}: nasm: "), (text + "\n;@ segment 9 data\n", f"a.asm:{text.count(chr(10)) + 2}: segments come in order"),
                         (text + "%include 'none.inc'\n", "a.asm:"), (text + "; \u00e9\n", "a listing is text of ASCII characters")):
        with open("a.asm", "w", encoding="utf-8") as file:
            file.write(source)
        says("ne.py", ["a.asm", "a.exe"], line)
    says("ne.py", ["none.asm", "a.exe"], "none.asm: No such file or directory")
    wants("ne.py leaves nothing of nasm's", sorted(name for name in os.listdir() if name.startswith("a.")) == ["a.asm"], os.listdir())
    for name in ("main", "greet", "medium", "fargreet"):
        subprocess.run(["nasm", "-f", "obj", "-o", f"{name}.obj", os.path.join(FIVE, f"{name}.asm")], check=True)
    says("link.py", ["-o", "small.exe", "main.obj", "greet.obj"], "", 0)
    says("link.py", ["-o", "medium.exe", "medium.obj", "fargreet.obj"], "", 0)
    subprocess.run(["nasm", "-f", "bin", "-l", "first.lst", "-o", "first.bin", os.path.join(FIVE, "first.asm")], check=True)
    says("ne.py", ["first.lst", "first.exe"], "", 0)
    for name in ("small", "medium", "first"):
        with open(f"{name}.exe", "rb") as one, open(os.path.join(FIVE, f"{name}.exe"), "rb") as other:
            if one.read() != other.read():
                wrong(f"nasm: {name}.exe isn't what stands in examples/five-minutes")
    with open("wide.asm", "w") as file:
        file.write("bits 32\nsegment a use32 class=CODE\n..start: nop\n")
    subprocess.run(["nasm", "-f", "obj", "-o", "wide.obj", "wide.asm"], check=True)
    says("link.py", ["-o", "a.exe", "wide.obj"], "segment a is 32-bit code or data")
    with open("near.asm", "w") as file:
        file.write("extern far_greet\nsegment c class=CODE public use16\n..start: call far_greet\nsegment data class=DATA public use16\nglobal text\ntext: db 0\n")
    subprocess.run(["nasm", "-f", "obj", "-o", "near.obj", "near.asm"], check=True)
    says("link.py", ["-o", "a.exe", "near.obj", "fargreet.obj"], "near.obj: a near call or jump to far_greet, which lies in another segment: make it far")


def case(title, words, status, console, report=None, wrongs=None):
    """tools/run.py ends with this status; its report has this text, and its standard error that one, or nothing."""
    trying.count()
    ran = subprocess.run([os.path.join(TOOLS, "run.py"), *words], capture_output=True, text=True, stdin=subprocess.DEVNULL)
    said = open(words[0] + ".report").read() if os.path.exists(words[0] + ".report") else ""
    if (ran.returncode, ran.stdout) != (status, console) or report and report not in said or (wrongs not in ran.stderr if wrongs else ran.stderr) or "Traceback" in ran.stderr:
        wrong(f"tools/run.py, {title}: status {ran.returncode}, {ran.stdout!r}, {ran.stderr!r}, {said!r}")


def run():
    """tools/run.py: statuses, arguments, budgets and memories."""
    for name in ("hello.exe", "protection/divide.exe", "processes/mine.exe", "arguments/args.exe", "two.toml", "hello.lst"):
        shutil.copy(os.path.join(EXAMPLES, name), ".")
    case("the code 0", ["hello.exe"], 0, "hello", "all ended\n")
    case("the code of process 1", ["mine.exe"], 1, "1:3\n")
    case("an exception", ["divide.exe"], 128, "")
    front = 'memory = 1048576\nswap = 0\nsegments = 64\nquantum = 1\nmodules = ["mine.exe"]\n'
    for title, budget, status in (("a machine file", 1000, 1), ("a budget", 10, 75)):
        with open("a.toml", "w") as file:
            file.write(f"budget = {budget}\n{front}" + '[[process]]\nmodule = "MINE"\n' * 2)
        case(title, ["a.toml"], status, "1:3\n2:6\n" if status == 1 else "")
    case("another budget for a machine file", ["a.toml", "--budget", "1000"], 1, "1:3\n2:6\n")
    case("a flag between the words", ["args.exe", "--budget", "1000", "one", "two"], 0, "ARGS\none two\n", "all ended\n")
    case("a budget of a program", ["hello.exe", "--budget", "3"], 75, "", "budget spent\n")
    case("a small memory", ["hello.exe", "--memory", "4096"], 0, "hello", "all ended\n")
    case("arguments", ["args.exe", "one", "two", 'th"ree\\'], 0, 'ARGS\none two th"ree\\\n', "all ended\n")
    case("an argument that begins with a dash", ["args.exe", "--", "-x"], 0, "ARGS\n-x\n")
    case("an executable's refusal", ["hello.lst"], 70, "", None, "reason 1\ntools/run.py: `os2why exe hello.lst` says why\n")
    case("a file that isn't there", ["none.exe"], 70, "", None, "os2run: no file none.exe\n")
    wants("no report of what isn't opened", not os.path.exists("none.exe.report") and not os.path.exists("hello.lst.report"))
    case("too long an argument", ["hello.exe", "x" * 70000], 70, "", None, "os2run: machine file: reason")
    case("a machine file's refusal", ["none.toml"], 70, "", None, "os2run: no file none.toml\n")
    case("a file in another folder", [os.path.abspath("hello.exe"), "x"], 0, "hello")
    for words, line in (([], "arguments are required: FILE"), (["two.toml", "a"], "a machine file has the arguments of its processes itself"), (["hello.exe", "--budget", "x"], "'x' is no number from 0"),
                        (["hello.exe", "--memory", "4095"], "no number from 4096"), (["hello.exe", "--memory", "4100"], "a multiple of 16"), ([""], "a FILE has a name"), (["--what", "hello.exe"], "unrecognized")):
        says("run.py", words, line, 2)
    wants("--help leaves no report", not os.path.exists("--help.report"))


def imports():
    """tools/imports.py, over a program whose imports aren't there, and over damaged ones."""
    with open(os.path.join(EXAMPLES, "echo.lst")) as file:
        text = file.read()
    for old, new in (("DOSCALLS.138", "VIOCALLS.19"), ("far DOSCALLS.5", "far DOSCALLS.DosOpen")):
        text = text.replace(old, new)
    with open("wants.exe", "wb") as file:
        file.write(ne.Listing(text).file())
    run = subprocess.run([os.path.join(TOOLS, "imports.py"), "wants.exe"], capture_output=True, text=True)
    wanted = """ECHO imports 3:
    DOSCALLS.137 DosRead             is there
    DOSCALLS.DosOpen                 isn't there, wanted first in segment 1 at 004B
    VIOCALLS.19 VioWrtTTY            isn't there, wanted first in segment 1 at 0040
"""
    wants("tools/imports.py", (run.returncode, run.stdout, run.stderr) == (1, wanted, ""), run)
    says("imports.py", [os.path.join(ROOT, "README.md")], "README.md: this is no executable: it doesn't begin with MZ")
    says("imports.py", ["none.exe"], "none.exe: No such file or directory")
    chance = random.Random(2)
    with open("wants.exe", "rb") as file:
        whole = file.read()
    for k in range(3000):
        content = bytearray(whole[: chance.choice([len(whole), chance.randrange(len(whole))])])
        for _ in range(chance.randrange(4)):
            if content:
                content[chance.randrange(len(content))] = chance.randrange(256)
        trying.count()
        try:
            imports_tool.imports(bytes(content))
        except ne.Refused:
            pass


def calls():
    """The table of calls: DOSCALLS' rows are those of the machine, of which it has those that the pages list. No two of a module have one
    ordinal."""
    import calls as tool

    with open(os.path.join(ROOT, "crates", "o2_base", "src", "services.rt")) as file:
        rows = {name: (int(ordinal), int(count)) for name, ordinal, count in re.findall(r'row_of\(b"(\w+)", (\d+), (\d+)\)', file.read())}
    own = {name: (row["ordinal"], row["words"]) for name, row in tool.table()["DOSCALLS"].items() if row["source"] == "machine"}
    wants("the machine's calls", rows and rows == own, {name for name in {**rows, **own} if rows.get(name) != own.get(name)})
    built = {name for _, names in tool.here() for name in names}
    places = "".join(f"{5 * k:04X}  9A FF FF 00 00  @{5 * k + 1:04X} far DOSCALLS.{name}\n" for k, name in enumerate(own))
    with open("all.exe", "wb") as file:
        file.write(ne.Listing(f"module ALL\nstart 1:0000\nsegment 1 code\n{places}").file())
    _, told = trying.said("os2why", "imports", "all.exe")
    found = {how: set(re.findall(rf"(?m)^ *1 DOSCALLS\.(\w+) is {how}$", told)) for how in ("built", "missing")}
    wants("the machine has the calls that the table lists, and no other", found == {"built": built, "missing": set(own) - built}, (told, built))
    says("make/lists.py", [], "", 0)
    for module, found in tool.table().items():
        wants(f"each ordinal of {module} once", len({row["ordinal"] for row in found.values()}) == len(found))
    run = subprocess.run([os.path.join(TOOLS, "calls.py"), "kbdcalls"], capture_output=True, text=True)
    wants("the calls of a module", "KBDCALLS        4  KbdCharIn                 4  fpc\n" in run.stdout and "VioWrtTTY" not in run.stdout, run)
    wants("a name of an ordinal", tool.name_of("viocalls", 19) == "VioWrtTTY" and tool.name_of("VIOCALLS", 999) is None)


REACH = """1 start A
1 hold 000F by load
1 call DosAllocSeg 0010 0017:0000 0001 = 0 8007
1 hold 8007 by DosAllocSeg
1 call DosGiveSeg 8007 0002 0017:0000 = 0 8007
2 hold 8007 by DosGiveSeg
2 hold 8007 by DosGetSeg
2 drop 8007 by DosFreeSeg
1 drop 8007 by DosFreeSeg
1 call DosExit 0001 0000
1 end exit 0
"""
REACHED = (
    ([], "      2      8007      1          6  DosGiveSeg\n"),
    (["--at", "7"], "      1      000F      1          2  load\n      1      8007      1          4  DosAllocSeg\n      2      8007      2          6  DosGiveSeg\n"),
    (["--all"], "      1      000F      -          2  load, to line 11 by its end\n      1      8007      -          4  DosAllocSeg, to line 9 by DosFreeSeg\n      2      8007      1          6  DosGiveSeg\n"),
)


def reach():
    with open("a.report", "w") as file:
        file.write(REACH)
    for words, rows in REACHED:
        trying.count()
        run = subprocess.run([os.path.join(TOOLS, "reach.py"), *words, "a.report"], capture_output=True, text=True)
        if (run.returncode, run.stdout, run.stderr) != (0, "process  selector  holds  from line  by\n" + rows, ""):
            wrong(f"reach, {words}: {run}")
    with open("b.report", "w") as file:
        file.write("1 hold 0007 by load\n2 drop 0007 by DosFreeSeg\n")
    says("reach.py", ["b.report"], "reach.py: b.report: line 2: process 2 holds nothing under 0007: 2 drop 0007 by DosFreeSeg")
    says("reach.py", ["none.report"], "reach.py: none.report: No such file or directory")
    says("reach.py", ["--at", "x", "a.report"], "'x' is no number", 2)


LAYOUT = """of a.toml
after step 7 in 1024 bytes
000F 20 at 64
0017 600 in blocks
001F 16 not loaded
0027 4096 all zeros
"""
# What a layout may not be, and what is said then.
LAYOUTS = (
    (LAYOUT.replace("at 64", "at 80"), "a.layout isn't what the images show: tools/make/layouts.py write"),
    (LAYOUT.replace("0017 600 in blocks\n", ""), "a.layout isn't what the images show: tools/make/layouts.py write"),
    (LAYOUT.replace("step 7", "step 8"), "a.layout: a.toml takes 7 steps in 1 processes, and not 8 in one"),
    (LAYOUT.replace("of a.toml\n", ""), "a.layout: it doesn't say of which machine file it is, or after which steps"),
    (LAYOUT.replace("a.toml", "b.toml"), "b.toml"),
)


def layouts():
    """tools/make/layouts.py, over a program that writes one core image, whatever it runs."""
    os.mkdir("layouts")
    segments = [core_image.segment(20, 20, ("memory", 64)), core_image.segment(600, 1, ("swap", [(3, bytes(512))])),
                core_image.segment(16, 16, ("image", 1, 1)), core_image.segment(4096, 0, None)]
    held = [core_image.held(index, 0, 0, 0, index - 1, 1) for index in range(1, 5)]
    with open("layouts/a.core", "wb") as file:
        file.write(core_image.image(bytes(1024), 4, segments, [core_image.process(1, 0, 0, held)], 7))
    with open("layouts/a.toml", "w") as file:
        file.write("memory = 1024\nbudget = 1000\n")
    with open("layouts/program", "w") as file:
        file.write("#!/bin/sh\nexec cat a.core\n")
    os.chmod("layouts/program", 0o755)
    where = {**os.environ, "OS2RUN": os.path.abspath("layouts/program")}
    for text, line in ((LAYOUT, "layouts: 1 are as the images show"), *LAYOUTS):
        with open("layouts/a.layout", "w") as file:
            file.write(text)
        trying.count()
        run = subprocess.run([os.path.join(TOOLS, "make", "layouts.py"), "layouts/a.layout"], env=where, capture_output=True, text=True)
        if run.returncode != (text != LAYOUT) or line not in run.stdout or run.stderr:
            wrong(f"layouts: status {run.returncode}, {run.stdout!r}, {run.stderr!r}; wanted {line!r}")
    says("make/layouts.py", ["a.report"], "a.report is no layout", 2)


def picture():
    """tools/picture.py draws a report, and says what it can't draw."""
    with open("two.report", "w") as file:
        file.write("1 hold 000F by load\n2 hold 000F by load\n1 call DosExit 0 0\n1 end exit 0\n2 call DosExit 0 0\n2 end exit 0\nall ended\n")
    run = subprocess.run([os.path.join(TOOLS, "picture.py"), "lanes", "two.report"], capture_output=True, text=True)
    lines = [line.split() for line in run.stdout.splitlines()]
    wants("lanes", run.returncode == 0 and lines[0] == ["process", "1", "process", "2"] and lines[-1] == ["all", "ended"] and ["DosExit", "0", "0", "|"] in lines, run)
    # of a trace: that a process waits is drawn once, until it has taken another step, in its own column
    tries = "1 000F:0000 9A00004B01           call 0x014B:0x0000               waits\n2 000F:0000 EBFE                 jmp short 0x0000\n"
    with open("two.trace", "w") as file:
        file.write("| 1 hold 000F by load\n| 2 hold 000F by load\n" + 3 * tries + "1 000F:0000 9A00004B01           call 0x014B:0x0000               AX=0000 SP=0210\n"
                   "| 1 call DosSemRequest 0017:0000 FFFFFFFF = 0\n" + 2 * tries + "| budget spent\nprocess 1 waits at 000F:0000 in DosSemRequest\n")
    run = subprocess.run([os.path.join(TOOLS, "picture.py"), "lanes", "two.trace"], capture_output=True, text=True)
    lines = [line.split() for line in run.stdout.splitlines()]
    drawn = [["waits", "|"], ["DosSemRequest", "0017:0000", "FFFFFFFF", "=", "0", "|"], ["waits", "|"], ["budget", "spent"], "process 1 waits at 000F:0000 in DosSemRequest".split()]
    wants("lanes of a trace", run.returncode == 0 and lines[-5:] == drawn and lines.count(["waits", "|"]) == 2, run)
    from xml.etree import ElementTree

    layout = os.path.join(EXAMPLES, "memory", "rounds.layout")
    for words in (["lanes", "two.report"], ["memory", layout]):
        run = subprocess.run([os.path.join(TOOLS, "picture.py"), words[0], "--svg", words[1]], capture_output=True, text=True)
        root = ElementTree.fromstring(run.stdout)
        texts = [it.text for it in root.iter("{http://www.w3.org/2000/svg}text")]
        wants(f"{words[0]} as SVG", run.returncode == 0 and root[0].text == texts[0] and os.path.basename(words[1]) in texts[0], run)
    # a selector has one colour, in each moment, below it and in the legend, and no two have the same
    colours = {}
    rows = list(root)
    for one, other in zip(rows, rows[1:]):
        named = re.match(r"([0-9A-F]{4})(  \d+ bytes.*)?$", other.text or "")
        if one.tag.endswith("rect") and other.tag.endswith("text") and named:
            colours.setdefault(named[1], set()).add(one.get("fill"))
    wants("a colour of each selector", len(colours) == 5 and all(len(each) == 1 for each in colours.values()) and len(set.union(*colours.values())) == 5, colours)
    says("picture.py", ["patches", "a", "--svg"], "patches isn't drawn as SVG", 2)
    says("picture.py", ["lanes", "none.report"], "none.report: No such file or directory")
    says("picture.py", ["patches", os.path.join(EXAMPLES, "hello")], "picture.py:")
    says("picture.py", ["lanes"], "lanes wants a file", 2)
    says("picture.py", ["pages", "read"], "after `pages` comes", 2)
    says("picture.py", ["circle", "a"], "invalid choice: 'circle'", 2)


COMPLETED = (
    (["os2run", ""], {"exe", "run", "check", "bench", "dump"}), (["./os2run", "exe", "hell"], {"hello.exe"}), (["os2run", "run", "t"], {"template.toml", "two.toml"}),
    (["os2run", "exe", "t"], set()), (["os2run", "exe", "mem"], {"memory/"}), (["os2why", "im"], {"imports"}), (["/usr/bin/os2why", "imports", "hello.exe", "ech"], {"echo.exe"}),
    (["os2trace", "exe", "--f"], {"--from"}), (["os2core", "show", "sm"], {"small.core"}), (["os2list", "--h"], {"--help"}), (["look", "os2w"], {"os2why"}),
    (["os2why", "imports", "--m"], {"--machine"}), (["os2why", "imports", "--machine", "templ"], {"template.toml"}),
    (["./look", "os2why", "r"], {"run"}), (["./look", "exe", "hell"], {"hello.exe"}), (["look", "os2list", "hell"], {"hello.exe"}),
)


def completion():
    """What bash completes."""
    if not shutil.which("bash"):
        print("tools: bash isn't installed, so its completion isn't tried")
        return
    script = 'source "$0"; COMP_WORDS=("$@"); COMP_CWORD=$(($# - 1)); _os2run "$1" "${COMP_WORDS[$COMP_CWORD]}"; printf "%s\\n" "${COMPREPLY[@]}"'
    for words, wanted in COMPLETED:
        run = subprocess.run(["bash", "-c", script, os.path.join(TOOLS, "completion.bash"), *words], cwd=EXAMPLES, capture_output=True, text=True)
        wants(f"completion of {' '.join(words)}", set(run.stdout.split()) == wanted and not run.stderr, run)


def manners():
    """Each tool: help with status 0 on the standard output, wrong words with 2, and no traceback where nobody reads. None of them leaves a file."""
    every = sorted(os.path.join(room, name) for room in ("", "checks", "make") for name in os.listdir(os.path.join(TOOLS, room))
                   if name.endswith(".py") and os.access(os.path.join(TOOLS, room, name), os.X_OK))
    every += [os.path.join("..", name) for name in ("look", "bench/speed", "bench/swaps", "bench/discards", "bench/damage")]
    wants("a dozen tools", len(every) > 20, every)
    os.mkdir("manners")
    for tool in every:
        path = os.path.join(TOOLS, tool)
        for word in ("--help", "-h"):
            run = subprocess.run([path, word], cwd="manners", capture_output=True, text=True, stdin=subprocess.DEVNULL)
            wants(f"{tool} {word}", run.returncode == 0 and run.stdout.startswith("usage: ") and not run.stderr, run)
        run = subprocess.run([path, "--no-such-word"], cwd="manners", capture_output=True, text=True, stdin=subprocess.DEVNULL)
        well = run.returncode == 2 and not run.stdout and run.stderr.startswith("usage: ") and "Traceback" not in run.stderr
        # (what follows the words of gate_times.py is a command)
        wants(f"{tool} --no-such-word", well or tool == "gate_times.py", run)
        reader, writer = os.pipe()
        os.close(reader)
        run = subprocess.run([path, "--help"], cwd="manners", stdout=writer, stderr=subprocess.PIPE, text=True, stdin=subprocess.DEVNULL)
        os.close(writer)
        wants(f"{tool} --help, where nobody reads", run.stderr == "", run)
    # a folder without programs as the PATH
    for words in (["planted.py", "o2_place"], ["gate_times.py"], ["../look", "exe", "hello.exe"]):
        run = subprocess.run([sys.executable, os.path.join(TOOLS, words[0]), *words[1:]], cwd="manners", capture_output=True, text=True, stdin=subprocess.DEVNULL, env={**os.environ, "PATH": os.path.abspath("manners")})
        wants(f"{words[0]} without the toolchain", run.returncode == 1 and run.stderr.endswith(": it wants the command rt of the Rattle toolchain on the PATH\n") and run.stderr.count("\n") == 1, run)
    wants("no tool leaves a file", not os.listdir("manners"), os.listdir("manners"))
    for words in (["calls.py"], ["reach.py", os.path.join(EXAMPLES, "two.report")], ["picture.py", "lanes", os.path.join(EXAMPLES, "two.report")]):
        reader, writer = os.pipe()
        os.close(reader)
        run = subprocess.run([os.path.join(TOOLS, words[0]), *words[1:]], stdout=writer, stderr=subprocess.PIPE, text=True, stdin=subprocess.DEVNULL)
        os.close(writer)
        wants(f"{words[0]}, where nobody reads", (run.returncode, run.stderr) == (1, ""), run)


def package():
    """The package of the programs that were built: its sums, its first words, and a program made and run by what is in it. Whatever its README and
    the guide name of it is there."""
    says("make/package.py", [], "", 0)
    subprocess.run(["tar", "-xzf", os.path.join(ROOT, "build", "os2run-linux-x86_64.tar.gz")], check=True)
    top = os.path.abspath("os2run-linux-x86_64")
    where = {name: value for name, value in os.environ.items() if name.lower() not in command.PROGRAMS}
    with open(os.path.join(EXAMPLES, "hello.report")) as file:
        wanted = file.read()
    for words, console, report in (
        (["sha256sum", "--quiet", "-c", "SHA256SUMS"], "", ""),
        (["./os2run", "exe", "examples/hello.exe"], "hello", wanted),
        (["tools/run.py", "examples/hello.exe"], "hello", ""),
        (["tools/ne.py", "examples/hello.lst", "made.exe"], "", ""),
        (["./os2run", "exe", "made.exe"], "hello", wanted),
        (["tools/imports.py", "made.exe"], "HELLO imports 2:\n    DOSCALLS.5 DosExit               is there\n    DOSCALLS.138 DosWrite            is there\n", ""),
        (["tools/reach.py", "--at", "2", "examples/hello.report"], "process  selector  holds  from line  by\n      1      000F      1          2  load\n", ""),
        (["./os2why", "exe", "made.exe"], "it opens\n", ""),
        *(([f"./{name}", "--version"], f"{name} 1.0.0\n", "") for name in command.PROGRAMS if name != "os2run"),
    ):
        trying.count()
        run = subprocess.run(words, cwd=top, capture_output=True, text=True, stdin=subprocess.DEVNULL, env=where)
        if (run.returncode, run.stdout, run.stderr) != (0, console, report):
            wrong(f"package, {words}: {run}")
    with open(os.path.join(top, "README")) as file:
        named = set(re.findall(r"(?<![\w/.])(?:\./)?((?:os2\w+|tools/[\w./]+\w|man/[\w./]+\w|docs/machine\.md|docs/guide|LICENSE-\w+|SHA256SUMS))(?![\w-])", file.read()))
    missing = sorted(name for name in named if not os.path.exists(os.path.join(top, name)))
    wants("what the package's README names is in it", len(named) > 12 and not missing, missing)
    pages = [os.path.join(folder, name) for room in ("docs", "man") for folder, _, names in os.walk(os.path.join(top, room)) for name in names if re.search(r"\.(md|\d)$", name)]
    wants("the package has pages", len(pages) > 18, pages)
    for page in pages:
        with open(page) as file:
            text = file.read()
        named = set(re.findall(r"(?<![\w/])(?:\.\./)*((?:tools|docs|examples|bench|crates)/[\w./-]*\w)", text))
        missing = sorted(name for name in named if "/made/" not in name and not glob.glob(os.path.join(top, name) + "*"))
        wants(f"what {os.path.relpath(page, top)} names is in the package", not missing, missing)
    again = open(os.path.join(ROOT, "build", "os2run-linux-x86_64.tar.gz"), "rb").read()
    says("make/package.py", [], "", 0)
    wants("the same package once more", again == open(os.path.join(ROOT, "build", "os2run-linux-x86_64.tar.gz"), "rb").read())


PARTS = {"manners": manners, "listings": listings, "agreeing": agreeing, "damaged": damaged, "linked": linked, "nasm": nasm, "run": run, "imports": imports, "calls": calls, "reach": reach,
         "picture": picture, "completion": completion, "layouts": layouts, "package": package}

if __name__ == "__main__":
    trying.frame("tools", __doc__, PARTS)
