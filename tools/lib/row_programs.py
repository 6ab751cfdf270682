"""The programs of the table of commands (in the crate of its tests), which the proved program runs: their files, the machine file that each stands for,
and what it must come to. tools/checks/memory.py runs them in the least memory that each needs. The head of that table says what its statements do.
"""
import os
import re

from trying import COMMANDS

HEADINGS = (
    "calls over an input",
    "instructions",
    "calls on segments",
    "calls on heaps inside a segment",
    "calls by which processes share segments",
    "segments that are discarded",
    "calls on semaphores",
    "calls on huge allocations",
    "each argument of each call is refused",
    "memories that are too small, or just large enough",
)
EXE = "segments = 1024\nbudget = 1000000\nquantum = 1000\navail = 524288\n"


class Row:
    """One program or more: files by name, the machine file's lines without memory and swap, the input, and what is wanted of console and report."""

    def __init__(self, title, files, lines, console, report, given):
        self.title, self.files, self.lines = title, files, lines
        self.console, self.report, self.given = console, report, given

    def machine(self, memory):
        return f"memory = {memory}\nswap = 65536\n{self.lines}"


def source(name):
    with open(os.path.join(COMMANDS, name), encoding="utf-8") as file:
        return file.read()


def bytes_of(code, name):
    """What a `static` array of bytes holds."""
    found = re.search(rf"(?s)\b{name}: \[u8; (\d+)\] = \[(.*?)\];", code)
    held = bytes(int(word, 16) for word in re.findall(r"0x([0-9A-F]{2})", found[2]))
    assert len(held) == int(found[1]), name
    return held


PROGRAMS = source("src/programs.rt")
FRONT, END = bytes_of(PROGRAMS, "FRONT"), bytes_of(PROGRAMS, "END")


def program(code):
    """A program of this code, behind which it writes 16 bytes and ends."""
    file = bytearray(FRONT)
    file[0x82:0x84] = file[0x86:0x88] = (len(code) + 30).to_bytes(2, "little")
    file += code + END + b"\2\0"
    for behind, ordinal in ((0x11, 138), (0x1A, 5)):
        file += b"\3\1" + (len(code) + behind).to_bytes(2, "little") + b"\1\0" + ordinal.to_bytes(2, "little")
    return bytes(file)


def spelled(text):
    """Hexadecimal bytes, where `00*3A` is so many in a row."""
    held = b""
    for word in text.split():
        byte, _, times = word.partition("*")
        held += bytes([int(byte, 16)]) * int(times or "1", 16)
    return held


def lines_of(text):
    return "".join(line.strip() + "\n" for line in text.split(" / ") if line.strip()).encode("latin-1")


def word(number):
    return (number % 65536).to_bytes(2, "little")


def acted(act):
    """The code of what a process does, a call by its gate, a text that is written to DS or instructions, and how many steps it takes."""
    front, _, rest = act.partition(" ")
    second, _, last = rest.partition(" ")
    if front == "n":
        held, at = last.encode("latin-1"), int(second, 16)
        words = [held[k : k + 2].ljust(2, b"\0") for k in range(0, len(held), 2)] + [b"\0\0"]
        return b"".join(b"\xC7\x06" + word(at + 2 * k) + pair for k, pair in enumerate(words)), len(words)
    if front == "x":
        return spelled(last), 0 if second == "-" else int(second, 16)
    pushed = rest.split()
    code = b"".join(b"\x68" + word(int(number, 16)) for number in pushed)
    return code + b"\x9A\0\0" + word(int(front, 16) % 64 * 8 + 0x83), len(pushed) + 1


def module_name(file):
    """The own name of the module in an executable."""
    header = int.from_bytes(file[0x3C:0x40], "little")
    at = header + int.from_bytes(file[header + 0x26 : header + 0x28], "little")
    return file[at + 1 : at + 1 + file[at]].decode("latin-1")


class Table:
    """What the statements of the table have made so far: bytes under names, macros, whether a call of a device fails in the next run, and the runs."""

    def __init__(self):
        self.parts, self.macros, self.is_failing, self.runs = {}, {}, False, []

    def part(self, name):
        return self.parts.setdefault(name, bytearray())

    def take(self, text):
        """All lines of a table."""
        heading, lines = None, None
        for number, line in enumerate(text.split("\n"), 1):
            if line.startswith("def "):
                lines = self.macros[line[4:]] = []
            elif line == "end":
                lines = None
            elif lines is not None:
                lines.append(line)
            elif line.startswith("= "):
                heading = line[2:]
            else:
                self.step(line, heading, f"line {number}: {line[:120]}")

    def step(self, statement, heading, line):
        verb, _, rest = statement.partition(" ")
        if verb in ("", "#", "blocks"):
            return
        if verb in self.macros:
            held = [argument.strip() for argument in rest.split("|")] + [""] * 9
            for inner in self.macros[verb]:
                self.step(re.sub(r"\$(\d)", lambda found: held[int(found[1]) - 1], inner), heading, line)
        elif verb == "each":
            first, last, step, call = rest.split(" ", 3)
            name, _, more = call.partition(" ")
            for number in range(int(first), int(last) + 1, int(step)):
                self.step(f"{name} {number} | {number:04X} | {more}", heading, line)
        elif verb in ("run", "ends", "shows", "tells", "fronts", "cuts", "survives", "walk", "sequence"):
            self.run(verb, rest, heading, line)
        elif verb in ("is", "image"):
            return
        else:
            self.change(verb, rest, line)

    def change(self, verb, rest, line):
        name, _, text = rest.partition(" ")
        if verb == "new":
            for name in rest.split():
                self.part(name).clear()
        elif verb == "acts":
            for part in rest.split(" ; "):
                process, _, act = part.strip().partition(" ")
                code, steps = acted(act)
                self.part(process).extend(code)
                self.part("script").extend(f'"{process}:{steps}",'.encode("ascii"))
        elif verb == "fail":
            self.is_failing = True
        elif verb == "program":
            self.part(name).extend(program(bytes(self.part(text))))
        elif verb == "copy":
            self.part(name).extend(self.copied(*text.split(" ")))
        elif verb == "set":
            for change in text.split():
                place, _, byte = change.partition("=")
                self.part(name)[int(place, 16)] = int(byte, 16)
        elif verb == "flip":
            place, _, mask = text.partition(" ")
            self.part(name)[int(place)] ^= int(mask, 16)
        elif verb == "cut":
            del self.part(name)[int(text) :]
        elif verb == "fill":
            part = self.part(name)
            part[:] = part[: int(text)].ljust(int(text), b"\0")
        else:
            made = {"bytes": spelled, "lines": lines_of, "text": lambda text: text.encode("latin-1") + b"\n", "part": lambda text: text.encode("latin-1")}
            if verb not in made:
                raise SystemExit(f"{COMMANDS}/stdin: no statement {verb}, {line}")
            self.part(name).extend(made[verb](text))

    def copied(self, name, lines="", more=""):
        """All of what stands under a name, or so many lines of it and so many bytes behind them."""
        held = bytes(self.part(name))
        if not lines:
            return held
        front = b"".join(held.splitlines(True)[: int(lines)])
        return held[: len(front) + int(more or "0")]

    def run(self, verb, rest, heading, line):
        status, _, words = rest.partition(" ")
        if heading in HEADINGS and (verb, status) == ("run", "0") and not self.is_failing:
            self.runs.append(self.row(line, *words.split(",")))
        self.is_failing = False
        for name in ("console", "report", "line", "lines", "stop", "counts", "pieces"):
            self.part(name).clear()

    def row(self, line, command, name):
        text = bytes(self.part(name)).decode("latin-1")
        if command == "exe":
            text = f'{EXE}modules = ["{name}"]\n[[process]]\nmodule = "{module_name(bytes(self.part(name)))}"\n'
        modules = re.findall(r"[\"']([^\"']*)[\"']", re.search(r"(?m)^modules = \[(.*)\]$", text)[1])
        files = {module: bytes(self.part(module)) for module in modules}
        lines = re.sub(r"(?m)^(memory|swap) = \d+\n", "", text)
        return Row(line, files, lines, bytes(self.part("console")), self.part("report").decode("latin-1"), bytes(self.part("input")))


def all_rows():
    """Each program once, however many memories the table runs it in."""
    table, seen = Table(), set()
    table.take(source("stdin"))
    for row in table.runs:
        key = (*row.files.items(), row.given)
        if key not in seen:
            seen.add(key)
            yield row
