#!/usr/bin/env python3
"""Runs one program or machine file as other programs are run. A FILE that ends in .toml is a machine file, and has no arguments; of another,
the ARGUMENTs are its command line, one blank between two of them.

The console goes to the standard output, the report to FILE.report, and the status is told by the report alone:

  the exit code of process 1, modulo 256
  128 + V   an exception V ended process 1
  75        the budget ran out
  70        os2run itself failed; its line goes to the standard error too, and where it opened no machine there is no report
  2         these words are wrong
"""
import os
import re
import subprocess
import sys
import tempfile

sys.dont_write_bytecode = True
sys.path.insert(0, os.path.join(os.path.dirname(os.path.realpath(__file__)), "lib"))
import command
import watched

# The machine that `os2run exe` makes for a program, as docs/machine.md has it.
MEMORY, SWAP, SEGMENTS, BUDGET, QUANTUM, AVAIL = 1_048_576, 2048, 1024, 1_000_000, 1000, 524_288

# The statuses of os2run where no machine opened, so that there is no report.
NOT_OPENED = (1, 2, 3, 4, 5, 11)


def quoted(text):
    """A string of TOML."""
    return '"' + "".join(f"\\u{ord(it):04X}" if it in '"\\' or ord(it) < 32 or ord(it) == 127 else it for it in text) + '"'


def module_of(path):
    """The name that an executable gives its module, or its file's where it gives none: the machine then says what is wrong with the file."""
    try:
        with open(path, "rb") as file:
            content = file.read()
        head = int.from_bytes(content[0x3C:0x40], "little")
        at = head + int.from_bytes(content[head + 0x26 : head + 0x28], "little")
        name = content[at + 1 : at + 1 + content[at]]
        return name.decode("ascii") if name and content[head : head + 2] == b"NE" else "NONE"
    except (OSError, IndexError, UnicodeDecodeError):
        return "NONE"


def machine_file(given):
    """A machine file for a program with arguments: beside these, and what the words change, it is the machine of `os2run exe`."""
    memory, budget = given.memory or MEMORY, BUDGET if given.budget is None else given.budget
    return (
        f"memory = {memory}\nswap = {SWAP}\nsegments = {SEGMENTS}\nbudget = {budget}\nquantum = {QUANTUM}\navail = {AVAIL}\n"
        f"modules = [{quoted(given.file)}]\n\n[[process]]\nmodule = {quoted(module_of(given.file))}\narguments = {quoted(' '.join(given.arguments))}\n"
    )


def changed(given):
    """The text of a machine file with another budget or another memory; both stand in front of its first table."""
    with open(given.file, encoding="utf-8", newline="") as file:
        text = file.read()
    for key in ("budget", "memory"):
        number = getattr(given, key)
        if number is not None:
            head, mark, rest = text.partition("[[")
            head, count = re.subn(rf"(?m)^[ \t]*{key}[ \t]*=[ \t]*[0-9A-Fa-fxob_]+", f"{key} = {number}", head)
            text = head + mark + rest
            if count != 1:
                raise SystemExit(f"tools/run.py: {given.file} has no line of `{key}`, or more than one, so --{key} changes nothing")
    return text


def status_of(report):
    """The status that a report tells."""
    lines = report.splitlines()
    if lines[-1:] == ["budget spent"]:
        return 75
    for line in lines:
        end = re.match(r"1 end (?:exit (\d+)|trap (\d+) )", line)
        if end:
            return int(end[1]) % 256 if end[1] else 128 + int(end[2])
    return 70


def refused(report, words):
    """The line of a run that failed; of a refusal also who says why, where the words are such that others can ask by them."""
    line = (report.splitlines() or ["os2run: no line"])[-1]
    print(line, file=sys.stderr)
    if words and re.match(r"os2run: (module .*|machine file): reason", line):
        print(f"tools/run.py: `os2why {' '.join(words)}` says why", file=sys.stderr)
    return 70


def main():
    parser = command.parser("tools/run.py", __doc__)
    parser.add_argument("file", metavar="FILE", help="an executable, or a machine file NAME.toml")
    parser.add_argument("arguments", metavar="ARGUMENT", nargs="*", help="the program's command line; after -- also words that begin with a dash")
    parser.add_argument("--budget", type=command.number(0, 4_000_000_000), metavar="N", help=f"how many steps are taken at most, {BUDGET} where it isn't given")
    parser.add_argument("--memory", type=command.number(4096, 16_777_216), metavar="N", help=f"bytes of memory, {MEMORY} where it isn't given")
    given = command.given(parser)
    is_machine = given.file.endswith(".toml")
    if not given.file or given.file.startswith("-"):
        parser.error("a FILE has a name that doesn't begin with a dash")
    if is_machine and given.arguments:
        parser.error("a machine file has the arguments of its processes itself")
    if given.memory and given.memory % 16:
        parser.error("--memory is a multiple of 16")
    program = command.program()
    if not program:
        return 70
    if not os.path.isfile(given.file):
        # (no report of a file that isn't there)
        run = subprocess.run([program, "run" if is_machine else "exe", given.file], stdin=subprocess.DEVNULL, capture_output=True, encoding="latin-1")
        return refused(run.stderr, ["run" if is_machine else "exe", given.file])
    made = None
    words = ["run" if is_machine else "exe", given.file]
    if given.arguments or given.budget is not None or given.memory:
        # names of modules are seen from the folder of the command, so the file may lie anywhere
        with tempfile.NamedTemporaryFile("w", encoding="utf-8", suffix=".toml", delete=False, newline="") as out:
            made = out.name
            out.write(changed(given) if is_machine else machine_file(given))
        words = ["run", made]
    try:
        status = watched.run("tools/run.py", [program, *words], given.file + ".report")
    finally:
        if made:
            os.unlink(made)
    with open(given.file + ".report", encoding="latin-1") as file:
        report = file.read()
    if status in NOT_OPENED:
        os.unlink(given.file + ".report")
    if not status:
        return status_of(report)
    # (of what stands in a machine file that was made here os2why has nothing to say)
    return refused(report, None if made and "os2run: machine file" in report else ["run" if is_machine else "exe", given.file])


if __name__ == "__main__":
    command.end(main)
