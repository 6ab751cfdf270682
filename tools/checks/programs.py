#!/usr/bin/env python3
"""Tries the programs beside os2run (OS2WHY, OS2LIST, OS2TRACE, OS2CORE, OS2VECTORS and OS2RUN in the environment name others):

  why      what os2why says of the refusals that tools/checks/refusals.py tries, once for each text, and of what opens
  trace    os2trace over the examples, against NAME.report, and NAME.trace where it stands beside it
  writes   what os2trace tells of the bytes that steps changed, against core images, and its JSON lines against its other lines
  alone    os2trace over processes among others and alone: the steps of each are the same, in ample memory and in the least
  replay   libx86emu takes the steps of the examples' traces, over executables that are loaded here (where it and a C compiler are installed)
  list     nasm reads the listing of os2list back, over instructions of every opcode (where nasm is installed)
  core     what os2core shows of a core image, and for what it refuses damaged ones, against a reader in Python
  vectors  libx86emu takes the steps of os2vectors, where real and protected mode agree (where it and a C compiler are installed)
  ends     statuses and streams: wrong words, files that aren't there, can't be read, or are too long, and output that nobody takes
  pages    the examples of the manual pages, as they are written

A part that wants another program or library says so where that isn't installed, and passes.
"""
import os
import resource
import subprocess
import sys

sys.dont_write_bytecode = True
sys.path.insert(0, os.path.join(os.path.dirname(os.path.realpath(__file__)), "..", "lib"))
import trying
from trying import EXAMPLES, ROOT, program, wrong
from try_alone import check_alone
from try_core import check_core
from try_list import check_list
from try_replay import check_replay
from try_trace import check_trace
from try_vectors import check_vectors
from try_why import check_why
from try_writes import check_writes

# Statuses and streams.

SOME = object()


def ends(name, words, status, told, wrongs, **how):
    """Runs a program, and compares its status, what it wrote, and what it said was wrong; a text that is None isn't compared, and SOME is any
    text but none."""
    trying.count()
    run = subprocess.run([program(name), *words], **{"stdin": subprocess.DEVNULL, "stdout": subprocess.PIPE, "stderr": subprocess.PIPE, **how})
    for text, wanted in ((run.stdout, told), (run.stderr, wrongs)):
        differs = not text if wanted is SOME else text is not None and wanted is not None and text.decode("latin-1") != wanted
        if run.returncode != status or differs:
            wrong(f"{name} {' '.join(map(str, words))}: status {run.returncode}, {run.stdout!r}, {run.stderr!r}; wanted {status}, {told!r}, {wrongs!r}")
            return


def check_ends():
    with open("empty.exe", "wb"), open("long.exe", "wb") as long:
        long.write(b"\0" * 4_194_305)
    with open("text.exe", "wb") as text:
        text.write(b"no executable\n" * 299_593)
    os.mkdir("folder")
    for name in ("hello.exe", "-x.exe"):
        os.symlink(os.path.join(EXAMPLES, "hello.exe"), name)
    os.symlink(os.path.join(EXAMPLES, "echo.exe"), "echo.exe")
    os.symlink(os.path.join(EXAMPLES, "small.core"), "small.core")
    not_opened = "os2trace: it isn't opened: `os2why` with the same words says why\n"
    for words in ([], ["exe"], ["exe", "a", "b"], ["EXE", "hello.exe"], ["imports"], ["exe", "--what", "hello.exe"], ["exe", ""], ["run", ""], ["exe", "-x.exe"], ["exe", "--", "-x.exe"]):
        ends("os2why", words, 2, "", SOME)
    for words in ([], ["exe"], ["check", "hello.exe"], ["exe", "--selector", "0", "hello.exe"], ["exe", "--selector", "G", "hello.exe"], ["exe", "--selector", "10000", "hello.exe"],
                  ["exe", "--process", "0", "hello.exe"], ["exe", "--process", "65", "hello.exe"], ["exe", "--from", "0", "hello.exe"], ["exe", "--to", "x", "hello.exe"],
                  ["exe", ""], ["run", ""], ["exe", "-x.exe"], ["exe", "--", "-x.exe"]):
        ends("os2trace", words, 2, "", SOME)
    for words in ([], ["a", "b"], ["--what", "hello.exe"]):
        ends("os2list", words, 2, "", SOME)
    for words in ([], ["show"], ["show", "a", "b"], ["small.core"], ["segment", "small.core"], ["segment", "small.core", "x"], ["segment", "small.core", "-1"],
                  ["difference", "small.core"], ["show", "--what", "small.core"]):
        ends("os2core", words, 2, "", SOME)
    ends("os2core", ["segment", "small.core", "5"], 1, "", "os2core: there is no segment 5\n")
    for words in ([], ["F7", "1"], ["F7", "1", "1", "1"], ["F", "1", "1"], ["F7.8", "1", "1"], ["F7.", "1", "1"], [".4", "1", "1"], ["", "1", "1"], ["00" * 11, "1", "1"],
                  ["F7", "1000001", "1"], ["F7", "x", "1"], ["F7", "1", str(2**64)]):
        ends("os2vectors", words, 2, "", SOME)
    for name, words in (("os2why", ["exe", b"\xff"]), ("os2trace", ["exe", b"\xff"]), ("os2list", [b"\xff"]), ("os2core", ["show", b"\xff"]), ("os2vectors", [b"\xff", "1", "1"])):
        ends(name, words, 2, "", f"{name}: a word isn't UTF-8\n")
    for word, why, trace, listing in (
        ("no.exe", "there is no file no.exe", (1, not_opened), (3, "os2list: the file no.exe isn't there\n")),
        ("folder", "a file can't be read", (3, "os2trace: a file can't be read\n"), (3, "os2list: the file folder can't be read\n")),
        ("hello.exe/a", "a file can't be read", (3, "os2trace: a file can't be read\n"), (3, "os2list: the file hello.exe/a can't be read\n")),
        ("empty.exe", None, (1, not_opened), (1, "os2list: empty.exe is refused: `os2why exe` says why\n")),
        ("text.exe", "the module in text.exe is refused\n  reason 1: it doesn't begin with MZ: it is no executable", (1, not_opened), (1, "os2list: text.exe is refused: `os2why exe` says why\n")),
        ("long.exe", "the module in long.exe is refused\n  reason 7: the file has more than 4,194,304 bytes", (1, not_opened), (1, "os2list: long.exe is refused: `os2why exe` says why\n")),
    ):
        ends("os2why", ["exe", word], 1, why and f"it isn't opened: {why}\n", "")
        ends("os2trace", ["exe", word], trace[0], "", trace[1])
        ends("os2list", [word], listing[0], "", listing[1])
    for word, status, wrongs in (
        ("no.core", 3, "os2core: the file no.core isn't there\n"),
        ("folder", 3, "os2core: the file folder can't be read\n"),
        ("empty.exe", 1, "os2core: empty.exe is no core image: it ends at 0h, within a field\n"),
        ("hello.exe", 1, "os2core: hello.exe is no core image: it doesn't begin with OS2CORE1 or OS2CORE2\n"),
    ):
        for words in (["show", word], ["svg", word], ["segment", word, "0"], ["difference", word, "small.core"], ["difference", "small.core", word]):
            ends("os2core", words, status, "", wrongs)
    listed = "hello.exe: 2 of its imports are built, 0 are missing\n"
    counts = "     1 DOSCALLS.DosExit is built\n     1 DOSCALLS.DosWrite is built\n"
    ends("os2why", ["imports", "text.exe", "hello.exe"], 0, "text.exe: no module that is read here; `os2why exe` says why\n" + listed + "1 of 2 files open\n" + counts, "")
    ends("os2why", ["imports", "no.exe", "hello.exe"], 3, listed + "1 of 2 files open\n" + counts, "os2why: there is no file no.exe\n")
    ends("os2why", ["imports", "folder", "hello.exe"], 3, listed + "1 of 2 files open\n" + counts, "os2why: the file folder can't be read\n")
    for name, words in (("os2why", ["exe", "hello.exe"]), ("os2why", ["imports", "hello.exe"]), ("os2trace", ["exe", "hello.exe"]), ("os2list", ["hello.exe"]), ("os2vectors", ["F7.4", "3", "1"]),
                        *(("os2core", words) for words in (["show", "small.core"], ["svg", "small.core"], ["segment", "small.core", "3"], ["difference", "small.core", "small.core"])),
                        *((name, ["--help"]) for name in ("os2why", "os2trace", "os2list", "os2core", "os2vectors"))):
        with open("/dev/full", "wb") as full:
            ends(name, words, 3, None, f"{name}: No space left on device (os error 28)\n", stdout=full)
        ends(name, words, 3, None, f"{name}: Bad file descriptor (os error 9)\n", stdout=None, preexec_fn=lambda: os.close(1))
        reader, writer = os.pipe()
        os.close(reader)
        ends(name, words, 3, None, "", stdout=writer)
        os.close(writer)
    short_of_memory()
    # an input that can't be read: nothing where the program doesn't read, and else what is wrong, behind the steps before
    for name, status, wrongs in (("hello.exe", 0, ""), ("echo.exe", 3, "os2trace: the input can't be read\n")):
        source = os.open("folder", os.O_RDONLY)
        ends("os2trace", ["exe", name], status, None if status == 0 else SOME, wrongs, stdin=source)
        os.close(source)


def short_of_memory():
    """With less and less memory a program does what it does with much, or ends with the status 3 and says why."""
    for name, words in (("os2why", ["exe", "text.exe"]), ("os2list", ["text.exe"]), ("os2trace", ["exe", "hello.exe"])):
        wanted, short = None, 0
        for size in range(64, 2, -2):
            trying.count()
            limit = (size << 20, size << 20)
            run = subprocess.run([program(name), *words], stdin=subprocess.DEVNULL, capture_output=True, preexec_fn=lambda: resource.setrlimit(resource.RLIMIT_AS, limit))
            got = (run.returncode, run.stdout, run.stderr)
            wanted = wanted or got
            short += run.returncode == 3
            if got != wanted and (run.returncode != 3 or not run.stderr.startswith(name.encode() + b": ")):
                wrong(f"{name} {' '.join(words)} with {size} MB: {got}")
        if not short:
            wrong(f"{name} {' '.join(words)}: no memory was too small")


# The pages' examples.

def examples_of(page):
    """The commands between .nf and .fi, with what stands behind each. One whose first line ends with a pipe goes on in the lines that begin
    with `> `."""
    with open(page) as file:
        inside, found = False, []
        for line in file.read().splitlines():
            if line in (".nf", ".fi"):
                inside = line == ".nf"
            elif inside:
                line = line.replace("\\-", "-").replace("\\(rs", "\\")
                if line.startswith("$ "):
                    found.append((line[2:], []))
                elif line.startswith("> ") and not found[-1][1] and found[-1][0].split("\n")[0].endswith("|"):
                    found[-1] = (found[-1][0] + "\n" + line[2:], [])
                else:
                    found[-1][1].append(line)
    return found


def check_pages():
    for name in ("os2why", "os2trace", "os2list", "os2core", "os2vectors"):
        os.symlink(program(name), name)
    for name in ("examples", "README.md"):
        os.symlink(os.path.join(ROOT, name), name)
    where = {**os.environ, "PATH": os.getcwd() + os.pathsep + os.environ["PATH"]}
    for name in ("os2why", "os2trace", "os2list", "os2core", "os2vectors"):
        page = os.path.join(ROOT, "docs", "man", name + ".1")
        for command, wanted in examples_of(page):
            trying.count()
            run = subprocess.run(["sh", "-c", command], env=where, stdin=subprocess.DEVNULL, capture_output=True, text=True)
            if run.stdout.splitlines() != wanted or run.stderr:
                wrong(f"{name}.1, {command}: {run.stdout!r}, {run.stderr!r}")


PARTS = {"why": check_why, "trace": check_trace, "writes": check_writes, "alone": check_alone, "replay": check_replay, "list": check_list, "core": check_core, "vectors": check_vectors, "ends": check_ends, "pages": check_pages}

if __name__ == "__main__":
    trying.frame("programs", __doc__, PARTS)
