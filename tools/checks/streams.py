#!/usr/bin/env python3
"""Tries the program over streams that are slow, short or failing: an input and an output pipe of one byte at a time, reads and writes
that the system cuts to one byte, and an error at each of the first reads and writes. It compares console, report and status with those
of a plain run, of which a failing run has fronts. A program that talks with somebody gets each byte as it comes. (Closed streams and
/dev/full are in tools/checks/refusals.py.)

OS2RUN in the environment names another program to try.
"""
import os
import select
import shutil
import subprocess
import sys
import threading

sys.dont_write_bytecode = True
sys.path.insert(0, os.path.join(os.path.dirname(os.path.realpath(__file__)), "..", "lib"))
import trying
from trying import EXAMPLES, program, wants
import ne

ECHO = os.path.join(EXAMPLES, "echo.exe")
INPUT = b"Some input.\n"
# reads a byte and writes it, to the end of the input
TALKS = """module TALKS
stack 512
start 1:0000
segment 1 code
0000  6A 00 1E 68 00 00 6A 01 1E 68 02 00 9A FF FF 00 00  @000D far DOSCALLS.137
0011  83 3E 02 00 00 74 13
0018  6A 01 1E 68 00 00 6A 01 1E 68 04 00 9A FF FF 00 00  @0025 far DOSCALLS.138
0029  EB D5
002B  6A 01 6A 00 9A FF FF 00 00  @0030 far DOSCALLS.5
segment 2 data auto size=16
"""
# read and write of the C library, cut to one byte for the standard streams; the call of a number, from 1, fails
SHORT = """
#define _GNU_SOURCE
#include <dlfcn.h>
#include <errno.h>
#include <stdlib.h>
#include <unistd.h>

static int fails(const char *name, int *calls) {
    const char *number = getenv(name);
    *calls += 1;
    return number && atoi(number) == *calls;
}

ssize_t read(int file, void *into, size_t count) {
    static int calls;
    ssize_t (*next)(int, void *, size_t) = dlsym(RTLD_NEXT, "read");
    if (file != 0) return next(file, into, count);
    if (fails("FAILING_READ", &calls)) return errno = EIO, -1;
    return next(file, into, count < 1 ? count : 1);
}

ssize_t write(int file, const void *from, size_t count) {
    static int calls;
    ssize_t (*next)(int, const void *, size_t) = dlsym(RTLD_NEXT, "write");
    if (file != 1 && file != 2) return next(file, from, count);
    if (fails("FAILING_WRITE", &calls)) return errno = EIO, -1;
    return next(file, from, count < 1 ? count : 1);
}
"""


def run(**changes):
    """The status, the console and the report of a run over the input, with changes of the environment."""
    done = subprocess.run([program(), "exe", ECHO], input=INPUT, capture_output=True, env={**os.environ, **changes})
    return done.returncode, done.stdout, done.stderr


def slowly():
    """The same over pipes, one byte at a time."""
    child = subprocess.Popen([program(), "exe", ECHO], stdin=subprocess.PIPE, stdout=subprocess.PIPE, stderr=subprocess.PIPE, bufsize=0)
    got = {1: b"", 2: b""}

    def take(number, stream):
        while byte := os.read(stream.fileno(), 1):
            got[number] += byte

    takers = [threading.Thread(target=take, args=pair) for pair in ((1, child.stdout), (2, child.stderr))]
    for taker in takers:
        taker.start()
    for byte in INPUT:
        child.stdin.write(bytes([byte]))
    child.stdin.close()
    for taker in takers:
        taker.join()
    return child.wait(), got[1], got[2]


def answered():
    """A read of one byte is answered before more input comes: each byte is put before the next one is sent."""
    with open("talks.exe", "wb") as file:
        file.write(ne.Listing(TALKS).file())
    child = subprocess.Popen([program(), "exe", "talks.exe"], stdin=subprocess.PIPE, stdout=subprocess.PIPE, stderr=subprocess.DEVNULL, bufsize=0)
    got = b""
    for byte in b"os2":
        child.stdin.write(bytes([byte]))
        if not select.select([child.stdout], [], [], 20)[0]:
            break
        got += os.read(child.stdout.fileno(), 16)
    wants("bytes that are answered one by one", got == b"os2", got)
    child.stdin.close()
    wants("the end of the input", (child.stdout.read(), child.wait()) == (b"", 0), child.returncode)


def short(folder):
    """Cut and failing reads and writes."""
    with open(os.path.join(folder, "short.c"), "w") as file:
        file.write(SHORT)
    library = os.path.abspath(os.path.join(folder, "short.so"))
    subprocess.run([trying.compiler(), "-shared", "-fPIC", "-O1", "-o", library, os.path.join(folder, "short.c"), "-ldl"], check=True)
    wants("one byte a call", run(LD_PRELOAD=library) == plain, run(LD_PRELOAD=library))
    # each write takes one byte, so the k-th that fails has k - 1 bytes before it
    _, console, report = plain
    for k in range(1, len(console + report) + 1, 7):
        status, front, lines = run(LD_PRELOAD=library, FAILING_WRITE=str(k))
        told = b"os2run: output fault\n"
        held = lines[: -len(told)]
        well = status == 7 and lines.endswith(told) and console.startswith(front) and report.startswith(held) and len(front + held) == k - 1
        wants(f"write {k} fails", well, (status, front, lines))
    # all bytes are asked for by the first DosRead, before which the report has the lines of the start
    start = report[: report.index(b"1 call")]
    for k in range(1, len(INPUT) + 2):
        wanted = (6, b"", start + b"stop input fault\nos2run: input fault\n")
        wants(f"read {k} fails", run(LD_PRELOAD=library, FAILING_READ=str(k)) == wanted, run(LD_PRELOAD=library, FAILING_READ=str(k)))


def benches(folder):
    """A bench whose writes are cut and fail. Its report comes first, and its line last, so a write that fails has a front of both."""
    library = os.path.abspath(os.path.join(folder, "short.so"))

    def bench(**changes):
        done = subprocess.run([program(), "bench", "1"], stdin=subprocess.DEVNULL, capture_output=True, env={**os.environ, **changes})
        return done.returncode, done.stdout, done.stderr

    whole = bench()
    wants("a bench", whole[:2] == (0, b"bench 1: 1927 steps, 1 console bytes, 24 report lines\n"), whole)
    wants("a bench, one byte a call", bench(LD_PRELOAD=library) == whole, bench(LD_PRELOAD=library))
    _, console, report = whole
    told = b"os2run: output fault\n"
    for k in (*range(1, len(report), 61), *range(len(report), len(report + console) + 1, 7)):
        status, front, lines = bench(LD_PRELOAD=library, FAILING_WRITE=str(k))
        wants(f"write {k} of a bench fails", status == 7 and lines.endswith(told) and lines[: -len(told)] + front == (report + console)[: k - 1], (status, front, lines))


def dumps(folder):
    """A dump whose writes are cut and fail. Its report comes first, and its image last."""
    library = os.path.abspath(os.path.join(folder, "short.so"))
    with open(os.path.join(folder, "dumped.toml"), "w") as file:
        file.write('memory = 4096\nswap = 0\nsegments = 16\nbudget = 1000\nquantum = 10\nmodules = ["hello.exe"]\n[[process]]\nmodule = "HELLO"\n')
    shutil.copyfile(os.path.join(EXAMPLES, "hello.exe"), os.path.join(folder, "hello.exe"))

    def dump(**changes):
        done = subprocess.run([program(), "dump", "dumped.toml"], stdin=subprocess.DEVNULL, capture_output=True, cwd=folder, env={**os.environ, **changes})
        return done.returncode, done.stdout, done.stderr

    whole = dump()
    wants("a dump", (whole[0], whole[1][:8], whole[1][-4:]) == (0, b"OS2CORE2", b"END!"), whole)
    wants("a dump, one byte a call", dump(LD_PRELOAD=library) == whole, dump(LD_PRELOAD=library))
    _, console, report = whole
    told = b"os2run: output fault\n"
    for k in (*range(1, len(report), 61), *range(len(report), len(report + console) + 1, 53)):
        status, front, lines = dump(LD_PRELOAD=library, FAILING_WRITE=str(k))
        wants(f"write {k} of a dump fails", status == 7 and lines.endswith(told) and lines[: -len(told)] + front == (report + console)[: k - 1], (status, front, lines))


def whole():
    global plain
    plain = run()
    wants("a plain run", plain[:2] == (0, INPUT.upper()), plain)
    wants("pipes of one byte at a time", slowly() == plain, slowly())
    answered()
    if not trying.compiler():
        print("streams: there is no C compiler, so cut and failing calls aren't tried")
        return
    for part in (short, benches, dumps):
        part(".")


if __name__ == "__main__":
    trying.frame("streams", __doc__, {"all": whole})
