#!/usr/bin/env python3
"""Tries the program where the system gives no memory: of each run, each allocation fails in turn. The command must then end with the
status 11 and its line alone, with nothing on the console, nothing of the input read, and no swap file; or, where nothing but the line of
another status was still to be written, with that status and without its line; or it does with less, as a list that grows asks for
twice its room and then for what it needs, and ends as it does where none fails. And from its first line on a run allocates nothing,
so it can't end for want of memory any more. (The calls of the C library that give memory are counted and failed by a library that is
loaded in front of it.)

OS2RUN in the environment names another program to try. The gate doesn't run this check.
"""
import os
import shutil
import subprocess
import sys
import tempfile

sys.dont_write_bytecode = True
sys.path.insert(0, os.path.join(os.path.dirname(os.path.realpath(__file__)), "..", "lib"))
import command
import trying
from trying import EXAMPLES, program, wants

# Counts the calls that give memory; that of a number, from 1, gives none. At the end it tells how many there were, and how many of
# them before the first write to the console or the report.
COUNTING = """
#define _GNU_SOURCE
#include <errno.h>
#include <fcntl.h>
#include <stdio.h>
#include <stdlib.h>
#include <sys/syscall.h>
#include <unistd.h>

extern void *__libc_malloc(size_t), *__libc_calloc(size_t, size_t), *__libc_realloc(void *, size_t);
static long calls, before = -1, failing;
static int counts;

static int fails(void) { return counts && ++calls == failing ? (errno = ENOMEM, 1) : 0; }

void *malloc(size_t size) { return fails() ? 0 : __libc_malloc(size); }
void *calloc(size_t count, size_t size) { return fails() ? 0 : __libc_calloc(count, size); }
void *realloc(void *old, size_t size) { return fails() ? 0 : __libc_realloc(old, size); }

ssize_t write(int file, const void *from, size_t count) {
    if (before < 0 && (file == 1 || file == 2)) before = calls;
    return syscall(SYS_write, file, from, count);
}

static void tell(void) {
    const char *name = getenv("ALLOCATIONS");
    char text[64];
    int file = name ? open(name, O_WRONLY | O_CREAT | O_TRUNC, 0600) : -1;
    if (file < 0) return;
    int length = snprintf(text, sizeof text, "%ld %ld", before < 0 ? calls : before, calls);
    if (write(file, text, length) != length) _exit(99);
    close(file);
}

__attribute__((constructor)) static void begin(void) {
    const char *number = getenv("FAILING_ALLOCATION");
    failing = number ? atol(number) : 0;
    atexit(tell);
    counts = 1;
}
"""
NO_MEMORY = b"os2run: no memory\n"


class Command:
    """A command in a folder, over an input in a file."""

    def __init__(self, title, words, folder=EXAMPLES, data=b""):
        self.title, self.words, self.folder, self.data = title, words, folder, data

    def run(self, k=0):
        """Status, console, standard error, how many bytes of the input were read, whether there is a swap file, and the counts."""
        with open("input", "wb") as file:
            file.write(self.data)
        counts = os.path.abspath("counts")
        changes = {"LD_PRELOAD": LIBRARY, "ALLOCATIONS": counts, "FAILING_ALLOCATION": str(k)}
        with tempfile.TemporaryDirectory(dir=".") as folder, open("input", "rb") as source:
            for name in os.listdir(self.folder):
                path = os.path.join(self.folder, name)
                if os.path.isfile(path):
                    os.symlink(path, os.path.join(folder, name))
            done = subprocess.run([program(), *self.words], stdin=source, capture_output=True, cwd=folder, env={**os.environ, **changes})
            place = os.lseek(source.fileno(), 0, os.SEEK_CUR)
            swaps = os.path.exists(os.path.join(folder, "os2run.swp"))
        with open(counts) as file:
            before, calls = map(int, file.read().split())
        return done.returncode, done.stdout, done.stderr, place, swaps, before, calls

    def check(self):
        """Each allocation fails in turn; how many there are."""
        whole = self.run()
        status, console, report, place, swaps, before, calls = whole
        lines = report.splitlines(keepends=True)
        # the line of a status is made when all else is written
        told = lines[-1] if status else b""
        least = before if status in (0, 6, 8, 9, 10) or console else 0
        if status == 0:
            wants(f"{self.title}: allocations behind the first line", before == calls, f"{calls - before} of {calls}")
        without = report[: len(report) - len(told)]
        is_told, spared = True, 0
        for k in range(calls, 0, -1):
            got = self.run(k)
            is_quiet = got[:5] == (11, b"", NO_MEMORY, 0, False)
            is_spared = k <= before and got[:5] == whole[:5]
            # (only the last ones can be those of the line)
            is_told = is_told and k > least and got[:5] == (status, console, without, place, swaps)
            spared += is_spared and not is_quiet
            wants(f"{self.title}: allocation {k} of {calls} fails", is_quiet or is_told or is_spared, got)
        wants(f"{self.title}: none fails", self.run(calls + 1)[:5] == whole[:5], whole)
        print(f"{self.title}: status {status}; {before} allocations before the first line, of which {spared} aren't missed, and {calls - before} behind it")


def many(folder, count):
    """A machine file of so many processes that write `hello`."""
    with open(os.path.join(EXAMPLES, "hello.exe"), "rb") as source, open(os.path.join(folder, "hello.exe"), "wb") as file:
        file.write(source.read())
    keys = 'memory = 1048576\nswap = 0\nsegments = 1024\nbudget = 100000\nquantum = 7\nmodules = ["hello.exe"]\nscript = ["2:3"]\n'
    process = '[[process]]\nmodule = "HELLO"\narguments = "one two"\nenvironment = ["A=B"]\n'
    with open(os.path.join(folder, "many.toml"), "w") as file:
        file.write(keys + process * count + "[ordinals]\nDosWrite = 138\nDosExit = 5\n")


def calling(folder):
    """A machine file of a program that calls on segments, in the least memory that has the room of each of its steps."""
    pascal = os.path.join(EXAMPLES, "pascal")
    shutil.copyfile(os.path.join(pascal, "large", "words.exe"), os.path.join(folder, "words.exe"))
    with open(os.path.join(pascal, "least.toml")) as source, open(os.path.join(folder, "calling.toml"), "w") as file:
        file.write(source.read().replace("large/words.exe", "words.exe"))
    with open(os.path.join(pascal, "least.input"), "rb") as source:
        return source.read()


def commands(folder):
    """Runs and refusals of all shapes."""
    for number, kind in enumerate(("names", "data")):
        with open(os.path.join(folder, f"{kind}.toml"), "w") as file:
            file.write(["memory = 4096\n", "memory = \n"][number])
    yield Command("hello", ["exe", "hello.exe"])
    yield Command("echo", ["exe", "echo.exe"], data=b"Some input.\n")
    yield Command("segments", ["exe", "segments.exe"])
    yield Command("two processes", ["run", "two.toml"])
    yield Command("64 processes", ["run", "many.toml"], folder)
    yield Command("libraries", ["run", "counts.toml"], os.path.join(EXAMPLES, "libraries"))
    yield Command("a check", ["check", "counts.toml"], os.path.join(EXAMPLES, "libraries"))
    yield Command("sharing by a name", ["run", "late.toml"], os.path.join(EXAMPLES, "sharing"))
    yield Command("sharing by a gift", ["run", "gift.toml"], os.path.join(EXAMPLES, "sharing"))
    yield Command("swapping", ["run", "swaps.toml"], os.path.join(EXAMPLES, "memory"))
    yield Command("calls on segments", ["run", "calling.toml"], folder, calling(folder))
    yield Command("a dump", ["dump", "swaps.toml"], os.path.join(EXAMPLES, "memory"))
    yield Command("a dump that stops", ["dump", "full.toml"], os.path.join(EXAMPLES, "memory"))
    yield Command("no room", ["run", "short.toml"], os.path.join(EXAMPLES, "memory"))
    yield Command("a full swap", ["run", "full.toml"], os.path.join(EXAMPLES, "memory"))
    yield Command("no command", ["exe"])
    yield Command("no file", ["exe", "none.exe"])
    yield Command("no TOML", ["run", "data.toml"], folder)
    yield Command("a key that is missing", ["run", "names.toml"], folder)
    yield Command("no executable", ["exe", "hello.lst"])


def tried(titles):
    global LIBRARY
    LIBRARY = os.path.abspath("counting.so")
    with open("counting.c", "w") as out:
        out.write(COUNTING)
    subprocess.run([trying.compiler(), "-shared", "-fPIC", "-O1", "-fno-builtin", "-o", LIBRARY, "counting.c"], check=True)
    os.mkdir("files")
    many("files", 64)
    for each in commands(os.path.abspath("files")):
        if not titles or each.title in titles:
            each.check()


def main():
    words = command.parser("tools/checks/allocations.py", __doc__)
    words.add_argument("titles", nargs="*", metavar="TITLE", help="the runs to try, as 'two processes'; all where none is named")
    given = words.parse_args()
    if not trying.compiler():
        print("allocations: there is no C compiler, so nothing is tried")
        return 0
    with tempfile.TemporaryDirectory() as work:
        os.chdir(work)
        try:
            tried(given.titles)
        finally:
            os.chdir(trying.ROOT)
    print(f"allocations: {trying.tried} tried, {trying.failed} not as wanted")
    return 1 if trying.failed else 0


if __name__ == "__main__":
    command.end(main)
