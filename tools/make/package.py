#!/usr/bin/env python3
"""Makes a package of the built programs, for people who don't build: the folder build/os2run-linux-x86_64 and an archive of it, with the
programs, the examples, the tools that need no toolchain, the manual pages, the pages of docs that are for users, the licences, and SHA256SUMS
over all of it. The programs are built before, where they have to be. The same sources and the same programs give the same bytes.
"""
import gzip
import hashlib
import io
import os
import shutil
import subprocess
import sys
import tarfile
import tempfile

sys.dont_write_bytecode = True
sys.path.insert(0, os.path.join(os.path.dirname(os.path.realpath(__file__)), "..", "lib"))
import command
from command import PROGRAMS, ROOT

NAME = "os2run-linux-x86_64"
# 1 January 2026, 00:00 UTC
TIME = 1_767_225_600
TOOLS = ("run.py", "ne.py", "link.py", "imports.py", "picture.py", "reach.py", "calls.py", "vectors.py", "completion.bash", "lib/command.py", "lib/watched.py", "lib/calls.toml", "lib/instructions.py", "lib/core_image.py", "make/layouts.py", "make/limits.py")
README = """os2run runs programs of OS/2 1.x's 16-bit protected mode that use no screen, on Linux on x86-64 with glibc 2.34 or later.

    sha256sum -c SHA256SUMS                                   all files are as they were packed
    ./os2run exe examples/five-minutes/first.exe 2>report     the console on the terminal, the report in a file
    man -l man/man1/os2run.1                                  the words, the report and the statuses
    man -l man/man5/os2run.5                                  the machine file

Beside it stand five programs, each with a manual page:

    ./os2why       why a program is refused, and what its imports are
    ./os2list      the listing of an executable
    ./os2trace     the steps of a run
    ./os2core      core images in text and as pictures
    ./os2vectors   test vectors of the processor

To install them copy the six programs into a folder on the PATH, and man/ into one of the manual's, as /usr/local/bin and
/usr/local/share/man.

The tools want Python 3.11 or later; each has --help:

    tools/run.py FILE ..     gives a process's exit code as its status
    tools/imports.py FILE    tells which calls a program wants that aren't there
    tools/calls.py           the table of calls
    tools/ne.py, link.py     make programs
    tools/reach.py           tells from a report who holds what
    tools/picture.py         draws a report
    tools/vectors.py         makes test vectors of all opcodes, with the flags that are undefined
    tools/completion.bash    completes words in bash: source tools/completion.bash

docs/guide/README.md leads through the lessons. docs/machine.md has the rest, and what to do when it says no.

The programs were built from proved sources. What is proved stands in a page of these sources, docs/proved.md, which isn't in this package.
The programs are free under either of LICENSE-MIT and LICENSE-APACHE, as you choose.
"""


def tracked(folder):
    """The files of a folder as they are kept, without what runs have left beside them."""
    run = subprocess.run(["git", "-C", ROOT, "ls-files", "-z", "--cached", "--others", "--exclude-standard", "--", folder], capture_output=True, text=True)
    if run.returncode:
        sys.exit(f"tools/make/package.py: {run.stderr.strip()}")
    return sorted(name for name in run.stdout.split("\0") if name and os.path.isfile(os.path.join(ROOT, name)))


def files(programs):
    """Where each file of the package comes from, by its name there."""
    found = {name: path for name, path in programs.items()}
    for name in ("LICENSE-MIT", "LICENSE-APACHE", "docs/machine.md", *(f"tools/{name}" for name in TOOLS)):
        found[name] = os.path.join(ROOT, name)
    for name in (*tracked("examples"), *tracked("docs/guide")):
        found[name] = os.path.join(ROOT, name)
    for name in tracked("docs/man"):
        found[f"man/man{name[-1]}/{os.path.basename(name)}"] = os.path.join(ROOT, name)
    return found


def archive(contents):
    """The archive, the same bytes for the same contents."""
    out = io.BytesIO()
    folders = sorted({NAME, *(os.path.join(NAME, *name.split("/")[:depth]) for name in contents for depth in range(1, name.count("/") + 1))})
    with tarfile.open(fileobj=out, mode="w", format=tarfile.GNU_FORMAT) as tar:
        for name in sorted([*folders, *(os.path.join(NAME, name) for name in contents)]):
            row = tarfile.TarInfo(name)
            row.mtime = TIME
            if name in folders:
                row.type, row.mode = tarfile.DIRTYPE, 0o755
                tar.addfile(row)
            else:
                row.size = len(contents[name[len(NAME) + 1 :]][0])
                row.mode = contents[name[len(NAME) + 1 :]][1]
                tar.addfile(row, io.BytesIO(contents[name[len(NAME) + 1 :]][0]))
    return gzip.compress(out.getvalue(), mtime=0)


def main():
    command.parser("tools/make/package.py", __doc__).parse_args()
    programs = {name: command.program(name) for name in PROGRAMS}
    if not all(programs.values()):
        return 1
    contents = {"README": (README.encode(), 0o644)}
    for name, path in files(programs).items():
        with open(path, "rb") as file:
            contents[name] = file.read(), 0o755 if os.access(path, os.X_OK) else 0o644
    sums = "".join(f"{hashlib.sha256(contents[name][0]).hexdigest()}  ./{name}\n" for name in sorted(contents))
    contents["SHA256SUMS"] = sums.encode(), 0o644
    packed = archive(contents)
    build = os.path.join(ROOT, "build")
    os.makedirs(build, exist_ok=True)
    with tempfile.TemporaryDirectory(dir=build) as work:
        with tarfile.open(fileobj=io.BytesIO(packed), mode="r:gz") as tar:
            tar.extractall(work, filter="tar")
        with open(os.path.join(work, "packed"), "wb") as file:
            file.write(packed)
        shutil.rmtree(os.path.join(build, NAME), ignore_errors=True)
        os.rename(os.path.join(work, NAME), os.path.join(build, NAME))
        os.rename(os.path.join(work, "packed"), os.path.join(build, NAME + ".tar.gz"))
    line = f"{hashlib.sha256(packed).hexdigest()}  {NAME}.tar.gz\n"
    with open(os.path.join(build, NAME + ".tar.gz.sha256"), "w") as file:
        file.write(line)
    print(line, end="")
    return 0


if __name__ == "__main__":
    command.end(main)
