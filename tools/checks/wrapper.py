#!/usr/bin/env python3
"""Tries ./os2run and ./os2why, in a copy of their own with small crates and an `rt` that proves nothing: it writes down that it was called,
and makes a program that prints its words, or fails. So what is tried is when a program is built, and what is said then."""
import os
import shutil
import subprocess
import sys
import time

sys.dont_write_bytecode = True
sys.path.insert(0, os.path.join(os.path.dirname(os.path.realpath(__file__)), "..", "lib"))
import trying
from trying import ROOT, wants

RT = r"""#!/bin/sh
case "${PWD##*/} $*" in
    "os2run run -- exe data/hello.exe" | "os2why run -- --version") name=${PWD##*/} ;;
    *) echo "rt: called as rt $* in $PWD"; exit 2 ;;
esac
echo built >>../../../calls
echo "rt: chose --jobs 2 for low"
# goes on once the wrapper has said what it is to say meanwhile
times=0
while [ -e ../../../meanwhile ] && ! grep -qf ../../../meanwhile ../../../err && [ $times -lt 600 ]; do sleep 0.1; times=$((times + 1)); done
if grep -q bad ../low/src/lib.rt; then
    echo "src/lib.rt:1: error: bad is no word"
    exit 1
fi
if grep -q changing ../low/src/lib.rt && [ ! -e ../../../still ]; then echo more >>../low/src/lib.rt; fi
mkdir -p out
{ echo '#!/bin/sh'; echo "# $(cat ../low/src/lib.rt src/main.rt | tr '\n' ' ')"; echo 'printf "%s\n" "$@"; exit 3'; } >out/$name
chmod +x out/$name
"""
PLAIN = ("sh awk cat cmp cp cut date dirname find flock grep head ln ls mkdir mv readlink rm rmdir sed setsid sha256sum sleep sort tail touch tr wc "
         "xargs").split()
builds = 0


def put(name, text):
    path = os.path.join("copy", name)
    os.makedirs(os.path.dirname(path), exist_ok=True)
    with open(path, "w") as file:
        file.write(text)


def calls():
    with open("calls") as file:
        return len(file.readlines())


def standard_error():
    with open("err") as file:
        return file.read()


def kept(*words):
    """What keep_program.sh of the copy says."""
    run = subprocess.run(["sh", "copy/tools/lib/keep_program.sh", *words], capture_output=True, text=True)
    return run.returncode, run.stdout


def ends(title, status, wanted, words=(os.path.join("copy", "os2run"),), **changes):
    """The wrapper, or another command, ends with that status, after so many builds in all. With status 3, the program's own, the words
    come out as they went in; where nothing was built in this case the standard error is empty."""
    global builds
    with open("out", "wb") as out, open("err", "wb") as err:
        got = subprocess.run(["setsid", "-w", *words, "one two", "", "-x"], stdin=subprocess.DEVNULL, stdout=out, stderr=err, env={**os.environ, **changes}).returncode
    with open("out") as file:
        console = file.read()
    well = got == status and calls() == wanted and (status != 3 or console == "one two\n\n-x\n")
    well = well and (calls() != builds or status == 70 or not standard_error())
    builds = calls()
    wants(title, well, f"status {got}, {builds} builds, {console!r}, {standard_error()!r}")


def says(text):
    wants(f"it says: {text}", text in standard_error(), standard_error())


def is_of(name, sources):
    """The program that is kept is one of these sources."""
    status, path = kept("path", name)
    text = open(path.strip()).read() if status == 0 else ""
    wants(f"the program {name} is of its sources", sources in text, text)


def prepare():
    for folder in ("bin", "plain"):
        os.mkdir(folder)
    put("crates.txt", "# crates\nbeside: low\nos2run: low clap\nlow:\nos2why: beside\n")
    for name in ("low/src/lib.rt", "low/specs/Lib.antt", "beside/src/lib.rt", "os2run/src/main.rt", "os2why/src/main.rt"):
        put(f"crates/{name}", "one\n")
    os.makedirs("copy/tools/lib")
    for name in ("os2run", "os2why", "tools/lib/program.sh", "tools/lib/watched.sh", "tools/lib/keep_program.sh"):
        shutil.copy(os.path.join(ROOT, name), os.path.join("copy", name))
    with open("bin/rt", "w") as file:
        file.write(RT)
    os.chmod("bin/rt", 0o755)
    for name in PLAIN:
        os.symlink(shutil.which(name), os.path.join("plain", name))
    os.environ["PATH"] = os.path.abspath("bin") + os.pathsep + os.environ["PATH"]
    open("calls", "w").close()


def untouched():
    """What isn't of the program's sources builds nothing."""
    root = os.path.abspath("copy")
    with open("meanwhile", "w") as file:
        file.write("proving low\n")
    ends("the first run builds", 3, 1)
    os.remove("meanwhile")
    says(f"os2run: proving low, crate 1 of 2; 0 min; see {root}/build/log")
    ends("the second doesn't", 3, 1)
    for name in ("crates/low/src/lib.rt", "crates.txt", "crates/os2run/src/main.rt"):
        os.utime(os.path.join("copy", name))
    ends("files that were touched", 3, 1)
    os.symlink("copy/os2run", "link")
    os.symlink("../link", "bin/os2run")
    ends("through a link", 3, 1, ("./link",))
    ends("through a link on the PATH", 3, 1, ("os2run",))
    ends("by the shell", 3, 1, ("sh", "copy/os2run"))
    put("crates/beside/src/lib.rt", "two\n")
    put("crates.txt", "# other words\nbeside:\n\nlow:\nnew: low\nos2run: low clap\nos2why: beside\n")
    ends("an edit in a crate beside", 3, 1)
    put("crates/low/out/any.rt", "two\n")
    put("crates/low/must-fail/any.edit", "two\n")
    ends("files that no proof reads", 3, 1)
    shutil.rmtree("copy/crates/os2run/out")
    ends("after what rt built has gone", 3, 1)
    ends("without rt", 3, 1, PATH=os.path.abspath("plain"))


def changed():
    """What is of its sources builds it, once for each of their texts."""
    root = os.path.abspath("copy")
    put("crates/low/src/lib.rt", "two\n")
    ends("an edit in a crate below", 3, 2)
    is_of("os2run", "two one")
    put("crates/low/src/lib.rt", "one\n")
    ends("the edit taken back", 3, 2)
    is_of("os2run", "one one")
    put("crates/low/src/lib.rt", "two\n")
    ends("the edit made again", 3, 2)
    os.rename("copy/crates/low/specs/Lib.antt", "copy/crates/low/specs/Other.antt")
    ends("a file of another name", 3, 3)
    os.rename("copy/crates/low/specs/Other.antt", "copy/crates/low/specs/Lib.antt")
    put("crates/low/src/lib.rt", "bad\n")
    ends("a build that fails", 70, 4)
    says(f"os2run: the build failed. The last lines of {root}/build/log:")
    says("error: bad is no word")
    ends("a build that fails again", 70, 5)
    put("crates/low/src/lib.rt", "changing\n")
    ends("a source that changes meanwhile", 70, 6)
    says("a source changed while the program was built")
    put("crates/low/src/lib.rt", "changing\n")
    open("still", "w").close()
    ends("that source as it was before", 3, 7)
    os.remove("still")
    put("crates/low/src/lib.rt", "three\n")
    ends("no rt to build with", 70, 7, PATH=os.path.abspath("plain"))
    says("os2run: building wants the command rt of the Rattle toolchain on the PATH")


def gate():
    """As the gate does it, where rt ci has built the programs; and a program beside, two builds at once, and no links."""
    status, sums = kept("sums")
    wants("a sum of each program", status == 0 and [line.split()[0] for line in sums.splitlines()] == ["os2run", "os2why"], sums)
    with open("copy/crates/os2run/out/os2run") as one:
        put("crates/os2why/out/os2why", one.read())
    os.chmod("copy/crates/os2why/out/os2why", 0o755)
    wants("programs that rt ci built are kept", kept("keep", sums.strip())[0] == 0, sums)
    ends("a program that rt ci built", 3, 7)
    ends("another that rt ci built", 3, 7, ("copy/os2why",))
    put("crates/low/src/lib.rt", "four\n")
    wants("a program of other sources isn't kept", kept("keep", sums.strip())[0] == 1, sums)
    with open("meanwhile", "w") as file:
        file.write("another build\n")
    first = subprocess.Popen(["copy/os2run"], stdin=subprocess.DEVNULL, stdout=subprocess.DEVNULL, stderr=subprocess.DEVNULL)
    for _ in range(600):
        if calls() == 8:
            break
        time.sleep(0.1)
    ends("two at once build once", 3, 8)
    says("another build is under way here")
    first.wait()
    os.remove("meanwhile")
    put("crates/beside/src/lib.rt", "three\n")
    put("crates/os2why/src/main.rt", "why\n")
    ends("a program beside is built by its own word", 3, 9, ("copy/os2why",))
    is_of("os2why", "why")
    ends("and only where it is of other sources", 3, 9, ("copy/os2why",))
    ends("which builds os2run no more", 3, 9)
    wants("keep_program.sh builds none that is there", kept("build", "os2why") == kept("path", "os2why"), kept("build", "os2why"))
    for words in ((), ("sum",), ("path",), ("path", "os2"), ("keep",), ("sums", "more")):
        wants(f"keep_program.sh {' '.join(words)}", kept(*words)[0] == 2, kept(*words))
    # rt refuses a repository with links in it
    links = [os.path.join(folder, name) for folder, below, names in os.walk("copy") for name in below + names if os.path.islink(os.path.join(folder, name))]
    wants("no links are left", not links, links)


def whole():
    prepare()
    for part in (untouched, changed, gate):
        part()


if __name__ == "__main__":
    trying.frame("wrapper", __doc__, {"all": whole})
