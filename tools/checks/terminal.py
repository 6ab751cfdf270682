#!/usr/bin/env python3
"""Tries what a terminal shows of a run: how far it is, Ctrl-C, and Ctrl-D, by ./os2run and by tools/run.py. The wrapper is tried in a copy
of its own, with the present program; OS2RUN in the environment names another one."""
import os
import pty
import re
import select
import shutil
import signal
import subprocess
import sys
import time

sys.dont_write_bytecode = True
sys.path.insert(0, os.path.join(os.path.dirname(os.path.realpath(__file__)), "..", "lib"))
import trying
from trying import EXAMPLES, ROOT, TOOLS, program, wants

import ne

# A program that writes a line to the console, and then computes until its budget is spent.
BUSY = """module BUSY
stack 512
start 1:0000
segment 1 code
0000  6A 01 1E 6A 00 6A 03 1E 6A 06
000A  9A FF FF 00 00  call DosWrite @000B far DOSCALLS.138
000F  EB FE  jmp short 0xf
segment 2 data auto size=16
0000  68 69 0A
"""
MACHINE = """memory = 1_048_576
swap = 0
segments = 64
budget = 4_000_000_000
quantum = 1000
avail = 0
modules = ["busy.exe"]
[[process]]
module = "BUSY"
"""
LAST = "1 call DosWrite 0001 0017:0000 0003 0017:0006 = 0 0003"
REPORT = f"1 start BUSY\n1 hold 000F by load\n1 hold 0017 by load\n1 hold 001F by load\n{LAST}\n"


def at_terminal(words, keys=()):
    """Runs a command of the shell at a terminal of its own. Each of the keys is pressed where the test beside it holds of what the terminal
    has shown by then. Gives the status, and all that the terminal showed."""
    pid, terminal = pty.fork()
    if pid == 0:
        os.execvp("sh", ["sh", "-c", words])
    shown, keys, begun = "", list(keys), time.monotonic()
    while time.monotonic() - begun < 60:
        if keys and keys[0][0](shown):
            os.write(terminal, keys.pop(0)[1])
        if select.select([terminal], [], [], 0.05)[0]:
            try:
                more = os.read(terminal, 4096)
            except OSError:
                break
            shown += more.decode("latin-1")
    else:
        os.killpg(pid, signal.SIGKILL)
    status = os.waitstatus_to_exitcode(os.waitpid(pid, 0)[1])
    os.close(terminal)
    return status, shown


def content(name):
    with open(name, encoding="latin-1") as file:
        return file.read()


def shows(text):
    return lambda shown: text in shown


def reported(text, report):
    """Whether the terminal shows a text, and the report is whole."""
    return lambda shown: text in shown and content(report) == REPORT


def after(seconds):
    begun = time.monotonic()
    return lambda _: time.monotonic() - begun > seconds


def quiet(seconds):
    """Whether the terminal has shown nothing more for so long. Where a line were written over each second it never holds."""
    last = [None, 0]

    def holds(shown):
        if shown != last[0]:
            last[:] = shown, time.monotonic()
        return time.monotonic() - last[1] > seconds

    return holds


def plain(shown):
    """What a terminal showed, without the lines that were taken away again, and how many they were. A busy machine may show one where a
    program takes long to begin or to end."""
    return re.subn(r"\r\x1b\[K(?:(?:os2run|tools/run\.py): [0-9]+ s, [0-9]+ lines of the report, processes alive: [0-9]+(?=\r\x1b\[K))?", "", shown)


def prepare():
    """The files that are run, and a copy of the wrapper whose program is the present one."""
    # (what a shell begins in the background ignores Ctrl-C, and so would all that is tried here)
    signal.signal(signal.SIGINT, signal.default_int_handler)
    with open("busy.exe", "wb") as file:
        file.write(ne.Listing(BUSY).file())
    with open("busy.toml", "w") as file:
        file.write(MACHINE)
    for name in ("hello.exe", "echo.exe"):
        shutil.copy(os.path.join(EXAMPLES, name), name)
    os.makedirs("copy/crates/os2run/src")
    os.makedirs("copy/crates/os2run/out")
    os.makedirs("copy/build")
    os.makedirs("copy/tools/lib")
    for name in ("crates.txt", "crates/os2run/src/main.rt"):
        with open(os.path.join("copy", name), "w") as file:
            file.write("os2run:\n")
    shutil.copy(program(), "copy/crates/os2run/out/os2run")
    for name in ("os2run", *(f"tools/lib/{name}" for name in ("program.sh", "watched.sh", "keep_program.sh"))):
        shutil.copy(os.path.join(ROOT, name), os.path.join("copy", name))
    keeper = ["sh", "copy/tools/lib/keep_program.sh"]
    sums = subprocess.run([*keeper, "sums"], stdout=subprocess.PIPE, text=True).stdout.strip()
    wants("the copy has its program", subprocess.run([*keeper, "keep", sums]).returncode == 0, sums)
    os.environ["OS2RUN"] = os.path.abspath("copy/crates/os2run/out/os2run")


def interrupted(title, name, words, status, shown, first, report):
    """A run that Ctrl-C ends. `first` is what the terminal is to show before, and is waited for; behind it stands how far the run was."""
    got = at_terminal(words, [(first, b"\x03")])
    last = rf"\^C(\r\x1b\[K)?\r\n{name}: interrupted after [0-9]+ s" + (f"; the report ends with its line 5: {re.escape(LAST)}" if report else "") + r"\r\n"
    wants(title, got[0] == status and re.fullmatch(shown + last, got[1]), got)
    if report:
        wants(f"{title}: the report", content(report) == REPORT, content(report))


def progress(name):
    return rf"(\r\x1b\[K{re.escape(name)}: [0-9]+ s, [0-5] lines of the report, processes alive: [01])+"


def wrapper():
    """./os2run: a line on the terminal where nothing else goes there, and the end by Ctrl-C."""
    far, busy = shows("5 lines of the report, processes alive: 1"), "exec copy/os2run run busy.toml"
    interrupted("progress", "os2run", f"{busy} >console 2>report", -signal.SIGINT, progress("os2run"), far, "report")
    wants("progress: the console", content("console") == "hi\n", content("console"))
    interrupted("the console on the terminal", "os2run", f"{busy} 2>report", -signal.SIGINT, r"hi\r\n", reported("hi", "report"), "report")
    interrupted("the report on the terminal", "os2run", f"{busy} >console", -signal.SIGINT, re.escape(REPORT.replace("\n", "\r\n")), shows(LAST), None)
    got = at_terminal("copy/os2run exe hello.exe; echo $?")
    wants("a run that ends", got[1].startswith("hello1 start") or "hello" in got[1] and got[1].endswith("all ended\r\n0\r\n"), got)
    got = at_terminal("copy/os2run exe nothere.exe >console 2>report; echo $?")
    wants("a status", plain(got[1])[0] == f"{subprocess.run([program(), 'exe', 'nothere.exe'], capture_output=True).returncode}\r\n", got)
    for words, why in (("exe busy.toml", "exe busy.toml"), ("check hello.exe", "run hello.exe")):
        got = at_terminal(f"copy/os2run {words} >console 2>report; echo $?")
        status = subprocess.run([program(), *words.split()], capture_output=True).returncode
        wants(f"{words} is refused", status in (3, 4) and plain(got[1])[0] == f"os2run: copy/os2why {why} says why\r\n{status}\r\n", (status, got))
    got = at_terminal("rm report; copy/os2run run busy.toml 2>report & until grep -qs DosWrite report; do sleep 0.1; done; kill -TERM $!; wait $!; echo $?")
    wants("a signal", got[1] == "hi\r\n143\r\n", got)
    # without a terminal nothing but console and report
    with open("console", "wb") as console, open("report", "wb") as report:
        run = subprocess.Popen(["copy/os2run", "run", "busy.toml"], stdin=subprocess.DEVNULL, stdout=console, stderr=report, start_new_session=True)
        for _ in range(600):
            if content("report") == REPORT:
                break
            time.sleep(0.1)
        time.sleep(3)
        os.killpg(run.pid, signal.SIGINT)
        status = run.wait()
    wants("without a terminal", (status, content("console"), content("report")) == (-signal.SIGINT, "hi\n", REPORT), (status, content("console"), content("report")))


def tool():
    """tools/run.py: the line stands between lines of the console, too."""
    run = os.path.join(TOOLS, "run.py")
    far, busy = shows("5 lines of the report, processes alive: 1"), f"exec {sys.executable} {run} busy.toml"
    interrupted("tools/run.py: progress", "tools/run.py", f"{busy} >console", 130, progress("tools/run.py"), far, "busy.toml.report")
    wants("tools/run.py: the console", content("console") == "hi\n", content("console"))
    interrupted("tools/run.py: the console on the terminal", "tools/run.py", busy, 130, rf"({progress('tools/run.py')}\r\x1b\[K)?hi\r\n" + progress("tools/run.py"), far, "busy.toml.report")
    waited = after(4)
    got = at_terminal(f"{busy} 2>errors", [(lambda shown: waited(shown) and reported("hi", "busy.toml.report")(shown), b"\x03")])
    wants("tools/run.py: without the terminal", got == (130, "hi\r\n^C") and content("errors") == "", (got, content("errors")))
    got = at_terminal(f"exec {sys.executable} {run} hello.exe")
    wants("tools/run.py: a run that ends", (got[0], plain(got[1])[0]) == (0, "hello"), got)


def ends_of_input():
    """Ctrl-D ends the input. While the program waits for it, the terminal shows nothing more, or no key would be pressed."""
    run = os.path.join(TOOLS, "run.py")
    for title, words, wanted in (("./os2run", "copy/os2run exe echo.exe 2>report", "abc\r\nABC\r\n"), ("tools/run.py", f"{sys.executable} {run} echo.exe", "abc\r\nABC\r\n"),
                                 ("./os2run, the console in a file", "copy/os2run exe echo.exe >console 2>report", "abc\r\n")):
        got = at_terminal(f"exec {words}", [(quiet(3), b"abc\n"), (quiet(3), b"\x04")])
        wants(f"{title}: Ctrl-D", (got[0], plain(got[1])[0]) == (0, wanted), got)
    wants("the console in a file", content("console") == "ABC\n", content("console"))


def whole():
    prepare()
    for part in (wrapper, tool, ends_of_input):
        part()


if __name__ == "__main__":
    trying.frame("terminal", __doc__, {"all": whole})
