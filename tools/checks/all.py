#!/usr/bin/env python3
"""Runs the checks that the gate makes behind `rt ci`, side by side, and prints what each said as it ends; the table behind them has the last
line and the seconds of each. The status is 1 where one fails.

The environment names other programs to try, as OS2RUN and OS2WHY.
"""
import os
import subprocess
import sys
import tempfile
import threading
import time

sys.dont_write_bytecode = True
sys.path.insert(0, os.path.join(os.path.dirname(os.path.realpath(__file__)), "..", "lib"))
import command

# Each check, and those of its parts that run apart; the longest first. Nothing that one writes is read by another.
CHECKS = (
    ("dumps", "examples"), ("dumps", "damage"), ("dumps", "calls"), ("dumps", "stops"), ("programs", "why"), ("memory", "rows"), ("memory", "examples"), ("memory", "sharing"), ("memory", "calls"), ("memory", "heaps"), ("memory", "discards"),
    ("programs", "replay"), ("programs", "list"), ("programs", "vectors"), ("programs", "trace"), ("programs", "writes"), ("programs", "core"), ("programs", "alone"),
    ("memory", "random", "full", "swap"), ("tools",), ("refusals",), ("streams",), ("programs", "ends", "pages"), ("pages",), ("examples",), ("wrapper",), ("terminal",),
)


class Run:
    """A check with its parts, what it said, and how long it took."""

    def __init__(self, words):
        self.words, self.said, self.seconds, self.status = words, "", 0, None

    def take(self):
        begun = time.monotonic()
        path = os.path.join(command.ROOT, "tools", "checks", self.words[0] + ".py")
        with tempfile.TemporaryFile() as out:
            self.status = subprocess.run([sys.executable, path, *self.words[1:]], stdin=subprocess.DEVNULL, stdout=out, stderr=out).returncode
            out.seek(0)
            self.said = out.read().decode(errors="replace")
        self.seconds = time.monotonic() - begun

    def row(self):
        last = (self.said.splitlines() or ["it said nothing"])[-1]
        how = "ok" if self.status == 0 else f"FAILED, status {self.status}"
        return f"{self.seconds:6.0f} s  {' '.join(self.words):<34} {how}: {last}"


def main():
    words = command.parser("tools/checks/all.py", __doc__)
    words.add_argument("--jobs", type=command.number(1, 64), default=len(os.sched_getaffinity(0)), metavar="N", help="how many run at once; as many as there are processors where it isn't given")
    words.add_argument("checks", nargs="*", metavar="CHECK", help=f"{', '.join(sorted({check[0] for check in CHECKS}))}; all where none is named")
    given = words.parse_args()
    for name in given.checks:
        if name not in {check[0] for check in CHECKS}:
            words.error(f"there is no check {name}")
    # what they try is built before, one program after the other
    for name in command.PROGRAMS:
        if not command.program(name):
            return 1
    runs = [Run(check) for check in CHECKS if not given.checks or check[0] in given.checks]
    waiting, lock, begun = list(runs), threading.Lock(), time.monotonic()

    def work():
        while True:
            with lock:
                if not waiting:
                    return
                run = waiting.pop(0)
            run.take()
            with lock:
                lines = run.said.splitlines()[:-1]
                print("\n".join([*lines, run.row()]), flush=True)

    threads = [threading.Thread(target=work) for _ in range(given.jobs)]
    for each in threads:
        each.start()
    for each in threads:
        each.join()
    failed = [run for run in runs if run.status]
    print(f"checks: {len(runs)} in {time.monotonic() - begun:.0f} s, {len(failed)} failed" + "".join(f"; {' '.join(run.words)}" for run in failed))
    return 1 if failed else 0


if __name__ == "__main__":
    command.end(main)
