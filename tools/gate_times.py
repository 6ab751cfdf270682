#!/usr/bin/env python3
"""Runs the gate, or another command, and prints the minutes of the processor that each crate took: its proof, the proof of its tests and
its edits that must fail. What the command prints goes on to the standard output, and after it comes the table; the status is the
command's. Times are read once a second from /proc, so a check that ends sooner isn't counted.
"""
import argparse
import os
import re
import shutil
import subprocess
import sys
import threading
import time

sys.dont_write_bytecode = True
sys.path.insert(0, os.path.join(os.path.dirname(os.path.realpath(__file__)), "lib"))
import command

PARTS = ("proof", "tests", "edits")
TICKS = os.sysconf("SC_CLK_TCK")


def children(root):
    """The processes below one, with the fields of their /proc/PID/stat after the name."""
    found, parents = {}, {}
    for name in os.listdir("/proc"):
        if name.isdigit():
            try:
                with open(f"/proc/{name}/stat") as file:
                    fields = file.read().rpartition(")")[2].split()
            except OSError:
                continue
            found[int(name)], parents[int(name)] = fields, int(fields[1])
    below = {root}
    for _ in range(8):
        below |= {pid for pid, parent in parents.items() if parent in below}
    return {pid: found[pid] for pid in below if pid in found}


def what(pid):
    """The crate that a process checks, and the part of the gate; none where it is no check."""
    try:
        with open(f"/proc/{pid}/cmdline", "rb") as file:
            words = file.read().decode(errors="replace").split("\0")
        folder = os.readlink(f"/proc/{pid}/cwd")
    except OSError:
        return None
    if "--crate-name" not in words[:-1]:
        return None
    crate = words[words.index("--crate-name") + 1]
    if re.search(r"/rt-edits?-", folder) or any(re.search(r"/rt-edits-", word) for word in words):
        return crate, "edits"
    return crate, "tests" if "--test" in words else "proof"


def watch(root, over, spent):
    """Notes the time of each check below a process, until the event comes."""
    names = {}
    while not over.wait(1):
        for pid, fields in children(root).items():
            key = pid, fields[19]
            if not names.get(key):
                names[key] = what(pid)
            if names[key]:
                spent[key] = (*names[key], (int(fields[11]) + int(fields[12])) / TICKS)


def table(spent):
    rows = {}
    for crate, part, seconds in spent.values():
        rows.setdefault(crate, dict.fromkeys(PARTS, 0))[part] += seconds
    print(f"{'minutes of the processor':<28}" + "".join(f"{part:>8}" for part in (*PARTS, "all")))
    for crate, row in sorted(rows.items(), key=lambda it: -sum(it[1].values())):
        print(f"{crate:<28}" + "".join(f"{row[part] / 60:>8.1f}" for part in PARTS) + f"{sum(row.values()) / 60:>8.1f}")
    sums = [sum(row[part] for row in rows.values()) for part in PARTS]
    print(f"{'all':<28}" + "".join(f"{each / 60:>8.1f}" for each in (*sums, sum(sums))))


def main():
    parser = command.parser("tools/gate_times.py", __doc__)
    parser.add_argument("command", nargs=argparse.REMAINDER, metavar="COMMAND ..", help="`rt ci` where there is none, as: tools/gate_times.py rt ci o2_base")
    words = parser.parse_args().command
    if not words and not shutil.which("rt"):
        return "tools/gate_times.py: it wants the command rt of the Rattle toolchain on the PATH"
    begun, over, spent = time.monotonic(), threading.Event(), {}
    try:
        run = subprocess.Popen(words or ["rt", "ci"])
    except OSError as why:
        return f"tools/gate_times.py: {words[0]} can't be run: {why.strerror}"
    watcher = threading.Thread(target=watch, args=(run.pid, over, spent))
    watcher.start()
    try:
        status = run.wait()
    finally:
        over.set()
        watcher.join()
    table(spent)
    print(f"from its start to its end: {(time.monotonic() - begun) / 60:.1f} minutes")
    return status


if __name__ == "__main__":
    command.end(main)
