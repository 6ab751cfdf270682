"""Processes among others and alone: each step of a process that keeps to itself is the step that it does in its run alone."""
import os
import re
import shutil
import subprocess

import trying
from trying import BENCHES, EXAMPLES, program, said, wrong

SETTING = "memory = {}\nswap = 16384\nsegments = 2048\nbudget = 1000000\nquantum = {}\nmodules = [{}]\n"


def bench_file():
    """The executable of a bench, from the text of its tests, in which `00*3A` is so many bytes in a row."""
    with open(os.path.join(BENCHES, "src", "bench.rt")) as file:
        text = re.search(r'static FILE: &str = "\n(.*?)"', file.read(), re.S)[1]
    rows = (word.partition("*") for word in text.split())
    return b"".join(bytes([int(byte, 16)]) * int(count or "1", 16) for byte, _, count in rows)


def machine(memory, quantum, programs):
    """Writes a machine file over these programs, each of which is a file and the name of its module."""
    files = ", ".join(f'"{file}"' for file in dict.fromkeys(file for file, _ in programs))
    with open("alone.toml", "w") as file:
        file.write(SETTING.format(memory, quantum, files) + "".join(f'[[process]]\nmodule = "{name}"\n' for _, name in programs))
    return "alone.toml"


def status(memory, quantum, programs):
    """The status of a run; the report and what is said behind it go nowhere."""
    return subprocess.run([program("os2run"), "run", machine(memory, quantum, programs)], stdin=subprocess.DEVNULL,
                          stdout=subprocess.DEVNULL, stderr=subprocess.DEVNULL).returncode


def least(quantum, programs):
    """The least memory in which these processes come to their end."""
    low, high = 0, 65_536
    while high - low > 1:
        middle = (low + high) // 2
        low, high = (low, middle) if status(16 * middle, quantum, programs) == 0 else (middle, high)
    return 16 * high


def events(memory, quantum, programs):
    """The steps of each process, with the console's pieces and the report's lines, whatever number the process has."""
    code, text = said("os2trace", "run", machine(memory, quantum, programs))
    if code:
        wrong(f"os2trace over {programs} in {memory} bytes: status {code}")
    own, last = {}, None
    for line in text.splitlines():
        of = re.match(r"(\| )?(\d+) (.*)", line)
        if of:
            last = of[2]
            own.setdefault(last, []).append((of[1], of[3]))
        elif line.startswith("> "):
            own[last].append(line)
    return own


def check_alone():
    """Benches of several processes and unrelated programs, in ample memory and in the least: each process among the others and alone."""
    with open("bench.exe", "wb") as file:
        file.write(bench_file())
    for path in ("hello.exe", "segments.exe", "memory/rounds.exe", "memory/exact.exe", "processes/mine.exe"):
        shutil.copy(os.path.join(EXAMPLES, path), ".")
    bench, hello, segments = ("bench.exe", "BENCH"), ("hello.exe", "HELLO"), ("segments.exe", "SEGMENTS")
    rounds, exact = ("rounds.exe", "ROUNDS"), ("exact.exe", "EXACT")
    for quantum, programs in ((7, [bench] * 4), (1, [bench, hello]), (1, [rounds, segments]), (3, [segments, exact, rounds, hello])):
        small = least(quantum, programs)
        for memory in (1_048_576, small):
            among = events(memory, quantum, programs)
            for number, one in enumerate(programs, 1):
                trying.count()
                alone = events(memory, quantum, [one])
                if among[str(number)] != alone["1"]:
                    wrong(f"process {number} of {programs} in {memory} bytes: its steps aren't those of its run alone")
        trying.count()
        if status(small - 16, quantum, programs) not in (8, 9):
            wrong(f"{programs}: {small} bytes aren't the least memory")
    # a program that tells its number is seen, for the number is another one here
    mine = ("mine.exe", "MINE")
    trying.count()
    if events(1_048_576, 1, [mine, mine])["2"] == events(1_048_576, 1, [mine])["1"]:
        wrong("a process that tells its number goes for one with another number")
