#!/usr/bin/env python3
"""Reads a report and prints who can reach what, by its lines alone: for each process and selector that it holds how often it holds it,
and since which line, by what. A process reaches a segment by a selector as long as the lines of its holds outnumber those of its
drops, and by none after the line of its end.
"""
import os
import re
import sys

sys.dont_write_bytecode = True
sys.path.insert(0, os.path.join(os.path.dirname(os.path.realpath(__file__)), "lib"))
import command

MOVE = re.compile(r"(\d+) (hold|drop) ([0-9A-F]{4}) by (\S+)$")
END = re.compile(r"(\d+) end (exit \d+|trap \d+ at [0-9A-F]{4}:[0-9A-F]{4})$")


class Refused(Exception):
    pass


def spans(lines):
    """What was held, in the order in which it came: process, selector, holds, the line from which on it is held and its cause, and
    the line at which it went and its cause, or None."""
    held, over = {}, []
    for number, line in enumerate(lines, 1):
        move, end = MOVE.match(line), END.match(line)
        if move:
            key = int(move[1]), int(move[3], 16)
            if move[2] == "hold":
                holds, since, cause = held.get(key, (0, number, move[4]))
                held[key] = holds + 1, since, cause
                continue
            if key not in held:
                raise Refused(f"line {number}: process {move[1]} holds nothing under {move[3]}: {line}")
            holds, since, cause = held.pop(key)
            if holds > 1:
                held[key] = holds - 1, since, cause
            else:
                over.append((*key, 0, since, cause, number, move[4]))
        elif end:
            process = int(end[1])
            for key in [key for key in held if key[0] == process]:
                _, since, cause = held.pop(key)
                over.append((*key, 0, since, cause, number, "its end"))
    return sorted(over + [(*key, *value, None, None) for key, value in held.items()], key=lambda row: (row[0], row[1], row[3]))


def told(rows, is_all):
    yield "process  selector  holds  from line  by"
    for process, selector, holds, since, cause, until, how in rows:
        if until is None:
            yield f"{process:7}      {selector:04X}  {holds:5}  {since:9}  {cause}"
        elif is_all:
            yield f"{process:7}      {selector:04X}      -  {since:9}  {cause}, to line {until} by {how}"


def main():
    words = command.parser("tools/reach.py", __doc__)
    words.add_argument("report", metavar="REPORT", help="a report of os2run")
    words.add_argument("--at", type=command.number(0, 10**9), metavar="LINE", help="as it was after that line, in place of the last one")
    words.add_argument("--all", action="store_true", help="what was held and isn't any more, too: until which line, and by what it went")
    given = words.parse_args()
    try:
        with open(given.report, encoding="latin-1", newline="\n") as file:
            lines = file.read().split("\n")
        rows = list(told(spans(lines[: given.at]), given.all))
    except (OSError, Refused) as error:
        return f"tools/reach.py: {given.report}: {error.strerror if isinstance(error, OSError) else error}"
    print("\n".join(rows))
    return 0


if __name__ == "__main__":
    command.end(main)
