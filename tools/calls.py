#!/usr/bin/env python3
"""Prints the table of OS/2 1.x's calls, tools/lib/calls.toml: module, ordinal, name, the words of the arguments on the stack, the source of
the row, which that file tells, and `here` if the machine has the call. A call without a row isn't known here with certainty.
"""
import functools
import os
import sys
import tomllib

sys.dont_write_bytecode = True
sys.path.insert(0, os.path.join(os.path.dirname(os.path.realpath(__file__)), "lib"))
import command


@functools.cache
def read():
    with open(os.path.join(command.ROOT, "tools", "lib", "calls.toml"), "rb") as file:
        found = tomllib.load(file)
    return found.pop("here"), found


def table():
    """The rows by module and name."""
    return read()[1]


def here():
    """The calls of DOSCALLS that the machine has, in groups: what each is for, and its names."""
    return [(group["what"], group["calls"]) for group in read()[0]]


def name_of(module, ordinal):
    """The name of an ordinal, or None where it isn't known."""
    return next((name for name, row in table().get(module.upper(), {}).items() if row["ordinal"] == ordinal), None)


def main():
    words = command.parser("tools/calls.py", __doc__)
    words.add_argument("modules", nargs="*", metavar="MODULE", help=f"{', '.join(table())}; all where none is named")
    given = [word.upper() for word in words.parse_args().modules]
    for module in given:
        if module not in table():
            words.error(f"there is no table of {module}")
    built = {("DOSCALLS", name) for _, names in here() for name in names}
    print("module    ordinal  name                  words  source")
    for module in given or table():
        for name, row in sorted(table()[module].items(), key=lambda it: it[1]["ordinal"]):
            print(f"{module:<9} {row['ordinal']:7}  {name:<20}  {row['words']:5}  {row['source']}" + ("  here" if (module, name) in built else ""))
    return 0


if __name__ == "__main__":
    command.end(main)
