#!/usr/bin/env python3
"""Writes the list of the calls that the machine has into the pages that show it, from the one table tools/lib/calls.toml. Without `write` it
only says whether they show that list, and whether the table of docs/machine.md has those calls with their ordinals and words.

A page has the list between a line <!-- calls --> and the end of the block below it; a manual page after a line .\\" calls, up to .\\" end.
"""
import os
import re
import sys

sys.dont_write_bytecode = True
sys.path[:0] = [os.path.join(os.path.dirname(os.path.realpath(__file__)), "..", room) for room in ("lib", ".")]
import calls
import command

PAGES = ("README.md", "docs/guide/five-minutes.md", "docs/man/os2run.1")
SERVICES = "docs/machine.md"


def rows():
    """The rows of the list, each with its stop."""
    told = [(f"{what}: " if what else "") + ", ".join(names) for what, names in calls.here()]
    return [row + (";" if row != told[-1] else ".") for row in told]


def listed(text):
    """A page with its list as it should be, and how many lists it has."""
    text, pages = re.subn(r"(<!-- calls -->\n\n)(?:- .*\n)*", lambda found: found[1] + "".join(f"- {row}\n" for row in rows()), text)
    text, manuals = re.subn(r'(?s)(\n\.\\" calls\n).*?(\n\.\\" end\n)', lambda found: found[1] + "\n.br\n".join(rows()) + found[2], text)
    return text, pages + manuals


def services():
    """What is wrong with the table of docs/machine.md, or nothing."""
    with open(os.path.join(command.ROOT, SERVICES), encoding="utf-8") as file:
        found = re.findall(r"(?m)^\| (Dos\w+)\((.*?)\) \| (\d+) \| (\d+) \|", file.read())
    known = calls.table()["DOSCALLS"]
    wanted = [(name, str(known[name]["ordinal"]), str(known[name]["words"])) for _, names in calls.here() for name in names]
    return None if [(name, ordinal, words) for name, _, ordinal, words in found] == wanted else f"{SERVICES}: the table of services doesn't have these calls in this order: {wanted}"


def main():
    words = command.parser("tools/make/lists.py", __doc__)
    words.add_argument("what", nargs="?", choices=["write"], metavar="write", help="writes the lists")
    given = words.parse_args()
    wrong = [services()]
    for page in PAGES:
        with open(os.path.join(command.ROOT, page), encoding="utf-8") as file:
            text = file.read()
        now, count = listed(text)
        if count != 1:
            wrong.append(f"{page}: it has {count} places for the list")
        elif now != text and given.what:
            with open(os.path.join(command.ROOT, page), "w", encoding="utf-8") as file:
                file.write(now)
        elif now != text:
            wrong.append(f"{page}: it shows another list: tools/make/lists.py write")
    wrong = list(filter(None, wrong))
    print("\n".join(wrong) or f"lists: {len(PAGES)} are {'written' if given.what else 'as the table has them'}")
    return 1 if wrong else 0


if __name__ == "__main__":
    command.end(main)
