#!/usr/bin/env python3
"""Takes the pictures of memory in the lessons from the machine: each file examples/*/NAME.layout, of which `tools/picture.py memory` draws one,
is what core images show of a run that ends at the steps which it names.

A layout begins with `of FILE`, a machine file of one process beside it. After `after step N in M bytes` it has a line for each selector
that the process holds then: the size of its segment, and where that is. The image is what `dump` gives of FILE with N as its budget.
(OS2RUN in the environment names another program.)
"""
import glob
import os
import re
import shutil
import subprocess
import sys
import tempfile

sys.dont_write_bytecode = True
sys.path[:0] = [os.path.join(os.path.dirname(os.path.realpath(__file__)), "..", room) for room in ("lib", ".")]
import command
import core_image


class Refused(Exception):
    """Why nothing is drawn of a layout."""


def image(folder, name, steps):
    """The core image of a machine file after so many steps."""
    with open(os.path.join(folder, name)) as file:
        text, count = re.subn(r"(?m)^budget = \d+", f"budget = {steps}", file.read())
    if count != 1:
        raise Refused(f"{name} has {count} lines of a budget")
    with tempfile.TemporaryDirectory() as work:
        place = os.path.join(work, "files")
        shutil.copytree(folder, place)
        with open(os.path.join(place, "ended.toml"), "w") as file:
            file.write(text)
        run = subprocess.run([command.program(), "dump", "ended.toml"], cwd=place, stdin=subprocess.DEVNULL, capture_output=True)
    if run.returncode:
        raise Refused(f"{name} with a budget of {steps}: status {run.returncode}, {run.stderr.decode('latin-1')!r}")
    core = core_image.Read(run.stdout)
    if core.steps != steps or len(core.processes) != 1:
        raise Refused(f"{name} takes {core.steps} steps in {len(core.processes)} processes, and not {steps} in one")
    return core


def where(entry):
    """Where a segment is, in the words of the lessons."""
    if entry.place is None:
        return "discarded" if entry.gone else "all zeros"
    return {"image": "not loaded", "memory": f"at {entry.place[1]}", "swap": "in blocks"}[entry.place[0]]


def moment(folder, name, steps):
    """The lines of one moment."""
    core = image(folder, name, steps)
    yield f"after step {steps} in {core.size} bytes"
    ((_, _, _, entries),) = core.processes.values()
    for index, (_, _, _, number, _) in entries.items():
        entry = core.segments[number]
        yield f"{8 * index + 7:04X} {entry.size} {where(entry)}"


def layout(path):
    """What a file says, and what it has to say."""
    with open(path) as file:
        text = file.read()
    of = re.match(r"of (\S+)\n", text)
    steps = [int(number) for number in re.findall(r"(?m)^after step (\d+) in ", text)]
    if not of or not steps:
        raise Refused("it doesn't say of which machine file it is, or after which steps")
    lines = [f"of {of[1]}"]
    for number in steps:
        lines += moment(os.path.dirname(path), of[1], number)
    return text, "".join(line + "\n" for line in lines)


def main():
    words = command.parser("tools/make/layouts.py", __doc__)
    words.add_argument("files", metavar="FILE", nargs="*", help="the layouts, NAME.layout, with `write` before them to write them anew; all where none is named")
    given = words.parse_args().files
    is_written = given[:1] == ["write"]
    given = given[1:] if is_written else given
    for name in given:
        if not name.endswith(".layout"):
            words.error(f"{name} is no layout, NAME.layout")
    if not command.program():
        return 1
    failed, paths = 0, [os.path.abspath(name) for name in given] or sorted(glob.glob(os.path.join(command.ROOT, "examples", "*", "*.layout")))
    for path in paths:
        name = os.path.relpath(path)
        try:
            text, wanted = layout(path)
        except (Refused, core_image.Refused, OSError) as why:
            print(f"{name}: {why}")
            failed = 1
            continue
        if text != wanted and is_written:
            with open(path, "w") as file:
                file.write(wanted)
        elif text != wanted:
            print(f"{name} isn't what the images show: tools/make/layouts.py write")
            failed = 1
    if not failed:
        print(f"layouts: {len(paths)} are {'written' if is_written else 'as the images show'}")
    return failed


if __name__ == "__main__":
    command.end(main)
