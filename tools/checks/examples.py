#!/usr/bin/env python3
"""Runs each example, and compares its console, its report and its exit status byte for byte with what they must be.

In examples/ and the folders in it an example is NAME.exe, made from NAME.lst, and from NAME.asm by nasm, or a machine file NAME.toml, beside NAME.report; NAME.input is
what it reads, NAME.console its console (none: nothing) and NAME.status its status (none: 0). A library is NAME.dll. NAME.check is what `check`
writes of NAME.toml. What the pages show is compared, too.

OS2RUN in the environment names another program to try, for example one of a package.
"""
import glob
import os
import shutil
import subprocess
import sys
import tempfile

sys.dont_write_bytecode = True
sys.path.insert(0, os.path.join(os.path.dirname(os.path.realpath(__file__)), "..", "lib"))
import command
import trying
from trying import EXAMPLES, ROOT, TOOLS, program, wants, wrong
import ne


def content(path, other=b""):
    """The bytes of a file, or others where there is none."""
    if not os.path.exists(path):
        return other
    with open(path, "rb") as file:
        return file.read()


def names(folder, kind):
    """The names of a folder's files of a kind, without it."""
    return sorted(os.path.splitext(path)[0] for path in glob.glob(os.path.join(folder, "*." + kind)))


def listed(folder):
    """Each listing makes its executable, and each executable and machine file has a report, or a machine file that names it."""
    for name in names(folder, "lst"):
        file = name + (".dll" if os.path.exists(name + ".dll") else ".exe")
        wants(f"{file} is what its listing makes", ne.Listing(ne.text_of(name + ".lst")).file() == content(file))
    machines = [content(name + ".toml").decode() for name in names(folder, "toml")]
    for kind in ("exe", "toml"):
        for name in names(folder, kind):
            quoted = f'"{os.path.basename(name)}.{kind}"'
            wants(f"{name}.{kind} has a report", os.path.exists(name + ".report") or any(quoted in text for text in machines))


def assembled(folder):
    """Each assembler source beside a listing makes the same executable, where nasm is installed."""
    for name in names(folder, "asm") if shutil.which("nasm") else []:
        if not os.path.exists(name + ".lst") or b";@ module" not in content(name + ".asm"):
            continue
        made = subprocess.run(["nasm", "-f", "bin", "-l", "made.lst", "-o", "made.bin", name + ".asm"], capture_output=True, text=True)
        try:
            file = ne.Listing(ne.text_of("made.lst")).file()
        except ne.Refused as why:
            file = str(why)
        wants(f"{name}.asm", made.returncode == 0 and file == content(name + (".dll" if os.path.exists(name + ".dll") else ".exe")), made.stderr or file[:200])


def run(folder):
    """Each example of a folder, which is a copy, so that none leaves anything in the checkout."""
    for name in names(folder, "report"):
        if name.endswith((".exe", ".toml")):
            continue  # (what tools/run.py wrote)
        words = ["run", f"{os.path.basename(name)}.toml"] if os.path.exists(name + ".toml") else ["exe", f"{os.path.basename(name)}.exe"]
        made = subprocess.run([program(), *words], cwd=folder, input=content(name + ".input"), capture_output=True)
        wanted = int(content(name + ".status", b"0")), content(name + ".console"), content(name + ".report")
        wants(name, (made.returncode, made.stdout, made.stderr) == wanted, f"status {made.returncode}, {made.stdout!r}, {made.stderr.decode('latin-1')}")
    for name in names(folder, "check"):
        made = subprocess.run([program(), "check", os.path.basename(name) + ".toml"], cwd=folder, stdin=subprocess.DEVNULL, capture_output=True)
        wants(f"a check of {name}", (made.returncode, made.stdout, made.stderr) == (0, content(name + ".check"), b""), made)


def pages():
    """What the pages show, and what core images show of memory."""
    where = {**os.environ, "OS2RUN": program()}
    for words in (["make/layouts.py"], ["picture.py", "pages"]):
        made = subprocess.run([sys.executable, os.path.join(TOOLS, words[0]), *words[1:]], env=where, capture_output=True, text=True)
        wants(" ".join(words), made.returncode == 0, made.stdout + made.stderr)
    shown = "".join("    " + line if line.strip() else line for line in content(os.path.join(EXAMPLES, "template.toml")).decode().splitlines(True))
    told = [page for page in ("README.md", *sorted(glob.glob(os.path.join(ROOT, "docs", "**", "*.md"), recursive=True))) if shown in content(os.path.join(ROOT, page)).decode()]
    wants("a page shows examples/template.toml as it is", told, "none does")
    inside = os.path.join(ROOT, "crates", "os2run", "data", "hello.exe")
    wants("hello.exe is that of os2run's crate", content(inside) == content(os.path.join(EXAMPLES, "hello.exe")))


def main():
    words = command.parser("tools/checks/examples.py", __doc__)
    words.add_argument("folders", nargs="*", metavar="FOLDER", help="folders in examples/ to try, as `memory`, or `.`; all where none is named")
    chosen = words.parse_args().folders
    for name in chosen:
        if not os.path.isdir(os.path.join(EXAMPLES, name)):
            words.error(f"there is no folder examples/{name}")
    program()
    with tempfile.TemporaryDirectory() as work:
        copy = os.path.join(work, "examples")
        shutil.copytree(EXAMPLES, copy)
        os.chdir(work)
        folders = [os.path.normpath(os.path.join("examples", name)) for name in chosen] or ["examples", *sorted(glob.glob("examples/*/"))]
        for folder in folders:
            if not glob.glob(os.path.join(folder, "*")):
                wrong(f"{folder} is empty")
            listed(folder)
            assembled(folder)
            run(folder)
        os.chdir(ROOT)
    pages()
    if not shutil.which("nasm"):
        print("examples: nasm isn't installed, so no assembler source is tried")
    print(f"examples: {trying.tried} tried, {trying.failed} not as wanted")
    return 1 if trying.failed else 0


if __name__ == "__main__":
    command.end(main)
