#!/usr/bin/env python3
"""Runs the commands of README and of the pages in docs, in a copy of the checkout, which must be as clean after each page as before it.

A command stands in an indented block. If it has a `$` before it, the lines below it are what it writes to a terminal; these are compared. Another
line of a block is a command if it begins with a word of the shell that pages use, as `cd` or `for`, or with the path of a program. In
the text a command stands in quotes and names a program by its path; it is run if it has no word in capitals to fill in. A command at the
end of a table's row must write something, and end with 0. The pictures of the lessons must be those that their commands make.

Blocks with the Pascal compiler are run if it stands where the page on it puts it, with what it needs. OS2RUN and the like in the
environment name other programs to try.
"""
import glob
import os
import re
import shutil
import subprocess
import sys

sys.dont_write_bytecode = True
sys.path.insert(0, os.path.join(os.path.dirname(os.path.realpath(__file__)), "..", "lib"))
import command
import trying
from trying import ROOT, program, wants, wrong

SKIPPED = re.compile(r"\bfpc\b|fpcsrc|cd /tmp/compiler|msg2inc|\./look\b|\.ci/run|tools/(?:planted|gate_times|make/package)\.py|\bapt\b|checks/|bench/|make/limits|vectors\.py suite")
PASCAL = "/tmp/compiler/ppcross8086"
COMMAND = re.compile(r"(?:cd|nasm|cat|cp|for|printf|mkdir|touch|sed|rm) |(?:cmp|grep) (?!byte|word)[-./]|/tmp/compiler/|tools/|\./|\.\./")
INLINE = re.compile(r"`((?:cd \S+ && )?(?:(?:\.\./)+|\./)?(?:(?<=/)os2\w+|tools/\w+\.py) [^`]*)`")
# A line of a page is run for this long at most, in seconds, which is enough for a loop over all programs on a busy machine.
LONGEST = 300
seen = {"compared": 0, "run": 0, "text": 0, "rows": 0, "pictures": 0}
TOP = None


def copied():
    """A copy of what the pages speak of, as a repository of its own. The programs in it are those that were built."""
    names = subprocess.run(["git", "-C", ROOT, "ls-files", "-z", "--cached", "--others", "--exclude-standard"], capture_output=True, text=True, check=True).stdout.split("\0")
    for name in names:
        if name and not name.startswith("crates/") and os.path.isfile(os.path.join(ROOT, name)):
            os.makedirs(os.path.dirname(os.path.join("copy", name)), exist_ok=True)
            shutil.copy(os.path.join(ROOT, name), os.path.join("copy", name))
    for name in command.PROGRAMS:
        # (the copy has no sources, so its tools are told too where the programs are)
        os.environ[name.upper()] = program(name)
        with open(os.path.join("copy", name), "w") as file:
            file.write(f'#!/bin/sh\nexec "{program(name)}" "$@"\n')
    global TOP
    os.chdir("copy")
    TOP = os.getcwd()
    for words in (["init", "-q"], ["add", "-A", "-f"], ["-c", "user.name=check", "-c", "user.email=check@localhost", "commit", "-q", "-m", "as it is"]):
        subprocess.run(["git", *words], check=True, stdout=subprocess.DEVNULL)


def parts(text):
    """A page as it is read: each paragraph as a text of one line, each indented block as a list of its lines."""
    found, told = [], []
    for line in text.splitlines() + [""]:
        if line.strip() and not line.startswith("    ") and not line.startswith("|"):
            told.append(line.strip())
        elif told:
            found.append(" ".join(told))
            told = []
        if line.startswith("    "):
            if found and isinstance(found[-1], list):
                found[-1].append(line[4:])
            else:
                found.append([line[4:]])
        elif not line.strip() and found and isinstance(found[-1], list):
            found[-1].append("")
    return found


def commands_of(block):
    """The commands of a block, each with the lines that it must write, or None if these aren't compared."""
    if any(line.startswith("$ ") for line in block):
        found = []
        for line in block:
            if line.startswith("$ "):
                found.append((line[2:], []))
            elif found:
                found[-1][1].append(line)
        return found
    return [(re.sub(r" {2,}# .*", "", line), None) for line in block if COMMAND.match(line)]


def run(words, folder):
    """Status, what a terminal shows, and the folder after a command."""
    script = f'cd "$1" || exit 99\n{words}\nstatus=$?\npwd >"$2"\nexit $status'
    where = os.path.join(TOP, "..", "where")
    made = subprocess.run(["sh", "-c", script, "sh", folder, where], stdin=subprocess.DEVNULL, stdout=subprocess.PIPE, stderr=subprocess.STDOUT, encoding="latin-1", timeout=LONGEST)
    with open(where) as file:
        return made.returncode, made.stdout, file.read().strip()


def lacking(words):
    """What a command wants that isn't on this machine, or None."""
    for name, pattern, is_there in (("nasm", r"nasm |\.asm", shutil.which("nasm")), (PASCAL, "/tmp/compiler/", os.path.exists(PASCAL))):
        if re.search(pattern, words) and not is_there:
            return name
    return None


def shown(text):
    """What is seen of a text: its lines without the blanks at their ends."""
    return [line.rstrip() for line in text.rstrip().split("\n")]


def is_asked(words):
    """Whether a command in the text has words to fill in."""
    return bool(re.search(r"(?<![\w.])[A-Z]{2,}(?![\w.])|\.\.$| \.\. ", words))


def groups(text):
    """The commands of a page, from its top on: those of a block, or of a paragraph, and whether it is a block."""
    for part in parts(text):
        is_block = isinstance(part, list)
        found = commands_of(part) if is_block else [(words, None) for words in INLINE.findall(part) if not is_asked(words)]
        yield is_block, [row for row in found if not SKIPPED.search(row[0])]


def tried(page, text):
    """The commands of a page, each in the folder that those of the blocks before it lead to. One that begins at the top says so by its paths."""
    folder, lacks = TOP, None
    for is_block, group in groups(text):
        for words, wanted in group:
            if lacking(words) and lacking(words) != lacks:
                lacks = lacking(words)
                print(f"pages: {page}: {lacks} isn't there, so what needs it isn't run")
            # (what wasn't made for want of it is wanted by the rest of the block, and by later ones)
            if lacking(words) or lacks and any("made/" in row[0] for row in group):
                break
            is_at_top = re.match(r"cd (?:examples|docs)\b|\./os2|\./look|tools/", words) or "examples/" in words and "../" not in words
            status, told, after = run(words, TOP if is_at_top else folder)
            folder = after if is_block else folder
            seen["compared" if wanted is not None else "run" if is_block else "text"] += 1
            if wanted is None:
                wants(f"{page}, {words}: it can be run", status not in (2, 70, 99, 126, 127) and "Traceback" not in told, f"status {status}, {told[-300:]}")
            else:
                wants(f"{page}, {words}", shown(told) == shown("\n".join(wanted)), f"status {status}, {told!r}; wanted {wanted}")


def rows(page, text):
    """The commands at the ends of a page's tables."""
    for words in re.findall(r"(?m)`((?:cd |\./os2|tools/)[^`]*)` \|$", text):
        if is_asked(words) or SKIPPED.search(words) or lacking(words):
            continue
        made = subprocess.run(["sh", "-c", words], cwd=TOP, stdin=subprocess.DEVNULL, capture_output=True, encoding="latin-1", timeout=LONGEST)
        seen["rows"] += 1
        wants(f"{page}, {words}", made.returncode == 0 and (made.stdout or ">" in words or "ne.py" in words) and (not made.stderr or "os2run " in words), made)


def pictures(page, text):
    """The pictures of a lesson that its commands made somewhere in examples are those that it shows."""
    for name in re.findall(r"\]\((\w+\.svg)\)", text):
        made = glob.glob(os.path.join("examples", "**", name), recursive=True)
        seen["pictures"] += 1
        with open(os.path.join("docs", "guide", name), "rb") as file:
            kept = file.read()
        wants(f"{page}: {name} is what its commands make", made and all(open(path, "rb").read() == kept for path in made), made)


def whole():
    copied()
    for page in ["README.md", *sorted(glob.glob("docs/*.md")), *sorted(glob.glob("docs/guide/*.md"))]:
        with open(page, encoding="utf-8") as file:
            text = file.read()
        try:
            tried(page, text)
            rows(page, text)
        except subprocess.TimeoutExpired as late:
            wrong(f"{page}: a command takes more than {LONGEST} s: {late.cmd}")
        pictures(page, text)
        status = subprocess.run(["git", "status", "--porcelain"], capture_output=True, text=True).stdout
        wants(f"{page} leaves the checkout clean", not status, status)
        # (what it leaves in ignored files is no other page's)
        subprocess.run(["git", "clean", "-fdxq"], check=True)
        subprocess.run(["git", "checkout", "-q", "--", "."], check=True)
    for kind, least in (("compared", 25), ("run", 12), ("text", 10), ("rows", 15), ("pictures", 2)):
        wants(f"the pages have {kind}", seen[kind] >= least, seen)
    os.chdir("..")


if __name__ == "__main__":
    trying.frame("pages", __doc__, {"all": whole})
