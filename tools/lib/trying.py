"""What the checks share: where things stand, the programs that are tried, what has been tried, and the frame of each check."""
import os
import subprocess
import sys
import tempfile

import command

ROOT = command.ROOT
TOOLS = os.path.join(ROOT, "tools")
LIB = os.path.join(TOOLS, "lib")
EXAMPLES = os.path.join(ROOT, "examples")


COMMANDS = os.path.join(ROOT, "crates", "test_commands")
BENCHES = os.path.join(ROOT, "crates", "test_machine_file")
for room in (TOOLS, os.path.join(TOOLS, "make"), os.path.join(TOOLS, "checks")):
    if room not in sys.path:
        sys.path.append(room)
tried, failed = 0, 0


def count(more=1):
    global tried
    tried += more


def wrong(what):
    global failed
    failed += 1
    print(what, flush=True)


def wants(title, holds, what=""):
    """Counts a try, and prints what there was where it isn't as wanted."""
    count()
    if not holds:
        wrong(f"{title}: {what}")


def program(name="os2run"):
    """The file of a program, which is built before where it has to be. A check without its program ends here."""
    if name not in found:
        found[name] = command.program(name) or sys.exit(f"{name} isn't there and can't be built, so nothing is tried")
    return found[name]


found = {}


def said(name, *words, **how):
    """Runs a program, and gives its status, and what it wrote to the standard output."""
    run = subprocess.run([program(name), *words], stdin=subprocess.DEVNULL, stdout=subprocess.PIPE, **how)
    return run.returncode, run.stdout.decode("ascii")


def compiler():
    """A compiler of C, or None where there is none."""
    for name in ("cc", "clang"):
        for folder in os.environ.get("PATH", "").split(os.pathsep):
            if os.access(os.path.join(folder, name), os.X_OK):
                return os.path.join(folder, name)
    return None


def check_words(name, wrong_words, parts=None):
    """Help and version go to the standard output with status 0, the help after a part with its options; wrong words have status 2, and
    nothing there."""
    for part, options in {"": (), **(parts or {})}.items():
        for word in ("--help", "-h"):
            count()
            status, text = said(name, *part.split(), word)
            if status or f"Usage: {' '.join([name, *part.split()])} " not in text or any(option not in text for option in options):
                wrong(f"{name} {part} {word}: status {status}, {text!r}")
    for word in ("--version", "-V"):
        count()
        if said(name, word) != (0, f"{name} 1.0.0\n"):
            wrong(f"{name} {word}: {said(name, word)}")
    count()
    if said(name, *wrong_words, stderr=subprocess.DEVNULL) != (2, ""):
        wrong(f"{name} {' '.join(wrong_words)}: {said(name, *wrong_words)}")


def frame(name, doc, parts, flags=()):
    """A check as a command: its words name parts, or all are tried, each in a new folder. `flags` are words that begin with --, each with a
    function that is called before where it is given. The last line tells how much was tried, and the status is 1 where something
    wasn't as wanted."""

    def main():
        words = command.parser(f"tools/checks/{name}.py", doc)
        if len(parts) > 1:
            words.add_argument("parts", nargs="*", metavar="PART", help=f"{', '.join(parts)}; all where none is named")
        for flag, (what, _) in dict(flags).items():
            words.add_argument(flag, action="store_true", help=what)
        given = words.parse_args()
        chosen = getattr(given, "parts", None) or list(parts)
        for part in chosen:
            if part not in parts:
                words.error(f"there is no part {part}")
        for flag, (_, change) in dict(flags).items():
            if getattr(given, flag.lstrip("-").replace("-", "_")):
                change()
        before = os.getcwd()
        for part in chosen:
            with tempfile.TemporaryDirectory() as work:
                os.chdir(work)
                try:
                    parts[part]()
                finally:
                    os.chdir(before)
        print(f"{name}: {tried} tried, {failed} not as wanted")
        return 1 if failed else 0

    command.end(main)
