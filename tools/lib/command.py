"""What all tools share: their words, their ends, and the programs that they run.

Help goes to the standard output with the status 0; wrong words have the status 2. Where nobody reads on, as in `| head`, a tool
ends with 1 and says nothing.
"""
import argparse
import os
import subprocess
import sys

ROOT = os.path.dirname(os.path.dirname(os.path.dirname(os.path.realpath(__file__))))
PROGRAMS = ("os2run", "os2why", "os2list", "os2trace", "os2core", "os2vectors")


def parser(name, doc, **more):
    """The parser of a tool's words. `name` is how it is called, `doc` what its help says."""
    return argparse.ArgumentParser(prog=name, description=doc, formatter_class=argparse.RawDescriptionHelpFormatter, allow_abbrev=False, **more)


def given(parser):
    """The words of this run, as `parser` reads them: flags stand before, between or after the others. After -- all words are others."""
    return parser.parse_args() if "--" in sys.argv else parser.parse_intermixed_args()


def number(least, most):
    """A word that is a decimal number from `least` to `most`."""

    def read(word):
        if not word.isascii() or not word.isdigit() or len(word) > 18 or not least <= int(word) <= most:
            raise argparse.ArgumentTypeError(f"{word!r} is no number from {least} to {most}")
        return int(word)

    return read


def end(main):
    """Ends with the status of `main`."""
    try:
        try:
            status = main() or 0
        except SystemExit as early:
            status = early.code or 0
        if isinstance(status, str):
            print(status, file=sys.stderr)
            status = 1
        if sys.stdout:
            sys.stdout.flush()
    except BrokenPipeError:
        # nothing is to be said of that when Python ends
        os.dup2(os.open(os.devnull, os.O_WRONLY), sys.stdout.fileno())
        status = 1
    except KeyboardInterrupt:
        status = 130
    sys.exit(status)


def program(name="os2run"):
    """The file of a program: the one that the environment names, as OS2RUN; that of the package; or that of this checkout, which is
    built before where it has to be. None where it can't be built; why not stands on the standard error then."""
    given = os.environ.get(name.upper())
    if given:
        return os.path.abspath(given)
    keeper = os.path.join(ROOT, "tools", "lib", "keep_program.sh")
    if not os.path.exists(keeper):
        return os.path.join(ROOT, name)
    run = subprocess.run(["sh", keeper, "build", name], stdin=subprocess.DEVNULL, stdout=subprocess.PIPE, text=True)
    return run.stdout.strip() if run.returncode == 0 else None
