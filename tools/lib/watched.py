"""A run that somebody at a terminal waits for: how far it is, and where its report ends when Ctrl-C ended it. All of it goes to the
terminal alone."""
import os
import select
import signal
import subprocess
import sys
import time


class Report:
    """What a report tells that still grows. A last line that may grow is read the next time."""

    def __init__(self, path):
        self.path, self.read, self.lines, self.alive, self.last = path, 0, 0, 0, ""

    def read_on(self):
        with open(self.path, "rb") as file:
            file.seek(self.read)
            for line in file:
                if not line.endswith(b"\n"):
                    break
                self.read += len(line)
                self.lines += 1
                self.last = line.decode("latin-1").rstrip("\n")
                word = (self.last.split() + ["", ""])[1]
                self.alive += (word == "start") - (word == "end")


class Run:
    """A program that runs, its report, and what of it the terminal shows."""

    def __init__(self, title, words, path):
        self.title, self.report, self.begun, self.shown, self.is_new_line = title, Report(path), time.monotonic(), False, True
        # what goes to the terminal passes through here, so that no line is written into it
        with open(path, "wb") as report:
            self.child = subprocess.Popen(words, stdout=subprocess.PIPE if os.isatty(1) else None, stderr=report)

    def seconds(self):
        return int(time.monotonic() - self.begun)

    def is_computing(self):
        """Whether the program runs, and doesn't wait, as for its input."""
        try:
            with open(f"/proc/{self.child.pid}/stat") as file:
                return file.read().rpartition(")")[2].split()[0] == "R"
        except OSError:
            return False

    def show(self, text):
        """Writes a line over the last one, or none in its place."""
        if text or self.shown:
            print("\r\x1b[K" + text, end="", file=sys.stderr, flush=True)
        self.shown = bool(text)

    def tell(self):
        if not self.is_new_line or not self.is_computing() or os.getpgrp() != os.tcgetpgrp(2):
            return self.show("")
        self.report.read_on()
        self.show(f"{self.title}: {self.seconds()} s, {self.report.lines} lines of the report, processes alive: {self.report.alive}")

    def pass_on(self, seconds):
        """Passes on what the program writes within some time, to the terminal; whether there may be more."""
        if not self.child.stdout:
            try:
                self.child.wait(seconds)
                return False
            except subprocess.TimeoutExpired:
                return True
        if not select.select([self.child.stdout], [], [], seconds)[0]:
            return True
        put = os.read(self.child.stdout.fileno(), 65_536)
        if not put:
            return False
        self.show("")
        self.is_new_line = put.endswith(b"\n")
        while put:
            put = put[os.write(1, put) :]
        return True

    def status(self):
        due = self.begun + 2
        while self.pass_on(max(0, due - time.monotonic())):
            if time.monotonic() >= due:
                due = time.monotonic() + 1
                self.tell()
        self.show("")
        return self.child.wait()

    def interrupted(self):
        while self.pass_on(5):
            pass
        self.child.wait()
        self.report.read_on()
        where = f"; the report ends with its line {self.report.lines}: {self.report.last}" if self.report.lines else ""
        print(f"\n{self.title}: interrupted after {self.seconds()} s{where}", file=sys.stderr)


def run(title, words, path):
    """Runs a program whose report goes to a file, and gives its status."""
    if not os.isatty(2):
        with open(path, "wb") as report:
            return subprocess.run(words, stderr=report).returncode
    one = Run(title, words, path)
    try:
        return one.status()
    except KeyboardInterrupt:
        # (Ctrl-C goes to the program too, another signal of this kind to this one alone)
        signal.signal(signal.SIGINT, signal.SIG_IGN)
        one.child.send_signal(signal.SIGINT)
        one.interrupted()
        raise
