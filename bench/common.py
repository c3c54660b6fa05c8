"""What the scripts of this folder share: where the programs are, runs under a clock, and how figures are told.

A script prints its tables, and beside each figure of which something is wanted what that is. Where a figure falls short it
ends with status 1. It adds what it printed to docs/PERFORMANCE.md only where it is started with `--write`; that page says
why so much is wanted.
"""
import datetime
import os
import subprocess
import sys
import time
from typing import NamedTuple

TOP = os.path.dirname(os.path.dirname(os.path.abspath(__file__)))
REPORT = os.path.join(TOP, "docs", "PERFORMANCE.md")
RUNS = 5


def program(crate):
    """The program that `rt ci` leaves of a crate."""
    return os.path.join(TOP, "crates", crate, "out", crate)


REDSCRIPT = program("redscript")


def frame(*words):
    """A command or a record: an array of these words."""
    return f"*{len(words)}\r\n" + "".join(f"${len(word)}\r\n{word}\r\n" for word in words)


def escaped(text):
    """Bytes in the escape of a session, of texts that need it at line ends alone."""
    return text.replace("\r", "\\r").replace("\n", "\\n")


def start(words, **streams):
    """The program, started; it has to be there."""
    if not os.path.exists(words[0]):
        raise SystemExit(f"{os.path.relpath(words[0], TOP)} is missing: `rt ci` builds it")
    return subprocess.Popen(words, **streams)


def timed(words, source, sink, errors=None):
    """One run from a file into files: seconds, the processor's seconds, and the greatest resident size in bytes."""
    with open(source, "rb") as stdin, open(sink, "wb") as stdout, open(errors or os.devnull, "wb") as stderr:
        begun = time.perf_counter()
        process = start(words, stdin=stdin, stdout=stdout, stderr=stderr if errors else None)
        _, status, usage = os.wait4(process.pid, 0)
        seconds = time.perf_counter() - begun
    if os.waitstatus_to_exitcode(status) != 0:
        raise SystemExit(f"{' '.join(words)} ended with {os.waitstatus_to_exitcode(status)}")
    return seconds, usage.ru_utime + usage.ru_stime, usage.ru_maxrss * 1024


def run(words, source, sink):
    """One run from a file into a file: seconds, and the greatest resident size in bytes."""
    seconds, _, memory = timed(words, source, sink)
    return seconds, memory


def best(runs):
    """Of several runs the best time, as the others measure the machine, and the greatest memory."""
    return min(seconds for seconds, _ in runs), max(memory for _, memory in runs)


def play(folder, lines):
    """Plays a session of these lines RUNS times: its size, the best time and the greatest memory. The last transcript stays
    in the file `out` of the folder."""
    path, out, log = (os.path.join(folder, name) for name in ("session", "out", "log"))
    with open(path, "w", encoding="ascii") as file:
        file.writelines(lines)
    runs = []
    for _ in range(RUNS):
        runs.append(run([REDSCRIPT, "play", log], path, out))
        os.remove(log)
    return os.path.getsize(path), *best(runs)


def check(words, text, status, out):
    """Runs the program on a text, which has to end and to write as is wanted."""
    process = start(words, stdin=subprocess.PIPE, stdout=subprocess.PIPE, stderr=subprocess.DEVNULL)
    written, _ = process.communicate(text)
    if (process.returncode, written) != (status, out):
        raise SystemExit(f"not as wanted: {' '.join(words)}, status {process.returncode}, output {written}")


class Wanted(NamedTuple):
    """What is wanted of a figure: at most so much, or at least."""

    words: str
    bound: float

    def is_met(self, seen):
        return seen <= self.bound if self.words == "at most" else seen >= self.bound


def at_most(bound):
    return Wanted("at most", bound)


def at_least(bound):
    return Wanted("at least", bound)


class Figure(NamedTuple):
    """A figure that was seen, beside what is wanted of it."""

    name: str
    seen: float
    wanted: Wanted

    def row(self):
        seen = f"{self.seen:,.0f}" if self.seen >= 100 else f"{self.seen:.2f}"
        short = "" if self.wanted.is_met(self.seen) else ", which falls short"
        return f"| {self.name} | {seen}{short} | {self.wanted.words} {self.wanted.bound:,} |\n"


def heading(name):
    load = f"load {os.getloadavg()[0]:.1f} on {os.cpu_count()} processors"
    return f"\n### {name}, {datetime.date.today().isoformat()}, {load}\n\n"


def write(report, figures=()):
    """Prints a report, and its figures beside what is wanted of them; with `--write` it adds both to docs/PERFORMANCE.md."""
    if figures:
        report += "\n| figure | seen | wanted |\n|---|---|---|\n" + "".join(figure.row() for figure in figures)
    print(report)
    if "--write" in sys.argv[1:]:
        with open(REPORT, "a", encoding="utf-8") as file:
            file.write(report)
    short = [figure for figure in figures if not figure.wanted.is_met(figure.seen)]
    if short:
        raise SystemExit("falls short: " + "; ".join(figure.name for figure in short))
