#!/usr/bin/env python3
"""Times `redscript replay`.

Run it at the top of the repository after `rt ci`, which leaves the program at crates/redscript/out/redscript.
First it replays a small log, whole and cut, and compares what is written. Then it replays logs of SETs over KEYS keys, of
10 and of 100 MB: the time is to grow with the log, and the memory with the store alone.
Each log is replayed RUNS times; the best time counts, as the others measure the machine.
"""
import os
import tempfile

from common import REDSCRIPT, RUNS, Figure, at_least, at_most, best, check, frame, heading, run, write

REPLAY = [REDSCRIPT, "replay"]
KEYS = 1_000
MB_A_SECOND_WANTED = at_least(50)
MB_OF_MEMORY_WANTED = at_most(64)


def records(size):
    """SETs of KEYS keys by turns to values of 100 bytes, of about `size` bytes together."""
    written = 0
    i = 0
    while written < size:
        record = frame("SET", f"key:{i % KEYS:06}", f"{i:0100}")
        written += len(record)
        i += 1
        yield record


def check_output():
    """A group counts where it is whole, and a bad byte is found."""
    log = (frame("MULTI") + frame("SET", "a", "1") + frame("SET", "b", "2") + frame("EXEC")).encode()
    check(REPLAY, log, 0, b"end groups=1 keys=2\na string - 1\nb string - 2\n")
    check(REPLAY, log[:-1], 0, b"end groups=0 keys=0\n")
    check(REPLAY, log + b"!", 4, b"")


def measure(folder, size):
    """The size of a log, the best time over it and the greatest memory."""
    path = os.path.join(folder, "log")
    with open(path, "w", encoding="ascii", newline="") as file:
        file.writelines(records(size))
    return os.path.getsize(path), *best([run(REPLAY, path, os.path.join(folder, "out")) for _ in range(RUNS)])


def main():
    check_output()
    with tempfile.TemporaryDirectory() as folder:
        rows = [measure(folder, size) for size in (10_000_000, 100_000_000)]
    report = heading("replay") + (f"| log of SETs over {KEYS:,} keys | best of {RUNS} | MB a second | peak memory |\n"
                                  "|---|---|---|---|\n")
    for size, seconds, memory in rows:
        report += f"| {size / 1e6:.1f} MB | {seconds:.3f} s | {size / 1e6 / seconds:.1f} | {memory / 1e6:.1f} MB |\n"
    size, seconds, memory = rows[-1]
    write(report, [Figure("MB a second of the longer log", size / 1e6 / seconds, MB_A_SECOND_WANTED),
                   Figure("MB of memory for it", memory / 1e6, MB_OF_MEMORY_WANTED)])


main()
