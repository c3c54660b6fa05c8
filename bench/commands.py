#!/usr/bin/env python3
"""Times turns of mixed commands in `redscript play`.

Run it at the top of the repository after `rt ci`, which leaves the program at crates/redscript/out/redscript. One client
sends SET, GET, INCR and PEXPIRE by turns over KEYS keys, each command a turn of its own, at a clock that goes on by a
millisecond a turn; keys expire and come back. The session is played RUNS times into files in a new folder; the best time
counts, as the others measure the machine.
"""
import tempfile

from common import RUNS, Figure, at_least, escaped, frame, heading, play, write

TURNS = 1_000_000
KEYS = 10_000
TURNS_WANTED = at_least(300_000)


def command(i):
    """The words of turn i. The four commands reach each key at different times, in an order that is scattered."""
    key = f"key:{(i // 4 * 7919 + i % 4 * 2503) % KEYS:05}"
    return [("SET", key, str(i)), ("GET", key), ("INCR", key), ("PEXPIRE", key, "30000")][i % 4]


def lines():
    yield "1000 0 1 opened\n"
    for i in range(TURNS):
        yield f"{1000 + i} {i} 1 piece {escaped(frame(*command(i)))}\n"


def main():
    with tempfile.TemporaryDirectory() as folder:
        size, seconds, memory = play(folder, lines())
    write(heading("mixed commands")
          + f"| turns | session | best of {RUNS} | peak memory |\n|---|---|---|---|\n"
          f"| {TURNS:,} | {size / 1e6:.1f} MB | {seconds:.3f} s | {memory / 1e6:.1f} MB |\n",
          [Figure("turns a second", TURNS // seconds, TURNS_WANTED)])


main()
