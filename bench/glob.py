#!/usr/bin/env python3
"""Times globs by KEYS in `redscript play`.

Run it at the top of the repository after `rt ci`, which leaves the program at crates/redscript/out/redscript. The store has
one key, of KEY_BYTES times the letter a, and KEYS asks TURNS times which keys a glob of many stars matches, and in a session
of its own as often a glob that the first byte refuses. What the first session takes more is the matcher's time. Each is played
RUNS times; the best time counts, as the others measure the machine.
"""
import os
import tempfile

from common import RUNS, Figure, at_most, escaped, frame, heading, play, write

KEY_BYTES = 10_000
TURNS = 100
HARD = "*a*a*a*a*b"
EASY = "b*"
MILLISECONDS_WANTED = at_most(100)


def lines(glob):
    yield "1000 0 1 opened\n"
    for text in [frame("SET", "a" * KEY_BYTES, "v")] + TURNS * [frame("KEYS", glob)]:
        yield f"1000 0 1 piece {escaped(text)}\n"


def seconds_of(folder, glob):
    """The best time of a session. No key is matched, so each answer is the empty array."""
    _, seconds, _ = play(folder, lines(glob))
    with open(os.path.join(folder, "out"), "rb") as file:
        if file.read().count(b"*0\\r\\n") != TURNS:
            raise SystemExit("a glob matched that does not")
    return seconds


def main():
    with tempfile.TemporaryDirectory() as folder:
        hard, easy = seconds_of(folder, HARD), seconds_of(folder, EASY)
    write(heading("globs")
          + f"| glob against {KEY_BYTES:,} bytes | best of {RUNS}, {TURNS} times |\n|---|---|\n"
          f"| `{HARD}` | {hard:.3f} s |\n| `{EASY}` | {easy:.3f} s |\n",
          [Figure("milliseconds that the first takes more, each time", (hard - easy) / TURNS * 1e3, MILLISECONDS_WANTED)])


main()
