#!/usr/bin/env python3
"""Times the store and its values.

Run it at the top of the repository after `rt ci`, which leaves the program at crates/ks_timing/out/ks_timing. The program
does one kind of work and tells how much it found, which is compared here, and how many microseconds the work took, without
what it made before. Keys, fields and members have 16 bytes, strings too. A purge is to cost for the keys that leave alone,
and an item of a large value not much more than one of a small value: MANY items once against FEW items many times.
Each work is done RUNS times; the best time counts, as the others measure the machine. Large and small values take turns, PAIRS
times, since the machine's other work comes and goes and would else fall on one of the two. The processor's time beside a time
is that of the whole run, with what is made before and let go after, and does not grow with the machine's other work as much.
"""
import os
import tempfile
from typing import NamedTuple

from common import RUNS, Figure, Wanted, at_most, heading, program, timed, write

PROGRAM = program("ks_timing")
MANY = 1_000_000
FEW = 1_000
PURGES = 1_000
PAIRS = 15


class Work(NamedTuple):
    """A kind of work over MANY items: what it does, what is counted and how often, what is found, and how many microseconds a
    time are wanted."""

    name: str
    one: str
    times: int
    found: int
    wanted: Wanted


STORE = {
    "put": Work("a store takes keys", "key", MANY, MANY, at_most(3)),
    "take": Work("keys are taken from a store", "key", MANY, MANY, at_most(3)),
    "purge": Work(f"{PURGES:,} purges, each of 10 keys", "purge", PURGES, 10 * PURGES, at_most(100)),
    "scores": Work("a sorted set takes members in scattered order of score", "member", MANY, MANY, at_most(5)),
    "ranks": Work("ranks are asked of a sorted set", "rank", MANY, MANY, at_most(5)),
}
# How many are found for each item of a value.
VALUES = {"list": 2, "hash": 1, "set": 2}
MB_OF_KEYS_WANTED = at_most(300)
LARGE_VALUE_WANTED = at_most(3)


def work(folder, task, items, rounds, found):
    """One work: its seconds, the processor's seconds for the whole run, and the greatest resident size in bytes."""
    out, err = os.path.join(folder, "out"), os.path.join(folder, "err")
    _, processor, memory = timed([PROGRAM, task, str(items), str(rounds)], os.devnull, out, err)
    with open(out, "rb") as stdout, open(err, "rb") as stderr:
        said, micros = stdout.read(), stderr.read()
    if said != b"%d found\n" % found:
        raise SystemExit(f"not as wanted: {task} {items} {rounds}, {said}")
    return int(micros) / 1e6, processor, memory


def measure(folder, task, rounds, found):
    """The best time of a work, the least of the processor's, and the greatest memory."""
    seconds, processor, memory = zip(*[work(folder, task, MANY, rounds, found) for _ in range(RUNS)])
    return min(seconds), min(processor), max(memory)


def store_table(folder):
    """The works on a store and a sorted set, as a table and as figures."""
    text = f"| over {MANY:,} keys or members | best of {RUNS} | each | processor, whole run | peak memory |\n|---|---|---|---|---|\n"
    figures = []
    for task, kind in STORE.items():
        seconds, processor, memory = measure(folder, task, PURGES if task == "purge" else 1, kind.found)
        each = seconds * 1e6 / kind.times
        text += (f"| {kind.name} | {seconds:.3f} s | {each:.2f} microseconds a {kind.one} | {processor:.3f} s | "
                 f"{memory / 1e6:.0f} MB |\n")
        figures.append(Figure(f"{kind.name}, microseconds a {kind.one}", each, kind.wanted))
        if kind.one == "key":
            figures.append(Figure(f"{kind.name}, MB of memory", memory / 1e6, MB_OF_KEYS_WANTED))
    return text, figures


def values_table(folder):
    """Values of many items against many values of few, as a table and as figures."""
    text = (f"| value | {MANY:,} items, best of {PAIRS} | {MANY // FEW:,} times {FEW:,} items | ratio | ratio of the processor's |\n"
            "|---|---|---|---|---|\n")
    figures = []
    for task, each in VALUES.items():
        pairs = [(work(folder, task, MANY, 1, each * MANY), work(folder, task, FEW, MANY // FEW, each * MANY)) for _ in range(PAIRS)]
        (many, many_processor), (few, few_processor) = [[min(run[at] for run in runs) for at in (0, 1)] for runs in zip(*pairs)]
        text += f"| {task} | {many:.3f} s | {few:.3f} s | {many / few:.2f} | {many_processor / few_processor:.2f} |\n"
        figures.append(Figure(f"an item of a {task} of {MANY:,}, times one of {FEW:,}", many / few, LARGE_VALUE_WANTED))
    return text, figures


def main():
    with tempfile.TemporaryDirectory() as folder:
        store, of_store = store_table(folder)
        values, of_values = values_table(folder)
    write(heading("store") + store + "\n" + values, of_store + of_values)


main()
