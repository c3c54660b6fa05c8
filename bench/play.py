#!/usr/bin/env python3
"""Times `redscript play`.

Run it at the top of the repository after `rt ci`, which leaves the program at crates/redscript/out/redscript.
First it plays the example session and compares what the real files then hold, which no contract tells. Then it plays
sessions of SET lines, bytes that come whole or one by one, and turns of one client or of a thousand.
Each session is played RUNS times into files in a new folder; the best time counts, as the others measure the machine.
"""
import os
import tempfile

from common import REDSCRIPT, RUNS, TOP, Figure, at_least, at_most, check, escaped, frame, heading, play, write

EXAMPLE = os.path.join(TOP, "crates", "redscript")
LOGGED = frame("SET", "k", "v").encode()
MEGABYTE = frame("SET", "k", "a" * 1000) * 970
MB_A_SECOND_WANTED = at_least(20)
MEMORY_OVER_SESSION_WANTED = at_most(10)
TWICE_THE_SESSION_WANTED = at_most(2.3)
SINGLE_BYTES_WANTED = at_most(3)
THOUSAND_CLIENTS_WANTED = at_most(1.5)


def sets(lines):
    """Client 1 opens and sets `lines` keys to values of 100 bytes."""
    yield "1000 0 1 opened\n"
    for i in range(lines):
        yield f"{1000 + i} {i} 1 piece {escaped(frame('SET', f'key:{i:06}', f'{i:0100}'))}\n"


def one_by_one(client):
    """The bytes of about one megabyte of SETs, each in a piece of its own."""
    for byte in MEGABYTE:
        yield f"1000 0 {client} piece {escaped(byte)}\n"


def bytes_whole():
    yield "1000 0 1 opened\n"
    yield f"1000 0 1 piece {escaped(MEGABYTE)}\n"


def bytes_apart():
    yield "1000 0 1 opened\n"
    yield from one_by_one(1)


def bytes_unheard():
    """As many lines and bytes as in `bytes_apart`, from a client that is not open; then the same bytes whole."""
    yield from one_by_one(2)
    yield from bytes_whole()


def turns_of(clients):
    """100,000 turns of so many clients by turns, each a SET of one of 1,000 keys."""
    for client in range(clients):
        yield f"1000 0 {client + 1} opened\n"
    for i in range(100_000):
        yield f"1000 0 {i % clients + 1} piece {escaped(frame('SET', f'k{i % 1000}', 'v'))}\n"


def read(*path):
    with open(os.path.join(*path), "rb") as file:
        return file.read()


def check_files(folder):
    """The example is played into the files, a log that is there is left as it is, and a bad session makes none."""
    log = os.path.join(folder, "example.log")
    session = read(EXAMPLE, "stdin")
    for text, status, out, logged in [(session + b"x\n", 3, b"", None),
                                      (session, 0, read(EXAMPLE, "stdout"), LOGGED),
                                      (session, 7, b"", LOGGED)]:
        check([REDSCRIPT, "play", log], text, status, out)
        held = read(log) if os.path.exists(log) else None
        if held != logged:
            raise SystemExit(f"not as wanted: log {held}")


def table(head, rows):
    text = [f"| {head} | session | best of {RUNS} | MB a second | peak memory | over session |\n", "|---|---|---|---|---|---|\n"]
    for name, (size, seconds, memory) in rows.items():
        text.append(f"| {name} | {size / 1e6:.1f} MB | {seconds:.3f} s | {size / 1e6 / seconds:.1f} | "
                    f"{memory / 1e6:.1f} MB | {memory / size:.1f} |\n")
    return "".join(text)


def ratio(rows, one, other):
    """How many times as long the one session took as the other."""
    return rows[one][1] / rows[other][1]


def main():
    with tempfile.TemporaryDirectory() as folder:
        check_files(folder)
        lines = {f"{n:,}": play(folder, sets(n)) for n in (100_000, 200_000)}
        pieces = {"in one piece": play(folder, bytes_whole()),
                  "in single bytes": play(folder, bytes_apart()),
                  "in single bytes unheard, then in one piece": play(folder, bytes_unheard())}
        clients = {f"{n:,}": play(folder, turns_of(n)) for n in (1, 1_000)}
    size, seconds, memory = lines["200,000"]
    write(heading("play") + "\n".join([table("SET lines", lines), table("1 MB of SETs", pieces), table("clients", clients)]), [
        Figure("MB a second of SET lines", size / 1e6 / seconds, MB_A_SECOND_WANTED),
        Figure("memory over session of SET lines", memory / size, MEMORY_OVER_SESSION_WANTED),
        Figure("twice the session, times as long", ratio(lines, "200,000", "100,000"), TWICE_THE_SESSION_WANTED),
        Figure("single bytes read, times as long as the same bytes whole beside the same lines unheard",
               ratio(pieces, "in single bytes", "in single bytes unheard, then in one piece"), SINGLE_BYTES_WANTED),
        Figure("a turn of a thousand clients, times as long as one of one client", ratio(clients, "1,000", "1"),
               THOUSAND_CLIENTS_WANTED)])


main()
