#!/usr/bin/env python3
"""Makes a session for `redscript play` of commands that are there already.

    bench/session.py lines < commands > session    one command a line, in words and quotes as redis-cli takes them
    bench/session.py aof < appendonly > session    the commands of a Redis append-only file

One client, number 1, opens and sends each command in a turn of its own. The clock begins at --clock, in
milliseconds, and goes on by --step a turn; the random word of a turn is its number. A transaction of an append-only
file is one turn, without its MULTI and EXEC. SELECT of database 0, empty lines and annotations of time are left
out; another database, and a file that begins as a snapshot does, are refused. A command that redscript has not gets
its fault, and the others go on.
"""
import argparse
import re
import sys

MAX_PIECE_BYTES = 1_048_576
QUOTED = {b"n": b"\n", b"r": b"\r", b"t": b"\t", b"b": b"\b", b"a": b"\a"}
SPELLED = {ord("\\"): "\\\\", ord(" "): "\\s", ord("\r"): "\\r", ord("\n"): "\\n"}
# Plain text, and behind it one text in quotes at most.
WORD = re.compile(rb"""([^\s"']*)(?:"((?:[^"\\]|\\.)*)"|'((?:[^'\\]|\\.)*)')?(?=\s|\Z)""")
ESCAPE = re.compile(rb"\\(?:x([0-9a-fA-F]{2})|(.))")


def escaped(data):
    """Bytes in the escape of a session."""
    spelled = (SPELLED.get(byte) or (chr(byte) if 33 <= byte <= 126 else f"\\x{byte:02x}") for byte in data)
    return "".join(spelled) or "\\e"


def frame(words):
    """A command: an array of these words."""
    return b"*%d\r\n" % len(words) + b"".join(b"$%d\r\n%s\r\n" % (len(word), word) for word in words)


def in_double_quotes(text):
    """What stands between double quotes, its escapes resolved."""
    return ESCAPE.sub(lambda found: bytes([int(found[1], 16)]) if found[1] else QUOTED.get(found[2], found[2]), text)


def words_of(line, number):
    words = []
    line = line.strip()
    while line:
        found = WORD.match(line)
        if not found:
            raise SystemExit(f"line {number}: a quote that is not closed, or text right behind one")
        plain, double, single = found.groups(default=b"")
        words.append(plain + in_double_quotes(double) + single.replace(b"\\'", b"'"))
        line = line[found.end():].lstrip()
    return words


def turns_of_lines(data):
    for number, line in enumerate(data.split(b"\n"), 1):
        words = words_of(line, number)
        if words:
            yield frame(words)


def number_line(data, at, mark, begun):
    """The number of the line `*N` or `$N` that stands here, and where the line ends."""
    found = re.compile(rb"[%s]([0-9]+)\r\n" % mark).match(data, at)
    if not found:
        raise SystemExit(f"byte {begun}: no whole command begins here")
    return int(found[1]), found.end()


def commands_of(data):
    """The commands of an append-only file, each as its words and its bytes."""
    at = 0
    while at < len(data):
        begun = at
        if data.startswith(b"#", at):
            at = (data.find(b"\n", at) + 1) or len(data)
            continue
        count, at = number_line(data, at, b"*", begun)
        words = []
        for _ in range(count):
            length, at = number_line(data, at, b"$", begun)
            words.append(data[at:at + length])
            at += length + 2
        if at > len(data):
            raise SystemExit(f"byte {begun}: no whole command begins here")
        yield words, data[begun:at]


def turns_of_file(data):
    if data.startswith(b"REDIS"):
        raise SystemExit("the file begins as a snapshot does: take the append-only file that was written after it")
    group = None
    for words, text in commands_of(data):
        name = words[0].upper() if words else b""
        if name == b"SELECT":
            if words[1:] != [b"0"]:
                raise SystemExit("the file has a database other than 0")
        elif name == b"MULTI":
            group = []
        elif name == b"EXEC":
            yield b"".join(group or [])
            group = None
        elif group is not None:
            group.append(text)
        else:
            yield text


def main():
    parser = argparse.ArgumentParser(description=__doc__, formatter_class=argparse.RawDescriptionHelpFormatter)
    parser.add_argument("kind", choices=["lines", "aof"])
    parser.add_argument("--clock", type=int, default=1000)
    parser.add_argument("--step", type=int, default=1)
    asked = parser.parse_args()
    make = {"lines": turns_of_lines, "aof": turns_of_file}[asked.kind]
    turns = list(make(sys.stdin.buffer.read()))
    clock = asked.clock
    print(f"{clock} 0 1 opened")
    for number, turn in enumerate(turns, 1):
        clock += asked.step
        for at in range(0, len(turn), MAX_PIECE_BYTES):
            print(f"{clock} {number} 1 piece {escaped(turn[at:at + MAX_PIECE_BYTES])}")


main()
