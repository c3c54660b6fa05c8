#!/usr/bin/env python3
"""Times the tokens or the trees of Lua texts, as its word says: `tokens` or `trees`.

Run it at the top of the repository after `rt ci`, which leaves the program at crates/lua_timing/out/lua_timing.
First it compares the counts of two small texts and the stop of a third. Then it takes texts of 8 and of 16 MB: code as it is
written, and three texts of what else there is much of. The time is to grow with the text.
Each text is taken RUNS times; the best time counts, as the others measure the machine.
"""
import os
import sys
import tempfile
from typing import NamedTuple

from common import RUNS, Figure, Wanted, at_least, at_most, best, check, heading, program, run, write

PROGRAM = program("lua_timing")
MB = 1_000_000
TWICE_THE_TEXT_WANTED = at_most(2.5)

CODE = """-- Takes a token from the bucket of a key, or says how long to wait.
local function take(key, now, rate, burst)
  local tokens = tonumber(redis.call('HGET', key, 'tokens') or burst)
  local last = tonumber(redis.call("HGET", key, "last") or now)
  tokens = math.min(burst, tokens + (now - last) * rate)
  if tokens < 1 then return { 0, (1 - tokens) / rate } end
  redis.call('HSET', key, 'tokens', tokens - 1, 'last', now)
  return { 1, 0 }
end
"""


class Kind(NamedTuple):
    """What is taken of texts: small ones and what is said of them, large ones and what is wanted of them."""

    said: dict
    texts: dict
    mb_a_second: Wanted
    memory_over_text: Wanted | None


KINDS = {
    "tokens": Kind(
        said={b"": b"0 tokens\n", b"return 1 -- one\n": b"2 tokens\n", b"\nreturn 'a": b"line 2: unfinished string\n"},
        texts={
            "code": CODE,
            "long names": "local " + "name_of_a_long_kind_" * 20 + " = 1\n",
            "quoted strings": "s = 'plain bytes of a string, and an escape \\n in it, of some eighty bytes in all'\n",
            "comments": "-- " + "a comment of one line that says little " * 5 + "\n--[==[ and a long one\nof two lines ]==]\n",
        },
        mb_a_second=at_least(30),
        memory_over_text=None,
    ),
    "trees": Kind(
        said={
            b"": b"0 statements\n",
            b"local a = 1\nif a then return a end\n": b"2 statements\n",
            b"x =\n\n1 +": b"line 3: unexpected token\n",
        },
        texts={
            "code": CODE,
            "operators": "total = " + " + ".join(f"price{n} * count{n} - {n}" for n in range(30)) + "\n",
            "tables": "row = { " + ", ".join(f"key{n} = {{ {n}, 'text of {n}' }}" for n in range(30)) + " }\n",
            "functions": "f = " + "function (a, b) return " * 30 + "a" + " end" * 30 + "\n",
        },
        mb_a_second=at_least(10),
        memory_over_text=at_most(30),
    ),
}


def measure(words, folder, text, size):
    """The size of a text of about so many bytes, and the best time and the greatest memory over it."""
    path = os.path.join(folder, "text")
    with open(path, "w", encoding="ascii") as file:
        file.write(text * (size // len(text) + 1))
    seconds, memory = best([run(words, path, os.path.join(folder, "out")) for _ in range(RUNS)])
    return os.path.getsize(path), seconds, memory


def table(words, kind):
    """What the program takes for each text of 8 and of 16 MB, as a table and as figures."""
    text = f"| text | 16 MB, best of {RUNS} | MB a second | over 8 MB | memory over text |\n|---|---|---|---|---|\n"
    figures = []
    with tempfile.TemporaryDirectory() as folder:
        for title, piece in kind.texts.items():
            _, half, _ = measure(words, folder, piece, 8 * MB)
            size, whole, memory = measure(words, folder, piece, 16 * MB)
            text += f"| {title} | {whole:.3f} s | {size / MB / whole:.1f} | {whole / half:.2f} | {memory / size:.1f} |\n"
            figures.append(Figure(f"{title}, MB a second", size / MB / whole, kind.mb_a_second))
            figures.append(Figure(f"{title}, the time of 16 MB over that of 8 MB", whole / half, TWICE_THE_TEXT_WANTED))
            if kind.memory_over_text:
                figures.append(Figure(f"{title}, memory over text", memory / size, kind.memory_over_text))
    return text, figures


def main():
    name = next((word for word in sys.argv[1:] if word in KINDS), None)
    if name is None:
        raise SystemExit(f"usage: lua_texts.py {'|'.join(KINDS)} [--write]")
    kind, words = KINDS[name], [PROGRAM, name]
    for text, said in kind.said.items():
        check(words, text, 0, said)
    text, figures = table(words, kind)
    write(heading(name) + text, figures)


main()
