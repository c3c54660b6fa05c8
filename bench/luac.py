#!/usr/bin/env python3
"""Compares which texts have a tree, and on which line a text without one stops, with `luac5.1 -p`.

Run it at the top of the repository after `rt ci`, which leaves the program at crates/lua_timing/out/lua_timing. Where there is no
luac5.1 it does nothing. The texts are made by chance from a grammar, and then some words of each are dropped, doubled or put
elsewhere, so that most of them stop. They stay within the limits on nesting and length. Two stops are not compared: luac names a
`break` outside a loop at the word behind it, and takes `...` in the main text.
"""
import random
import re
import shutil
import subprocess
import sys

from common import program

PROGRAM = [program("lua_timing"), "trees"]
LUAC = shutil.which("luac5.1")
TEXTS = 2_000
SEED = 1
NOT_COMPARED = ("no loop to break", "outside a vararg function")
NAMES = ["a", "b", "key", "value"]
OPERATORS = ["or", "and", "<", ">", "<=", ">=", "~=", "==", "..", "+", "-", "*", "/", "%", "^"]


def names(draw):
    return ", ".join(draw.choice(NAMES) for _ in range(draw.randint(1, 3)))


def expressions(draw, depth):
    return ", ".join(expression(draw, depth) for _ in range(draw.randint(1, 3)))


def field(draw, depth):
    return draw.choice([
        lambda: expression(draw, depth),
        lambda: f"{draw.choice(NAMES)} = {expression(draw, depth)}",
        lambda: f"[ {expression(draw, depth)} ] = {expression(draw, depth)}",
    ])()


def table(draw, depth):
    return "{ " + draw.choice([", ", "; "]).join(field(draw, depth) for _ in range(draw.randint(0, 3))) + " }"


def arguments(draw, depth):
    return draw.choice([lambda: "( )", lambda: f"( {expressions(draw, depth)} )", lambda: "'text'", lambda: table(draw, depth)])()


def suffix(draw, depth):
    return draw.choice([
        lambda: f" . {draw.choice(NAMES)}",
        lambda: f" [ {expression(draw, depth)} ]",
        lambda: f" {arguments(draw, depth)}",
        lambda: f" : {draw.choice(NAMES)} {arguments(draw, depth)}",
    ])()


def chain(draw, depth):
    head = draw.choice(NAMES) if draw.random() < 0.8 else f"( {expression(draw, depth)} )"
    return head + "".join(suffix(draw, depth) for _ in range(draw.randint(0, 2)))


def expression(draw, depth):
    if depth == 0:
        return draw.choice(["nil", "true", "false", "1", "'text'", draw.choice(NAMES)])
    return draw.choice([
        lambda: expression(draw, 0),
        lambda: chain(draw, depth - 1),
        lambda: table(draw, depth - 1),
        lambda: f"{draw.choice(['not', '-', '#'])} {expression(draw, depth - 1)}",
        lambda: f"{expression(draw, depth - 1)} {draw.choice(OPERATORS)} {expression(draw, depth - 1)}",
        lambda: f"function ( {draw.choice(['', names(draw), '...'])} )\n{block(draw, depth - 1, False)} end",
    ])()


def variable(draw, depth):
    return draw.choice(NAMES) + draw.choice(["", f" . {draw.choice(NAMES)}", f" [ {expression(draw, depth)} ]"])


def statement(draw, depth, looped):
    inner = max(depth - 1, 0)
    return draw.choice([
        lambda: f"local {names(draw)} = {expressions(draw, inner)}",
        lambda: f"{variable(draw, inner)}, {variable(draw, inner)} = {expressions(draw, inner)}",
        lambda: f"{draw.choice(NAMES)} {arguments(draw, inner)}",
        lambda: f"do\n{block(draw, inner, looped)} end",
        lambda: f"while {expression(draw, inner)} do\n{block(draw, inner, True)} end",
        lambda: f"repeat\n{block(draw, inner, True)} until {expression(draw, inner)}",
        lambda: f"if {expression(draw, inner)} then\n{block(draw, inner, looped)} else\n{block(draw, inner, looped)} end",
        lambda: f"for a = 1 , 2 do\n{block(draw, inner, True)} end",
        lambda: f"for {names(draw)} in {expressions(draw, inner)} do\n{block(draw, inner, True)} end",
        lambda: f"function a . b : key ( {names(draw)} )\n{block(draw, inner, False)} end",
        lambda: f"local function value ( )\n{block(draw, inner, False)} end",
    ])()


def block(draw, depth, looped):
    """Statements, each on lines of its own, so that no `(` is taken for a call's."""
    if depth == 0:
        return ""
    lines = [statement(draw, depth, looped) + draw.choice(["", " ;"]) + "\n" for _ in range(draw.randint(0, 3))]
    last = ["", f"return {expressions(draw, depth - 1)}\n"] + (["break\n"] if looped else [])
    return "".join(lines) + draw.choice(last)


def spoiled(draw, text):
    """The text with a word dropped, doubled, or put in the place of another."""
    words = re.split(r"( |\n)", text)
    places = [at for at, word in enumerate(words) if word.strip()]
    for _ in range(draw.randint(0, 2) if places else 0):
        at = draw.choice(places)
        words[at] = draw.choice(["", f"{words[at]} {words[at]}", words[draw.choice(places)]])
    return "".join(words)


def stop_of_luac(text):
    """The line on which luac stops, none where it accepts the text, and its message."""
    done = subprocess.run([LUAC, "-p", "-"], input=text, stdout=subprocess.PIPE, stderr=subprocess.PIPE, check=False)
    message = done.stderr.decode("latin-1").strip()
    if done.returncode == 0:
        return None, message
    return int(re.search(r"stdin:(\d+):", message).group(1)), message


def stop_of_trees(text):
    done = subprocess.run(PROGRAM, input=text, stdout=subprocess.PIPE, check=True)
    answer = done.stdout.decode("latin-1").strip()
    found = re.match(r"line (\d+): ", answer)
    return (int(found.group(1)) if found else None), answer


def main():
    if LUAC is None:
        print("skipped: there is no luac5.1")
        return
    draw = random.Random(SEED)
    compared = stopped = 0
    for _ in range(TEXTS):
        text = spoiled(draw, block(draw, 3, False)).encode("ascii")
        found, answer = stop_of_trees(text)
        if any(words in answer for words in NOT_COMPARED):
            continue
        wanted, message = stop_of_luac(text)
        if wanted != found:
            sys.exit(f"not as luac5.1 answers: {message!r} against {answer!r}, of this text:\n{text.decode('ascii')}")
        compared += 1
        stopped += wanted is not None
    print(f"{compared} texts, of which {stopped} stop, are answered as luac5.1 answers them")


main()
