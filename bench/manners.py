#!/usr/bin/env python3
"""Compares how the program ends, and what it tells and leaves, where its surroundings are not as they should be.

    bench/manners.py [PROGRAM]

PROGRAM is the built redscript, by default the one that `rt ci` leaves at crates/redscript/out/redscript. Each case
runs it in a new folder, some with closed standard streams or with a limit on the size of files, and compares the
status, both outputs and the log. It prints each case that is not as wanted, and last `N passed, M failed`.
"""
import os
import resource
import signal
import subprocess
import sys
import tempfile

from common import REDSCRIPT, TOP, frame

SECONDS = 20
SESSION = b"1000 0 1 opened\n1000 0 1 piece *3\\r\\n$3\\r\\nSET\\r\\n$1\\r\\nk\\r\\n$1\\r\\nv\\r\\n\n"
PLAYED = b"1 send +OK\\r\\n\nend turns=2 keys=1 log=27\nk string - v\n"
LOGGED = frame("SET", "k", "v").encode()
REPLAYED = b"end groups=1 keys=1\nk string - v\n"
FORMS = (b"redscript: the forms are\n  redscript play LOG < SESSION > TRANSCRIPT\n  redscript replay < LOG\n"
         b"  redscript --help\n  redscript --version\nredscript: usage\n")
LINE = (b"redscript: a line is `NOW WORD CLIENT` and then `opened`, `piece TEXT` or `closed`, "
        b"or it is `NOW WORD 0 idle`\nredscript: bad input: line %d\n")
PLAY = ["play", "x.log"]


def reason(name, text, status):
    return f"redscript: {name}: {text}\nredscript: {status}\n".encode()


class Trial:
    """Runs of the program in a folder of their own, and what was not as wanted."""

    def __init__(self, program, folder):
        self.program = program
        self.folder = folder
        self.passed = 0
        self.failed = 0

    def judge(self, name, got, want):
        for part, value in want.items():
            if got[part] != value:
                self.failed += 1
                print(f"{name}: {part} is {got[part]!r}, wanted {value!r}")
                return
        self.passed += 1

    def log(self):
        path = os.path.join(self.folder, "x.log")
        if not os.path.exists(path):
            return None
        with open(path, "rb") as file:
            return file.read()

    def case(self, name, words, text=b"", closed=(), limit=None, keep=False, stdin=None, stdout=subprocess.PIPE,
             **want):
        """Runs the program on words and an input, with these descriptors closed, and with a limit on the bytes of a
        file: the limit and whether its signal is ignored. What is wanted is of code, out, err and log."""
        path = os.path.join(self.folder, "x.log")
        if not keep and os.path.exists(path):
            os.remove(path)

        def prepare():
            if limit:
                signal.signal(signal.SIGXFSZ, signal.SIG_IGN if limit[1] else signal.SIG_DFL)
                resource.setrlimit(resource.RLIMIT_FSIZE, (limit[0], limit[0]))
            for descriptor in closed:
                os.close(descriptor)

        with tempfile.TemporaryFile() as file:
            file.write(text)
            file.seek(0)
            try:
                done = subprocess.run([self.program, *words], stdin=file if stdin is None else stdin, stdout=stdout,
                                      stderr=subprocess.PIPE, cwd=self.folder, preexec_fn=prepare, timeout=SECONDS,
                                      check=False)
            except subprocess.TimeoutExpired:
                self.failed += 1
                print(f"{name}: it has not ended after {SECONDS} seconds")
                return
        self.judge(name, {"code": done.returncode, "out": done.stdout, "err": done.stderr, "log": self.log()}, want)


def closed_streams(trial):
    no_output = reason("standard output", "Bad file descriptor (os error 9)", "sink fault")
    no_input = reason("standard input", "Bad file descriptor (os error 9)", "source fault")
    trial.case("output closed", PLAY, SESSION, closed=[1], code=6, out=b"", err=no_output, log=LOGGED)
    trial.case("output closed at replay", ["replay"], LOGGED, closed=[1], code=6, out=b"", err=no_output)
    trial.case("output closed at --help", ["--help"], closed=[1], code=6, out=b"", err=no_output)
    trial.case("input closed", PLAY, closed=[0], code=5, out=b"", err=no_input, log=None)
    trial.case("input closed at replay", ["replay"], closed=[0], code=5, out=b"", err=no_input)
    trial.case("errors closed", PLAY, SESSION, closed=[2], code=0, out=PLAYED, err=b"", log=LOGGED)
    trial.case("output and errors closed", PLAY, SESSION, closed=[1, 2], code=6, out=b"", err=b"", log=LOGGED)
    trial.case("all closed", PLAY, closed=[0, 1, 2], code=5, out=b"", err=b"", log=None)


def limits(trial):
    too_large = reason("x.log", "File too large (os error 27)", "log fault")
    trial.case("no bytes in a file", PLAY, SESSION, limit=(0, True), code=7, out=b"", err=too_large, log=b"")
    trial.case("ten bytes in a file", PLAY, SESSION, limit=(10, True), code=7, out=b"", err=too_large, log=LOGGED[:10])
    trial.case("a limit's signal", PLAY, SESSION, limit=(0, False), code=-signal.SIGXFSZ, out=b"", err=b"", log=b"")


def reasons(trial):
    trial.case("log is there", PLAY, SESSION, code=0, out=PLAYED, err=b"", log=LOGGED)
    trial.case("log is there", PLAY, SESSION, keep=True, code=7, out=b"", log=LOGGED,
               err=reason("x.log", "File exists (os error 17)", "log fault"))
    trial.case("log in no folder", ["play", "no/x.log"], SESSION, code=7, out=b"", log=None,
               err=reason("no/x.log", "No such file or directory (os error 2)", "log fault"))
    trial.case("log is a folder", ["play", "."], SESSION, code=7, out=b"", log=None,
               err=reason(".", "File exists (os error 17)", "log fault"))
    trial.case("log of a long name", ["play", "x" * 256], SESSION, code=7, out=b"", log=None,
               err=reason("x" * 256, "File name too long (os error 36)", "log fault"))
    trial.case("log of bytes that are no text", ["play", b"x\xff"], SESSION, code=7, out=b"", log=None,
               err=reason("the log", "the name is not UTF-8", "log fault"))
    trial.case("log of other letters", ["play", "ö.log"], SESSION, code=0, out=PLAYED, err=b"")
    trial.case("log of an option's name", ["play", "--help"], SESSION, code=0, out=PLAYED, err=b"")
    with open("/dev/full", "wb") as full:
        trial.case("output full", PLAY, SESSION, stdout=full, code=6, log=LOGGED,
                   err=reason("standard output", "No space left on device (os error 28)", "sink fault"))
    folder = os.open("/", os.O_RDONLY)
    trial.case("input is a folder", PLAY, stdin=folder, code=5, out=b"", log=None,
               err=reason("standard input", "Is a directory (os error 21)", "source fault"))
    os.close(folder)


def pipes(trial):
    reader, writer = os.pipe()
    os.set_blocking(reader, False)
    trial.case("input has nothing yet", PLAY, stdin=reader, code=5, out=b"", log=None,
               err=reason("standard input", "Resource temporarily unavailable (os error 11)", "source fault"))
    os.close(reader)
    trial.case("reader of the output went away", PLAY, SESSION, stdout=writer, code=6, log=LOGGED,
               err=reason("standard output", "Broken pipe (os error 32)", "sink fault"))
    os.close(writer)


def bad_input(trial):
    first, last = SESSION.splitlines(keepends=True)
    returns = (b"redscript: line 1 has a CR: a line ends in LF alone, and a text has a CR as \\r\n"
               b"redscript: bad input: line 1\n")
    open_line = b"redscript: line 2 is the last, and has no LF\nredscript: bad input: line 2\n"
    trial.case("CR LF", PLAY, SESSION.replace(b"\n", b"\r\n"), code=3, out=b"", err=returns, log=None)
    trial.case("no LF", PLAY, SESSION[:-1], code=3, out=b"", err=open_line, log=None)
    trial.case("two lines in one", PLAY, first[:-1] + last, code=3, out=b"", err=LINE % 1, log=None)
    trial.case("empty line", PLAY, first + b"\n" + last, code=3, out=b"", err=LINE % 2, log=None)
    trial.case("CR behind the bad line", PLAY, first + b"k\n" + b"\r\n", code=3, out=b"", err=LINE % 2, log=None)
    trial.case("a log", PLAY, b"*1\n", code=3, out=b"", err=LINE % 1, log=None)


def left_out(trial):
    groups = [
        frame("SET", "k", "1"),
        frame("MULTI") + frame("SET", "a", "v\r\n*1\r\n") + frame("DEL", "k") + frame("EXEC"),
        "*0\r\n",
        "*-1\r\n",
        frame("FLUSHALL"),
        frame("MULTI") + frame("EXEC"),
        frame("RENAME", "a", "b"),
    ]
    log = "".join(groups).encode()
    ends = [0]
    for group in groups:
        ends.append(ends[-1] + len(group))
    for cut in range(len(log) + 1):
        bytes_left = cut - max(end for end in ends if end <= cut)
        told = b"redscript: bytes at the end that belong to no whole group: %d\n" % bytes_left
        trial.case(f"log of {cut} bytes", ["replay"], log[:cut], code=0, err=told if bytes_left else b"")
    bad = b"redscript: bad log: byte 27\n"
    trial.case("bad log", ["replay"], LOGGED + b"\n" + LOGGED, code=4, out=b"", err=bad)
    trial.case("its front", ["replay"], (LOGGED + b"\n" + LOGGED)[:27], code=0, out=REPLAYED, err=b"")


def command_lines(trial):
    for words in [[], [""], ["play"], ["play", ""], ["play", "x.log", "y"], ["replay", "x.log"], ["help"], ["-h"],
                  [b"\xff"]]:
        trial.case(f"words {words}", words, SESSION, code=2, out=b"", err=FORMS, log=None)
    trial.case("many words", ["play"] * 1000, code=2, out=b"", err=FORMS)
    trial.case("a long word", ["p" * 100_000], code=2, out=b"", err=FORMS)
    trial.case("--version", ["--version"], code=0, err=b"")
    trial.case("--help", ["--help"], code=0, err=b"")


def made_sessions(trial):
    """What bench/session.py makes is a session, and says what its source says."""
    script = [sys.executable, os.path.join(TOP, "bench", "session.py")]

    def made(kind, text):
        return subprocess.run([*script, kind], input=text, stdout=subprocess.PIPE, timeout=SECONDS, check=True).stdout

    lines = b'SET greeting "hello there"\nAPPEND greeting "\\x00\\n"\n\n  GET greeting\nSET \'it\\\'s\' "" EX 10\n'
    logged = (frame("SET", "greeting", "hello there") + frame("SET", "greeting", "hello there\0\n", "KEEPTTL")
              + frame("SET", "it's", "", "PXAT", "11004"))
    want = (b"1 send +OK\\r\\n\n1 send :13\\r\\n\n1 send $13\\r\\nhello\\sthere\\x00\\n\\r\\n\n1 send +OK\\r\\n\n"
            b"end turns=5 keys=2 log=155\ngreeting string - hello\\sthere\\x00\\n\nit's string 11004 \\e\n")
    trial.case("lines of commands", PLAY, made("lines", lines), code=0, out=want, err=b"", log=logged.encode())
    group = frame("MULTI") + frame("SET", "a", "1") + frame("SET", "b", "2") + frame("EXEC")
    file = (frame("SELECT", "0") + "#TS:1700000000\r\n" + group + frame("DEL", "a")).encode()
    want = b"1 send +OK\\r\\n\n1 send +OK\\r\\n\n1 send :1\\r\\n\nend turns=3 keys=1 log=74\nb string - 2\n"
    logged = frame("SET", "a", "1") + frame("SET", "b", "2") + frame("DEL", "a")
    trial.case("an append-only file", PLAY, made("aof", file), code=0, out=want, err=b"", log=logged.encode())


def main():
    program = os.path.abspath(sys.argv[1]) if len(sys.argv) > 1 else REDSCRIPT
    with tempfile.TemporaryDirectory() as folder:
        trial = Trial(program, folder)
        for part in [closed_streams, limits, reasons, pipes, bad_input, left_out, command_lines, made_sessions]:
            part(trial)
    print(f"{trial.passed} passed, {trial.failed} failed")
    return 1 if trial.failed else 0


sys.exit(main())
