#!/usr/bin/env python3
"""Gives the built program standard streams that fail, are closed, or move few bytes at once, and looks at what it then does.

A read that fails has to end a run with status 7 and nothing written, a write that fails with status 8 and the first bytes of
what is due, and never with a signal; a standard error that takes nothing changes nothing; and an input that comes byte by
byte gives the same bytes. The last line is of totals; the status is not 0 where anything else was seen.
"""

import os
import subprocess
import sys
import tempfile

import program
from program import SAID, TWO_LAYERS, TWO_SIZES, run

FINDS = []
RUNS = [0]


def look(what, seen, right):
    RUNS[0] += 1
    if seen != right:
        FINDS.append(what)
        print("FIND %s: %r in place of %r" % (what, str(seen)[:300], str(right)[:300]))


def run_on(words, source, sink):
    """The status of a run on these open files, and what it says on standard error."""
    ended = subprocess.run([program.PROGRAM, *words], stdin=source, stdout=sink, stderr=subprocess.PIPE, check=False)
    return ended.returncode, ended.stderr


def closed(words, redirection, path):
    """The same with a redirection of the shell, as `<&-`, and standard input from a file where it is not that."""
    command = "exec \"$0\" \"$@\" < \"$INPUT\" " + redirection
    ended = subprocess.run(["bash", "-c", command, program.PROGRAM, *words], env={**os.environ, "INPUT": path},
                           stdout=subprocess.PIPE, stderr=subprocess.PIPE, check=False)
    return ended.returncode, ended.stdout, ended.stderr


def modes():
    """Each mode with an input, by a path that bash can open."""
    report, choice = run(["plan"], TWO_LAYERS).written, run(["choose"], TWO_LAYERS).written
    three = ["--workers", "3"]
    return [(["plan"], TWO_LAYERS), (["plan", "--draw"], TWO_LAYERS), (["plan", *three], TWO_LAYERS), (["check"], report),
            (["check", *three], report), (["upgrade"], report), (["choose"], TWO_LAYERS), (["check-choice"], choice),
            (["design"], TWO_SIZES), (["design", *three], TWO_SIZES), (["trial", "--number", "5"], b"")]


def try_mode(words, data, folder):
    path = os.path.join(folder, "input")
    with open(path, "wb") as file:
        file.write(data)
    name, full = " ".join(words), run(words, data)
    if words[0] != "trial":
        unreadable = os.open(folder, os.O_RDONLY)
        with open(os.devnull, "wb") as sink:
            look(name + ", a source that cannot be read", run_on(words, unreadable, sink), (7, SAID[7]))
        os.close(unreadable)
        look(name + ", a closed source", closed(words, "<&-", path), (7, b"", SAID[7]))
    with open(path, "rb") as file, open("/dev/full", "wb") as sink:
        look(name + ", a sink that is full", run_on(words, file, sink), (8, SAID[8]))
    look(name + ", a closed sink", closed(words, ">&-", path), (8, b"", SAID[8]))
    reading, writing = os.pipe()
    os.close(reading)
    with open(path, "rb") as file:
        look(name + ", a pipe that nobody reads", run_on(words, file, writing), (8, SAID[8]))
    os.close(writing)
    for redirection in ("2>&-", "2>/dev/full"):
        look(name + ", " + redirection, closed(words, redirection, path), (full.status, full.written, b""))
    look(name + ", a failing sink and a closed standard error", closed(words, ">/dev/full 2>&-", path), (8, b"", b""))


def piped(words):
    pipe = subprocess.PIPE
    return subprocess.Popen([program.PROGRAM, *words], stdin=pipe, stdout=pipe, stderr=pipe, bufsize=0)


def byte_by_byte(words, data):
    """A run whose input comes in single bytes."""
    with piped(words) as child:
        for place in range(len(data)):
            child.stdin.write(data[place:place + 1])
        child.stdin.close()
        return child.stdout.read(), child.wait()


def cut_off(words, data, count):
    """A run whose output is read for so many bytes and then closed: those bytes, and the status."""
    with piped(words) as child:
        child.stdin.write(data)
        child.stdin.close()
        taken = b""
        while len(taken) < count:
            taken += child.stdout.read(min(1000, count - len(taken)))
        child.stdout.close()
        return taken, child.wait()


def try_pipes():
    for words, data in modes():
        full = run(words, data)
        look(" ".join(words) + ", byte by byte", byte_by_byte(words, data), (full.written, full.status))
    rows = program.GAP_HEADER + b"A,40,25,1,1,1,1,10,10000,0,0,100,0\n" * 200
    for words in (["plan"], ["plan", "--draw"]):
        full = run(words, rows)
        for count in (0, 1, 16, 17, 5000, 100000, 1000000):
            look("%s, read for %d bytes" % (" ".join(words), count), cut_off(words, rows, count), (full.written[:count], 8))


def main():
    program.need_program()
    with tempfile.TemporaryDirectory() as folder:
        for words, data in modes():
            try_mode(words, data, folder)
    try_pipes()
    print("failing streams: %d runs, %d finds" % (RUNS[0], len(FINDS)))
    return 1 if FINDS else 0


if __name__ == "__main__":
    sys.exit(main())
