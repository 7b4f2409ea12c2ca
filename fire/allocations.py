#!/usr/bin/env python3
"""Refuses memory to the built program, at each of its calls for memory in turn, and looks at what it then does.

The program asks the C library for memory (malloc, realloc); fire/refuse.c stands before it and answers null at a chosen
call, or at each call from a chosen one on. For each of the runs below and each such call (of one long run, for some two
hundred of them) the run has to give the full answer, the same bytes and the same status as where nothing is refused, or to
end with status 9, and then what was written has to be one of: nothing; of `plan`, `upgrade` and `choose` the first line and
whole entries behind it; of `design` the first line with that of its row and whole entries behind both; of `check` and
`check-choice` whole verdict lines; of `trial` nothing. Needs `cc` and a program that is linked to the C library at run time.
The last line is of totals; the status is not 0 where anything else was seen.
"""

import argparse
import os
import re
import subprocess
import sys
import tempfile
from concurrent.futures import ThreadPoolExecutor

import program
from program import TWO_LAYERS, TWO_SIZES, run


def pieces_of(text):
    """The first line of a report or a choice, or the first two of a design, and the entries, each with its drawing; what stands
    behind them is left out."""
    starts = [found.start() for found in re.finditer(rb"(?m)^((entry|done) \d+|(chosen|best) .*)$", text)]
    if text.startswith((b"pallet-choice", b"pallet-design")) and len(starts) > 1:
        starts.pop()
    return [text[: starts[0]]] + [text[begin:end] for begin, end in zip(starts, starts[1:])]


def broken_off(words, full):
    """The texts that may stand after refused memory, where the whole one is `full`."""
    if words[0] in ("plan", "upgrade", "choose", "design") and full:
        pieces = pieces_of(full)
        return {b""} | {b"".join(pieces[:count]) for count in range(1, len(pieces) + 1)}
    if words[0] in ("check", "check-choice") and full:
        lines = full.splitlines(keepends=True)[: -1 if words[0] == "check" else -2]
        return {b"".join(lines[:count]) for count in range(len(lines) + 1)}
    return {b""}


class Walk:
    """One run of the program, with each of its calls for memory refused in turn."""

    def __init__(self, words, data, name, status=0, threads=False, most=10000):
        self.words, self.data, self.name, self.threads, self.most = words, data, name, threads, most
        self.full = run(words, data)
        self.allowed = broken_off(words, self.full.written)
        self.finds = []
        if self.full.status != status:
            self.finds.append("with nothing refused: %r" % self.full)

    def refused(self, shared, at, on, count_path=None):
        environment = {"LD_PRELOAD": shared, "REFUSE_AT": str(at), "REFUSE_ON": "1" if on else "0"}
        if count_path is not None:
            environment["REFUSE_COUNT"] = count_path
        if self.threads:
            environment["REFUSE_THREADS"] = "1"
        return run(self.words, self.data, environment)

    def calls(self, shared, folder):
        """How many calls for memory a run has in which none is refused."""
        path = os.path.join(folder, "count")
        outcome = self.refused(shared, 0, False, path)
        if outcome.key() != self.full.key():
            self.finds.append("without a refusal, but counted: %r" % outcome)
        with open(path, encoding="ascii") as file:
            return int(file.read())

    def judge(self, at, on, outcome):
        """How a run with a refusal ended: `full`, `broken` with the bytes that stand, or a find."""
        if outcome.key() == self.full.key():
            return "full"
        if outcome.status == 9 and outcome.said == program.SAID[9] and outcome.written in self.allowed:
            return "nothing" if not outcome.written else "part"
        self.finds.append("call %d%s refused: %r" % (at, " and each later one" if on else "", outcome))
        return "find"

    def walk(self, shared, folder, jobs):
        """Refuses each call, or so many of them, alone and with all later ones. Prints a line; returns how many runs were made."""
        calls = self.calls(shared, folder)
        chosen = range(1, calls + 1, 1 + calls // self.most)
        ways = [(at, on) for on in (False, True) for at in chosen]
        with ThreadPoolExecutor(jobs) as pool:
            outcomes = list(pool.map(lambda way: self.refused(shared, *way), ways))
        counts = {kind: 0 for kind in ("full", "nothing", "part", "find")}
        for (at, on), outcome in zip(ways, outcomes):
            counts[self.judge(at, on, outcome)] += 1
        print("%-46s %6d calls, %6d runs: %5d full, %6d with 9 and nothing, %5d with 9 and a part, %d finds"
              % (self.name, calls, len(ways), counts["full"], counts["nothing"], counts["part"], counts["find"]))
        sys.stdout.flush()
        return len(ways)


def walks():
    """The runs: the example of two layers in each mode, and the shipped examples."""
    report = run(["plan"], TWO_LAYERS).written
    old = report.replace(b"pallet-report 2", b"pallet-report 1").replace(b" 20 0\n", b" 20\n")
    two = "two layers"
    mixed = program.example("mixed-orders.csv")
    dozen = program.example("dozen-orders.csv")
    mixed_report = run(["plan"], mixed).written
    dozen_report = run(["plan"], dozen).written
    choice, dozen_choice = run(["choose"], TWO_LAYERS).written, run(["choose"], dozen).written
    return [
        Walk(["plan"], TWO_LAYERS, "plan, " + two),
        Walk(["plan", "--draw"], TWO_LAYERS, "plan --draw, " + two),
        Walk(["check"], report, "check, " + two),
        Walk(["check"], old, "check, %s in the old form" % two),
        Walk(["check", "--workers", "2"], report, "check --workers 2, " + two),
        Walk(["check", "--workers", "16"], report, "check --workers 16, " + two),
        Walk(["upgrade"], report, "upgrade, " + two),
        Walk(["upgrade"], old, "upgrade, %s in the old form" % two),
        Walk(["trial", "--number", "1"], b"", "trial --number 1"),
        Walk(["upgrade", "--workers", "2"], report, "words that are not accepted", 2),
        Walk(["plan"], b"no header\n", "plan, no header", 4),
        Walk(["check"], report[:-3], "check, no report", 6),
        Walk(["plan"], mixed, "plan, mixed-orders.csv", 1),
        Walk(["plan", "--draw"], mixed, "plan --draw, mixed-orders.csv", 1),
        Walk(["plan", "--workers", "3"], mixed, "plan --workers 3, mixed-orders.csv", 1, threads=True),
        Walk(["check"], mixed_report, "check, mixed-orders.csv"),
        Walk(["check", "--workers", "3"], mixed_report, "check --workers 3, mixed-orders.csv", threads=True),
        Walk(["upgrade"], mixed_report, "upgrade, mixed-orders.csv"),
        Walk(["plan"], dozen, "plan, dozen-orders.csv", 1),
        Walk(["check"], dozen_report, "check, dozen-orders.csv"),
        Walk(["check", "--workers", "4"], dozen_report, "check --workers 4, dozen-orders.csv", threads=True),
        Walk(["choose"], TWO_LAYERS, "choose, " + two),
        Walk(["check-choice"], choice, "check-choice, " + two),
        Walk(["choose"], dozen, "choose, dozen-orders.csv", 1),
        Walk(["check-choice"], dozen_choice, "check-choice, dozen-orders.csv"),
        Walk(["check-choice"], choice[:-3], "check-choice, no choice", 6),
        Walk(["design"], TWO_SIZES, "design, two sizes"),
        Walk(["design"], TWO_SIZES.replace(b"5,5,3,3", b"3,3,3,4"), "design, four sizes of which two fit", 1),
        Walk(["design", "--workers", "3"], TWO_SIZES.replace(b"5,5,3,3", b"5,5,3,5"), "design --workers 3, six sizes", threads=True),
        Walk(["design"], TWO_SIZES.replace(b"D,", b"D,0"), "design, a refused row", 1),
        Walk(["design"], TWO_SIZES[:-17], "design, no row"),
        Walk(["design"], TWO_SIZES + b"D\n", "design, too many rows", 5),
        Walk(["plan"], rows_of("9,8,5,2", "12,11,7,2", "14,13,4,3"), "plan, strips and tables"),
        Walk(["plan"], rows_of("43,26,7,3"), "plan, L-regions, some of the calls", most=200),
    ]


def rows_of(*sides):
    """An orders file of rows that the planner does not settle by the area alone."""
    rows = [b"R,%s,1,1,9,100000000,50,1,60\n" % part.encode() for part in sides]
    return program.HEADER + b"".join(rows)


def main():
    arguments = argparse.ArgumentParser(description=__doc__, formatter_class=argparse.RawDescriptionHelpFormatter)
    arguments.add_argument("--jobs", type=int, default=4, help="runs side by side")
    jobs = arguments.parse_args().jobs
    program.need_program()
    with tempfile.TemporaryDirectory() as folder:
        shared = os.path.join(folder, "refuse.so")
        source = os.path.join(program.TOP, "fire", "refuse.c")
        subprocess.run(["cc", "-O1", "-Wall", "-shared", "-fPIC", "-o", shared, source, "-ldl"], check=True)
        all_walks = walks()
        runs = sum(walk.walk(shared, folder, jobs) for walk in all_walks)
    finds = [(walk.name, find) for walk in all_walks for find in walk.finds]
    for name, find in finds[:50]:
        print("FIND %s: %s" % (name, find))
    print("allocations: %d runs with a refusal, %d finds" % (runs, len(finds)))
    return 1 if finds else 0


if __name__ == "__main__":
    sys.exit(main())
