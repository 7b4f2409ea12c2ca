#!/usr/bin/env python3
"""Plans made dense orders with the built program, and says how many plans are optimal and what they took.

Each order has one of four common pallets, in mm, and a case of 40 to 150 by 30 to 120 mm; such draws as allow 150 to 1,000
cases to a layer by the area are kept. The draws are those of Python's generator from a seed, so that two runs plan the same
orders. Each order is planned in a run of its own, then all in one run, whose report is checked. With a second program, as one
built from an earlier commit, both are told side by side. Needs a built program (run ./pallet once).

usage: bench/dense.py [ORDERS [SEED [OTHER_PROGRAM]]]
"""
import pathlib
import random
import resource
import subprocess
import sys

from realistic import HEADER, PALLETS, PROGRAM


def orders(count, seed):
    """The rows of so many orders."""
    draw = random.Random(seed)
    rows = []
    while len(rows) < count:
        x, y = draw.choice(PALLETS)
        sides = draw.randint(40, 150), draw.randint(30, 120)
        long, short = max(sides), min(sides)
        if 150 <= x * y // (long * short) <= 1000:
            rows.append(f"D{len(rows) + 1},{x},{y},{long},{short},100,100,1600,100000000,0,0,100,0")
    return rows


def ran(program, word, text):
    """What a run writes, and its seconds of processor time."""
    before = resource.getrusage(resource.RUSAGE_CHILDREN)
    found = subprocess.run([program, word], input=text, capture_output=True, check=False)
    after = resource.getrusage(resource.RUSAGE_CHILDREN)
    return found.stdout, after.ru_utime + after.ru_stime - before.ru_utime - before.ru_stime


def told(program, rows):
    """Prints a line for a program, and answers the rows that stay open."""
    open_rows, slowest, cases, short = [], (0.0, ""), 0, 0
    for row in rows:
        report, spent = ran(program, "plan", "\n".join([HEADER, row, ""]).encode())
        slowest = max(slowest, (spent, row))
        lines = report.decode().splitlines()
        count, bound = (int(next(line for line in lines if line.startswith(word)).split()[1]) for word in ("count ", "bound "))
        cases += count
        short += bound - count
        if count < bound:
            open_rows.append(f"{row} count {count} bound {bound}")
    report, spent = ran(program, "plan", "\n".join([HEADER, *rows, ""]).encode())
    verdicts, judged = ran(program, "check", report)
    right = verdicts.decode().count(" yes\n")
    print(f"{len(rows) - len(open_rows)} of {len(rows)} optimal, {cases} cases, {short} short of the bounds; the file {spent:.1f} s, "
          f"its check {judged:.2f} s with {right} yes; the slowest order {slowest[0]:.2f} s: {slowest[1]}")
    return open_rows


def main():
    count = int(sys.argv[1]) if len(sys.argv) > 1 else 200
    seed = int(sys.argv[2]) if len(sys.argv) > 2 else 1
    rows = orders(count, seed)
    if len(sys.argv) > 3:
        print("other program:", end=" ")
        told(pathlib.Path(sys.argv[3]).resolve(), rows)
        print("this program:", end=" ")
    for row in told(PROGRAM, rows):
        print("open:", row)


if __name__ == "__main__":
    main()
