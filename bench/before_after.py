#!/usr/bin/env python3
"""Plans named orders with two programs in one run, and tells their processor times side by side: each the least of three.

The orders are those of docs/PERFORMANCE.md that tables, L-regions and walks once took long for. The reports of the first
program are checked by it.

usage: bench/before_after.py PROGRAM OTHER_PROGRAM
"""
import pathlib
import resource
import subprocess
import sys

from realistic import HEADER

ORDERS = {
    "closed by L-regions before": ["43 26 7 3", "61 38 10 3", "63 44 8 5", "61 35 10 3", "74 49 11 4", "93 46 13 4",
                                   "106 59 13 5", "108 65 10 7", "141 71 13 8", "104 69 12 7"],
    "closed by a table before": ["47 27 10 3", "54 37 10 3", "66 51 9 7", "87 48 11 6", "49 42 8 5", "19 12 7 2", "12 11 7 2",
                                 "104 65 19 5"],
    "others": ["200 183 15 11", "191 185 13 10", "212 112 17 14", "86 52 9 5", "1200 1000 73 47", "3999 3001 113 107"],
}


def ran(program, word, text):
    """What a run writes, and its seconds of processor time."""
    before = resource.getrusage(resource.RUSAGE_CHILDREN)
    found = subprocess.run([program, word], input=text, capture_output=True, check=False)
    after = resource.getrusage(resource.RUSAGE_CHILDREN)
    return found.stdout, after.ru_utime + after.ru_stime - before.ru_utime - before.ru_stime


def measured(program, sides):
    x, y, long, short = sides.split()
    text = f"{HEADER}\nA,{x},{y},{long},{short},1,1,1,1,0,0,100,0\n".encode()
    runs = [ran(program, "plan", text) for _ in range(3)]
    report = runs[0][0]
    numbers = {line.split()[0]: line.split()[1] for line in report.decode().splitlines()
               if line.startswith(("count ", "bound "))}
    return f"{numbers['count']} of {numbers['bound']}", min(spent for _, spent in runs), report


def main():
    if len(sys.argv) != 3:
        sys.exit(__doc__)
    program, other = (pathlib.Path(name).resolve() for name in sys.argv[1:])
    for kind, orders in ORDERS.items():
        print(f"{kind}:")
        for sides in orders:
            count, spent, report = measured(program, sides)
            other_count, other_spent, _ = measured(other, sides)
            verdict = ran(program, "check", report)[0].decode().split("\n")[0]
            print(f"  {sides:18} {count:11} {spent:7.3f} s, other {other_count:11} {other_spent:7.3f} s, {verdict}")


if __name__ == "__main__":
    main()
