#!/usr/bin/env python3
"""Compares the time by the clock of `design`, `plan` and `check` with four workers with that with one.

`design` plans 256 sizes of few cases and of some dozens, and the example of a carton; `plan` the dozen orders of examples/, 64
orders of like work, and 64 of bench/dense.py, a few of which take far longer than the others; `check` judges 64 entries, each
with a table of 40,000 weights and a tree of 500,000 marks. Each is run three times with each number of workers, in turn, and
the least time counts. Prints a line for each with both times and how many times as fast four workers are. Ends with 1 where a
run fails, or the bytes written are not the same. What is told means little where not four processors are free: the first line
has their number and the load.

usage: bench/designs.py [PROGRAM [SEED]]     PROGRAM is the built one if none is named (run ./pallet once); SEED is that of
                                             the dense orders, 1 if none is named
"""
import os
import subprocess
import sys
import time

import dense
import realistic

sys.path.insert(0, str(realistic.TOP / "fire"))

from largest_inputs import changed, largest_plan
from second_look import right_stack

WORKERS = (1, 4)
RUNS = 3
DESIGN_HEADER = "id,pallet_x,pallet_y,long_from,long_to,short_from,short_to,least_area"
# Sixteen longer sides by sixteen shorter ones.
DESIGNS = {
    "256 sizes, 9 or 10 cases by area": "A,1200,800,385,400,245,260,1",
    "256 sizes, 50 to 64 cases by area": "A,1200,800,150,165,100,115,1",
}
EQUAL = "A,61,38,10,3,1,1,1,1,0,0,100,0"


def ran(program, words, text):
    """What a run writes, and its seconds by the clock."""
    begin = time.perf_counter()
    found = subprocess.run([program, *words], input=text, capture_output=True, check=False)
    spent = time.perf_counter() - begin
    if found.returncode > 1:
        sys.exit(f"{program} {' '.join(words)} ended with {found.returncode}: {found.stderr.decode().strip()}")
    return found.stdout, spent


def told(program, what, word, text, last):
    """Prints the line of a mode on a text, and answers whether the bytes were the same in all runs and end with this line."""
    least, written = {}, set()
    for _ in range(RUNS):
        for workers in WORKERS:
            out, spent = ran(program, [word, "--workers", str(workers)], text)
            least[workers] = min(spent, least.get(workers, spent))
            written.add(out)
    right = len(written) == 1 and next(iter(written)).endswith(b"\n" + last + b"\n")
    one, four = (least[workers] for workers in WORKERS)
    print(f"{word}, {what}: {one:.3f} s with one worker, {four:.3f} s with four, {one / four:.2f} times as fast"
          f"{'' if right else '; NOT THE SAME BYTES, or not to the end'}", flush=True)
    return right


def lines(*rows):
    return "\n".join([*rows, ""]).encode()


def large_certificates(count):
    """A report of so many entries, whose certificates are nearly as large as they can be; one layer is allowed."""
    plan = largest_plan()
    plan.order = (*plan.order[:6], 1, 100000000, 0, 0, 100, 0)
    plan.allowed = 1
    plan.stack = right_stack(plan.order, plan.layers, plan.allowed)
    return changed(plan, times=count)


def works(seed):
    """Each work: what it is, the mode's word, the text, and the last line that is due."""
    for what, row in DESIGNS.items():
        yield what, "design", lines(DESIGN_HEADER, row), b"done 256"
    yield "carton.csv", "design", (realistic.TOP / "examples" / "carton.csv").read_bytes(), b"done 166"
    yield "dozen-orders.csv", "plan", (realistic.TOP / "examples" / "dozen-orders.csv").read_bytes(), b"done 12"
    yield "64 orders 61 38 10 3", "plan", lines(realistic.HEADER, *[EQUAL] * 64), b"done 64"
    yield f"64 dense orders of seed {seed}", "plan", lines(realistic.HEADER, *dense.orders(64, seed)), b"done 64"
    yield "64 entries with large certificates", "check", large_certificates(64), b"done 64"


def main():
    program = sys.argv[1] if len(sys.argv) > 1 else realistic.PROGRAM
    seed = int(sys.argv[2]) if len(sys.argv) > 2 else 1
    print(f"{os.cpu_count()} processors, load {os.getloadavg()[0]:.1f}")
    right = [told(program, *work) for work in works(seed)]
    return int(not all(right))


if __name__ == "__main__":
    sys.exit(main())
