#!/usr/bin/env python3
"""Plans made realistic orders with the built program, and says how many plans are optimal and what the slowest took.

Each order has one of four common pallets, in mm, and a case whose sides are drawn evenly from the whole mm of a range, with
a gap of 0 to 5 mm; of the seeds 1 to 3 the area allows 2 to 84 cases to a layer. The draws are those of Python's generator
from a seed, so that two runs plan the same orders. Each order is planned in a run of its own, and then the first hundred in
one run. Needs a built program (run ./pallet once). Exits with 1 where an order stays open.

usage: bench/realistic.py [ORDERS [SEED]]
"""
import pathlib
import random
import subprocess
import sys
import time

TOP = pathlib.Path(__file__).resolve().parent.parent
PROGRAM = TOP / "crates" / "pallet" / "out" / "pallet"
HEADER = "id,pallet_x,pallet_y,case_x,case_y,case_z,weight,max_height,max_weight,contact,support,cut,gap"
PALLETS = [(1200, 800), (1200, 1000), (1140, 1140), (1219, 1016)]


def orders(count, seed):
    """The rows of so many orders."""
    draw = random.Random(seed)
    for number in range(1, count + 1):
        x, y = draw.choice(PALLETS)
        long = draw.randint(150, 600)
        short = draw.randint(max(100, long // 3), long)
        gap = draw.choice([0, 0, 0, 2, 3, 5])
        yield f"R{number},{x},{y},{long},{short},200,5000,1600,1000000,60,0,100,{gap}"


def planned(rows):
    """The lines that a run of `plan` on these rows writes, and how long it took."""
    begin = time.perf_counter()
    ran = subprocess.run([PROGRAM, "plan"], input="\n".join([HEADER, *rows, ""]).encode(), capture_output=True, check=False)
    return ran.stdout.decode().splitlines(), time.perf_counter() - begin


def kind_of(lines):
    """By what a report of one row shows its bound: the first two words of the certificate's line that tells its kind."""
    kind = next((line for line in lines if line.startswith(("weighting", "cert strip", "cert given-area"))), "none")
    return " ".join(kind.split()[:2])


def main():
    count = int(sys.argv[1]) if len(sys.argv) > 1 else 300
    seed = int(sys.argv[2]) if len(sys.argv) > 2 else 1
    rows = list(orders(count, seed))
    open_rows, slowest, total, kinds, counts = [], (0.0, ""), 0.0, {}, []
    for row in rows:
        lines, spent = planned([row])
        total += spent
        slowest = max(slowest, (spent, row))
        if "status optimal" not in lines:
            open_rows.append(row)
        kind = kind_of(lines)
        kinds[kind] = kinds.get(kind, 0) + 1
        counts += [int(line[6:]) for line in lines if line.startswith("count ")]
    print(f"{count} orders of seed {seed}: {count - len(open_rows)} optimal, {sum(counts)} cases, "
          f"{min(counts, default=0)} to {max(counts, default=0)} to a layer, {total:.2f} s in all,")
    print(f"the slowest {slowest[0]:.3f} s: {slowest[1]}")
    print(f"the first {len(rows[:100])} in one run: {min(planned(rows[:100])[1] for _ in range(3)):.4f} s, the least of three")
    for kind, number in sorted(kinds.items()):
        print(f"{number:5} by {kind}")
    for row in open_rows:
        print("open:", row)
    return 1 if open_rows else 0


if __name__ == "__main__":
    sys.exit(main())
