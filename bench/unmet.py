#!/usr/bin/env python3
"""Of made realistic orders, how many have rules that no stack of their layers meets, by the rules asked for.

The orders are those of bench/realistic.py (pallet, case and gap; two layers or more are allowed of nearly all). Each is planned
without rules, and once under each set of rules below. Where the forms of a layer have no stack the planner looks for another
layer; how many orders would be unmet without that is found in the same run: the layer that is planned without rules is given to
the second judge of fire/, with the rules. Prints for each set how many orders were planned, how many would be unmet and how many
are; then the processor time of a run of those that would be, without the rules and with them, the least of five, and the
difference by order: that is what the two searches of stacks and the search of another layer take.

usage: bench/unmet.py [PROGRAM [ORDERS [SEED]]]     PROGRAM is the built one if none is named (run ./pallet once)
"""
import os
import resource
import subprocess
import sys

import realistic

sys.path.insert(0, os.path.join(os.path.dirname(os.path.dirname(os.path.abspath(__file__))), "fire"))

from reports import Refused, read_report
from second_look import right_stack

# contact, support and cut, as in the orders file: 0, 0 and 100 ask for nothing
NO_RULES = (0, 0, 100)
RULES = [(0, 1, 100), (0, 0, 75), (70, 1, 100), (80, 1, 100), (60, 0, 60), (60, 1, 75), (70, 1, 60)]
MOST_ROWS = 256


def under(rules, row):
    """The row with these rules in place of its own."""
    fields = row.split(",")
    fields[9:12] = map(str, rules)
    return ",".join(fields)


def planned(program, rows):
    """The entries of the report on these rows, and the processor seconds that it took."""
    before = resource.getrusage(resource.RUSAGE_CHILDREN).ru_utime
    text = "\n".join([realistic.HEADER, *rows, ""]).encode()
    ran = subprocess.run([program, "plan"], input=text, capture_output=True, check=False)
    spent = resource.getrusage(resource.RUSAGE_CHILDREN).ru_utime - before
    if not ran.stdout.endswith(b"\ndone %d\n" % len(rows)):
        sys.exit(f"{program} plan ended with {ran.returncode} and no whole report: {ran.stderr.decode().strip()}")
    return read_report(ran.stdout)[1], spent


def planned_under(program, rules, drawn, times=1):
    """The entries of all orders under these rules, and the least processor seconds of so many runs."""
    entries, seconds = [], 0.0
    for first in range(0, len(drawn), MOST_ROWS):
        rows = [under(rules, row) for row in drawn[first : first + MOST_ROWS]]
        runs = [planned(program, rows) for _ in range(times)]
        entries += runs[0][0]
        seconds += min(spent for _, spent in runs)
    return entries, seconds


def is_unmet(stack):
    return isinstance(stack, list)


def would_be_unmet(rules, entry):
    """Whether the forms of the layer that is planned without rules have no stack under these."""
    if isinstance(entry, Refused):
        return False
    order = entry.order[:8] + rules + entry.order[11:]
    return is_unmet(right_stack(order, entry.layers, entry.allowed))


def main():
    program = sys.argv[1] if len(sys.argv) > 1 else realistic.PROGRAM
    count = int(sys.argv[2]) if len(sys.argv) > 2 else 200
    seed = int(sys.argv[3]) if len(sys.argv) > 3 else 1
    drawn = list(realistic.orders(count, seed))
    plain, _ = planned_under(program, NO_RULES, drawn)
    print(f"{count} orders of seed {seed}")
    print("contact support cut   planned   would be unmet           unmet   without    with   ms an order")
    for rules in RULES:
        entries, _ = planned_under(program, rules, drawn)
        would = [row for row, entry in zip(drawn, plain) if would_be_unmet(rules, entry)]
        stacks = [entry.stack for entry in entries if not isinstance(entry, Refused)]
        unmet = sum(is_unmet(stack) for stack in stacks)
        shares = [f"{number:6} {100 * number / max(1, len(stacks)):5.1f}%" for number in (len(would), unmet)]
        without, seconds = (planned_under(program, some, would, 5)[1] for some in (NO_RULES, rules))
        more = 1000 * (seconds - without) / max(1, len(would))
        print(f"{rules[0]:7} {rules[1]:7} {rules[2]:3} {len(stacks):9}    {shares[0]}   {shares[1]} {without:9.3f} {seconds:7.3f} {more:8.2f}")


if __name__ == "__main__":
    main()
