#!/usr/bin/env python3
"""Gives the built program some tens of thousands of changed floors, and compares what it does with the second look of floors.py.

A third of the inputs are floors files, changed like the orders files of mutated_inputs.py: `floor` has to write of each row the
entries that `plan` writes of its two orders, and their total, or to refuse the file with the status of floors.py; and `check-floor`
has to say `total yes` of each row. The others are texts of floors whose entries, totals or bytes are changed: `check-floor` has to
write the second look's lines, or to refuse the text at the very line. Input number i of a seed is the same in each run. The last
line is of totals; the status is not 0 where anything was found, and the inputs of finds are kept.
"""

import argparse
import collections
import multiprocessing
import os
import random
import sys
import tempfile
import time
import traceback

import mutations
import program
from floors import FLOOR_HEADER, answer_of, floor_text, floors_of, read_floor, total_of
from mutated_inputs import Find, is_no_report, keep, look_at_run
from orders import NoOrders
from program import SAID, run
from reports import NotAReport, Refused, read_report

HEADER = b",".join(FLOOR_HEADER) + b"\n"
# Sides of floors for pallets of 120 by 80 and less.
FLOORS = [(1360, 245), (300, 240), (240, 160), (120, 80), (60, 60), (400, 245), (12, 9), (40, 25), (6, 6), (7, 5)]


def made_floors(rng):
    """A floors file of a few random rows, most of which are accepted."""
    rows = []
    for number in range(rng.choice([0, 1, 1, 2, 3])):
        order = mutations.random_row(rng)
        scale = rng.choice([1, 2, 3, 4])
        floor = rng.choice(FLOORS) if rng.random() < 0.3 else (order[0] * scale, order[1] * rng.choice([1, 2, 3]))
        fields = [b"F%d" % number] + [b"%d" % side for side in (*floor, *order)]
        if rng.random() < 0.1:
            fields = fields[:-1] if rng.random() < 0.5 else fields + [b"0"]
        rows.append(b",".join(fields) + b"\n")
    return HEADER + b"".join(rows)


def make_floors(rng):
    """A changed floors file."""
    data = made_floors(rng)
    if rng.random() < 0.5:
        for _ in range(rng.choice([1, 1, 1, 2, 4])):
            data = mutations.change_text(rng, data)
    return data


def change_total(rng, total):
    """A total that tells something else."""
    if total is None:
        return (1, 0, 1, 0, b"optimal")
    place = rng.randrange(6)
    if place == 5:
        return None
    if place == 4:
        return (*total[:4], b"open" if total[4] == b"optimal" else b"optimal")
    least, greatest = ((1, 1000), (0, 10000000))[place % 2]
    number = min(max(mutations.near(rng, total[place]), least), greatest)
    return (*total[:place], number, *total[place + 1:])


def make_text(rng, base):
    """A changed text of a floor."""
    rows = []
    kind = rng.random()
    for place in range(rng.choice([0, 1, 1, 2, 3])):
        floor, load, _ = rng.choice(base["rows"])
        floor, load = floor.copy(), load.copy()
        if 0.1 < kind < 0.2:
            floor, load = load, floor
        if kind < 0.3 and rng.random() < 0.5:
            floor = mutations.change_entry(rng, floor)
        if kind < 0.3 and rng.random() < 0.5:
            load = mutations.change_entry(rng, load)
        floor.number, load.number = 2 * place + 1, 2 * place + 2
        total = total_of(floor, load)
        if 0.25 < kind < 0.5 and rng.random() < 0.7:
            total = change_total(rng, total)
        rows.append((floor, load, total))
    data = floor_text(rows)
    if kind > 0.6:
        for _ in range(rng.choice([0, 1, 1, 1, 2, 4])):
            data = mutations.change_text(rng, data)
    return data


def try_check(data, tally):
    outcome = run(["check-floor"], data)
    look_at_run(outcome)
    tally["check-floor, status %d" % outcome.status] += 1
    try:
        rows = read_floor(data)
    except NotAReport as wrong:
        if not is_no_report(outcome, wrong.line):
            raise Find("the second reader: no floor, line %d; the program: %r" % (wrong.line, outcome)) from None
        return
    status, text = answer_of(rows)
    tally["total yes"] += text.count(b"total yes\n")
    tally["total no"] += text.count(b"total no\n")
    if outcome.key() != (status, text, SAID[status]):
        raise Find("the second look: %r; the program: %r" % (text, outcome))


def quoted(field):
    return b'"' + field.replace(b'"', b'""') + b'"'


def entries_due(rows):
    """The entries that `plan` writes of these rows' orders, and the refused ones, by their numbers."""
    orders = [row for row in rows if not isinstance(row, str)]
    lines = [quoted(name) + b"," + b",".join(b"%d" % number for number in numbers) for name, numbers in orders]
    planned = run(["plan"], program.GAP_HEADER + b"".join(line + b"\n" for line in lines))
    _, entries = read_report(planned.written)
    left = iter(entries)
    due = [Refused(0, row) if isinstance(row, str) else next(left) for row in rows]
    for place, entry in enumerate(due):
        entry.number = place + 1
    return due


def try_floor(data, tally):
    outcome = run(["floor"], data)
    look_at_run(outcome)
    tally["floor, status %d" % outcome.status] += 1
    try:
        rows = floors_of(data)
    except NoOrders as wrong:
        if outcome.key() != (wrong.status, b"", SAID[wrong.status]):
            raise Find("the second reader: status %d; the program: %r" % (wrong.status, outcome)) from None
        return
    due = entries_due(rows)
    floors = [(floor, load, total_of(floor, load)) for floor, load in zip(due[::2], due[1::2])]
    status = int(any(isinstance(entry, Refused) for entry in due))
    if outcome.key() != (status, floor_text(floors), SAID[status]):
        raise Find("the text of what plan writes is another: %r" % outcome)
    checked = run(["check-floor"], outcome.written)
    if checked.status != 0 or checked.written.count(b"total yes\n") != len(floors):
        raise Find("check-floor of what floor wrote: %r" % checked)
    tally["floors checked"] += 1


def try_input(number, base, tally):
    """Makes the input of this number and tries it. Returns None, or a find with the input."""
    rng = random.Random(base["seed"] * 1000003 + number)
    data = b""
    try:
        if rng.random() < 0.33:
            data = make_floors(rng)
            try_floor(data, tally)
        else:
            data = make_text(rng, base)
            try_check(data, tally)
    except Find as find:
        return number, str(find), data
    except Exception:  # a fault of the second look is a find too: it has to be looked into
        return number, traceback.format_exc(), data
    return None


def base_rows(rng):
    """Rows of texts of floors: of orders that are accepted, and of refused ones."""
    rows = []
    for _ in range(40):
        data = made_floors(rng)
        outcome = run(["floor"], data)
        rows += read_floor(outcome.written)
    return rows


BASE = {}


def begin_worker(base):
    BASE.update(base)


def try_some(numbers):
    tally, finds = collections.Counter(), []
    for number in numbers:
        find = try_input(number, BASE, tally)
        if find is not None:
            finds.append(find)
    return len(numbers), tally, finds


def main():
    arguments = argparse.ArgumentParser(description=__doc__, formatter_class=argparse.RawDescriptionHelpFormatter)
    arguments.add_argument("--count", type=int, default=20000, help="how many inputs")
    arguments.add_argument("--seed", type=int, default=1)
    arguments.add_argument("--jobs", type=int, default=4, help="runs side by side")
    arguments.add_argument("--keep", default=os.path.join(tempfile.gettempdir(), "fire-finds"), help="the folder in which inputs of finds are kept")
    chosen = arguments.parse_args()
    program.need_program()
    begun = time.monotonic()
    base = {"rows": base_rows(random.Random(chosen.seed)), "seed": chosen.seed}
    parts = [range(begin, min(begin + 50, chosen.count)) for begin in range(0, chosen.count, 50)]
    tally, tried, finds = collections.Counter(), 0, 0
    with multiprocessing.Pool(chosen.jobs, begin_worker, (base,)) as pool:
        for count, counted, found in pool.imap_unordered(try_some, parts):
            tried += count
            tally.update(counted)
            finds += len(found)
            for find in found:
                keep(chosen.keep, find)
    for name in sorted(tally):
        print("%9d  %s" % (tally[name], name))
    print("changed floors: %d tried from seed %d in %d s, %d finds" % (tried, chosen.seed, time.monotonic() - begun, finds))
    return 1 if finds or tried != chosen.count else 0


if __name__ == "__main__":
    sys.exit(main())
