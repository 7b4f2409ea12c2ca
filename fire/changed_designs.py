#!/usr/bin/env python3
"""Gives the built program some tens of thousands of changed designs files, and compares what it does with the second look of
designs.py.

The files are made by a seeded generator: small pallets and ranges, ranges at their ends and empty ones, 256 sizes and a few
more or fewer, fields that are no numbers or out of range, another number of fields or of rows, quotes, line ends, byte order
marks, other headers, files at the limit of bytes; and a third of them are changed like the orders files of
mutated_inputs.py. For each `design`, often with workers, has to end with the status of designs.py and to write the one text
that is due: the row's fault, or an entry for each size, of which the second judge says yes or whose fault is the right one, and
the best of them with its rivals. Of some the entries have to be those that `plan` writes of the sizes' orders, `check` has to
say yes, and a run without workers has to write the same. Of small pallets all layers are tried, as in mutated_inputs.py. Files
that would take long to plan are left out. Input number i of a seed is the same in each run. The last line is of totals; the
status is not 0 where anything was found, and the inputs of finds are kept.
"""

import argparse
import collections
import multiprocessing
import os
import random
import sys
import tempfile
import time
import traceback

import mutations
import program
from designs import DESIGN_HEADER, asked_by, looks_wrong, orders_asked, rows_asked
from mutated_inputs import Find, keep, look_at_bound, look_at_run
from orders import MOST_BYTES, NoOrders
from program import SAID, run
from reports import Refused, report_text
from second_look import verdicts_text

HEADER = b",".join(DESIGN_HEADER)
OTHER_HEADERS = [HEADER + b",gap", HEADER.replace(b"_from", b"_min"), HEADER.replace(b"id,", b""), HEADER.upper(), HEADER + b" ",
                 HEADER[:-1], HEADER.replace(b"x,pallet_y", b"y,pallet_x"), b" " + HEADER, b"", b"x", program.GAP_HEADER[:-1]]
# pallet_x, pallet_y, long_from, long_to, short_from, short_to, least_area
ENDS = [
    (4000, 4000, 3998, 4000, 3998, 4000, 1), (4000, 4000, 1, 4000, 1, 4000, 16000000),
    (4000, 4000, 1, 4000, 1, 4000, 15996000), (4000, 4000, 1, 4000, 1, 4000, 15996001),
    (4000, 4000, 1999, 2001, 1999, 2001, 1), (4000, 3999, 4000, 4000, 3998, 4000, 1), (1, 1, 1, 1, 1, 1, 1),
    (1, 1, 1, 2, 1, 2, 1), (1, 4000, 4000, 4000, 1, 1, 1), (1001, 1, 1, 2, 1, 1, 1), (1000, 1, 1, 2, 1, 1, 1),
    (4000, 1, 3, 5, 1, 1, 1), (4001, 4000, 1, 1, 1, 1, 1), (4000, 4000, 4000, 4001, 4000, 4000, 1),
    (4000, 4000, 1, 4000, 1, 4000, 16000001), (5, 5, 0, 3, 2, 3, 1), (5, 5, 3, 3, 2, 3, 0), (5, 5, 4, 3, 2, 3, 1),
    (5, 5, 3, 3, 3, 2, 1), (5, 5, 3, 3, 4, 9, 1), (5, 5, 3, 4, 2, 3, 13), (5, 5, 3, 4, 2, 3, 12), (5, 5, 1, 4000, 1, 4000, 1),
    (5, 5, 4000, 1, 4000, 1, 1), (3, 10, 10, 11, 3, 4, 1), (9, 8, 5, 5, 2, 3, 1), (12, 11, 7, 7, 2, 3, 1),
    (6, 6, 4, 4, 1, 2, 1), (26, 20, 7, 7, 4, 4, 1), (37, 18, 13, 13, 3, 3, 1),
]
SMALL_PALLETS = [(1, 1), (3, 2), (5, 5), (6, 6), (9, 7), (12, 9), (20, 2), (25, 1)]
ODD_FIELDS = [b"", b"07", b"+7", b"-1", b"1e3", b" 7", b"7 ", b"0", b"99999999999", b"9999999999", b"7\"\"", b"\"7\"", b"x", b"3.0"]


# ---- files

def drawn_ranges(rng):
    """A few sizes about a case of a random order."""
    pallet_x, pallet_y, *sides = mutations.random_row(rng)[:4]
    long_side, short_side = max(sides), min(sides)
    ranges = [long_side - rng.choice([0, 0, 1, 2]), long_side + rng.choice([0, 0, 1, 1, 2, 3])]
    ranges += [short_side - rng.choice([0, 0, 1, 2]), short_side + rng.choice([0, 0, 1, 1, 2, 3])]
    area = long_side * short_side
    ranges = [max(1, side) for side in ranges]
    return [pallet_x, pallet_y, *ranges, rng.choice([1, 1, 1, area, area + 1, rng.randrange(1, 2 * area + 1)])]


def many_sizes(rng):
    """About 256 sizes: the least area is that of the 256th largest size, or one next to it."""
    if rng.random() < 0.4:
        first, last = rng.choice([1, 1, 2, 50]), rng.choice([254, 255, 256, 257])
        return [*rng.choice(SMALL_PALLETS), first, first + last - 1, 1, 1, 1]
    long_from, short_from = rng.randrange(1, 12), rng.randrange(1, 6)
    long_to, short_to = long_from + rng.randrange(15, 30), short_from + rng.randrange(14, 24)
    areas = sorted((long_side * short_side for long_side in range(long_from, long_to + 1)
                    for short_side in range(short_from, min(short_to, long_side) + 1)), reverse=True)
    place = rng.choice([254, 255, 255, 256, 256, 257])
    area = areas[place] if place < len(areas) else 1
    return [*rng.choice(SMALL_PALLETS), long_from, long_to, short_from, short_to, area]


def made_numbers(rng):
    kind = rng.random()
    if kind < 0.15:
        return list(rng.choice(ENDS))
    return many_sizes(rng) if kind < 0.19 else drawn_ranges(rng)


def made_row(rng):
    """A row, most of the time one that gives sizes."""
    numbers = made_numbers(rng)
    if rng.random() < 0.1:
        place = rng.randrange(7)
        numbers[place] = rng.choice([0, 1, 4000, 4001, 16000000, 16000001, numbers[place] + 1, max(0, numbers[place] - 1),
                                     rng.choice(mutations.LIMITS)])
    fields = [b"%d" % number for number in numbers]
    if rng.random() < 0.07:
        fields[rng.randrange(7)] = rng.choice(ODD_FIELDS)
    if rng.random() < 0.05:
        place = rng.randrange(7)
        fields[place] = b'"' + fields[place] + b'"'
    if rng.random() < 0.03:
        fields = fields[:-1] if rng.random() < 0.5 else fields + [b"1"]
    name = mutations.random_id(rng) if rng.random() < 0.2 else b"D%d" % rng.randrange(99)
    return b",".join([name, *fields])


def made_design(rng):
    """A designs file, most of the time with one row and the right header."""
    header = rng.choice(OTHER_HEADERS) if rng.random() < 0.04 else HEADER
    if rng.random() < 0.03:
        header = header.replace(b"id", b'"id"').replace(b"least_area", b'"least_area"')
    end = rng.choice([b"\n"] * 7 + [b"\r\n", b"\r\n", b"\r", b"\n\n"])
    lines = [header] + [made_row(rng) for _ in range(rng.choice([0] + [1] * 24 + [2, 3]))]
    data = end.join(lines) + (b"" if rng.random() < 0.15 else end)
    if rng.random() < 0.005:
        data += b"\n" * (MOST_BYTES - len(data) + rng.choice([0, 0, 1, 2]))
    return b"\xef\xbb\xbf" + data if rng.random() < 0.03 else data


def takes_long(data):
    """The sizes that a file asks for would take long to plan, or to look at: many cases to a layer, or thin cases on long sides."""
    try:
        rows = rows_asked(asked_by(data))
    except NoOrders:
        return False
    thin = 0
    for row in rows:
        if isinstance(row, str):
            continue
        pallet_x, pallet_y, long_side, short_side = row[1][:4]
        if pallet_x * pallet_y > 60 * long_side * short_side and min(pallet_x, pallet_y) >= 2 * short_side:
            return True
        thin += long_side // short_side
    return thin > 2000


def changed(rng, data):
    """The bytes with a few changes, most of the time behind the header alone."""
    begin = data.find(b"\n") + 1 if rng.random() < 0.8 else 0
    front, data = data[:begin], data[begin:]
    for _ in range(rng.choice([1, 1, 1, 2, 4])):
        data = mutations.change_text(rng, data)
    return front + data


def make_design(rng):
    """A changed designs file."""
    while True:
        data = made_design(rng)
        if rng.random() < 0.33:
            data = changed(rng, data)
        if not takes_long(data):
            return data


# ---- runs

def quoted(field):
    return b'"' + field.replace(b'"', b'""') + b'"'


def look_at_plan(asked, entries):
    """The entries are those that `plan` writes of the orders of the sizes, and `check` says yes to the plans."""
    lines = [quoted(name) + b"," + b",".join(b"%d" % number for number in numbers) for name, numbers in orders_asked(asked)]
    planned = run(["plan"], program.GAP_HEADER + b"".join(line + b"\n" for line in lines))
    found = int(any(isinstance(entry, Refused) for entry in entries))
    if planned.key() != (found, report_text(entries), SAID[found]):
        raise Find("plan of the sizes' orders: %r" % planned)
    verdicts = ["refused" if isinstance(entry, Refused) else "yes" for entry in entries]
    checked = run(["check"], planned.written)
    if checked.key() != (0, verdicts_text(entries, verdicts), b""):
        raise Find("check of the entries: %r" % checked)


def tell(asked, outcome, tally):
    """Counts what was asked, and what came of it."""
    if asked is None or isinstance(asked, str):
        tally["row: " + (asked or "none")] += 1
        return
    tally["row: accepted, with %s sizes" % (256 if len(asked[3]) == 256 else "fewer")] += 1
    tally["best none"] += outcome.written.count(b"\nbest none\n")
    tally["designs with rivals"] += b"\nrival " in outcome.written


def try_design(rng, data, tally):
    words = ["design"]
    if rng.random() < 0.3:
        words += ["--workers", str(rng.randrange(1, 17))]
    outcome = run(words, data)
    look_at_run(outcome)
    tally["design, status %d" % outcome.status] += 1
    wrong, entries = looks_wrong(data, outcome, 30)
    if wrong:
        raise Find("%s: %s; the program: %r" % (" ".join(words), wrong, outcome))
    if outcome.status > 1:
        return
    asked = asked_by(data)
    tell(asked, outcome, tally)
    for entry in entries:
        tally["sizes " + ("refused" if isinstance(entry, Refused) else "planned")] += 1
        if not isinstance(entry, Refused):
            look_at_bound(entry, tally)
    if len(words) > 1 and rng.random() < 0.3:
        if run(["design"], data).key() != outcome.key():
            raise Find("%s: another answer than without workers" % " ".join(words))
        tally["compared with a run without workers"] += 1
    if entries and rng.random() < 0.1:
        look_at_plan(asked, entries)
        tally["compared with plan and check"] += 1


def try_input(number, seed, tally):
    """Makes the input of this number and tries it. Returns None, or a find with the input."""
    rng = random.Random(seed * 1000003 + number)
    data = b""
    try:
        data = make_design(rng)
        try_design(rng, data, tally)
    except Find as find:
        return number, str(find), data
    except Exception:  # a fault of the second look is a find too: it has to be looked into
        return number, traceback.format_exc(), data
    return None


def try_some(part):
    numbers, seed = part
    tally, finds = collections.Counter(), []
    for number in numbers:
        find = try_input(number, seed, tally)
        if find is not None:
            finds.append(find)
    return len(numbers), tally, finds


def main():
    arguments = argparse.ArgumentParser(description=__doc__, formatter_class=argparse.RawDescriptionHelpFormatter)
    arguments.add_argument("--count", type=int, default=20000, help="how many inputs")
    arguments.add_argument("--seed", type=int, default=1)
    arguments.add_argument("--jobs", type=int, default=4, help="runs side by side")
    arguments.add_argument("--keep", default=os.path.join(tempfile.gettempdir(), "fire-finds"), help="the folder in which inputs of finds are kept")
    chosen = arguments.parse_args()
    program.need_program()
    begun = time.monotonic()
    parts = [(range(begin, min(begin + 50, chosen.count)), chosen.seed) for begin in range(0, chosen.count, 50)]
    tally, tried, finds = collections.Counter(), 0, 0
    with multiprocessing.Pool(chosen.jobs) as pool:
        for count, counted, found in pool.imap_unordered(try_some, parts):
            tried += count
            tally.update(counted)
            finds += len(found)
            for find in found:
                keep(chosen.keep, find)
    for name in sorted(tally):
        print("%9d  %s" % (tally[name], name))
    print("changed designs: %d tried from seed %d in %d s, %d finds" % (tried, chosen.seed, time.monotonic() - begun, finds))
    return 1 if finds or tried != chosen.count else 0


if __name__ == "__main__":
    sys.exit(main())
