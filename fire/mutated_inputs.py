#!/usr/bin/env python3
"""Gives the built program a hundred thousand changed inputs, and compares what it does with a second look.

Orders files go to `plan` (some drawn, some with 1 to 16 workers), reports to `check` (with 1 to 16 workers) and to `upgrade`.
They are made from the shipped examples and from small made orders by a seeded generator: bits, bytes, lines, words and numbers
of a text are changed, lines exchanged, texts cut off; and entries are changed within the grammar: cases, layers, moves, counts, bounds,
certificates, planned instances, orders and stacks, after which what follows from them is mostly brought into line again, so
that the later clauses are reached. Input number i of a seed is the same in each run.

Looked at is, for each input: the program ends by itself, with a status that docs/FORMATS.md lists and its very line on
standard error; `check` writes exactly the verdicts of the second judge (second_look.py), or says that the text is no report
at exactly the line that the second reader answers; `upgrade` writes exactly the entries that the second reader read; `plan`
writes an entry for each row that the second reader of orders files finds, with its fault or with a plan on which the second
judge says yes, and each such plan's instance is the least; some of the reports are then given to `check`. Of each plan
that is right, on a pallet of at most 150 cells, all layers are tried: none has more cases than the bound. A difference
is a find; the input is kept. The last line is of totals; the status is not 0 where anything was found.
"""

import argparse
import collections
import multiprocessing
import os
import random
import sys
import tempfile
import time
import traceback

import mutations
import plan_look
import program
from exhaustive import greatest_of
from program import SAID, run
from reports import NotAReport, Refused, read_report, report_text
from second_look import verdict_of, verdicts_text
from trees import shortest_tree

MADE_ROWS = [
    "6,6,4,1,1,10,4,1000,10,0,60,0", "5,5,3,3,1,10,1,1000,0,0,100,0", "1000,1000,300,200,1,10,3,1000,50,1,70,0",
    "4,11,11,4,1,10,1,1000,0,0,100,0", "9,8,5,2,1,10,5,1000,60,1,90,0", "5,5,3,2,1,10,2,1000,100,1,19,0",
    "5,5,3,2,1,10,2,1000,100,1,20,0", "2,2,2,2,1,1,3,1000,0,1,100,0", "12,11,7,2,1,1,1,1,0,0,100,0",
    "14,13,5,3,1,1,9,1000,30,1,90,0", "14,13,4,3,1,1,9,1000,30,1,90,0", "10,10,3,2,1,1,9,1000,30,1,90,0",
    "19,12,7,2,1,1,9,1000,30,1,90,0", "33,33,7,4,1,1,9,1000,30,1,90,0", "13,13,5,3,1,1,9,1000,40,1,80,1",
    "5,5,2,2,1,10,2,1000,100,1,99,1", "20,20,5,4,1,1,6,1000,0,1,100,2", "40,25,3,1,1,1,4,4000,20,0,60,0",
]


class Find(Exception):
    """What a run did is not what it had to do."""


def base_orders(rng):
    """Orders files that are accepted: the shipped ones, the rows above, and a hundred made ones."""
    shipped = [program.example(name) for name in ("one-order.csv", "dozen-orders.csv", "mixed-orders.csv")]
    made = [program.GAP_HEADER + b"".join(b"M%d,%s\n" % (i, row.encode()) for i, row in enumerate(MADE_ROWS))]
    drawn = [mutations.random_row(rng) for _ in range(100)]
    rows = [b"R%d,%s\n" % (i, b",".join(b"%d" % number for number in row)) for i, row in enumerate(drawn)]
    return shipped + [program.TWO_LAYERS] + made + [program.GAP_HEADER + b"".join(rows)]


def base_entries(files):
    """The entries of the reports that `plan` writes for these files."""
    entries = []
    for data in files:
        outcome = run(["plan"], data)
        wrong, found = plan_look.looks_wrong(data, outcome, False)
        if wrong:
            raise Find("plan of a file that is not changed: %s, %r" % (wrong, outcome))
        entries += found
    # A certificate of thousands of marks takes the second judge long.
    entries = [entry for entry in entries if isinstance(entry, Refused) or len(str(entry.cert)) < 4000]
    return entries + [treed for entry in entries for treed in treed_of(entry)]


def treed_of(entry):
    """The entry with its bound shown by trees, where they have more than one mark and not many."""
    if isinstance(entry, Refused) or entry.reduced[0] * entry.reduced[1] > 900:
        return []
    long_side, short_side = entry.reduced[2:]
    found = []
    for weighting in (("area",), ("colour", long_side, 0), ("colour", short_side, short_side - 1)):
        marks = shortest_tree(weighting, entry.reduced, entry.bound, 2000)
        if marks is not None and len(marks) > 1:
            treed = entry.copy()
            treed.cert = ("weighted", weighting, marks)
            found.append(treed)
    return found


def make_orders(rng, base):
    """A changed orders file."""
    if rng.random() < 0.5:
        data = mutations.random_orders(rng, (program.HEADER, program.GAP_HEADER))
    else:
        data = rng.choice(base["files"][:5])
    if rng.random() < 0.7:
        for _ in range(rng.choice([1, 1, 1, 2, 4])):
            data = mutations.change_text(rng, data)
    return data


def make_report(rng, base):
    """A changed report, of one of both forms."""
    entries = [rng.choice(base["entries"]) for _ in range(rng.choice([1, 1, 1, 2, 3, 6]))]
    kind = rng.random()
    for place, entry in enumerate(entries):
        changed = kind < 0.65 and (place == 0 or rng.random() < 0.5)
        entries[place] = mutations.change_entry(rng, entry) if changed else entry.copy()
        entries[place].number = place + 1
    data = report_text(entries, 1 if rng.random() < 0.15 else 2)
    if kind > 0.55:
        for _ in range(rng.choice([1, 1, 1, 2, 4])):
            data = mutations.change_text(rng, data)
    return data


def look_at_run(outcome):
    """The run ended by itself, with a documented status and its line."""
    if outcome.status is None:
        raise Find("it does not end in time")
    if outcome.status not in SAID:
        raise Find("status %d" % outcome.status)
    said = SAID[outcome.status]
    if said is not None and outcome.said != said:
        raise Find("status %d and on standard error %r" % (outcome.status, outcome.said))
    if 2 <= outcome.status <= 7 and outcome.written:
        raise Find("status %d, and something was written" % outcome.status)


def is_no_report(outcome, line):
    return outcome.key() == (6, b"", b"pallet: not a report, line %d\n" % line)


def shown_by(entry, verdict):
    """How the bound is shown, or not shown, for the counts."""
    if verdict not in ("yes", "no bound 0"):
        return ""
    if entry.cert[0] != "weighted":
        return ", " + entry.cert[0]
    return ", %s and %s" % (entry.cert[1][0], "one mark" if len(entry.cert[2]) == 1 else "a tree")


def look_at_bound(entry, tally):
    """The count is at most the greatest count there is, and the bound at least that, where it can be found by trying all layers."""
    greatest = greatest_of(entry)
    if greatest is not None:
        tally["sound plans compared with all layers"] += 1
        if not entry.count <= greatest <= entry.bound:
            raise Find("entry %d: the greatest count is %d" % (entry.number, greatest))


def try_check(rng, data, tally):
    words = ["check"]
    if rng.random() < 0.3:
        words += ["--workers", str(rng.randrange(1, 17))]
    outcome = run(words, data)
    look_at_run(outcome)
    tally["check, status %d" % outcome.status] += 1
    try:
        _, entries = read_report(data)
    except NotAReport as wrong:
        if not is_no_report(outcome, wrong.line):
            raise Find("the second reader: no report, line %d; the program: %r" % (wrong.line, outcome)) from None
        return
    verdicts = [verdict_of(entry) for entry in entries]
    for entry, verdict in zip(entries, verdicts):
        tally["verdict " + verdict.rstrip("0123456789 ") + shown_by(entry, verdict)] += 1
        if verdict == "yes":
            look_at_bound(entry, tally)
    found = any(verdict.startswith("no") for verdict in verdicts)
    if outcome.key() != (int(found), verdicts_text(entries, verdicts), SAID[found]):
        raise Find("the second judge: %r; the program: %r" % (verdicts, outcome))


def try_upgrade(data, tally):
    outcome = run(["upgrade"], data)
    look_at_run(outcome)
    tally["upgrade, status %d" % outcome.status] += 1
    try:
        _, entries = read_report(data)
    except NotAReport as wrong:
        if not is_no_report(outcome, wrong.line):
            raise Find("the second reader: no report, line %d; the program: %r" % (wrong.line, outcome)) from None
        return
    if outcome.key() != (0, report_text(entries), b""):
        raise Find("another text than that of the entries: %r" % outcome)


def try_plan(rng, data, tally):
    draw = rng.random() < 0.2
    words = ["plan", "--draw"] if draw else ["plan"]
    if rng.random() < 0.3:
        words += ["--workers", str(rng.randrange(1, 17))]
    outcome = run(words, data)
    look_at_run(outcome)
    tally["plan, status %d" % outcome.status] += 1
    wrong, entries = plan_look.looks_wrong(data, outcome, draw)
    if wrong:
        raise Find("%s: %s" % (" ".join(words), wrong))
    for entry in entries:
        if not isinstance(entry, Refused):
            look_at_bound(entry, tally)
    tally["rows planned"] += sum(not isinstance(entry, Refused) for entry in entries)
    tally["rows refused"] += sum(isinstance(entry, Refused) for entry in entries)
    if entries and not draw and rng.random() < 0.2:
        checked = run(["check"], outcome.written)
        verdicts = ["refused" if isinstance(entry, Refused) else "yes" for entry in entries]
        if checked.key() != (0, verdicts_text(entries, verdicts), b""):
            raise Find("check of the report that plan wrote: %r" % checked)
        tally["reports of plan given to check"] += 1


def try_input(number, base, tally):
    """Makes the input of this number and tries it. Returns None, or a find with the input."""
    rng = random.Random(base["seed"] * 1000003 + number)
    kind = rng.random()
    data = b""
    try:
        if kind < 0.3:
            data = make_orders(rng, base)
            try_plan(rng, data, tally)
        else:
            data = make_report(rng, base)
            if kind < 0.4:
                try_upgrade(data, tally)
            else:
                try_check(rng, data, tally)
    except Find as find:
        return number, str(find), data
    except Exception:  # a fault of the second look is a find too: it has to be looked into
        return number, traceback.format_exc(), data
    return None


BASE = {}


def begin_worker(base):
    BASE.update(base)


def try_some(numbers):
    tally, finds = collections.Counter(), []
    for number in numbers:
        find = try_input(number, BASE, tally)
        if find is not None:
            finds.append(find)
    return len(numbers), tally, finds


def keep(folder, find):
    number, what, data = find
    os.makedirs(folder, exist_ok=True)
    path = os.path.join(folder, "input-%d" % number)
    with open(path, "wb") as file:
        file.write(data)
    print("FIND input %d, kept in %s: %s" % (number, path, what[:2000]))
    sys.stdout.flush()


def main():
    arguments = argparse.ArgumentParser(description=__doc__, formatter_class=argparse.RawDescriptionHelpFormatter)
    arguments.add_argument("--count", type=int, default=100000, help="how many inputs")
    arguments.add_argument("--first", type=int, default=0, help="the number of the first one")
    arguments.add_argument("--seed", type=int, default=1)
    arguments.add_argument("--jobs", type=int, default=4, help="runs side by side")
    arguments.add_argument("--keep", default=os.path.join(tempfile.gettempdir(), "fire-finds"), help="the folder in which inputs of finds are kept")
    chosen = arguments.parse_args()
    program.need_program()
    begun = time.monotonic()
    files = base_orders(random.Random(chosen.seed))
    base = {"files": files, "entries": base_entries(files), "seed": chosen.seed}
    end = chosen.first + chosen.count
    parts = [range(begin, min(begin + 50, end)) for begin in range(chosen.first, end, 50)]
    tally, tried, finds = collections.Counter(), 0, 0
    with multiprocessing.Pool(chosen.jobs, begin_worker, (base,)) as pool:
        for count, counted, found in pool.imap_unordered(try_some, parts):
            tried += count
            tally.update(counted)
            finds += len(found)
            for find in found:
                keep(chosen.keep, find)
    for name in sorted(tally):
        print("%9d  %s" % (tally[name], name))
    print("mutated inputs: %d tried from seed %d in %d s, %d finds" % (tried, chosen.seed, time.monotonic() - begun, finds))
    return 1 if finds or tried != chosen.count else 0


if __name__ == "__main__":
    sys.exit(main())
