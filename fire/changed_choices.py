#!/usr/bin/env python3
"""Gives the built program some tens of thousands of changed choices, and compares what it does with the second look of choices.py.

A third of the inputs are orders files, changed like those of mutated_inputs.py: `choose` has to write the entries that `plan`
writes, and the choice among them, or what `plan` answers where it reads no rows; and `check-choice` has to say `choice yes`
of it where no entry was changed. The others are choices whose entries, tail or bytes are changed: `check-choice` has to write
the second look's verdicts, or to refuse the text at the very line. Input number i of a seed is the same in each run. The
last line is of totals; the status is not 0 where anything was found, and the inputs of finds are kept.
"""

import argparse
import collections
import multiprocessing
import os
import random
import sys
import tempfile
import time
import traceback

import mutations
import program
from choices import answer_of, choice_of, choice_text, read_choice
from mutated_inputs import Find, base_entries, base_orders, is_no_report, keep, look_at_run, make_orders
from program import SAID, run
from reports import NotAReport, read_report


def change_tail(rng, entries, chosen, rivals):
    """A choice that tells something else: another entry, another count, or other rivals."""
    numbers = [entry.number for entry in entries] + [1, 2, 256]
    kind = rng.randrange(6)
    if kind == 0:
        return rng.choice([None, (rng.choice(numbers), rng.randrange(1, 40))]), rivals
    if kind == 1 and chosen is not None:
        return (chosen[0], mutations.near(rng, chosen[1]) or 1), rivals
    if kind == 2 and rivals:
        return chosen, rivals[:-1]
    if kind == 3:
        return chosen, sorted(set(rivals) | {(rng.choice(numbers), rng.randrange(1, 40))})
    if kind == 4 and rivals:
        place = rng.randrange(len(rivals))
        return chosen, rivals[:place] + [(rivals[place][0], rivals[place][1] + 1)] + rivals[place + 1:]
    return chosen, list(reversed(rivals))


def make_choice(rng, base):
    """A changed choice."""
    entries = [rng.choice(base["entries"]).copy() for _ in range(rng.choice([0, 1, 2, 2, 3, 5]))]
    kind = rng.random()
    for place, entry in enumerate(entries):
        if kind < 0.3 and rng.random() < 0.5:
            entry = entries[place] = mutations.change_entry(rng, entry)
        entry.number = place + 1
    chosen, rivals = choice_of(entries)
    if 0.2 < kind < 0.6:
        chosen, rivals = change_tail(rng, entries, chosen, rivals)
    data = choice_text(entries, chosen, rivals)
    if kind > 0.5:
        for _ in range(rng.choice([0, 1, 1, 1, 2, 4])):
            data = mutations.change_text(rng, data)
    return data


def try_check(data, tally):
    outcome = run(["check-choice"], data)
    look_at_run(outcome)
    tally["check-choice, status %d" % outcome.status] += 1
    try:
        parts = read_choice(data)
    except NotAReport as wrong:
        if not is_no_report(outcome, wrong.line):
            raise Find("the second reader: no choice, line %d; the program: %r" % (wrong.line, outcome)) from None
        return
    status, text = answer_of(*parts)
    tally["choice " + ("no" if status else "yes")] += 1
    if outcome.key() != (status, text, SAID[status]):
        raise Find("the second look: %r; the program: %r" % (text, outcome))


def try_choose(data, tally):
    planned, outcome = run(["plan"], data), run(["choose"], data)
    look_at_run(outcome)
    tally["choose, status %d" % outcome.status] += 1
    if planned.status > 1:
        if outcome.key() != planned.key():
            raise Find("plan: %r; choose: %r" % (planned, outcome))
        return
    _, entries = read_report(planned.written)
    text = choice_text(entries, *choice_of(entries))
    if outcome.key() != (planned.status, text, SAID[planned.status]):
        raise Find("the choice among what plan writes is another: %r" % outcome)
    checked = run(["check-choice"], outcome.written)
    if checked.status != 0 or b"\nchoice yes\n" not in b"\n" + checked.written:
        raise Find("check-choice of what choose wrote: %r" % checked)
    tally["choices checked"] += 1


def try_input(number, base, tally):
    """Makes the input of this number and tries it. Returns None, or a find with the input."""
    rng = random.Random(base["seed"] * 1000003 + number)
    data = b""
    try:
        if rng.random() < 0.33:
            data = make_orders(rng, base)
            try_choose(data, tally)
        else:
            data = make_choice(rng, base)
            try_check(data, tally)
    except Find as find:
        return number, str(find), data
    except Exception:  # a fault of the second look is a find too: it has to be looked into
        return number, traceback.format_exc(), data
    return None


BASE = {}


def begin_worker(base):
    BASE.update(base)


def try_some(numbers):
    tally, finds = collections.Counter(), []
    for number in numbers:
        find = try_input(number, BASE, tally)
        if find is not None:
            finds.append(find)
    return len(numbers), tally, finds


def main():
    arguments = argparse.ArgumentParser(description=__doc__, formatter_class=argparse.RawDescriptionHelpFormatter)
    arguments.add_argument("--count", type=int, default=30000, help="how many inputs")
    arguments.add_argument("--seed", type=int, default=1)
    arguments.add_argument("--jobs", type=int, default=4, help="runs side by side")
    arguments.add_argument("--keep", default=os.path.join(tempfile.gettempdir(), "fire-finds"), help="the folder in which inputs of finds are kept")
    chosen = arguments.parse_args()
    program.need_program()
    begun = time.monotonic()
    files = base_orders(random.Random(chosen.seed))
    base = {"files": files, "entries": base_entries(files), "seed": chosen.seed}
    parts = [range(begin, min(begin + 50, chosen.count)) for begin in range(0, chosen.count, 50)]
    tally, tried, finds = collections.Counter(), 0, 0
    with multiprocessing.Pool(chosen.jobs, begin_worker, (base,)) as pool:
        for count, counted, found in pool.imap_unordered(try_some, parts):
            tried += count
            tally.update(counted)
            finds += len(found)
            for find in found:
                keep(chosen.keep, find)
    for name in sorted(tally):
        print("%9d  %s" % (tally[name], name))
    print("changed choices: %d tried from seed %d in %d s, %d finds" % (tried, chosen.seed, time.monotonic() - begun, finds))
    return 1 if finds or tried != chosen.count else 0


if __name__ == "__main__":
    sys.exit(main())
