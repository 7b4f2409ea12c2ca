#!/usr/bin/env python3
"""Gives the built program the largest inputs that it takes, and prints for each the time and the most memory held at once.

Orders files of 256 rows, each with a layer of up to 1,000 cases: of equal cells, with gaps and all stack rules, with stacks
of 10,000 layers, thin ones, ones whose search is as long as it can be, and ones with trees of nearly 500,000 marks; drawn and
not. A designs file of 256 sizes with as many cases. Reports: what these gave, and a made one in which each of 256 entries has
eight layers of 1,000 cases, a table of 40,000 weights, a tree of 500,000 marks and a stack of 10,000 numbers, once whole and
once cut to below 160,000,000 bytes; and inputs that are one byte too long. Each run has to end with the status and, where it
is known, the text that is due: the entries of `plan` are read by the second reader, a few are judged by the second judge, and
`check` has to say yes to all. Prints a table in the form of docs/PERFORMANCE.md, and as the last line totals; the status is
not 0 where anything else was seen. Needs 1.5 GB in the temporary folder, and some minutes.
"""

import argparse
import collections
import os
import random
import subprocess
import sys
import tempfile

import changed_designs
import designs
import mutated_inputs
import plan_look
import program
from orders import MOST_BYTES as MOST_ORDERS_BYTES
from orders import fault_of_numbers, rows_of
from program import GAP_HEADER, SAID, Outcome
from reports import HEADS, MOST_BYTES, Plan, Refused, entry_text, read_report
from second_look import right_stack, variants_of, verdict_of
from trees import longest_tree


class Measured:
    """The runs of this script, in a folder of its own."""

    def __init__(self, folder):
        self.folder, self.runs, self.finds = folder, 0, []

    def path(self, name):
        return os.path.join(self.folder, name)

    def write(self, name, data):
        with open(self.path(name), "wb") as file:
            file.write(data)
        return self.path(name)

    def read(self, name):
        with open(self.path(name), "rb") as file:
            return file.read()

    def run(self, what, words, source, output, status):
        """Runs the program, prints a row of the table, and looks at the status and its line on standard error."""
        helper = os.path.join(program.TOP, "fire", "measured.py")
        ended = subprocess.run([sys.executable, "-S", helper, self.path(source), self.path(output), program.PROGRAM, *words],
                               stdout=subprocess.PIPE, stderr=subprocess.PIPE, check=True)
        seen, clock, processor, memory = ended.stdout.split()
        self.runs += 1
        print("| %s | `%s` | %.1f MB | %.1f MB | %.2f (%.2f) s | %.0f MB |" % (
            what, " ".join(words), os.path.getsize(self.path(source)) / 1e6, os.path.getsize(self.path(output)) / 1e6,
            float(clock), float(processor), int(memory) * 1024 / 1e6))
        sys.stdout.flush()
        if int(seen) != status or SAID[status] not in (None, ended.stderr):
            self.find("%s, %s: status %d, %r" % (what, words, int(seen), ended.stderr))

    def find(self, text):
        self.finds.append(text)
        print("FIND " + text)

    def same(self, what, name, other):
        if self.read(name) != self.read(other):
            self.find("%s: not the text that is due" % what)


def yes_to(count):
    return b"".join(b"entry %d yes\n" % number for number in range(1, count + 1)) + b"done %d\n" % count


def orders_of(rows):
    """An orders file of rows of twelve numbers."""
    lines = [b",".join([b"L%d" % place] + [b"%d" % number for number in row]) for place, row in enumerate(rows)]
    return GAP_HEADER + b"".join(line + b"\n" for line in lines)


# ---- orders

def unit_rows():
    return [[40, 25, 1, 1, 1, 1, 10, 10000, 0, 0, 100, 0]] * 256


def gap_rows():
    """Rows of 990 to 1,000 cases by area, with gaps, all rules, and 10,000 layers allowed."""
    rows = []
    for seed in range(20000):
        short, more, gap = 20 + seed * 7 % 61, 1 + seed * 13 % 37, 1 + seed % 6
        long_side = short + more
        pallet_x = min(3990, (long_side + gap) * (20 + seed * 11 % 30) + seed % 17)
        pallet_y = min(3990, 1000 * (long_side + gap) * (short + gap) // (pallet_x + gap) - gap)
        row = [pallet_x, pallet_y, long_side, short, 1, 1, 10000, 100000000, 50, 1, 60, gap]
        area = (pallet_x + gap) * (pallet_y + gap) // ((long_side + gap) * (short + gap))
        if area >= 990 and fault_of_numbers(row, 1000) is None:
            rows.append(row)
    return rows[:256]


def long_stack_rows():
    """Rows of 1,000 cases whose layers differ and stand 10,000 high."""
    return [[4000, 4000, 160, 100, 1, 1, 10000, 100000000, 70, 0, 100, 0]] * 256


def thin_rows():
    return [[4000, 12, 4000, 1, 1, 1, 1000, 100000, 0, 0, 100, 0]] * 256


def open_rows():
    """Rows of nearly 1,000 cases whose search ends at 500,000 states."""
    return [[3999 - place % 16, 3001 + place // 16, 113, 107, 1, 1, 1000, 100000000, 50, 1, 60, 0] for place in range(256)]


def row_of(sides):
    return [*sides, 1, 1, 1000, 100000000, 50, 1, 60, 0]


def table_rows():
    return [row_of((47, 27, 10, 3))] * 256


def hard_row():
    """A row of nearly 40,000 cells that no table closes; the slowest of 1,778 rows that were drawn at random."""
    return [row_of((237, 164, 19, 8))]


def region_row():
    """A row whose layer only the search for L-regions finds."""
    return [row_of((93, 46, 13, 4))]


def look_at_plan(measured, what, source, output):
    """Reads the report, judges some of its entries, and says how many of its bytes and entries there are."""
    text = measured.read(output)
    rows = rows_of(measured.read(source))
    _, entries = read_report(text)
    if len(text) >= 160000000:
        measured.find("%s: a report of %d bytes" % (what, len(text)))
    for place, (row, entry) in enumerate(zip(rows, entries)):
        if isinstance(entry, Refused) or (entry.id, entry.order) != row:
            measured.find("%s: entry %d is not that of its row" % (what, entry.number))
        elif place in (0, 200):
            verdict = verdict_of(entry)
            if verdict != "yes":
                measured.find("%s: the second judge says %s of entry %d" % (what, verdict, entry.number))
    if len(rows) != len(entries):
        measured.find("%s: %d entries" % (what, len(entries)))
    counts = [entry.count for entry in entries]
    print("  (%d entries of %d to %d cases, %d optimal, %d with a stack)" % (
        len(entries), min(counts), max(counts), sum(entry.optimal for entry in entries),
        sum(isinstance(entry.stack, tuple) for entry in entries)))


def try_orders(measured, what, rows, others=True):
    """`plan` of these rows, `check` of what it wrote, and with `others` also `plan --draw`, `check --workers 4`, `upgrade`."""
    measured.write("orders", orders_of(rows))
    measured.run(what, ["plan"], "orders", "report", 0)
    look_at_plan(measured, what, "orders", "report")
    measured.write("yes", yes_to(len(rows)))
    measured.run(what, ["check"], "report", "verdicts", 0)
    measured.same("check of " + what, "verdicts", "yes")
    if not others:
        return
    measured.run(what, ["check", "--workers", "4"], "report", "verdicts", 0)
    measured.same("check --workers 4 of " + what, "verdicts", "yes")
    measured.run(what, ["upgrade"], "report", "upgraded", 0)
    measured.same("upgrade of " + what, "upgraded", "report")
    measured.run(what, ["plan", "--draw"], "orders", "drawn", 0)
    parts = plan_look.undrawn(measured.read("drawn"))
    if parts is None or parts[0] != measured.read("report"):
        measured.find("plan --draw of %s: not the same entries" % what)


# ---- designs

def try_design(measured):
    """A design of 256 sizes, of each of which 795 to 1,000 cases are allowed by area."""
    what, data = "256 sizes of nearly 1,000 cases", changed_designs.HEADER + b"\nD,4000,4000,160,175,100,115,1\n"
    measured.write("designs", data)
    measured.run(what, ["design"], "designs", "design", 0)
    measured.run(what, ["design", "--workers", "4"], "designs", "design of four", 0)
    measured.same(what + ", by four workers", "design of four", "design")
    asked, text = designs.asked_by(data), measured.read("design")
    entries = designs.read_design(text).entries
    if text != designs.design_text(designs.design_asked(asked, entries)):
        measured.find("%s: not the design of its entries" % what)
    if [(entry.id, entry.order) for entry in entries] != designs.rows_asked(asked):
        measured.find("%s: not the entries of its sizes" % what)
    for entry in entries[::200]:
        verdict = verdict_of(entry)
        if verdict != "yes":
            measured.find("%s: the second judge says %s of entry %d" % (what, verdict, entry.number))


# ---- the largest report

def largest_plan():
    """A plan that is sound, and whose text is nearly as long as a plan's can be."""
    plan = Plan()
    plan.number, plan.id = 1, b"x" * 40
    plan.order = (4000, 4000, 160, 100, 1, 1, 10000, 100000000, 100, 1, 100, 0)
    plan.reduced, plan.count, plan.bound, plan.optimal = (200, 200, 8, 5), 1000, 1000, True
    table = ("table", [(100000,) * 200] * 200)
    plan.cert = ("weighted", table, longest_tree(table, plan.reduced, plan.bound))
    standing = [(100 * i, 160 * j, "S") for i in range(8) for j in range(5)]
    lying = [(160 * i, 100 * j, "L") for i in range(25) for j in range(40) if i >= 5 or j >= 8]
    cases = sorted(standing + lying, key=lambda case: (case[1], case[0]))
    plan.layers = variants_of(plan.order, tuple(cases))
    plan.allowed = 10000
    plan.stack = right_stack(plan.order, plan.layers, plan.allowed)
    return plan


def try_reports(measured):
    plan = largest_plan()
    verdict = verdict_of(plan)
    if verdict != "yes":
        measured.find("the second judge says %s of the made entry" % verdict)
    text = entry_text(plan)
    print("  (the made entry: %d bytes, %d marks, %d layers, a stack of %d)" % (
        len(text), len(plan.cert[2]), len(plan.layers), len(plan.stack)))
    for count in (159990000 // len(text), 256):
        what = "%d made entries" % count
        measured.write("report", changed(plan, times=count))
        measured.write("yes", yes_to(count))
        for words in (["check"], ["check", "--workers", "4"], ["check", "--workers", "16"]):
            measured.run(what, words, "report", "verdicts", 0)
            measured.same(" ".join(words) + " of " + what, "verdicts", "yes")
        measured.run(what, ["upgrade"], "report", "upgraded", 0)
        measured.same("upgrade of " + what, "upgraded", "report")


def planned(row):
    """The entry that `plan` writes for a row of twelve numbers."""
    outcome = program.run(["plan"], orders_of([row]))
    return read_report(outcome.written)[1][0]


def changed(entry, **parts):
    """The bytes of a report, in the form `form`, of `times` such entries with some parts changed."""
    form, times = parts.pop("form", 2), parts.pop("times", 1)
    entry = entry.copy()
    for name, value in parts.items():
        setattr(entry, name, value)
    text = entry_text(entry, form)
    behind = text[text.index(b"\n"):]
    entries = b"".join(b"entry %d%s" % (number, behind) for number in range(1, times + 1))
    return HEADS[form] + b"\n" + entries + b"done %d\n" % times


def limit_reports():
    """Reports at a limit of the grammar, and one beyond it."""
    two, small = planned([5, 5, 3, 2, 1, 10, 2, 1000, 100, 1, 20, 0]), planned([20, 20, 1, 1, 1, 1, 10000, 100000000, 0, 0, 100, 0])
    full = planned([40, 25, 1, 1, 1, 1, 10, 10000, 0, 0, 100, 0])
    square = planned([200, 200, 8, 5, 1, 1, 1, 10000, 0, 0, 100, 0]).copy()
    square.reduced = (200, 200, 8, 5)
    cases = small.layers[0][1]
    yield from (changed(two, form=form, times=times) for form, times in ((2, 256), (2, 257), (1, 64), (1, 65)))
    yield from (changed(two, id=b" " * count, form=form) for count in (1, 40, 41) for form in (1, 2))
    yield from (changed(full, bound=bound, optimal=bound == 1000) for bound in (999, 1000, 1001))
    yield from (changed(full, cert=("strip", [("area",)] * count)) for count in (1, 2, 1001, 1002, 1003))
    yield from (changed(small, cert=("strip", [("area",)] * count), form=1) for count in (402, 403))
    yield changed(full, form=1)
    for more in (0, 1):
        layers = [("same", cases + cases[-1:] * more)]
        yield changed(small, count=400 + more, bound=400 + more, layers=layers, form=1)
        yield changed(small, stack=(1,) * (10000 + more))
        yield changed(small, allowed=10000 + more)
        yield changed(two, cert=("weighted", ("area",), "B" * (500000 + more)))
        yield changed(two, cert=("weighted", ("area",), "B..." + "." * (499996 + more)))
        yield changed(square, cert=("weighted", ("table", [(100000 + more,) * 200] * 200), "."))
        yield changed(square, cert=("weighted", ("table", [(1,) * 200] * (200 + more)), "."))
        yield changed(square, cert=("weighted", ("table", [(1,) * (4000 + more)] * 10), "."))


def limit_orders():
    """Orders files at a limit, and one beyond it."""
    row = b"A,2,2,1,1,1,1,1,1,0,0,100\n"
    yield from (program.HEADER + row * count for count in (255, 256, 257))
    room = 262144 - len(program.HEADER)
    yield program.HEADER + b"x" * room
    yield program.HEADER + b"," * room
    yield program.HEADER + b"\"" * room
    yield program.HEADER + b"\n" * (room - len(row)) + row
    yield program.HEADER + b"\n" * (room - len(row)) + row + b"\n"
    yield program.HEADER + b"x\n" * (room // 2)
    yield program.HEADER + row.replace(b"A", b"x" * 40) + row.replace(b"A", b"x" * 41)


def limit_designs():
    """Designs files at a limit, and one beyond it."""
    head, row = changed_designs.HEADER + b"\n", b"D,5,5,3,3,2,3,1\n"
    room = MOST_ORDERS_BYTES - len(head)
    yield from (head + b"D,5,5,1,%d,1,1,1\n" % greatest for greatest in (255, 256, 257, 3999, 4000, 4001))
    yield from (head + b"D,5,5,1,4000,1,4000,%d\n" % area for area in (15999999, 16000000, 16000001))
    yield from (head + b"x" * count + row[1:] for count in (40, 41))
    yield from (head + b"\n" * (room - len(row)) + row + b"\n" * more for more in (0, 1))
    yield from (head + byte * room for byte in (b"x", b",", b"\"", b"\n"))


def try_limits(measured):
    """Limits, looked at as the changed inputs are."""
    tally, rng = collections.Counter(), random.Random(1)
    tries = [lambda data=data: mutated_inputs.try_check(rng, data, tally) for data in limit_reports()]
    tries += [lambda data=data: mutated_inputs.try_upgrade(data, tally) for data in limit_reports()]
    tries += [lambda data=data: mutated_inputs.try_plan(rng, data, tally) for data in limit_orders()]
    tries += [lambda data=data: changed_designs.try_design(rng, data, tally) for data in limit_designs()]
    for number, one in enumerate(tries):
        measured.runs += 1
        try:
            one()
        except mutated_inputs.Find as find:
            measured.find("limit %d: %s" % (number, str(find)[:500]))
    print("  (limits: %s)" % ", ".join("%d %s" % (tally[name], name) for name in sorted(tally)))


def try_too_long(measured):
    measured.write("orders", GAP_HEADER.ljust(262144, b"\n"))
    measured.run("an orders file of the most bytes", ["plan"], "orders", "report", 0)
    measured.write("orders", GAP_HEADER.ljust(262145, b"\n"))
    measured.run("one byte more", ["plan"], "orders", "report", 3)
    for size, status in ((MOST_BYTES, 6), (MOST_BYTES + 1, 3)):
        measured.write("report", b"pallet-report 2\nentry 1\nid ".ljust(size, b"x"))
        measured.run("no report, %d bytes" % size, ["check"], "report", "verdicts", status)
        measured.run("no report, %d bytes" % size, ["upgrade"], "report", "verdicts", status)


# ---- trials

def trial_text(number):
    """What a trial of a number has to write, from what `plan` writes for its sixteen rows."""
    data = GAP_HEADER + b"".join(b"t%d,%s\n" % (k, row) for k, row in enumerate(plan_look.trial_rows(number), 1))
    outcome = program.run(["plan"], data)
    wrong, entries = plan_look.looks_wrong(data, outcome, False)
    if wrong:
        return wrong.encode()
    counts = (number, sum(entry.count for entry in entries), sum(entry.optimal for entry in entries),
              sum(isinstance(entry.stack, tuple) for entry in entries))
    return b"trial %d\nrows 16\nplanned 16\ncases %d\noptimal %d\nstacks %d\nyes 16\n" % counts


def try_trials(measured):
    measured.write("nothing", b"")
    measured.run("", ["trial", "--number", "1000000"], "nothing", "trial", 0)
    for number in [1000000, 999999] + list(range(1, 101)):
        outcome = program.run(["trial", "--number", str(number)], b"")
        measured.runs += 1
        if outcome.key() != Outcome(0, trial_text(number), b"").key():
            measured.find("trial %d: %r" % (number, outcome))


ROWS = [
    ("256 rows of 1,000 cases of one cell", unit_rows, True),
    ("256 rows of about 1,000 cases, gaps, all rules, 10,000 layers", gap_rows, True),
    ("256 rows of 1,000 cases, 10,000 layers", long_stack_rows, True),
    ("256 rows 4000 12 4000 1", thin_rows, False),
    ("256 rows of nearly 1,000 cases, walks of 500,000 states", open_rows, False),
    ("256 rows 47 27 10 3, each closed by a table", table_rows, False),
    ("one row 93 46 13 4, its layer found by L-regions", region_row, False),
    ("one row 237 164 19 8, open", hard_row, False),
]


def main():
    arguments = argparse.ArgumentParser(description=__doc__, formatter_class=argparse.RawDescriptionHelpFormatter)
    arguments.add_argument("--folder", help="where the inputs lie meanwhile (a temporary folder)")
    chosen = arguments.parse_args()
    program.need_program()
    with tempfile.TemporaryDirectory(dir=chosen.folder) as folder:
        measured = Measured(folder)
        print("| What | Words | Read | Written | By the clock (processor time) | Memory |\n|---|---|---|---|---|---|")
        for what, rows, others in ROWS:
            try_orders(measured, what, rows(), others)
        try_design(measured)
        try_reports(measured)
        try_limits(measured)
        try_too_long(measured)
        try_trials(measured)
    print("largest inputs: %d runs, %d finds" % (measured.runs, len(measured.finds)))
    return 1 if measured.finds else 0


if __name__ == "__main__":
    sys.exit(main())
