#!/usr/bin/env python3
"""Compares each report among the examples with what the built program writes, and with a second look.

For each examples/NAME.report the program plans examples/NAME.csv, with `--draw` where the report has drawings, and has to
write the same bytes, with status 1 where the file has a row that is refused and else 0, and with that status's line on
standard error. The shipped report itself is looked at by plan_look.py: an entry for each row, each plan with the verdict yes,
the least instance, the drawings. With `--look-alone` no program is needed and only the second part is done. The last line is
of totals; the status is not 0 where anything was found.
"""

import argparse
import itertools
import pathlib
import sys

import plan_look
import program
from orders import rows_of
from program import Outcome, SAID, run


def first_difference(written, shipped):
    """The first line, from 1, at which two texts differ, with both lines; None where a text has ended."""
    for number, (line, other) in enumerate(itertools.zip_longest(written.split(b"\n"), shipped.split(b"\n")), 1):
        if line != other:
            return "line %d: %r in place of %r" % (number, line, other)
    return None


def finds_in(report, look_alone):
    """What is wrong with a shipped report."""
    data, shipped = report.with_suffix(".csv").read_bytes(), report.read_bytes()
    draw = shipped.startswith(b"pallet-drawing 1\n")
    status = 1 if any(isinstance(row, str) for row in rows_of(data)) else 0
    right = Outcome(status, shipped, SAID[status])
    wrong, _ = plan_look.looks_wrong(data, right, draw)
    finds = ["second look: " + wrong] if wrong else []
    if not look_alone:
        outcome = run(["plan", "--draw"] if draw else ["plan"], data)
        if outcome.written != shipped:
            finds.append(first_difference(outcome.written, shipped))
        elif outcome.key() != right.key():
            finds.append("%r, and status %d is right" % (outcome, status))
    return finds


def main():
    arguments = argparse.ArgumentParser(description=__doc__, formatter_class=argparse.RawDescriptionHelpFormatter)
    arguments.add_argument("--look-alone", action="store_true", help="run no program")
    look_alone = arguments.parse_args().look_alone
    if not look_alone:
        program.need_program()
    reports = sorted(pathlib.Path(program.EXAMPLES).glob("*.report"))
    finds = [(report.name, find) for report in reports for find in finds_in(report, look_alone)]
    for name, find in finds:
        print("FIND %s: %s" % (name, find))
    print("shipped reports: %d, %d finds" % (len(reports), len(finds)))
    return 1 if finds or not reports else 0


if __name__ == "__main__":
    sys.exit(main())
