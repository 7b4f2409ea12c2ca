"""Runs the built program."""

import os
import subprocess
import sys

TOP = os.path.dirname(os.path.dirname(os.path.abspath(__file__)))
PROGRAM = os.environ.get("PALLET", os.path.join(TOP, "crates", "pallet", "out", "pallet"))
EXAMPLES = os.path.join(TOP, "examples")
GAP_HEADER = b"id,pallet_x,pallet_y,case_x,case_y,case_z,weight,max_height,max_weight,contact,support,cut,gap\n"
HEADER = GAP_HEADER.replace(b",gap", b"")
TWO_LAYERS = HEADER + b"A,5,5,3,2,1,10,2,1000,100,1,20\n"
TWO_SIZES = b"id,pallet_x,pallet_y,long_from,long_to,short_from,short_to,least_area\nD,5,5,3,3,2,3,1\n"
# What the program says on standard error with each status; None where more than one line is right.
SAID = {
    0: b"",
    1: b"pallet: some rows or entries were not accepted\n",
    2: b"usage: pallet plan [--draw] [--workers N] | check [--workers N] | upgrade | choose | check-choice | design [--workers N] | floor | check-floor | trial --number N\n",
    3: b"pallet: input too long\n",
    4: b"pallet: no header\n",
    5: b"pallet: too many rows\n",
    6: None,
    7: b"pallet: reading failed\n",
    8: b"pallet: writing failed\n",
    9: b"pallet: out of memory\n",
}


class Outcome:
    """What a run gave. A negative status is the signal that ended it; None says that it did not end in time."""

    def __init__(self, status, written, said):
        self.status, self.written, self.said = status, written, said

    def key(self):
        return (self.status, self.written, self.said)

    def __repr__(self):
        return "status %s, %d bytes written %r, said %r" % (self.status, len(self.written), self.written[:200], self.said[:200])


def need_program():
    """Ends with status 2 where the program is not built."""
    if not os.access(PROGRAM, os.X_OK):
        print("no program at %s: run ./pallet once, or name one in PALLET" % PROGRAM, file=sys.stderr)
        sys.exit(2)


def run(words, data, environment=None, seconds=120):
    """Runs the program with these words on these bytes."""
    variables = None
    if environment is not None:
        variables = dict(os.environ)
        variables.update(environment)
    try:
        ended = subprocess.run([PROGRAM, *words], input=data, stdout=subprocess.PIPE, stderr=subprocess.PIPE,
                               env=variables, timeout=seconds, check=False)
    except subprocess.TimeoutExpired as late:
        return Outcome(None, late.stdout or b"", late.stderr or b"")
    return Outcome(ended.returncode, ended.stdout, ended.stderr)


def example(name):
    with open(os.path.join(EXAMPLES, name), "rb") as file:
        return file.read()
