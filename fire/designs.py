#!/usr/bin/env python3
"""A second look at what `design` writes, written from docs/FORMATS.md alone: a reader of designs files, and a reader, a writer and
a judge of the texts of designs.

`designs.py FILE < DESIGN` says what is wrong with the text that `pallet design` wrote of a designs file, or that it is right.
"""

import sys

from orders import MOST_BYTES, NoOrders, fault_of_numbers, is_id, number_of, records_of
from plan_look import entry_looks_wrong
from program import SAID
from reports import MOST_ENTRIES, Lines, NotAReport, Refused, entry_text, read_entry

HEAD = b"pallet-design 1"
COLUMNS = ["pallet_x", "pallet_y", "long_from", "long_to", "short_from", "short_to", "least_area"]
DESIGN_HEADER = [b"id"] + [column.encode() for column in COLUMNS]
GREATEST = dict.fromkeys(COLUMNS, 4000) | {"least_area": 16000000}
MOST_SIZES = 256
# What follows the sides in the order of a size: case_z, weight, max_height, max_weight, contact, support, cut, gap.
FIXED = (1, 1, 1, 100000000, 0, 0, 100, 0)
FAULTS = ["FieldCount", "BadId", "NoSize", "TooManySizes"] \
    + [kind + " " + column for kind in ("BadNumber", "OutOfRange") for column in COLUMNS]


class Design:
    """What a text tells: the fault of a refused row, or the id of a row with the entries of its sizes, the best one as a pair of
    number and cells, or None, and the rivals as such pairs. Without a row both the fault and the id are None."""

    def __init__(self, fault=None, name=None, entries=(), best=None, rivals=()):
        self.fault, self.id, self.entries, self.best, self.rivals = fault, name, list(entries), best, list(rivals)


# ---- the file

def asked_by(data):
    """What a designs file asks for: None where it has no row, the row's fault as a text, or (id, pallet_x, pallet_y, sizes).
    Raises NoOrders with the status of a file that is none."""
    if len(data) > MOST_BYTES:
        raise NoOrders(3)
    records = records_of(data)
    if not records or records[0] != DESIGN_HEADER:
        raise NoOrders(4)
    if len(records) > 2:
        raise NoOrders(5)
    return asked_in(records[1]) if len(records) == 2 else None


def asked_in(fields):
    if len(fields) != len(DESIGN_HEADER):
        return "FieldCount"
    if not is_id(fields[0]):
        return "BadId"
    numbers = [number_of(field) for field in fields[1:]]
    for column, number in zip(COLUMNS, numbers):
        if number is None:
            return "BadNumber " + column
    for column, number in zip(COLUMNS, numbers):
        if not 1 <= number <= GREATEST[column]:
            return "OutOfRange " + column
    sizes = sizes_of(*numbers[2:])
    if not sizes:
        return "NoSize"
    return (fields[0], *numbers[:2], sizes) if len(sizes) <= MOST_SIZES else "TooManySizes"


def sizes_of(long_from, long_to, short_from, short_to, least_area):
    """The sizes, by the long side and then by the short one; of more than 256 the first 257."""
    sizes = []
    for long_side in range(long_from, long_to + 1):
        greatest = min(short_to, long_side)
        if long_side * greatest < least_area:
            continue  # none of this long side
        for short_side in range(short_from, greatest + 1):
            if long_side * short_side >= least_area:
                sizes.append((long_side, short_side))
            if len(sizes) > MOST_SIZES:
                return sizes
    return sizes


def orders_asked(asked):
    """The order of each size, (id, numbers), before it is tested."""
    if asked is None or isinstance(asked, str):
        return []
    name, pallet_x, pallet_y, sizes = asked
    return [(name, (pallet_x, pallet_y, *size, *FIXED)) for size in sizes]


def rows_asked(asked):
    """The row of each size: a fault, or (id, numbers)."""
    return [fault_of_numbers(numbers, 1000) or (name, numbers) for name, numbers in orders_asked(asked)]


# ---- the text

def read_design(data):
    """The design that these bytes are. Raises NotAReport."""
    lines = Lines(data)
    lines.expect(HEAD)
    line, design = lines.next(), Design()
    if line.startswith(b"refused "):
        design.fault = line[len(b"refused "):].decode("latin-1")
        if design.fault not in FAULTS:
            lines.fail()
        line = lines.next()
    elif line.startswith(b"id "):
        design.id = line[len(b"id "):]
        line = read_sizes(lines, design)
    if line != b"done %d" % len(design.entries):
        lines.fail()
    lines.end()
    return design


def read_sizes(lines, design):
    """Reads the entries, the best one and the rivals; returns the line behind them."""
    line = lines.next()
    while line == b"entry %d" % (len(design.entries) + 1) and len(design.entries) < MOST_ENTRIES[2]:
        design.entries.append(read_entry(lines, 2, len(design.entries) + 1))
        line = lines.next()
    design.best = None if line == b"best none" else read_told(lines, line, b"best")
    line = lines.next()
    while line.startswith(b"rival "):
        design.rivals.append(read_told(lines, line, b"rival"))
        line = lines.next()
    return line


def read_told(lines, line, word):
    """The number of an entry and the cells that a line tells of it."""
    parts = line.split(b" ")
    if len(parts) != 4 or parts[2] != b"covers":
        lines.fail()
    joined = b" ".join((parts[0], parts[1], parts[3]))
    return tuple(lines.numbers_in(joined, word, [(1, MOST_SIZES), (1, GREATEST["least_area"])]))


def design_text(design):
    """The bytes of a design."""
    text = HEAD + b"\n"
    if design.fault is not None:
        text += b"refused %s\n" % design.fault.encode()
    if design.id is not None:
        text += b"id %s\n" % design.id + b"".join(entry_text(entry) for entry in design.entries)
        text += b"best none\n" if design.best is None else b"best %d covers %d\n" % design.best
        text += b"".join(b"rival %d covers %d\n" % rival for rival in design.rivals)
    return text + b"done %d\n" % len(design.entries)


# ---- the look

def best_of(entries):
    """The first planned entry that covers most cells, and each planned one whose bound allows more cells than that, in order."""
    planned = [entry for entry in entries if not isinstance(entry, Refused)]
    if not planned:
        return None, []
    areas = {entry.number: entry.order[2] * entry.order[3] for entry in planned}
    most = max(entry.count * areas[entry.number] for entry in planned)
    best = next(entry for entry in planned if entry.count * areas[entry.number] == most)
    may = [(entry.number, entry.bound * areas[entry.number]) for entry in planned]
    return (best.number, most), [(number, cells) for number, cells in may if cells > most]


def design_asked(asked, entries):
    """The design of what a file asks for, with these entries."""
    if asked is None or isinstance(asked, str):
        return Design(fault=asked)
    return Design(None, asked[0], entries, *best_of(entries))


def status_of(asked, rows):
    """The status of a run that does all: 1 where the row or the order of a size is refused."""
    return int(isinstance(asked, str) or any(isinstance(row, str) for row in rows))


def text_looks_wrong(asked, text, deepest=60):
    """What is wrong with the text that was written of what a file asks for, or None; and the entries of the text. Whether the
    planned instances are the least is asked where their long case side is at most `deepest`."""
    try:
        design = read_design(text)
    except NotAReport as wrong:
        return "the text is no design at line %d" % wrong.line, []
    rows, entries = rows_asked(asked), design.entries
    right = design_asked(asked, entries)
    if (design.fault, design.id) != (right.fault, right.id):
        return "the row's line is to tell %r" % (right.fault or right.id,), entries
    if len(entries) != len(rows):
        return "%d sizes, and %d entries" % (len(rows), len(entries)), entries
    for row, entry in zip(rows, entries):
        wrong = entry_looks_wrong(row, entry, None, deepest)
        if wrong:
            return "entry %d: %s" % (entry.number, wrong), entries
    if (design.best, design.rivals) != (right.best, right.rivals):
        return "the best is %r, with the rivals %r" % (right.best, right.rivals), entries
    return (None if text == design_text(right) else "another text than that of the design"), entries


def looks_wrong(data, outcome, deepest=60):
    """What is wrong with a run of `design` on these bytes, as a text, or None; and the entries that it wrote."""
    try:
        asked = asked_by(data)
    except NoOrders as none:
        right = (none.status, b"", SAID[none.status])
        return (None if outcome.key() == right else "status %d and nothing is right" % none.status), []
    status = status_of(asked, rows_asked(asked))
    if (outcome.status, outcome.said) != (status, SAID[status]):
        return "status %d is right" % status, []
    return text_looks_wrong(asked, outcome.written, deepest)


def main():
    if len(sys.argv) != 2:
        sys.exit("usage: designs.py FILE < DESIGN")
    with open(sys.argv[1], "rb") as file:
        data = file.read()
    try:
        asked = asked_by(data)
    except NoOrders as none:
        print("second look: no designs file, status %d is right" % none.status)
        return 1
    wrong, entries = text_looks_wrong(asked, sys.stdin.buffer.read())
    print("second look: %s" % (wrong or "right, status %d, %d entries" % (status_of(asked, rows_asked(asked)), len(entries))))
    return int(wrong is not None)


if __name__ == "__main__":
    sys.exit(main())
