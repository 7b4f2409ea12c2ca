#!/usr/bin/env python3
"""A second look at truck floors, written from docs/FORMATS.md alone: a reader of floors files, and a reader, a writer and a judge
of the texts of floors.

`floors.py < FLOOR` writes what `pallet check-floor` has to write, with its status.
"""

import sys

from orders import GAP_HEADER, MOST_BYTES, NoOrders, records_of, row_of
from reports import Lines, NotAReport, Refused, entry_text, read_entry
from second_look import verdict_of, verdicts_text

HEAD = b"pallet-floor 1"
FLOOR_HEADER = [b"id", b"floor_x", b"floor_y"] + GAP_HEADER[1:]
MOST_FLOORS = 128
FIXED_FIELDS = [b"1", b"1", b"1", b"100000000", b"0", b"0", b"100", b"0"]
FIXED = tuple(int(field) for field in FIXED_FIELDS)
MOST_PALLETS, MOST_ON_A_PALLET = 1000, 10000000


def floors_of(data):
    """The rows of a floors file, two for each of its own, each a fault or (id, numbers). Raises NoOrders with the status of a
    file that is none."""
    if len(data) > MOST_BYTES:
        raise NoOrders(3)
    records = records_of(data)
    if not records or records[0] != FLOOR_HEADER:
        raise NoOrders(4)
    if len(records) - 1 > MOST_FLOORS:
        raise NoOrders(5)
    return [row for fields in records[1:] for row in both_rows(fields)]


def both_rows(fields):
    """The order of the floor, and that of the load."""
    if len(fields) != len(FLOOR_HEADER):
        return ["FieldCount", "FieldCount"]
    return [row_of(fields[:5] + FIXED_FIELDS, GAP_HEADER), row_of(fields[:1] + fields[3:], GAP_HEADER)]


def read_floor(data):
    """The rows of a floor's text, each (entry of the floor, entry of the load, total): a total is None, or (pallets, cases, bound of
    pallets, bound of cases, last word). Raises NotAReport."""
    lines = Lines(data)
    lines.expect(HEAD)
    rows = []
    line = lines.next()
    while line == b"entry %d" % (2 * len(rows) + 1) and len(rows) < MOST_FLOORS:
        floor = read_entry(lines, 2, 2 * len(rows) + 1)
        lines.expect(b"entry %d" % (2 * len(rows) + 2))
        load = read_entry(lines, 2, 2 * len(rows) + 2)
        rows.append((floor, load, read_total(lines, lines.next())))
        line = lines.next()
    if line != b"done %d" % (2 * len(rows)):
        lines.fail()
    lines.end()
    return rows


def read_total(lines, line):
    if line == b"total none":
        return None
    parts = line.split(b" ")
    if len(parts) != 9 or (parts[2], parts[4], parts[6]) != (b"x", b"of", b"x") or parts[8] not in (b"optimal", b"open"):
        lines.fail()
    joined = b" ".join([parts[0]] + parts[1:8:2])
    numbers = lines.numbers_in(joined, b"total", [(1, MOST_PALLETS), (0, MOST_ON_A_PALLET)] * 2)
    return (*numbers, parts[8])


def total_of(floor, load):
    """The total of two entries."""
    if isinstance(floor, Refused) or isinstance(load, Refused):
        return None
    cases = load.count * load.allowed if isinstance(load.stack, tuple) else 0
    height, weight = load.order[6] // load.order[4], load.order[7] // load.order[5]
    most = min(height * load.bound, weight)
    word = b"optimal" if floor.count * cases == floor.bound * most else b"open"
    return (floor.count, cases, floor.bound, most, word)


def total_text(total):
    return b"total none\n" if total is None else b"total %d x %d of %d x %d %s\n" % total


def floor_text(rows):
    """The bytes of a floor's text."""
    texts = [entry_text(floor) + entry_text(load) + total_text(total) for floor, load, total in rows]
    return HEAD + b"\n" + b"".join(texts) + b"done %d\n" % (2 * len(rows))


def go_together(floor, load):
    """Whether the first order is that of a floor for the loaded pallets of the second."""
    if isinstance(floor, Refused) or isinstance(load, Refused):
        return True
    return tuple(floor.order[2:]) == (load.order[0], load.order[1]) + FIXED


def answer_of(rows):
    """The status and the bytes of `check-floor`."""
    written, found = b"", False
    for floor, load, total in rows:
        verdicts = [verdict_of(floor), verdict_of(load)]
        no = any(verdict.startswith("no") for verdict in verdicts)
        right = not no and go_together(floor, load) and total == total_of(floor, load)
        written += verdicts_text([floor, load], verdicts).rsplit(b"done", 1)[0]
        written += b"total yes\n" if right else b"total no\n"
        found = found or not right
    return int(found), written + b"done %d\n" % (2 * len(rows))


def main():
    try:
        status, text = answer_of(read_floor(sys.stdin.buffer.read()))
    except NotAReport as no_floor:
        print("second look: not a floor, line %d" % no_floor.line, file=sys.stderr)
        return 6
    sys.stdout.buffer.write(text)
    return status


if __name__ == "__main__":
    sys.exit(main())
