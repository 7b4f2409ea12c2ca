"""A second look at what `plan` and `plan --draw` write: the rows' entries, the planned instance, the drawings."""

import re

from orders import NoOrders, rows_of, sides_of
from program import SAID
from reports import NotAReport, Refused, read_report
from second_look import extents, same_side, verdict_of

LETTERS = "abcdefghijklmnopqrstuvwxyzABCDEFGHIJKLMNOPQRSTUVWXYZ"


def least_side(side, long_side, short_side, new_long, new_short):
    """The least side on which, with the new case, the same pairs fit as on the side; None where there is none."""
    fits = [(side - i * long_side) // short_side for i in range(side // long_side + 1)]
    least = max(i * new_long + j * new_short for i, j in enumerate(fits))
    return least if same_side(side, long_side, short_side, least, new_long, new_short) else None


def is_least(given, reduced):
    """No instance with the same sides as the given one has a lesser long case side, or an equal one and a lesser short
    one, and so on along the four numbers."""
    for long_side in range(1, reduced[2] + 1):
        for short_side in range(1, long_side + 1):
            sides = [least_side(given[axis], given[2], given[3], long_side, short_side) for axis in (0, 1)]
            if None not in sides:
                return (sides[0], sides[1], long_side, short_side) == reduced
    return False


def mapped(spans):
    """Where the chain map brings the cases along an axis: for each the greatest total of new extents of a chain before it.
    A span is where a case begins, where it ends, and its new extent."""
    places = {}
    for place, (begin, _, _) in sorted(enumerate(spans), key=lambda one: one[1][0]):
        before = [places[other] + spans[other][2] for other in places if spans[other][1] <= begin]
        places[place] = max(before, default=0)
    return places


def drawing_lines(plan):
    """The lines of a plan's drawing."""
    width, height, new_long, new_short = plan.reduced
    if width * height > 40000:
        return ["drawing none"]
    gap, moved = plan.order[11], []
    for x, y, way in plan.layers[0][1]:
        along_x, along_y = (extent + gap for extent in extents(plan.order, way))
        new_x, new_y = (new_long, new_short) if way == "L" else (new_short, new_long)
        moved.append(((x, x + along_x, new_x), (y, y + along_y, new_y)))
    x_places, y_places = mapped([one[0] for one in moved]), mapped([one[1] for one in moved])
    cells = [["."] * width for _ in range(height)]
    placed = sorted((y_places[i], x_places[i], one[0][2], one[1][2]) for i, one in enumerate(moved))
    for number, (y, x, along_x, along_y) in enumerate(placed):
        for row in range(y, y + along_y):
            cells[row][x: x + along_x] = LETTERS[number % 52] * along_x
    return ["drawing %d %d" % (width, height)] + ["".join(row) for row in reversed(cells)]


def undrawn(text):
    """The report that a text with drawings is without them, and the drawings' lines, one list for each; or None."""
    if not text.startswith(b"pallet-drawing 1\n"):
        return None
    drawings, kept, left = [], [b"pallet-report 2"], 0
    for line in text.split(b"\n")[1:]:
        sizes = re.fullmatch(rb"drawing (?:none|\d+ (\d+))", line)
        if left:
            drawings[-1].append(line.decode("latin-1"))
            left -= 1
        elif sizes:
            drawings.append([line.decode()])
            left = int(sizes.group(1) or 0)
        else:
            kept.append(line)
    return b"\n".join(kept), drawings


def looks_wrong(data, outcome, draw, deepest=60):
    """What is wrong with a run of `plan` on these bytes, as a text, or None; and the entries that it wrote. Whether the planned
    instance is the least is asked where its long case side is at most `deepest`."""
    try:
        rows = rows_of(data)
    except NoOrders as none:
        right = (none.status, b"", SAID[none.status])
        return (None if outcome.key() == right else "status %d and nothing is right" % none.status), []
    text, drawings = outcome.written, None
    if draw:
        parts = undrawn(text)
        if parts is None:
            return "no first line of drawings", []
        text, drawings = parts
    try:
        form, entries = read_report(text)
    except NotAReport as wrong:
        return "the report is none at line %d" % wrong.line, []
    if form != 2 or len(entries) != len(rows):
        return "not an entry for each row in today's form", entries
    found = 1 if any(isinstance(row, str) for row in rows) else 0
    if (outcome.status, outcome.said) != (found, SAID[found]):
        return "status %d is right" % found, entries
    for row, entry in zip(rows, entries):
        wrong = entry_looks_wrong(row, entry, drawings, deepest)
        if wrong:
            return "entry %d: %s" % (entry.number, wrong), entries
    return ("a drawing too many" if drawings else None), entries


def entry_looks_wrong(row, entry, drawings, deepest):
    if isinstance(row, str) or isinstance(entry, Refused):
        fault = entry.fault if isinstance(entry, Refused) else "none"
        return None if row == fault else "its row is %r" % (row,)
    if (entry.id, entry.order) != row:
        return "its row is %r" % (row,)
    verdict = verdict_of(entry)
    if verdict != "yes":
        return verdict
    given = sides_of(entry.order)
    if any(new > old for new, old in zip(entry.reduced, given)):
        return "the planned instance is greater than the order's"
    if entry.reduced[2] <= deepest and not is_least(given, entry.reduced):
        return "the planned instance is not the least"
    if entry.bound > (given[0] * given[1]) // (given[2] * given[3]):
        return "the bound is above that of the area"
    if drawings is not None and (not drawings or drawings.pop(0) != drawing_lines(entry)):
        return "its drawing"
    return None


def trial_rows(number):
    """The sixteen rows of a trial, without their ids, from docs/FORMATS.md."""
    state, rows = number, []

    def draw(below):
        nonlocal state
        state = (state * 6364136223846793005 + 1442695040888963407) % 2 ** 64
        return (state >> 33) % below

    for _ in range(16):
        short = 2 + draw(3)
        long_side = short + 1 + draw(3)
        times = 3 + draw(4)
        pallet_x = long_side * times + draw(short)
        times = 2 + draw(3)
        pallet_y = long_side * times + draw(short)
        rows.append(b"%d,%d,%d,%d,100,1000,1000,1000000,60,1,100,0" % (pallet_x, pallet_y, long_side, short))
    return rows
