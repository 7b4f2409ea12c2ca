#!/usr/bin/env python3
"""A second judge of reports, written from docs/FORMATS.md, docs/CERTIFICATES.md and docs/DEFINITIONS.md alone.

`second_look.py < REPORT` writes the verdicts that `pallet check` has to write, with its status. It shares no code with the
program and is meant to be plain: where the program is quick, this walks over cells, rows and pairs.
"""

import bisect
import functools
import itertools
import sys

from orders import sides_of
from reports import NotAReport, Refused, read_report, rules_of

CLAUSES = ["reduced", "layout", "variants", "bound", "status", "allowed", "stack"]


# ---- the instance

def same_side(side, long_side, short_side, other, other_long, other_short):
    """The same pairs of numbers of long and short case sides fit on both sides: for each number of long ones as many short ones."""
    fits = [(side - i * long_side) // short_side for i in range(side // long_side + 1)]
    others = [(other - i * other_long) // other_short for i in range(other // other_long + 1)]
    return fits == others


@functools.lru_cache(maxsize=None)
def same_sides(given, reduced):
    return all(same_side(given[axis], given[2], given[3], reduced[axis], reduced[2], reduced[3]) for axis in (0, 1))


# ---- the layers

def extents(order, way):
    """How far a case of the order reaches along x and along y."""
    long_side, short_side = max(order[2], order[3]), min(order[2], order[3])
    return (long_side, short_side) if way == "L" else (short_side, long_side)


@functools.lru_cache(maxsize=4096)
def is_layer(order, cases):
    """The cases are in order, inside the order's own pallet, in lawful ways, and every two at least the gap apart."""
    gap = order[11]
    boxes = []
    for x, y, way in cases:
        if way == "S" and order[2] == order[3]:
            return False
        along_x, along_y = extents(order, way)
        if x + along_x > order[0] or y + along_y > order[1]:
            return False
        boxes.append((x, y, x + along_x, y + along_y))
    if any((a[1], a[0]) > (b[1], b[0]) for a, b in zip(boxes, boxes[1:])):
        return False
    for place, (x, _, x_end, y_end) in enumerate(boxes):
        for other in boxes[place + 1:]:
            if other[1] >= y_end + gap:
                break  # so does each later one, since they are in the order of y
            if not (x_end + gap <= other[0] or other[2] + gap <= x):
                return False
    return True


def image(order, move, case):
    """Where a move brings a case."""
    x, y, way = case
    along_x, along_y = extents(order, way)
    far_x, far_y = order[0] - x - along_x, order[1] - y - along_y
    if move in ("same", "mirror-x", "mirror-y", "half-turn"):
        return (x if move in ("same", "mirror-y") else far_x, y if move in ("same", "mirror-x") else far_y, way)
    turned = "L" if order[2] == order[3] or way == "S" else "S"
    corner = {"diagonal": (y, x), "anti": (far_y, far_x), "left": (far_y, x), "right": (y, far_x)}[move]
    return (*corner, turned)


@functools.lru_cache(maxsize=4096)
def variants_of(order, cases):
    """The images of a layer under the lawful moves, in order, each sorted, without those that equal an earlier one."""
    moves = ["same", "mirror-x", "mirror-y", "half-turn"]
    if order[0] == order[1]:
        moves += ["diagonal", "anti", "left", "right"]
    listed = []
    for move in moves:
        images = tuple(sorted((image(order, move, case) for case in cases), key=lambda case: (case[1], case[0])))
        if all(images != other for _, other in listed):
            listed.append((move, images))
    return listed


def first_difference(listed, right):
    """The first place, from 1, at which two lists differ, one more than the shorter one's length, or 0 for equal lists."""
    for place, (one, other) in enumerate(zip(listed, right), 1):
        if one != other:
            return place
    return 0 if len(listed) == len(right) else min(len(listed), len(right)) + 1


# ---- the bound

def crossings_of(weighting):
    """What the cells weigh where a column crosses a row: of the lines from both ends, the same."""
    _, columns, rows, quarter = weighting
    return {(x, y): quarter[min(j, len(rows) - 1 - j)][min(i, len(columns) - 1 - i)]
            for i, x in enumerate(columns) for j, y in enumerate(rows)}


class Weights:
    """The weights of the cells of a pallet of X by Y, column by column."""

    def __init__(self, weighting, reduced):
        self.weighting = weighting
        self.width, self.height = reduced[0], reduced[1]
        self.sums = None
        if weighting[0] == "table":
            self.sums = [[0] for _ in range(self.width)]
            for row in weighting[1]:
                for sums, weight in zip(self.sums, row):
                    sums.append(sums[-1] + weight)
        elif weighting[0] == "lines":
            self.sums = [[0] * (self.height + 1) for _ in range(self.width)]
            for (x, y), weight in crossings_of(weighting).items():
                self.sums[x][y + 1] = weight
            self.sums = [list(itertools.accumulate(column)) for column in self.sums]

    def below(self, x, height):
        """The weight of the cells of column x below a height."""
        if self.weighting[0] == "area":
            return height
        if self.weighting[0] == "colour":
            _, modulus, rest = self.weighting
            return count_leaving(height, modulus, (rest - x) % modulus)
        if self.weighting[0] == "comb":
            _, p, a, r, b = self.weighting
            return count_leaving(height, r, b) if x % p == a else 0
        return self.sums[x][height]

    def between(self, x, low, high):
        return self.below(x, high) - self.below(x, low)

    def total(self):
        return sum(self.below(x, self.height) for x in range(self.width))

    def period(self):
        """After how many columns and rows the weights come again."""
        if self.weighting[0] == "area":
            return (1, 1)
        if self.weighting[0] == "colour":
            return (self.weighting[1], self.weighting[1])
        if self.weighting[0] == "comb":
            return (self.weighting[1], self.weighting[3])
        return (self.width, self.height)


def count_leaving(end, modulus, rest):
    """How many numbers below `end` leave `rest` when divided by `modulus`."""
    return 0 if end <= rest else (end - rest - 1) // modulus + 1


def least_weight(weights, reduced):
    """The least weight of a case inside the pallet, over all places and both ways, or None where none fits."""
    least = None
    for along_x, along_y in {(reduced[2], reduced[3]), (reduced[3], reduced[2])}:
        if along_x > reduced[0] or along_y > reduced[1]:
            continue
        # Places a period further on have the same weights.
        across, up = weights.period()
        for y in range(min(reduced[1] - along_y + 1, up)):
            columns = [weights.between(x, y, y + along_y) for x in range(reduced[0])]
            weight = sum(columns[:along_x])
            least = weight if least is None else min(least, weight)
            for x in range(1, min(reduced[0] - along_x + 1, across)):
                weight += columns[x + along_x - 1] - columns[x - 1]
                least = min(least, weight)
    return least


def normal_after(side, long_side, short_side):
    """For each place of a side the next sum of whole numbers of case sides above it, or the side where there is none."""
    is_sum = [True] + [False] * side
    for place in range(1, side + 1):
        is_sum[place] = any(place >= part and is_sum[place - part] for part in (long_side, short_side))
    following, after = side, [side] * (side + 1)
    for place in range(side, -1, -1):
        after[place] = following
        if is_sum[place]:
            following = place
    return after


class Corner:
    """The walk along a tree's marks over the states of the skyline."""

    def __init__(self, reduced, weights, least, bound):
        self.reduced, self.weights, self.least, self.bound = reduced, weights, least, bound
        self.next_x = normal_after(reduced[0], reduced[2], reduced[3])
        self.next_y = normal_after(reduced[1], reduced[2], reduced[3])

    def moves(self, heights):
        """The moves of a state: for each the columns, the new height, and how many cases it places."""
        width, height, long_side, short_side = self.reduced
        low = min(heights)
        corner = heights.index(low)
        flat = 1
        while corner + flat < width and heights[corner + flat] == low:
            flat += 1
        found = []
        if flat >= long_side and low + short_side <= height:
            found.append((corner, corner + long_side, low + short_side, 1))
        if long_side > short_side and flat >= short_side and low + long_side <= height:
            found.append((corner, corner + short_side, low + long_side, 1))
        if low < height:
            found.append((corner, min(self.next_x[corner], corner + flat), self.next_y[low], 0))
        return found

    def after(self, state, move):
        heights, placed, left = state
        begin, end, height, cases = move
        low = heights[begin]
        for x in range(begin, end):
            left -= self.weights.between(x, low, height)
        return (heights[:begin] + [height] * (end - begin) + heights[end:], placed + cases, left)

    def start(self):
        return ([0] * self.reduced[0], 0, self.weights.total())

    def is_leaf(self, state):
        return state[1] + state[2] // self.least <= self.bound

    def refutes(self, marks):
        """The marks are those of exactly one tree, each leaf and each branch of which is right."""
        pending = [self.start()]
        for mark in marks:
            if not pending:
                return False
            state = pending.pop()
            if mark == ".":
                if not self.is_leaf(state):
                    return False
                continue
            moves = self.moves(state[0])
            if not moves:
                return False
            pending += [self.after(state, move) for move in reversed(moves)]
        return not pending


def is_lawful_weighting(weighting, reduced):
    sides = reduced[2:]
    if weighting[0] == "colour":
        return weighting[1] in sides
    if weighting[0] == "comb":
        return weighting[1] in sides and weighting[3] in sides
    if weighting[0] == "table":
        return (len(weighting[1][0]), len(weighting[1])) == reduced[:2]
    if weighting[0] == "lines":
        return weighting[1][-1] < reduced[0] and weighting[2][-1] < reduced[1]
    return True


def shows_by_weight(weighting, marks, reduced, bound):
    if not is_lawful_weighting(weighting, reduced):
        return False
    weights = Weights(weighting, reduced)
    least = least_weight(weights, reduced)
    if least is None or least == 0:
        return False
    return Corner(reduced, weights, least, bound).refutes(marks)


def excludes(cut, lying, standing, reduced):
    """The cut is true, and no layer has so many lying and standing cases."""
    width, height, long_side, short_side = reduced
    if cut[0] == "area":
        return lying + standing > (width * height) // (long_side * short_side)
    axis, a, b, greatest = cut
    side = width if axis == "x" else height
    counts = range(side // long_side + 1)
    if greatest != max(a * i + b * ((side - i * long_side) // short_side) for i in counts):
        return False
    if axis == "x":
        return a * short_side * lying + b * long_side * standing > greatest * height
    return a * short_side * standing + b * long_side * lying > greatest * width


@functools.lru_cache(maxsize=4096)
def shows_bound_of(kind, content, given, reduced, bound):
    if kind == "given-area":
        return (given[0] * given[1]) // (given[2] * given[3]) <= bound
    if kind == "weighted":
        return shows_by_weight(content[0], content[1], reduced, bound)
    return len(content) == bound + 2 and all(excludes(cut, h, bound + 1 - h, reduced) for h, cut in enumerate(content))


def shows_bound(cert, given, reduced, bound):
    """The certificate is accepted for the bound; that both instances have the same sides is looked at before."""
    content = cert[1:]
    if cert[0] == "strip":
        content = tuple(cert[1])
    elif cert[0] == "weighted" and cert[1][0] in ("table", "lines"):
        content = ((*cert[1][:-1], tuple(cert[1][-1])), cert[2])
    return shows_bound_of(cert[0], content, given, reduced, bound)


# ---- the stack

def boxes_of(order, cases):
    return [(x, y, x + extents(order, way)[0], y + extents(order, way)[1]) for x, y, way in cases]


def shared(one, other):
    """How many cells two boxes share."""
    wide = min(one[2], other[2]) - max(one[0], other[0])
    high = min(one[3], other[3]) - max(one[1], other[1])
    return wide * high if wide > 0 and high > 0 else 0


def near(box, below):
    """The boxes, of a list in the order of y, that can share a cell with this one: no two of them are of different sizes
    beyond a quarter turn, so a box whose y is further below than the longer side is not among them."""
    longest = max(box[2] - box[0], box[3] - box[1])
    begin = bisect.bisect_left(below, box[1] - longest, key=lambda other: other[1])
    end = bisect.bisect_left(below, box[3], key=lambda other: other[1])
    return below[begin:end]


def longest_run(boxes, axis, length, breadth):
    """The longest run of rows that no case crosses, over the straight cuts at a place of an axis that count.

    Only the places where a case begins or ends are looked at: between two of them the same cases cross, and those that
    end or begin there too."""
    low, high = (0, 2) if axis == 0 else (1, 3)
    row_low, row_high = (1, 3) if axis == 0 else (0, 2)
    first_end, last_begin = min(box[high] for box in boxes), max(box[low] for box in boxes)
    longest = 0
    for line in sorted({box[low] for box in boxes} | {box[high] for box in boxes}):
        if not (0 < line < length and first_end <= line <= last_begin):
            continue
        crossed_to = 0
        for begin, end in sorted((box[row_low], box[row_high]) for box in boxes if box[low] < line < box[high]):
            longest = max(longest, begin - crossed_to)
            crossed_to = max(crossed_to, end)
        longest = max(longest, breadth - crossed_to)
    return longest


@functools.lru_cache(maxsize=65536)
def meets(rule, order, lower, upper):
    """Two layers, the first below the second, meet a rule of the order."""
    below, above = boxes_of(order, lower), boxes_of(order, upper)
    if rule == "contact":
        area = order[2] * order[3]
        return all(100 * sum(shared(box, other) for other in near(box, below)) >= order[8] * area for box in above)
    if rule == "support":
        return all(sum(shared(box, other) > 0 for other in near(box, below)) >= 2 for box in above)
    width, height = order[0], order[1]
    both = below + above
    return 100 * longest_run(both, 0, width, height) <= order[10] * height \
        and 100 * longest_run(both, 1, height, width) <= order[10] * width


def right_stack(order, layers, allowed):
    """The least stack, as a tuple of numbers, or the unmet rules with their marks."""
    cases = [listed for _, listed in layers]
    rules = rules_of(order)
    numbers = range(len(cases))
    if allowed <= 1:
        return (1,) * allowed
    above = [[b for b in numbers if all(meets(rule, order, cases[a], cases[b]) for rule in rules)] for a in numbers]
    # reach[n]: the variants upon which n more layers can stand
    reach = [set(numbers)]
    for _ in range(allowed - 1):
        reach.append({a for a in numbers if any(b in reach[-1] for b in above[a])})
    if not reach[-1]:
        pairs = [(a, b) for a in numbers for b in numbers]
        return [(rule, not any(meets(rule, order, cases[a], cases[b]) for a, b in pairs)) for rule in rules]
    stack = [min(reach[-1])]
    for more in range(allowed - 2, -1, -1):
        stack.append(min(b for b in above[stack[-1]] if b in reach[more]))
    return tuple(number + 1 for number in stack)


# ---- the verdict

def verdict_of(entry):
    """`refused`, `yes`, or `no` with the first clause that fails and its item."""
    if isinstance(entry, Refused):
        return "refused"
    order = entry.order
    given = sides_of(order)
    if not same_sides(given, entry.reduced):
        return "no reduced 0"
    for place, (_, cases) in enumerate(entry.layers, 1):
        if len(cases) != entry.count or not is_layer(order, cases):
            return "no layout %d" % place
    place = first_difference(entry.layers, variants_of(order, entry.layers[0][1]))
    if place:
        return "no variants %d" % place
    if not shows_bound(entry.cert, given, entry.reduced, entry.bound):
        return "no bound 0"
    if entry.optimal != (entry.count == entry.bound):
        return "no status 0"
    if entry.allowed != min(order[6] // order[4], order[7] // (entry.count * order[5])):
        return "no allowed 0"
    if entry.stack != right_stack(order, entry.layers, entry.allowed):
        return "no stack 0"
    return "yes"


def verdicts_text(entries, verdicts):
    lines = ["entry %d %s\n" % (entry.number, verdict) for entry, verdict in zip(entries, verdicts)]
    return ("".join(lines) + "done %d\n" % len(entries)).encode()


def main():
    try:
        _, entries = read_report(sys.stdin.buffer.read())
    except NotAReport as no_report:
        print("second look: not a report, line %d" % no_report.line, file=sys.stderr)
        return 6
    verdicts = [verdict_of(entry) for entry in entries]
    sys.stdout.buffer.write(verdicts_text(entries, verdicts))
    return 1 if any(verdict.startswith("no") for verdict in verdicts) else 0


if __name__ == "__main__":
    sys.exit(main())
