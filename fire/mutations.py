"""Changes of orders files and of reports, drawn from a seeded generator."""

import re

from orders import NUMBER_COLUMNS, RANGES
from reports import MOVES, Refused, faults_of, rules_of
from second_look import crossings_of, is_layer, right_stack, variants_of

LIMITS = [0, 1, 2, 39, 40, 64, 65, 99, 100, 101, 255, 256, 257, 400, 401, 402, 999, 1000, 1001, 1002, 1003, 3999, 4000, 4001,
          9999, 10000, 10001, 40000, 40001, 100000, 100001, 100000000, 100000001, 9999999999, 10000000000,
          2 ** 31 - 1, 2 ** 31, 2 ** 32 - 1, 2 ** 32, 2 ** 63, 2 ** 64 - 1, 2 ** 64]
WORDS = [b"pallet-report 1", b"pallet-report 2", b"entry", b"id", b"order", b"reduced", b"count", b"bound", b"status optimal",
         b"status open", b"cert weighted", b"cert strip", b"cert given-area", b"weighting area", b"weighting colour", b"tree",
         b"weighting comb", b"weighting table", b"weighting lines", b"columns", b"rows", b"row", b"cut", b"area", b"layers", b"layer", b"allowed", b"stack", b"unmet",
         b"rule", b"alone", b"together", b"end", b"done", b"refused", b"L", b"S", b"x", b"y", b"same", b"\"", b",", b"gap"]


# ---- any text

def flip_bit(rng, data):
    place = rng.randrange(len(data))
    return data[:place] + bytes([data[place] ^ 1 << rng.randrange(8)]) + data[place + 1:]


def set_byte(rng, data):
    place = rng.randrange(len(data))
    byte = rng.choice([rng.randrange(256), rng.choice(b"\n\r \"',.0123456789LSB\x00\xff")])
    return data[:place] + bytes([byte]) + data[place + 1:]


def insert_byte(rng, data):
    place = rng.randrange(len(data) + 1)
    return data[:place] + bytes([rng.choice(b"\n\r \",0123456789LSB.\x00\xc3")]) + data[place:]


def delete_byte(rng, data):
    place = rng.randrange(len(data))
    return data[:place] + data[place + 1:]


def truncate(rng, data):
    return data[: rng.randrange(len(data))]


def add_tail(rng, data):
    return data + rng.choice([b"\n", b"\r\n", b" ", b"done 1\n", b"x", b"entry 1\n", data[: rng.randrange(len(data))]])


def delete_line(rng, data):
    lines = data.splitlines(keepends=True)
    del lines[rng.randrange(len(lines))]
    return b"".join(lines)


def repeat_line(rng, data):
    lines = data.splitlines(keepends=True)
    place = rng.randrange(len(lines))
    return b"".join(lines[:place] + [lines[place]] * rng.choice([2, 2, 3, 9]) + lines[place + 1:])


def exchange_lines(rng, data):
    lines = data.splitlines(keepends=True)
    one = rng.randrange(len(lines))
    other = rng.choice([rng.randrange(len(lines)), (one + 1) % len(lines)])
    lines[one], lines[other] = lines[other], lines[one]
    return b"".join(lines)


def move_lines(rng, data):
    lines = data.splitlines(keepends=True)
    begin = rng.randrange(len(lines))
    end = min(len(lines), begin + rng.randrange(1, 6))
    part, rest = lines[begin:end], lines[:begin] + lines[end:]
    place = rng.randrange(len(rest) + 1)
    return b"".join(rest[:place] + part + rest[place:])


def change_number(rng, data):
    found = list(re.finditer(rb"\d+", data))
    if not found:
        return set_byte(rng, data)
    number = rng.choice(found)
    value = int(number.group())
    written = str(rng.choice([value + 1, value + 1, abs(value - 1), abs(value - 1), value * 10, value * 2, value // 2,
                              rng.choice(LIMITS), rng.randrange(value + 2)])).encode()
    written = rng.choice([written] * 12 + [b"0" + written, b"+" + written, b"-" + written, b"", written + b" ", b" " + written])
    return data[: number.start()] + written + data[number.end():]


def change_word(rng, data):
    found = list(re.finditer(rb"[a-zA-Z][a-zA-Z-]*", data))
    if not found:
        return set_byte(rng, data)
    word = rng.choice(found)
    return data[: word.start()] + rng.choice(WORDS + [rng.choice(found).group()] * 20) + data[word.end():]


def change_line_ends(rng, data):
    return data.replace(b"\n", rng.choice([b"\r\n", b"\r", b"\n\n"]), rng.choice([1, -1]))


TEXT_CHANGES = [flip_bit, set_byte, insert_byte, delete_byte, truncate, add_tail, delete_line, repeat_line, exchange_lines,
                move_lines] + [change_number] * 6 + [change_word, change_word, change_line_ends]


def change_text(rng, data):
    """One change of some bytes."""
    return rng.choice(TEXT_CHANGES)(rng, data) if data else b"\n"


# ---- orders files

def random_row(rng):
    """A row that is mostly accepted, with small sides."""
    short = rng.randrange(1, 12)
    long_side = short + rng.randrange(0, 9)
    unit = rng.choice([1, 1, 1, 7, 10, 50])
    numbers = [long_side * rng.randrange(1, 6) + rng.randrange(9), short * rng.randrange(1, 9) + rng.randrange(9)]
    if rng.random() < 0.25:
        numbers[1] = numbers[0]
    sides = [long_side, short] if rng.random() < 0.7 else [short, long_side]
    numbers = [min(4000, (number + (unit > 1 and rng.random() < 0.3)) * unit) for number in numbers + sides]
    numbers += [rng.randrange(1, 400), rng.randrange(1, 20000), rng.randrange(1, 2500), rng.randrange(1, 1500000)]
    numbers += [rng.choice([0, 0, 1, 40, 50, 60, 70, 100]), rng.choice([0, 0, 1]), rng.choice([100, 100, 90, 60, 50, 20, 0])]
    return numbers + [rng.choice([0, 0, 0, 1, 2, 3, 5])]


def random_id(rng):
    return rng.choice([b"A", b"B-12", b"\"A, 3\"", b"\"say \"\"x\"\"\"", b"a b ", b" ", b"~!", b"\"two\nlines\"",
                       b"x" * 40, b"y" * 41, b"\"\"", b"\xc3\xa4", b"a\"b"])


def spoil(rng, numbers):
    """A row's numbers with one put near a limit of its column."""
    place = rng.randrange(12)
    low, high = RANGES.get(NUMBER_COLUMNS[place], (0, 100))
    numbers[place] = rng.choice([low, high, high + 1, max(0, low - 1), rng.randrange(low, high + 1), numbers[place] + 1])
    return numbers


def random_orders(rng, headers):
    """An orders file of a few rows."""
    gap = rng.random() < 0.6
    lines = []
    for _ in range(rng.choice([0, 1, 1, 1, 2, 3, 5])):
        numbers = random_row(rng)
        if rng.random() < 0.15:
            numbers = spoil(rng, numbers)
        fields = [b"%d" % number for number in numbers[: 12 if gap else 11]]
        if rng.random() < 0.05:
            fields[rng.randrange(len(fields))] = rng.choice([b"", b"\"7\"", b"07", b"+7", b"1e3", b" 7", b"99999999999", b"7\"\""])
        if rng.random() < 0.03:
            fields = fields + [b"1"] if rng.random() < 0.5 else fields[:-1]
        lines.append(b",".join([random_id(rng)] + fields) + rng.choice([b"\n"] * 6 + [b"\r\n", b"\r", b"\n\n"]))
    text = headers[gap] + b"".join(lines)
    return rng.choice([text] * 8 + [b"\xef\xbb\xbf" + text, text[:-1], b"\n" + text])


# ---- entries

def clamp(value, low, high):
    return max(low, min(high, value))


def near(rng, value):
    return max(0, value + rng.choice([-1, 1, -1, 1, -2, 2, rng.randrange(-9, 10)]))


def with_layer(plan, place, cases):
    plan.layers = list(plan.layers)
    plan.layers[place] = (plan.layers[place][0], tuple(cases))


def change_case(rng, plan):
    """A case of a layer moves by a little, or turns."""
    place = rng.choice([0, rng.randrange(len(plan.layers))])
    cases = list(plan.layers[place][1])
    number = rng.randrange(len(cases))
    x, y, way = cases[number]
    cases[number] = rng.choice([(near(rng, x), y, way), (x, near(rng, y), way), (x, y, "S" if way == "L" else "L")])
    if rng.random() < 0.5:
        cases.sort(key=lambda case: (case[1], case[0]))
    with_layer(plan, place, cases)


def exchange_cases(rng, plan):
    place = rng.randrange(len(plan.layers))
    cases = list(plan.layers[place][1])
    one, other = rng.randrange(len(cases)), rng.randrange(len(cases))
    cases[one], cases[other] = cases[other], cases[one]
    with_layer(plan, place, cases)


def drop_case(rng, plan):
    """The same case is taken from each layer's list, or any case."""
    if plan.count == 1:
        return
    number = rng.randrange(plan.count)
    plan.layers = [(move, cases[:number] + cases[number + 1:]) for move, cases in plan.layers]
    plan.count -= 1


def repeat_case(rng, plan):
    if plan.count == 1000:
        return
    number = rng.randrange(plan.count)
    plan.layers = [(move, cases[: number + 1] + cases[number:]) for move, cases in plan.layers]
    plan.count += 1


def change_layers(rng, plan):
    layers = list(plan.layers)
    place, other = rng.randrange(len(layers)), rng.randrange(len(layers))
    kind = rng.randrange(6)
    if kind == 0 and len(layers) > 1:
        del layers[place]
    elif kind == 1 and len(layers) < 8:
        layers.insert(place, layers[other])
    elif kind == 2:
        layers[place], layers[other] = layers[other], layers[place]
    elif kind == 3:
        layers[place] = (rng.choice(MOVES), layers[place][1])
    elif kind == 4:
        layers[place] = (layers[place][0], layers[other][1])
    else:
        layers = layers[place:] + layers[:place]
    plan.layers = layers


def change_bound(rng, plan):
    plan.bound = clamp(near(rng, plan.bound), 1, 1000)


def change_status(rng, plan):
    plan.optimal = not plan.optimal


def change_allowed(rng, plan):
    plan.allowed = clamp(near(rng, plan.allowed), 0, 10000)


def change_reduced(rng, plan):
    numbers = list(plan.reduced)
    kind = rng.randrange(4)
    if kind == 0:
        factor = rng.choice([2, 2, 3])
        numbers = [number * factor for number in numbers]
    elif kind == 1:
        gap = plan.order[11]
        numbers = [plan.order[0] + gap, plan.order[1] + gap, max(plan.order[2:4]) + gap, min(plan.order[2:4]) + gap]
    elif kind == 2:
        numbers = [numbers[1], numbers[0]] + numbers[2:]
    else:
        place = rng.randrange(4)
        numbers[place] = clamp(near(rng, numbers[place]), 1, 4000)
    numbers = [clamp(number, 1, 4000) for number in numbers]
    plan.reduced = (*numbers[:2], max(numbers[2:]), min(numbers[2:]))


def change_order(rng, plan):
    numbers = list(plan.order)
    place = rng.randrange(12)
    low, high = RANGES.get(NUMBER_COLUMNS[place], (0, 100))
    numbers[place] = clamp(rng.choice([near(rng, numbers[place])] * 4 + [low, high, rng.randrange(low, high + 1)]), low, high)
    plan.order = tuple(numbers)


def change_stack(rng, plan):
    kind = rng.randrange(6)
    if isinstance(plan.stack, tuple):
        stack = list(plan.stack)
        if kind == 0:
            stack.append(rng.randrange(1, len(plan.layers) + 1))
        elif kind == 1:
            stack = stack[:-1]
        elif kind == 2 and rules_of(plan.order):
            plan.stack = [(rule, rng.random() < 0.5) for rule in rules_of(plan.order)]
            return
        elif stack:
            stack[rng.randrange(len(stack))] = rng.randrange(1, len(plan.layers) + 1)
        plan.stack = tuple(stack[:10000])
    elif kind < 2:
        plan.stack = tuple(rng.randrange(1, len(plan.layers) + 1) for _ in range(plan.allowed))
    else:
        place = rng.randrange(len(plan.stack))
        plan.stack = [(rule, alone != (number == place)) for number, (rule, alone) in enumerate(plan.stack)]


# ---- certificates

def table_of(weighting, width, height):
    """The weights of a pallet's cells as rows of a table."""
    if weighting[0] == "table":
        return [list(row) for row in weighting[1]]
    if weighting[0] == "colour":
        return [[int((x + y) % weighting[1] == weighting[2]) for x in range(width)] for y in range(height)]
    if weighting[0] == "comb":
        _, p, a, r, b = weighting
        return [[int(x % p == a and y % r == b) for x in range(width)] for y in range(height)]
    if weighting[0] == "lines":
        rows = [[0] * width for _ in range(height)]
        for (x, y), weight in crossings_of(weighting).items():
            if x < width and y < height:
                rows[y][x] = weight
        return rows
    return [[1] * width for _ in range(height)]


def change_lines(rng, weighting, width, height):
    """The same weights on lines, with a line moved, left out or repeated, or a weight changed; or one heavy column."""
    if weighting[0] != "lines" or rng.random() < 0.1:
        return ("lines", (rng.randrange(width),), (rng.randrange(height),), [(rng.choice([0, 1, 5]),)])
    _, columns, rows, quarter = weighting
    columns, rows, quarter = list(columns), list(rows), [list(row) for row in quarter]
    kind = rng.randrange(6)
    if kind == 0:
        place = rng.randrange(len(columns))
        columns[place] = clamp(near(rng, columns[place]), 0, 3999)
    elif kind == 1:
        place = rng.randrange(len(rows))
        rows[place] = clamp(near(rng, rows[place]), 0, 3999)
    elif kind == 2 and len(columns) > 1:
        del columns[rng.randrange(len(columns))]
    elif kind == 3:
        columns, rows = rows, columns
    elif kind == 4:
        columns[-1] = rng.choice([width - 1, width, 3999])
    for _ in range(rng.choice([0, 1, 3])):
        row = rng.choice(quarter)
        place = rng.randrange(len(row))
        row[place] = clamp(rng.choice([near(rng, row[place]), 0, 100000]), 0, 100000)
    return ("lines", tuple(columns), tuple(rows), [tuple(row) for row in quarter])


def change_marks(rng, marks):
    place = rng.randrange(len(marks))
    kind = rng.randrange(5)
    if kind == 0:
        return marks[:place] + ("." if marks[place] == "B" else "B") + marks[place + 1:]
    if kind == 1 and len(marks) > 1:
        return marks[:place] + marks[place + 1:]
    if kind == 2:
        return marks[:place] + rng.choice("B.") + marks[place:]
    if kind == 3:
        return marks + rng.choice([".", "B..", "B"])
    return marks[:place] + rng.choice(["B..", "B...", "B."]) + marks[place + 1:]


def change_weighting(rng, weighting, reduced):
    """Another weighting, or the same as a table, perhaps with a weight or two changed."""
    width, height, long_side, short_side = reduced
    kind = rng.randrange(4)
    if kind == 0:
        return rng.choice([("area",), ("colour", long_side, rng.randrange(long_side)),
                           ("colour", short_side, rng.randrange(short_side)),
                           ("comb", long_side, rng.randrange(long_side), short_side, rng.randrange(short_side)),
                           ("comb", short_side, short_side - 1, short_side, short_side - 1)])
    if kind == 1 and weighting[0] in ("colour", "comb"):
        numbers = [clamp(near(rng, number), 0, 4000) for number in weighting[1:]]
        for place in range(0, len(numbers), 2):
            numbers[place] = max(1, numbers[place])
            numbers[place + 1] %= numbers[place]
        return (weighting[0], *numbers)
    if weighting[0] == "lines" and rng.random() < 0.7 or rng.random() < 0.1:
        return change_lines(rng, weighting, width, height)
    if width * height > 40000:
        return weighting
    rows = table_of(weighting, width, height)
    factor = rng.choice([1, 1, 2, 7, 1000])
    rows = [[min(100000, weight * factor) for weight in row] for row in rows]
    for _ in range(rng.choice([0, 0, 1, 3])):
        row = rng.choice(rows)
        place = rng.randrange(len(row))
        row[place] = clamp(rng.choice([near(rng, row[place]), 0, 100000]), 0, 100000)
    if rng.random() < 0.1:
        rows = rows[:-1] if rng.random() < 0.5 and len(rows) > 1 else [row + [1] for row in rows]
    return ("table", [tuple(row) for row in rows])


def change_cuts(rng, cuts):
    cuts = list(cuts)
    place = rng.randrange(len(cuts))
    kind = rng.randrange(5)
    if kind == 0 and len(cuts) > 2:
        del cuts[place]
    elif kind == 1 and len(cuts) < 1002:
        cuts.insert(place, cuts[place])
    elif kind == 2:
        other = rng.randrange(len(cuts))
        cuts[place], cuts[other] = cuts[other], cuts[place]
    elif cuts[place][0] == "area" or kind == 3:
        cuts[place] = rng.choice([("area",), ("x", 1, 0, 1), ("y", 0, 1, 1), cuts[place]])
    else:
        numbers = list(cuts[place][1:])
        number = rng.randrange(3)
        numbers[number] = clamp(near(rng, numbers[number]), 0, 4000)
        cuts[place] = (rng.choice([cuts[place][0]] * 4 + ["x", "y"]), *numbers)
    return cuts


def simple_cuts(plan):
    """A strip certificate of the cuts that count long or short sides alone, where one excludes each pair; else the last ones."""
    width, height, long_side, short_side = plan.reduced
    long_x, short_x, long_y, short_y = width // long_side, width // short_side, height // long_side, height // short_side
    cuts = []
    for lying in range(plan.bound + 2):
        standing = plan.bound + 1 - lying
        found = [("x", 1, 0, long_x)] if short_side * lying > long_x * height else []
        found += [("y", 0, 1, short_y)] if long_side * lying > short_y * width else []
        found += [("x", 0, 1, short_x)] if long_side * standing > short_x * height else []
        found += [("y", 1, 0, long_y)] if short_side * standing > long_y * width else []
        cuts.append((found + [("area",)])[0])
    return cuts


def change_cert(rng, plan):
    kind = rng.randrange(10)
    if kind == 0:
        plan.cert = ("given-area",)
    elif kind == 1 and plan.bound <= 1000:
        plan.cert = ("strip", simple_cuts(plan))
    elif kind == 2:
        plan.cert = ("weighted", rng.choice([("area",), ("colour", plan.reduced[2], 0)]), rng.choice([".", "B..", "B...", "BBB.."]))
    elif plan.cert[0] == "strip":
        plan.cert = ("strip", change_cuts(rng, plan.cert[1]))
    elif plan.cert[0] == "weighted":
        _, weighting, marks = plan.cert
        if kind < 6:
            weighting = change_weighting(rng, weighting, plan.reduced)
        else:
            marks = change_marks(rng, marks)
        plan.cert = ("weighted", weighting, marks)


PLAN_CHANGES = [change_case] * 3 + [exchange_cases, drop_case, drop_case, repeat_case] + [change_layers] * 3 + [change_bound] * 2 \
    + [change_status, change_allowed] + [change_reduced] * 2 + [change_order] * 3 + [change_stack] * 3 + [change_cert] * 6


def mend(rng, plan):
    """Brings what follows from layer 1, the order and the bound into line with them, mostly, so that later clauses count."""
    cases = plan.layers[0][1]
    if not is_layer(plan.order, cases):
        return
    if rng.random() < 0.9:
        plan.layers = [(move, listed) for move, listed in variants_of(plan.order, cases)]
    if rng.random() < 0.9:
        plan.optimal = plan.count == plan.bound
    if rng.random() < 0.9:
        plan.allowed = min(plan.order[6] // plan.order[4], plan.order[7] // (plan.count * plan.order[5]))
    rules = rules_of(plan.order)
    if rng.random() < 0.9 or (isinstance(plan.stack, list) and [rule for rule, _ in plan.stack] != rules):
        plan.stack = right_stack(plan.order, plan.layers, plan.allowed)
    if isinstance(plan.stack, tuple):
        plan.stack = tuple(min(number, len(plan.layers)) for number in plan.stack)


def change_entry(rng, entry):
    """A changed entry."""
    entry = entry.copy()
    if isinstance(entry, Refused):
        entry.fault = rng.choice(faults_of(2))
        return entry
    for _ in range(rng.choice([1, 1, 1, 2, 3])):
        rng.choice(PLAN_CHANGES)(rng, entry)
    if rng.random() < 0.6:
        mend(rng, entry)
    return entry
