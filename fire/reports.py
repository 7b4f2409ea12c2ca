"""A second reader and writer of reports, written from docs/FORMATS.md alone."""

from orders import NUMBER_COLUMNS, fault_of_numbers, is_id, number_of

MOVES = ["same", "mirror-x", "mirror-y", "half-turn", "diagonal", "anti", "left", "right"]
HEADS = {1: b"pallet-report 1", 2: b"pallet-report 2"}
# By the form: the most entries, the most cases of a layer, the most cuts, how many numbers the order's line has.
MOST_ENTRIES = {1: 64, 2: 256}
MOST_CASES = {1: 400, 2: 1000}
MOST_CUTS = {1: 402, 2: 1002}
ORDER_NUMBERS = {1: 11, 2: 12}
MOST_MARKS = 500000
MOST_BYTES = 268435456


class NotAReport(Exception):
    """The bytes are no report; `line` is the line that FORMATS.md answers."""

    def __init__(self, line):
        super().__init__(line)
        self.line = line


class Plan:
    """A planned row's entry, with the parts that its lines have."""

    __slots__ = ("number", "id", "order", "reduced", "count", "bound", "optimal", "cert", "layers", "allowed", "stack")

    def copy(self):
        other = Plan()
        for name in Plan.__slots__:
            setattr(other, name, getattr(self, name))
        return other


class Refused:
    """A refused row's entry."""

    __slots__ = ("number", "fault")

    def __init__(self, number, fault):
        self.number, self.fault = number, fault

    def copy(self):
        return Refused(self.number, self.fault)


class Lines:
    """The whole lines of a text; `next` and `fail` answer the number of the line with which no report goes on."""

    def __init__(self, data):
        self.lines = data.split(b"\n")
        self.rest = self.lines.pop()
        self.at = 0

    def next(self):
        self.at += 1
        if self.at > len(self.lines):
            raise NotAReport(self.at)
        return self.lines[self.at - 1]

    def fail(self):
        raise NotAReport(self.at)

    def end(self):
        if self.at < len(self.lines) or self.rest:
            raise NotAReport(self.at + 1)

    def numbers(self, words, ranges):
        """The numbers of the next line, which has these words and then a number in each of these ranges."""
        return self.numbers_in(self.next(), words, ranges)

    def numbers_in(self, line, words, ranges):
        parts = line.split(b" ")
        front = words.split(b" ") if words else []
        if parts[: len(front)] != front or len(parts) != len(front) + len(ranges):
            self.fail()
        values = [number_of(part) for part in parts[len(front):]]
        for value, (least, greatest) in zip(values, ranges):
            if value is None or not least <= value <= greatest:
                self.fail()
        return values

    def expect(self, line):
        if self.next() != line:
            self.fail()


def columns_of(form):
    return NUMBER_COLUMNS[: ORDER_NUMBERS[form]]


def faults_of(form):
    """The words of every fault of a refused row in a report of this form."""
    columns = [kind + " " + name for kind in ("BadNumber", "OutOfRange") for name in columns_of(form)]
    return ["FieldCount", "BadId", "DoesNotFit", "TooManyCases"] + columns


FAULTS = {form: {fault.encode() for fault in faults_of(form)} for form in (1, 2)}


def read_report(data):
    """(form, entries) of a report's bytes. Raises NotAReport."""
    lines = Lines(data)
    head = lines.next()
    form = next((form for form, text in HEADS.items() if text == head), None)
    if form is None:
        lines.fail()
    entries = []
    while True:
        line = lines.next()
        number = len(entries) + 1
        if line == b"done %d" % len(entries):
            lines.end()
            return form, entries
        if line != b"entry %d" % number or number > MOST_ENTRIES[form]:
            lines.fail()
        entries.append(read_entry(lines, form, number))


def read_entry(lines, form, number):
    line = lines.next()
    if line.startswith(b"refused "):
        fault = line[len(b"refused "):]
        if fault not in FAULTS[form]:
            lines.fail()
        lines.expect(b"end")
        return Refused(number, fault.decode())
    plan = Plan()
    plan.number = number
    plan.id = line[3:]
    if not line.startswith(b"id ") or not is_id(plan.id):
        lines.fail()
    plan.order = read_order(lines, form)
    plan.reduced = tuple(lines.numbers(b"reduced", [(1, 4000)] * 4))
    if plan.reduced[3] > plan.reduced[2]:
        lines.fail()
    (plan.count,) = lines.numbers(b"count", [(1, MOST_CASES[form])])
    (plan.bound,) = lines.numbers(b"bound", [(1, MOST_CASES[form])])
    status = lines.next()
    if status not in (b"status optimal", b"status open"):
        lines.fail()
    plan.optimal = status == b"status optimal"
    plan.cert = read_cert(lines, form)
    plan.layers = read_layers(lines, plan.count)
    (plan.allowed,) = lines.numbers(b"allowed", [(0, 10000)])
    plan.stack = read_stack(lines, plan.order, len(plan.layers))
    return plan


def read_order(lines, form):
    numbers = lines.numbers(b"order", [(0, 9999999999)] * ORDER_NUMBERS[form])
    numbers += [0] * (12 - len(numbers))
    if fault_of_numbers(numbers, MOST_CASES[form]) is not None:
        lines.fail()
    return tuple(numbers)


def read_cert(lines, form):
    line = lines.next()
    if line == b"cert given-area":
        return ("given-area",)
    if line == b"cert weighted":
        weighting = read_weighting(lines, form)
        line = lines.next()
        marks = line[5:]
        if not line.startswith(b"tree ") or not 1 <= len(marks) <= MOST_MARKS or marks.strip(b"B."):
            lines.fail()
        return ("weighted", weighting, marks.decode())
    (count,) = lines.numbers_in(line, b"cert strip", [(2, MOST_CUTS[form])])
    return ("strip", [read_cut(lines, place) for place in range(count)])


def read_weighting(lines, form):
    line = lines.next()
    kind = b" ".join(line.split(b" ")[:2])
    if line == b"weighting area":
        return ("area",)
    if kind == b"weighting colour":
        modulus, rest = lines.numbers_in(line, kind, [(1, 4000), (0, 3999)])
        if rest >= modulus:
            lines.fail()
        return ("colour", modulus, rest)
    if kind == b"weighting comb":
        p, a, r, b = lines.numbers_in(line, kind, [(1, 4000), (0, 3999)] * 2)
        if a >= p or b >= r:
            lines.fail()
        return ("comb", p, a, r, b)
    if kind == b"weighting table" and form == 2:
        x_side, y_side = lines.numbers_in(line, kind, [(1, 4000)] * 2)
        if x_side * y_side > 40000:
            lines.fail()
        return ("table", [tuple(lines.numbers(b"row", [(0, 100000)] * x_side)) for _ in range(y_side)])
    if kind == b"weighting lines" and form == 2:
        counts = lines.numbers_in(line, kind, [(1, 4000)] * 2)
        halves = [(count + 1) // 2 for count in counts]
        if halves[0] * halves[1] > 40000:
            lines.fail()
        columns, rows = (read_rising(lines, word, count) for word, count in zip((b"columns", b"rows"), counts))
        quarter = [tuple(lines.numbers(b"row", [(0, 100000)] * halves[0])) for _ in range(halves[1])]
        return ("lines", columns, rows, quarter)
    return lines.fail()


def read_rising(lines, word, count):
    """So many numbers below 4,000 behind a word, each above the one before."""
    numbers = tuple(lines.numbers(word, [(0, 3999)] * count))
    if any(one >= other for one, other in zip(numbers, numbers[1:])):
        lines.fail()
    return numbers


def read_cut(lines, place):
    line = lines.next()
    if line == b"cut %d area" % place:
        return ("area",)
    for axis in ("x", "y"):
        words = b"cut %d %s" % (place, axis.encode())
        if line.startswith(words + b" "):
            return (axis, *lines.numbers_in(line, words, [(0, 4000), (0, 4000), (0, 9999999999)]))
    return lines.fail()


def read_layers(lines, count):
    (layers,) = lines.numbers(b"layers", [(1, 8)])
    return [read_layer(lines, place, count) for place in range(1, layers + 1)]


def read_layer(lines, place, count):
    line = lines.next()
    move = line[len(b"layer %d " % place):].decode("latin-1")
    if not line.startswith(b"layer %d " % place) or move not in MOVES:
        lines.fail()
    return (move, tuple(read_case(lines) for _ in range(count)))


def read_case(lines):
    line = lines.next()
    if line[-2:] not in (b" L", b" S"):
        lines.fail()
    x, y = lines.numbers_in(line[:-2], b"", [(0, 4000)] * 2)
    return (x, y, line[-1:].decode())


def rules_of(order):
    """The rules that an order asks for, in order."""
    asked = (("contact", order[8] > 0), ("support", order[9] == 1), ("cut", order[10] < 100))
    return [rule for rule, is_asked in asked if is_asked]


def read_stack(lines, order, layers):
    """The stacked layers' numbers as a tuple, or a list of (rule, is alone)."""
    line = lines.next()
    if line == b"unmet":
        if not rules_of(order):
            lines.fail()
        unmet = [(rule, read_rule(lines, rule)) for rule in rules_of(order)]
        lines.expect(b"end")
        return unmet
    parts = line.split(b" ")
    numbers = [number_of(part) for part in parts[1:]]
    if parts[0] != b"stack" or len(numbers) > 10000:
        lines.fail()
    if any(number is None or not 1 <= number <= layers for number in numbers):
        lines.fail()
    lines.expect(b"end")
    return tuple(numbers)


def read_rule(lines, rule):
    line = lines.next()
    for word, alone in ((b"alone", True), (b"together", False)):
        if line == b"rule %s %s" % (rule.encode(), word):
            return alone
    return lines.fail()


def cert_lines(cert):
    if cert[0] == "given-area":
        return ["cert given-area"]
    if cert[0] == "strip":
        cuts = [" ".join(map(str, ("cut", place, *cut))) for place, cut in enumerate(cert[1])]
        return ["cert strip %d" % len(cuts)] + cuts
    weighting = cert[1]
    if weighting[0] == "table":
        rows = weighting[1]
        told = ["weighting table %d %d" % (len(rows[0]), len(rows))] + ["row " + " ".join(map(str, row)) for row in rows]
    elif weighting[0] == "lines":
        _, columns, rows, quarter = weighting
        told = ["weighting lines %d %d" % (len(columns), len(rows))]
        told += [" ".join(map(str, ("columns", *columns))), " ".join(map(str, ("rows", *rows)))]
        told += ["row " + " ".join(map(str, row)) for row in quarter]
    else:
        told = [" ".join(map(str, ("weighting", *weighting)))]
    return ["cert weighted"] + told + ["tree " + cert[2]]


def stack_lines(stack):
    if isinstance(stack, tuple):
        return [" ".join(map(str, ("stack", *stack)))]
    return ["unmet"] + ["rule %s %s" % (rule, "alone" if alone else "together") for rule, alone in stack]


def entry_text(entry, form=2):
    """The bytes of an entry."""
    if isinstance(entry, Refused):
        return ("entry %d\nrefused %s\nend\n" % (entry.number, entry.fault)).encode()
    lines = ["order " + " ".join(map(str, entry.order[: ORDER_NUMBERS[form]]))]
    lines.append("reduced %d %d %d %d" % entry.reduced)
    lines += ["count %d" % entry.count, "bound %d" % entry.bound]
    lines.append("status " + ("optimal" if entry.optimal else "open"))
    lines += cert_lines(entry.cert)
    lines.append("layers %d" % len(entry.layers))
    for place, (move, cases) in enumerate(entry.layers, 1):
        lines.append("layer %d %s" % (place, move))
        lines += ["%d %d %s" % case for case in cases]
    lines.append("allowed %d" % entry.allowed)
    lines += stack_lines(entry.stack) + ["end", ""]
    return b"entry %d\nid %s\n" % (entry.number, entry.id) + "\n".join(lines).encode()


def report_text(entries, form=2):
    """The bytes of a report of these entries."""
    return HEADS[form] + b"\n" + b"".join(entry_text(entry, form) for entry in entries) + b"done %d\n" % len(entries)
