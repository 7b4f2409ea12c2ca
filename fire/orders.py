"""A second reader of orders files, written from docs/FORMATS.md alone: rows, their tests, and the instance of an order."""

MOST_BYTES = 262144
MOST_ROWS = 256
NUMBER_COLUMNS = [
    "pallet_x", "pallet_y", "case_x", "case_y", "case_z", "weight",
    "max_height", "max_weight", "contact", "support", "cut", "gap",
]
OLD_HEADER = [b"id"] + [name.encode() for name in NUMBER_COLUMNS[:11]]
GAP_HEADER = OLD_HEADER + [b"gap"]
RANGES = {
    "pallet_x": (1, 4000), "pallet_y": (1, 4000), "case_x": (1, 4000), "case_y": (1, 4000),
    "case_z": (1, 10000), "weight": (1, 100000000), "max_height": (1, 10000), "max_weight": (1, 100000000),
    "contact": (0, 100), "support": (0, 1), "cut": (0, 100),
}


class NoOrders(Exception):
    """The file is not read: the program's status is `status`."""

    def __init__(self, status):
        super().__init__(status)
        self.status = status


def number_of(word):
    """The number that these bytes are: `0`, or a digit from 1 to 9 and at most nine more; else None."""
    if not 1 <= len(word) <= 10 or not all(48 <= byte <= 57 for byte in word):
        return None
    if word[0] == 48 and len(word) > 1:
        return None
    return int(word)


def records_of(data):
    """The records of a CSV file, each a list of fields of bytes."""
    if data.startswith(b"\xef\xbb\xbf"):
        data = data[3:]
    records, fields, field = [], [], bytearray()
    state = "line"  # at a line's start; else "start" of a field, "plain", "quoted", or behind a "closing" quote
    for byte in data:
        char = chr(byte)
        if state == "quoted":
            if char == '"':
                state = "closing"
            else:
                field.append(byte)
        elif char == '"' and state in ("line", "start"):
            state = "quoted"
        elif char == '"' and state == "closing":
            field.append(byte)
            state = "quoted"
        elif char in "\r\n":
            if state != "line":
                records.append(fields + [bytes(field)])
                fields, field, state = [], bytearray(), "line"
        elif char == ",":
            fields.append(bytes(field))
            field, state = bytearray(), "start"
        else:
            field.append(byte)
            state = "plain"
    if state != "line":
        records.append(fields + [bytes(field)])
    return records


def sides_of(order):
    """The given instance of an order's twelve numbers: (pallet_x, pallet_y, long, short), each longer by the gap."""
    gap = order[11]
    return (order[0] + gap, order[1] + gap, max(order[2], order[3]) + gap, min(order[2], order[3]) + gap)


def range_of(column, numbers):
    """The least and the greatest number of a column of a row with these twelve numbers."""
    if column == "gap":
        return (0, min(100, 4000 - max(numbers[0], numbers[1])))
    return RANGES[column]


def fault_of_numbers(numbers, most_cases):
    """The first of the tests from OutOfRange on that twelve numbers fail, or None."""
    for column, value in zip(NUMBER_COLUMNS, numbers):
        least, greatest = range_of(column, numbers)
        if not least <= value <= greatest:
            return "OutOfRange " + column
    long_side, short_side = max(numbers[2], numbers[3]), min(numbers[2], numbers[3])
    fits = [numbers[0] >= a and numbers[1] >= b for a, b in ((long_side, short_side), (short_side, long_side))]
    if not any(fits):
        return "DoesNotFit"
    given = sides_of(numbers)
    if (given[0] * given[1]) // (given[2] * given[3]) > most_cases:
        return "TooManyCases"
    return None


def is_id(field):
    return 1 <= len(field) <= 40 and all(32 <= byte <= 126 for byte in field)


def row_of(fields, header):
    """A row's fault as a text, or (id, twelve numbers)."""
    if len(fields) != len(header):
        return "FieldCount"
    if not is_id(fields[0]):
        return "BadId"
    numbers = [number_of(field) for field in fields[1:]]
    for column, value in zip(NUMBER_COLUMNS, numbers):
        if value is None:
            return "BadNumber " + column
    if len(numbers) == 11:
        numbers.append(0)
    fault = fault_of_numbers(numbers, 1000)
    return fault if fault is not None else (fields[0], tuple(numbers))


def rows_of(data):
    """The rows of an orders file, each a fault or (id, numbers). Raises NoOrders with the status of a file that is none."""
    if len(data) > MOST_BYTES:
        raise NoOrders(3)
    records = records_of(data)
    if not records or records[0] not in (OLD_HEADER, GAP_HEADER):
        raise NoOrders(4)
    if len(records) - 1 > MOST_ROWS:
        raise NoOrders(5)
    return [row_of(fields, records[0]) for fields in records[1:]]
