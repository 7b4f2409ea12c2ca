#!/usr/bin/env python3
"""The two ends of planning an orders file of any length: cutting it into files that `pallet plan` takes, and telling of all
reports together.

    many.py cut ORDERS FOLDER     writes FOLDER/orders/000001.csv and so on, each the header and at most 256 rows
    many.py tell FOLDER           reads what stands in FOLDER, and writes FOLDER/results.csv and a summary

Row numbers in results.csv are those of the whole file: the k-th row of the n-th piece is row 256 * (n - 1) + k.
"""
import csv
import pathlib
import sys

ROWS = 256


def records(text):
    """The records of comma-separated bytes, each with its line end, as `plan` finds them: a quote opens a field only at its
    start, and a line end within quotes ends no record. Empty lines are no records."""
    start, place, quoted, at_start = 0, 0, False, True
    while place < len(text):
        byte = text[place:place + 1]
        place += 1
        if quoted:
            if byte == b'"':
                if text[place:place + 1] == b'"':
                    place += 1
                else:
                    quoted = False
        elif byte == b'"' and at_start:
            quoted, at_start = True, False
        elif byte in b"\r\n":
            if text[start:place].strip(b"\r\n"):
                yield text[start:place].rstrip(b"\r\n") + b"\n"
            start, at_start = place, True
        else:
            at_start = byte == b","
    if text[start:].strip(b"\r\n"):
        yield text[start:] + b"\n"


def cut(source, folder):
    text = pathlib.Path(source).read_bytes().removeprefix(b"\xef\xbb\xbf")
    header, *rows = records(text)
    pieces = folder / "orders"
    pieces.mkdir(parents=True, exist_ok=True)
    for place in range(0, len(rows), ROWS):
        piece = pieces / f"{place // ROWS + 1:06}.csv"
        piece.write_bytes(header + b"".join(rows[place:place + ROWS]))
    print(f"{len(rows)} rows in {-(-len(rows) // ROWS)} files")


def entries(lines):
    """Of each entry of a report what results.csv tells: number, id, count, bound, status, stack, or the fault."""
    entry = {}
    for line in lines:
        word, _, rest = line.partition(" ")
        if word == "entry":
            entry = {"number": int(rest)}
        elif word in ("id", "refused", "count", "bound", "status"):
            entry[word] = rest
        elif word == "stack":
            entry["stack"] = "listed"
        elif word == "unmet":
            entry["stack"] = "unmet"
        elif line == "end":
            yield entry


def tell(folder):
    pieces = sorted((folder / "orders").glob("*.csv"))
    totals = dict.fromkeys(["rows", "optimal", "open", "unmet", "refused", "judged no", "missing files"], 0)
    with (folder / "results.csv").open("w", newline="") as out:
        table = csv.writer(out, lineterminator="\n")
        table.writerow(["row", "id", "count", "bound", "status", "stack", "refused", "verdict"])
        for piece in pieces:
            report = folder / "reports" / f"{piece.stem}.report"
            verdicts = folder / "verdicts" / f"{piece.stem}.verdicts"
            if not verdicts.exists():
                totals["missing files"] += 1
                continue
            judged = [line.split(" ", 2)[2] for line in verdicts.read_text().splitlines() if line.startswith("entry ")]
            told = list(entries(report.read_text(encoding="latin-1").splitlines()))
            if len(judged) != len(told):
                sys.exit(f"{report}: {len(told)} entries and {len(judged)} verdicts")
            before = ROWS * (int(piece.stem) - 1)
            for entry, verdict in zip(told, judged):
                totals["rows"] += 1
                totals["optimal"] += entry.get("status") == "optimal"
                totals["open"] += entry.get("status") == "open"
                totals["unmet"] += entry.get("stack") == "unmet"
                totals["refused"] += "refused" in entry
                totals["judged no"] += verdict.startswith("no")
                table.writerow([before + entry["number"], *(entry.get(name, "") for name in
                               ("id", "count", "bound", "status", "stack", "refused")), verdict])
    print(", ".join(f"{count} {name}" for name, count in totals.items()))
    return 1 if totals["missing files"] or totals["judged no"] else 0


def main():
    if sys.argv[1:2] == ["cut"] and len(sys.argv) == 4:
        return cut(sys.argv[2], pathlib.Path(sys.argv[3]))
    if sys.argv[1:2] == ["tell"] and len(sys.argv) == 3:
        return tell(pathlib.Path(sys.argv[2]))
    sys.exit(__doc__)


if __name__ == "__main__":
    sys.exit(main())
