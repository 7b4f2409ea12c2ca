#!/usr/bin/env python3
"""Checks the map: in crates.txt a crate stands after all that it uses, and docs/CRATES.md lists the same crates in the
same order under the same headings. Prints what is amiss, and then ends with 1."""
import pathlib
import re

TOP = pathlib.Path(__file__).resolve().parent.parent


def listed():
    """The headings of crates.txt with their crates, and the uses of each crate."""
    headings, uses = [], {}
    for line in (TOP / "crates.txt").read_text().splitlines()[1:]:
        if line.startswith("#"):
            headings.append((line[1:].strip(), []))
        elif line:
            name, _, rest = line.partition(":")
            headings[-1][1].append(name.split()[0])
            uses[name.split()[0]] = rest.split()
    return headings, uses


def mapped():
    """The headings of docs/CRATES.md with the crates of their rows."""
    headings = []
    for line in (TOP / "docs/CRATES.md").read_text().splitlines():
        if line.startswith("## "):
            headings.append((line[3:], []))
        elif row := re.match(r"\| (\w+) \(\[", line):
            headings[-1][1].append(row[1])
    return headings


def faults():
    headings, uses = listed()
    before = set()
    for name, used in uses.items():
        yield from (f"{name} stands before {it}" for it in used if it in uses and it not in before)
        before.add(name)
    if mapped() != headings:
        yield "docs/CRATES.md has other crates, headings or another order than crates.txt"


if __name__ == "__main__":
    found = list(faults())
    print("\n".join(found) or "each crate stands after all that it uses, and the map has the same order")
    raise SystemExit(1 if found else 0)
