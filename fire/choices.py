#!/usr/bin/env python3
"""A second look at choices, written from docs/FORMATS.md alone: a reader, a writer, and a judge.

`choices.py < CHOICE` writes what `pallet check-choice` has to write, with its status.
"""

import sys

from reports import MOST_CASES, MOST_ENTRIES, Lines, NotAReport, Refused, entry_text, read_entry
from second_look import verdict_of, verdicts_text

HEAD = b"pallet-choice 1"


def read_choice(data):
    """(entries, chosen, rivals) of a choice's bytes: the chosen one is a pair of number and count, or None; a rival is a pair of
    number and bound. Raises NotAReport."""
    lines = Lines(data)
    lines.expect(HEAD)
    entries = []
    line = lines.next()
    while line == b"entry %d" % (len(entries) + 1) and len(entries) < MOST_ENTRIES[2]:
        entries.append(read_entry(lines, 2, len(entries) + 1))
        line = lines.next()
    chosen = read_chosen(lines, line)
    rivals = []
    line = lines.next()
    while line.startswith(b"rival "):
        rivals.append(read_rival(lines, line, rivals[-1][0] if rivals else 0))
        line = lines.next()
    if line != b"done %d" % len(entries):
        lines.fail()
    lines.end()
    return entries, chosen, rivals


def read_told(lines, line, words, unit):
    """The two numbers of a line, each after its word."""
    parts = line.split(b" ")
    if len(parts) != 4 or parts[2] != unit:
        lines.fail()
    joined = b" ".join((parts[0], parts[1], parts[3]))
    return tuple(lines.numbers_in(joined, words, [(1, MOST_ENTRIES[2]), (1, MOST_CASES[2])]))


def read_chosen(lines, line):
    return None if line == b"chosen none" else read_told(lines, line, b"chosen", b"count")


def read_rival(lines, line, above):
    rival = read_told(lines, line, b"rival", b"bound")
    if rival[0] <= above:
        lines.fail()
    return rival


def choice_of(entries):
    """The first planned entry with the most cases, and each planned entry whose bound is above their number, in order."""
    planned = [entry for entry in entries if not isinstance(entry, Refused)]
    if not planned:
        return None, []
    most = max(entry.count for entry in planned)
    chosen = next(entry for entry in planned if entry.count == most)
    return (chosen.number, most), [(entry.number, entry.bound) for entry in planned if entry.bound > most]


def choice_text(entries, chosen, rivals):
    """The bytes of a choice."""
    tail = b"chosen none\n" if chosen is None else b"chosen %d count %d\n" % chosen
    tail += b"".join(b"rival %d bound %d\n" % rival for rival in rivals)
    return HEAD + b"\n" + b"".join(entry_text(entry) for entry in entries) + tail + b"done %d\n" % len(entries)


def is_right(entries, verdicts, chosen, rivals):
    return not any(verdict.startswith("no") for verdict in verdicts) and (chosen, rivals) == choice_of(entries)


def answer_of(entries, chosen, rivals):
    """The status and the bytes of `check-choice`."""
    verdicts = [verdict_of(entry) for entry in entries]
    right = is_right(entries, verdicts, chosen, rivals)
    lines, done = verdicts_text(entries, verdicts).rsplit(b"done", 1)
    return int(not right), lines + (b"choice yes\n" if right else b"choice no\n") + b"done" + done


def main():
    try:
        status, text = answer_of(*read_choice(sys.stdin.buffer.read()))
    except NotAReport as no_choice:
        print("second look: not a choice, line %d" % no_choice.line, file=sys.stderr)
        return 6
    sys.stdout.buffer.write(text)
    return status


if __name__ == "__main__":
    sys.exit(main())
