#!/usr/bin/env python3
"""How long each part of a whole `rt ci` takes, by crate.

    python3 bench/gate_times.py PID

watches the checks that run below the process PID, until that process ends or this one is told to end (SIGTERM, SIGINT).
Then it prints, for each crate, the seconds by the clock and of processor time of its own proof, of the proof of its
tests, and of its must-fail edits, the dearest crate first. A check is looked at twice a second, so each may have used up
to half a second more than is told. What was kept from earlier runs is not proved anew, and is not in the table.
"""

import collections
import os
import signal
import sys
import time

TICKS = os.sysconf("SC_CLK_TCK")
PAUSE = 0.5
PARTS = ("proof", "tests", "edits")


class Part:
    """What one part of a crate took so far."""

    def __init__(self):
        self.first = None
        self.last = None
        self.seconds = 0.0
        self.checks = 0

    def seen(self, now):
        if self.first is None:
            self.first = now
        self.last = now

    def clock(self):
        return 0.0 if self.first is None else self.last - self.first


def processes():
    """Each process: its parent and its processor time with that of its children that ended, in seconds."""
    found = {}
    for name in os.listdir("/proc"):
        if not name.isdigit():
            continue
        try:
            with open(f"/proc/{name}/stat") as stat:
                fields = stat.read().rpartition(")")[2].split()
        except OSError:
            continue
        used = sum(int(field) for field in fields[11:15])
        found[int(name)] = (int(fields[1]), used / TICKS)
    return found


def words_of(pid):
    try:
        with open(f"/proc/{pid}/cmdline", "rb") as line:
            return line.read().decode(errors="replace").split("\0")
    except OSError:
        return []


def part_of(pid):
    """The crate and the part that a check is for; None for any other process."""
    words = words_of(pid)
    if len(words) < 4 or not words[0].endswith("/rattle") or words[1] not in ("check", "build"):
        return None
    crate = words[words.index("--crate-name") + 1] if "--crate-name" in words else "?"
    try:
        folder = os.readlink(f"/proc/{pid}/cwd")
    except OSError:
        folder = ""
    if "rt-edit" in folder:
        return crate, "edits"
    return crate, "tests" if "--test" in words else "proof"


def lineage(pid, parents):
    while pid in parents:
        pid = parents[pid][0]
        yield pid


class Watch:
    def __init__(self, root):
        self.root = root
        self.parts = collections.defaultdict(Part)
        self.running = {}
        self.begun = time.time()

    def look(self):
        """Looks once at all checks; false where the process that is watched has ended."""
        now = time.time()
        found = processes()
        if self.root not in found:
            return False
        checks = {}
        for pid in found:
            above = list(lineage(pid, found))
            if self.root not in above:
                continue
            part = self.running[pid][0] if pid in self.running else part_of(pid)
            if part is not None:
                checks[pid] = (part, above)
        used = collections.defaultdict(float)
        for pid, (part, above) in checks.items():
            top = next((other for other in reversed(above) if other in checks), pid)
            used[top] += found[pid][1]
        for pid, seconds in used.items():
            part = checks[pid][0]
            before = self.running[pid][1] if pid in self.running else 0.0
            if pid not in self.running:
                self.parts[part].checks += 1
            seconds = max(seconds, before)
            self.parts[part].seconds += seconds - before
            self.parts[part].seen(now)
            self.running[pid] = (part, seconds)
        for pid in list(self.running):
            if pid not in used:
                del self.running[pid]
        return True

    def table(self):
        rows = []
        for crate in {crate for crate, _ in self.parts}:
            parts = [self.parts.get((crate, name), Part()) for name in PARTS]
            rows.append((sum(part.seconds for part in parts), crate, parts))
        rows.sort(reverse=True)
        lines = ["| Crate | proof: clock, processor | tests: clock, processor | edits: number, processor | processor, all |"]
        lines.append("|---|---|---|---|---|")
        for total, crate, (proof, tests, edits) in rows:
            lines.append(
                f"| {crate} | {proof.clock():.0f}, {proof.seconds:.0f} | {tests.clock():.0f}, {tests.seconds:.0f} "
                f"| {edits.checks}, {edits.seconds:.0f} | {total:.0f} |"
            )
        sums = {name: sum(part.seconds for (_, of), part in self.parts.items() if of == name) for name in PARTS}
        minutes = (time.time() - self.begun) / 60
        lines.append(
            f"{minutes:.1f} minutes by the clock; processor minutes: proofs {sums['proof'] / 60:.1f}, "
            f"tests {sums['tests'] / 60:.1f}, edits {sums['edits'] / 60:.1f}"
        )
        return "\n".join(lines)


def main():
    if len(sys.argv) != 2 or not sys.argv[1].isdigit():
        sys.exit("usage: gate_times.py PID")
    watch = Watch(int(sys.argv[1]))
    ended = []
    for kind in (signal.SIGTERM, signal.SIGINT):
        signal.signal(kind, lambda *_: ended.append(True))
    while not ended and watch.look():
        time.sleep(PAUSE)
    if watch.parts:
        print(watch.table(), flush=True)


if __name__ == "__main__":
    main()
