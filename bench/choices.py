#!/usr/bin/env python3
"""Compares the processor time of `choose` with that of `plan`, and of `check-choice` with that of `check`, on the same orders.

The orders files are those of examples/, a case on four pallets and made realistic orders. Each mode is run in turn, several times,
and the least time of each counts; where a run takes less than a millisecond, so many runs are timed together. Prints a line
a file with the four times and both ratios; ends with 1 where one is above a tenth more.

usage: bench/choices.py [PROGRAM]     PROGRAM is the built one if none is named (run ./pallet once)
"""
import resource
import subprocess
import sys

import realistic

ROUNDS = 5


def spent(program, word, text, times):
    """The processor seconds of so many runs of a mode on a text, and what the last one wrote."""
    before = resource.getrusage(resource.RUSAGE_CHILDREN)
    for _ in range(times):
        ran = subprocess.run([program, word], input=text, capture_output=True, check=False)
        if ran.returncode > 1:
            sys.exit(f"{program} {word} ended with {ran.returncode}: {ran.stderr.decode().strip()}")
    after = resource.getrusage(resource.RUSAGE_CHILDREN)
    return (after.ru_utime - before.ru_utime + after.ru_stime - before.ru_stime) / times, ran.stdout


def least_times(program, orders):
    """The least processor seconds of `plan`, `choose`, `check` and `check-choice`, each on what belongs to it."""
    texts = {"plan": orders, "choose": orders}
    first, texts["check"] = spent(program, "plan", orders, 1)
    _, texts["check-choice"] = spent(program, "choose", orders, 1)
    times = max(1, min(50, int(0.2 / max(first, 0.001))))
    least = {}
    for _ in range(ROUNDS):
        for word, text in texts.items():
            seconds, _ = spent(program, word, text, times)
            least[word] = min(least.get(word, seconds), seconds)
    return least


def main():
    program = sys.argv[1] if len(sys.argv) > 1 else realistic.PROGRAM
    files = {path.name: path.read_bytes() for path in sorted((realistic.TOP / "examples").glob("*.csv"))}
    for seed in (1, 2):
        rows = [realistic.HEADER, *realistic.orders(250, seed), ""]
        files[f"250 realistic orders of seed {seed}"] = "\n".join(rows).encode()
    worst = 0.0
    for name, orders in files.items():
        least = least_times(program, orders)
        choose, check = least["choose"] / least["plan"], least["check-choice"] / least["check"]
        worst = max(worst, choose, check)
        times = ", ".join(f"{word} {1000 * seconds:.2f} ms" for word, seconds in least.items())
        print(f"{name}: {times}; {choose:.2f}, {check:.2f}")
    return int(worst > 1.1)


if __name__ == "__main__":
    sys.exit(main())
