#!/usr/bin/env python3
"""Times command lines with long lists of integers, and prints a table for docs/PERFORMANCE.md.

Run it with the program that `rt run` built in crates/words_speed. A time is the least of its runs, less that of a run
which makes the words and scans none; the runs of all sizes take turns.
"""

import pathlib
import subprocess
import sys
import time

TOP = pathlib.Path(__file__).resolve().parent.parent
PROGRAM = TOP / "crates" / "words_speed" / "out" / "words_speed"
COUNTS = [16_384, 32_768, 65_536]
RUNS = 15
TIMES = 20


def run(count, digits, times):
    start = time.perf_counter()
    done = subprocess.run([PROGRAM, str(count), str(digits), str(times)], stdout=subprocess.PIPE, check=True)
    spent = time.perf_counter() - start
    if int(done.stdout) != count * times:
        sys.exit(f"{count} integers of {digits} digits: {done.stdout}")
    return spent


def main():
    if not PROGRAM.exists():
        sys.exit("there is no program: run `rt run` in crates/words_speed first")
    kinds = [(digits, count) for digits in [1, 19] for count in COUNTS]
    least = {(kind, times): float("inf") for kind in kinds for times in [0, TIMES]}
    for _ in range(RUNS):
        for kind, times in least:
            digits, count = kind
            least[kind, times] = min(least[kind, times], run(count, digits, times))
    print("| Integers |", " | ".join(f"{count:,}" for count in COUNTS), "|\n|---|---|---|---|")
    for digits in [1, 19]:
        spent = [(least[(digits, count), TIMES] - least[(digits, count), 0]) / TIMES for count in COUNTS]
        of = "1 digit" if digits == 1 else f"{digits} digits"
        print(f"| of {of} |", " | ".join(f"{each * 1e3:.2f} ms" for each in spent), "|")


if __name__ == "__main__":
    main()
