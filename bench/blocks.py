#!/usr/bin/env python3
"""Times the blocks of a run, and prints tables for docs/PERFORMANCE.md.

Run it with the program that `rt run` built in crates/memory_speed, on a machine that does nothing else. A time is the
least of five runs, less that of a run which only makes the live cells and the gone blocks.
"""

import os
import pathlib
import subprocess
import sys
import time

TOP = pathlib.Path(__file__).resolve().parent.parent
PROGRAM = TOP / "crates" / "memory_speed" / "out" / "memory_speed"
RUNS = 5
COUNT = 1_000_000


def run(kind, live, gone, count):
    words = [str(word) for word in [PROGRAM, kind, live, gone, count]]
    start = time.perf_counter()
    with subprocess.Popen(words, stdout=subprocess.PIPE) as process:
        found = int(process.stdout.read())
        _, status, used = os.wait4(process.pid, 0)
        process.returncode = status
    if status:
        sys.exit(f"{words[1:]}: status {status}")
    return time.perf_counter() - start, found, used.ru_maxrss


def least(kind, live, gone, count):
    return min(run(kind, live, gone, count)[0] for _ in range(RUNS))


def main():
    if not PROGRAM.exists():
        sys.exit("there is no program: run `rt run` in crates/memory_speed first")
    places = [(10, 0), (10, COUNT), (60_000, 0), (60_000, COUNT)]
    print("| Work |", " | ".join(f"{live} live cells, {gone} gone blocks" for live, gone in places), "|\n|---|---|---|---|---|")
    for kind, each in [("makes", "a block made and ended"), ("accesses", "a store and a load")]:
        times = [(least(kind, *place, COUNT) - least(kind, *place, 0)) / COUNT * 1e9 for place in places]
        print(f"| {each} |", " | ".join(f"{time:.0f} ns" for time in times), "|")
    # A child's peak is never below that of this process, so two runs are compared that are both far above it.
    few, many = (run("makes", 10, 0, count)[2] for count in [2 * COUNT, 4 * COUNT])
    print(f"\nMakes and ends in sequence take {(many - few) * 1024 / (2 * COUNT):.0f} bytes a gone block.")


if __name__ == "__main__":
    main()
