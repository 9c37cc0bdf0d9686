#!/usr/bin/env python3
"""Times bytes through an outbox, a line in memory and an inbox beside a yardstick in C, and prints a table for
docs/PERFORMANCE.md.

Run it with the program that `rt run` built in crates/frame_speed, on a machine that does nothing else. It wants a C
compiler, `cc`. A time is the least of five runs, less that of a run which moves nothing.
"""

import pathlib
import subprocess
import sys
import tempfile
import time

TOP = pathlib.Path(__file__).resolve().parent.parent
PROGRAM = TOP / "crates" / "frame_speed" / "out" / "frame_speed"
RUNS = 5
# How many bytes a piece has, and how many pieces are moved.
PIECES = [(1, 20_000_000), (100, 10_000_000), (32_773, 50_000)]
# How many bytes stand in both boxes all the while.
STANDING = [0, 200_000]


def run(words):
    words = [str(word) for word in words]
    start = time.perf_counter()
    found = subprocess.run(words, capture_output=True, check=True).stdout
    return time.perf_counter() - start, int(found)


def rate(program, what, size, count, *standing):
    """Millions of bytes a second."""
    idle = min(run([program, what, size, 0, *standing])[0] for _ in range(RUNS))
    times, came = zip(*(run([program, what, size, count, *standing]) for _ in range(RUNS)))
    if set(came) != {size * count}:
        sys.exit(f"{what} {size} {count}: {came[0]} bytes came")
    return size * count / max(min(times) - idle, 1e-9) / 1e6


def main():
    if not PROGRAM.exists():
        sys.exit("there is no program: run `rt run` in crates/frame_speed first")
    print("In millions of bytes a second:\n")
    print("| Bytes a piece | Standing | Boxes and a line | Both boxes | Both boxes in C | One copy | One copy in C |")
    print("|---|---|---|---|---|---|---|")
    with tempfile.TemporaryDirectory() as folder:
        yardstick = pathlib.Path(folder) / "copies"
        subprocess.run(["cc", "-O3", "-o", yardstick, TOP / "bench" / "copies.c"], check=True)
        for size, count in PIECES:
            boxes_in_c, copy_in_c = (rate(yardstick, what, size, count) for what in ["boxes", "copy"])
            copy = rate(PROGRAM, "copy", size, count, 0)
            for standing in STANDING:
                line, boxes = (rate(PROGRAM, what, size, count, standing) for what in ["line", "boxes"])
                rates = " | ".join(f"{found:,.0f}" for found in [line, boxes, boxes_in_c, copy, copy_in_c])
                print(f"| {size:,} | {standing:,} | {rates} |")


if __name__ == "__main__":
    main()
