#!/usr/bin/env python3
"""Times word circuits over the two plain backends beside SHA-256, and prints a table for docs/PERFORMANCE.md.

Run it with the programs that `rt run` built in crates/gate_speed and crates/half_speed, on a machine that does nothing
else. A time is the least of five runs, less that of a run which does nothing.
"""

import pathlib
import subprocess
import sys
import time

CRATES = pathlib.Path(__file__).resolve().parent.parent / "crates"
GATES = CRATES / "gate_speed" / "out" / "gate_speed"
HASHES = CRATES / "half_speed" / "out" / "half_speed"
RUNS = 5
BLOCKS = 2_000_000
ROUNDS = {"multiply": 2_000, "quotient": 1_000}


def run(words):
    start = time.perf_counter()
    ran = subprocess.run([str(word) for word in words], capture_output=True, check=True)
    return time.perf_counter() - start, int(ran.stdout)


def least(words, number):
    idle = min(run([*words, 0])[0] for _ in range(RUNS))
    times, made = zip(*(run([*words, number]) for _ in range(RUNS)))
    return max(min(times) - idle, 1e-9), made[0]


def main():
    for program in [GATES, HASHES]:
        if not program.exists():
            sys.exit(f"there is no program: run `rt run` in crates/{program.name} first")
    took, _ = least([HASHES, "digest"], BLOCKS)
    block = took / BLOCKS
    print(f"One SHA-256 block: {block * 1e9:.0f} ns\n")
    print("| Backend | Operation at 64 bits, signed | ANDs a second | Time of an AND | Of a SHA-256 block |\n|---|---|---|---|---|")
    for backend in ["plain", "blank"]:
        for operation, rounds in ROUNDS.items():
            took, made = least([GATES, backend, operation], rounds)
            each = took / made
            print(f"| {backend} | {operation} | {1 / each / 1e6:.0f} million | {each * 1e9:.1f} ns | {each / block:.3f} |")


if __name__ == "__main__":
    main()
