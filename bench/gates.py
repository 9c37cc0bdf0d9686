#!/usr/bin/env python3
"""Times half gates and dealer's halves beside a yardstick in C, and prints tables for docs/PERFORMANCE.md.

Run it with the program that `rt run` built in crates/half_speed, on a machine that does nothing else. It wants a C
compiler, `cc`. A time is the least of five runs, less that of a run which does nothing.
"""

import os
import pathlib
import subprocess
import sys
import tempfile
import time

TOP = pathlib.Path(__file__).resolve().parent.parent
PROGRAM = TOP / "crates" / "half_speed" / "out" / "half_speed"
RUNS = 5
LOW = 2**64 - 1

# What is done, how often, what the table calls it, and how many blocks of SHA-256 it takes.
WORK = [
    ("digest", 2_000_000, "digest", 1),
    ("hash", 2_000_000, "hash a label", 1),
    ("garble", 500_000, "garble an AND", 4),
    ("evaluate", 1_000_000, "evaluate an AND", 2),
]


def run(words):
    words = [str(word) for word in words]
    start = time.perf_counter()
    with subprocess.Popen(words, stdout=subprocess.PIPE) as process:
        found = process.stdout.read()
        _, status, used = os.wait4(process.pid, 0)
        process.returncode = status
    if status:
        sys.exit(f"{words}: status {status}")
    return time.perf_counter() - start, int(found), used.ru_maxrss


def least(program, what, number):
    idle = min(run([program, what, 0])[0] for _ in range(RUNS))
    times, found, _ = zip(*(run([program, what, number]) for _ in range(RUNS)))
    return max(min(times) - idle, 1e-9), found[0]


def rates(yardstick):
    print("| Work | A second | In C | To C | Of the bound by `digest` |\n|---|---|---|---|---|")
    for what, number, name, blocks in WORK:
        took, found = least(PROGRAM, what, number)
        # A block of SHA-256 is all the work of the yardstick's `hash`.
        took_in_c, found_in_c = least(yardstick, "hash" if what == "digest" else what, number)
        if what == "digest":
            block, bound = took / number, ""
        else:
            bound = f"{blocks * block / (took / number):.2f} "
            if found & LOW != found_in_c:
                sys.exit(f"{what}: another result in C")
        rate, rate_in_c = (number / seconds / 1e6 for seconds in [took, took_in_c])
        print(f"| {name} | {rate:.2f} million | {rate_in_c:.2f} million | {rate / rate_in_c:.2f} | {bound}|")


def halves():
    print("| Transfers | Deal | Write both halves | Read both halves |\n|---|---|---|---|")
    for number in [262_144, 524_288, 1_048_576]:
        deal, write, read = (least(PROGRAM, what, number)[0] * 1000 for what in ["deal", "write", "read"])
        print(f"| {number:,} | {deal:.0f} ms | {write - deal:.0f} ms | {read - write:.0f} ms |")
    size = run([PROGRAM, "write_sender", number])[1] / 2**20
    print(f"\nThe sender's file of {number:,} transfers has {size:.0f} MiB. Most memory of a run that")
    for what, task in [
        ("write_sender", "deals, and writes that file of its half alone"),
        ("read_sender", "goes on to read that file alone"),
        ("read", "holds both halves, both files and both halves again"),
    ]:
        print(f"- {task}: {run([PROGRAM, what, number])[2] / 1024:.0f} MiB")


def main():
    if not PROGRAM.exists():
        sys.exit("there is no program: run `rt run` in crates/half_speed first")
    with tempfile.TemporaryDirectory() as folder:
        yardstick = pathlib.Path(folder) / "yardstick"
        subprocess.run(["cc", "-O3", "-o", yardstick, TOP / "bench" / "yardstick.c"], check=True)
        rates(yardstick)
    print()
    halves()


if __name__ == "__main__":
    main()
