#!/usr/bin/env python3
"""Times runs in the clear beside a plain tree walker in C, and prints tables for docs/PERFORMANCE.md.

`bench/walker.c` walks the same loops: it is compiled here by `cc -O2`. Each program is run at a number of turns and at twice
that number; a time is the least of its runs, which take turns, less that of the same program without a turn, so it is of the
turns alone. A step is one of the budget: a turn of a loop takes one and each statement one. Then the same loops are timed with
hidden values, and the memory of turns whose body has a variable of its own is told by the turn: each leaves a block that is
gone. Run it after the program was built by the launcher, or name another built program.
"""

import argparse
import os
import pathlib
import subprocess
import sys
import tempfile
import time

TOP = pathlib.Path(__file__).resolve().parent.parent
RUNS = 15
TURNS = 400_000

# what a program declares, the body of a turn, and the steps of a turn
LOOPS = {
    "`s = s + i`": ("loop", "", "int s = 0;", "s = s + i;", 2),
    "a call `s = add(s, i)`": ("calls", "int add(int a, int b) { return a + b; }\n", "int s = 0;", "s = add(s, i);", 3),
    "a sum of 1,000 elements": ("arrays", "", "int s = 0; int a[1000];", "for (int j = 0; j < 1000; j++) s = s + a[j];", 2),
    "a copy of a struct of 8 cells": ("structs", "struct Eight { int a; int b; int c; int d; int e; int f; int g; int h; };\n", "int s = 0; struct Eight x; struct Eight y;", "x = y;", 2),
    "a variable of its own": ("blocks", "", "int s = 0;", "{ int t = i; s = s + t; }", 4),
}
HIDDEN = {
    "`s = s + i`": ("obliv int s = 0; obliv int t = 3; int u = 0; int v = 3;", "u = u + v;", "s = s + t;"),
    "`s = s * t`": ("obliv int s = 1; obliv int t = 3; int u = 1; int v = 3;", "u = u * v;", "s = s * t;"),
    "`if (s < t) s = i`": ("obliv int s = 1; obliv int t = 3; int u = 1; int v = 3;", "if (u < v) u = i;", "obliv if (s < t) s = i;"),
    "a copy of a struct of 8 cells": ("struct Eight x; struct Eight y; struct Hidden p; struct Hidden q;", "x = y;", "p = q;"),
}
STRUCTS = (
    "struct Eight { int a; int b; int c; int d; int e; int f; int g; int h; };\n"
    "struct Hidden { obliv int a; obliv int b; obliv int c; obliv int d; obliv int e; obliv int f; obliv int g; obliv int h; };\n"
)


def source(before, declared, body):
    return f"{before}void oc_main(void) {{ int n = ocPublic(0); {declared} for (int i = 0; i < n; i++) {body} }}\n"


class Bench:
    def __init__(self, program, walker, folder):
        self.program, self.walker, self.folder = program, walker, pathlib.Path(folder)

    def clear(self, name, text, turns):
        path = self.folder / f"{name}.oc"
        path.write_text(text)
        return self.timed([self.program, "clear", path, "--public", str(turns), "--steps", "1000000000"])

    def timed(self, words):
        start = time.perf_counter()
        done = subprocess.run([str(word) for word in words], stdout=subprocess.PIPE, stderr=subprocess.PIPE, check=False)
        spent = time.perf_counter() - start
        if done.returncode:
            sys.exit(f"{words}: status {done.returncode}: {done.stderr.decode()}")
        return spent

    def least(self, calls, runs):
        """The least time of each of these calls, which take turns."""
        best = [float("inf")] * len(calls)
        for _ in range(runs):
            for at, call in enumerate(calls):
                best[at] = min(best[at], call())
        return best


def per_turn(times):
    """From the times without a turn, at a number of turns and at twice that number: both, less the first."""
    none, once, twice = times
    return once - none, twice - none


def speeds(bench, turns, runs):
    print("| Turn of a loop | Steps a second | In C | To C | Time of a turn | In C | Twice the turns |\n|---|---|---|---|---|---|---|")
    for title, (name, before, declared, body, steps) in LOOPS.items():
        count = turns // 1000 if name == "arrays" else turns
        text = source(before, declared, body)
        sizes = [0, count, 2 * count]
        calls = [lambda n=n: bench.clear(name, text, n) for n in sizes]
        calls += [lambda n=n: bench.timed([bench.walker, name, n * 1000 if name == "arrays" else n]) for n in sizes]
        times = bench.least(calls, runs)
        (once, twice), (_, in_c) = per_turn(times[:3]), per_turn(times[3:])
        taken = 2 * turns if name == "arrays" else 2 * count
        a, c = twice / taken, in_c / taken
        print(
            f"| {title} | {steps / a / 1e6:.1f} million | {steps / c / 1e6:.1f} million | {c / a:.2f} | {a * 1e9:.0f} ns | {c * 1e9:.0f} ns | {twice / once:.2f} times |"
        )


def hidden(bench, turns, runs):
    print("\n| Work of a turn | Public | Hidden | Hidden to public |\n|---|---|---|---|")
    for at, (title, (declared, public, obliv)) in enumerate(HIDDEN.items()):
        texts = [source(STRUCTS, declared, body) for body in [";", public, obliv]]
        times = bench.least([lambda t=t, i=i: bench.clear(f"hidden{at}{i}", t, 2 * turns) for i, t in enumerate(texts)], runs)
        each = [(one - times[0]) / (2 * turns) for one in times[1:]]
        print(f"| {title} | {each[0] * 1e9:.0f} ns | {each[1] * 1e9:.0f} ns | {each[1] / each[0]:.2f} |")


def peak(bench, name, text, turns):
    path = bench.folder / f"{name}.oc"
    path.write_text(text)
    process = subprocess.Popen(
        [str(bench.program), "clear", str(path), "--public", str(turns), "--steps", "1000000000"], stdout=subprocess.DEVNULL, stderr=subprocess.DEVNULL
    )
    _, status, usage = os.wait4(process.pid, 0)
    if status:
        sys.exit(f"{name} with {turns} turns: status {status}")
    return usage.ru_maxrss * 1024


def memory(bench, turns):
    print("\n| Turn of a loop | Memory of few turns | Of ten times as many | Bytes a turn | Turns that fit 8 GiB |\n|---|---|---|---|---|")
    for title in ["`s = s + i`", "a call `s = add(s, i)`", "a variable of its own"]:
        name, before, declared, body, _ = LOOPS[title]
        text = source(before, declared, body)
        few, many = peak(bench, name, text, turns), peak(bench, name, text, 10 * turns)
        a_turn = max(0, many - few) / (9 * turns)
        fit = f"{8 * 2**30 / a_turn / 1e6:.0f} million" if a_turn > 0.5 else "as many as wanted"
        print(f"| {title} | {few / 2**20:.0f} MiB | {many / 2**20:.0f} MiB | {a_turn:.0f} | {fit} |")


def main():
    words = argparse.ArgumentParser(description=__doc__.split("\n")[0])
    words.add_argument("program", nargs="?", default=TOP / "oblivcc-build" / "oblivcc", help="the built program")
    words.add_argument("--turns", type=int, default=TURNS)
    words.add_argument("--runs", type=int, default=RUNS)
    given = words.parse_args()
    with tempfile.TemporaryDirectory() as folder:
        walker = pathlib.Path(folder) / "walker"
        subprocess.run(["cc", "-O2", "-o", walker, TOP / "bench" / "walker.c"], check=True)
        bench = Bench(given.program, walker, folder)
        speeds(bench, given.turns, given.runs)
        hidden(bench, given.turns, given.runs)
        memory(bench, given.turns)


if __name__ == "__main__":
    main()
