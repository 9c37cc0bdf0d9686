#!/usr/bin/env python3
"""Times the command `check` on long sources, and prints two tables for docs/PERFORMANCE.md.

The first is of ordinary forms at three sizes, the second of hostile shapes: each at a size and at twice that size. All
sources are accepted, so their tokens, trees, types and scopes are all looked at; `--model FOLDER` only asks the independent
model in that folder whether small sources of each form and shape are. Each time is the least of its runs, with the start of
the process; the runs of one form's sizes take turns. Where `valgrind` is there, growth is told by the instructions that it
counts too, which are the same in every run. Memory is the peak of the process, in the first table also by tokens and by
nodes. Run it after the program was built by the launcher, or name another built program.
"""

import argparse
import os
import pathlib
import re
import shutil
import subprocess
import sys
import tempfile
import time

TOP = pathlib.Path(__file__).resolve().parent.parent
RUNS = 40
SHAPE_RUNS = 10
SIZES = [262_144, 524_288, 1_048_576]
MOST = 1_048_576
START, END = b"void oc_main(void){", b"}\n"


def filled(start, line_of, end, size):
    lines, left, count = [], size - len(start) - len(end), 0
    while left >= 40:
        line = line_of(count)
        if len(line) > left:
            break
        lines.append(line)
        left -= len(line)
        count += 1
    return start + b"".join(lines) + end + b"\n" * left


def blanks(size):
    source = (TOP / "examples" / "sum.oc").read_bytes()
    return source + b" " * (size - len(source))


def ordinary(size):
    part = (
        b"/* A part. */\nint part%d(int a, obliv int b) {\n  int t = a * 2 + 1;\n  for (int i = 0; i < 10; i++) {\n"
        b"    if (t > a && i %% 2 == 0) t += i; else t -= a;\n  }\n  printf(\"%%d\\n\", t);\n  return t;\n}\n"
    )
    return filled(b"#include <stdio.h>\n", lambda i: part % i, START + END, size)


def statements(size):
    return filled(b"void oc_main(void) {\nint a; int b;\n", lambda i: b"a = b + %d;\n" % i, b"}\n", size)


def expressions(size):
    line = b"r = " + b" + ".join([b"a * b"] * 240) + b";\n"
    return filled(b"void oc_main(void) {\nint r; int a; int b;\n", lambda i: line, b"}\n", size)


def names(size):
    return filled(b"void oc_main(void) {\n", lambda i: b"int name%d;\n" % i, b"}\n", size)


def defines(size):
    return filled(b"", lambda i: b"#define N%d 1\n" % i, START + END, size)


def long_name(size):
    variables = b", ".join([b"b%d" % i for i in range(490)])
    front, middle, back = b"struct ", b" { int a; };\nvoid oc_main(void) {\nstruct ", b" " + variables + b";\n}\n"
    left = size - len(front) - len(middle) - len(back)
    name = b"s" * (left // 2)
    return front + name + middle + name + back + b"\n" * (left % 2)


def lines(line_of, count):
    return b"".join([line_of(at) for at in range(count)])


def stars(count):
    """Uses of one variable, whose type is a pointer of 990 stars."""
    return START + b"int " + b"*" * 990 + b"p;" + b"p;" * count + END


def compared_stars(count):
    """Two variables of such a type, compared."""
    written = b"*" * 990
    return START + b"int " + written + b"p;int " + written + b"q;" + b"p==q;" * count + END


def one_scope(count):
    """Variables of one scope, each used by the next."""
    return START + b"int a0;" + lines(lambda at: b"int a%d=a%d;" % (at + 1, at), count) + END


def bare_variables(count):
    return START + lines(lambda at: b"int a%d;" % at, count) + END


def many_scopes(count):
    """Scopes one after another."""
    return START + b"int b;" + b"{int a;a=b;}\n" * count + END


def nested_scopes(depth):
    return lines(lambda at: b"{int a%d;" % at, depth)


def deep_scopes(count):
    """Uses of an outer variable in 900 scopes, one in the other."""
    return START + b"int b;" + nested_scopes(900) + b"b;a7;" * count + b"}" * 900 + END


def many_deep_scopes(count):
    """Deep nests of scopes, one after another."""
    return START + (nested_scopes(900) + b"}" * 900 + b"\n") * count + END


def many_structs(count):
    """Structs, each of which leads to the one before it."""
    return b"struct s0{int a;};" + lines(lambda at: b"struct s%d{struct s%d*p;};" % (at + 1, at), count) + START + END


def many_fields(count):
    """One struct of many fields, some of them used."""
    uses = lines(lambda at: b"x.a%d;" % (at * 7 % count), count // 4)
    return b"struct s{" + lines(lambda at: b"int a%d;" % at, count) + b"};" + START + b"struct s x;" + uses + END


def many_functions(count):
    """Functions with prototypes, each of which calls the next one."""
    bodies = lines(lambda at: b"void f%d(){f%d();}" % (at, (at + 1) % count), count)
    return lines(lambda at: b"void f%d();" % at, count) + bodies + START + END


def many_parts(count):
    """Parts of an `obliv if`, one after another."""
    return START + b"obliv int a;obliv bool c;" + b"obliv if(c)a=1;\n" * count + END


def deep_parts(count):
    """Nests of such parts, as deep as the load allows, one after another."""
    return START + b"obliv int a;obliv bool c;" + (b"obliv if(c){" * 165 + b"a=1;" + b"}" * 165 + b"\n") * count + END


# Each shape with half of its size, and with a small one.
SHAPES = [
    (stars, 100_000, 9),
    (compared_stars, 90_000, 9),
    (one_scope, 25_000, 9),
    (bare_variables, 35_000, 9),
    (many_scopes, 20_000, 9),
    (deep_scopes, 75_000, 9),
    (many_deep_scopes, 40, 2),
    (many_structs, 15_000, 9),
    (many_fields, 15_000, 9),
    (many_functions, 10_000, 9),
    (many_parts, 30_000, 9),
    (deep_parts, 200, 2),
]
FORMS = [blanks, ordinary, statements, expressions, names, defines, long_name]


TOKEN = re.compile(rb"/\*.*?\*/|#[^\n]*|\s+|(\w+|\"[^\"]*\"|[<>=!+*/%&|^-]=|\+\+|--|&&|\|\||<<|>>|->|.)")


# What makes no node of a tree: brackets, separators, and the words of types.
NO_NODE = re.compile(rb"[(){}\[\];,]|void|int|obliv|bool|struct")


def tokens_of(source):
    return [found.group(1) for found in TOKEN.finditer(source) if found.group(1)]


def count_nodes(tokens):
    """About how many nodes these tokens make: names, numbers, texts, operators, and the words of statements."""
    return sum(1 for token in tokens if not NO_NODE.fullmatch(token))


def words_of(program):
    return [program, "check", "program.oc"]


def time_of(program, folder, source):
    (folder / "program.oc").write_bytes(source)
    start = time.perf_counter()
    ran = subprocess.run(words_of(program), cwd=folder, capture_output=True, check=False)
    took = time.perf_counter() - start
    if (ran.returncode, ran.stdout) != (0, b"ok\n"):
        sys.exit(f"status {ran.returncode}, {ran.stdout!r} {ran.stderr!r}")
    return took


def least_times(program, folder, sources, runs):
    """The least time of each source, where the runs of all take turns."""
    taken = [[time_of(program, folder, source) for source in sources] for _ in range(runs)]
    return [min(times) for times in zip(*taken)]


def peak_of(program, folder, source):
    (folder / "program.oc").write_bytes(source)
    with subprocess.Popen(words_of(program), cwd=folder, stdout=subprocess.DEVNULL, stderr=subprocess.DEVNULL) as process:
        _, status, used = os.wait4(process.pid, 0)
        process.returncode = status
    return used.ru_maxrss * 1024


def count_instructions(program, folder, source):
    (folder / "program.oc").write_bytes(source)
    words = ["valgrind", "--tool=callgrind", "--callgrind-out-file=/dev/null", *words_of(program)]
    ran = subprocess.run(words, cwd=folder, capture_output=True, check=False)
    return int(re.search(rb"Collected : (\d+)", ran.stderr).group(1))


def ratios(values):
    return [f"{after / before:.2f}" for before, after in zip(values, values[1:])]


def growth(program, folder, sources):
    if shutil.which("valgrind") is None:
        return [""] * (len(sources) - 1)
    return ratios([count_instructions(program, folder, source) for source in sources])


def show_forms(program, folder):
    kib = [f"{size // 1024} KiB" for size in SIZES]
    steps = [f"of {kib[1]} to {kib[0]}", f"of {kib[2]} to {kib[1]}"]
    grown = " | ".join(["Time " + steps[0], steps[1], "Instructions " + steps[0], steps[1]])
    print("| Source |", " | ".join(kib), "|", grown, "| Most memory | Tokens | A token | A node |")
    print("|---" * 12 + "|")
    for form in FORMS:
        sources = [form(size) for size in SIZES]
        times = least_times(program, folder, sources, RUNS)
        peak, tokens = peak_of(program, folder, sources[-1]), tokens_of(sources[-1])
        cells = [f"{took * 1000:.1f} ms" for took in times] + ratios(times) + growth(program, folder, sources)
        each = [f"{peak / count:.0f} bytes" if count > 10_000 else "" for count in [len(tokens), count_nodes(tokens)]]
        cells += [f"{peak / 2**20:.0f} MiB", str(len(tokens)), *each]
        print(f"| {form.__name__} |", " | ".join(cells), "|")


def show_shapes(program, folder):
    print("\n| Shape | Of twice | Bytes | Time | Of twice | Ratio | Instructions, ratio | Memory | Of twice | Ratio |")
    print("|---" * 10 + "|")
    for shape, count, _ in SHAPES:
        sources = [shape(count), shape(2 * count)]
        if len(sources[1]) > MOST:
            sys.exit(f"{shape.__name__} has {len(sources[1])} bytes")
        times = least_times(program, folder, sources, SHAPE_RUNS)
        peaks = [peak_of(program, folder, source) for source in sources]
        cells = [str(2 * count), str(len(sources[1]))] + [f"{took * 1000:.1f} ms" for took in times] + ratios(times)
        cells += growth(program, folder, sources) + [f"{peak / 2**20:.0f} MiB" for peak in peaks] + ratios(peaks)
        print(f"| {shape.__name__} |", " | ".join(cells), "|")


def ask_model(folder):
    """Whether the model accepts small sources of each form and shape."""
    sys.path.insert(0, str(folder))
    from oracle import base, front

    small = [(form.__name__, form(12_000)) for form in FORMS] + [(shape.__name__, shape(count)) for shape, _, count in SHAPES]
    answers = [(name, base.deep(front.verdict, source)) for name, source in small]
    for name, refusal in answers:
        print(name, "is accepted" if refusal is None else f"is refused: {refusal}")
    long = [shape.__name__ for shape, count, _ in SHAPES if len(shape(2 * count)) > MOST]
    print("too long:", long or "none")
    return 1 if long or any(refusal for _, refusal in answers) else 0


def main():
    arguments = argparse.ArgumentParser(description=__doc__)
    arguments.add_argument("program", nargs="?", type=pathlib.Path, default=TOP / "oblivcc-build" / "oblivcc")
    arguments.add_argument("--model", type=pathlib.Path)
    asked = arguments.parse_args()
    if asked.model:
        return ask_model(asked.model)
    program = asked.program.resolve()
    if not program.exists():
        sys.exit("there is no program: run ./oblivcc first")
    with tempfile.TemporaryDirectory() as name:
        folder = pathlib.Path(name)
        show_forms(program, folder)
        show_shapes(program, folder)
    return 0


if __name__ == "__main__":
    sys.exit(main())
