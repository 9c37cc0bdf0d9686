#!/usr/bin/env python3
"""Compares what the program says of sources with what it has to say: of those of tests/checked_sources.txt, of the programs in
the tables of docs/RULES.md, and of some at a limit.

    python3 tools/check_sources.py PROGRAM

A case is a line `=== ANSWER`, where the answer is `ok` or `refused RULE LINE:COLUMN`, and its source: the lines up to the next such
line, without an end of the last line. A line that begins with `# ` is a heading; it and the empty line before it belong to no
case. `check` has to print the answer, and `ok` to the output and with status 0, `refused ..` to the error stream and with status 1.
Exits with 1 where an answer is another one.
"""

import pathlib
import re
import subprocess
import sys
import tempfile
from concurrent.futures import ThreadPoolExecutor

# Sources at a limit and just above it: a front, a text that is repeated, a middle, one that is repeated as often, and a back.
LIMITS = [
    (("void oc_main(void) {int r;r=", "(", "1", ")", ";}"), 495, "ok"),
    (("void oc_main(void) {int r;r=", "(", "1", ")", ";}"), 496, "refused G2 1:1021"),
    (('void oc_main(void) { printf("', "x", '"); }', "", ""), 4000, "ok"),
    (('void oc_main(void) { printf("', "x", '"); }', "", ""), 4001, "refused T8 1:22"),
    (('void oc_main(void) { printf("', "\\n", '"); }', "", ""), 4000, "ok"),
    (('void oc_main(void) { printf("', "\\n", '"); }', "", ""), 4001, "refused T8 1:22"),
    (('void oc_main(void) { printf("', "%%", '"); }', "", ""), 2000, "ok"),
    (('void oc_main(void) { printf("', "%%", '"); }', "", ""), 2001, "refused T8 1:22"),
    (('void oc_main(void) { printf("', "%d", '"', ", 1", "); }"), 64, "ok"),
    (('void oc_main(void) { printf("', "%d", '"', ", 1", "); }"), 65, "refused T8 1:22"),
    (("void oc_main(void) { int ", "*", "p; p = NULL; }", "", ""), 900, "ok"),
    (("void oc_main(void) { int a; ", "obliv if (a) { ", "int a = 1; a = 2;", " }", " }"), 100, "ok"),
    (("void oc_main(void) { int a; ", "obliv if (a) { ", "a = 2;", " }", " }"), 100, "refused F1 1:1529"),
    (("void oc_main(void) { obliv bool c; ", "obliv if (c) { ~obliv(c) { ", 'printf("");', " } }", " }"), 60, "ok"),
]

TOP = pathlib.Path(__file__).resolve().parent.parent
CASES = TOP / "tests" / "checked_sources.txt"
RULES = TOP / "docs" / "RULES.md"

# A program, what `check` says of it, and the same program with the one thing mended.
ROW = re.compile(r"\| `(.+)` \| `(refused .+)` \| `(.+)` \|")


def read_cases(text):
    """The answers with their sources, each with its place."""
    cases, place, answer, lines = [], None, None, []

    def end():
        if answer is not None:
            cases.append((place, answer, "\n".join(lines)))

    for at, line in enumerate(text.splitlines(), 1):
        if line.startswith("=== "):
            end()
            place, answer, lines = f"line {at}", line[4:], []
        elif line.startswith("# "):
            if lines and lines[-1] == "":
                lines.pop()
            end()
            answer, lines = None, []
        else:
            lines.append(line)
    end()
    return cases


def described_cases(text):
    """The programs of the tables in the language's description."""
    for at, line in enumerate(text.splitlines(), 1):
        row = ROW.fullmatch(line)
        if row:
            broken, answer, mended = (cell.replace("\\|", "|") for cell in row.groups())
            yield f"row {at}", answer, broken
            yield f"row {at}, mended", "ok", mended


def long_cases():
    """The sources at a limit."""
    for at, ((front, left, middle, right, back), times, answer) in enumerate(LIMITS, 1):
        yield f"limit {at}", answer, front + left * times + middle + right * times + back


def answered(program, folder, case):
    place, answer, source = case
    file = pathlib.Path(folder) / f"{place}.oc"
    file.write_bytes(source.encode())
    done = subprocess.run([program, "check", str(file)], capture_output=True, check=False)
    line = f"{answer}\n".encode()
    wanted = (0, line, b"") if answer == "ok" else (1, b"", line)
    got = (done.returncode, done.stdout, done.stderr)
    return None if got == wanted else f"{place}: {answer}: {got}"


def main():
    if len(sys.argv) != 2:
        sys.exit(__doc__)
    program = pathlib.Path(sys.argv[1]).resolve()
    if not program.exists():
        sys.exit("check_sources: the program isn't built")
    cases = [*read_cases(CASES.read_text()), *described_cases(RULES.read_text()), *long_cases()]
    with tempfile.TemporaryDirectory() as folder, ThreadPoolExecutor(4) as pool:
        wrong = [it for it in pool.map(lambda case: answered(program, folder, case), cases) if it]
    print("\n".join([*wrong, f"check_sources: {len(cases)} sources, {len(wrong)} other answers"]))
    sys.exit(1 if wrong else 0)


if __name__ == "__main__":
    main()
