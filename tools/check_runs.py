#!/usr/bin/env python3
"""Compares what `clear` does with the programs of tests/clear_runs.txt with what stands there.

    python3 tools/check_runs.py PROGRAM..

PROGRAM is the built program, or the words that start another one like it. A case is a line `=== END`, where END is `done` or the line
of the error stream; lines `1: WORDS` and `2: WORDS` with the words of a party, `-- OPTIONS` with further options, and `> TEXT` with the
lines that are printed, in this order and each left out where there is none; and then the source, up to the next such line, without an
end of the last line. A line that begins with `# ` is a heading; it and the empty line before it belong to no case. Exits with 1 where
a status or an output is another one.
"""

import pathlib
import subprocess
import sys
import tempfile
from concurrent.futures import ThreadPoolExecutor

CASES = pathlib.Path(__file__).resolve().parent.parent / "tests" / "clear_runs.txt"
STATUSES = {"done": 0, "refused": 1, "trap": 3, "steps": 4, "file": 5, "dealt": 8, "input": 9}


def read_cases(text):
    """The cases: the number of the line, the end, and the lines after it."""
    cases, lines = [], None
    for at, line in enumerate(text.splitlines(), 1):
        if line.startswith("=== "):
            lines = []
            cases.append((at, line[4:], lines))
        elif line.startswith("# "):
            if lines and lines[-1] == "":
                lines.pop()
            lines = None
        elif lines is not None:
            lines.append(line)
    return cases


def parts_of(lines):
    """The words of both parties, the options, what is printed, and the source."""
    words, options, printed, rest = {}, [], [], list(lines)
    for party in "12":
        if rest and rest[0].startswith(f"{party}: "):
            words[party] = rest.pop(0)[3:].split(", ")
    if rest and rest[0].startswith("-- "):
        options = rest.pop(0)[3:].split(" ")
    while rest and rest[0].startswith("> "):
        printed.append(rest.pop(0)[2:] + "\n")
    return words, options, "".join(printed), "\n".join(rest)


def answered(program, folder, case):
    at, end, lines = case
    words, options, printed, source = parts_of(lines)
    (folder / f"{at}.oc").write_text(source)
    command = [*program, "clear", str(folder / f"{at}.oc")]
    for party, list_of in words.items():
        (folder / f"{at}.{party}").write_text("".join(f"{word}\n" for word in list_of))
        command += [f"--input{party}", str(folder / f"{at}.{party}")]
    done = subprocess.run([*command, *options], capture_output=True, check=False)
    wanted = (STATUSES[end.split(" ")[0]], printed.encode(), b"" if end == "done" else f"{end}\n".encode())
    got = (done.returncode, done.stdout, done.stderr)
    return None if got == wanted else f"line {at}: {end}: {got}"


def main():
    if len(sys.argv) < 2:
        sys.exit(__doc__)
    cases = read_cases(CASES.read_text())
    with tempfile.TemporaryDirectory() as name, ThreadPoolExecutor(4) as pool:
        folder = pathlib.Path(name)
        wrong = [it for it in pool.map(lambda case: answered(sys.argv[1:], folder, case), cases) if it]
    print("\n".join([*wrong, f"check_runs: {len(cases)} runs, {len(wrong)} other answers"]))
    sys.exit(1 if wrong else 0)


if __name__ == "__main__":
    main()
