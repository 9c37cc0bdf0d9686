#!/usr/bin/env python3
"""Checks what the prover doesn't see: that links lead somewhere, and that the examples are those of the stored run."""

import pathlib
import re
import sys

TOP = pathlib.Path(__file__).resolve().parent.parent
EXAMPLES = TOP / "examples"
STORED = TOP / "crates" / "oblivcc"


def broken_links():
    for page in [TOP / "README.md", *sorted((TOP / "docs").glob("*.md"))]:
        for target in re.findall(r"\]\(([^)#]+)", page.read_text()):
            if "://" not in target and not (page.parent / target).exists():
                yield f"{page.relative_to(TOP)}: no file {target}"


def other_examples():
    first = EXAMPLES / "first"
    for name, stored in [("first.oc", "sum.oc"), ("input1", "sum.input1"), ("input2", "sum.input2")]:
        if (first / name).read_bytes() != (STORED / "data" / stored).read_bytes():
            yield f"examples/first/{name} isn't what the stored run reads"
    if (first / "expected").read_bytes() != (STORED / "stdout").read_bytes():
        yield "examples/first/expected isn't what the stored run prints"


def absolute_paths():
    for folder in ["docs", "crates", "bench", "examples"]:
        for file in sorted((TOP / folder).rglob("*")):
            if file.is_file() and "out" not in file.relative_to(TOP).parts and file.suffix in {".md", ".rt", ".antt", ".py"}:
                if re.search(r"/(work|home|root)/", file.read_text(errors="replace")):
                    yield f"{file.relative_to(TOP)}: an absolute path"


def main():
    faults = [*broken_links(), *other_examples(), *absolute_paths()]
    for fault in faults:
        print(fault)
    print(f"check_repository: {len(faults)} faults")
    return 1 if faults else 0


if __name__ == "__main__":
    sys.exit(main())
