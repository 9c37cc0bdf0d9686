#!/usr/bin/env python3
"""Runs what the pages of the examples and README show, by the program that is built, and compares what it prints.

    python3 tools/check_examples.py PROGRAM

Where PROGRAM isn't there, it says so and ends well. In README.md and in each examples/NAME/README.md a line of four blanks and
`./oblivcc ..` is a command; the next such block is what it prints, or, where it ends with `...`, how that begins. Each folder of
examples has NAME.oc, which `check` accepts, input1, input2 and expected, and a page whose `clear` command prints exactly the file
expected. Exits with 1 where something isn't so.
"""

import pathlib
import subprocess
import sys

TOP = pathlib.Path(__file__).resolve().parent.parent
EXAMPLES = TOP / "examples"


def blocks_of(text):
    """The indented blocks, each a list of lines."""
    block = []
    for line in [*text.splitlines(), ""]:
        if line.startswith("    "):
            block.append(line[4:])
        elif block:
            yield block
            block = []


def commands_of(text):
    """Each command, with the lines that the page says it prints."""
    blocks = list(blocks_of(text))
    for at, block in enumerate(blocks):
        if block[0].startswith("./oblivcc ") and len(block) == 1:
            after = blocks[at + 1] if at + 1 < len(blocks) else []
            yield block[0].split()[1:], after


def ran(program, words):
    return subprocess.run([program, *words], cwd=TOP, capture_output=True, text=True, check=False)


def faults_of(program, page):
    """What the commands of a page print otherwise than it says, and how many commands it has."""
    name, count = page.relative_to(TOP), 0
    for words, lines in commands_of(page.read_text()):
        done = ran(program, words)
        printed, count = (done.stdout + done.stderr).splitlines(), count + 1
        well = printed[: len(lines) - 1] == lines[:-1] if lines[-1:] == ["..."] else printed == lines
        if not well:
            yield f"{name}: {' '.join(words)}: {printed[:10]}"
        if page.parent.parent == EXAMPLES and words[0] == "clear" and done.stdout != (page.parent / "expected").read_text():
            yield f"{name}: {' '.join(words)}: not what expected has"
    if count == 0:
        yield f"{name}: no command"


def folder_faults(program, folder):
    """What a folder hasn't, and a program that isn't accepted."""
    for part in [f"{folder.name}.oc", "input1", "input2", "expected", "README.md"]:
        if not (folder / part).exists():
            yield f"examples/{folder.name}: no {part}"
            return
    done = ran(program, ["check", str(folder / f"{folder.name}.oc")])
    if (done.returncode, done.stdout, done.stderr) != (0, "ok\n", ""):
        yield f"examples/{folder.name}: {done.stderr}"
    yield from faults_of(program, folder / "README.md")


def main():
    if len(sys.argv) != 2:
        sys.exit(__doc__)
    program = pathlib.Path(sys.argv[1]).resolve()
    if not program.exists():
        print("check_examples: the program isn't built, so no example was run")
        return 0
    folders = sorted(it for it in EXAMPLES.iterdir() if it.is_dir())
    faults = [f"examples/{it.name} stands in no folder" for it in EXAMPLES.iterdir() if not it.is_dir()]
    faults += faults_of(program, TOP / "README.md")
    for folder in folders:
        faults += folder_faults(program, folder)
    print("\n".join([*faults, f"check_examples: {len(folders)} examples, {len(faults)} faults"]))
    return 1 if faults else 0


if __name__ == "__main__":
    sys.exit(main())
