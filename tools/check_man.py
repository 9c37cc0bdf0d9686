#!/usr/bin/env python3
"""Compares the commands and options of docs/oblivcc.1 with those of the program.

    python3 tools/check_man.py PROGRAM

The lists of the page are compared with the table in crates/oblivcc_commands. Where PROGRAM is there, it is also asked: a command that
it knows isn't refused at word 0, an option of a command isn't refused at its own word, and each command refuses at that word all options
of the others. Exits with 1 where something differs.
"""

import pathlib
import re
import subprocess
import sys
import tempfile

TOP = pathlib.Path(__file__).resolve().parent.parent
PAGE = TOP / "docs" / "oblivcc.1"
TABLE = TOP / "crates" / "oblivcc_commands" / "src" / "table.rt"


def table_commands():
    """Each command of the table: how many operands it has, and its options."""
    parts = re.split(r"kind: CommandKind::", TABLE.read_text())[1:]
    commands = {}
    for part in parts:
        operands = re.search(r"operands: &\[(.*?)\]", part, flags=re.DOTALL)[1].count("WordForm::")
        commands[re.search(r'name: "([^-"]+)"', part)[1]] = (operands, set(re.findall(r'name: "(--\w+)"', part)))
    return commands


def page_commands(text):
    """The commands that the page describes, and what it says of each one's options in the synopsis and below."""
    text = text.replace("\\-", "-")
    parts = dict(re.findall(r"^\.SH ([A-Z ]+)\n(.*?)(?=^\.SH |\Z)", text, flags=re.MULTILINE | re.DOTALL))
    shown = {}
    for name, rest in re.findall(r"^\.B oblivcc (\w+)\n(.*?)(?=^\.br|\Z)", parts["SYNOPSIS"], flags=re.MULTILINE | re.DOTALL):
        shown[name] = (int(".I FILE" in rest), set(re.findall(r"--\w+", rest)))
    below = {
        name: set(re.findall(r"--\w+", rest))
        for name, rest in re.findall(r"^\.SS (\w+)\n(.*?)(?=^\.SS |\Z)", parts["OPTIONS"], flags=re.MULTILINE | re.DOTALL)
    }
    return set(re.findall(r"^\.B (\w+)$", parts["COMMANDS"], flags=re.MULTILINE)), shown, below


def refused_at(program, words, folder):
    """The K of `usage K`, or none."""
    done = subprocess.run([program, *words], capture_output=True, text=True, check=False, cwd=folder)
    found = re.fullmatch(r"usage (\d+)\n", done.stderr)
    return int(found[1]) if done.returncode == 2 and found else None


def asked_faults(program, commands):
    """What the program says otherwise of words that the page has."""
    everything = {option for _, options in commands.values() for option in options} | {"--other"}
    with tempfile.TemporaryDirectory() as folder:
        if refused_at(program, ["other"], folder) != 0:
            yield "the program knows a command `other`"
        for name, (operands, options) in commands.items():
            front = [name, *(["none.oc"] * operands)]
            if refused_at(program, [name], folder) == 0:
                yield f"the program doesn't know {name}"
            for option in everything:
                at = refused_at(program, [*front, option], folder)
                if at != len(front) + (option in options):
                    yield f"{name} {option}: usage {at}"


def main():
    if len(sys.argv) != 2:
        sys.exit(__doc__)
    commands = table_commands()
    described, shown, below = page_commands(PAGE.read_text())
    faults = []
    if shown != commands:
        faults.append(f"the synopsis has {shown}, the table {commands}")
    if described - {"ok"} != set(commands):
        faults.append(f"the page describes {sorted(described)}, the table has {sorted(commands)}")
    if below != {name: options for name, (_, options) in commands.items() if options}:
        faults.append(f"the page has the options {below}")
    program = pathlib.Path(sys.argv[1]).resolve()
    if program.exists():
        faults += asked_faults(program, shown)
    else:
        print("check_man: the program isn't built, so only the table was compared")
    print("\n".join([*faults, f"check_man: {len(commands)} commands, {len(faults)} faults"]))
    return 1 if faults else 0


if __name__ == "__main__":
    sys.exit(main())
