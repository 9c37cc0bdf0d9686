#!/usr/bin/env python3
"""Runs what docs/LANGUAGE.md and docs/RULES.md show, by the program that is built, and compares what it prints.

    python3 tools/check_manual.py PROGRAM

Where PROGRAM isn't there, it says so and ends well. The fenced blocks of a page are taken in their order, in one folder a page:

    ```c NAME, ```text NAME     a file of this name and these lines; each `c` block has a name, and a later command has it
    ```python                   lines that Python runs, in the folder: for a source that is too long for a page
    ```console                  commands, each a line that begins with `$ `, and below it all that it prints, the line of the error
                                stream last; where it ends with `; echo $?` the last of these lines is the status

`oblivcc` in a command is PROGRAM. A block of another kind is only shown. A status other than 0 has its one line on the error stream,
and that line's first word has to be one of the status; with status 0 nothing stands there.

docs/RULES.md has a section for each rule, trap and status, whose heading is its name. A section shows the line that begins with that
name and, for a rule or a trap, also a program that runs; one with a line that begins with `**Not run yet**` needs neither. Each link
to a heading leads to one. Exits with 1 where something isn't so.
"""

import os
import pathlib
import re
import subprocess
import sys
import tempfile

DOCS = pathlib.Path(__file__).resolve().parent.parent / "docs"
PAGES = ["LANGUAGE.md", "RULES.md"]

COUNTS = {"L": 6, "G": 2, "T": 12, "F": 5, "H": 5, "Z": 1, "I": 1, "M": 6}
RULES = [f"{letter}{number}" for letter, count in COUNTS.items() for number in range(1, count + 1)]
STATUSES = {
    "refused": 1, "usage": 2, "trap": 3, "steps": 4, "file": 5, "link": 6, "differs": 7, "setup": 7, "half": 8, "dealt": 8,
    "input": 9, "reveal": 9, "memory": 10, "output": 11,
}
ECHO = "; echo $?"


def blocks_of(text):
    """The fenced blocks: the number of the first line, the heading above, the words after the fence, and the lines."""
    heading, words, begun, lines = "", None, 0, []
    for at, line in enumerate(text.splitlines(), 1):
        if words is None and line.startswith("```"):
            words, begun, lines = line[3:].split(), at, []
        elif words is None:
            if line.startswith("#"):
                heading = line.lstrip("# ")
        elif line == "```":
            yield begun, heading, words, lines
            words = None
        else:
            lines.append(line)


def commands_of(at, lines):
    """The commands of a console block: the number of the line, the command, and the lines below it."""
    commands = []
    for number, line in enumerate(lines, at + 1):
        if line.startswith("$ "):
            commands.append((number, line[2:], []))
        elif commands:
            commands[-1][2].append(line)
        else:
            commands.append((number, "", [line]))
    return commands


def run_command(folder, words, lines):
    """What is another answer than these lines, or nothing, and the status."""
    shown = words.endswith(ECHO)
    wanted = lines[:-1] if shown else lines
    path = f"{folder / 'bin'}{os.pathsep}{os.environ['PATH']}"
    done = subprocess.run(
        words.removesuffix(ECHO), shell=True, cwd=folder, env={**os.environ, "PATH": path}, capture_output=True, check=False)
    error = done.stderr.decode(errors="replace")
    printed = done.stdout.decode(errors="replace") + error
    if printed != "".join(f"{line}\n" for line in wanted):
        return f"prints {printed!r}", done.returncode
    if shown and lines[-1:] != [str(done.returncode)]:
        return f"ends with status {done.returncode}", done.returncode
    if done.returncode != (STATUSES.get(error.split()[0]) if error else 0):
        return f"ends with status {done.returncode} and says {error!r}", done.returncode
    return None, done.returncode


def run_page(page, text, program, faults):
    """Takes the blocks of a page in order. Answers, for each heading, the printed lines and whether a program ran well."""
    seen, waiting, count = {}, {}, 0
    with tempfile.TemporaryDirectory() as name:
        folder = pathlib.Path(name)
        (folder / "bin").mkdir()
        (folder / "bin" / "oblivcc").symlink_to(program)
        for at, heading, words, lines in blocks_of(text):
            kind = words[0] if words else ""
            if len(words) == 2:
                (folder / words[1]).write_text("".join(f"{line}\n" for line in lines))
                if kind == "c":
                    if words[1] in waiting:
                        faults.append(f"{page}:{waiting[words[1]]}: no command has this program")
                    waiting[words[1]] = at
            elif kind == "c":
                faults.append(f"{page}:{at}: a program without a name")
            elif kind == "python":
                made = subprocess.run([sys.executable, "-c", "\n".join(lines)], cwd=folder, capture_output=True, check=False)
                if made.returncode != 0:
                    faults.append(f"{page}:{at}: Python says {made.stderr.decode(errors='replace')!r}")
            elif kind == "console":
                for number, command, printed in commands_of(at, lines):
                    fault, status = run_command(folder, command, printed)
                    count += 1
                    if fault:
                        faults.append(f"{page}:{number}: `{command}` {fault}")
                    for word in command.removesuffix(ECHO).split():
                        waiting.pop(word, None)
                    said, well = seen.get(heading, ([], False))
                    seen[heading] = (said + printed, well or status == 0)
        faults += [f"{page}:{at}: no command has this program" for at in waiting.values()]
    return seen, count


def missing_sections(text, seen):
    """The rules, traps and statuses without a section, or whose section doesn't show them."""
    sections = {}
    for part in re.split(r"^#+ ", text, flags=re.MULTILINE)[1:]:
        heading, _, body = part.partition("\n")
        if heading in sections:
            yield f"two sections {heading}"
        sections[heading] = body
    for name in [*RULES, *(f"Status {number}" for number in range(12))]:
        if name not in sections:
            yield f"no section {name}"
        elif not re.search(r"^\*\*Not run yet\*\*", sections[name], flags=re.MULTILINE):
            said, well = seen.get(name, ([], False))
            if name in RULES:
                shown = any(line.split()[1:2] == [name] and line.split()[0] in STATUSES for line in said)
            elif name == "Status 0":
                shown = well
            else:
                shown = any(STATUSES.get(line.split(" ")[0]) == int(name.split()[1]) for line in said)
            if not shown:
                yield f"section {name} doesn't show its line"
            if name in RULES and not well:
                yield f"section {name} has no way out that runs"


def slug(heading):
    """The name of a heading in a link."""
    return re.sub(r"[^\w\- ]", "", heading.strip().lower()).replace(" ", "-")


def headings(text):
    """The names of the headings of a page, outside of its blocks."""
    outside = re.sub(r"^```.*?^```$", "", text, flags=re.MULTILINE | re.DOTALL)
    return {slug(line.lstrip("#")) for line in outside.splitlines() if line.startswith("#")}


def broken_links(texts):
    """The links to headings that aren't there."""
    known = {page: headings(text) for page, text in texts.items()}
    for page, text in texts.items():
        for other, heading in re.findall(r"\]\(([\w.]*)#([\w-]+)\)", text):
            if (other or page) in known and heading not in known[other or page]:
                yield f"{page}: no heading {other}#{heading}"


def main():
    if len(sys.argv) != 2:
        sys.exit(__doc__)
    program = pathlib.Path(sys.argv[1]).resolve()
    if not program.exists():
        print("check_manual: the program isn't built, so no example was run")
        return 0
    texts = {page: (DOCS / page).read_text() for page in PAGES}
    faults, total, seen = [], 0, {}
    for page, text in texts.items():
        seen[page], count = run_page(page, text, program, faults)
        total += count
    faults += [f"RULES.md: {fault}" for fault in missing_sections(texts["RULES.md"], seen["RULES.md"])]
    faults += broken_links(texts)
    print("\n".join([*faults, f"check_manual: {total} commands, {len(faults)} faults"]))
    return 1 if faults else 0


if __name__ == "__main__":
    sys.exit(main())
