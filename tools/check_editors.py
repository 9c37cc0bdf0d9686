#!/usr/bin/env python3
"""Compares the files in editors/ with the language: their keywords with the lexer's table, their calls with the table of the
built-in calls, and what the TextMate grammar takes for a literal with some that are one and some that aren't.

    python3 tools/check_editors.py

Exits with 1 where something differs.
"""

import json
import pathlib
import re
import sys

TOP = pathlib.Path(__file__).resolve().parent.parent
EDITORS = TOP / "editors"
NUMBERS = ["0", "00", "017", "9", "10u", "10ul", "10LLU", "0x1F", "0Xfull", "7ll", "7LL"]
OTHERS = ["089", "1.5", "0x", "10lL", "10Ll", "3apples", "1uu"]
CHARACTERS = ["'a'", "' '", "'\\n'", "'\\''", "'\"'", "'['", "']'"]
OTHER_CHARACTERS = ["''", "'ab'", "'''", "'\\x'"]
TEXTS = ['""', '"%d\\n"', '"\\"quoted\\""', '"\ttab"']
OTHER_TEXTS = ['"open', '"\\x"', '"two\nlines"']
DIRECTIVES = ["#include <stdio.h>", "#include<obliv.oh>", "#define N 64"]
OTHER_DIRECTIVES = ["# include <stdio.h>", "#include <math.h>", "#if 1"]


def lexer_words():
    text = (TOP / "crates" / "oc_lexer" / "src" / "words.rt").read_text()
    return set(re.findall(r'Keyword::\w+ => b"(\w+)"', text))


def built_in_words():
    text = (TOP / "crates" / "type_rules" / "specs" / "Calls.antt").read_text()
    return set(re.findall(r'\(codes "(\w+)", call\.', text))


def textmate_words(grammar):
    for pattern in grammar["patterns"]:
        found = re.fullmatch(r"\\b\(\?:([\w|]+)\)\\b", pattern.get("match", ""))
        if found:
            yield pattern["name"], set(found[1].split("|"))


def vim_words(text):
    for group, words in re.findall(r"^syntax keyword (\w+) (.+)$", text, flags=re.MULTILINE):
        yield group, set(words.split())


def differences(name, groups, is_call):
    words, calls = set(), set()
    for group, some in groups:
        (calls if is_call(group) else words).update(some)
    for what, have, want in [("keywords", words, lexer_words()), ("calls", calls, built_in_words())]:
        if not want:
            yield f"{name}: no {what} in the table"
        if have != want:
            yield f"{name}: {what}: {sorted(want - have)} are wanting, {sorted(have - want)} too many"


def literal_faults(grammar):
    patterns = {pattern["name"].removesuffix(".oblivcc"): pattern["match"] for pattern in grammar["patterns"] if "match" in pattern}
    for scope, good, bad in [
        ("constant.numeric", NUMBERS, OTHERS), ("string.quoted.single", CHARACTERS, OTHER_CHARACTERS),
        ("string.quoted.double", TEXTS, OTHER_TEXTS), ("meta.preprocessor", DIRECTIVES, OTHER_DIRECTIVES),
    ]:
        for text in [*good, *bad]:
            found = re.match(patterns[scope], text)
            whole = bool(found) and (scope == "meta.preprocessor" or found.end() == len(text))
            if whole != (text in good):
                yield f"oblivcc.tmLanguage.json: {scope}: {text!r}"


def matcher_faults():
    task = json.loads((EDITORS / "tasks.json").read_text())["tasks"][0]["problemMatcher"]
    page = (TOP / "docs" / "LANGUAGE.md").read_text()
    shown = [json.loads(block) for block in re.findall(r"^```json\n(.*?)^```$", page, flags=re.MULTILINE | re.DOTALL)]
    if shown != [task]:
        yield "docs/LANGUAGE.md doesn't show the matcher of tasks.json"
    found = re.match(task["pattern"]["regexp"], "a b.oc:3:18: refused T4")
    if not found or found.groups() != ("a b.oc", "3", "18", "refused T4", "T4"):
        yield "tasks.json: the matcher doesn't read its line"


def main():
    grammar = json.loads((EDITORS / "oblivcc.tmLanguage.json").read_text())
    faults = [
        *differences("oblivcc.tmLanguage.json", textmate_words(grammar), lambda name: name.startswith("support.function")),
        *differences("oblivcc.vim", vim_words((EDITORS / "oblivcc.vim").read_text()), lambda name: name == "oblivccCall"),
        *literal_faults(grammar),
        *matcher_faults(),
    ]
    print("\n".join([*faults, f"check_editors: {len(faults)} faults"]))
    return 1 if faults else 0


if __name__ == "__main__":
    sys.exit(main())
