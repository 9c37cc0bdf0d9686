#!/usr/bin/env python3
"""Compares what `clear` prints of public programs with what the same text prints as C.

Each seed gives one program without hidden values: integers of every kind, arrays, structs, pointers, loops, functions. It is
compiled by the C compiler with wrapping arithmetic, and both outputs have to be the same. The programs keep out of what C leaves
open: amounts of shifts are constants below the width, divisors are 1 to 16, indices are masked, functions print nothing, and no operand
writes what another reads.
"""

import argparse
import concurrent.futures
import pathlib
import random
import subprocess
import sys
import tempfile

TOP = pathlib.Path(__file__).resolve().parent.parent
KINDS = ["bool", "char", "unsigned char", "short", "unsigned short", "int", "unsigned", "long", "unsigned long"]
WIDE = ["int", "unsigned", "long", "unsigned long"]
C_FLAGS = ["-O1", "-fwrapv", "-w", "-std=c11"]


class Program:
    """One program, written as it is made."""

    def __init__(self, seed):
        self.random = random.Random(seed)
        self.lines, self.names = [], 0
        self.structs, self.functions, self.may_print = [], [], False

    def pick(self, items):
        return self.random.choice(items)

    def chance(self, part):
        return self.random.random() < part

    def name(self, start):
        self.names += 1
        return f"{start}{self.names}"

    def literal(self):
        n = self.pick([0, 1, 2, 7, 100, 127, 128, 255, 256, 32_767, 65_535, self.random.randrange(1 << 31), 2_147_483_647])
        text = self.pick([str(n), hex(n)])
        return text + self.pick(["", "", "", "u", "l", "ul"])

    def place(self, scope):
        """Something that can be read and written, or None."""
        forms = scope["ints"] + [f"(*{p})" for p in scope["pointers"]]
        for array, count in scope["arrays"]:
            forms.append(f"{array}[{self.pick(scope['ints'] or ['0'])} & {count - 1}]")
            forms.append(f"(*({array} + {self.random.randrange(count)}))")
        for value, fields in scope["structs"]:
            forms += [f"{value}.{field}" for field in fields]
        for pointer, fields in scope["struct_pointers"]:
            forms += [f"{pointer}->{field}" for field in fields]
        return self.pick(forms) if forms else None

    def expression(self, scope, depth):
        if depth == 0 or self.chance(0.2):
            place = self.place(scope)
            return place if place and self.chance(0.7) else self.literal()
        part = lambda: self.expression(scope, depth - 1)
        form = self.random.randrange(12)
        if form < 4:
            return f"({part()} {self.pick(['+', '-', '*', '&', '|', '^'])} {part()})"
        if form == 4:
            return f"({part()} {self.pick(['<', '<=', '>', '>=', '==', '!='])} {part()})"
        if form == 5:
            return f"({part()} {self.pick(['&&', '||'])} {part()})"
        if form == 6:
            return f"({part()} {self.pick(['<<', '>>'])} {self.random.randrange(31)})"
        if form == 7:
            return f"({part()} {self.pick(['/', '%'])} (({part()} & 15) + 1))"
        if form == 8:
            return f"({self.pick(['-', '~', '!', '+'])}{part()})"
        if form == 9:
            return f"(({self.pick(KINDS)}){part()})"
        if form == 10 and self.functions:
            function, count = self.pick(self.functions)
            return f"{function}({', '.join(part() for _ in range(count))})"
        return f"({part()} ? {part()} : {part()})"

    def say(self, depth, text):
        self.lines.append("  " * depth + text)

    def declare(self, scope, depth):
        kind = self.pick(KINDS)
        form = self.random.randrange(8)
        if form < 4:
            value = self.expression(scope, 2)
            name = self.name("v")
            self.say(depth, f"{kind} {name} = {value};")
            scope["ints"].append(name)
        elif form < 6:
            name, count = self.name("a"), self.pick([1, 2, 4, 8])
            self.say(depth, f"{kind} {name}[{count}];")
            index = self.name("i")
            self.say(depth, f"for (int {index} = 0; {index} < {count}; {index}++) {name}[{index}] = {self.expression(scope, 1)};")
            scope["arrays"].append((name, count))
        elif form == 6 and self.structs:
            struct, fields = self.pick(self.structs)
            name = self.name("s")
            self.say(depth, f"struct {struct} {name};")
            for field in fields:
                self.say(depth, f"{name}.{field} = {self.expression(scope, 1)};")
            scope["structs"].append((name, fields))
            if self.chance(0.5):
                pointer = self.name("q")
                self.say(depth, f"struct {struct} *{pointer} = &{name};")
                scope["struct_pointers"].append((pointer, fields))
            if self.chance(0.5):
                other = self.name("s")
                self.say(depth, f"struct {struct} {other} = {name};")
                scope["structs"].append((other, fields))
        else:
            value = self.expression(scope, 1)
            name, pointer = self.name("v"), self.name("p")
            self.say(depth, f"{kind} {name} = {value};")
            self.say(depth, f"{kind} *{pointer} = &{name};")
            scope["ints"].append(name)
            scope["pointers"].append(pointer)

    def statement(self, scope, depth, in_loop):
        form = self.random.randrange(12)
        place = self.place(scope)
        if form < 3 or not place:
            self.declare(scope, depth)
        elif form < 6:
            self.say(depth, f"{place} = {self.expression(scope, 3)};")
        elif form == 6:
            operator = self.pick(["+=", "-=", "*=", "&=", "|=", "^="])
            self.say(depth, f"{place} {operator} {self.expression(scope, 2)};")
        elif form == 7:
            self.say(depth, self.pick([f"{place}++;", f"--{place};", f"{place} <<= {self.random.randrange(8)};", f"{place} >>= {self.random.randrange(8)};"]))
        elif form == 8 and self.may_print:
            self.say(depth, f'printf("%ld\\n", (long){self.expression(scope, 2)});')
        elif form == 9 and depth < 4:
            self.say(depth, f"if ({self.expression(scope, 2)}) {{")
            self.block(scope, depth + 1, 2, in_loop)
            self.say(depth, "} else {")
            self.block(scope, depth + 1, 2, in_loop)
            self.say(depth, "}")
        elif form == 10 and depth < 4:
            index, count = self.name("i"), self.random.randrange(1, 6)
            if self.chance(0.6):
                self.say(depth, f"for (int {index} = 0; {index} < {count}; {index}++) {{")
            else:
                self.say(depth, f"int {index} = 0;")
                self.say(depth, f"while ({index}++ < {count}) {{")
            self.block(scope, depth + 1, 3, True)
            self.say(depth, "}")
        elif in_loop and self.chance(0.3):
            self.say(depth, f"if ({self.expression(scope, 1)}) {self.pick(['break', 'continue'])};")
        else:
            self.declare(scope, depth)

    def block(self, scope, depth, most, in_loop):
        inner = {key: list(items) for key, items in scope.items()}
        for _ in range(self.random.randrange(1, most + 1)):
            self.statement(inner, depth, in_loop)

    def function(self):
        name, count = self.name("f"), self.random.randrange(3)
        parameters = [self.name("x") for _ in range(count)]
        kinds = [self.pick(KINDS) for _ in parameters]
        heading = ", ".join(f"{kind} {x}" for kind, x in zip(kinds, parameters)) or "void"
        self.say(0, f"{self.pick(KINDS)} {name}({heading}) {{")
        scope = {"ints": list(parameters), "pointers": [], "arrays": [], "structs": [], "struct_pointers": []}
        for _ in range(self.random.randrange(1, 5)):
            self.statement(scope, 1, False)
        self.say(1, f"return {self.expression(scope, 2)};")
        self.say(0, "}")
        self.functions.append((name, count))

    def text(self):
        for _ in range(self.random.randrange(3)):
            name, fields = self.name("S"), [self.name("m") for _ in range(self.random.randrange(1, 5))]
            self.say(0, f"struct {name} {{ {' '.join(f'{self.pick(KINDS)} {field};' for field in fields)} }};")
            self.structs.append((name, fields))
        for _ in range(self.random.randrange(4)):
            self.function()
        self.say(0, "void oc_main(void) {")
        self.may_print = True
        scope = {"ints": [], "pointers": [], "arrays": [], "structs": [], "struct_pointers": []}
        for _ in range(self.random.randrange(8, 20)):
            self.statement(scope, 1, False)
        for place in scope["ints"] + [f"{s}.{field}" for s, fields in scope["structs"] for field in fields]:
            self.say(1, f'printf("%ld\\n", (long){place});')
        self.say(0, "}")
        return "\n".join(self.lines) + "\n"


def compare(program, folder, seed):
    """What is wrong with the seed's program, or '' where both print the same."""
    folder.mkdir()
    text = Program(seed).text()
    (folder / "a.oc").write_text("#include <stdio.h>\n" + text)
    (folder / "a.c").write_text("#include <stdbool.h>\n#include <stdio.h>\n" + text + "int main(void) { oc_main(); return 0; }\n")
    built = subprocess.run(["cc", *C_FLAGS, "-o", "a", "a.c"], cwd=folder, capture_output=True, check=False)
    if built.returncode:
        return f"C refuses: {built.stderr.decode()[:300]}"
    wanted = subprocess.run(["./a"], cwd=folder, capture_output=True, check=False, timeout=60)
    given = subprocess.run([program, "clear", "a.oc", "--steps", "1000000000"], cwd=folder, capture_output=True, check=False)
    if wanted.returncode:
        return f"the C program ends with {wanted.returncode}"
    if given.returncode or given.stderr or given.stdout != wanted.stdout:
        return f"status {given.returncode} {given.stderr!r}, wanted {wanted.stdout[:80]!r}.., given {given.stdout[:80]!r}.."
    return ""


def main():
    arguments = argparse.ArgumentParser(description=__doc__)
    arguments.add_argument("--program", type=pathlib.Path, default=TOP / "oblivcc-build" / "oblivcc")
    arguments.add_argument("--seed", type=int, default=1)
    arguments.add_argument("--count", type=int, default=1000)
    arguments.add_argument("--jobs", type=int, default=2)
    arguments.add_argument("--show", action="store_true", help="print the first seed's program and stop")
    asked = arguments.parse_args()
    if asked.show:
        print(Program(asked.seed).text(), end="")
        return 0
    program, differing = asked.program.resolve(), 0
    with tempfile.TemporaryDirectory() as name, concurrent.futures.ThreadPoolExecutor(asked.jobs) as pool:
        seeds = range(asked.seed, asked.seed + asked.count)
        for seed, wrong in zip(seeds, pool.map(lambda seed: compare(program, pathlib.Path(name) / str(seed), seed), seeds)):
            if wrong:
                differing += 1
                print(f"seed {seed}: {wrong}")
    print(f"{asked.count} programs from seed {asked.seed}: {differing} with a difference")
    return 1 if differing else 0


if __name__ == "__main__":
    sys.exit(main())
