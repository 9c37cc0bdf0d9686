#!/usr/bin/env python3
"""Compares what the program says of sources with what the independent model of the language says.

The model is a Python package `oracle` in the folder that `--model` names; it is asked in this process. Each seed gives one
program of its generator, changed in one of its ways, or as it is with `--accepted`. `check` has to say `ok`, or the model's
rule and place. `clear` has to refuse by the same rule of L, G, T and F at the same place, and by none of them else.
`--try-itself` compares a small false program with mutated sources instead, and fails unless each of its differences is
found.
"""

import argparse
import collections
import concurrent.futures
import pathlib
import subprocess
import sys
import tempfile

TOP = pathlib.Path(__file__).resolve().parent.parent
JUDGED = (b"refused L", b"refused G", b"refused T", b"refused F")

# It accepts what has to be refused by T1, names another place for T2, and takes all else from a file.
FALSE_PROGRAM = """#!/usr/bin/env python3
import pathlib, sys
line = pathlib.Path("expected").read_bytes()
if line.startswith(b"refused T1 "):
    line = b""
if line.startswith(b"refused T2 "):
    line = b"refused T2 1:1\\n"
if line:
    sys.stderr.buffer.write(line)
    sys.exit(1)
sys.stdout.write("ok\\n" if sys.argv[1] == "check" else "")
"""


def load_model(folder):
    sys.path.insert(0, str(folder))
    from oracle import base, front, fuzz

    # A hidden index is refused: the program doesn't scan arrays yet.
    base.CHOICE["hidden_index"] = "refused"
    return argparse.Namespace(Case=fuzz.Case, verdict=front.verdict, deep=base.deep)


def expected_line(refusal):
    if refusal is None:
        return b""
    rule, line, column = refusal
    return f"refused {rule} {line}:{column}\n".encode()


def run(words, folder):
    ran = subprocess.run(words, cwd=folder, capture_output=True, check=False, stdin=subprocess.DEVNULL)
    return ran.returncode, ran.stdout, ran.stderr


def check_fault(program, folder, wanted):
    """What `check` says, where it isn't what it has to say."""
    given = run([program, "check", "program.oc"], folder)
    right = (1, b"", wanted) if wanted else (0, b"ok\n", b"")
    return None if given == right else f"check: wanted {right}, given {given}"


def clear_fault(program, folder, wanted):
    status, out, err = run([program, "clear", "program.oc", "--input1", "input1", "--input2", "input2"], folder)
    if wanted:
        return None if (status, out, err) == (1, b"", wanted) else f"clear: wanted {wanted}, given {(status, out, err)}"
    return f"clear: wanted no refusal, given {(status, out, err)}" if err.startswith(JUDGED) or status not in range(12) else None


def faults_of(asked, folder, source, wanted):
    folder.mkdir()
    (folder / "program.oc").write_bytes(source)
    for party in ("input1", "input2"):
        (folder / party).write_bytes(b"5\n")
    if asked.try_itself:
        (folder / "expected").write_bytes(wanted)
    judges = [check_fault] if asked.only_check else [check_fault, clear_fault]
    return [fault for fault in (judge(asked.program, folder, wanted) for judge in judges) if fault]


def cases(asked, model):
    for seed in range(asked.seed, asked.seed + asked.count):
        case = model.Case(seed, not asked.accepted)
        yield seed, case.source, expected_line(model.verdict(case.source))


def compare(asked, model, top):
    """How many sources each rule refuses, and of which a difference was found."""
    rules, differing = collections.Counter(), collections.Counter()
    with concurrent.futures.ThreadPoolExecutor(asked.jobs) as pool:
        started = [
            (seed, wanted, pool.submit(faults_of, asked, top / str(seed), source, wanted)) for seed, source, wanted in cases(asked, model)
        ]
        for seed, wanted, ended in started:
            rule = wanted.split()[1].decode() if wanted else "none"
            rules[rule] += 1
            faults = ended.result()
            differing[rule] += bool(faults)
            if not asked.try_itself:
                for fault in faults:
                    print(f"seed {seed}: {fault}")
    return rules, differing


def is_found(rules, differing):
    """Whether exactly the differences of the false program were found, and there were some."""
    return sum(differing.values()) > 0 and all(differing[rule] == (rules[rule] if rule in ("T1", "T2") else 0) for rule in rules)


def main():
    arguments = argparse.ArgumentParser(description=__doc__)
    arguments.add_argument("--model", type=pathlib.Path, required=True)
    arguments.add_argument("--program", type=pathlib.Path, default=TOP / "oblivcc-build" / "oblivcc")
    arguments.add_argument("--seed", type=int, default=1)
    arguments.add_argument("--count", type=int, default=2000)
    arguments.add_argument("--jobs", type=int, default=2)
    arguments.add_argument("--accepted", action="store_true", help="sources as the generator makes them")
    arguments.add_argument("--only-check", action="store_true", help="leave `clear` out")
    arguments.add_argument("--try-itself", action="store_true", help="look whether differences are found")
    asked = arguments.parse_args()
    if asked.try_itself and asked.accepted:
        arguments.error("the false program is only wrong of mutated sources")
    model = load_model(asked.model)
    with tempfile.TemporaryDirectory() as name:
        top = pathlib.Path(name)
        if asked.try_itself:
            asked.program = top / "program"
            asked.program.write_text(FALSE_PROGRAM)
            asked.program.chmod(0o755)
        asked.program = asked.program.resolve()
        rules, differing = model.deep(compare, asked, model, top)
    if asked.try_itself:
        found = is_found(rules, differing)
        print("differences are found" if found else f"differences aren't found: {dict(differing)} of {dict(rules)}")
        return 0 if found else 1
    differences = sum(differing.values())
    print(f"{asked.count} sources from seed {asked.seed}: {differences} with a difference; refused by", dict(sorted(rules.items())))
    return 1 if differences else 0


if __name__ == "__main__":
    sys.exit(main())
