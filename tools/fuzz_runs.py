#!/usr/bin/env python3
"""Compares what `clear` does with programs of the independent model of the language with what the model's own run does.

The model is a Python package `oracle` in the folder that `--model` names; it is asked in this process. Each seed gives one accepted
program of its generator with words, public words, a budget and transfers. The status, the line of the error stream and the
output have to be the model's. Programs with a hidden index are left out, since they are refused yet; their number is said.
"""

import argparse
import collections
import concurrent.futures
import pathlib
import subprocess
import sys
import tempfile

TOP = pathlib.Path(__file__).resolve().parent.parent


def load_model(folder):
    sys.path.insert(0, str(folder))
    from oracle import base, fuzz

    # A hidden index is refused: the program doesn't scan arrays yet.
    base.CHOICE["hidden_index"] = "refused"
    return argparse.Namespace(Case=fuzz.Case, answer=fuzz.answer, deep=base.deep)


def run(program, args, folder, files):
    folder.mkdir()
    for name, data in files.items():
        (folder / name).write_bytes(data)
    ran = subprocess.run([program, *args], cwd=folder, capture_output=True, check=False, stdin=subprocess.DEVNULL)
    return ran.returncode, ran.stderr, ran.stdout


def compare(asked, model, top):
    """How many runs end with each status, and how many differ."""
    statuses, differing = collections.Counter(), 0
    with concurrent.futures.ThreadPoolExecutor(asked.jobs) as pool:
        started = []
        for seed in range(asked.seed, asked.seed + asked.count):
            case = model.Case(seed, False)
            status, line, out = model.answer(case.args(), case.files())
            wanted = (status, f"{line}\n".encode() if line else b"", out)
            started.append((seed, wanted, pool.submit(run, asked.program, case.args(), top / str(seed), case.files())))
        for seed, wanted, ended in started:
            statuses[wanted[0]] += 1
            if ended.result() != wanted:
                differing += 1
                print(f"seed {seed}: wanted {wanted}, given {ended.result()}")
    return statuses, differing


def main():
    arguments = argparse.ArgumentParser(description=__doc__)
    arguments.add_argument("--model", type=pathlib.Path, required=True)
    arguments.add_argument("--program", type=pathlib.Path, default=TOP / "oblivcc-build" / "oblivcc")
    arguments.add_argument("--seed", type=int, default=1)
    arguments.add_argument("--count", type=int, default=2000)
    arguments.add_argument("--jobs", type=int, default=2)
    asked = arguments.parse_args()
    model = load_model(asked.model)
    asked.program = asked.program.resolve()
    with tempfile.TemporaryDirectory() as name:
        statuses, differing = model.deep(compare, asked, model, pathlib.Path(name))
    print(f"{asked.count} runs from seed {asked.seed}: {differing} with a difference; by status", dict(sorted(statuses.items())))
    return 1 if differing else 0


if __name__ == "__main__":
    sys.exit(main())
