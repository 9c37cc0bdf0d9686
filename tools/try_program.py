#!/usr/bin/env python3
"""Runs the program that the launcher built on words, files and streams that only a real process has.

Usage: try_program.py [PROGRAM]; without PROGRAM it is what the launcher built, and where that isn't there the
script says so and ends with status 0.
"""

import hashlib
import os
import pathlib
import subprocess
import sys
import tempfile

TOP = pathlib.Path(__file__).resolve().parent.parent
EXAMPLES = TOP / "examples"
SOURCE, FIRST, SECOND = (str(EXAMPLES / f"sum.{end}") for end in ["oc", "input1", "input2"])
COMMAND = ["clear", SOURCE, "--input1", FIRST, "--input2", SECOND]

# SHA-256 of both files of halves that are dealt of this key, by the number of transfers, from an independent model.
KEY = bytes(range(32)).hex()
HALVES = {
    3: (
        "64b64efaa06514e597965eb1df36d23ef391f1243b6afe58f5d08da0247a4bc7",
        "cc668958636945d9406f32d5b88a7b28acc8dbc103d1a6386a17ad92154d0313",
    ),
    1000: (
        "7ccec6e0427b04907b9a81f99efaa7766139a7c69fd8b131a743f22afdef3e00",
        "cfbdb9cd2d5c2283a3ba5f0d412e892801a7104045540330b08307ab0f359c1b",
    ),
    1048576: (
        "6cd728b2e6c9dc0eda0a8aec89f9518ce4577ce4d9075b69249fb8af1dc08ebb",
        "c6553a94f651d60717b49fed92d85bea49a956ed9c15581f45f1a14f827f4472",
    ),
}


def checked_examples():
    for name, status, out, err in [
        ("sum", 0, b"ok\n", b""),
        ("most", 0, b"ok\n", b""),
        ("leak", 1, b"", b"refused F1 6:5\n"),
    ]:
        yield ["check", str(EXAMPLES / f"{name}.oc")], status, out, err
    yield ["check", str(EXAMPLES / "absent.oc")], 5, b"", f"file {EXAMPLES / 'absent.oc'}\n".encode()
    yield ["check"], 2, b"", b"usage 1\n"
    yield ["check", SOURCE, "--input1"], 2, b"", b"usage 2\n"


def refused_words():
    for at in range(len(COMMAND) + 1):
        yield [*COMMAND[:at], b"\xff"], 2, b"", f"usage {at}\n".encode()
        yield [*COMMAND[:at], b"\xff", "x"], 2, b"", f"usage {at}\n".encode()
    yield ["x", b"\xff"], 2, b"", b"usage 0\n"
    yield [], 2, b"", b"usage 0\n"
    yield ["--help"], 2, b"", b"usage 0\n"


def unreadable_files(folder):
    sealed = pathlib.Path(folder) / "sealed"
    sealed.write_bytes(b"5\n")
    sealed.chmod(0)
    names = [folder, folder + "/absent", "/dev/null/x"]
    if os.geteuid() != 0:
        names.append(str(sealed))
    if pathlib.Path("/proc/self/mem").exists():
        # It opens, and the first read fails.
        names.append("/proc/self/mem")
    for name in names:
        for at in [1, 3, 5]:
            words = [*COMMAND]
            words[at] = name
            yield words, 5, b"", f"file {name}\n".encode()


def deal_words(count, first, second):
    return ["deal", "--key", KEY, "--count", str(count), "--out1", first, "--out2", second]


def deals(folder):
    """Words, status, error line, and the digest of each file afterwards: None where there is no such file."""
    place = pathlib.Path(folder) / "dealt"
    place.mkdir()
    for count, (first, second) in HALVES.items():
        one, two = str(place / f"one{count}"), str(place / f"two{count}")
        yield deal_words(count, one, two), 0, "", {one: first, two: second}
    first, second = HALVES[3]
    # A longer file is there already.
    long, two = str(place / "long"), str(place / "two")
    pathlib.Path(long).write_bytes(b"x" * 100_000)
    yield deal_words(3, long, two), 0, "", {long: first, two: second}
    both = str(place / "both")
    yield deal_words(3, both, both), 0, "", {both: second}
    one, lost = str(place / "one"), str(place / "absent" / "two")
    yield deal_words(3, one, str(place)), 5, f"file {place}\n", {one: first}
    yield deal_words(3, one, lost), 5, f"file {lost}\n", {one: first, lost: None}
    none, other = str(place / "none"), str(place / "other")
    yield deal_words(3, str(place), other), 5, f"file {place}\n", {other: None}
    for count in ["1048577", "03", "+3", "3 ", ""]:
        yield deal_words(count, none, other), 2, "usage 4\n", {none: None, other: None}
    twice = deal_words(3, none, other)
    twice[7] = "--out1"
    yield twice, 2, "usage 7\n", {none: None, other: None}


def digest_of(name):
    file = pathlib.Path(name)
    return hashlib.sha256(file.read_bytes()).hexdigest() if file.exists() else None


def deal_faults(program, rows):
    for words, status, err, files in rows:
        ended = subprocess.run([program, *words], stdin=subprocess.DEVNULL, capture_output=True)
        if (ended.returncode, ended.stdout, ended.stderr) != (status, b"", err.encode()):
            yield f"{words}: {ended.returncode} {ended.stdout!r} {ended.stderr!r}, expected {status} {err!r}"
        for name, digest in files.items():
            if digest_of(name) != digest:
                yield f"{words}: {name} has the digest {digest_of(name)}, expected {digest}"


def faults(program, rows):
    for words, status, out, err in rows:
        ended = subprocess.run([program, *words], stdin=subprocess.DEVNULL, capture_output=True)
        if (ended.returncode, ended.stdout, ended.stderr) != (status, out, err):
            yield f"{words}: {ended.returncode} {ended.stdout!r} {ended.stderr!r}, expected {status} {out!r} {err!r}"


def stream_faults(program):
    full = pathlib.Path("/dev/full")
    if not full.exists():
        return
    with full.open("wb") as sink:
        ended = subprocess.run([program, *COMMAND], stdout=sink, stderr=subprocess.PIPE)
        if (ended.returncode, ended.stderr) != (11, b"output\n"):
            yield f"output to a full device: {ended.returncode} {ended.stderr!r}"
        ended = subprocess.run([program], stdout=subprocess.PIPE, stderr=sink)
        if (ended.returncode, ended.stdout) != (2, b""):
            yield f"error line to a full device: {ended.returncode} {ended.stdout!r}"
    reader, writer = os.pipe()
    os.close(reader)
    ended = subprocess.run([program, *COMMAND], stdout=writer, stderr=subprocess.PIPE)
    os.close(writer)
    if (ended.returncode, ended.stderr) != (11, b"output\n"):
        yield f"output to a pipe without a reader: {ended.returncode} {ended.stderr!r}"


def main():
    program = sys.argv[1] if len(sys.argv) > 1 else str(TOP / "oblivcc-build" / "oblivcc")
    if not os.access(program, os.X_OK):
        print("try_program: the program isn't built")
        return 0
    with tempfile.TemporaryDirectory() as folder:
        rows = [(COMMAND, 0, b"12\n", b""), *checked_examples(), *refused_words(), *unreadable_files(folder)]
        dealt = [*deals(folder)]
        found = [*faults(program, rows), *deal_faults(program, dealt), *stream_faults(program)]
    for fault in found:
        print(fault)
    print(f"try_program: {len(rows) + len(dealt) + 3} runs, {len(found)} faults")
    return 1 if found else 0


if __name__ == "__main__":
    sys.exit(main())
