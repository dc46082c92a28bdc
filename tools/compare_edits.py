#!/usr/bin/env python3
"""The program ft_edit_answers against the slow reading of docs/EDITS.md and docs/TEXTS.md, on scripts and ledgers drawn from numbers.

    compare_edits.py PROGRAM script|ledger COUNT [FIRST]    ends with 1 at a difference

Prints the first line that differs, for each script or ledger that has one.
"""
import collections
import pathlib
import subprocess
import sys
import tempfile

from drawn_scripts import drawn_ledger, drawn_script, write
from slow_edits import answer_ledger, answer_script


def first_difference(slow, fast):
    """A text that names it, or none."""
    if slow == fast:
        return None
    for number, (wanted, found) in enumerate(zip(slow.split(b"\n"), fast.split(b"\n")), 1):
        if wanted != found:
            return f"line {number} of the answers is {found[:200]} and not {wanted[:200]}"
    return f"{len(fast)} bytes of answers where {len(slow)} are wanted"


def run(program, *paths):
    """What the program writes; or how it failed, as a text."""
    done = subprocess.run([program, *paths], capture_output=True)
    return done.stdout if done.returncode == 0 else f"status {done.returncode}: {done.stderr.decode(errors='replace').strip()}"


def answers(program, folder, kind, number):
    """The slow answer to what is drawn from a number, and the program's."""
    inputs = drawn_script(number) if kind == "script" else [drawn_ledger(number)]
    paths = [folder / f"{kind}{number}.{part}" for part, _ in enumerate(inputs)]
    for path, content in zip(paths, inputs):
        write(path, content)
    slow = (answer_script if kind == "script" else answer_ledger)(*inputs)
    fast = run(program, *paths)
    for path in paths:
        path.unlink()
    return slow, fast


def told(counts, kind):
    if kind == "ledger":
        return f"{counts['xmstudio']} of them read, {counts['line']} refused"
    return (f"{counts['batch']} lines of edits, {counts['skip']} without, {counts['bad']} wrong; "
            f"{counts['done']} edits done, {counts['fault']} refused")


def compare(program, kind, count, first):
    """How many differ, and how often the slow reading gave each answer."""
    differing, counts = 0, collections.Counter()
    with tempfile.TemporaryDirectory() as folder:
        for number in range(first, first + count):
            slow, fast = answers(program, pathlib.Path(folder), kind, number)
            counts.update(line.split(b" ", 1)[0].decode("latin-1") for line in slow.split(b"\n"))
            found = fast if isinstance(fast, str) else first_difference(slow, fast)
            if found:
                print(f"{kind} {number}: {found}")
                differing += 1
    return differing, counts


if __name__ == "__main__":
    program, kind, count = sys.argv[1], sys.argv[2], int(sys.argv[3])
    differing, counts = compare(program, kind, count, int(sys.argv[4]) if len(sys.argv) > 4 else 0)
    if differing:
        sys.exit(1)
    print(f"{count} {kind}s are answered as the pages say: {told(counts, kind)}")
