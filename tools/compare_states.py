#!/usr/bin/env python3
"""The program ft_states against the slow reading of docs/SOUND.md, on songs drawn from numbers.

    compare_states.py PROGRAM COUNT KIND [FIRST]    the kinds of drawn_songs.py; ends with 1 at a difference

Prints the first number that differs, for each song that has one. Where KIND is `rows`, what is
heard isn't compared: envelopes, automatic vibrato, steps and gains.
"""
import pathlib
import subprocess
import sys
import tempfile

from drawn_songs import drawn
from slow_reader import read
from slow_replay import CHANNEL, STATE, states
from slow_writer import written

TICKS = 300
HEARD = set("volume_envelope panning_envelope auto_position auto_age step left right last".split())


def name_of(column):
    if column < len(STATE):
        return STATE[column]
    channel, number = divmod(column - len(STATE), len(CHANNEL))
    return f"channel {channel} {CHANNEL[number]}"


def first_difference(slow, fast, kind):
    """A text that names it, or none."""
    for tick, (wanted, found) in enumerate(zip(slow, fast)):
        wanted, found = wanted.split(), found.split()
        where = f"tick {tick} (order {wanted[0]} row {wanted[1]} tick {wanted[2]})"
        if len(wanted) != len(found):
            return f"{where}: {len(found)} numbers where {len(wanted)} are wanted"
        for column, (right, got) in enumerate(zip(wanted, found)):
            name = name_of(column)
            if right != got and not (kind == "rows" and name.split()[-1] in HEARD):
                return f"{where}: {name} is {got} and not {right}"
    return None if len(slow) == len(fast) else f"{len(fast)} ticks where {len(slow)} are wanted"


def difference(program, path, rate, kind):
    """How the program differs from the slow reading on this song, or none."""
    run = subprocess.run([program, path, str(rate), str(TICKS)], capture_output=True, text=True)
    if run.returncode:
        return f"status {run.returncode}: {run.stderr.strip()}"
    return first_difference(states(read(path.read_bytes()), rate, TICKS), run.stdout.splitlines(), kind)


def compare(program, count, kind, first):
    """How many songs differ."""
    differing = 0
    with tempfile.TemporaryDirectory() as folder:
        for number in range(first, first + count):
            path = pathlib.Path(folder) / f"{kind}{number}.xm"
            path.write_bytes(written(drawn(number, kind)))
            rate = 8000 + 3557 * number % 40001
            found = difference(program, path, rate, kind)
            if found:
                print(f"{path.name} at {rate} Hz: {found}")
                differing += 1
            path.unlink()
    return differing


if __name__ == "__main__":
    program, count, kind = sys.argv[1], int(sys.argv[2]), sys.argv[3]
    if compare(program, count, kind, int(sys.argv[4]) if len(sys.argv) > 4 else 0):
        sys.exit(1)
    print(f"the states are as the rules say: {count} songs of the kind {kind}, {TICKS} ticks each")
