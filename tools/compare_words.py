#!/usr/bin/env python3
"""The program ft_words_dump against the slow placing of docs/WORDS.md, on songs drawn from numbers.

    compare_words.py PROGRAM COUNT [FIRST]    ends with 1 at a difference

The song behind the last of them has a sample of two indexes besides. Prints the first word that differs,
for each song that has one.
"""
import pathlib
import subprocess
import sys
import tempfile

from drawn_songs import drawn
from slow_reader import read
from slow_words import WORDS, words_of
from slow_writer import written

LONG = 1_049_600  # frames, in 1,025 bodies


def with_long_sample(song):
    sample = song.instruments[0].samples[0]
    sample.frames = [place * place % 256 - 128 for place in range(LONG)]
    sample.wide = False
    return song


def difference(program, path):
    """How the program differs from the slow placing on this song, or none."""
    run = subprocess.run([program, path], capture_output=True, text=True)
    if run.returncode:
        return f"status {run.returncode}: {run.stderr.strip()}"
    slow, fast = words_of(read(path.read_bytes())), run.stdout.split()
    if len(slow) != len(fast):
        return f"{len(fast)} words where {len(slow)} are wanted"
    for number, (right, got) in enumerate(zip(slow, fast)):
        if f"{right:016x}" != got:
            segment, place = divmod(number, WORDS)
            return f"segment {segment} word {place} is {got} and not {right:016x}"
    return None


def compare(program, count, first):
    """How many songs differ."""
    differing = 0
    with tempfile.TemporaryDirectory() as folder:
        for number in range(first, first + count + 1):
            song = drawn(number, "all")
            if number == first + count:
                song = with_long_sample(song)
            path = pathlib.Path(folder) / f"{number}.xm"
            path.write_bytes(written(song))
            found = difference(program, path)
            if found:
                print(f"{path.name}: {found}")
                differing += 1
            path.unlink()
    return differing


if __name__ == "__main__":
    program, count = sys.argv[1], int(sys.argv[2])
    if compare(program, count, int(sys.argv[3]) if len(sys.argv) > 3 else 0):
        sys.exit(1)
    print(f"the words are as the page says: {count} songs, and one with a sample of {LONG} frames")
