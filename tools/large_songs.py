#!/usr/bin/env python3
"""Writes large songs, for the figures of reading: large_songs.py FOLDER

`nothing` is the song that the others are compared with. `samples-4`, `-8` and `-16` are so many
megabytes of samples. `empty`, `sparse` and `full` are 255 patterns whose cells hold no note, a
note in each 16th row, or a note, an instrument and a volume each; with `-samples` behind its name
a song of them is filled with samples to 16 megabytes. A line for each song: its name, its bytes,
its cells and its frames."""
import pathlib
import sys

from canonical import header, instrument, pattern

CHANNELS, ROWS, PATTERNS = 32, 256, 255
MEGABYTE = 2**20
LONGEST = 3_932_160


def rough(count):
    """Frames without silence or a period."""
    frames, value = [], 0
    for at in range(count):
        value = (value * 5 + at // 7 + 3) % 256
        frames.append(value - 128)
    return frames


def cells(rows_apart):
    """A cell of a note, an instrument and a volume in each channel of every so many rows."""
    return {(row, channel): (1 + (row + channel) % 96, 1, 0x10 + row % 65, 0, 0)
            for row in range(0, ROWS, rows_apart) for channel in range(CHANNELS)}


part = instrument(b"longest", rough(LONGEST))
bodies = {
    "empty": pattern(ROWS, CHANNELS, {(0, 0): (1, 0, 0, 0, 0)}),
    "sparse": pattern(ROWS, CHANNELS, cells(16)),
    "full": pattern(ROWS, CHANNELS, cells(1)),
}


def write(name, patterns, parts):
    """The first pattern, which is played, has one empty row."""
    song = header(name.encode(), [0], CHANNELS, 1 + len(patterns), parts) + pattern(1, CHANNELS, {})
    song += b"".join(patterns) + part * parts
    (pathlib.Path(sys.argv[1]) / f"{name}.xm").write_bytes(song)
    print(name, len(song), len(patterns) * ROWS * CHANNELS, parts * LONGEST)


write("nothing", [], 0)
for size in (4, 8, 16):
    write(f"samples-{size}", [], size * MEGABYTE // len(part))
for name, body in bodies.items():
    patterns = [body] * PATTERNS
    write(name, patterns, 0)
    write(f"{name}-samples", patterns, (16 * MEGABYTE - PATTERNS * len(body)) // len(part))
