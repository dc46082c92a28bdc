#!/usr/bin/env python3
"""A slow writer of docs/FORMAT.md's canonical bytes, written apart from the program.

    slow_writer.py SONG    reads a song in any spelling, and writes its canonical bytes to standard output
"""
import struct
import sys

from canonical import cell
from slow_reader import EMPTY, read


def number(size, value):
    return value.to_bytes(size, "little")


def header(song):
    return (b"Extended Module: " + song.name + b"\x1a" + song.tracker
            + struct.pack("<HI8H", 0x0104, 276, len(song.orders), song.restart, song.channels,
                          len(song.patterns), len(song.instruments), song.linear, song.tempo, song.bpm)
            + bytes(song.orders).ljust(256, b"\0"))


def pattern(part):
    data = b""
    if any(one != EMPTY for one in part.cells):
        data = b"".join(map(cell, part.cells))
    return struct.pack("<IBHH", 9, 0, part.rows, len(data)) + data


def points(envelope):
    return b"".join(struct.pack("<HH", x, y) for x, y in envelope.points)


def turns(envelope):
    return bytes([envelope.sustain, envelope.loop_start, envelope.loop_end])


def sample_header(sample):
    size = 2 if sample.wide else 1
    kind, start, length = sample.loop
    return (struct.pack("<III", size * len(sample.frames), size * start, size * length)
            + struct.pack("<BbBBbB", sample.volume, sample.finetune, kind + 16 * sample.wide, sample.panning, sample.relative, 0)
            + sample.name)


def data(sample):
    size = 2 if sample.wide else 1
    steps = (now - before for before, now in zip([0] + sample.frames, sample.frames))
    return b"".join(number(size, step % 256 ** size) for step in steps)


def instrument(part):
    if not part.samples:
        return number(4, 29) + part.name + bytes(3)
    volume, panning = part.volume, part.panning
    head = (number(4, 263) + part.name + struct.pack("<BHI", 0, len(part.samples), 40) + bytes(part.map)
            + points(volume) + points(panning) + bytes([volume.count, panning.count])
            + turns(volume) + turns(panning) + bytes([volume.flags, panning.flags])
            + bytes(part.vibrato) + number(2, part.fadeout) + bytes(22))
    return head + b"".join(map(sample_header, part.samples)) + b"".join(map(data, part.samples))


def written(song):
    return header(song) + b"".join(map(pattern, song.patterns)) + b"".join(map(instrument, song.instruments))


if __name__ == "__main__":
    with open(sys.argv[1], "rb") as file:
        sys.stdout.buffer.write(written(read(file.read())))
