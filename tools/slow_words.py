#!/usr/bin/env python3
"""A slow placing of songs in words, written from docs/WORDS.md apart from the program.

    slow_words.py SONG    prints a line for each word, from segment 0 on: 16 hexadecimal digits
"""
import sys

from slow_reader import read

WORDS = 256  # of a segment
CELLS = 256  # of a pattern body
FRAMES = 1024  # of a sample body
BODIES = 1024  # of a sample index


def put(word, low, value):
    """A word with a number from bit `low` upward."""
    return word | value << low


def row(numbers, bits):
    """Numbers of so many bits, side by side from the lowest bits of the first word on."""
    many = 64 // bits
    words = []
    for first in range(0, len(numbers), many):
        word = 0
        for place, number in enumerate(numbers[first:first + many]):
            word = put(word, bits * place, number % 2**bits)
        words.append(word)
    return words


def pieces(count, size):
    return -(-count // size)


class Pool:
    """Segments, numbered in the order in which they are asked for."""

    def __init__(self):
        self.segments = []

    def new(self):
        self.segments.append([0] * WORDS)
        return len(self.segments) - 1

    def several(self, count):
        return [self.new() for _ in range(count)]

    def fill(self, segment, first, words):
        self.segments[segment][first:first + len(words)] = words
        assert len(self.segments[segment]) == WORDS


def place_pattern(pool, pattern):
    root = pool.new()
    bodies = pool.several(pieces(len(pattern.cells), CELLS))
    pool.fill(root, 0, [pattern.rows])
    pool.fill(root, 1, row(bodies, 16))
    for number, body in enumerate(bodies):
        cells = pattern.cells[CELLS * number:CELLS * (number + 1)]
        pool.fill(body, 0, [word for cell in cells for word in row(cell, 8)])
    return root


def place_sample(pool, sample):
    count = pieces(len(sample.frames), FRAMES)
    root = pool.new()
    indexes = pool.several(pieces(count, BODIES))
    bodies = pool.several(count)
    kind, start, length = sample.loop
    lengths = put(len(sample.frames), 32, start)
    rest = put(put(put(put(length, 32, kind), 40, sample.wide), 48, sample.volume), 56, sample.panning)
    pool.fill(root, 0, [lengths, rest, *row([sample.finetune, sample.relative], 8)])
    pool.fill(root, 3, row(sample.name, 8))
    pool.fill(root, 16, row(indexes, 16))
    for number, index in enumerate(indexes):
        pool.fill(index, 0, row(bodies[BODIES * number:BODIES * (number + 1)], 16))
    for number, body in enumerate(bodies):
        pool.fill(body, 0, row(sample.frames[FRAMES * number:FRAMES * (number + 1)], 16))
    return root


def places(envelope):
    return [envelope.sustain, envelope.loop_start, envelope.loop_end, envelope.flags]


def numbers(points):
    return [number for point in points for number in point]


def place_instrument(pool, instrument):
    root = pool.new()
    samples = [place_sample(pool, sample) for sample in instrument.samples]
    volume, panning = instrument.volume, instrument.panning
    pool.fill(root, 0, row([len(samples), volume.count, panning.count, *instrument.vibrato], 8))
    pool.fill(root, 1, row(places(volume) + places(panning), 8))
    pool.fill(root, 2, [instrument.fadeout])
    pool.fill(root, 3, row(instrument.name, 8))
    pool.fill(root, 6, row(instrument.map, 8))
    pool.fill(root, 18, row(numbers(volume.points), 16))
    pool.fill(root, 24, row(numbers(panning.points), 16))
    pool.fill(root, 30, row(samples, 16))
    return root


def words_of(song):
    """The words of a song, from segment 0 on."""
    pool = Pool()
    root = pool.new()
    patterns = [place_pattern(pool, pattern) for pattern in song.patterns]
    instruments = [place_instrument(pool, instrument) for instrument in song.instruments]
    head = put(put(put(len(song.orders), 16, song.restart), 32, song.channels), 40, song.linear)
    head = put(put(head, 48, song.tempo), 56, song.bpm)
    pool.fill(root, 0, [head, put(len(patterns), 16, len(instruments))])
    pool.fill(root, 2, row(song.name, 8))
    pool.fill(root, 5, row(song.tracker, 8))
    pool.fill(root, 8, row(song.orders, 8))
    pool.fill(root, 40, row(patterns, 16))
    pool.fill(root, 104, row(instruments, 16))
    return [word for segment in pool.segments for word in segment]


if __name__ == "__main__":
    with open(sys.argv[1], "rb") as file:
        print("\n".join(f"{word:016x}" for word in words_of(read(file.read()))))
