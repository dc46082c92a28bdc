#!/usr/bin/env python3
"""Writes songs drawn from numbers, for docs/SOUND.md's rules.

    drawn_songs.py FOLDER COUNT KIND [FIRST]    writes KIND0.xm, KIND1.xm .. to a folder, or from FIRST on

KIND is `plain`, with notes and set volumes alone; or `rows`, with all effects, volume bytes, both kinds of periods, and keys that go
off, but no fading; or `all`, with fading, envelopes, loops and automatic vibrato beside.
"""
import pathlib
import sys

from slow_reader import EMPTY, Envelope, Instrument, Pattern, Sample, Song
from slow_writer import written

EFFECTS = [(effect, None) for effect in (0, 1, 2, 3, 4, 5, 6, 7, 8, 9, 10, 12, 16, 17, 20, 21, 25, 27, 29)]
EFFECTS += [(14, digit) for digit in range(16)] + [(33, 1), (33, 2)]
# effects that show what they do only where they meet
FAMILIES = [[(0, None), (1, None), (2, None), (4, None)], [(3, None), (5, None), (14, 3)],
            [(4, None), (6, None), (14, 4)], [(7, None), (14, 7)], [(9, None), (14, 9), (27, None)],
            [(14, 13), (14, 14)], [(14, 6), (11, None), (13, None)], [(12, None), (14, 12), (10, None)]]
# chosen more rarely: they lead away from a row, or change the time of all
TURNS = [(11, None), (13, None), (14, 6), (14, 14), (15, None)]


class Draws:
    """Numbers that a number gives: always the same, and far from those of its neighbours."""

    def __init__(self, start):
        self.state = start

    def below(self, count):
        self.state = (self.state + 0x9E3779B97F4A7C15) % 2**64
        mixed = self.state
        for shift, factor in ((30, 0xBF58476D1CE4E5B9), (27, 0x94D049BB133111EB)):
            mixed = (mixed ^ mixed >> shift) * factor % 2**64
        return (mixed ^ mixed >> 31) % count

    def one_in(self, count):
        return self.below(count) == 0

    def of(self, values):
        return values[self.below(len(values))]

    def signed(self, bits):
        return self.below(2**bits) - 2 ** (bits - 1)


def drawn(number, kind):
    draws = Draws(number * 2**32)
    plain = kind == "plain"
    channels = draws.of([1, 2, 3, 4, 4, 6, 8, 32])
    instruments = [instrument(draws, kind) for _ in range(1 + draws.below(4))]
    # a song has some of the effects only, so that they meet
    effects = [] if plain else 3 * draws.of(FAMILIES) + [draws.of(EFFECTS) for _ in range(draws.below(7))]
    patterns = [pattern(draws, channels, len(instruments), effects) for _ in range(1 + draws.below(4))]
    # some orders name a pattern that isn't stored
    orders = [0] + [draws.below(len(patterns) + draws.below(2)) for _ in range(draws.below(6))]
    tempo = 1 + draws.below(draws.of([4, 8, 8, 31]))
    return Song(b"drawn".ljust(20, b"\0"), b"xmstudio".ljust(20, b"\0"), draws.below(len(orders)), channels,
                plain or not draws.one_in(3), tempo, 32 + draws.below(224), orders, patterns, instruments)


def pattern(draws, channels, parts, effects):
    rows = draws.of([1, 2, 3, 8, 16, 33, 64, draws.of([64, 256])])
    share = draws.of([1, 1, 2, 4])
    cells = [cell(draws, parts, effects) if draws.one_in(share) else EMPTY for _ in range(rows * channels)]
    return Pattern(rows, cells)


def cell(draws, parts, effects):
    note = draws.of([30 + draws.below(40), 30 + draws.below(40), 1 + draws.below(96), draws.of([1, 2, 95, 96])])
    if effects and draws.one_in(8):
        note = 97
    note = draws.of([0, 0, note] if effects else [0, note])
    # a few name an instrument that isn't there
    part = draws.of([0, 1 + draws.below(parts), 1 + draws.below(parts + draws.below(2))])
    volume = draws.of([0, 0, 0x10 + draws.below(65)])
    if not effects:
        return (note, part, volume, 0, 0)
    if draws.one_in(3):
        volume = draws.of([draws.below(256), 0x60 + draws.below(160), draws.of([0x0F, 0x50, 0x51, 0x72, 0xB0, 0xF0])])
    return (note, part, volume, *effect(draws, effects))


def effect(draws, effects):
    if draws.one_in(5):
        return (0, 0)
    if draws.one_in(50):
        return (draws.below(256), draws.below(256))
    number, digit = draws.of(TURNS) if draws.one_in(10) else draws.of(effects)
    parameter = draws.of([0, draws.below(16), draws.below(16) * 16, draws.below(8) * 16 + draws.below(8), draws.below(256)])
    if digit is not None:
        parameter = 16 * digit + draws.of([0, draws.below(4), draws.below(8), draws.below(16)])
    elif number == 0:
        parameter = draws.of([parameter, 0xC0 + draws.below(64), 16 * draws.below(16) + 12 + draws.below(4)])
    elif number in (4, 7):
        parameter = draws.of([parameter, draws.below(256)])
    elif number == 9:
        parameter = draws.of([0, 1, 2, draws.below(4)])
    elif number == 11:
        parameter = draws.below(8)
    elif number == 13:
        parameter = draws.of([draws.below(256), draws.below(4) * 16 + draws.below(10), 0x63, 0x64])
    elif number == 15:
        parameter = draws.of([draws.below(8), draws.below(8), 31, 32, draws.below(256)])
    elif number == 27:
        parameter = 16 * draws.below(16) + draws.of([0, 1 + draws.below(3), draws.below(16)])
    elif number == 3:
        parameter = draws.of([draws.below(8), 4, 8, parameter])
    elif number == 20:
        parameter = draws.of([draws.below(8), parameter])
    return (number, parameter)


def instrument(draws, kind):
    count = draws.of([1, 1, 1, draws.below(2)]) if kind == "plain" else draws.of([1, 1, 2, draws.below(6)])
    name = b"part".ljust(22, b"\0")
    if count == 0:
        nothing = Envelope([(0, 0)] * 12, 0, 0, 0, 0, 0)
        return Instrument(name, [0] * 96, nothing, nothing, (0, 0, 0, 0), 0, [])
    samples = [sample(draws, kind) for _ in range(count)]
    # now and then the map names a sample that isn't there
    note_map = [draws.below(count + draws.one_in(10)) for _ in range(96)]
    volume, panning = envelope(draws, kind), envelope(draws, kind)
    vibrato = (draws.below(4), draws.of([0, draws.below(256)]), draws.below(16), draws.below(64))
    fadeout = draws.of([0, draws.below(65536), draws.below(2000)])
    if kind != "all":
        vibrato, fadeout = (*vibrato[:2], 0, vibrato[3]), 0
    return Instrument(name, note_map, volume, panning, vibrato, fadeout, samples)


def envelope(draws, kind):
    flags = draws.below(4) * 2 if kind == "plain" else draws.below(8)
    count = draws.below(13)
    steps = draws.of([1, 3, 20])
    points, at = [], draws.of([0, 0, draws.below(5)])
    for _ in range(12):
        points.append((at, draws.below(65)))
        # some points stand on one place, and some go back
        at = max(0, at + draws.below(2 * steps) - (steps if draws.one_in(6) else 0))
    return Envelope(points, count, draws.below(12), draws.below(12), draws.below(12), flags)


def sample(draws, kind):
    wide = kind != "plain" and draws.one_in(2)
    count = draws.of([draws.below(4), 50, 512, 700, 700, 9000])
    frames = [draws.signed(16 if wide else 8) for _ in range(count)]
    loop = (0, 0, 0)
    if kind != "plain" and count and not draws.one_in(3):
        start = draws.below(count)
        loop = (1 + draws.below(2), start, 1 + draws.below(min(count - start, draws.of([2, 40, 9000]))))
    finetune = draws.of([0, draws.signed(8), -1 - draws.below(128)])
    relative = draws.of([0, 0, draws.below(25) - 12, draws.of([draws.below(97) - 48, draws.signed(8), 23, 24, -1])])
    return Sample(b"sample".ljust(22, b"\0"), draws.of([64, 40, draws.below(65)]), finetune, relative,
                  draws.of([128, draws.below(256)]), wide, loop, frames)


if __name__ == "__main__":
    folder, count, kind = pathlib.Path(sys.argv[1]), int(sys.argv[2]), sys.argv[3]
    first = int(sys.argv[4]) if len(sys.argv) > 4 else 0
    for number in range(first, first + count):
        (folder / f"{kind}{number}.xm").write_bytes(written(drawn(number, kind)))
