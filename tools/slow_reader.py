#!/usr/bin/env python3
"""A slow reader of docs/FORMAT.md, written apart from the program.

    slow_reader.py SONG..    prints a line for each file: `song`, or its fault
"""
import sys
from dataclasses import dataclass

NOT_XM, VERSION, SHORT, COUNT, PACKING, CELL_OVERRUN, STEREO, TOO_LONG = range(1, 9)
MOST_FRAMES = 3_932_160
EMPTY = (0, 0, 0, 0, 0)


class Fault(Exception):
    """The first fault of a file: its number K, and its own numbers."""

    def line(self):
        return " ".join(["fault", *map(str, self.args)])


@dataclass
class Pattern:
    rows: int
    cells: list  # of five bytes each: note, instrument, volume, effect, parameter


@dataclass
class Envelope:
    points: list  # of pairs x, y
    count: int
    sustain: int
    loop_start: int
    loop_end: int
    flags: int


@dataclass
class Sample:
    name: bytes
    volume: int
    finetune: int
    relative: int
    panning: int
    wide: bool
    loop: tuple  # kind, start, length
    frames: list


@dataclass
class Instrument:
    name: bytes
    map: list
    volume: Envelope
    panning: Envelope
    vibrato: tuple  # kind, sweep, depth, rate
    fadeout: int
    samples: list


@dataclass
class Song:
    name: bytes
    tracker: bytes
    restart: int
    channels: int
    linear: bool
    tempo: int
    bpm: int
    orders: list
    patterns: list
    instruments: list


class Fields:
    """Takes fields from left to right."""

    def __init__(self, file, at=0):
        self.file = file
        self.at = at

    def take(self, need):
        if self.at + need > len(self.file):
            raise Fault(SHORT, self.at, need)
        self.at += need
        return self.file[self.at - need:self.at]

    def number(self, size):
        return int.from_bytes(self.take(size), "little")

    def signed(self):
        return int.from_bytes(self.take(1), "little", signed=True)

    def count(self, size, least, most):
        """A number that is a fault where it is out of this range."""
        at = self.at
        found = self.number(size)
        if not least <= found <= most:
            raise Fault(COUNT, at, found)
        return found

    def part(self, need):
        """One field of so many bytes, whose own fields are taken apart from the rest."""
        start = self.at
        self.take(need)
        return Fields(self.file[:start + need], start)


def brought(least, most, value):
    return max(least, min(most, value))


# ---- identification and header


def identification(fields):
    for at, (found, wanted) in enumerate(zip(fields.take(17), b"Extended Module: ")):
        if found != wanted and not (at == 9 and found == ord("m")):
            raise Fault(NOT_XM, at)


def version(fields):
    found = fields.number(2)
    if found != 0x0104:
        raise Fault(VERSION, found)


def read(file):
    """The song that a file spells, its values brought into range; or its first fault is raised."""
    fields = Fields(file)
    identification(fields)
    name, _, tracker = fields.take(20), fields.take(1), fields.take(20)
    version(fields)
    size = fields.count(4, 21, 2**32)
    length = max(1, fields.count(2, 0, 256))
    restart = fields.number(2)
    channels = fields.count(2, 1, 32)
    patterns = fields.count(2, 0, 256)
    instruments = fields.count(2, 0, 128)
    flags, tempo, bpm = fields.number(2), fields.number(2), fields.number(2)
    orders = fields.take(size - 20)[:length].ljust(length, b"\0")
    return Song(
        name, tracker, restart if restart < length else 0, channels, flags % 2 == 1,
        brought(1, 31, tempo), brought(32, 255, bpm), list(orders),
        [pattern(fields, number, channels) for number in range(patterns)],
        [instrument(fields, number + 1) for number in range(instruments)])


# ---- patterns


def pattern(fields, number, channels):
    length = fields.count(4, 9, 2**32)
    packing = fields.number(1)
    if packing != 0:
        raise Fault(PACKING, number, packing)
    rows = fields.count(2, 0, 256) or 64
    size = fields.number(2)
    fields.take(length - 9)
    if size == 0:
        return Pattern(rows, [EMPTY] * (rows * channels))
    data = fields.part(size)
    return Pattern(rows, [cell_of(data, number) for _ in range(rows * channels)])


def cell_of(data, number):
    at = data.at
    try:
        note, *others = cell(data)
    except Fault:
        raise Fault(CELL_OVERRUN, number, at) from None
    return (note if note <= 97 else 0, *others)


def cell(data):
    first = data.number(1)
    if first < 0x80:
        return (first, *data.take(4))
    return tuple(data.number(1) if first >> bit & 1 else 0 for bit in range(5))


# ---- instruments


def instrument(fields, number):
    start = fields.at
    size = fields.count(4, 29, 2**32)
    name, _ = fields.take(22), fields.take(1)
    samples = fields.count(2, 0, 16)
    if samples and size < 241:
        raise Fault(COUNT, start, size)
    rest = fields.part(size - 29)
    if not samples:
        return Instrument(name, [0] * 96, nothing(), nothing(), (0, 0, 0, 0), 0, [])
    note_map, volume, panning, vibrato, fadeout = rest_of_head(rest)
    headers = [sample_header(fields, number, sample) for sample in range(samples)]
    return Instrument(name, note_map, volume, panning, vibrato, fadeout, [sample_of(header, fields.take(header.length)) for header in headers])


def nothing():
    return Envelope([(0, 0)] * 12, 0, 0, 0, 0, 0)


def rest_of_head(rest):
    """What the head of an instrument with samples says behind its number of samples."""
    rest.take(4)
    note_map = [min(15, sample) for sample in rest.take(96)]
    points = [[(rest.number(2), min(64, rest.number(2))) for _ in range(12)] for _ in range(2)]
    counts = [min(12, count) for count in rest.take(2)]
    turns = [[min(11, point) for point in rest.take(3)] for _ in range(2)]
    flags = [byte % 8 for byte in rest.take(2)]
    volume, panning = (Envelope(points[w], counts[w], *turns[w], flags[w]) for w in range(2))
    kind, sweep, depth, rate = rest.take(4)
    vibrato = (kind if kind <= 3 else 0, sweep, min(15, depth), min(63, rate))
    return note_map, volume, panning, vibrato, rest.number(2)


# ---- samples


@dataclass
class SampleHeader:
    length: int
    loop_start: int
    loop_length: int
    volume: int
    finetune: int
    type: int
    panning: int
    relative: int
    name: bytes

    def is_wide(self):
        return self.type >> 4 & 1 == 1

    def in_frames(self, size):
        return size // 2 if self.is_wide() else size


def sample_header(fields, number, sample):
    part = fields.part(40)
    length, start, loop_length = part.number(4), part.number(4), part.number(4)
    volume, finetune, kind, panning, relative = part.number(1), part.signed(), part.number(1), part.number(1), part.signed()
    part.take(1)
    header = SampleHeader(length, start, loop_length, volume, finetune, kind, panning, relative, part.take(22))
    if kind >> 5 & 1:
        raise Fault(STEREO, number, sample)
    frames = header.in_frames(length)
    if frames > MOST_FRAMES:
        raise Fault(TOO_LONG, number, sample, frames)
    return header


def loop_of(header, frames):
    kind = min(2, header.type % 4)
    start = min(frames, header.in_frames(header.loop_start))
    length = min(frames - start, header.in_frames(header.loop_length))
    return (kind, start, length) if kind and length else (0, 0, 0)


def frames_of(data, size):
    """The frames of steps of one byte or two."""
    now, frames = 0, []
    half = 2 ** (8 * size - 1)
    for at in range(0, len(data) - size + 1, size):
        now = (now + int.from_bytes(data[at:at + size], "little")) % (2 * half)
        frames.append(now if now < half else now - 2 * half)
    return frames


def sample_of(header, data):
    frames = frames_of(data, 2 if header.is_wide() else 1)
    return Sample(header.name, min(64, header.volume), header.finetune, header.relative, header.panning,
                  header.is_wide(), loop_of(header, len(frames)), frames)


# ---- what is told of a file


def answer(file):
    """What the program's line says of a file behind `song refused: `, or `song` where it spells one."""
    try:
        read(file)
        return "song"
    except Fault as fault:
        return fault.line()


if __name__ == "__main__":
    for path in sys.argv[1:]:
        with open(path, "rb") as file:
            print(answer(file.read()))
