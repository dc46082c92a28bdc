#!/usr/bin/env python3
"""A slow reader of docs/MOD.md, written apart from the program.

    slow_mod.py MODULE        writes the canonical bytes of its song to standard output, or ends with
                              status 3 and its fault on standard error
"""
import sys

from slow_reader import Fault, Fields, Instrument, Pattern, Sample, Song, brought, nothing
from slow_writer import written

NOT_MOD, SHORT, COUNT = range(1, 4)
MARK = b"M.K."
PERIODS = [856, 808, 762, 720, 678, 640, 604, 570, 538, 508, 480, 453,
           428, 404, 381, 360, 339, 320, 302, 285, 269, 254, 240, 226,
           214, 202, 190, 180, 170, 160, 151, 143, 135, 127, 120, 113]
# effects whose parameter 0 does nothing in a module, and would be a memory in a song
IDLE = {(1, 0), (2, 0), (10, 0), (14, 0x10), (14, 0x20), (14, 0xA0), (14, 0xB0)}
SLIDELESS = {(5, 0): (3, 0), (6, 0): (4, 0)}


class ModFault(Fault):
    def line(self):
        return "mod " + super().line()


class ModFields(Fields):
    """Takes the fields of a module, whose numbers have the high byte first."""

    def take(self, need):
        try:
            return super().take(need)
        except Fault:
            raise ModFault(SHORT, self.at, need) from None

    def number(self, size):
        return int.from_bytes(self.take(size), "big")

    def rest(self, size):
        """Up to so many bytes; those that are missing are 0."""
        there = self.file[self.at:self.at + size]
        self.at += size
        return there.ljust(size, b"\0")


def header(fields):
    """The fields of a sample's header: 30 bytes, taken as one."""
    part = ModFields(fields.take(30))
    return part.take(22), 2 * part.number(2), part.number(1), part.number(1), 2 * part.number(2), part.number(2)


def note(period):
    if period == 0:
        return 0
    far = [abs(period - other) for other in PERIODS]
    return 37 + far.index(min(far))


def effect(kind, parameter):
    if (kind, parameter) in IDLE:
        return 0, 0
    if kind == 14 and parameter >> 4 == 5:
        return 14, 0x50 + (parameter + 8) % 16
    return SLIDELESS.get((kind, parameter), (kind, parameter))


def cell(four):
    first, second, third, parameter = four
    return (note(first % 16 * 256 + second), first // 16 * 16 + third // 16, 0, *effect(third % 16, parameter))


def pattern(fields):
    data = fields.take(1024)
    return Pattern(64, [cell(data[at:at + 4]) for at in range(0, 1024, 4)])


def signed(byte):
    return byte - 256 if byte > 127 else byte


def loop(size, start, pairs):
    start = min(size, start)
    length = min(size - start, 2 * pairs)
    return (1, start, length) if pairs > 1 and length else (0, 0, 0)


def instrument(fields, head):
    name, size, fine, volume, start, pairs = head
    empty = Instrument(name, [0] * 96, nothing(), nothing(), (0, 0, 0, 0), 0, [])
    if size == 0:
        return empty
    digit = fine % 16
    finetune = 16 * (digit - 16 if digit > 7 else digit)
    frames = [signed(byte) for byte in fields.rest(size)]
    empty.samples.append(Sample(name, brought(0, 64, volume), finetune, 0, 128, False, loop(size, start, pairs), frames))
    return empty


def read_mod(file):
    """The song of a module; its first fault is raised."""
    fields = ModFields(file)
    title = fields.take(20)
    heads = [header(fields) for _ in range(31)]
    length = fields.number(1)
    if length > 128:
        raise ModFault(COUNT, 950, length)
    length = max(1, length)
    restart = fields.number(1)
    orders = fields.take(128)
    for at, order in enumerate(orders):
        if order > 127:
            raise ModFault(COUNT, 952 + at, order)
    mark = fields.take(4)
    for at in range(4):
        if mark[at] != MARK[at]:
            raise ModFault(NOT_MOD, 1080 + at)
    patterns = [pattern(fields) for _ in range(1 + max(orders))]
    instruments = [instrument(fields, head) for head in heads]
    return Song(title, MARK.ljust(20, b"\0"), restart if restart < length else 0, 4, False, 6, 125,
                list(orders[:length]), patterns, instruments)


if __name__ == "__main__":
    with open(sys.argv[1], "rb") as module:
        try:
            sys.stdout.buffer.write(written(read_mod(module.read())))
        except ModFault as fault:
            print(fault.line(), file=sys.stderr)
            sys.exit(3)
