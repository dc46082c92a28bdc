#!/usr/bin/env python3
"""Draws ProTracker modules from numbers, whole ones and damaged ones, for docs/MOD.md's rules."""
from drawn_songs import Draws
from slow_mod import PERIODS

EFFECTS = [(kind, None) for kind in range(16)] + [(kind, 0) for kind in (1, 2, 5, 6, 10)] + [(14, 0x10 * x) for x in range(16)]


class ModDraws(Draws):
    def pick(self, *values):
        return values[self.below(len(values))]

    def raw(self, count):
        return bytes(self.below(256) for _ in range(count))


def period(draws):
    """None, one of the table, a neighbour, one between, or any."""
    near = draws.pick(*PERIODS)
    return draws.pick(0, 0, near, near, near + 1, near - 1, near + draws.below(30), draws.below(4096))


def cell(draws):
    if draws.below(3):
        return bytes(4)
    kind, parameter = draws.pick(*EFFECTS)
    if parameter is None:
        parameter = draws.below(256)
    elif kind == 14 and draws.below(2):
        parameter += draws.below(16)
    instrument, number = draws.pick(0, 1, 1 + draws.below(31), draws.below(256)), period(draws)
    return bytes([instrument // 16 * 16 + number // 256, number % 256, instrument % 16 * 16 + kind, parameter])


def word(number):
    return number.to_bytes(2, "big")


def header(draws):
    """A sample's header, and the bytes of its data."""
    pairs = draws.pick(0, 0, 0, 1, 2, 3, draws.below(400), draws.below(400))
    start = draws.pick(0, 0, 1, pairs, draws.below(pairs + 3), 65535)
    span = draws.pick(0, 1, 1, 2, pairs, draws.below(pairs + 3), 65535)
    return draws.raw(22) + word(pairs) + bytes([draws.below(256), draws.pick(0, 64, 65, draws.below(256))]) + word(start) + word(span), 2 * pairs


def drawn_mod(number):
    """A module that is read, with data that may be missing or in surplus."""
    draws = ModDraws(number)
    heads = [header(draws) for _ in range(31)]
    patterns = draws.pick(1, 1, 1, 2, 3, 5)
    orders = [draws.below(patterns) for _ in range(128)]
    orders[draws.pick(0, 1, 127, draws.below(128))] = patterns - 1
    length = draws.pick(0, 1, 2, 64, 127, 128)
    file = draws.raw(20) + b"".join(head for head, _ in heads)
    file += bytes([length, draws.pick(0, max(0, length - 1), length, 127, 255)]) + bytes(orders) + b"M.K."
    file += b"".join(cell(draws) for _ in range(256 * patterns))
    data = draws.raw(sum(size for _, size in heads))
    lost = draws.pick(0, 0, 1, 2, 3, draws.below(len(data) + 1))
    return file + draws.pick(data, data, data[:len(data) - lost], data + draws.raw(draws.below(50)))


def damaged_mod(number):
    """The same with one harm or two, most of which are faults."""
    draws = ModDraws(2**32 + number)
    file = bytearray(drawn_mod(number))
    for _ in range(draws.pick(1, 1, 1, 2)):
        kind = draws.below(6)
        if kind == 0:
            del file[draws.below(len(file) + 1):]
        elif kind == 1:
            del file[draws.pick(0, 19, 20, 49, 50, 949, 950, 951, 952, 1079, 1080, 1083, 1084, 2107, 2108):]
        elif kind == 2 and len(file) > 1079:
            file[952 + draws.below(128)] = draws.pick(127, 128, 255, draws.below(256))
        elif kind == 3 and len(file) > 950:
            file[950] = draws.pick(128, 129, 255, draws.below(256))
        elif kind == 4 and len(file) > 1083:
            file[1080 + draws.below(4)] = draws.pick(0, ord("m"), ord("K"), draws.below(256))
        elif file:
            file[draws.below(len(file))] = draws.below(256)
    return bytes(file)
