#!/usr/bin/env python3
"""The numbers that docs/SOUND.md gives, by the slow replayer; prints each that differs, and ends with 1."""
import sys

from slow_reader import EMPTY, Envelope, Instrument, Pattern, Sample, Song
from slow_replay import Replay, place
from slow_rows import amiga_period, linear_period

NAME = bytes(22)
ROWS = 64


def points(*pairs):
    """An envelope that is on, of these points."""
    return Envelope(list(pairs) + [(0, 0)] * (12 - len(pairs)), len(pairs), 0, 0, 0, 1)


def song(cells=(), frames=(64, 64, 64, 64), loop=(0, 0, 0), tempo=6, bpm=125, linear=True, volume=None, fadeout=0, orders=(0,)):
    """One channel, with C-4 and instrument 1 in row 0, and these cells by their rows."""
    cells = {0: (49, 1, 0, 0, 0), **dict(cells)}
    off = Envelope([(0, 0)] * 12, 0, 0, 0, 0, 0)
    sample = Sample(NAME, 64, 0, 0, 128, False, loop, list(frames))
    instrument = Instrument(NAME, [0] * 96, volume or off, off, (0, 0, 0, 0), fadeout, [sample])
    pattern = Pattern(ROWS, [cells.get(row, EMPTY) for row in range(ROWS)])
    return Song(bytes(20), bytes(20), 0, 1, linear, tempo, bpm, list(orders), [pattern], [instrument])


LOOP = (1, 0, 4)


def after(ticks, wanted, of_channel, a_song, rate=8000, first=0):
    """What a channel says after each tick from `first` on."""
    replay, found = Replay(a_song, rate), []
    for _ in range(first + ticks):
        replay.tick()
        found.append(of_channel(replay, replay.channels[0]))
    return found[first:], wanted


def list_after(wanted, of_channel, a_song, **others):
    return after(len(wanted), wanted, of_channel, a_song, **others)


def period(_, channel):
    return channel.period


def heard(replay, channel):
    return replay.heard_period(channel, 0)


def volume(_, channel):
    return channel.volume


def muted(_, channel):
    return int(channel.muted)


def places(wanted, a_song):
    """Order, row and number of each tick."""
    replay = Replay(a_song, 8000)
    return [replay.tick()[:3] for _ in range(len(wanted))], wanted


def rows(wanted, a_song):
    """The rows as they are played."""
    replay, found = Replay(a_song, 8000), []
    while len(found) < len(wanted):
        _, row, tick, _ = replay.tick()
        found += [row] if tick == 0 else []
    return found, wanted


def frames(wanted, a_song, rate):
    replay = Replay(a_song, rate)
    return [replay.tick()[3] for _ in wanted], wanted


def loud(wanted, a_song):
    """The left side in each tick, at one frame of the sample for each of the output."""
    replay = Replay(a_song, 8363)
    return [replay.sound(replay.tick()[3])[50][0] for _ in wanted], wanted


def frequencies():
    linear, amiga = Replay(song(), 8000), Replay(song(linear=False), 8000)
    return [linear.frequency(4608), linear.frequency(4544), amiga.frequency(1712)], [548077568, 580668179, 548077568]


def periods():
    return ([linear_period(48, 0), linear_period(49, 0), *(amiga_period(48, tuned) for tuned in (0, 64, -128))],
            [4608, 4544, 1712, 1664, 1812])


def turning(length, wanted):
    sample = Sample(NAME, 64, 0, 0, 128, False, (2, 0, length), [0] * length)
    return [place(sample, at) for at in range(7)], wanted


NOTE = (49, 1, 0)
NUMBERS = {
    "periods": periods(),
    "frequencies": frequencies(),
    "carry": frames([3340] + [3341] * 10 + [3340, 3341], song(bpm=33), 44100),
    "portamento up": list_after([4608, 4600, 4592, 4584, 4576, 4568], period, song({0: (*NOTE, 1, 2)})),
    "vibrato": list_after([4608, 4608, 4632, 4653, 4666, 4671], heard, song({0: (*NOTE, 4, 0x48)})),
    "arpeggio": list_after([4608, 4352, 3840] * 2, heard, song({0: (*NOTE, 0, 0x4C)})),
    "arpeggio of the Amiga": list_after([1712, 1358, 856] * 2, heard, song({0: (*NOTE, 0, 0x4C)}, linear=False)),
    "tone portamento": list_after([4608, 4480, 4352, 4224, 4096, 3968, 3968, 3968], period, song({1: (61, 0, 0, 3, 0x20)}), first=6),
    "glissando": list_after([4608, 4608, 4544, 4544, 4480, 4480, 4448, 4416, 4416, 4352, 4352, 4288], heard,
                            song({0: (*NOTE, 14, 0x31), 1: (61, 0, 0, 3, 8), 2: (0, 0, 0, 3, 0)}), first=6),
    "tremor": list_after([0, 0, 1, 1, 0, 0, 1, 1], muted, song({0: (*NOTE, 29, 0x11)}, tempo=8)),
    "retrigger": list_after([64, 64, 42, 42, 28, 28, 18, 18], volume, song({0: (*NOTE, 27, 0x62)}, tempo=8)),
    "loop of rows": rows([0, 1, 2, 1, 2, 1, 2, 3], song({1: (0, 0, 0, 14, 0x60), 2: (0, 0, 0, 14, 0x62)})),
    "delay": places([(0, 0, tick) for tick in range(18)] + [(0, 1, 0)], song({0: (*NOTE, 14, 0xE2)})),
    "break": places([(0, 0, tick) for tick in range(6)] + [(1, 12, 0)], song({0: (*NOTE, 13, 0x12)}, orders=(0, 0))),
    "break at the end": places([(0, 0, tick) for tick in range(6)] + [(0, 0, 0)], song({0: (*NOTE, 13, 0x12)})),
    "ping-pong of 1": turning(1, [0] * 7),
    "ping-pong of 2": turning(2, [0, 1, 0, 1, 0, 1, 0]),
    "ping-pong of 3": turning(3, [0, 1, 2, 1, 0, 1, 2]),
    "volume slide": loud([2048, 1920, 1792, 1664, 1536, 1408], song({0: (*NOTE, 10, 4)}, loop=LOOP)),
    "envelope": loud([2048, 1536, 1024, 512, 0, 0], song(loop=LOOP, volume=points((0, 64), (4, 0)))),
    "fading": loud([2048] * 7 + [1024, 0, 0], song({1: (97, 0, 0, 0, 0)}, loop=LOOP, volume=points((0, 64)), fadeout=16384)),
}

if __name__ == "__main__":
    wrong = [f"{name}: {found} and not {wanted}" for name, (found, wanted) in NUMBERS.items() if found != wanted]
    print("\n".join(wrong) or f"the slow replayer gives the numbers of its page: {len(NUMBERS)} of them")
    sys.exit(1 if wrong else 0)
