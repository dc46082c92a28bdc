#!/usr/bin/env python3
"""Writes the songs of examples/ anew."""
import math
import pathlib

from canonical import header, instrument, pattern, voiced
from slow_mod import PERIODS

HERE = pathlib.Path(__file__).resolve().parent.parent


def write(path, song):
    target = HERE / path
    target.parent.mkdir(parents=True, exist_ok=True)
    target.write_bytes(song)
    print(path, len(song))


def first():
    """One note of one sample of four frames."""
    song = header(b"", [0], 2, 1, 1, tracker=b"") + pattern(64, 2, {(0, 0): (49, 1, 0, 0, 0)})
    return song + instrument(b"", [64] * 4)


def pluck(length):
    """A string that fades: three partials, as frames of 8 bits."""
    frames = []
    for at in range(length):
        fade = math.exp(-4 * at / length)
        phase = 2 * math.pi * at / 32
        wave = math.sin(phase) + 0.4 * math.sin(2 * phase) + 0.2 * math.sin(3 * phase)
        frames.append(round(75 * fade * wave))
    return frames


def scale():
    """A scale of C major, up on the left and down on the right, and a chord."""
    up = [49, 51, 53, 54, 56, 58, 60, 61]
    notes = {}
    for at, note in enumerate(up):
        notes[(4 * at, 0)] = (note, 1, 0, 0, 0)
        notes[(4 * at, 1)] = (up[-1 - at], 2, 0x30, 0, 0)
    for channel, note in enumerate([49, 53, 56, 61]):
        notes[(40, channel)] = (note, 1 + channel % 2, 0x40, 0, 0)
    song = header(b"scale", [0], 4, 1, 2) + pattern(64, 4, notes)
    return song + instrument(b"string left", pluck(16384), panning=64) + instrument(b"string right", pluck(16384), panning=192)


def noise(length):
    """Noise that fades, of a generator written out."""
    frames, x = [], 1
    for at in range(length):
        x = (1664525 * x + 1013904223) % 2 ** 32
        frames.append(((x >> 24) - 128) * (length - at) // length)
    return frames


def kick(length):
    """A beat whose pitch falls."""
    frames, phase = [], 0.0
    for at in range(length):
        phase += 2 * math.pi * (40 + 160 * math.exp(-12 * at / length)) / 8363
        frames.append(round(110 * math.exp(-4 * at / length) * math.sin(phase)))
    return frames


def wave(length, partials, size):
    """One turn of a wave."""
    total = sum(abs(part) for part in partials)
    return [round(size / total * sum(part * math.sin(2 * math.pi * (n + 1) * at / length) for n, part in enumerate(partials)))
            for at in range(length)]


def harbour_instruments():
    """Bass, strings, a flute, a bell and two drums."""
    half = [round(100 * math.cos(math.pi * at / 16)) for at in range(17)]
    return (voiced(b"bass", wave(64, [1, 0.5, 0.33, 0.25, 0.2], 120), loop=(1, 0, 64),
                   points=[(0, 64), (8, 40), (40, 20)], fadeout=2048)
            + voiced(b"strings", wave(128, [1, 0.4, 0.5, 0.2, 0.2, 0.1], 24000), wide=True, loop=(1, 0, 128), relative=24,
                     points=[(0, 0), (12, 64), (60, 44)], sustain=1, pan_points=[(0, 20), (48, 44), (96, 20)], fadeout=700)
            + voiced(b"flute", half, loop=(2, 0, 17), points=[(0, 30), (4, 64), (24, 50)], sustain=2,
                     vibrato=(0, 24, 6, 20), fadeout=1200)
            + voiced(b"bell", pluck(12000), panning=180, fadeout=0)
            + voiced(b"kick", kick(2600)) + voiced(b"brush", noise(3000), volume=40, panning=150))


# the roots of four bars, and the chords that an arpeggio makes of them
BARS = [(46, 0x37), (42, 0x47), (49, 0x47), (44, 0x47)]


def bars():
    """What all patterns have: bass, strings in arpeggios, and drums."""
    cells = {}
    for bar, (root, chord) in enumerate(BARS):
        for step in (0, 6, 8, 14):
            cells[(16 * bar + step, 0)] = (root - 12, 1, 0, 0, 0)
        cells[(16 * bar + 12, 0)] = (0, 0, 0, 1, 0x04)
        for step in range(16):
            cells[(16 * bar + step, 1)] = (root if step == 0 else 0, 2 if step == 0 else 0, 0x28 if step == 0 else 0, 0, chord)
        cells[(16 * bar + 15, 1)] = (97, 0, 0, 0, chord)
        for step in (0, 8, 10):
            cells[(16 * bar + step, 2)] = (49, 5, 0, 0, 0)
        for step in (4, 12):
            cells[(16 * bar + step, 2)] = (53, 6, 0, 0, 0)
        cells[(16 * bar + 14, 2)] = (61, 6, 0x20, 27, 0x13)
    return cells


# rows, notes and effects of the tune: tone portamento, vibrato by the effect and by the volume byte, slides
TUNE = [(0, 61, 0, 0), (6, 58, 0, 0), (8, 65, 3, 24), (12, 0, 4, 0x48), (16, 61, 0, 0), (22, 66, 3, 16), (26, 0, 6, 0x02),
        (32, 68, 0, 0), (38, 65, 0, 0), (40, 61, 3, 32), (44, 0, 4, 0x46), (48, 63, 0, 0), (54, 59, 3, 20), (58, 0, 10, 0x03)]


def harbour():
    """Four bars, played with a tune, and with bells before a row that is looped: by Amiga periods."""
    quiet, tune, bells = bars(), bars(), bars()
    for row, note, effect, parameter in TUNE:
        tune[(row, 3)] = (note, 3 if note and effect != 3 else 0, 0xb2 if effect == 0 else 0, effect, parameter)
    for at, (root, _) in enumerate(BARS):
        for step, above in ((2, 12), (4, 19), (6, 24), (10, 19)):
            bells[(16 * at + step, 3)] = (root + above, 4, 0xc3 if step % 4 else 0xcc, 10, 0x01)
    bells[(56, 2)] = (0, 0, 0, 14, 0x60)
    bells[(59, 2)] = (49, 5, 0, 14, 0x62)
    bells[(63, 3)] = (0, 0, 0, 13, 0x00)
    song = header(b"harbour", [0, 1, 2, 1], 4, 3, 6, bpm=112, restart=1, linear=False)
    return song + b"".join(pattern(64, 4, cells) for cells in (quiet, tune, bells)) + harbour_instruments()


def mod_cell(note=0, number=0, effect=0, parameter=0):
    """A cell of a ProTracker module; notes count from 37, as those of songs."""
    period = PERIODS[note - 37] if note else 0
    return bytes([number // 16 * 16 + period // 256, period % 256, number % 16 * 16 + effect, parameter])


def mod_sample(name, frames, volume=64, finetune=0, loop=(0, 1)):
    """The header of a sample, whose loop counts pairs of frames, and its data."""
    words = [value.to_bytes(2, "big") for value in (len(frames) // 2, *loop)]
    head = name.ljust(22, b"\0") + words[0] + bytes([finetune % 16, volume]) + words[1] + words[2]
    return head, bytes(frame % 256 for frame in frames)


def lantern_pattern(root, tune):
    """64 rows of bass, an arpeggio, a tune and a beat."""
    cells = {}
    for row in range(0, 64, 8):
        cells[(row, 0)] = mod_cell(root, 1)
        cells[(row, 3)] = mod_cell(37, 3)
        cells[(row + 4, 3)] = mod_cell(49, 3, 12, 0x18)
    for row in range(0, 64, 4):
        cells[(row, 1)] = mod_cell(root + 12 if row % 16 == 0 else 0, 2 if row % 16 == 0 else 0, 0, 0x37)
    for at, note in enumerate(tune):
        cells[(8 * at, 2)] = mod_cell(note, 2, 4, 0x35)
        cells[(8 * at + 4, 2)] = mod_cell(0, 0, 10, 0x02)
    return b"".join(cells.get((row, channel), bytes(4)) for row in range(64) for channel in range(4))


def lantern():
    """A ProTracker module: two patterns, three samples, all else empty."""
    samples = [mod_sample(b"bass", wave(64, [1, 0.5, 0.33], 110), 56, loop=(0, 32)),
               mod_sample(b"reed", wave(32, [1, 0.4, 0.5], 100), 40, finetune=-1, loop=(0, 16)),
               mod_sample(b"beat", kick(2600), 60)]
    nothing = mod_sample(b"", [])
    patterns = lantern_pattern(42, [61, 64, 66, 64, 61, 57, 59, 61]) + lantern_pattern(40, [59, 63, 66, 63, 59, 56, 54, 52])
    return (b"lantern".ljust(20, b"\0") + b"".join(head for head, _ in samples + [nothing] * 28)
            + bytes([4, 127]) + bytes([0, 1, 0, 1]).ljust(128, b"\0") + b"M.K." + patterns + b"".join(data for _, data in samples))


write("examples/silence.xm", header(b"silence", [0], 2, 0, 0))
write("examples/first.xm", first())
write("examples/scale.xm", scale())
write("examples/harbour.xm", harbour())
write("examples/lantern.mod", lantern())
