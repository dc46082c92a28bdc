"""The canonical spelling of simple songs, by docs/FORMAT.md."""
import struct

EMPTY = (0, 0, 0, 0, 0)


def header(name, orders, channels, patterns, instruments, tempo=6, bpm=125, tracker=b"xmstudio", restart=0, linear=True):
    """The 336 bytes of a header, with linear or Amiga periods."""
    return (b"Extended Module: " + name.ljust(20, b"\0") + b"\x1a" + tracker.ljust(20, b"\0")
            + struct.pack("<HIHHHHHHHH", 0x0104, 276, len(orders), restart, channels, patterns, instruments, int(linear), tempo, bpm)
            + bytes(orders).ljust(256, b"\0"))


def cell(values):
    """Five bytes where none is 0; else a mask and the bytes that aren't."""
    if all(values):
        return bytes(values)
    mask = sum(1 << bit for bit, value in enumerate(values) if value)
    return bytes([0x80 + mask] + [value for value in values if value])


def pattern(rows, channels, notes):
    """A pattern of `rows` rows. `notes` gives a cell for some pairs of row and channel."""
    packed = b""
    if notes:
        packed = b"".join(cell(notes.get((row, channel), EMPTY)) for row in range(rows) for channel in range(channels))
    return struct.pack("<IBHH", 9, 0, rows, len(packed)) + packed


def instrument(name, frames, volume=64, panning=128, finetune=0, relative=0):
    """An instrument of one sample of 8 bits without a loop."""
    head = struct.pack("<I", 263) + name.ljust(22, b"\0") + struct.pack("<BHI", 0, 1, 40) + bytes(263 - 33)
    sample = struct.pack("<IIIBbBBbB", len(frames), 0, 0, volume, finetune, 0, panning, relative, 0) + name.ljust(22, b"\0")
    deltas = bytes((now - before) % 256 for before, now in zip([0] + frames, frames))
    return head + sample + deltas


def envelope(points):
    """The 48 bytes of the points of an envelope."""
    return b"".join(struct.pack("<HH", x, y) for x, y in points).ljust(48, b"\0")


def voiced(name, frames, volume=64, panning=128, relative=0, wide=False, loop=(0, 0, 0), points=(), sustain=None, pan_points=(),
           vibrato=(0, 0, 0, 0), fadeout=0):
    """An instrument of one sample: its loop is kind, start and length in frames, an envelope is on where it has points, and
    vibrato is kind, sweep, depth and rate."""
    kind, start, length = loop
    size = 2 if wide else 1
    head = struct.pack("<I", 263) + name.ljust(22, b"\0") + struct.pack("<BHI", 0, 1, 40) + bytes(96)
    head += envelope(points) + envelope(pan_points) + bytes([len(points), len(pan_points), sustain or 0, 0, 0, 0, 0, 0])
    head += bytes([(1 if points else 0) + (2 if sustain is not None else 0), 1 if pan_points else 0, *vibrato])
    head += struct.pack("<H", fadeout) + bytes(263 - 241)
    sample = struct.pack("<IIIBbBBbB", len(frames) * size, start * size, length * size, volume, 0, kind + 16 * wide, panning, relative, 0)
    modulus = 65536 if wide else 256
    deltas = [(now - before) % modulus for before, now in zip([0] + list(frames), frames)]
    return head + sample + name.ljust(22, b"\0") + b"".join(delta.to_bytes(size, "little") for delta in deltas)
