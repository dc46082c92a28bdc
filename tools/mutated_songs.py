#!/usr/bin/env python3
"""Writes songs in varied spellings, and damaged ones, for docs/FORMAT.md's rules:
mutated_songs.py FOLDER COUNT

Half of the songs are simple, with linear periods, notes and set volumes alone; the others have one
thing more, or all that there is.
Half of all are damaged: cut short, or with changed bytes or fields."""
import pathlib
import sys

from drawn_songs import Draws

# what simple songs don't have
ODDITIES = ["periods", "key off", "volume", "effect", "parameter", "samples", "wide", "loop",
            "volume envelope", "panning envelope", "vibrato"]

# values of fields that are faults, or that leave no room for what follows
BAD_HEADER = {
    "identification": [int.from_bytes(text, "little") for text in (b"extended Module: ", b"Extended nodule: ", b"Extended Module\0 ")],
    "version": [0x0103, 0x0401],
    "header size": [0, 20, 2**32 - 1],
    "song length": [257, 65535],
    "channels": [0, 33],
    "patterns": [257, 65535],
    "instruments": [129, 65535],
}
BAD_PARTS = {
    "pattern header length": [0, 8, 2**31],
    "packing": [1, 255],
    "rows": [255, 257],
    "data size": [1, 2, 7, 65535],
    "instrument size": [28, 29, 240, 2**32 - 1],
    "samples": [17, 256],
}
BAD_SAMPLES = {
    "sample length": [3_932_160, 3_932_161, 7_864_321, 7_864_322, 2**32 - 1],
    "sample type": [0x20, 0x30],
}


class Speller(Draws):
    """Spells one song, field by field. `odd` is what it has that simple songs don't."""

    def __init__(self, number):
        super().__init__(number)
        self.file = bytearray()
        self.fields = {}  # for each name the places and sizes of the fields that bear it
        self.odd = self.pick([], [], [self.pick(*ODDITIES)], ODDITIES)

    def pick(self, *values):
        return values[self.below(len(values))]

    def raw(self, count):
        return bytes(self.below(256) for _ in range(count))

    def number(self, name, size, value):
        self.raw_field(name, value.to_bytes(size, "little"))

    def raw_field(self, name, content):
        self.fields.setdefault(name, []).append((len(self.file), len(content)))
        self.file += content

    # ---- the parts

    def song(self):
        channels = self.pick(1, 2, 5, 8, 32)
        patterns, instruments = self.pick(0, 1, 2, 2, 3, 3, 3, 3), self.pick(0, 1, 1, 1, 2, 2, 3, 3)
        self.header(channels, patterns, instruments)
        for _ in range(patterns):
            self.pattern(channels)
        for _ in range(instruments):
            self.instrument()
        self.file += self.raw(self.pick(0, 0, 1, 40))

    def header(self, channels, patterns, instruments):
        self.raw_field("identification", self.pick(b"Extended Module: ", b"Extended module: "))
        self.raw_field("name", self.raw(20))
        self.number("mark", 1, self.pick(0x1A, 0, 255))
        self.raw_field("tracker", self.raw(20))
        self.number("version", 2, 0x0104)
        length = self.pick(0, 1, 2, 4, 256)
        table = self.pick(256, 256, 1, length + 1, max(1, length - 1), 300)
        self.number("header size", 4, 20 + table)
        self.number("song length", 2, length)
        self.number("restart", 2, self.pick(0, max(0, length - 1), length, 65535))
        self.number("channels", 2, channels)
        self.number("patterns", 2, patterns)
        self.number("instruments", 2, instruments)
        self.number("flags", 2, 2 * self.pick(0, 0, 1, 32767) + (0 if "periods" in self.odd else 1))
        self.number("tempo", 2, self.pick(0, 1, 2, 3, 3, 6, 6, 40000))
        self.number("bpm", 2, self.pick(0, 31, 125, 255, 256, 60000))
        self.raw_field("orders", bytes(self.pick(0, 0, 0, 0, 1, self.below(256)) for _ in range(table)))

    def pattern(self, channels):
        rows, skipped = self.pick(0, 1, 3, 20, 256), self.pick(0, 0, 1, 30)
        cells = [self.cell() for _ in range((rows or 64) * channels)]
        data = b"".join(map(self.spelled, cells)) if self.below(8) else b""
        if data:
            data += self.raw(self.pick(0, 0, 1, 20))
        self.number("pattern header length", 4, 9 + skipped)
        self.number("packing", 1, 0)
        self.number("rows", 2, rows)
        self.number("data size", 2, len(data))
        self.raw_field("skipped of a pattern", self.raw(skipped))
        self.raw_field("data", data)

    def cell(self):
        """Five bytes, which are all 0 in most cells. A note over 97 is none."""
        if self.below(4):
            return (0, 0, 0, 0, 0)
        note = self.pick(1 + self.below(96), 20 + self.below(50), 0, 98 + self.below(158))
        volume = self.pick(0, 0x10 + self.below(65))
        return (97 if self.is_odd("key off") else note, self.pick(0, 1, 1, 1, 2, self.below(256)),
                self.pick(0x0F, 0x51, 0xFF) if self.is_odd("volume") else volume,
                1 + self.below(255) if self.is_odd("effect") else 0,
                1 + self.below(255) if self.is_odd("parameter") else 0)

    def is_odd(self, name):
        """Whether this is one of the cells that have this oddity."""
        return name in self.odd and self.below(8) == 0

    def spelled(self, cell):
        """Whole where it can be, or masked; a mask may announce bytes that are 0."""
        if cell[0] < 0x80 and self.below(2):
            return bytes(cell)
        follows = [value != 0 or self.below(8) == 0 for value in cell]
        mask = 0x80 + 0x20 * self.below(4) + sum(1 << bit for bit in range(5) if follows[bit])
        return bytes([mask] + [value for value, is_there in zip(cell, follows) if is_there])

    def instrument(self):
        samples = self.pick(2, 3, 16) if "samples" in self.odd else self.pick(0, 1, 1, 1, 1, 1)
        size = (241 if samples else 29) + self.pick(0, 1, 22, 40)
        self.number("instrument size", 4, size)
        self.raw_field("instrument name", self.raw(22))
        self.number("instrument type", 1, self.pick(0, 255))
        self.number("samples", 2, samples)
        if not samples:
            self.raw_field("skipped of an instrument", self.raw(size - 29))
            return
        self.rest_of_head(size)
        heads = [self.sample_header() for _ in range(samples)]
        for length in heads:
            self.raw_field("sample data", self.raw(length))

    def rest_of_head(self, size):
        self.number("sample header size", 4, self.pick(40, 0, 2**32 - 1))
        self.raw_field("note map", bytes(self.pick(0, 0, 0, 0, 0, self.below(256)) for _ in range(96)))
        self.raw_field("points", self.raw(96))
        self.raw_field("counts and turns", self.raw(8))
        for envelope in ("volume envelope", "panning envelope"):
            self.number("envelope flags", 1, 2 * self.below(128) + (1 if envelope in self.odd else 0))
        kind, sweep, rate = self.raw(3)
        self.raw_field("vibrato", bytes([kind, sweep, 1 + self.below(255) if "vibrato" in self.odd else 0, rate]))
        self.number("fadeout", 2, self.below(65536))
        self.raw_field("skipped of an instrument", self.raw(size - 241))

    def sample_header(self):
        """Gives the length of the data. A loop without a frame is none, whatever its kind."""
        length = self.pick(0, 1, 5, 300, 2001, 2001, 2001, 2001)
        wide = 16 if "wide" in self.odd else 0
        kind, start, span = self.loop(length)
        self.number("sample length", 4, length)
        self.number("loop start", 4, start)
        self.number("loop length", 4, span)
        self.raw_field("volume and finetune", self.raw(2))
        self.number("sample type", 1, kind + wide + self.pick(0, 0x04, 0x48, 0xCC))
        self.raw_field("panning, relative note and a byte", bytes([self.below(256), self.pick(0, 0, 0, 0, 12, 244, 128), self.below(256)]))
        self.raw_field("sample name", self.raw(22))
        return length

    def loop(self, length):
        start, span = (self.pick(0, 1, self.below(length + 2), 2**32 - 1) for _ in range(2))
        if "loop" in self.odd:
            return 1 + self.below(3), start, span
        return self.pick((0, start, span), (1 + self.below(3), start, 0), (1 + self.below(3), length, span))

    # ---- damage

    def damage(self):
        """One harm or two; the first from the left is the song's fault."""
        for harm in self.pick([self.cut], [self.change_byte], [self.change_field], [self.shorten_data],
                              [self.change_field, self.change_field], [self.change_field, self.cut]):
            harm()

    def some_field(self, names):
        return self.pick(*self.fields[self.pick(*names)])

    def cut(self):
        at, size = self.some_field(list(self.fields))
        del self.file[at + self.below(size + 1):]

    def change_byte(self):
        at, size = self.some_field([name for name, places in self.fields.items() if all(size for _, size in places)])
        self.file[at + self.below(size)] = self.below(256)

    def change_field(self):
        bad = self.pick(BAD_HEADER, BAD_PARTS, BAD_PARTS, BAD_SAMPLES)
        names = [name for name in bad if name in self.fields]
        if names:
            name = self.pick(*names)
            at, size = self.some_field([name])
            self.file[at:at + size] = self.pick(*bad[name]).to_bytes(size, "little")

    def shorten_data(self):
        """A pattern's last cells lack some bytes, where there are any."""
        if "data" in self.fields:
            which = self.below(len(self.fields["data"]))
            at, size = self.fields["data size"][which]
            length = self.fields["data"][which][1]
            self.file[at:at + size] = max(0, length - 1 - self.below(24)).to_bytes(size, "little")


def mutated(number):
    speller = Speller(number)
    speller.song()
    if speller.below(2):
        speller.damage()
    return bytes(speller.file)


if __name__ == "__main__":
    folder = pathlib.Path(sys.argv[1])
    for number in range(int(sys.argv[2])):
        (folder / f"mutated{number}.xm").write_bytes(mutated(number))
