"""The rules of a row on one channel, by docs/SOUND.md; slow_replay.py plays by them.

Written apart from the program. Numbers in comments are those of the page's rules.
"""

SINE = [0, 24, 49, 74, 97, 120, 141, 161, 180, 197, 212, 224, 235, 244, 250, 253, 255]
OCTAVE = [856, 808, 762, 720, 678, 640, 604, 570, 538, 508, 480, 453]
MEMORIES = ["1", "2", "9", "A", "E1", "E2", "EA", "EB", "H", "P", "Rx", "Ry", "T", "X1", "X2"]
DIGITS = "0123456789ABCDEFGHIJKLMNOPQRSTUVWXYZ"


def within(least, value, most):
    return max(least, min(value, most))


def signed_size(sign, size):
    return size if sign >= 0 else -size


def linear_period(played, finetune):
    return 7680 - 64 * played - finetune // 2


def amiga_at(played):
    return 28992 if played == -1 else 32 * OCTAVE[played % 12] // 2 ** (played // 12)


def amiga_period(played, finetune):
    here = amiga_at(played)
    if finetune >= 0:
        return here - (here - amiga_at(played + 1)) * finetune // 128
    return here + (amiga_at(played - 1) - here) * -finetune // 128


def wave(kind, position):  # 27
    if kind == 0:
        place = position % 32
        size = SINE[place] if place <= 16 else SINE[32 - place]
        return size if position < 32 else -size
    if kind == 1:
        return 255 - 8 * position
    if kind == 2:
        return 255 if position < 32 else -255
    return 8 * position - 255


def name_of(cell):
    """The effect as trackers write it, with the high digit of the parameter behind E and X."""
    effect, parameter = cell[3:]
    if effect >= len(DIGITS):
        return ""
    letter = DIGITS[effect]
    return letter + DIGITS[parameter >> 4] if letter in "EX" else letter


def is_on(envelope):  # 37
    return envelope.flags & 1 == 1 and envelope.count != 0


class Voice:
    """A sample that sounds: the sample itself, the place in it, and what it adds to each side."""

    def __init__(self, sample, position):
        self.sample = sample
        self.position = position << 32
        self.step = self.left = self.right = 0
        self.last = False


class Channel:
    def __init__(self):
        self.cell = (0, 0, 0, 0, 0)
        self.instrument = self.volume = self.period = self.target = 0
        self.panning = 128
        self.vibrato = Swing(32)
        self.tremolo = Swing(64)
        self.tone_speed = self.fade = 0
        self.glissando = self.released = False
        self.volume_position = self.panning_position = self.auto_position = self.auto_age = 0
        self.retrigger = self.tremor = self.loop_row = self.loop_count = 0
        self.memory = dict.fromkeys(MEMORIES, 0)
        self.voice = None
        self.clear_heard()

    def clear_heard(self):  # 9
        self.arpeggio = self.vibrato_offset = self.tremolo_offset = 0
        self.glides = self.muted = False

    # ---- the row start

    def row_start(self, play, cell):
        self.cell = cell
        if self.delay_of_note():
            return
        self.remember()
        self.instrument_and_note(play)
        rule = AT_ONCE.get(name_of(cell))
        if rule:
            rule(self, play, *self.parameter())

    def delay_of_note(self):
        """The tick of a delayed note, or 0."""
        return self.cell[4] % 16 if name_of(self.cell) == "ED" else 0

    def remember(self):  # 15
        name, parameter = name_of(self.cell), self.cell[4]
        parts = {name: parameter}
        if name in ("5", "6"):
            parts = {"A": parameter}
        elif name[:1] in ("E", "X"):
            parts = {name: parameter % 16}
        elif name == "R":
            parts = {"Rx": parameter >> 4, "Ry": parameter % 16}
        for part, value in parts.items():
            if part in self.memory and value:
                self.memory[part] = value

    def parameter(self):
        """The parameter and its digits."""
        return self.cell[4], self.cell[4] >> 4, self.cell[4] % 16

    def instrument_and_note(self, play):  # 14, 16 to 19
        note, instrument, volume = self.cell[:3]
        if instrument:
            self.instrument = instrument
        began = False
        if note == 97:
            self.key_off(play)
        elif note and self.voice and (name_of(self.cell) in ("3", "5") or volume >= 0xF0):
            self.aim(play, note)
        elif note:
            began = self.start(play, note)
        if began or (instrument and note != 97):
            self.begin_anew()
        if instrument and note != 97 and self.voice:
            self.volume, self.panning = self.voice.sample.volume, self.voice.sample.panning
        rule = VOLUME_AT_ONCE.get(volume >> 4)
        if 0x10 <= volume <= 0x50:
            self.volume = volume - 0x10
        elif rule:
            rule(self, volume % 16)

    def begin_anew(self):  # 18
        self.released, self.fade = False, 32768
        self.volume_position = self.panning_position = self.auto_position = self.auto_age = 0

    def key_off(self, play):  # 17
        self.released = True
        instrument = play.instrument(self.instrument)
        if not (instrument and is_on(instrument.volume)):
            self.volume = 0

    def aim(self, play, note):
        played = note - 1 + self.voice.sample.relative
        if 0 <= played <= 118:
            self.target = play.period(played, self.voice.sample.finetune)

    def start(self, play, note):
        """Whether a voice began."""
        self.voice = None
        sample = play.sample(self.instrument, note - 1)
        if sample is None:
            return False
        name, low = name_of(self.cell), self.cell[4] % 16
        first = 256 * self.memory["9"] if name == "9" else 0
        finetune = 16 * low - 128 if name == "E5" else sample.finetune
        played = note - 1 + sample.relative
        if first >= len(sample.frames) or not 0 <= played <= 118:
            return False
        self.voice = Voice(sample, first)
        self.period = self.target = play.period(played, finetune)
        self.vibrato.restart()
        self.tremolo.restart()
        self.retrigger = self.tremor = 0
        return True

    # ---- the later ticks

    def later(self, play, tick):
        volume = self.cell[2]
        rule = VOLUME_LATER.get(volume >> 4)
        if rule:
            rule(self, volume % 16)
        if self.delay_of_note() == tick:
            self.instrument_and_note(play)
        rule = LATER.get(name_of(self.cell))
        if rule:
            rule(self, play, tick, *self.parameter())

    # ---- what rules do

    def louder(self, by):
        self.volume = within(0, self.volume + by, 64)

    def pan_to(self, panning):
        self.panning = within(0, panning, 255)

    def slide(self, by):  # 4
        if self.period:
            self.period = within(1, self.period + by, 31999)

    def slide_volume(self):
        self.louder(slide_of(self.memory["A"]))

    def tone_portamento(self):  # 23
        self.glides = True
        if self.period and self.target:
            most = 4 * self.tone_speed
            self.slide(within(-most, self.target - self.period, most))

    def swing_pitch(self):  # 25
        self.vibrato_offset = self.vibrato.next()

    def swing_volume(self):  # 26
        self.tremolo_offset = self.tremolo.next()

    def from_the_start(self):
        if self.voice:
            self.voice.position = 0

    def retrigger_now(self):  # 29
        self.retrigger = min(255, self.retrigger + 1)
        if self.memory["Ry"] and self.retrigger >= self.memory["Ry"]:
            self.retrigger = 0
            self.from_the_start()
            self.volume = within(0, retriggered(self.memory["Rx"], self.volume), 64)

    def tremble(self, tick):  # 30
        high, low = divmod(self.memory["T"], 16)
        if tick:
            self.tremor = (self.tremor + 1) % (high + low + 2)
        self.muted = self.tremor > high

    def loop_rows(self, control, count, channel):  # 28
        if count == 0:
            self.loop_row = control.row
            return
        self.loop_count = self.loop_count - 1 if self.loop_count else count
        if self.loop_count:
            control.back = channel


class Swing:
    """A vibrato or a tremolo."""

    def __init__(self, part):
        self.part = part
        self.position = self.kind = self.speed = self.depth = 0

    def restart(self):
        if self.kind < 4:
            self.position = 0

    def set(self, speed, depth):
        self.speed, self.depth = speed or self.speed, depth or self.depth

    def next(self):
        now = wave(min(2, self.kind % 4), self.position)
        self.position = (self.position + self.speed) % 64
        return signed_size(now, abs(now) * self.depth // self.part)


def slide_of(parameter):
    """How far a slide of two digits goes."""
    return parameter >> 4 or -(parameter % 16)


def retriggered(kind, volume):
    return [volume, volume - 1, volume - 2, volume - 4, volume - 8, volume - 16, 2 * volume // 3, volume // 2,
            volume, volume + 1, volume + 2, volume + 4, volume + 8, volume + 16, 3 * volume // 2, 2 * volume][kind]


# ---- the tables: what each byte does to a channel `c`

VOLUME_AT_ONCE = {
    0x8: lambda c, y: c.louder(-y),
    0x9: lambda c, y: c.louder(y),
    0xA: lambda c, y: c.vibrato.set(y, 0),
    0xB: lambda c, y: c.vibrato.set(0, y),
    0xC: lambda c, y: c.pan_to(16 * y),
    0xF: lambda c, y: setattr(c, "tone_speed", 16 * y or c.tone_speed),
}

VOLUME_LATER = {
    0x6: lambda c, y: c.louder(-y),
    0x7: lambda c, y: c.louder(y),
    0xB: lambda c, y: c.swing_pitch(),
    0xD: lambda c, y: c.pan_to(c.panning - y),
    0xE: lambda c, y: c.pan_to(c.panning + y),
    0xF: lambda c, y: c.tone_portamento(),
}

AT_ONCE = {
    "3": lambda c, play, p, x, y: setattr(c, "tone_speed", p or c.tone_speed),
    "4": lambda c, play, p, x, y: c.vibrato.set(x, y),
    "7": lambda c, play, p, x, y: c.tremolo.set(x, y),
    "8": lambda c, play, p, x, y: c.pan_to(p),
    "B": lambda c, play, p, x, y: setattr(play.control, "jump", p),
    "C": lambda c, play, p, x, y: setattr(c, "volume", min(64, p)),
    "D": lambda c, play, p, x, y: setattr(play.control, "to_row", 10 * x + y if 10 * x + y <= 63 else 0),
    "E1": lambda c, play, p, x, y: c.slide(-4 * c.memory["E1"]),
    "E2": lambda c, play, p, x, y: c.slide(4 * c.memory["E2"]),
    "E3": lambda c, play, p, x, y: setattr(c, "glissando", y != 0),
    "E4": lambda c, play, p, x, y: setattr(c.vibrato, "kind", y % 8),
    "E6": lambda c, play, p, x, y: c.loop_rows(play.control, y, play.channels.index(c)),
    "E7": lambda c, play, p, x, y: setattr(c.tremolo, "kind", y % 8),
    "EA": lambda c, play, p, x, y: c.louder(c.memory["EA"]),
    "EB": lambda c, play, p, x, y: c.louder(-c.memory["EB"]),
    "EC": lambda c, play, p, x, y: setattr(c, "volume", c.volume if y else 0),
    "EE": lambda c, play, p, x, y: setattr(play.control, "delay", y),
    "F": lambda c, play, p, x, y: play.control.set_time(p),
    "G": lambda c, play, p, x, y: setattr(play.control, "volume", min(64, p)),
    "K": lambda c, play, p, x, y: p or c.key_off(play),
    "L": lambda c, play, p, x, y: (setattr(c, "volume_position", p), setattr(c, "panning_position", p)),
    "T": lambda c, play, p, x, y: c.tremble(0),
    "X1": lambda c, play, p, x, y: c.slide(-c.memory["X1"]),
    "X2": lambda c, play, p, x, y: c.slide(c.memory["X2"]),
}

LATER = {
    "0": lambda c, play, u, p, x, y: setattr(c, "arpeggio", (0, x, y)[u % 3]),
    "1": lambda c, play, u, p, x, y: c.slide(-4 * c.memory["1"]),
    "2": lambda c, play, u, p, x, y: c.slide(4 * c.memory["2"]),
    "3": lambda c, play, u, p, x, y: c.tone_portamento(),
    "4": lambda c, play, u, p, x, y: c.swing_pitch(),
    "5": lambda c, play, u, p, x, y: (c.tone_portamento(), c.slide_volume()),
    "6": lambda c, play, u, p, x, y: (c.swing_pitch(), c.slide_volume()),
    "7": lambda c, play, u, p, x, y: c.swing_volume(),
    "A": lambda c, play, u, p, x, y: c.slide_volume(),
    "E9": lambda c, play, u, p, x, y: y and u % y == 0 and c.from_the_start(),
    "EC": lambda c, play, u, p, x, y: setattr(c, "volume", 0 if u == y else c.volume),
    "H": lambda c, play, u, p, x, y: play.control.louder(slide_of(c.memory["H"])),
    "K": lambda c, play, u, p, x, y: u == p and c.key_off(play),
    "P": lambda c, play, u, p, x, y: c.pan_to(c.panning + slide_of(c.memory["P"])),
    "R": lambda c, play, u, p, x, y: c.retrigger_now(),
    "T": lambda c, play, u, p, x, y: c.tremble(u),
}
