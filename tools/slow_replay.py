#!/usr/bin/env python3
"""A slow reading of docs/SOUND.md, written apart from the program; slow_reader.py reads the song.

    slow_replay.py SONG RATE SECONDS          writes the WAV file of a song to standard output
    slow_replay.py states SONG RATE TICKS     writes a line for each tick: the state behind it

The second form makes the states of so many ticks without any sound, so that voices stay where they
are and end only where a rule of a row stops them. STATE and CHANNEL name the numbers of a line.
"""
import struct
import sys

from slow_reader import EMPTY, Pattern, read
from slow_rows import MEMORIES, Channel, amiga_period, is_on, linear_period, signed_size, wave, within

TWELFTHS = [65536, 69433, 73562, 77936, 82570, 87480, 92682, 98193, 104032, 110218, 116772, 123715, 131072]

STATE = "order row tick frames position next_row next_tick tempo bpm last_bpm global carry delay".split()
CHANNEL = """instrument volume panning period target vibrato_position vibrato_kind vibrato_speed
    vibrato_depth tremolo_position tremolo_kind tremolo_speed tremolo_depth tone_speed glissando
    released fade retrigger tremor loop_row loop_count arpeggio vibrato_offset tremolo_offset glides
    muted""".split() + ["memory_" + name for name in MEMORIES] + """voice voice_position
    volume_envelope panning_envelope auto_position auto_age step left right last""".split()


class Control:
    """The numbers of the song as a whole."""

    def __init__(self):
        self.position = self.row = self.tick = self.tempo = self.bpm = self.last_bpm = 0
        self.volume = 64
        self.carry = self.delay = 0
        self.jump = self.to_row = self.back = None

    def set_time(self, number):
        if 1 <= number <= 31:
            self.tempo = number
        elif number >= 32:
            self.bpm = number

    def louder(self, by):
        self.volume = within(0, self.volume + by, 64)


class Replay:
    def __init__(self, song, rate):
        self.song = song
        self.rate = rate
        self.control = Control()
        self.channels = [Channel() for _ in range(song.channels)]

    # ---- what channels ask of the song

    def pattern(self):
        """The pattern at the order position; one that isn't stored is 64 empty rows."""
        number = self.song.orders[self.control.position]
        if number < len(self.song.patterns):
            return self.song.patterns[number]
        return Pattern(64, [EMPTY] * (64 * self.song.channels))

    def instrument(self, number):
        return self.song.instruments[number - 1] if 1 <= number <= len(self.song.instruments) else None

    def sample(self, number, note):
        """The sample that an instrument's note map names, or none."""
        instrument = self.instrument(number)
        if instrument is None or instrument.map[note] >= len(instrument.samples):
            return None
        return instrument.samples[instrument.map[note]]

    def period(self, played, finetune):
        return (linear_period if self.song.linear else amiga_period)(played, finetune)

    # ---- a tick

    def tick(self):
        """The state of the next tick; its order, row, tick and frames."""
        control = self.control
        if control.tick == 0:
            self.find_row()
        place = (control.position, control.row, control.tick)
        self.play_row()
        for channel in self.channels:
            if channel.voice:
                self.hear(channel)
        frames = self.count_frames()
        self.find_next()
        return (*place, frames)

    def go_to(self, position, row):  # 13
        self.control.position, self.control.row = position, row
        for channel in self.channels:
            channel.loop_row = channel.loop_count = 0

    def find_row(self):  # 8
        control, song = self.control, self.song
        if control.tempo == 0:
            control.tempo, control.bpm = song.tempo, song.bpm
        if control.position >= len(song.orders):
            self.go_to(song.restart, 0)
        if control.row >= self.pattern().rows:
            after = control.position + 1
            self.go_to(after if after < len(song.orders) else song.restart, 0)

    def play_row(self):  # 9
        control = self.control
        for channel in self.channels:
            channel.clear_heard()
        for number, channel in enumerate(self.channels):
            later = control.tick and control.tick % control.tempo
            if control.tick == 0:
                cells = self.pattern().cells
                channel.row_start(self, cells[control.row * len(self.channels) + number])
            elif later:
                channel.later(self, later)

    def count_frames(self):  # 7
        control = self.control
        carry = control.carry if control.bpm == control.last_bpm else 0
        frames, control.carry = divmod(5 * self.rate + carry, 2 * control.bpm)
        control.last_bpm = control.bpm
        return frames

    def find_next(self):  # 12
        control = self.control
        control.tick += 1
        if control.tick < control.tempo * (1 + control.delay):
            return
        control.tick = control.delay = 0
        if control.back is not None:
            control.row = self.channels[control.back].loop_row
        elif control.jump is not None or control.to_row is not None:
            position = control.position + 1 if control.jump is None else control.jump
            self.go_to(position, control.to_row or 0)
        else:
            control.row += 1
        control.jump = control.to_row = control.back = None

    # ---- what is heard

    def hear(self, channel):
        instrument, voice = self.instrument(channel.instrument), channel.voice
        offset = auto_vibrato(channel, instrument) if instrument else 0
        voice.step = self.frequency(self.heard_period(channel, offset)) * 65536 // self.rate
        volume = 0 if channel.muted else within(0, channel.volume + channel.tremolo_offset, 64)
        envelope, panning = 64, channel.panning
        if instrument and is_on(instrument.volume):
            envelope = envelope_at(instrument.volume, channel.volume_position)
            channel.volume_position = envelope_next(instrument.volume, channel.volume_position, channel.released)
        if instrument and is_on(instrument.panning):
            moved = envelope_at(instrument.panning, channel.panning_position) - 32
            panning = within(0, panning + moved * (128 - abs(panning - 128)) // 32, 255)
            channel.panning_position = envelope_next(instrument.panning, channel.panning_position, channel.released)
        gain = volume * self.control.volume * envelope * channel.fade // 2**17
        voice.left, voice.right = gain * (256 - panning) // 256, gain * panning // 256
        if channel.released:  # 40
            channel.fade = max(0, channel.fade - (instrument.fadeout if instrument else 0))
            voice.last = voice.last or channel.fade == 0

    def heard_period(self, channel, offset):  # 32
        period = channel.period
        if channel.glissando and channel.glides and self.song.linear:
            period = channel.target + 64 * ((period - channel.target + 32) // 64)
        by = channel.arpeggio
        if self.song.linear:
            period -= 64 * by
        elif by < 12:
            period = period * 65536 // TWELFTHS[by]
        else:
            period = period // 2 * 65536 // TWELFTHS[by - 12]
        return within(1, max(1, period) + channel.vibrato_offset + offset, 31999)

    def frequency(self, period):  # 5
        if not self.song.linear:
            return 8363 * 1712 * 65536 // period
        octave, part = divmod(4608 - period, 768)
        s, t = divmod(part, 64)
        power = TWELFTHS[s] + (TWELFTHS[s + 1] - TWELFTHS[s]) * t // 64
        return 8363 * power * 2**octave if octave >= 0 else 8363 * power // 2**-octave

    # ---- the sound of a tick

    def sound(self, count):
        """So many frames of all voices, which then stand behind them or end."""
        voices = [channel.voice for channel in self.channels if channel.voice]
        frames = []
        for _ in range(count):
            left = right = 0
            for voice in voices:
                at = value(voice.sample, voice.position)
                left += at * voice.left >> 18
                right += at * voice.right >> 18
                voice.position += voice.step
            frames.append((within(-32768, left, 32767), within(-32768, right, 32767)))
        for channel in self.channels:
            if channel.voice and is_over(channel.voice):
                channel.voice = None
        return frames

    def state_line(self, place):
        control = self.control
        numbers = [*place, control.position, control.row, control.tick, control.tempo, control.bpm,
                   control.last_bpm, control.volume, control.carry, control.delay]
        for channel in self.channels:
            numbers += channel_numbers(channel)
        return " ".join(str(int(number)) for number in numbers)


def channel_numbers(c):
    swings = [number for swing in (c.vibrato, c.tremolo) for number in (swing.position, swing.kind, swing.speed, swing.depth)]
    voice = [c.voice.step, c.voice.left, c.voice.right, c.voice.last] if c.voice else [0] * 4
    return [c.instrument, c.volume, c.panning, c.period, c.target, *swings, c.tone_speed, c.glissando, c.released,
            c.fade, c.retrigger, c.tremor, c.loop_row, c.loop_count, c.arpeggio, c.vibrato_offset, c.tremolo_offset,
            c.glides, c.muted, *(c.memory[name] for name in MEMORIES), c.voice is not None,
            c.voice.position if c.voice else 0, c.volume_position, c.panning_position, c.auto_position, c.auto_age, *voice]


# ---- envelopes and automatic vibrato


def envelope_at(envelope, at):  # 37
    points = envelope.points[:envelope.count]
    behind = [index for index, point in enumerate(points) if point[0] <= at]
    if not behind:
        return points[0][1]
    x, y = points[behind[-1]]
    if behind[-1] == len(points) - 1:
        return y
    next_x, next_y = points[behind[-1] + 1]
    return y + (next_y - y) * (at - x) // (next_x - x)


def envelope_next(envelope, at, released):  # 39
    points = envelope.points
    if envelope.flags & 2 and not released and at == points[envelope.sustain][0]:
        return at
    if envelope.flags & 4 and at == points[envelope.loop_end][0]:
        return points[envelope.loop_start][0]
    return at if at >= points[envelope.count - 1][0] else at + 1


def auto_vibrato(channel, instrument):
    """The offset, 45 and 46; then position and age go on, 47."""
    kind, sweep, depth, rate = instrument.vibrato
    now = wave((0, 2, 3, 1)[kind], channel.auto_position // 4)
    amplitude = depth if sweep == 0 or channel.auto_age >= sweep else depth * channel.auto_age // sweep
    channel.auto_position = (channel.auto_position + rate) % 256
    channel.auto_age = min(65535, channel.auto_age + 1)
    return signed_size(now, abs(now) * amplitude // 256)


# ---- positions in a sample


def place(sample, at):  # 43
    kind, start, length = sample.loop
    if kind == 0 or at < start + length:
        return at
    if kind == 1:
        return start + (at - start) % length
    turn = max(1, 2 * length - 2)
    behind = (at - start) % turn
    return start + behind if behind < length else start + turn - behind


def frame(sample, at):
    at = place(sample, at)
    if at >= len(sample.frames):
        return 0
    return sample.frames[at] * (1 if sample.wide else 256)


def value(sample, position):  # 34
    at, part = divmod(position, 2**32)
    first, second = frame(sample, at), frame(sample, at + 1)
    return first + (second - first) * part // 2**32


def is_over(voice):
    """Brings the position back into a loop, 44; whether the voice ends, 36 and 40."""
    kind, start, length = voice.sample.loop
    at, part = divmod(voice.position, 2**32)
    if kind and at >= start + length:
        turn = length if kind == 1 else max(1, 2 * length - 2)
        voice.position = (start + (at - start) % turn << 32) + part
    return voice.last or (kind == 0 and at >= len(voice.sample.frames))


# ---- the two commands


def play(song, rate, count):
    replay = Replay(song, rate)
    frames = []
    while len(frames) < count:
        frames += replay.sound(replay.tick()[3])
    return frames[:count]


def states(song, rate, ticks):
    replay = Replay(song, rate)
    return [replay.state_line(replay.tick()) for _ in range(ticks)]


def wav(rate, frames):
    size = 4 * len(frames)
    head = struct.pack("<4sI8sIHHIIHH4sI", b"RIFF", 36 + size, b"WAVEfmt ", 16, 1, 2, rate, 4 * rate, 4, 16, b"data", size)
    return head + b"".join(struct.pack("<hh", *pair) for pair in frames)


def song_of(path):
    with open(path, "rb") as file:
        return read(file.read())


if __name__ == "__main__":
    if sys.argv[1] == "states":
        print("\n".join(states(song_of(sys.argv[2]), int(sys.argv[3]), int(sys.argv[4]))))
    else:
        rate = int(sys.argv[2])
        sys.stdout.buffer.write(wav(rate, play(song_of(sys.argv[1]), rate, rate * int(sys.argv[3]))))
