#!/usr/bin/env python3
"""A slow reading of docs/EDITS.md and docs/TEXTS.md, written from the pages, apart from the program.

    slow_edits.py script SONG SCRIPT    prints each line's answer and each edit's, and then the song's canonical bytes
    slow_edits.py ledger LEDGER         prints the ledger as it is told in form 2, or its first line that can't stand there

The lines of a script are what its LFs separate, so behind a last LF there is one more, without bytes. A line is answered by
`skip`, by `bad` and a place, or by `batch` with its time (`-` for none) and its edits. Each edit of it is then done by itself, on the
song that those before it leave, whatever became of them: `done`, or `fault` with its numbers.
"""
import re
import sys

from slow_reader import EMPTY, Envelope, Instrument, Pattern, Sample, read
from slow_writer import written

LONGEST_LINE = 4096
MOST_EDITS = 16
MOST_FRAMES = 3_932_160
U8, U16, U32, U64 = (0, 2**8 - 1), (0, 2**16 - 1), (0, 2**32 - 1), (0, 2**64 - 1)
I8, I16, I64 = (-2**7, 2**7 - 1), (-2**15, 2**15 - 1), (-2**63, 2**63 - 1)
TITLE, NAME, FRAMES = "title", "name", "frames"

BLOCK = [U8, U16, U8, U16, U8]
SAMPLE = [U8, U8]
RANGE = [*SAMPLE, U32, U32]
ARGUMENTS = {
    "cell": [U8, U16, U8, U8, U8, U8, U8, U8],
    "rows": [U8, U16],
    "insrow": [U8, U16],
    "delrow": [U8, U16],
    "clear": BLOCK,
    "transpose": [*BLOCK, I8],
    "copy": [*BLOCK, U8, U16, U8],
    "order": [U16, U8],
    "insorder": [U16, U8],
    "delorder": [U16],
    "restart": [U16],
    "tempo": [U8],
    "bpm": [U8],
    "title": [TITLE],
    "newpat": [U16],
    "delpat": [],
    "newins": [],
    "clearins": [U8],
    "insname": [U8, NAME],
    "map": [U8, U8, U8],
    "env": [U8] * 7,
    "point": [U8, U8, U8, U16, U8],
    "vib": [U8] * 5,
    "fade": [U8, U16],
    "newsmp": [U8],
    "delsmp": [U8],
    "smpname": [*SAMPLE, NAME],
    "smp": [*SAMPLE, U8, I8, I8, U8],
    "loop": [*SAMPLE, U8, U32, U32],
    "cut": RANGE,
    "paste": [*SAMPLE, U32, FRAMES],
    "reverse": RANGE,
    "scale": [*RANGE, I16, U16],
    "bits": [*SAMPLE, U8],
}


# ---- words


class Wrong(Exception):
    """A word or line that can't stand where it stands; for a line of a script its place."""


def number(word, least, most):
    if not re.fullmatch(rb"0|-?[1-9][0-9]*", word):
        raise Wrong
    # no range has a number of more than 20 digits
    if len(word) > 20 or not least <= int(word) <= most:
        raise Wrong
    return int(word)


def hexadecimal(word, size, least, most):
    """Numbers of so many digits each, so many of them."""
    count, rest = divmod(len(word), size)
    if rest or not least <= count <= most or not re.fullmatch(rb"[0-9a-f]*", word):
        raise Wrong
    return [int(word[size * at:size * at + size], 16) for at in range(count)]


def argument(word, kind, whole_names=False):
    if kind == FRAMES:
        return [frame - 65536 if frame >= 32768 else frame for frame in hexadecimal(word, 4, 1, 256)]
    if kind in (TITLE, NAME):
        size = 20 if kind == TITLE else 22
        return bytes(hexadecimal(word, 2, size if whole_names else 1, size)).ljust(size, b"\0")
    return number(word, *kind)


def printed_argument(value):
    if isinstance(value, bytes):
        return value.hex()
    if isinstance(value, list):
        return "".join(f"{frame % 65536:04x}" for frame in value)
    return str(value)


def printed(edit):
    name, *values = edit
    return " ".join([name, *map(printed_argument, values)])


def printed_batch(edits):
    return " ; ".join(map(printed, edits))


# ---- a line of a script


class Line:
    """The words of a line, and those that aren't read yet."""

    def __init__(self, line):
        self.end = len(line)
        self.words = [(found.start(), found.group()) for found in re.finditer(rb"[^ ]+", line)]

    def next(self, meaning):
        """The next word's meaning; or the place is told where it has none, or is missing."""
        if not self.words:
            raise Wrong(self.end)
        at, word = self.words[0]
        try:
            value = meaning(word)
        except Wrong:
            raise Wrong(at) from None
        self.words.pop(0)
        return value

    def time(self):
        if self.words and self.words[0][1] == b"at":
            self.words.pop(0)
            return self.next(lambda word: number(word, *U32))
        return None

    def edit(self):
        name = self.next(name_of)
        return (name, *[self.next(lambda word, kind=kind: argument(word, kind)) for kind in ARGUMENTS[name]])

    def edits(self):
        edits = [self.edit()]
        while self.words:
            if len(edits) == MOST_EDITS:
                raise Wrong(self.words[0][0])
            self.next(lambda word: exactly(word, b";"))
            edits.append(self.edit())
        return edits


def name_of(word):
    name = word.decode("latin-1")
    if name not in ARGUMENTS:
        raise Wrong
    return name


def exactly(word, wanted):
    if word != wanted:
        raise Wrong


def batch(line):
    """None where the line says nothing, else its time or none, and its edits; or the place of a wrong line is raised."""
    if len(line) > LONGEST_LINE:
        raise Wrong(LONGEST_LINE)
    if line[:1] == b"#" or not line.strip(b" "):
        return None
    words = Line(line)
    return words.time(), words.edits()


# ---- what is refused


class Fault(Exception):
    """The first cause that holds: the fault's number, and its own numbers."""


NO_PATTERN, NO_ROW, NO_CHANNEL, NO_ORDER, NO_INSTRUMENT, OUT_OF_RANGE, TOO_MANY, NO_SAMPLE, CUT = range(1, 10)
(NOTE, ROWS, SIZE, TEMPO, BPM, COUNT, INDEX, FLAGS, LEVEL, KIND, DEPTH, RATE, MAP, DIVISOR, BITS, FRAME, LENGTH,
 WHICH) = range(1, 19)
ORDERS, PATTERNS, INSTRUMENTS, SAMPLES, SAMPLE_FRAMES = range(1, 6)


def refuse(where, *fault):
    if where:
        raise Fault(*fault)


def in_range(field, found, least, most):
    refuse(not least <= found <= most, OUT_OF_RANGE, field, found)


def pattern(song, p):
    refuse(p >= len(song.patterns), NO_PATTERN, p)
    return song.patterns[p]


def row(song, p, r):
    found = pattern(song, p)
    refuse(r >= found.rows, NO_ROW, r, found.rows)
    return found


def block(song, p, r, c, h, w):
    found = pattern(song, p)
    refuse(h == 0 or w == 0, OUT_OF_RANGE, SIZE, 0)
    refuse(r + h > found.rows, NO_ROW, r + h - 1, found.rows)
    refuse(c + w > song.channels, NO_CHANNEL, c + w - 1)
    return found


def places(song, r, c, h, w):
    """Where the cells of a block stand, row by row."""
    return [(r + down) * song.channels + c + right for down in range(h) for right in range(w)]


def instrument(song, i):
    refuse(not 1 <= i <= len(song.instruments), NO_INSTRUMENT, i)
    return song.instruments[i - 1]


def with_samples(song, i):
    found = instrument(song, i)
    refuse(not found.samples, NO_SAMPLE, i, 0)
    return found


def sample(song, i, s):
    found = instrument(song, i)
    refuse(s >= len(found.samples), NO_SAMPLE, i, s)
    return found.samples[s]


def frames(song, i, s, start, end):
    found = sample(song, i, s)
    refuse(start > end or end > len(found.frames), CUT, start, end, len(found.frames))
    return found


# ---- edits of patterns


def cell(song, p, r, c, note, *others):
    found = row(song, p, r)
    refuse(c >= song.channels, NO_CHANNEL, c)
    in_range(NOTE, note, 0, 97)
    found.cells[r * song.channels + c] = (note, *others)


def rows(song, p, n):
    found = pattern(song, p)
    in_range(ROWS, n, 1, 256)
    size = n * song.channels
    found.cells = (found.cells + [EMPTY] * size)[:size]
    found.rows = n


def insrow(song, p, r):
    found = row(song, p, r)
    at = r * song.channels
    found.cells = (found.cells[:at] + [EMPTY] * song.channels + found.cells[at:])[:len(found.cells)]


def delrow(song, p, r):
    found = row(song, p, r)
    at = r * song.channels
    found.cells = found.cells[:at] + found.cells[at + song.channels:] + [EMPTY] * song.channels


def clear(song, p, r, c, h, w):
    found = block(song, p, r, c, h, w)
    for at in places(song, r, c, h, w):
        found.cells[at] = EMPTY


def transpose(song, p, r, c, h, w, d):
    found = block(song, p, r, c, h, w)
    for at in places(song, r, c, h, w):
        note, *others = found.cells[at]
        if 1 <= note <= 96 and 1 <= note + d <= 96:
            found.cells[at] = (note + d, *others)


def copy(song, p, r, c, h, w, q, to_row, to_channel):
    source = block(song, p, r, c, h, w)
    target = block(song, q, to_row, to_channel, h, w)
    copied = [source.cells[at] for at in places(song, r, c, h, w)]
    for at, value in zip(places(song, to_row, to_channel, h, w), copied):
        target.cells[at] = value


# ---- edits of the song


def order(song, pos, p):
    refuse(pos >= len(song.orders), NO_ORDER, pos)
    song.orders[pos] = p


def insorder(song, pos, p):
    refuse(pos > len(song.orders), NO_ORDER, pos)
    refuse(len(song.orders) == 256, TOO_MANY, ORDERS, 257)
    song.orders.insert(pos, p)


def delorder(song, pos):
    refuse(pos >= len(song.orders), NO_ORDER, pos)
    refuse(len(song.orders) == 1, OUT_OF_RANGE, LENGTH, 0)
    del song.orders[pos]
    if song.restart >= len(song.orders):
        song.restart = 0


def restart(song, pos):
    refuse(pos >= len(song.orders), NO_ORDER, pos)
    song.restart = pos


def tempo(song, n):
    in_range(TEMPO, n, 1, 31)
    song.tempo = n


def bpm(song, n):
    in_range(BPM, n, 32, 255)
    song.bpm = n


def title(song, name):
    song.name = name


def newpat(song, n):
    refuse(len(song.patterns) == 256, TOO_MANY, PATTERNS, 257)
    in_range(ROWS, n, 1, 256)
    song.patterns.append(Pattern(n, [EMPTY] * (n * song.channels)))


def delpat(song):
    refuse(not song.patterns, NO_PATTERN, 0)
    song.patterns.pop()


# ---- edits of instruments


def nothing():
    return Envelope([(0, 0)] * 12, 0, 0, 0, 0, 0)


def bare(name):
    """An instrument that says nothing but its name."""
    return Instrument(name, [0] * 96, nothing(), nothing(), (0, 0, 0, 0), 0, [])


def newins(song):
    refuse(len(song.instruments) == 128, TOO_MANY, INSTRUMENTS, 129)
    song.instruments.append(bare(bytes(22)))


def clearins(song, i):
    instrument(song, i)
    song.instruments[i - 1] = bare(bytes(22))


def insname(song, i, name):
    instrument(song, i).name = name


def set_map(song, i, n, k):
    found = with_samples(song, i)
    in_range(INDEX, n, 0, 95)
    in_range(MAP, k, 0, 15)
    found.map[n] = k


def envelope(song, i, w):
    found = with_samples(song, i)
    in_range(WHICH, w, 0, 1)
    return found.panning if w else found.volume


def env(song, i, w, count, sustain, start, end, flags):
    found = envelope(song, i, w)
    in_range(COUNT, count, 0, 12)
    for index in (sustain, start, end):
        in_range(INDEX, index, 0, 11)
    in_range(FLAGS, flags, 0, 7)
    found.count, found.sustain, found.loop_start, found.loop_end, found.flags = count, sustain, start, end, flags


def point(song, i, w, k, x, y):
    found = envelope(song, i, w)
    in_range(INDEX, k, 0, 11)
    in_range(LEVEL, y, 0, 64)
    found.points[k] = (x, y)


def vib(song, i, kind, sweep, depth, rate):
    found = with_samples(song, i)
    in_range(KIND, kind, 0, 3)
    in_range(DEPTH, depth, 0, 15)
    in_range(RATE, rate, 0, 63)
    found.vibrato = (kind, sweep, depth, rate)


def fade(song, i, n):
    with_samples(song, i).fadeout = n


# ---- edits of samples


def newsmp(song, i):
    found = instrument(song, i)
    refuse(len(found.samples) == 16, TOO_MANY, SAMPLES, 17)
    found.samples.append(Sample(bytes(22), 64, 0, 0, 128, False, (0, 0, 0), []))


def delsmp(song, i):
    found = with_samples(song, i)
    found.samples.pop()
    if not found.samples:
        song.instruments[i - 1] = bare(found.name)


def smpname(song, i, s, name):
    sample(song, i, s).name = name


def smp(song, i, s, volume, fine, relative, panning):
    found = sample(song, i, s)
    in_range(LEVEL, volume, 0, 64)
    found.volume, found.finetune, found.relative, found.panning = volume, fine, relative, panning


def loop(song, i, s, kind, start, length):
    found = sample(song, i, s)
    in_range(KIND, kind, 0, 2)
    if kind == 0:
        found.loop = (0, 0, 0)
        return
    size = len(found.frames)
    refuse(length == 0 or start + length > size, CUT, start, start + length, size)
    found.loop = (kind, start, length)


# ---- edits of frames


def with_loop_inside(found):
    kind, start, length = found.loop
    size = len(found.frames)
    start = min(start, size)
    length = min(length, size - start)
    found.loop = (kind, start, length) if length else (0, 0, 0)


def cut(song, i, s, start, end):
    found = frames(song, i, s, start, end)
    del found.frames[start:end]
    with_loop_inside(found)


def paste(song, i, s, at, pasted):
    found = sample(song, i, s)
    size = len(found.frames)
    refuse(at > size, CUT, at, at, size)
    refuse(size + len(pasted) > MOST_FRAMES, TOO_MANY, SAMPLE_FRAMES, size + len(pasted))
    if not found.wide:
        for frame in pasted:
            in_range(FRAME, frame, *I8)
    found.frames[at:at] = pasted
    with_loop_inside(found)


def reverse(song, i, s, start, end):
    found = frames(song, i, s, start, end)
    found.frames[start:end] = found.frames[start:end][::-1]


def scale(song, i, s, start, end, n, d):
    found = frames(song, i, s, start, end)
    refuse(d == 0, OUT_OF_RANGE, DIVISOR, 0)
    least, most = I16 if found.wide else I8
    found.frames[start:end] = [max(least, min(most, frame * n // d)) for frame in found.frames[start:end]]


def bits(song, i, s, b):
    found = sample(song, i, s)
    refuse(b not in (8, 16), OUT_OF_RANGE, BITS, b)
    if found.wide and b == 8:
        found.frames = [frame // 256 for frame in found.frames]
    elif not found.wide and b == 16:
        found.frames = [frame * 256 for frame in found.frames]
    found.wide = b == 16


DONE_BY = {name: globals()["set_map" if name == "map" else name] for name in ARGUMENTS}


def apply(song, edit):
    """Does an edit on the song in place; or its first cause is raised, and the song is as it was."""
    name, *values = edit
    DONE_BY[name](song, *values)


# ---- answers to a script


def outcome(song, edit):
    try:
        apply(song, edit)
        return "done"
    except Fault as fault:
        return " ".join(["fault", *map(str, fault.args)])


def answers(song, script):
    """The answers to each line and to each edit, which is done on the song."""
    for line in script.split(b"\n"):
        try:
            said = batch(line)
        except Wrong as wrong:
            yield f"bad {wrong.args[0]}"
            continue
        if said is None:
            yield "skip"
            continue
        time, edits = said
        yield f"batch {'-' if time is None else time} {printed_batch(edits)}"
        for edit in edits:
            yield outcome(song, edit)


# ---- ledgers


STATUSES = {1: [0, 5, 8, 9], 2: [0, 5, 8, 9, 10]}
# the numbers of each fault; what a Range found may be below 0
FAULT_NUMBERS = {NO_PATTERN: [U8], NO_ROW: [U32, U16], NO_CHANNEL: [U16], NO_ORDER: [U16], NO_INSTRUMENT: [U8],
                 OUT_OF_RANGE: [U8, I64], TOO_MANY: [U8, U32], NO_SAMPLE: [U8, U8], CUT: [U32, U64, U32]}
# of which kind the line before one of this kind may be
KINDS_BEFORE = {"xmstudio": [""], "play": ["xmstudio"], "c": ["play", "c"], "r": ["play", "c", "r"], "t": ["play", "c", "r", "t"],
                "h": ["play", "c", "r", "t", "h"], "s": ["play", "c", "r", "t", "h"], "end": ["play", "c", "r", "t", "h", "s"]}
ENDINGS = ["malformed", "failed", "limit", "memory"]


class Words:
    """The words of a line of a ledger, from left to right."""

    def __init__(self, line):
        self.words = line.split(b" ")

    def word(self):
        if not self.words:
            raise Wrong
        return self.words.pop(0)

    def numbers(self, *ranges):
        return [number(self.word(), *limits) for limits in ranges]

    def edit(self):
        name = name_of(self.word())
        return (name, *[argument(self.word(), kind, True) for kind in ARGUMENTS[name]])

    def edits(self, form):
        """One edit or more, up to the end of the line."""
        edits = [self.edit()]
        while self.words:
            exactly(self.word(), b";")
            edits.append(self.edit())
        if len(edits) > (1 if form == 1 else MOST_EDITS):
            raise Wrong
        return edits

    def done(self, value=None):
        if self.words:
            raise Wrong
        return value

    def cause(self, form):
        kind = self.word().decode("latin-1")
        if kind == "edit":
            place = 0 if form == 1 else self.numbers(U8)[0]
            fault = self.numbers((1, 9))[0]
            return ("edit", place, fault, *self.numbers(*FAULT_NUMBERS[fault]))
        if kind == "worn":
            return ("worn", *self.numbers(U32))
        if kind == "full":
            return ("full", *self.numbers(U32, U32))
        raise Wrong


# A record is a list of lines, each as its kind and its values; the first is the form that was read.


class LedgerReader:
    """Reads a ledger line by line."""

    def __init__(self):
        self.lines = []
        self.form = None
        self.kind = ""
        self.ticks = 0
        self.hand = -1

    def read(self, line):
        words = Words(line)
        kind = words.word().decode("latin-1")
        if kind not in KINDS_BEFORE or self.kind not in KINDS_BEFORE[kind]:
            raise Wrong
        self.lines.append((kind, *getattr(self, f"{kind}_line")(words)))
        self.kind = kind

    def xmstudio_line(self, words):
        exactly(words.word(), b"ledger")
        [self.form] = words.numbers((1, 2))
        return words.done([self.form])

    def play_line(self, words):
        return self.whole(words, U32, U32, U16, U8)

    def whole(self, words, *ranges):
        values = words.numbers(*ranges)
        return words.done(values)

    def c_line(self, words):
        values = words.numbers(U32, U8, U32)
        return [*values, words.edits(self.form)]

    def r_line(self, words):
        values = words.numbers(U8, U32)
        cause = words.cause(self.form)
        return [*values, cause, words.edits(self.form)]

    def t_line(self, words):
        values = self.whole(words, U32, U32, U16, U16, U16, U32)
        if values[0] != self.ticks:
            raise Wrong
        self.ticks += 1
        return values

    def h_line(self, words):
        [hand] = words.numbers(U8)
        cause = words.word().decode("latin-1")
        if hand <= self.hand or cause not in ENDINGS:
            raise Wrong
        self.hand = hand
        return [hand, cause, *self.whole(words, U32)]

    def s_line(self, words):
        if self.form == 1:
            raise Wrong
        return self.whole(words, U32, U32)

    def end_line(self, words):
        status, ticks = self.whole(words, U8, U32)
        if status not in STATUSES[self.form] or ticks != self.ticks:
            raise Wrong
        return [status, ticks]


def ledger(text):
    """The lines of a ledger as values; or the number of its first line that can't stand there is raised."""
    reader = LedgerReader()
    *lines, rest = text.split(b"\n")
    for count, line in enumerate(lines, 1):
        try:
            reader.read(line)
        except Wrong:
            raise Wrong(min(count, 2**32 - 1)) from None
    if reader.kind != "end" or rest:
        raise Wrong(min(len(lines) + 1, 2**32 - 1))
    return reader.lines


def printed_value(value):
    if isinstance(value, list):
        return printed_batch(value)
    if isinstance(value, tuple):
        return " ".join(map(str, value))
    return str(value)


def printed_line(kind, *values):
    if kind == "xmstudio":
        return "xmstudio ledger 2"
    return " ".join([kind, *map(printed_value, values)])


def printed_ledger(lines):
    """The text of a ledger in form 2."""
    return "".join(printed_line(*line) + "\n" for line in lines)


# ---- the program


def answer_script(song, script):
    song = read(song)
    text = "".join(line + "\n" for line in answers(song, script))
    return text.encode() + written(song)


def answer_ledger(text):
    try:
        return printed_ledger(ledger(text)).encode()
    except Wrong as wrong:
        return f"line {wrong.args[0]}\n".encode()


def bytes_of(path):
    with open(path, "rb") as file:
        return file.read()


if __name__ == "__main__":
    word, *paths = sys.argv[1:]
    answer = answer_script if word == "script" else answer_ledger
    sys.stdout.buffer.write(answer(*map(bytes_of, paths)))
