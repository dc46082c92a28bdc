#!/usr/bin/env python3
"""Draws songs with scripts, and ledgers, from numbers, for the rules of docs/EDITS.md and docs/TEXTS.md.

    drawn_scripts.py script NUMBER SONG SCRIPT    writes a song and a script of about 40 lines, in all spellings
    drawn_scripts.py ledger NUMBER LEDGER         writes a ledger; two of three are damaged

Most edits of a script name what the song has by then, so that most are done. The others miss by one, or are at a bound.
"""
import sys

from drawn_songs import Draws, drawn, envelope
from slow_edits import (ARGUMENTS, ENDINGS, FAULT_NUMBERS, FRAMES, MOST_FRAMES, NAME, STATUSES, TITLE, U8, U16, U32, Fault, apply, bare,
                        places, printed, printed_ledger)
from slow_reader import EMPTY, Instrument, Pattern, Sample
from slow_writer import written

LONGEST_SHARE = 100  # one song of so many has a sample of almost as many frames as there can be
EMPTYING = ("clearins", "delsmp", "delpat", "newins")  # more rarely, so that most edits find what they name
BLOCK_EDITS = ("clear", "transpose", "copy")
FRAME_EDITS = ("cut", "reverse", "scale")


# ---- songs


def bare_sample(frames, wide=False):
    return Sample(bytes(22), 64, 0, 0, 128, wide, (0, 0, 0), frames)


def filled_instrument(draws, samples):
    """An instrument of so many short samples."""
    curves = [envelope(draws, "all") for _ in range(2)]
    return Instrument(b"full".ljust(22, b"\0"), [15] * 96, *curves, (3, 255, 15, 63), 65535,
                      [bare_sample([draws.signed(8) for _ in range(draws.below(6))]) for _ in range(samples)])


def song_of(number):
    """A drawn song, which now and then is as large as a song can be in one way."""
    song = drawn(number, "all")
    draws = Draws(number * 2**32 + 2**31)
    kind = draws.below(12)
    if kind == 0:
        song.orders = [draws.below(256) for _ in range(draws.of([255, 256]))]
        song.restart = draws.below(len(song.orders))
    elif kind == 1:
        song.patterns = [Pattern(1, [EMPTY] * song.channels) for _ in range(draws.of([0, 255, 256]))]
    elif kind == 2:
        song.instruments += [bare(b"bare".ljust(22, b"\0")) for _ in range(draws.of([127, 128]) - len(song.instruments))]
    elif kind == 3:
        song.instruments.append(filled_instrument(draws, draws.of([15, 16])))
    elif kind == 4:
        song.instruments = []
    if number % LONGEST_SHARE == 7 and len(song.instruments) < 128:
        song.instruments.append(filled_instrument(draws, 1))
        song.instruments[-1].samples.append(bare_sample([5] * (MOST_FRAMES - draws.below(20)), draws.one_in(2)))
    return song


# ---- edits for a song


class Editor(Draws):
    """Draws edits for a song, which it keeps as they leave it."""

    def __init__(self, number):
        super().__init__(number * 2**32 + 2**30)
        self.song = song_of(number)

    def at(self, count, most):
        """A place in so many, mostly."""
        if self.one_in(20) or count < 1:
            return max(0, min(most, self.of([0, count, count, count, count + 1, most])))
        return self.of([0, count - 1, self.below(count), self.below(count), self.below(count)])

    def most(self, least, most, beyond):
        """A number from `least` to `most`, mostly; else one up to `beyond`."""
        if self.one_in(25):
            return self.of([max(0, least - 1), min(beyond, most + 1), beyond])
        return self.of([least, most, least + self.below(most - least + 1), least + self.below(most - least + 1)])

    def pattern(self):
        return self.at(len(self.song.patterns), 255)

    def rows(self, p):
        return self.song.patterns[p].rows if p < len(self.song.patterns) else 64

    def row(self, p):
        return self.at(self.rows(p), 65535)

    def instrument(self):
        """One that has samples, mostly."""
        with_samples = [at for at, one in enumerate(self.song.instruments, 1) if one.samples]
        if with_samples and not self.one_in(5):
            return self.of(with_samples)
        return min(255, 1 + self.at(len(self.song.instruments), 254)) if not self.one_in(30) else 0

    def samples(self, i):
        return self.song.instruments[i - 1].samples if 1 <= i <= len(self.song.instruments) else []

    def sample(self):
        i = self.instrument()
        return i, self.at(len(self.samples(i)), 255)

    def frames(self, i, s):
        samples = self.samples(i)
        return len(samples[s].frames) if s < len(samples) else 3

    def block(self, p):
        """Row, channel, rows and channels."""
        r, c = self.row(p), self.at(self.song.channels, 255)
        h = 1 + self.at(max(1, min(20, self.rows(p) - r)), 65534)
        w = 1 + self.at(max(1, self.song.channels - c), 254)
        return (r, c, 0 if self.one_in(40) else h, 0 if self.one_in(40) else w)

    def span(self, i, s):
        """The first frame and the one behind the last."""
        size = self.frames(i, s)
        one, other = self.at(size + 1, 2**32 - 1), self.at(size + 1, 2**32 - 1)
        return (one, other) if self.one_in(12) else (min(one, other), max(one, other))

    def name(self, most):
        return bytes(self.below(256) for _ in range(1 + self.below(most))).ljust(most, b"\0")

    def pasted(self, bits):
        count = self.of([1, 2, 1 + self.below(20), 256])
        return [self.of([self.signed(bits), -2**(bits - 1), 2**(bits - 1) - 1, 0, -1]) for _ in range(count)]

    def edit(self):
        name = self.of([one for one in ARGUMENTS if one not in EMPTYING or self.one_in(3)])
        kind = name if hasattr(Editor, f"{name}_values") else "plain"
        if name in BLOCK_EDITS:
            kind = "block"
        elif name in FRAME_EDITS:
            kind = "frame"
        values = getattr(self, f"{kind}_values")(name)
        return (name, *(self.wronged(ARGUMENTS[name], values) if values and self.one_in(8) else values))

    def wronged(self, kinds, values):
        """The values, two of them at a bound of their type, so that more than one cause holds."""
        for _ in range(2):
            at = self.below(len(values))
            if isinstance(kinds[at], tuple):
                values[at] = self.of(kinds[at])
        return values

    def plain_values(self, name):
        """The values of edits whose arguments are few."""
        song, i = self.song, self.instrument()
        return {"tempo": lambda: [self.most(1, 31, 255)], "bpm": lambda: [self.most(32, 255, 255)],
                "title": lambda: [self.name(20)], "newpat": lambda: [self.most(1, 256, 65535)],
                "order": lambda: [self.at(len(song.orders), 65535), self.below(256)],
                "insorder": lambda: [self.at(len(song.orders) + 1, 65535), self.below(256)],
                "delorder": lambda: [self.at(len(song.orders), 65535)], "restart": lambda: [self.at(len(song.orders), 65535)],
                "clearins": lambda: [i], "insname": lambda: [i, self.name(22)], "fade": lambda: [i, self.below(65536)],
                "map": lambda: [i, self.at(96, 255), self.at(16, 255)], "newsmp": lambda: [i], "delsmp": lambda: [i],
                "env": lambda: [i, self.at(2, 255), self.at(13, 255), *[self.at(12, 255) for _ in range(3)], self.at(8, 255)],
                "point": lambda: [i, self.at(2, 255), self.at(12, 255), self.below(65536), self.at(65, 255)],
                "vib": lambda: [i, self.at(4, 255), self.below(256), self.at(16, 255), self.at(64, 255)],
                "delpat": list, "newins": list}[name]()

    def cell_values(self, _):
        p = self.pattern()
        return [p, self.row(p), self.at(self.song.channels, 255), self.at(98, 255), *[self.below(256) for _ in range(4)]]

    def rows_values(self, _):
        return [self.pattern(), self.most(1, self.of([4, 64, 256]), 65535)]

    def insrow_values(self, _):
        p = self.pattern()
        return [p, self.row(p)]

    delrow_values = insrow_values

    def block_values(self, name):
        p = self.pattern()
        values = [p, *self.block(p)]
        if name == "transpose":
            values.append(self.semitones(*values))
        elif name == "copy" and self.one_in(2):
            values = self.overlap(p)
        elif name == "copy":
            q = self.of([p, self.pattern()])
            _, _, _, h, w = values
            values += [q, self.at(max(1, self.rows(q) - h + 1), 65535), self.at(max(1, self.song.channels - w + 1), 255)]
        return values

    def overlap(self, p):
        """A copy to a block of the same pattern, a few rows and channels away."""
        down, right = self.below(3), self.below(2)
        rows, channels = max(1, self.rows(p) - down), max(1, self.song.channels - right)
        r, c = self.below(rows), self.below(channels)
        h, w = 1 + self.below(min(20, rows - r)), 1 + self.below(channels - c)
        one, other = (r, c), (r + down, c + right)
        return [p, *one, h, w, p, *other] if self.one_in(2) else [p, *other, h, w, p, *one]

    def semitones(self, p, r, c, h, w):
        """Some that bring a note of the block to a bound, or one over it; or others."""
        cells = self.song.patterns[p].cells if p < len(self.song.patterns) else []
        inside = [at for at in places(self.song, r, c, min(h, 256), min(w, 32)) if at < len(cells)]
        notes = [cells[at][0] for at in inside if 1 <= cells[at][0] <= 96]
        if notes and not self.one_in(3):
            return self.of([0, 1, 96, 97]) - self.of(notes)
        return self.of([-12, 12, 1, -1, self.signed(8), -128, 127])

    def smpname_values(self, _):
        return [*self.sample(), self.name(22)]

    def smp_values(self, _):
        return [*self.sample(), self.at(65, 255), self.signed(8), self.of([-128, 127, self.signed(8)]), self.below(256)]

    def loop_values(self, _):
        i, s = self.sample()
        size = self.frames(i, s)
        start = self.at(max(1, size), 2**32 - 1)
        return [i, s, self.at(3, 255), start, 1 + self.at(max(1, size - start), 2**32 - 2) if not self.one_in(15) else 0]

    def frame_values(self, name):
        i, s = self.sample()
        values = [i, s, *self.span(i, s)]
        if name == "scale":
            values += [self.of([1, -1, 3, self.signed(16), -32768, 32767]), self.of([1, 2, 3, 1 + self.below(65535), self.below(9)])]
        return values

    def paste_values(self, _):
        i, s = self.sample()
        samples = self.samples(i)
        wide = s < len(samples) and samples[s].wide
        return [i, s, self.at(self.frames(i, s) + 1, 2**32 - 1), self.pasted(8 if not wide and not self.one_in(15) else 16)]

    def bits_values(self, _):
        return [*self.sample(), self.of([8, 16]) if not self.one_in(15) else self.below(256)]


# ---- lines in all spellings


class Speller(Editor):
    """Spells lines of edits, most of them right."""

    def short_name(self, word):
        """A name without some of its last zeros."""
        while word.endswith("00") and len(word) > 2 and not self.one_in(30):
            word = word[:-2]
        return word

    def words(self, edit):
        name, *others = printed(edit).split(" ")
        if name in ("title", "insname", "smpname") and not self.one_in(4):
            others[-1] = self.short_name(others[-1])
        return [name, *others]

    def time(self):
        time = self.of([0, self.below(100), self.below(2**32), 2**32 - 1])
        return ["at", str(time if not self.one_in(15) else self.of([2**32, 10**30, -1]))]

    def wrong_word(self, word):
        """A word that can't stand where this one does, mostly."""
        return self.of([word + "\t", word + "\r", "0" + word, "+" + word, "-0", "-" + word, word + ";", word.upper(), word + "0", "256",
                        "65536", "4294967296", "-129", "128", "-32769", "32768", "\0", "\xff", "x", "at", ";", "#", "delpat", word[:-1],
                        word * 50, "12345678901234567890", "\t", "2.5", "1e1", "00", word + "\v"])

    def damaged(self, words):
        at = self.below(len(words))
        return self.of([
            words[:at] + [self.wrong_word(words[at])] + words[at + 1:],
            words[:at] + [self.wrong_word(words[at])] + words[at + 1:],
            words[:at] + words[at + 1:],
            words[:at] + [self.of([";", "0", "x", words[at]])] + words[at:],
            words[:at],
            words + [self.of([";", "0", "#", "x"])],
        ])

    def with_another_byte(self, line):
        at = self.below(len(line) + 1)
        return line[:at] + self.of(["", " ", "0", ";", "\n", "\t", chr(self.below(256))]) + line[at + self.below(2):]

    def edits_of(self, count, done):
        """The words of so many edits. Where they are done, each is for the song that those before it leave."""
        words = []
        for at in range(count):
            edit = self.edit()
            words += [";", *self.words(edit)] if at else self.words(edit)
            if done:
                do(self.song, edit)
        return words

    def spaces(self):
        return " " * (1 if not self.one_in(12) else 1 + self.below(6))

    def spelled(self, words):
        line = "".join(word + self.spaces() for word in words)
        front = self.spaces() if self.one_in(8) else ""
        return front + (line.rstrip(" ") if not self.one_in(8) else line)

    def quiet_line(self):
        return self.of(["", " ", " " * 40, "#", "# a comment", "#tempo 3", "# x ; \t\r", " # a comment", "\t", "\r", "#\xff\0", "##"])

    def lengthened(self, line):
        """The line, with so many spaces in it that it has 4,096 bytes, or one more."""
        more = self.of([4096, 4097, 4095]) - len(line)
        if more <= 0:
            return line
        place = line.find(" ")
        return self.of([line + " " * more, " " * more + line, line[:place] + " " * more + line[place:] if place >= 0 else "#" * more])

    def line(self):
        """A line, in text of Latin 1; the next one is drawn for the song that its edits leave."""
        if self.one_in(8):
            line = self.quiet_line()
            return self.lengthened(line) if self.one_in(6) else line
        count = 1 if self.below(3) else self.of([2, 2, 3, 3, 5, 15, 16, 17])
        damaged = self.one_in(5)
        words = self.edits_of(count, not damaged and count <= 16)
        if self.one_in(4):
            words = self.time() + words
        by_a_byte = self.one_in(4)
        if damaged and not by_a_byte:
            words = self.damaged(words)
        line = self.spelled(words)
        if damaged and by_a_byte:
            line = self.with_another_byte(line)
        return self.lengthened(line) if self.one_in(20) else line


def do(song, edit):
    """Does an edit, unless it is refused."""
    try:
        apply(song, edit)
    except Fault:
        pass


def drawn_script(number):
    """The canonical bytes of a song, and a script."""
    speller = Speller(number)
    song = written(speller.song)
    lines = [speller.line() for _ in range(10 + speller.below(60))]
    script = "\n".join(lines) + ("\n" if not speller.one_in(3) else "")
    return song, script.encode("latin-1")


# ---- ledgers


# numbers at the bounds of a ledger's
BOUNDS = [str(number).encode() for number in (
    0, 1, -1, 6, 10, 15, 16, 18, 19, 255, 256, 65535, 65536, 2**32 - 1, 2**32, -2**31 - 1, 2**63 - 1, 2**63, -2**63, -2**63 - 1,
    2**64 - 1, 2**64)]


class Clerk(Draws):
    """Draws ledgers, as the lines of slow_edits, of batches that need not be possible."""

    def number(self, least, most):
        return self.of([least, most, least + self.below(most - least + 1), max(least, min(most, self.below(10)))])

    def argument(self, kind):
        if kind == FRAMES:
            return [self.signed(16) for _ in range(self.of([1, 1 + self.below(8), 256]))]
        if kind in (TITLE, NAME):
            size = 20 if kind == TITLE else 22
            # now and then one is too short
            return bytes(self.below(256) for _ in range(size - self.one_in(40)))
        return self.number(*kind)

    def edits(self, form):
        names = [self.of(list(ARGUMENTS)) for _ in range(1 if form == 1 else self.of([1, 1, 2, 3, 16]))]
        return [(name, *map(self.argument, ARGUMENTS[name])) for name in names]

    def cause(self):
        kind = self.of(["edit", "edit", "edit", "worn", "full"])
        if kind == "edit":
            fault = 1 + self.below(9)
            return ("edit", self.below(16), fault, *[self.number(*limits) for limits in FAULT_NUMBERS[fault]])
        return (kind, *[self.number(*U32) for _ in range(1 if kind == "worn" else 2)])

    def numbers(self, *limits):
        return [self.number(*limit) for limit in limits]

    def record(self, form):
        ticks = self.of([0, 1, self.below(6), self.below(30)])
        hands = sorted({self.number(*U8) for _ in range(self.below(5))})
        if hands and self.one_in(12):
            hands.append(hands[-1])  # which is one too many
        lines = [("xmstudio", form), ("play", *self.numbers(U32, U32, U16, U8))]
        lines += [("c", *self.numbers(U32, U8, U32), self.edits(form)) for _ in range(self.below(5))]
        lines += [("r", *self.numbers(U8, U32), self.cause(), self.edits(form)) for _ in range(self.below(5))]
        lines += [("t", at, *self.numbers(U32, U16, U16, U16, U32)) for at in range(ticks)]
        lines += [("h", hand, self.of(ENDINGS), self.number(*U32)) for hand in hands]
        if form == 2 and self.one_in(2):
            lines.append(("s", *self.numbers(U32, U32)))
        return lines + [("end", self.of(STATUSES[form]), ticks)]

    def damaged_word(self, word):
        if self.one_in(2):
            return self.of(BOUNDS)
        return self.of([word + b" ", b" " + word, b"0" + word, b"-" + word, b"+" + word, b"", word[:-1], word[:-2], word + b"0",
                        word + b"00", word + b"\t", word + b"\r", word.upper(), b"-0", b";", b"edit", b"worn", b"x"])

    def damaged_line(self, line):
        words = line.split(b" ")
        at = self.below(min(len(words), 12))
        kind = self.below(6)
        if kind < 4:
            words[at] = self.damaged_word(words[at])
        elif kind == 4:
            del words[at]
        else:
            words.insert(at, self.of([b";", b"0", words[at], b""]))
        return b" ".join(words)

    def damaged(self, text):
        """A ledger's text with one thing changed."""
        lines = text.split(b"\n")[:-1]
        at, other = self.below(len(lines)), self.below(len(lines))
        kind = self.below(16)
        if kind < 8:
            lines[at] = self.damaged_line(lines[at])
        elif kind == 8:
            del lines[at]
        elif kind == 9:
            lines.insert(self.of([at, at, other]), lines[at])
        elif kind == 10:
            lines[at], lines[other] = lines[other], lines[at]
        elif kind == 11:
            lines.insert(at, self.of([b"", b"#", b"s 1 2", b"t 0 0 0 0 0 0", b"x" * 5000, b"end 0 0", b"h 3 limit 0"]))
        elif kind == 12:
            lines[0] = b"xmstudio ledger" + self.of([b" 1", b" 2", b" 3", b" 02", b""])
        text = b"".join(line + b"\n" for line in lines)
        place = self.below(len(text) + 1)
        if kind == 13:
            return text[:place]
        if kind == 14:
            return text + self.of([b" ", b"\n", b"x", b"x\n", b"x\ny", b"t 0 0 0 0 0 0\n", lines[at] + b"\n", b"\0"])
        if kind == 15:
            return text[:place] + self.of([bytes([self.below(256)]), b"\n", b"\r", b" "]) + text[place + self.below(2):]
        return text


def printed_in_form_1(lines):
    """The text of a ledger of form 1, whose batches have one edit."""
    text = []
    for line in printed_ledger(lines).split("\n"):
        words = line.split(" ")
        if words[0] == "xmstudio":
            words[2] = "1"
        elif words[0] == "r" and words[3] == "edit":
            del words[4]
        text.append(" ".join(words))
    return "\n".join(text)


def drawn_ledger(number):
    """The bytes of a ledger, or of what was one."""
    clerk = Clerk(number * 2**32 + 2**29)
    form = clerk.of([1, 2, 2])
    lines = clerk.record(form)
    text = (printed_in_form_1(lines) if form == 1 else printed_ledger(lines)).encode()
    return text if clerk.one_in(3) else clerk.damaged(text)


def write(path, content):
    with open(path, "wb") as file:
        file.write(content)


if __name__ == "__main__":
    kind, number, *paths = sys.argv[1:]
    contents = drawn_script(int(number)) if kind == "script" else [drawn_ledger(int(number))]
    for path, content in zip(paths, contents):
        write(path, content)
