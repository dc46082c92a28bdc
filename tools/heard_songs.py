"""Songs that were made by hand, and what must be heard of each: where notes begin and end, effects,
envelopes and loops, loud voices, and songs at every limit of the format.

    heard_songs.py PROGRAM    plays each song by this program, in a folder of its own

Prints what is heard otherwise, and ends with 1 where there is any.
"""
import pathlib
import subprocess
import sys
import tempfile

FAILED = []


def header(orders=(0,), restart=0, tempo=6, bpm=125, channels=1, patterns=1, instruments=1):
    """The header of a song with linear periods: 336 bytes."""
    song = b"Extended Module: " + b"a song to test with " + b"\x1a" + b"made without tracker"
    song += bytes([4, 1, 20, 1, 0, 0, len(orders), 0, restart, 0, channels, 0])
    song += patterns.to_bytes(2, "little") + bytes([instruments, 0, 1, 0, tempo, 0, bpm, 0])
    return (song + bytes(orders)).ljust(336, b"\0")


def pattern(rows):
    """A pattern of one channel, from the note and the instrument of each row."""
    cells = b""
    for note, number in rows:
        fields = [field for field in (note, number) if field]
        cells += bytes([0x80 | (note > 0) | (number > 0) << 1, *fields])
    if not any(note or number for note, number in rows):
        cells = b""
    return bytes([9, 0, 0, 0, 0]) + len(rows).to_bytes(2, "little") + len(cells).to_bytes(2, "little") + cells


def instrument(frames, of=0, relative=0):
    """An instrument of one sample, `of` in its note map: its first frame is 64, the others are 0."""
    part = bytes([7, 1, 0, 0]) + b"one instrument........" + bytes([0, 1, 0, 40, 0, 0, 0])
    part += bytes([of]) * 96 + bytes(134) + frames.to_bytes(4, "little")
    part += bytes([0] * 8 + [64, 0, 0, 128, relative, 0]) + b"one sample............"
    return part + (b"\x40" + bytes(frames - 1) if frames else b"")


def one_note(changes=()):
    """C-4 in the first row of two channels, of a sample of four frames: 782 bytes, with changes."""
    song = header(channels=2) + bytes([9, 0, 0, 0, 0, 64, 0, 130, 0, 0x83, 49, 1]) + b"\x80" * 127
    song += instrument(4)
    for start, end, new in changes:
        song = song[:start] + bytes(new) + song[end:]
    return song


def run(song, *words):
    """The status of the program on a song, and what it wrote."""
    with tempfile.TemporaryDirectory() as folder:
        place = pathlib.Path(folder)
        (place / "song").write_bytes(song)
        done = subprocess.run([PROGRAM, words[0], "song", *words[1:]], cwd=place, capture_output=True)
        wrote = place / words[1]
        return done.returncode, wrote.read_bytes() if wrote.exists() else None, (place / "ledger").exists()


def played(song, rate=8363, seconds=1, *words):
    """The frames of a song, as pairs of numbers."""
    status, wav, ledger = run(song, "step", "wav", "ledger", f"--rate={rate}", f"--seconds={seconds}", *words)
    if status != 0 or wav is None or len(wav) != 44 + 4 * rate * seconds or ledger:
        return None
    numbers = memoryview(wav[44:]).cast("h")
    return list(zip(numbers[::2], numbers[1::2]))


def expect(what, right):
    if not right:
        FAILED.append(what)
        print(f"otherwise: {what}")


# ---- where notes are heard

NONE, NOTE = (0, 0), (49, 1)
SHORT, LONG = (4, 0, 0), (20_000, 0, 0)
FAST = dict(tempo=1, bpm=255)
NINE = [NONE] * 7
THIRTEEN = dict(orders=(0, 1, 2), restart=2, tempo=1, patterns=3)
AFTER = [[NONE] * 13, [NOTE], [NONE] * 256]

# what it is; rate and seconds; the header; patterns; frames, map and relative note of each
# instrument; the frames from which it is heard, and how long
ROWS = [
    ("a second note begins its sample again", 8363, 1, {}, [[NOTE, NOTE] + NINE], [SHORT], [0, 1003], 4),
    ("a sample without frames stops", 8363, 1, dict(instruments=2), [[NOTE, (49, 2)] + NINE], [LONG, (0, 0, 0)], [0], 1003),
    ("a note without a sample stops", 8363, 1, dict(instruments=2), [[NOTE, (49, 2)] + NINE], [LONG, (9, 1, 0)], [0], 1003),
    ("a note that is too high stops", 8363, 1, dict(instruments=2), [[NOTE, (96, 2)] + NINE], [LONG, (9, 0, 127)], [0], 1003),
    ("a note that is too low stops", 8363, 1, dict(instruments=2), [[NOTE, (1, 2)] + NINE], [LONG, (9, 0, 255)], [0], 1003),
    ("an instrument that isn't there stops", 8363, 1, dict(instruments=2), [[NOTE, (49, 3)] + NINE], [LONG, (9, 0, 0)], [0], 1003),
    ("an order without a pattern plays 64 empty rows", 8000, 1, dict(orders=(7, 0), **FAST), [[NOTE, NONE]], [SHORT], [5019], 4),
    ("a pattern of one row, and one of 256", 8000, 3, dict(orders=(1, 0, 2), restart=2, patterns=2, **FAST), [[NOTE], [NONE] * 256], [SHORT], [20_078], 4),
    ("a song goes on at its restart", 8000, 1, dict(orders=(0, 9), restart=1, **FAST), [[NOTE]], [SHORT], [0], 4),
    ("a song goes on at its first order", 8000, 1, dict(orders=(0, 9), **FAST), [[NOTE]], [SHORT], [0, 5098], 4),
    ("the highest BPM has all frames", 8000, 1, FAST, [[NONE]], [SHORT], [], 4),
    ("the lowest BPM has all frames", 8000, 1, dict(tempo=1, bpm=32), [[NONE]], [SHORT], [], 4),
    ("at BPM 130 each 13th tick has 849 frames", 44_100, 1, dict(bpm=130, **THIRTEEN), AFTER, [LONG], [11_025], 33_075),
    ("at BPM 33 tick 13 is cut to 669", 44_100, 1, dict(bpm=33, **THIRTEEN), AFTER, [LONG], [43_431], 669),
    ("the highest BPM at the highest rate", 48_000, 1, FAST, [[NONE]], [LONG], [], 4),
    ("the lowest BPM at the highest rate", 48_000, 1, dict(tempo=1, bpm=32), [[NONE]], [LONG], [], 4),
]


def notes():
    for what, rate, seconds, head, patterns, instruments, starts, long in ROWS:
        song = header(**head) + b"".join(map(pattern, patterns)) + b"".join(instrument(*part) for part in instruments)
        frames = played(song, rate, seconds)
        heard = set()
        for start in starts:
            heard.update(range(start, start + long))
        expect(what, frames is not None and all((frame != (0, 0)) == (at in heard) for at, frame in enumerate(frames)))


# Other bytes at a place of the song of one note, which give so many frames of 2,048. An octave higher
# there are two. A small letter in the identification, another mark after the name, a tempo of 0 that
# is read as 1, no rows that are read as 64, another type of instrument, a volume over 64, a loop
# without a frame, and bytes after the song change nothing.
BYTES = [
    (346, [49], 4),
    (346, [61], 2),
    (9, b"m", 4),
    (37, [0], 4),
    (76, [0], 4),
    (341, [0], 4),
    (501, [7], 4),
    (750, [70], 4),
    (752, [1], 4),
    (782, b"more", 4),
]


def bytes_changed():
    for place, new, many in BYTES:
        frames = played(one_note([(place, place + len(new), new)]))
        wanted = [(2048, 2048)] * many + [(0, 0)] * (8363 - many)
        expect(f"{new} at {place}", frames == wanted)


# ---- effects, envelopes and loops: the numbers at some frames. Ticks have 167 or 168 frames, so frame
# 80 is within tick 0, 247 within tick 1, and so on

LOOPED = [(746, 747, [4]), (752, 753, [1])]
PLAYS = [
    ("a volume slide down by 4",
     LOOPED + [(343, 348, [132, 0, 0x9B, 49, 1, 10, 4])],
     [(80, 2048), (247, 1920), (414, 1792), (581, 1664), (748, 1536), (915, 1408)]),
    ("a volume envelope from 64 to 0 within four ticks",
     LOOPED + [(708, 709, [1]), (700, 701, [2]), (604, 612, [0, 0, 64, 0, 4, 0, 0, 0])],
     [(80, 2048), (247, 1536), (414, 1024), (581, 512), (748, 0), (915, 0)]),
    ("the tick of a key off is full, the next is half, and then the voice is over",
     LOOPED + [(714, 716, [0, 0x40]), (708, 709, [1]), (700, 701, [1]), (604, 608, [0, 0, 64, 0]),
               (343, 350, [131, 0, 0x83, 49, 1, 0x80, 0x81, 97])],
     [(80, 2048), (915, 2048), (1083, 2048), (1250, 1024), (1418, 0), (8362, 0)]),
    ("a ping-pong loop of three frames plays its end once",
     [(738, 739, [3]), (746, 747, [3]), (752, 753, [2]), (778, 782, [64, 0xE0, 0xA0])],
     [(0, 2048), (1, 1024), (2, -2048), (3, 1024), (4, 2048)]),
]


def effects():
    for what, changes, wanted in PLAYS:
        frames = played(one_note(changes))
        expect(what, frames is not None and all(frames[at] == (number, number) for at, number in wanted))


# ---- thirty-two loud voices, whose sum is clipped once: each adds 4,064 or -4,096


def loud():
    for frame, number in ((127, 32_767), (128, -32_768)):
        part = instrument(1)
        for place, new in ((271, 1), (277, 1), (303, frame)):
            part = part[:place] + bytes([new]) + part[place + 1:]
        song = header(channels=32) + bytes([9, 0, 0, 0, 0, 1, 0, 96, 0]) + bytes([0x83, 49, 1]) * 32 + part
        expect(f"the sum of loud voices of {frame} is clipped", played(song) == [(number, number)] * 8363)


# ---- as much of everything as the format has room for


def full_song():
    """256 patterns of 256 rows and 32 channels, and 128 instruments: more than 16 MB. In the first row
    of the last pattern each channel has C-4 at volume 2, of the instruments 97 to 128 in turn. The
    first 5 instruments have the longest sample; every other has as many frames as its number says."""
    song = header(orders=(255,), channels=32, patterns=256, instruments=128)
    song += bytes([9, 0, 0, 0, 0, 0, 1, 0, 0]) * 255
    song += bytes([9, 0, 0, 0, 0, 0, 1]) + (32 * 4 + 255 * 32).to_bytes(2, "little")
    song += b"".join(bytes([0x87, 49, number, 0x12]) for number in range(97, 129)) + b"\x80" * 32 * 255
    return song + b"".join(instrument(3_932_160 if number <= 5 else number) for number in range(1, 129))


def most():
    song = full_song()
    expect("the full song has over 16 MB", len(song) > 16_777_216)
    # its patterns take 256 * 33 segments, its longest samples 5 * 3,845, the others 123 * 3, its
    # instruments 128, and the song 1. A voice at volume 2 adds 64 to each side as long as its sample
    # lasts: 32 of them are heard for 97 frames, and one less with each frame after that
    frames = played(song, 8363, 1, "--segments=28171")
    voices = [64 * min(max(128 - at, 0), 32) for at in range(8363)]
    expect("a song at every limit is played", frames == [(number, number) for number in voices])
    expect("it wants 28,171 segments",
           run(song, "step", "wav", "ledger", "--seconds=1", "--segments=28170") == (7, None, False))
    expect("a song at every limit is copied", run(song, "copy", "out") == (0, song, False))
    status, wav, ledger = run(header(channels=2, patterns=0, instruments=0), "step", "wav", "ledger", "--rate=48000", "--seconds=1200")
    expect("twenty minutes have every frame", (status, len(wav or b""), ledger) == (0, 230_400_044, False))


# ---- a song without patterns


def silent():
    song = header(channels=2, patterns=0, instruments=0)
    status, wav, ledger = run(song, "step", "wav", "ledger", "--rate=8000", "--seconds=1")
    right = status == 0 and wav is not None and len(wav) == 32_044
    right = right and wav[4:8] == bytes([0x24, 0x7D, 0, 0]) and wav[24:32] == bytes([0x40, 0x1F, 0, 0, 0, 0x7D, 0, 0])
    expect("a song without patterns is silent", right and wav[40:44] == bytes([0, 0x7D, 0, 0]) and not any(wav[44:]))


# ---- a usual song, of 681 blocks: 40 patterns of 64 rows take 3 each, 20 instruments of one sample of
# 25,000 frames take 28 each, and the song one


def usual():
    song = header(channels=8, patterns=40, instruments=20)
    song += pattern([NONE] * 64) * 40 + instrument(25_000) * 20
    status, wav, ledger = run(song, "step", "wav", "ledger")
    expect("a usual song is played by all defaults", (status, len(wav or b""), ledger) == (0, 10_584_044, False))
    expect("it wants 681 segments", run(song, "step", "wav", "ledger", "--segments=680") == (7, None, False))
    expect("it is copied", run(song, "copy", "out")[0] == 0)


PROGRAM = str(pathlib.Path(sys.argv[1]).resolve())
for part in (notes, bytes_changed, effects, loud, most, silent, usual):
    part()
if not FAILED:
    print(f"{len(ROWS)} songs of notes, {len(BYTES)} changed bytes, {len(PLAYS)} effects, and songs at every limit are heard as they are written")
sys.exit(1 if FAILED else 0)
