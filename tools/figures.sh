#!/usr/bin/env bash
# Measures the proved program: instructions a frame and a byte, memory, and time from start to
# finish. It reports, and judges nothing. Wants valgrind and GNU time.
set -u
here=$(cd "$(dirname "$0")/.." && pwd)
work=$(mktemp -d)
trap 'rm -rf "$work"' EXIT
"$here/xmstudio" >/dev/null 2>&1
program=$(ls -t "$here"/out/xmstudio-* | head -n 1)

# count WORDS..: the instructions of a run
count() {
    valgrind --tool=callgrind --callgrind-out-file="$work/callgrind" "$program" "$@" 2>&1 |
        sed -n 's/.*Collected : \([0-9]*\).*/\1/p'
}

# memory WORDS..: the most KiB that a run holds
memory() {
    /usr/bin/time -f %M "$program" "$@" 2>&1
}

silence=$here/examples/silence.xm
frames=$((48000 * 1200))
echo "silence of 1,200 s at 48,000 Hz:"
total=$(count step "$silence" /dev/null ledger --rate=48000 --seconds=1200)
awk -v t="$total" -v f="$frames" 'BEGIN { printf "  %d instructions, %.2f a frame\n", t, t / f }'
/usr/bin/time -f '  %M KiB of memory, %e s' "$program" step "$silence" /dev/null ledger --rate=48000 --seconds=1200
echo "silence of one second:"
/usr/bin/time -f '  %M KiB of memory, %U s in the program, %S s in the system' "$program" step "$silence" "$work/out.wav" ledger --seconds=1

# songs of many voices: python3 and tools/canonical.py make them
cat >"$work/voices.py" <<'PYTHON'
import math
import sys

sys.path.insert(0, sys.argv[1])
from canonical import header, pattern, voiced

channels, rows_apart, note, form, path = int(sys.argv[2]), int(sys.argv[3]), int(sys.argv[4]), sys.argv[5], sys.argv[6]
wide = form == "looped"
frames = [round((25000 if wide else 100) * math.sin(at * 0.05)) for at in range(200000)]
loop = (1, 0, 200000) if wide else (0, 0, 0)
notes = {(row, channel): (note, 1, 0x38, 0, 0) for row in range(0, 256, rows_apart) for channel in range(channels)}
song = header(b"voices", [0, 0, 0], channels, 1, 1) + pattern(256, channels, notes) + voiced(b"sine", frames, wide=wide, loop=loop)
open(path, "wb").write(song)
PYTHON

# voices TEXT CHANNELS NOTE FORM: the instructions a frame and voice of a song of voices on one note
voices() {
    python3 "$work/voices.py" "$here/tools" "$2" 256 "$3" "$4" "$work/voices.xm"
    local short long
    short=$(count step "$work/voices.xm" /dev/null ledger --seconds=2)
    long=$(count step "$work/voices.xm" /dev/null ledger --seconds=6)
    awk -v s="$short" -v l="$long" -v t="$1" -v v="$2" 'BEGIN { printf "  %s: %.2f\n", t, (l - s) / (4 * 44100 * v) }'
    # over a plain module, where `rt run` in crates/ft_bench_play has built that program: ticks of 882 frames
    if [ -x "$plain" ]; then
        short=$(program=$plain count "$work/voices.xm" 44100 100)
        long=$(program=$plain count "$work/voices.xm" 44100 300)
        awk -v s="$short" -v l="$long" -v v="$2" 'BEGIN { printf "    over a plain module: %.2f\n", (l - s) / (200 * 882 * v) }'
    fi
}
plain=$here/crates/ft_bench_play/out/ft_bench_play
echo "instructions a frame and voice at 44,100 Hz:"
voices "32 looped voices of 16 bits, 0.30 frames of their sample at once" 32 57 looped
voices "the same, 1.91 frames at once" 32 89 looped
voices "the same, 2.86 frames at once" 32 96 looped
voices "8 voices of 8 bits without a loop, 0.30 frames at once" 8 57 plain
python3 "$work/voices.py" "$here/tools" 8 64 49 plain "$work/eight.xm"
if command -v rustc >/dev/null; then
    rustc -O -o "$work/loop" "$here/tools/mixing_loop.rs"
    loop_count() {
        valgrind --tool=callgrind --callgrind-out-file="$work/callgrind" "$work/loop" "$1" 2>&1 |
            sed -n 's/.*Collected : \([0-9]*\).*/\1/p'
    }
    short=$(loop_count 88200)
    long=$(loop_count 264600)
    awk -v s="$short" -v l="$long" 'BEGIN { printf "  a loop over frames in plain Rust: %.2f\n", (l - s) / (4 * 44100 * 32) }'
fi
echo "60 seconds of 8 voices:"
/usr/bin/time -f '  %U s' "$program" step "$work/eight.xm" "$work/out.wav" ledger --seconds=60
if command -v xmp >/dev/null; then
    /usr/bin/time -f '  %U s by xmp' xmp -q -i linear -d wav -o "$work/xmp.wav" -t 60 "$work/eight.xm" >/dev/null
else
    echo "  (for a comparison install the package xmp)"
fi

echo "reading a song, over a run with a song of 345 bytes:"
mkdir "$work/large"
python3 "$here/tools/large_songs.py" "$work/large" >"$work/large/songs"
second() {
    "$1" step "$work/large/$2.xm" /dev/null ledger --rate=8000 --seconds=1 --segments=65535
}
count_nothing=$(second count nothing)
memory_nothing=$(second memory nothing)
while read -r name bytes cells frames; do
    [ "$name" != nothing ] || continue
    awk -v n="$name" -v b="$bytes" -v c="$cells" -v f="$frames" \
        -v i="$(($(second count "$name") - count_nothing))" \
        -v k="$(($(second memory "$name") - memory_nothing))" 'BEGIN {
            printf "  %-15s %8d bytes: %5.1f instructions a byte; memory: the file", n, b, i / b
            rest = k * 1024 - b - 5 * c
            if (c) printf ", 5 bytes a cell"
            if (f) printf " and %.2f bytes a frame", rest / f
            printf "\n"
        }'
done <"$work/large/songs"
