#!/usr/bin/env bash
# Counts the instructions of the rules of a row on one channel, by ft_bench_rows under callgrind: of
# a row's start and of a later tick, for cells of each kind, and of a tick in the mean over all kinds
# and the six ticks of a row. The measuring loop counts with them: it is the start of no cell, which
# does nothing. It reports, and judges nothing. Wants valgrind, and the program built by `rt run` in
# crates/ft_bench_rows.
set -u
here=$(cd "$(dirname "$0")/.." && pwd)
program=$here/crates/ft_bench_rows/out/ft_bench_rows
work=$(mktemp -d)
trap 'rm -rf "$work"' EXIT

# count STARTS TICKS CELL..: the instructions of a run
count() {
    valgrind --tool=callgrind --callgrind-out-file="$work/callgrind" "$program" "$@" 2>&1 |
        sed -n 's/.*Collected : \([0-9]*\).*/\1/p'
}

# row NAME NOTE INSTRUMENT VOLUME EFFECT PARAMETER: instructions of a start and of a later tick
row() {
    local name=$1 base starts ticks
    shift
    base=$(count 1 0 "$@")
    starts=$(count 1001 0 "$@")
    ticks=$(count 1 1000 "$@")
    awk -v n="$name" -v b="$base" -v s="$starts" -v t="$ticks" \
        'BEGIN { printf "%-28s %8.1f %8.1f\n", n, (s - b) / 1000, (t - b) / 1000 }' |
        tee -a "$work/rows"
}

printf '%-28s %8s %8s\n' 'instructions' 'a start' 'a tick'
row 'no cell' 0 0 0 0 0
row 'a note' 49 1 0 0 0
row 'a note with a volume' 49 1 48 0 0
row 'a volume that slides' 0 0 0 10 2
row 'a volume byte that slides' 0 0 98 0 0
row 'portamento up' 0 0 0 1 2
row 'tone portamento' 0 0 0 3 2
row 'arpeggio' 0 0 0 0 71
row 'vibrato' 0 0 0 4 132
row 'vibrato with a slide' 0 0 0 6 2
row 'two vibratos' 0 0 180 4 132
row 'multi retrigger' 0 0 0 27 17
row 'tremor' 0 0 0 29 17
row 'tempo' 0 0 0 15 6
awk '{ starts += $(NF - 1); ticks += $NF }
    END { printf "%-28s %8.1f\n", "in the mean, a tick", (starts + 5 * ticks) / 6 / NR }' "$work/rows"
