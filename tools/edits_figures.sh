#!/usr/bin/env bash
# Counts instructions of lines of scripts, of edits and of ledgers, under callgrind, and times the
# reading of a ledger of twenty minutes. It reports, and judges nothing. Wants valgrind, and the
# programs built by `rt run` in crates/ft_bench_edits and crates/ft_edit_answers.
set -u
here=$(cd "$(dirname "$0")/.." && pwd)
bench=$here/crates/ft_bench_edits/out/ft_bench_edits
answers=$here/crates/ft_edit_answers/out/ft_edit_answers
work=$(mktemp -d)
trap 'rm -rf "$work"' EXIT

# count WORD..: the instructions of a run
count() {
    valgrind --tool=callgrind --callgrind-out-file=/dev/null "$@" 2>&1 |
        sed -n 's/.*Collected : \([0-9]*\).*/\1/p'
}

# read_batch LINE: instructions of the call, and with what its caller does to let go of the batch
read_batch() {
    local once often alone
    once=$(count "$bench" read 1 "$1")
    often=$(count "$bench" read 1001 "$1")
    alone=$(count --toggle-collect=ft_lines::read::read_batch "$bench" read 1000 "$1")
    awk -v l="$1" -v a="$once" -v b="$often" -v c="$alone" 'BEGIN {
        n = length(l)
        printf "%-44s %5d %8.0f %8.1f %8.1f\n", substr(l, 1, 44), n, c / 1000, c / 1000 / n, (b - a) / 1000 / n
    }'
}

# apply_edit LINE..: instructions of the edit of the last line, in a song that the others changed
apply_edit() {
    local once often
    once=$(count "$bench" apply 1 "$@")
    often=$(count "$bench" apply 1001 "$@")
    awk -v l="${*: -1}" -v a="$once" -v b="$often" 'BEGIN { printf "%-44s %5.0f\n", l, (b - a) / 1000 }'
}

# ledger TICKS END FILE: a ledger of so many ticks that tells of so many
ledger() {
    awk -v n="$1" -v e="$2" 'BEGIN {
        print "xmstudio ledger 2\nplay 44100 1200 16384 2"
        for (t = 0; t < n; t++)
            print "t", t, int(t / 600), int(t / 384) % 256, int(t / 6) % 64, t % 6, 882
        print "end 0", e
    }' >"$3"
}

printf '%-44s %5s %8s %8s %8s\n' 'read_batch: instructions of a line' bytes all 'a byte' '& freed'
cell='cell 0 4 1 49 1 64 0 0'
read_batch 'delpat'
read_batch 'tempo 6'
read_batch "$cell"
read_batch 'cell 12 104 11 49 12 64 10 127'
read_batch "at 100 $cell"
read_batch "tempo 3 ; bpm 140 ; $cell ; order 0 0 ; transpose 0 0 0 8 1 -12"
read_batch "$cell ; $cell ; $cell ; $cell ; $cell ; $cell ; $cell ; $cell"
read_batch 'title 466173746572'
read_batch "paste 1 0 4 $(printf 'ff80%.0s' {1..256})"

echo 'apply_edit: instructions of an edit'
apply_edit "$cell"
apply_edit 'newpat 256 ; newpat 256 ; newpat 256 ; newpat 256' 'cell 4 255 1 49 1 64 0 0'
apply_edit 'cell 0 64 0 49 1 64 0 0'
apply_edit 'tempo 6'
apply_edit 'order 0 0'
apply_edit 'clear 0 0 0 1 1'
apply_edit 'smp 1 0 48 0 -12 128'
apply_edit 'env 1 0 2 0 0 0 1'

echo 'ledgers: instructions a byte'
for ticks in 15000 30000 60000; do
    ledger "$ticks" "$ticks" "$work/whole"
    ledger "$ticks" 1 "$work/damaged"
    awk -v t="$ticks" -v n="$(stat -c %s "$work/whole")" -v w="$(count "$answers" "$work/whole")" \
        -v d="$(count "$answers" "$work/damaged")" 'BEGIN {
            printf "  %d ticks, %d bytes: %.1f to read, %.1f to print\n", t, n, d / n, (w - d) / n
        }'
done
ledger 0 1 "$work/short"
# seconds FILE: of the processor, in the program, for 50 runs
seconds() {
    local TIMEFORMAT=%U
    { time for _ in {1..50}; do "$answers" "$1" >/dev/null; done; } 2>&1
}
awk -v n="$(stat -c %s "$work/damaged")" -v t="$(seconds "$work/damaged")" -v s="$(seconds "$work/short")" \
    'BEGIN { printf "  read_ledger: %.0f MB/s\n", n * 50 / 1000000 / (t - s) }'
