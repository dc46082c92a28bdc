#!/usr/bin/env bash
# The program against a slow reading of the sound's rules that was written apart from it: the
# examples, and songs drawn from numbers, byte for byte.
#
#     sound.sh [COUNT [KIND]]    COUNT drawn songs of a kind of tools/drawn_songs.py: 12 of the kind all
set -u
count=${1:-12}
kind=${2:-all}
here=$(cd "$(dirname "$0")/../.." && pwd)
work=$(mktemp -d)
trap 'rm -rf "$work"' EXIT
failed=0
cp -r "$here/examples" "$work/songs"
"$here/xmstudio" >/dev/null 2>&1 # builds the program where it is missing

# compare SONG RATE SECONDS
compare() {
    python3 "$here/tools/slow_replay.py" "$1" "$2" "$3" >"$work/slow.wav" || failed=1
    "$here/xmstudio" step "$1" "$work/fast.wav" "$work/ledger" --rate="$2" --seconds="$3" || { echo "$1: status $?"; failed=1; }
    cmp "$work/slow.wav" "$work/fast.wav" || { echo "$1 at $2 Hz differs"; failed=1; }
}

for song in silence first scale harbour; do
    compare "$work/songs/$song.xm" 44100 2
done
compare "$work/songs/first.xm" 8363 1
python3 "$here/tools/drawn_songs.py" "$work" "$count" "$kind"
rate=8000
for song in "$work/$kind"*.xm; do
    compare "$song" "$rate" 2
    rate=$((rate + 3557))
    [ "$rate" -gt 48000 ] && rate=8000
done
[ "$failed" = 0 ] && echo "the program sounds as its rules say: 5 examples and $count songs of the kind $kind, byte for byte"
exit "$failed"
