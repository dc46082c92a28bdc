#!/usr/bin/env bash
# The program against a slow reader of the format's rules that was written apart from it: songs in
# varied spellings, and damaged ones. Each run must end as the slow reader says.
set -u
here=$(cd "$(dirname "$0")/../.." && pwd)
work=$(mktemp -d)
trap 'rm -rf "$work"' EXIT
failed=0
"$here/xmstudio" >/dev/null 2>&1 # builds the program where it is missing

# run SONG: the status and the lines of the program, as one text
run() {
    rm -f "$work/fast.wav"
    "$here/xmstudio" step "$1" "$work/fast.wav" "$work/ledger" --rate=8000 --seconds=1 2>"$work/lines"
    echo "$? $(cat "$work/lines")"
}

# wrong SONG ANSWER GOT
wrong() {
    echo "$(basename "$1"): $3, where the slow reader says $2"
    failed=1
}

# copied SONG: a song that is read is copied as its canonical bytes
copied() {
    python3 "$here/tools/slow_writer.py" "$1" >"$work/slow.xm" || failed=1
    "$here/xmstudio" copy "$1" "$work/fast.xm" || { echo "$(basename "$1"): copy ends with $?"; failed=1; }
    cmp "$work/slow.xm" "$work/fast.xm" || { echo "$(basename "$1") is copied otherwise"; failed=1; }
}

# check SONG ANSWER: a song is played and copied, and every other file is refused by this line
check() {
    local got
    got=$(run "$1")
    if [ "$2" = song ]; then
        [ "$got" = "0 " ] || wrong "$1" "$2" "$got"
        python3 "$here/tools/slow_replay.py" "$1" 8000 1 >"$work/slow.wav" || failed=1
        cmp "$work/slow.wav" "$work/fast.wav" || { echo "$(basename "$1") sounds otherwise"; failed=1; }
        copied "$1"
    else
        [ "$got" = "3 xmstudio: song refused: $2" ] || wrong "$1" "$2" "$got"
        [ -e "$work/fast.wav" ] && { echo "$(basename "$1"): an output was made"; failed=1; }
    fi
}

python3 "$here/tools/mutated_songs.py" "$work" 150 || exit 1
songs=("$work"/mutated*.xm)
python3 "$here/tools/slow_reader.py" "${songs[@]}" >"$work/answers" || exit 1
for kind in song 'fault '{1..8}; do
    grep -q "^$kind" "$work/answers" || { echo "no song is: $kind"; failed=1; }
done
for song in "${songs[@]}"; do
    read -r answer
    check "$song" "$answer"
done <"$work/answers"
[ "$failed" = 0 ] && echo "the program reads as its format says: ${#songs[@]} files, $(grep -c '^song' "$work/answers") of them played and copied"
exit "$failed"
