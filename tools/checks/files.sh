#!/usr/bin/env bash
# The program on real files: what it writes, its status, its line on standard error, and what it
# leaves alone.
set -u
here=$(cd "$(dirname "$0")/../.." && pwd)
work=$(mktemp -d)
trap 'rm -rf "$work"' EXIT
cd "$work" || exit 1
failed=0

usage='xmstudio: usage: live or step SONG WAV LEDGER [SCRIPT]... [--rate=N] [--seconds=N] [--segments=N]; copy SONG OUT; gen NUMBER OUT; import MOD OUT'

# expect STATUS LINE WORDS..: runs the program; LINE is all of standard error, or - for any usage line
expect() {
    local want=$1 line=$2
    shift 2
    rm -f out.wav out.ledger
    "$here/xmstudio" "$@" >stdout 2>stderr
    local got=$?
    [ "$got" = "$want" ] || { echo "$*: status $got, not $want"; failed=1; }
    [ -s stdout ] && { echo "$*: standard output isn't empty"; failed=1; }
    if [ "$line" = - ]; then
        [ "$(cat stderr)" = "$usage" ] || { echo "$*: no usage line"; failed=1; }
    elif [ "$(cat stderr)" != "$line" ]; then
        echo "$*: standard error is: $(cat stderr)"
        failed=1
    fi
}

# absent FILE: the run before left no such file
absent() {
    [ -e "$1" ] && { echo "$1 was made"; failed=1; }
}

# wav SIZE: the run before made out.wav of so many bytes
wav() {
    local size
    size=$(stat -c %s out.wav 2>/dev/null)
    [ "$size" = "$1" ] || { echo "out.wav has $size bytes, not $1"; failed=1; }
}

"$here/xmstudio" >/dev/null 2>&1 # builds the program where it is missing

# songs are read from copies, which a program with its names changed over would overwrite
cp -r "$here/examples" songs
silence=songs/silence.xm
expect 0 '' step "$silence" out.wav out.ledger --rate=8000 --seconds=1
wav 32044
absent out.ledger
expect 0 '' step "$silence" out.wav out.ledger --seconds=2
wav 352844
# options as two words each, and eight words in all
expect 0 '' step "$silence" out.wav out.ledger --rate 8000 --seconds 1
wav 32044
expect 0 '' step --seconds 2 "$silence" --rate 8000 out.wav out.ledger
wav 64044
# and ten words
expect 0 '' step "$silence" out.wav out.ledger --seconds 1 --segments 64 --rate 8000
wav 32044
absent out.ledger
expect 2 - step "$silence" out.wav out.ledger --rate 8000 --seconds
absent out.wav

expect 2 -
expect 2 - --help
expect 2 - step "$silence" out.wav
expect 2 - step "$silence" out.wav out.ledger --rate=7999
absent out.wav
expect 2 - step $'\xff' out.wav out.ledger
absent out.wav
expect 2 - step "$silence" out.wav out.ledger --segments=63
expect 2 - step "$silence" out.wav out.ledger --segments=65536
absent out.wav

expect 4 'xmstudio: song could not be read' step missing.xm out.wav out.ledger
absent out.wav
expect 4 'xmstudio: song could not be read' step "$work" out.wav out.ledger
absent out.wav

: >empty.xm
expect 3 'xmstudio: song refused: fault 3 0 17' step empty.xm out.wav out.ledger
absent out.wav
{ printf 'X'; tail -c +2 "$silence"; } >other.xm
expect 3 'xmstudio: song refused: fault 1 0' step other.xm out.wav out.ledger
absent out.wav
truncate -s 67108864 most.xm
expect 3 'xmstudio: song refused: fault 1 0' step most.xm out.wav out.ledger
truncate -s 67108865 big.xm
expect 3 'xmstudio: song refused: too big' step big.xm out.wav out.ledger
absent out.wav

expect 5 'xmstudio: output could not be written' step "$silence" no-such-folder/out.wav out.ledger
expect 5 'xmstudio: output could not be written' step "$silence" /dev/full out.ledger

# copy and gen
for song in silence first scale harbour; do
    expect 0 '' copy "songs/$song.xm" copy.xm
    cmp "$here/examples/$song.xm" copy.xm || { echo "$song.xm is copied otherwise"; failed=1; }
done
expect 4 'xmstudio: song could not be read' copy missing.xm out.wav
absent out.wav
expect 3 'xmstudio: song refused: fault 1 0' copy other.xm out.wav
absent out.wav
expect 5 'xmstudio: output could not be written' copy "$silence" /dev/full

# import
expect 0 '' import songs/lantern.mod import.xm
expect 0 '' step import.xm out.wav out.ledger --rate=8000 --seconds=1
wav 32044
expect 4 'xmstudio: song could not be read' import missing.mod out.wav
expect 3 'xmstudio: song refused: mod fault 2 320 30' import "$silence" out.wav
absent out.wav
expect 5 'xmstudio: output could not be written' import songs/lantern.mod /dev/full
[ "$("$here/xmstudio" gen 7 seven.xm)" = 'gen 7 bytes 571238 blocks 425 ticks 500 peak 26334' ] || { echo "gen 7 has another line"; failed=1; }
[ "$(stat -c %s seven.xm)" = 571238 ] || { echo "gen 7 has other bytes"; failed=1; }
expect 0 '' step seven.xm out.wav out.ledger --rate=8000 --seconds=1
wav 32044
expect 7 'xmstudio: pool too small: 425 over 424' step seven.xm out.wav out.ledger --segments=424
# in ten words, the last of which counts
expect 7 'xmstudio: pool too small: 425 over 424' step seven.xm out.wav out.ledger --rate 8000 --seconds 1 --segments 424
absent out.wav
absent out.ledger
expect 0 '' step seven.xm out.wav out.ledger --rate=8000 --seconds=1 --segments=425
wav 32044
"$here/xmstudio" gen 7 seven.xm >/dev/full 2>stderr
[ "$?" = 6 ] || { echo "a line that can't be written isn't told"; failed=1; }
[ "$(cat stderr)" = 'xmstudio: ledger could not be written' ] || { echo "standard error is: $(cat stderr)"; failed=1; }
expect 2 - gen seven out.wav
absent out.wav

# no song was written to
for song in "$here"/examples/*.xm; do
    cmp "$song" "songs/$(basename "$song")" || failed=1
done

[ "$failed" = 0 ] && echo "the program on real files: all as documented"
exit "$failed"
