#!/usr/bin/env bash
# The script xmstudio: it proves each state of the sources once, whatever the times of the files are,
# crates side by side and each after those that it stands on, and runs no program that isn't proved.
# It is tried on a copy of the sources, with a prover that only notes its calls.
set -u
here=$(cd "$(dirname "$0")/../.." && pwd)
work=$(mktemp -d)
trap 'rm -rf "$work"' EXIT
failed=0
mkdir -p "$work/bin" "$work/repo"
cp "$here/xmstudio" "$here/crates.txt" "$work/repo"
for crate in "$here"/crates/*; do
    for part in src specs proofs; do
        [ -d "$crate/$part" ] || continue
        mkdir -p "$work/repo/crates/$(basename "$crate")"
        cp -r "$crate/$part" "$work/repo/crates/$(basename "$crate")/$part"
    done
done
cat >"$work/bin/rt" <<'PROVER'
#!/usr/bin/env bash
name=$(basename "$PWD")
if [ "$1" = lib ]; then
    echo "begin $name" >>"$CALLS.libraries"
    sleep 0.05
    [ -e "$CALLS.refuse-$name" ] && exit 1
    echo "end $name" >>"$CALLS.libraries"
    exit 0
fi
echo call >>"$CALLS"
[ -e "$CALLS.refuse" ] && exit 1
mkdir -p out
printf '#!/bin/sh\necho "$# words"; exit 3\n' >out/ft_studio
chmod +x out/ft_studio
echo "rt: running out/ft_studio"
exit 2
PROVER
chmod +x "$work/bin/rt"
export CALLS=$work/calls
: >"$CALLS"

# run STATUS CALLS WHAT: the script ends so, and the prover was called so often so far
run() {
    PATH="$work/bin:$PATH" "$work/repo/xmstudio" step 'a b' c >"$work/stdout" 2>"$work/stderr"
    local got=$?
    [ "$got" = "$1" ] || { echo "$3: status $got, not $1"; failed=1; }
    [ "$(wc -l <"$CALLS")" = "$2" ] || { echo "$3: $(wc -l <"$CALLS") proofs, not $2"; failed=1; }
    [ "$1" = 70 ] || [ "$(cat "$work/stdout")" = '3 words' ] || { echo "$3: other words"; failed=1; }
}

source=$work/repo/crates/ft_run/src/run.rt
touch "$CALLS.refuse-ft_replay"
run 70 0 'a library that is refused'
grep -q '^xmstudio: ft_replay could not be proved$' "$work/stderr" || { echo "the refused library isn't named"; failed=1; }
grep -q 'ft_run' "$CALLS.libraries" && { echo "a library was proved over a refused one"; failed=1; }
rm "$CALLS.refuse-ft_replay"
: >"$CALLS.libraries"
touch "$CALLS.refuse"
run 70 1 'sources that are refused'
rm "$CALLS.refuse"
# each library after those that it stands on, at least two of them at once, and each is told
awk -F'[: ]+' '
    NR == FNR { if ($0 !~ /^#/) for (i = 2; i <= NF; i++) below[$1] = below[$1] " " $i; own[$1]; next }
    { split($0, it, " ") }
    it[1] == "begin" {
        if (++at_once > most) most = at_once
        split(below[it[2]], names, " ")
        for (i in names) if (names[i] in own && !(names[i] in ended)) { print it[2] " was begun before " names[i]; bad = 1 }
    }
    it[1] == "end" { at_once--; ended[it[2]]; many++ }
    END { if (many < 15) { print "only " many " libraries"; bad = 1 } exit bad || (most < 2) * 2 }
' "$work/repo/crates.txt" "$CALLS.libraries"
order=$?
[ "$order" = 0 ] || [ "$order$(nproc)" = 21 ] || { echo "the order of the libraries: $order"; failed=1; }
last=$(grep '^xmstudio: proved ' "$work/stderr" | tail -n 1)
[[ $last == "xmstudio: proved $(grep -c '^end' "$CALLS.libraries") of "* ]] || { echo "the last line on libraries: $last"; failed=1; }
run 3 2 'the first call'
run 3 2 'the second call'
touch "$source"
run 3 2 'a file that was touched'
rm -rf "$work"/repo/crates/*/out
run 3 2 'after a run of the gate'
echo '// more' >>"$source"
run 3 3 'a changed source'
cp "$here/crates/ft_run/src/run.rt" "$source"
run 3 3 'the source as it was'
echo '# more' >>"$work/repo/crates.txt"
run 3 3 'a crate that the program stands not on'
rm "$work/repo/crates/ft_types/specs/Lib.antt"
run 3 4 'a missing definition'
[ "$failed" = 0 ] && echo "the script proves each state of the sources once"
exit "$failed"
