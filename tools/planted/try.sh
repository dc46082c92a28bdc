#!/usr/bin/env bash
# Tries the edits of tools/planted, which are too many for the gate: each by itself, on a copy of the
# crates in which nothing else is changed. Each must be refused by the check of its crate. Says of each
# REFUSED, NOT REFUSED (it is still proved) or BAD (it can't be applied or doesn't compile), and ends
# with 0 only where all are refused.
#
#     tools/planted/try.sh [NAME..]      the edits of these crates; without names those of all
set -u
cd "$(dirname "$0")/../.." || exit 1
names=("$@")
if [ ${#names[@]} -eq 0 ]; then
    for folder in tools/planted/*/; do
        names+=("$(basename "$folder")")
    done
fi

copy=$(mktemp -d) || exit 1
trap 'rm -rf "$copy"' EXIT
cp crates.txt HANDLES "$copy/"
mkdir "$copy/crates"
for crate in crates/*/; do
    name=$(basename "$crate")
    mkdir "$copy/crates/$name"
    for part in "$crate"*; do
        case $(basename "$part") in
            out | must-fail) ;;
            *) cp -r "$part" "$copy/crates/$name/" ;;
        esac
    done
done

status=0
for name in "${names[@]}"; do
    mkdir -p "$copy/crates/$name/must-fail"
    cp "tools/planted/$name/"*.edit "$copy/crates/$name/must-fail/" || { status=1; continue; }
    (cd "$copy/crates/$name" && rt check) > "$copy/check.log" 2>&1 || {
        echo "$name: the crate itself isn't proved"
        tail -n 5 "$copy/check.log"
        status=1
        continue
    }
    (cd "$copy" && rt must-fail "$name") > "$copy/edits.log" 2>&1
    for edit in "tools/planted/$name/"*.edit; do
        short=$(basename "$edit")
        line=$(grep -F "must-fail $name/$short:" "$copy/edits.log" | head -n 1)
        case $line in
            *": refused, as it must be"*) echo "REFUSED $name/$short" ;;
            *"NOT REFUSED"*) echo "NOT REFUSED $name/$short"; status=1 ;;
            *) echo "BAD $name/$short: ${line:-no answer}"; status=1 ;;
        esac
    done
done
exit "$status"
