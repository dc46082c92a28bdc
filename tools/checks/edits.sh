#!/usr/bin/env bash
# What scripts and ledgers say and what edits do, by the program ft_edit_answers and by a slow reading
# of the pages of edits and texts that was written apart from it: each answer, and the song's bytes.
#
#     edits.sh [SCRIPTS [LEDGERS]]    so many of each, drawn from numbers: 60 and 100
#
# The program is proved and built first.
set -u
here=$(cd "$(dirname "$0")/../.." && pwd)
log=$(cd "$here/crates/ft_edit_answers" && rt run -- data/first.xm data/script.txt 2>&1 </dev/null | tr -d '\000')
# only a proved program is run
if ! grep -q '^rt: running ' <<<"$log"; then
    echo "$log"
    echo "ft_edit_answers could not be built"
    exit 1
fi
failed=0
program=$here/crates/ft_edit_answers/out/ft_edit_answers
python3 "$here/tools/compare_edits.py" "$program" script "${1:-60}" || failed=1
python3 "$here/tools/compare_edits.py" "$program" ledger "${2:-100}" || failed=1
exit "$failed"
