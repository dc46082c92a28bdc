#!/usr/bin/env bash
# The state of a song behind each tick, by the program ft_states and by a slow reading of the page
# of sound that was written apart from it: songs drawn from numbers, number by number.
#
#     states.sh [COUNT [KIND..]]    COUNT songs of each kind: plain, rows or all (tools/drawn_songs.py)
#
# With nothing named, 30 songs of the kinds rows and all each. The program is proved and built first.
set -u
here=$(cd "$(dirname "$0")/../.." && pwd)
count=${1:-30}
kinds=("${@:2}")
[ ${#kinds[@]} -gt 0 ] || kinds=(rows all)
log=$(cd "$here/crates/ft_states" && rt run -- data/first.xm 8000 1 2>&1 </dev/null)
# only a proved program is run
if ! grep -q '^rt: running ' <<<"$log"; then
    echo "$log"
    echo "ft_states could not be built"
    exit 1
fi
failed=0
for kind in "${kinds[@]}"; do
    python3 "$here/tools/compare_states.py" "$here/crates/ft_states/out/ft_states" "$count" "$kind" || failed=1
done
exit "$failed"
