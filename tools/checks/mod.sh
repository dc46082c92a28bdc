#!/usr/bin/env bash
# What `import` reads, by the program and by a slow reading of docs/MOD.md that was written apart from
# it: whole modules, and damaged ones. Each must give the same bytes, or the same line.
#
#     mod.sh [MODULES [DAMAGED]]    so many of each, drawn from numbers: 200 and 1,000
set -u
here=$(cd "$(dirname "$0")/../.." && pwd)
"$here/xmstudio" >/dev/null 2>&1 # builds the program where it is missing, and marks it as the newest
program=$(ls -t "$here"/out/xmstudio-* 2>/dev/null | head -1)
[ -x "${program:-}" ] || { echo "the program could not be built"; exit 1; }
python3 "$here/tools/compare_mods.py" "$program" "$@"
