#!/usr/bin/env bash
# The repository stands alone: nothing in it names a path of some machine, and it holds what its
# README's commands need.
set -u
cd "$(dirname "$0")/../.." || exit 1
failed=0
if git ls-files | grep -v '^tools/checks/alone.sh$' | xargs grep -nE '(^|[^A-Za-z.])/(work|opt|root|home)/' -- 2>/dev/null; then
    echo "a path of some machine is named above"
    failed=1
fi
[ "$(cat HANDLES)" = "Handles allowed: Threads, Wait." ] || { echo "HANDLES was changed"; failed=1; }
[ -x xmstudio ] || { echo "xmstudio can't be run"; failed=1; }
for file in README.md docs/FORMAT.md docs/SOUND.md docs/MAP.md docs/DECISIONS.md; do
    [ -s "$file" ] || { echo "$file is missing"; failed=1; }
done
# every page that a page links to is there
for page in README.md docs/*.md; do
    folder=$(dirname "$page")
    for link in $(grep -oE '\]\([^):#]+\)' "$page" | sed 's/](\(.*\))/\1/'); do
        [ -e "$folder/$link" ] || { echo "$page links to $link, which is missing"; failed=1; }
    done
done
[ "$failed" = 0 ] && echo "the repository stands alone"
exit "$failed"
