#!/usr/bin/env bash
# The words in which a song is placed, by the program ft_words_dump and by a slow placing that was
# written from docs/WORDS.md apart from it: songs drawn from numbers, and one with a long sample.
#
#     words.sh [COUNT]    COUNT songs, 100 where it isn't named
#
# The program is proved and built first.
set -u
here=$(cd "$(dirname "$0")/../.." && pwd)
log=$(cd "$here/crates/ft_words_dump" && rt run -- data/first.xm 2>&1 </dev/null)
# only a proved program is run
if ! grep -q '^rt: running ' <<<"$log"; then
    echo "$log"
    echo "ft_words_dump could not be built"
    exit 1
fi
python3 "$here/tools/compare_words.py" "$here/crates/ft_words_dump/out/ft_words_dump" "${1:-100}"
