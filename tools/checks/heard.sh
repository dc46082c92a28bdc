#!/usr/bin/env bash
# The program on songs that were made by hand: where each is heard, at which frames, and how loud.
set -u
here=$(cd "$(dirname "$0")/../.." && pwd)
"$here/xmstudio" >/dev/null 2>&1 # builds the program where it is missing
python3 "$here/tools/heard_songs.py" "$here/xmstudio"
