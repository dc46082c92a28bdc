#!/usr/bin/env bash
# Seconds of audio that a second of the processor makes, by this program and by the players schism,
# xmp and openmpt123 where they are installed (nothing is installed here): each renders the songs of
# examples/ and the song of `gen 7`, or the songs that are given, once to a WAV of 44,100 Hz. User and
# system time count, the start of the program too. It reports, and judges nothing.
#
#     tools/peers.sh [SONG..]
#
# XMSTUDIO=PROGRAM measures this program in the place of the proved one. It gets its memory in large pages, as
# ./xmstudio has it do.
set -u
here=$(cd "$(dirname "$0")/.." && pwd)
work=$(mktemp -d)
trap 'rm -rf "$work"' EXIT
program=${XMSTUDIO:-}
if [ -z "$program" ]; then
    "$here/xmstudio" >/dev/null 2>&1
    program=$(ls -t "$here"/out/xmstudio-* | head -n 1)
fi
songs=("$@")
if [ ${#songs[@]} -eq 0 ]; then
    "$program" gen 7 "$work/gen7.xm" >/dev/null
    songs=("$here"/examples/*.xm "$work/gen7.xm")
fi

# the players' settings stand in a home of their own, and they need no screen and no sound card
export HOME=$work SDL_VIDEODRIVER=dummy SDL_AUDIODRIVER=dummy
cat >"$work/peers.py" <<'PYTHON'
import os
import resource
import shutil
import subprocess
import sys

program, work, songs = sys.argv[1], sys.argv[2], sys.argv[3:]
wav = work + "/out.wav"


def used():
    it = resource.getrusage(resource.RUSAGE_CHILDREN)
    return it.ru_utime + it.ru_stime


def rendered(words):
    """Seconds of audio, and the least time of the processor of three runs; None where nothing is rendered."""
    least = None
    for _ in range(3):
        if os.path.exists(wav):
            os.remove(wav)
        before = used()
        try:
            subprocess.run(words, stdin=subprocess.DEVNULL, stdout=subprocess.DEVNULL, stderr=subprocess.DEVNULL, timeout=300)
        except subprocess.TimeoutExpired:
            return None
        spent = used() - before
        least = spent if least is None else min(least, spent)
    if not os.path.exists(wav) or os.path.getsize(wav) <= 44:
        return None
    return (os.path.getsize(wav) - 44) / (4 * 44100), least


def cell(found):
    return "-" if found is None else "%.0f" % (found[0] / found[1])


peers = {
    "schism": lambda song: ["schismtracker", "--no-network", "--diskwrite=" + wav, song],
    "xmp": lambda song: ["xmp", "-q", "-i", "linear", "-d", "wav", "-o", wav, song],
    "openmpt123": lambda song: ["openmpt123", "-q", "--batch", "--force", "--samplerate", "44100", "--filter", "2", "--no-float", "-o", wav, song],
}
peers = {name: words for name, words in peers.items() if shutil.which(words("")[0])}
print("%-14s %8s %10s" % ("song", "seconds", "xmstudio") + "".join(" %10s" % name for name in peers))
for song in songs:
    by_peers = {name: rendered(words(song)) for name, words in peers.items()}
    lengths = [it[0] for it in by_peers.values() if it]
    seconds = min(1200, max(1, round(lengths[0] if lengths else 60)))
    large = ["env", "GLIBC_TUNABLES=glibc.malloc.hugetlb=1"]
    ours = rendered(large + [program, "step", song, wav, work + "/ledger", "--seconds=%d" % seconds])
    name = os.path.basename(song)
    print("%-14s %8d %10s" % (name, seconds, cell(ours)) + "".join(" %10s" % cell(it) for it in by_peers.values()))
PYTHON
python3 "$work/peers.py" "$program" "$work" "${songs[@]}"
