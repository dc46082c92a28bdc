#!/usr/bin/env bash
# Figures of the version register, from the proved program ft_bench_register:
# instructions for each call, by the difference of two runs under callgrind, and the time
# of opening the default pool beside that of a plain copy of as many bytes.
#
# Use: rt run in crates/ft_bench_register, then tools/register/figures.sh. It wants valgrind and objdump.
set -eu
cd "$(dirname "$0")/../.."
program=crates/ft_bench_register/out/ft_bench_register
[ -x "$program" ] || { echo "first: cd crates/ft_bench_register && rt run" >&2; exit 1; }

# Instructions of a run of $1 with $2 rounds.
instructions() {
    valgrind --tool=callgrind --callgrind-out-file=/dev/null "$program" "$1" "$2" 2>&1 |
        sed -n 's/.*Collected : \([0-9]*\).*/\1/p'
}

# Instructions of one round of $1, in tenths.
per_round() {
    local few many
    few=$(instructions "$1" 1000)
    many=$(instructions "$1" 11000)
    echo $(((many - few) / 1000))
}

tenths() { echo "$(($1 / 10)).$(($1 % 10))"; }

look=$(per_round look)
publish=$(per_round publish)
turn=$(per_round turn)
scan=$(per_round scan)
echo "look: $(tenths "$look") instructions, with its loop"
echo "publish with its scan, 8 readers: $(tenths "$publish") instructions"
echo "a whole scan, 8 readers of 32 channels: $(tenths "$scan") instructions"
echo "take and leave together: $(tenths $((turn - publish - look))) instructions"

echo "the locked instructions of take and leave, and the two exchanges of publish:"
objdump -d --no-show-raw-insn "$program" | grep -E 'lock |xchg +%r[0-9a-z]+,.*\(' | sed 's/^ *[0-9a-f]*:\s*/  /'

# The least of five runs of $1, in milliseconds for each round.
milliseconds() {
    local best=999999 start end run
    for run in 1 2 3 4 5; do
        start=$(date +%s%N)
        "$program" "$1" 10
        end=$(date +%s%N)
        run=$(((end - start) / 10000))
        [ "$run" -lt "$best" ] && best=$run
    done
    echo "$((best / 1000)).$(printf %03d $((best % 1000)))"
}
# Instructions of one round of $1, in thousands.
thousands() {
    echo $((($(instructions "$1" 3) - $(instructions "$1" 1)) / 2000))
}
echo "open of 16384 segments: $(thousands open) thousand instructions"
echo "plain copy of the same bytes: $(thousands copy) thousand instructions"
echo "open of 16384 segments: $(milliseconds open) ms"
echo "plain copy of the same bytes: $(milliseconds copy) ms"
