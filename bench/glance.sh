#!/usr/bin/env bash
# Times glances at the board of a desk, and prints one table. Run it manually; it is no part of the gate.
#   bench/glance.sh [REPEATS]     the best of this number of runs is printed, 5 if no number is given
#   PREFIX=FOLDER                 where tools/build_c.sh has installed the C library; out/c if none is named
# 1, 2 and 4 threads glance at 64 objects in turn, each the same number of times, while one thread more takes checks
# and reports them. The ratio is to one thread, in the same run. If valgrind is installed, the instructions of a glance
# are counted, while nobody reports: the difference of two counts, so that reading the setup cancels.
set -eu -o pipefail
repeats=${1:-5}
objects=64
glances=20000000
. "$(dirname "$0")/common.sh"
store_by_words
build_c_asks "${PREFIX:-$top/out/c}" "$work/c_asks"

# The shortest time of the slowest thread, in nanoseconds, for this number of glancing threads.
least() {
    for _ in $(seq "$repeats"); do
        "$work/c_asks" glance "$1" "$objects" "$glances"
    done | sed -n 's/^ns=\([0-9]*\) .*/\1/p' | sort -n | sed -n 1p
}

printf '%8s %8s %18s %10s %8s\n' threads ms 'glances a second' 'ns each' 'to one'
one=''
for threads in 1 2 4; do
    ns=$(least "$threads")
    one=${one:-$ns}
    awk -v threads="$threads" -v ns="$ns" -v one="$one" -v glances="$glances" 'BEGIN {
        printf "%8d %8d %18d %10.2f %8.2f\n", threads, ns / 1000000, threads * glances * 1000000000 / ns, ns / glances, threads * one / ns
    }'
done
if command -v valgrind > "$work/output"; then
    few=$(instructions "$work/c_asks" glance 0 "$objects" 100000 untimed)
    many=$(instructions "$work/c_asks" glance 0 "$objects" 300000 untimed)
    echo "instructions a glance: $(((many - few) / 200000))"
fi
