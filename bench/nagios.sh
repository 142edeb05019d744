#!/usr/bin/env bash
# Times Nagios Core 4.4.6 and our scheduler, in alternation, and prints one table. Run it manually; it is no part of the gate.
#   bench/nagios.sh DIRECTORY [REPEATS]     DIRECTORY for Nagios's sources and their builds (conformance/nagios/build.sh);
#                                           the least time of this number of runs is printed, 5 if no number is given
# The queue: the first of n is taken out and put back 5 minutes later. The cycle: the earliest service is taken, its result comes at once, and
# it is scheduled again. Nanoseconds each. Nagios asks the system for the time zone when it formats times, unless TZ is set, so it is set.
set -eu
export TZ=UTC
. "$(dirname "$0")/common.sh"
directory=$1
repeats=${2:-5}
cycles=200000
"$top/conformance/nagios/build.sh" "$directory"
workloads=$("$top/bench/build.sh")

# Nanoseconds per cycle, from a program's line.
each() {
    "$@" | tr '=' ' ' | awk '{ printf "%.0f\n", $2 / $4 }'
}

printf '%-8s %8s %10s %10s %8s\n' what n ours Nagios ratio
for what in queue cycle; do
    ours=$what
    [[ $what == queue ]] && ours=steady
    for number in 1000 4096; do
        for _ in $(seq "$repeats"); do
            each "$workloads" "$ours" "$number" "$cycles" >> "$work/ours"
            each "$directory/$what" "$number" "$cycles" >> "$work/theirs"
        done
        least=$(sort -n "$work/ours" | head -n 1) other=$(sort -n "$work/theirs" | head -n 1)
        awk -v what="$what" -v n="$number" -v a="$least" -v b="$other" 'BEGIN { printf "%-8s %8d %10d %10d %8.2f\n", what, n, a, b, a / b }'
        rm "$work/ours" "$work/theirs"
    done
done
