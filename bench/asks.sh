#!/usr/bin/env bash
# Times calls at one desk by threads that wait for each other, and prints one table. Run it manually; it is no part of the gate.
#   bench/asks.sh [REPEATS]     the median of this number of runs is printed, 5 if no number is given
#   PREFIX=FOLDER               where tools/build_c.sh has installed the C library; out/c if none is named
#   BEFORE=FOLDER               the folder of another build of it: one more row, in alternation with ours
# Microseconds of a call, for takes and reports, over 4, 16 and 4,096 objects on all cores, and over 16 on two cores:
# the time of the slowest thread, divided by the calls of all. Nothing is read or written meanwhile. The rows, in alternation:
#   desk     each thread has a pass of its own
#   apart    the same, but no two of these passes share a cache line
#   ticket   all threads use one pass, with a ticket lock in C that yields while it waits
#   mutex    the same with a mutex
#   before   as desk, by the other build
set -eu -o pipefail
repeats=${1:-5}
takes=100000
. "$(dirname "$0")/common.sh"
build_c_asks "${PREFIX:-$top/out/c}" "$work/c_asks"
counts='1 2 4 16 64'
rows='desk apart ticket mutex'
if [[ -n ${BEFORE:-} ]]; then
    build_c_asks "$BEFORE" "$work/c_asks_before"
    rows="$rows before"
fi

# The command that keeps a program to some cores; empty for all.
on_cores=()

# The microseconds of a call of a row, by this number of threads over this number of objects.
one() {
    local program=$work/c_asks workload=$1
    [[ $1 != before ]] || program=$work/c_asks_before workload=desk
    ${on_cores[@]+"${on_cores[@]}"} "$program" "$workload" "$2" "$3" "$takes" | tr '=' ' ' | awk '{ printf "%.3f\n", $2 / $4 / 1000 }'
}

# The times of all rows by this number of threads over this number of objects, each row in alternation with the others.
by_threads() {
    local row
    for _ in $(seq "$repeats"); do
        for row in $rows; do
            one "$row" "$1" "$2" >> "$work/times.$row.$1"
        done
    done
}

# The rows over this number of objects.
over() {
    local threads row
    rm -f "$work"/times.*
    for threads in $counts; do
        by_threads "$threads" "$1"
    done
    for row in $rows; do
        printf '%-24s %-8s' "$1 objects$2" "$row"
        for threads in $counts; do
            printf ' %8.2f' "$(middle < "$work/times.$row.$threads")"
        done
        echo
    done
}

printf '%-33s %8s %8s %8s %8s %8s\n' threads $counts
for objects in 4 16 4096; do
    over "$objects" ''
done
if command -v taskset > "$work/output"; then
    on_cores=(taskset -c 0,1)
    over 16 ', 2 cores'
fi
