#!/usr/bin/env bash
# Compares the scheduler with two schedulers in C, and prints one table. Run it manually; it is no part of the gate.
#   bench/anchor.sh [REPEATS]     the best time of this number of runs is printed, 5 if no number is given
# The rows are workloads of nagsched_bench at n objects: `cycle`, a check is taken and reported OK, and `vary`, each report
# has a random code. `C` is bench/anchor.c, built here: the same tournament, the same rules, and only these two calls. The
# sums of both programs show that they saw the same. `limit` is another scheduler in C, with all six calls, the fastest that
# was found. It has a tournament without branches, and a byte for each object that says which code would change nothing. The
# script contains its instruction counts, which are the same on every machine. Its times, of another machine, are left out.
set -eu
repeats=${1:-5}
. "$(dirname "$0")/common.sh"
store_by_words

workloads=$("$top/bench/build.sh")
cc -std=c11 -O2 -Wall -Wextra "$top/bench/anchor.c" -o "$work/anchor"

# The fewest nanoseconds of a cycle, of ours and of C's, run after run.
least_times() {
    local ours=999999 c=999999 took
    for _ in $(seq "$repeats"); do
        took=$("$workloads" "$1" "$2" 1000000 | sed 's/^ns=\([0-9]*\) .*/\1/')
        ((took / 100000 < ours)) && ours=$((took / 100000))
        took=$("$work/anchor" "$1" "$2" 1000000 | sed 's/^ns=\([0-9]*\) .*/\1/')
        ((took / 100000 < c)) && c=$((took / 100000))
    done
    echo "$ours $c"
}

# The instructions of `limit`.
limit_of() {
    case $1-$2 in
        cycle-64) echo 176 ;; cycle-1000) echo 204 ;; cycle-4096) echo 218 ;;
        vary-64) echo 354 ;; vary-1000) echo 376 ;; vary-4096) echo 390 ;;
    esac
}

printf '%8s %8s %12s %6s %6s %6s %6s %8s %8s %6s\n' '' objects instructions C ratio limit ratio ns 'ns of C' ratio
for workload in cycle vary; do
    for objects in 64 1000 4096; do
        ours=$("$workloads" "$workload" "$objects" 100000 untimed)
        theirs=$("$work/anchor" "$workload" "$objects" 100000 untimed)
        [[ $ours == "$theirs" ]] || { echo "$workload $objects: $ours, and C $theirs"; exit 1; }
        printf '%s %s %s %s %s %s\n' "$workload" "$objects" "$(by_cycles "$workloads" "$workload" "$objects")" \
            "$(by_cycles "$work/anchor" "$workload" "$objects")" "$(limit_of "$workload" "$objects")" "$(least_times "$workload" "$objects")"
    done
done | awk '{
    printf "%8s %8d %12d %6d %6.2f %6d %6.2f %8.1f %8.1f %6.2f\n", $1, $2, $3, $4, $3 / $4, $5, $3 / $5, $6 / 10, $7 / 10, $6 / $7
}'
