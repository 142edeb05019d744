#!/usr/bin/env bash
# Counts instructions by valgrind's callgrind, and prints one table. Run it manually; it is no part of the gate.
#   bench/instructions.sh
#   PREFIX=FOLDER     where tools/build_c.sh has installed the C library; out/c if none is named
# A figure is the difference of two lengths of the same workload, divided by their cycles, so that reading the
# setup cancels. Instruction counts are the same on any machine, unlike times. The rows:
#   queue    the first of n entries is taken out and put back 5 minutes later
#   calls    a check of one of n objects is taken and reported, by the scheduler alone
#   vary     the same, but each report has a random code
#   run      the same by the whole program: two lines read, two written
#   ask      each of these two calls, by the only pass of a desk: what the lock, the turn and the history add to `calls`
#   caller   each of them, by a caller of the C library: what the handle, the guard and C's own loop add to `ask`
# and, without the instructions of `calls` at the same number of objects:
#   depend   a check of a service that depends on the first service: the cost of looking for masters that hold it back
#   inherit  the same, but the dependency inherits, and the first service depends on the second
#   lines    a check whose two replies are written as lines of text
set -eu
. "$(dirname "$0")/common.sh"
store_by_words
program=$(build_program)
workloads=$("$top/bench/build.sh")
build_c_asks "${PREFIX:-$top/out/c}" "$work/c_asks"

# A cycle's instructions: of WORKLOAD at n numbers.
by_workload() {
    by_cycles "$workloads" "$1" "$2"
}

# A cycle's instructions of WORKLOAD at n numbers, without those of `calls`.
beyond_calls() {
    echo $(($(by_workload "$1" "$2") - $(by_workload cycle "$2")))
}

# The instructions that a pass of a desk adds to each of the two calls of a cycle at n objects.
by_pass() {
    echo $((($(by_workload ask "$1") - $(by_workload cycle "$1")) / 2))
}

# The instructions that a caller of the C library adds to each of the two calls of such a pass.
by_caller() {
    echo $((($(by_cycles "$work/c_asks" one 1 "$1") - $(by_workload ask "$1")) / 2))
}

# A setup of this number of hosts, and this number of takes with their reports.
input() {
    hosts_setup "$1"
    awk -v hosts="$1" -v runs="$2" 'BEGIN {
        for (run = 0; run < runs; run++) {
            printf "[\"take\",%.0f]\n", int(run / hosts) * 300000
            printf "[\"report\",\"host%04d\",%d,0]\n", run % hosts, run + 1
        }
    }'
}

# A cycle's instructions of the whole program at n objects.
by_run() {
    local few many
    input "$1" 20000 > "$work/few"
    input "$1" 60000 > "$work/many"
    few=$(instructions "$program" < "$work/few")
    many=$(instructions "$program" < "$work/many")
    echo $(((many - few) / 40000))
}

printf '%8s %8s %14s\n' '' numbers instructions
for numbers in 64 1000 4096; do
    printf '%8s %8d %14d\n' queue "$numbers" "$(by_workload steady "$numbers")"
done
for numbers in 64 512 1000 4096; do
    printf '%8s %8d %14d\n' calls "$numbers" "$(by_workload cycle "$numbers")"
done
for numbers in 64 1000 4096; do
    printf '%8s %8d %14d\n' vary "$numbers" "$(by_workload vary "$numbers")"
done
for numbers in 64 512 4096; do
    printf '%8s %8d %14d\n' run "$numbers" "$(by_run "$numbers")"
done
for numbers in 64 4096; do
    printf '%8s %8d %14d\n' ask "$numbers" "$(by_pass "$numbers")"
    printf '%8s %8d %14d\n' caller "$numbers" "$(by_caller "$numbers")"
done
for workload in depend inherit lines; do
    for numbers in 64 512 4096; do
        printf '%8s %8d %14d\n' "$workload" "$numbers" "$(beyond_calls "$workload" "$numbers")"
    done
done
