#!/usr/bin/env bash
# Times the workers of `nagsched drill`, and prints one table. Run it manually; it is no part of the gate.
#   bench/drill.sh [REPEATS]     of this number of runs, 3 if no number is given, the best is printed, and the median if workers wait for each other
#   BEFORE=PROGRAM bench/drill.sh [REPEATS]     also drills another build on 4, 16 and 4,096 hosts, run in alternation with ours
# At the end drills on 16 hosts keep to two cores, so that waiting workers obstruct the worker whose turn it is.
# 4,096 hosts are taken and reported 500,000 times: a million asks, which fill the largest room. The script makes
# enough moments that 1, 2 and 4 workers share the takes equally, each taking once at each moment.
# Moments are 5 minutes apart, the hosts' check interval. So each host that doesn't run is due, also for a worker
# that is late by up to 4,096 takes. A worker that is later finds nothing due and reports nothing: `taken` is the
# share of the takes that found a host, and asks are those made.
# The ratio is to `nagsched run`, one thread without a lock, on a script of the same million calls. All times
# include reading and writing: `run` reads a line for each call, `drill` one for each moment.
set -eu
repeats=${1:-3}
hosts=4096
takes=500000
. "$(dirname "$0")/common.sh"
program=$(build_program)

fail() {
    echo "$1"
    exit 1
}

# The setup, and a take and its report at each moment.
script() {
    hosts_setup "$hosts"
    awk -v hosts="$hosts" -v takes="$takes" 'BEGIN {
        for (run = 0; run < takes; run++) {
            printf "[\"take\",%.0f]\n", run * 300000
            printf "[\"report\",\"host%04d\",%d,0]\n", run % hosts, run + 1
        }
    }'
}

# A line of the table: what ran, its asks and time, and the share of takes that found a host.
tell() {
    awk -v what="$1" -v asks="$2" -v ms="$3" -v found="$4" -v takes="$takes" -v run_ms="$run_ms" 'BEGIN {
        printf "%-16s %10d %8d %14d %7.1f%% %8.2f\n", what, asks, ms, asks * 1000 / ms, found * 100 / takes,
            (asks / ms) / (2 * takes / run_ms)
    }'
}

# Checks the output of a drill: all takes, a report for each that found a host, none refused.
check() {
    local last lines found idle
    last=$(tail -n 1 "$work/output")
    lines=$(($(wc -l < "$work/output") - 1))
    found=$(grep -c '^[0-9]* taken ' "$work/output" || true)
    idle=$(grep -c '^[0-9]* idle ' "$work/output" || true)
    [[ $last == "total $lines 0" ]] || fail "wrote $lines entries, and then: $last"
    [[ $((found + idle)) == "$takes" ]] || fail "$found takes found a host and $idle didn't, of $takes"
    [[ $(grep -c '^[0-9]* standing UP ' "$work/output") == "$found" ]] || fail "not $found reports"
    [[ $lines == $((takes + found)) ]] || fail "$lines entries, of them $takes takes and $found reports"
    echo "$found"
}

script > "$work/script"
run_ms=$(best "$work/script" "$program")
[[ $(wc -l < "$work/output") == $((2 * takes)) ]] || fail "run wrote $(wc -l < "$work/output") lines"
grep -q '^refused\|^idle' "$work/output" && fail "run refused a call, or found nothing due"
mv "$work/output" "$work/run_output"

printf '%-16s %10s %8s %14s %8s %8s\n' '' asks ms 'asks a second' taken 'to run'
tell run $((2 * takes)) "$run_ms" "$takes"
for workers in 1 2 4; do
    moments "$hosts" $((takes / workers)) > "$work/moments"
    ms=$(best "$work/moments" "$program" drill --workers "$workers" --room $((2 * takes)) --start 0)
    found=$(check) || fail "$found"
    # One worker makes exactly the calls of the script.
    if ((workers == 1)); then
        head -n -1 "$work/output" | sed 's/^0 //' | cmp - "$work/run_output"
    fi
    tell "drill, $workers" $((takes + found)) "$ms" "$found"
done

# The command that keeps a program to some cores; empty for all.
on_cores=()

# The microseconds of a call, including calls that find nothing due, of a program that drills on the moments so far.
one_drill() {
    local program=$1 workers=$2 repeats=1 ms
    ms=$(best "$work/moments" ${on_cores[@]+"${on_cores[@]}"} "$program" drill --workers "$workers" --room 1000000 --start 0)
    awk -v ms="$ms" -v calls=$(($(wc -l < "$work/output") - 1)) 'BEGIN { printf "%.3f\n", ms * 1000 / calls }'
}

# Drills with up to 64 workers, who wait for each other on few hosts: the microseconds of a call.
drills() {
    hosts=$1
    printf '\n%-24s %12s %12s %8s\n' "$hosts hosts$2" microseconds before ratio
    for workers in 1 2 4 16 64; do
        moments "$hosts" $((takes / workers)) > "$work/moments"
        : > "$work/before"
        for _ in $(seq "$repeats"); do
            [[ -z ${BEFORE:-} ]] || one_drill "$BEFORE" "$workers" >> "$work/before"
            one_drill "$program" "$workers"
        done > "$work/ours"
        awk -v workers="$workers" -v ours="$(middle < "$work/ours")" -v before="$(middle < "$work/before")" 'BEGIN {
            printf "%-24s %12.2f %12s %8s\n", "drill, " workers, ours,
                before ? sprintf("%.2f", before) : "-", before ? sprintf("%.2f", before / ours) : "-"
        }'
    done
}

drills 4 ''
drills 16 ''
drills 4096 ''
if command -v taskset > /dev/null; then
    on_cores=(taskset -c 0,1)
    drills 16 ', 2 cores'
fi
