#!/usr/bin/env bash
# Times the built program on long scripts, and prints one table. Run it manually; it is no part of the gate.
#   bench/run.sh [REPEATS]     the best of this number of runs is printed, 3 if no number is given
# For 64, 512 and 4,096 hosts an input of 60 MB is made here: round after round each host is taken and
# its result reported. The ratio is to the time in which `jq -c .` reads the same bytes, in the same run.
set -eu
repeats=${1:-3}
. "$(dirname "$0")/common.sh"
program=$(build_program)

# A setup of this number of hosts, each checked every 5 minutes, and takes and reports that fill 60 MB.
input() {
    hosts_setup "$1"
    awk -v hosts="$1" -v bytes=60000000 -v written="$(hosts_setup "$1" | wc -c)" 'BEGIN {
        for (run = 0; ; run++) {
            take = sprintf("[\"take\",%.0f]", int(run / hosts) * 300000)
            report = sprintf("[\"report\",\"host%04d\",%d,0]", run % hosts, run + 1)
            written += length(take) + length(report) + 2
            if (written > bytes)
                exit
            print take
            print report
        }
    }'
}

printf '%8s %10s %8s %14s %8s %12s\n' hosts calls ms 'calls a second' 'jq ms' 'ratio to jq'
for hosts in 64 512 4096; do
    input "$hosts" > "$work/input"
    calls=$(($(wc -l < "$work/input") - 1))
    jq_ms=$(best "$work/input" jq -c .)
    ms=$(best "$work/input" "$program")
    lines=$(wc -l < "$work/output")
    refused=$(grep -c '^refused' "$work/output" || true)
    [[ $lines == "$calls" && $refused == 0 ]] || { echo "wrote $lines lines for $calls calls, $refused refused"; exit 1; }
    awk -v hosts="$hosts" -v calls="$calls" -v ms="$ms" -v jq="$jq_ms" 'BEGIN {
        printf "%8d %10d %8d %14d %8d %12.2f\n", hosts, calls, ms, calls * 1000 / ms, jq, ms / jq
    }'
done
