#!/usr/bin/env bash
# Times how long `nagsched check` takes to refuse and explain a setup whose 4,096 objects are one cycle, and one of 2,048. Run
# manually; no part of the gate.
#   bench/cycles.sh
# The first setup's hosts are each the parent of the next one. The second one has a host with services, each of
# which depends on the next one. Each time is the best of five runs.
set -eu
. "$(dirname "$0")/common.sh"
program=$(build_program)

# This number of hosts, each a parent of the one before it, and the first of the last.
parents() {
    awk -v count="$1" 'BEGIN {
        printf "{\"hosts\":["
        for (h = 0; h < count; h++)
            printf "%s{\"name\":\"h%d\",\"parents\":[\"h%d\"],\"max_check_attempts\":1}", h ? "," : "", h, (h + 1) % count
        print "]}"
    }'
}

# A host with one service fewer. Each service depends on the next one, and the last on the first.
services() {
    awk -v count="$1" 'BEGIN {
        printf "{\"hosts\":[{\"name\":\"h\",\"max_check_attempts\":1}],\"services\":["
        for (s = 1; s < count; s++)
            printf "%s{\"host\":\"h\",\"description\":\"s%d\",\"max_check_attempts\":1}", (s > 1 ? "," : ""), s
        printf "],\"service_dependencies\":["
        for (s = 1; s < count; s++)
            printf "%s{\"dependent\":\"h;s%d\",\"master\":\"h;s%d\",\"criteria\":\"c\"}", (s > 1 ? "," : ""), s, (s + 1 < count ? s + 1 : 1)
        print "]}"
    }'
}

# The milliseconds that the best of five checks of a setup takes. A refused setup ends in status 1.
best_check() {
    local least=1000000000 begun took
    for _ in 1 2 3 4 5; do
        begun=$(date +%s%N)
        "$program" check < "$1" > "$work/output" || [[ $? == 1 ]]
        took=$((($(date +%s%N) - begun) / 1000))
        ((took < least)) && least=$took
    done
    awk -v took="$least" 'BEGIN { printf "%.1f", took / 1000 }'
}

for sort in parents services; do
    for count in 2048 4096; do
        "$sort" "$count" > "$work/setup"
        printf '%s, %d objects: %s ms\n' "$sort" "$count" "$(best_check "$work/setup")"
        tail -1 "$work/output" | cut -c 1-100
    done
done
