#!/usr/bin/env bash
# Times `nagsched live`, and prints one table. Run it manually; it is no part of the gate.
#   bench/live.sh [REPEATS]     the median of this number of runs in alternation is printed, 5 if no number is given; needs a C compiler
# Lines per second compared with `run` on the same bytes. The time of a line and its answer compared with a C program that
# echoes it. The resident memory after 1,000 lines and after 1,000,000. And a line of 70 MB without an end, in 64 MB.
set -eu
. "$(dirname "$0")/common.sh"
repeats=${1:-5}
program=$(build_program)
cc -O2 -o "$work/converse" "$top/bench/converse.c"
cc -O2 -D_GNU_SOURCE -o "$work/echo" "$top/bench/echo.c"

setup='{"hosts":[{"name":"gateway","max_check_attempts":3}]}'
take='["take",0]'
{ echo "$setup"; yes "$take" | head -n 1000000; } > "$work/lines"
for _ in $(seq "$repeats"); do
    for how in run live; do
        begun=$(date +%s%N)
        "$program" "$how" < "$work/lines" > "$work/$how.out"
        echo $((($(date +%s%N) - begun) / 1000000)) >> "$work/$how.ms"
    done
    "$work/converse" 20000 "$setup" "$take" "$program" live >> "$work/live.ns"
    "$work/converse" 20000 '' "$take" "$work/echo" >> "$work/echo.ns"
done
cmp "$work/run.out" "$work/live.out"
table() { printf '%-52s %10s %10s %8s\n' "$@"; }
ratio() { awk "BEGIN { printf \"%.2f\", $1 / $2 }"; }
run=$(middle < "$work/run.ms") live=$(middle < "$work/live.ms")
table what live beside ratio
table '1,000,000 lines by one write, ms; beside run' "$live" "$run" "$(ratio "$run" "$live")"
live=$(cut -d' ' -f1 "$work/live.ns" | middle) echo=$(cut -d' ' -f1 "$work/echo.ns" | middle)
table 'a line and its answer, ns; beside an echo in C' "$live" "$echo" "$(ratio "$live" "$echo")"
few=$("$work/converse" 1000 "$setup" "$take" "$program" live) many=$("$work/converse" 1000000 "$setup" "$take" "$program" live)
table 'resident kB after 1,000,000 lines; after 1,000' "${many#* }" "${few#* }" "$(ratio "${many#* }" "${few#* }")"
{ echo "$setup"; head -c 70000000 /dev/zero | tr '\0' x; } | (ulimit -v 65536; "$program" live) > "$work/long.out"
table 'a line of 70 MB without an end, in 64 MB' "$(cat "$work/long.out")" '' ''
