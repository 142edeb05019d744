#!/usr/bin/env bash
# The cost of sharing one scheduler, in one table. Run it manually; it is no part of the gate.
#   bench/sharing.sh [REPEATS]    the median of this number of times is printed, 5 if no number is given
#   PREFIX=FOLDER                 where tools/build_c.sh has installed the C library; out/c if none is named
# Cache lines by bench/lines.py over 16 objects, as two passes come to them in alternation, and as one pass of a desk does. Times of
# threads by bench/asks.sh, whose table comes first. A take and its report alone, by nagsched_bench, which bench/build.sh builds. The bytes of
# an entry by the C library.
set -eu -o pipefail
repeats=${1:-5}
. "$(dirname "$0")/common.sh"
export PREFIX=${PREFIX:-$top/out/c}
build_c_asks "$PREFIX" "$work/c_asks"
alone=("$("$top/bench/build.sh")" cycle 4096)

"$top/bench/asks.sh" "$repeats" | tee "$work/times"
echo

# A desk's time of a call divided by that with the ticket lock, over 16 objects, from a column of times, on all cores or on some.
ratio() {
    awk -v column="$1" -v cores="$2" '
        $1 == 16 && (/cores/ ? $3 == cores : cores == "") { time[$(NF - 5)] = $(NF - 5 + column) }
        END { printf "%.2f", time["desk"] / time["ticket"] }' "$work/times"
}

# The fewest nanoseconds of a pair.
nanoseconds() {
    for _ in $(seq "$repeats"); do
        "${alone[@]}" 500000
    done | tr '=' ' ' | awk '{ time = $2 / $4; if (!least || time < least) least = time } END { printf "%.0f", least }'
}

row() {
    printf '%-66s %10s %8s\n' "$@"
}

# The lines of a call by the named caller; the arguments are those of bench/lines.py.
lines() {
    local caller=$1 written touched constants
    shift
    read -r _ _ written touched constants < <("$top/bench/lines.py" "$@" | tail -n 1)
    row "lines that a call $caller writes, 16 objects" "$written" 10
    row 'lines of the heap that it touches' "$(awk "BEGIN { printf \"%.1f\", $touched - $constants }")" 18
    row 'and constants of the program' "$constants" ''
}

row '' measured wanted
lines 'over the C library'
lines 'of a desk in Rattle' --pass
row 'a call of 2 threads to one behind a ticket lock of C' "$(ratio 2 '')" 1.5
row 'of 4 threads' "$(ratio 3 '')" 1.4
row 'of 2 threads on two cores' "$(ratio 2 2)" 1.5
row 'of 4 threads on two cores' "$(ratio 3 2)" 1.4
row 'a take and its report alone, 4,096 objects: instructions' \
    "$(by_cycles "${alone[@]}")" 900
row 'nanoseconds' "$(nanoseconds)" 150
row 'an entry of the history, bytes' "$("$work/c_asks" entry 1 16 1000000)" 64
