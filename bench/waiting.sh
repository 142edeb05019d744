#!/usr/bin/env bash
# Prints the cost of threads that wait for each other, on this machine as it is and next to busy programs. Run it manually; it isn't part of the gate.
#   bench/waiting.sh PROGRAM [REPEATS]     the median of this number of runs is printed, 5 if no number is given
#   PREFIX=FOLDER                          the folder of tools/build_c.sh with the C library; without it there are only the rows of the program
#   BEFORE=PROGRAM                         another build of the program: one more row
# Microseconds of a call by the clock, and by the processor time of all threads together, for takes and reports over 16 objects. At first
# nothing else runs, and then a busy loop for each processor. The rows, in alternation:
#   drill    the workers of `nagsched drill`, with all that it reads and writes
#   before   the same by the other build
#   desk     threads over the C library, each with a pass of its own
#   mutex    the same with one pass behind a mutex
set -eu -o pipefail
[[ $# -ge 1 ]] || { sed -n 's/^# \?//; 2,12p' "$0" >&2; exit 2; }
program=$1
repeats=${2:-5}
takes=100000
. "$(dirname "$0")/common.sh"
busy=()
end() {
    [[ ${#busy[@]} == 0 ]] || kill "${busy[@]}"
    rm -rf "$work"
}
trap end EXIT
counts='1 2 4 8 16'
rows=drill
[[ -z ${BEFORE:-} ]] || rows="$rows before"
if [[ -n ${PREFIX:-} ]]; then
    build_c_asks "$PREFIX" "$work/c_asks"
    rows="$rows desk mutex"
fi

# Runs a row by this number of threads.
run() {
    case $1 in
        drill) "$program" drill --workers "$2" --room $((2 * takes)) --start 0 < "$work/moments.$2" ;;
        before) "$BEFORE" drill --workers "$2" --room $((2 * takes)) --start 0 < "$work/moments.$2" ;;
        *) "$work/c_asks" "$1" "$2" 16 "$takes" ;;
    esac > "$work/output"
}

# The microseconds of a call of a row by this number of threads: by the clock, and of processor time.
one() {
    local TIMEFORMAT='%R %U %S'
    { time run "$1" "$2"; } 2> "$work/time"
    awk -v calls=$((2 * takes)) '{ printf "%.3f %.3f\n", $1 * 1000000 / calls, ($2 + $3) * 1000000 / calls }' "$work/time"
}

table() {
    local threads row kind
    rm -f "$work"/times.*
    for threads in $counts; do
        for _ in $(seq "$repeats"); do
            for row in $rows; do
                one "$row" "$threads" >> "$work/times.$row.$threads"
            done
        done
    done
    for kind in clock processor; do
        for row in $rows; do
            printf '%-12s %-10s %-8s' "$1" "$kind" "$row"
            for threads in $counts; do
                printf ' %8.2f' "$(awk -v kind="$kind" '{ print kind == "clock" ? $1 : $2 }' "$work/times.$row.$threads" | middle)"
            done
            echo
        done
    done
}

for threads in $counts; do
    moments 16 $((takes / threads)) > "$work/moments.$threads"
done
printf '%-32s' threads
printf ' %8s' $counts
echo
table 'as it is'
for _ in $(seq "$(nproc)"); do
    while :; do :; done &
    busy+=($!)
done
table 'busy'
