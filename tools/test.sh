#!/usr/bin/env bash
# The tests of this repository. The last line counts all of them, and the status is 0 only if none failed.
#   tools/test.sh            the gate: every proof from nothing, the must-fail edits, each test and each stored run; then, on the program that was built, the
#                            cases, the examples and the other parts of .ci/. Program, runner and C library are in their places afterwards.
#   tools/test.sh --quick    what needs no proof, on the program that is there; if there is none, tools/unproved.py compiles it
# A line tells what is done and what is left, at least once a minute. .ci/needs.py has the list of programs that are needed.
set -eu -o pipefail
top=$(cd "$(dirname "$0")/.." && pwd)
cd "$top"
# One lane per processor, without regard to the memory that `rt ci` expects: its estimate keeps processors waiting.
export RT_JOBS="${RT_JOBS:-$(nproc)}"
# Python leaves no cache next to the scripts.
export PYTHONDONTWRITEBYTECODE=1

kind=test
case "${1:-}" in
    '') ;;
    --quick) kind=quick ;;
    *) echo "tools/test.sh takes no argument or --quick, not '$1'" >&2; exit 2 ;;
esac
command -v python3 > /dev/null || { echo "tools/test.sh needs python3 (Debian's package python3)"; echo "0 passed, 1 failed"; exit 1; }
python3 .ci/needs.py "$kind" 2>&1 || { echo "0 passed, 1 failed"; exit 1; }

program=crates/nagsched/out/nagsched
work=$(mktemp -d)
trap 'rm -rf "$work"' EXIT
passed=0 failed=0
# If the tree has no library yet, those that `rt ci` leaves there are the proved ones, and the later parts use them.
# Otherwise it restores the ones that it found, and `rt lib` proves those that don't fit these sources.
proved=()
compgen -G 'crates/*/out/rlib' > /dev/null || proved=(--proved)

# Parts that run one after another. The others have lanes of their own.
short=(examples pages limits pairs judge session live devices resume damage mutated saved refusals forms setups schema tools second_opinion missing gate)

# Prints a line about the work, with the time so far.
tell() { echo "test, $((SECONDS / 60)) min $((SECONDS % 60)) s: $*"; }

# Adds the counts in the last line of a part. A part that ends with an error and without counts is one failure.
count() {
    local last
    last=$(tail -n 1 "$work/$1")
    if [[ $last =~ ([0-9]+)\ passed,\ ([0-9]+)\ failed$ ]]; then
        passed=$((passed + BASH_REMATCH[1])) failed=$((failed + BASH_REMATCH[2]))
        [[ $(cat "$work/$1.status") -eq 0 || ${BASH_REMATCH[2]} -gt 0 ]] || failed=$((failed + 1))
    else
        echo "$1: 0 passed, 1 failed"
        failed=$((failed + 1))
    fi
}

# Runs a part of the gate, and stores its output and its status.
part() {
    local name=$1 status=0
    shift
    tell "$name begins"
    "$@" > "$work/$name" 2>&1 || status=$?
    echo "$status" > "$work/$name.status"
    tell "$name ended, $(tail -n 1 "$work/$name" | cut -c1-100)"
}

# Runs parts of .ci/ one after another on the built program.
lane() {
    local name
    for name; do
        part "$name" python3 .ci/*/"$name.py" "$program"
    done
}

# Prints the output of parts, and adds their counts.
report() {
    local name
    for name; do
        cat "$work/$name"
        count "$name"
    done
}

# Passes the output of `rt ci` on, and tells after each crate, and in each minute without a line, which crates are left.
with_progress() {
    local line='' begun='' name left
    left=" $(sed -n 's/^\([a-z_]*\).*:.*/\1/p' crates.txt | tr '\n' ' ')"
    tell "crates to prove: $(wc -w <<< "$left")"
    while true; do
        if IFS= read -r -t 60 line; then
            line=$begun$line begun=''
            echo "$line"
            if [[ $line =~ ^rt:\ ([a-z_]+)\ (proved|is\ kept) ]]; then
                name=${BASH_REMATCH[1]} left=${left/ $name / }
                tell "$name is proved, crates left: $(wc -w <<< "$left")"
            fi
        elif [[ $? -gt 128 ]]; then
            begun+=$line
            tell "rt ci still runs; crates left: $(wc -w <<< "$left")$left"
        else
            break
        fi
    done
    echo "$begun"
}

# Whether `rt ci` has proved a crate, and built its program or library.
is_proved() { grep -qsE "^rt: $1 (proved|is kept)" "$work/ci"; }

# Waits until `rt ci` has proved a crate, or has ended.
await_program() {
    until [[ -e $work/ci.status ]] || is_proved "$1"; do
        sleep 1
    done
}

# The whole gate. The proofs run next to the parts, and leave them the processors, since many tests run against the clock.
run_gate() {
    { { nice rt ci && echo 0 > "$work/ci.status" || echo $? > "$work/ci.status"; } 2>&1 | tee "$work/ci" | with_progress; } &
    local proofs=$!
    await_program nagsched
    await_program nagsched_loop
    ! is_proved nagsched || python3 tools/build_file.py write "$program" proved
    lane monitor &
    lane "${short[@]}" generations &
    # The installation has the library too, so it waits for it.
    { await_program nagsched_c; part c_library nice python3 .ci/deliverables/c_library.py "$program" "${proved[@]}"; lane install; } &
    part conformance python3 conformance/check "$program"
    part names python3 .ci/pages/names.py
    wait "$proofs"
    count ci
    part edits nice python3 .ci/edits/edits.py "${proved[@]}"
    wait
    report edits conformance names "${short[@]}" generations monitor c_library install
    # The must-fail edits that were refused for another reason than a clause, or couldn't be tried.
    grep -E 'must-fail .*(BAD EDIT|refused, as it must be \(only )' "$work/ci" | cut -c1-160 || true
}

# What needs no proof.
run_quick() {
    tell "compiling the program without proofs, if it isn't proved yet"
    python3 tools/unproved.py "$program" || { echo "0 passed, 1 failed"; exit 1; }
    tell "$(python3 tools/build_file.py show "$program")"
    lane monitor &
    lane "${short[@]}" install &
    part conformance python3 conformance/check "$program"
    part names python3 .ci/pages/names.py
    wait
    report conformance names "${short[@]}" monitor install
    echo "Not run, since they need proofs: rt ci with its must-fail edits and tests, edits, generations, c_library."
}

# Says what is built, and what to do with it.
say_what_is_next() {
    echo "Built: $(python3 tools/build_file.py show "$program"), and monitor/out/nagsched-runner"
    [[ $kind = quick ]] || echo "Built: the C library, in out/c"
    echo "Next: tools/install.sh [PREFIX] installs what is built; README.md shows a site to look at, and a trial next to Nagios."
}

main() {
    if [[ $kind = test ]]; then run_gate; else run_quick; fi
    # The processor time of all parts, user and system.
    times > "$work/times"
    echo "processor time $(tail -n 1 "$work/times"), $((SECONDS / 60)) minutes by the clock"
    [[ $failed -gt 0 ]] || say_what_is_next
    echo "$passed passed, $failed failed"
    [[ $failed -eq 0 ]]
}

# On one line, since bash reads on in this file, which may have been changed meanwhile.
main; exit
