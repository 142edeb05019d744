#!/usr/bin/env bash
# Compiles the program without proofs, and plays examples/office.txt on it. Needs only the kit, and takes some minutes.
#   tools/try.sh
# A program that is already in its place is played, if it is proved or of these sources.
set -eu -o pipefail
top=$(cd "$(dirname "$0")/.." && pwd)
cd "$top"
export PYTHONDONTWRITEBYTECODE=1
command -v python3 > /dev/null || { echo "tools/try.sh needs python3 (Debian's package python3)" >&2; exit 1; }
python3 .ci/needs.py try
program=crates/nagsched/out/nagsched
output=$(mktemp)
tell() { printf '%4d s  %s\n' "$SECONDS" "$*"; }
trap 'rm -f "$output"' EXIT

tell "compiling $program without proofs, if it isn't there yet"
python3 tools/unproved.py "$program"
tell "playing examples/office.txt, two minutes of a small office"
status=0
timeout 60 "$program" < examples/office.txt > "$output" || status=$?
cat "$output"
if [[ $status -ne 0 ]] || ! cmp -s "$output" examples/office.out; then
    echo "The program ended with status $status, and this isn't examples/office.out: please report it with your machine and kit." >&2
    exit 1
fi
tell "this is examples/office.out, to the byte"
built=$(python3 tools/build_file.py show "$program")
echo "$built"
[[ $built != *"not proved" ]] || echo "This program isn't proved: tools/test.sh proves it, and tools/test.sh --quick runs the tests that need no proof."
echo "Next, a site to look at: monitor/build_runner.sh && monitor/nagsched-monitor --page 127.0.0.1:8080 monitor/examples/site"
