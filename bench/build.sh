#!/usr/bin/env bash
# Proves and builds the workloads that the scripts in this folder time, if they aren't built yet, and prints the program's path.
#   bench/build.sh
# The crate nagsched_bench, in bench/workloads, is no crate of the gate. So it's built in a copy of the crates, next to them. Its sources end
# in .in, because rt accepts no source that isn't part of a crate in crates.txt.
set -eu
top=$(cd "$(dirname "$0")/.." && pwd)
program=$top/bench/out/nagsched_bench
newer=$([[ -f $program ]] && find "$top/crates" "$top/bench/workloads" \( -name '*.rt' -o -name '*.antt' -o -name '*.in' \) -newer "$program" -print -quit || true)
if [[ ! -f $program || -n $newer ]]; then
    work=$(mktemp -d)
    trap 'rm -rf "$work"' EXIT
    tar -C "$top" --exclude=incremental -cf - crates crates.txt HANDLES | tar -C "$work" -xf -
    cp -a "$top/bench/workloads" "$work/crates/nagsched_bench"
    find "$work/crates/nagsched_bench" -name '*.in' -exec sh -c 'mv "$1" "${1%.in}"' _ {} \;
    cat "$top/bench/workloads/uses" >> "$work/crates.txt"
    mapfile -t words < "$top/bench/workloads/args"
    (cd "$work/crates/nagsched_bench" && rt run -- "${words[@]}" > "$work/build.log" 2>&1) || { cat "$work/build.log" >&2; exit 1; }
    mkdir -p "$top/bench/out"
    cp "$work/crates/nagsched_bench/out/nagsched_bench" "$program"
fi
echo "$program"
