#!/usr/bin/env bash
# Runs programs over the C library under valgrind's memcheck, to find forbidden accesses and blocks that are left. Run it manually.
#   c/tests/memcheck.sh [PREFIX]     the folder in which tools/build_c.sh has installed the library; the default is out/c
# The programs are c/examples/embed.c, with its four workers and an operator, and three of this folder: wrong.c; saved.c, which saves and
# resumes books; and refused.c, which refuses each request for memory in turn.
set -eu -o pipefail
top=$(cd "$(dirname "$0")/../.." && pwd)
prefix=${1:-$top/out/c}
work=$(mktemp -d)
trap 'rm -rf "$work"' EXIT

# Compiles a program with these arguments, and runs it.
checked() {
    local name=$1
    shift
    cc -std=c11 -g -O2 -I"$prefix/include" -I"$top/c/tests" "$@" "$prefix/lib/libnagsched.a" -lpthread -o "$work/$name"
    valgrind --error-exitcode=9 --leak-check=full --show-leak-kinds=all "$work/$name" > "$work/output" 2> "$work/report" \
        || { cat "$work/report"; exit 1; }
    echo "$name: $(grep -o 'in use at exit: .*' "$work/report"), $(grep -o 'ERROR SUMMARY: .* errors' "$work/report")"
}

checked embed "$top/c/examples/embed.c"
checked wrong "$top/c/tests/wrong.c" -Wl,--wrap=malloc,--wrap=realloc
checked saved "$top/c/tests/saved.c"
checked refused "$top/c/tests/refused.c" -Wl,--wrap=malloc,--wrap=realloc,--wrap=free
