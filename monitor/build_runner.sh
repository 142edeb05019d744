#!/usr/bin/env bash
# Builds nagsched-runner, the program that starts the monitor's plugins; needs cc. It is linked statically, so that starting a plugin is cheaper, and the
# program runs on other machines of the same kind. CFLAGS replaces that option.
#   monitor/build_runner.sh [FILE]     monitor/out/nagsched-runner if no file is named; the monitor finds it there
set -eu
here=$(cd "$(dirname "$0")" && pwd)
file=${1:-$here/out/nagsched-runner}
version=$(cat "$here/../VERSION")
mkdir -p "$(dirname "$file")"
# The file is replaced as a whole, since a monitor may run it while it is built again.
made=$(mktemp "$file.XXXXXX")
trap 'rm -f "$made"' EXIT
cc -std=c11 -O2 -Wall -Wextra -Wconversion -Werror ${CFLAGS--static} -pthread "-DVERSION=\"$version\"" -o "$made" "$here"/runner/*.c -lm
chmod 755 "$made"
mv "$made" "$file"
