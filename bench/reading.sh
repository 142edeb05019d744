#!/usr/bin/env bash
# Counts instructions of reading by valgrind's callgrind, and prints them. Run it manually; it is no part of the gate.
#   bench/reading.sh [PROFILE]     PROFILE: a file for the functions that use most instructions when a setup is read
# Line feeds: the program looks for them in a first line of 20 MB and in one of 60 MB, both refused as too long;
# the difference, divided by the bytes. A setup: it is at its limits of objects and dependencies, with names so long that
# it has nearly 16 MiB. The program reads it, and Rust's serde_json reads the same bytes into a tree. Cargo builds that
# from Debian's librust-serde-json-dev. If that package isn't installed, its line is left out.
set -eu
profile=${1:-}
registry=/usr/share/cargo/registry
. "$(dirname "$0")/common.sh"
store_by_words
program=$(build_program)

# One line of this number of bytes.
line() {
    head -c "$1" /dev/zero | tr '\0' ' '
}

# A host and 4,095 services, and 16,384 dependencies of two names, each of `letters` and some more bytes.
setup() {
    awk -v objects=4096 -v dependencies=16384 -v letters="$1" 'BEGIN {
        for (more = 0; more < letters; more++)
            long = long "x"
        host = "h" substr(long, 1, letters / 2)
        service = "s" substr(long, 1, letters - length(host))
        printf "{\"hosts\":[{\"name\":\"%s\",\"max_check_attempts\":3}],\"services\":[", host
        for (s = 1; s < objects; s++)
            printf "%s{\"host\":\"%s\",\"description\":\"%s%04d\",\"max_check_attempts\":3}", (s > 1 ? "," : ""), host, service, s
        printf "],\"service_dependencies\":["
        # Each depends on some before it, so that there is no cycle.
        for (d = 0; d < dependencies; d++) {
            dependent = 2 + d % (objects - 2)
            master = 1 + (d * 7919) % (dependent - 1)
            printf "%s{\"dependent\":\"%s;%s%04d\",\"master\":\"%s;%s%04d\",\"criteria\":\"c\"}", d ? "," : "",
                host, service, dependent, host, service, master
        }
        print "]}"
    }'
}

# Builds a program that reads its input into a tree of serde_json, from the installed sources.
build_serde() {
    mkdir -p "$work/tree/src" "$work/tree/.cargo"
    cat > "$work/tree/Cargo.toml" <<'T'
[package]
name = "tree"
version = "0.1.0"
edition = "2021"
[dependencies]
serde_json = "1"
T
    cat > "$work/tree/.cargo/config.toml" <<T
[source.crates-io]
replace-with = "installed"
[source.installed]
directory = "$registry"
T
    cat > "$work/tree/src/main.rs" <<'R'
fn main() {
    let mut bytes = Vec::new();
    std::io::Read::read_to_end(&mut std::io::stdin(), &mut bytes).unwrap();
    let tree: serde_json::Value = serde_json::from_slice(&bytes).unwrap();
    println!("{}", tree.as_object().unwrap().len());
}
R
    (cd "$work/tree" && cargo build --release --offline)
}

line 20000000 > "$work/short"
line 60000000 > "$work/long"
short=$(instructions "$program" < "$work/short")
long=$(instructions "$program" < "$work/long")
awk -v short="$short" -v long="$long" 'BEGIN { printf "line feeds: %.2f instructions a byte\n", (long - short) / 40000000 }'

setup 423 > "$work/setup"
bytes=$(wc -c < "$work/setup")
((bytes <= 16777217)) || { echo "the setup has $bytes bytes"; exit 1; }
read=$(instructions "$program" < "$work/setup")
[[ ! -s $work/output ]] || { cat "$work/output"; exit 1; }
printf 'a setup of %d bytes: %d instructions\n' "$bytes" "$read"
if ls "$registry"/serde_json-1* > "$work/output" 2>&1 && build_serde 2> "$work/build.log"; then
    profile=''
    tree=$(instructions "$work/tree/target/release/tree" < "$work/setup")
    awk -v read="$read" -v tree="$tree" 'BEGIN { printf "serde_json: %d instructions; the program to it: %.2f\n", tree, read / tree }'
fi
