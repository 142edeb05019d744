# What the benchmarks share; each benchmark reads this file. It has the top of the repository in `top`, and a folder for temporary files in `work`.
top=$(cd "$(dirname "${BASH_SOURCE[0]}")/.." && pwd)
work=$(mktemp -d)
trap 'rm -rf "$work"' EXIT

# Proves and builds the program if it isn't built yet, and prints its path.
build_program() {
    (cd "$top/crates/nagsched" && rt run < stdin > "$work/build.log" 2>&1) || { cat "$work/build.log" >&2; exit 1; }
    echo "$top/crates/nagsched/out/nagsched"
}

# Builds the program bench/c_asks.c over the C library under a folder: tools/build_c.sh installs it there if it isn't there yet.
build_c_asks() {
    [[ -f $1/lib/libnagsched.a ]] || "$top/tools/build_c.sh" "$1"
    cc -std=c11 -O2 -Wall -Wextra -I"$1/include" "$top/bench/c_asks.c" "$1/lib/libnagsched.a" -lpthread -o "$2"
}

# Lets the C library store by words, since valgrind counts a string store byte by byte.
store_by_words() {
    export GLIBC_TUNABLES=glibc.cpu.x86_rep_stosb_threshold=100000000:glibc.cpu.x86_rep_movsb_threshold=100000000
}

# The instructions of a program, for its arguments and standard input, by valgrind's callgrind. Its profile is written to the file `profile`, if it is set.
instructions() {
    valgrind --tool=callgrind --callgrind-out-file="${profile:-/dev/null}" "$@" 2>&1 > "$work/output" | sed -n 's/.*Collected : //p'
}

# The instructions of a cycle of a program's workload, after 21 results of each object.
by_cycles() {
    echo $((($(instructions "$@" 140000 untimed) - $(instructions "$@" 100000 untimed)) / 40000))
}

# A setup of this number of hosts, each checked every 5 minutes: one line.
hosts_setup() {
    awk -v hosts="$1" 'BEGIN {
        printf "{\"options\":{\"host_inter_check_delay_method\":\"n\"},\"hosts\":["
        for (h = 0; h < hosts; h++)
            printf "%s{\"name\":\"host%04d\",\"max_check_attempts\":3}", h ? "," : "", h
        print "]}"
    }'
}

# A drill's input: such a setup, and this number of moments, 5 minutes apart.
moments() {
    hosts_setup "$1"
    awk -v count="$2" 'BEGIN { for (at = 0; at < count; at++) printf "[\"moment\",%.0f]\n", at * 300000 }'
}

# The best time of a command over an input, in milliseconds: `repeats` runs of it write to $work/output.
best() {
    local least=999999999
    for _ in $(seq "$repeats"); do
        local begun ended
        begun=$(date +%s%N)
        "${@:2}" < "$1" > "$work/output"
        ended=$(date +%s%N)
        local taken=$(((ended - begun) / 1000000))
        ((taken < least)) && least=$taken
    done
    echo "$least"
}

# The median of the numbers that it reads.
middle() {
    sort -n | awk '{ numbers[NR] = $1 } END { print numbers[int((NR + 1) / 2)] }'
}
