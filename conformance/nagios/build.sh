#!/usr/bin/env bash
# Fetches the source package nagios4 (Nagios Core 4.4.6) from the machine's own package sources. Builds it, and the programs that run next to nagsched.
# Run it manually; it isn't part of the gate. It needs apt-get, a C compiler and make, and takes about a minute. Nothing is installed.
#   conformance/nagios/build.sh DIRECTORY     leaves DIRECTORY/harness (for judge.py), and cycle and queue (for bench/nagios.sh)
set -eu
here=$(cd "$(dirname "$0")" && pwd)
mkdir -p "$1"
work=$(cd "$1" && pwd)
sources=$work/nagios-4.4.6

if [[ ! -d $sources ]]; then
    mkdir -p "$work/lists" "$work/sources"
    # The machine's package sources again, for source packages. Only the original sources are fetched, without Debian's patches.
    for list in /etc/apt/sources.list.d/*.sources; do
        [[ ! -f $list ]] || sed 's/^Types:.*/Types: deb-src/' "$list" > "$work/sources/${list##*/}"
    done
    cat /etc/apt/sources.list /etc/apt/sources.list.d/*.list 2> /dev/null | sed -n 's/^deb /deb-src /p' > "$work/sources.list"
    options=(-qq -o "Dir::Etc::sourcelist=$work/sources.list" -o "Dir::Etc::sourceparts=$work/sources" -o "Dir::State::lists=$work/lists" -o APT::Sandbox::User=root)
    apt-get "${options[@]}" update
    (cd "$work" && apt-get "${options[@]}" source --download-only --tar-only nagios4 && tar xzf nagios4_4.4.6.orig.tar.gz)
fi
if [[ ! -f $sources/base/nagios ]]; then
    (cd "$sources" && ./configure --enable-event-broker "--prefix=$work/installed" && make nagios) > "$work/build.log" 2>&1 || { tail "$work/build.log"; exit 1; }
fi

# The harness: every object of the daemon, with its main renamed, and ten functions that --wrap sends to harness.c.
wrapped=(time gettimeofday iobroker_poll wproc_can_spawn wproc_reap wproc_run_check logit log_service_event log_host_event broker_timed_event)
cd "$sources/base"
objcopy --redefine-sym main=nagios_main nagios.o "$work/daemon.object"
mapfile -t others < <(find . -maxdepth 1 -name '*.o' ! -name nagios.o ! -name nagiostats.o | sort)
cc -O2 -Wall -Wno-unused-result -D_GNU_SOURCE=1 -DHAVE_CONFIG_H -DNSCORE -I../include -I.. "$here/harness.c" \
    -x none "$work/daemon.object" "${others[@]}" ../common/shared.o ../lib/libnagios.a -o "$work/harness" -lm -ldl "${wrapped[@]/#/-Wl,--wrap=}"

# Compiles a source of bench/ with Nagios's empty stubs for macros, logs and notifications, as an object of this name.
compile() {
    (cd "$sources/t-tap" && cc -O2 -w -fcommon -DHAVE_CONFIG_H -DNSCORE "${@:3}" -I. -I../include -I.. -c "$2" -o "$work/$1.o")
}

# Links it with objects of Nagios's.
link() {
    cc -o "$work/$1" "$work/$1.o" "${@:2}" ../lib/libnagios.a -lm -Wl,--allow-multiple-definition
}

compile cycle "$here/../../bench/nagios_cycle.c" -Dget_raw_command_line_r=command_line
objcopy --redefine-sym get_raw_command_line_r=command_line --redefine-sym process_macros_r=macros_of checks.o "$work/checks_of_cycle.o"
link cycle "$work/checks_of_cycle.o" events.o utils.o ../common/shared.o objects-base.o
compile queue "$here/../../bench/nagios_queue.c"
link queue
