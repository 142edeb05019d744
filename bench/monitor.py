#!/usr/bin/env python3
"""The monitor compared with Nagios 4: checks per second, their lateness, processor time, memory.

    bench/monitor.py PROGRAM [--write] [RATE..]     manually; needs cc, the runner that monitor/build_runner.sh makes, and Debian's package nagios4-core,
                                                    which it fetches and unpacks into a temporary folder

With --write the figures replace those of bench/results/monitor.tsv, and `.ci/pages/generated.py` then writes them to the pages. That needs a machine with no other
work, all rates, and ten minutes.

For each rate (18, 200, 500, 800 and 2,000 checks due per second) both run the same services for SECONDS, one after the other. Each service is checked every
ten seconds, with a plugin in C that ends at once. At 500 the monitor also runs with a disk whose sync takes ten milliseconds more. Latency is the lateness
of the last check of each service, in milliseconds: for Nagios from its status file, for the monitor from its database. Processor time is that of all
processes except plugins, in milliseconds per check. Restart is the time from the monitor's start until it answers. Reload is the time of its command
`reload`. Both are measured over the site of that rate.
"""
import functools
import json
import os
import pathlib
import signal
import socket
import sqlite3
import statistics
import subprocess
import sys
import tempfile
import time

import results

TOP = pathlib.Path(__file__).resolve().parent.parent
SECONDS, INTERVAL = 40, 10
RATES = (18, 200, 500, 800, 2000)
SLOW = 500
MOST_IN_A_PART = 4000
MONITOR = TOP / "monitor/nagsched-monitor"
COLUMNS = ("Due per second", "System", "Made per second", "Processor ms per check", "Memory, MB", "Latency, ms", "Restart, s", "Reload, s")
NAMES = {"Nagios": "Nagios 4.4.6", "monitor": "the monitor", "slow disk": "the monitor, each sync 10 ms slower"}
PLUGIN = r"""
#include <fcntl.h>
#include <stdio.h>
#include <unistd.h>
int main(int count, char **words) {
    int file = open(words[1], O_WRONLY | O_APPEND | O_CREAT, 0644);
    (void)!write(file, ".", 1);
    puts("fine");
    return 0;
}
"""


def names_of(rate):
    return [f"s{number:05}" for number in range(rate * INTERVAL)]


def processes_below(process):
    """A process and all that it started, except plugins."""
    found, left = [], [process]
    while left:
        each = left.pop()
        try:
            children = pathlib.Path(f"/proc/{each}/task/{each}/children").read_text().split()
            name = pathlib.Path(f"/proc/{each}/comm").read_text().strip()
        except OSError:
            continue
        if name != "plugin":
            found.append(each)
            left += map(int, children)
    return found


def usage(process):
    """Processor seconds and resident megabytes of all processes except plugins."""
    ticks = pages = 0
    for each in processes_below(process):
        try:
            fields = pathlib.Path(f"/proc/{each}/stat").read_text().rpartition(")")[2].split()
        except OSError:
            continue
        ticks += int(fields[11]) + int(fields[12])
        pages += int(fields[21])
    return ticks / os.sysconf("SC_CLK_TCK"), pages * os.sysconf("SC_PAGE_SIZE") / 1e6


def measure(command, count, status, environment=None):
    """Runs a command for this time: checks, processor seconds and megabytes over the second half, and the text of its status file at the end."""
    running = subprocess.Popen([str(word) for word in command], stdout=subprocess.DEVNULL, stderr=subprocess.DEVNULL, env=environment)
    time.sleep(SECONDS / 2)
    before, made, begin = usage(running.pid), count.stat().st_size, time.monotonic()
    time.sleep(SECONDS / 2)
    after, all_made, seconds = usage(running.pid), count.stat().st_size, time.monotonic() - begin
    text = status.read_text() if status.exists() else ""
    running.send_signal(signal.SIGTERM)
    running.wait(timeout=60)
    checks = all_made - made
    return (checks / seconds, (after[0] - before[0]) * 1000 / max(checks, 1), after[1]), text


def percentiles(late):
    ordered = sorted(late) or [0]
    return statistics.median(ordered), ordered[len(ordered) * 95 // 100]


# ---- Nagios


def measure_nagios(work, binary, plugin, rate):
    folder = work / f"nagios-{rate}"
    (folder / "spool").mkdir(parents=True)
    options = {
        "log_file": folder / "log", "cfg_file": folder / "objects.cfg", "object_cache_file": folder / "cache", "status_file": folder / "status",
        "temp_file": folder / "tmp", "temp_path": folder, "check_result_path": folder / "spool", "lock_file": folder / "pid",
        "command_file": folder / "cmd", "query_socket": folder / "query",
        "interval_length": 1, "max_service_check_spread": 1, "status_update_interval": 5, "execute_host_checks": 0, "check_for_updates": 0,
        "nagios_user": "root", "nagios_group": "root", "log_initial_states": 0, "use_syslog": 0, "enable_notifications": 0, "check_external_commands": 0,
    }
    (folder / "nagios.cfg").write_text("".join(f"{name}={value}\n" for name, value in options.items()))
    always = "".join(f" {day} 00:00-24:00\n" for day in ("sunday", "monday", "tuesday", "wednesday", "thursday", "friday", "saturday"))
    objects = [f"define timeperiod {{\n timeperiod_name always\n alias always\n{always}}}\n",
               f"define command {{\n command_name c\n command_line {plugin} {folder}/count\n}}\n",
               "define command {\n command_name n\n command_line /bin/true\n}\n",
               "define contact {\n contact_name nobody\n host_notifications_enabled 0\n service_notifications_enabled 0\n host_notification_commands n\n"
               " service_notification_commands n\n host_notification_period always\n service_notification_period always\n}\n",
               "define host {\n host_name h\n address h\n max_check_attempts 3\n check_period always\n notifications_enabled 0\n}\n"]
    for name in names_of(rate):
        objects.append(f"define service {{\n host_name h\n service_description {name}\n check_command c\n max_check_attempts 3\n"
                       f" check_interval {INTERVAL}\n retry_interval {INTERVAL}\n check_period always\n notifications_enabled 0\n}}\n")
    (folder / "objects.cfg").write_text("".join(objects))
    (folder / "count").touch()
    figures, text = measure([binary, folder / "nagios.cfg"], folder / "count", folder / "status")
    late = [float(line.partition("=")[2]) * 1000 for line in text.splitlines() if line.strip().startswith("check_latency=")]
    return figures, percentiles(late), None


# ---- the monitor


def measure_monitor(work, program, plugin, rate, environment=None):
    folder = work / f"monitor-{rate}{'' if environment is None else '-slow'}"
    folder.mkdir()
    names = names_of(rate)
    parts = [names[first : first + MOST_IN_A_PART] for first in range(0, len(names), MOST_IN_A_PART)]
    commands = {}
    for number, part in enumerate(parts, 1):
        host = {"name": f"h{number}", "check_interval": 0, "max_check_attempts": 3}
        services = [{"host": f"h{number}", "description": name, "check_interval": INTERVAL, "max_check_attempts": 3} for name in part]
        setup = {"options": {"interval_length": 1, "max_service_check_spread": 1}, "hosts": [host], "services": services}
        (folder / f"part-{number}.json").write_text(json.dumps(setup))
        commands |= {name: {"line": f"{plugin} {folder}/count"} for name in [f"h{number}", *(f"h{number};{name}" for name in part)]}
    (folder / "commands.json").write_text(json.dumps(commands))
    (folder / "monitor.json").write_text(json.dumps({"slots": 500}))
    (folder / "count").touch()
    figures, _ = measure([sys.executable, MONITOR, "--program", program, folder], folder / "count", folder / "none", environment)
    late = percentiles(late_of(folder))
    return figures, late, measure_restart(folder, program)


def measure_restart(folder, program):
    """The seconds of a restart and of a reload."""
    begin = time.monotonic()
    running = subprocess.Popen([sys.executable, MONITOR, "--program", program, folder], stdout=subprocess.DEVNULL, stderr=subprocess.DEVNULL)
    while not is_answering(folder):
        if running.poll() is not None:
            sys.exit(f"bench: the monitor ended with status {running.returncode} at its start")
        time.sleep(0.01)
    restart, begin = time.monotonic() - begin, time.monotonic()
    run_command(folder, "reload").check_returncode()
    reload = time.monotonic() - begin
    running.send_signal(signal.SIGTERM)
    running.wait(timeout=60)
    return restart, reload


def is_answering(folder):
    """Whether the monitor of a folder answers a request. Its command `status` reads the database alone."""
    try:
        with socket.socket(socket.AF_UNIX) as client:
            client.settimeout(60)
            client.connect(str(folder / "monitor.socket"))
            client.sendall(b'{"do":"signs"}\n')
            return bool(client.recv(1))
    except OSError:
        return False


def run_command(folder, *arguments):
    return subprocess.run([sys.executable, MONITOR, folder, *arguments], stdout=subprocess.DEVNULL, stderr=subprocess.DEVNULL, check=False)


def late_of(folder):
    """The lateness of the last check of each object, in milliseconds, from the table of standings."""
    with sqlite3.connect(folder / "monitor.db") as database:
        return [late * 1000 for (late,) in database.execute("SELECT late FROM standings WHERE late IS NOT NULL")]


def prepare(work):
    """Nagios, the plugin, and the library that slows each sync, in this folder."""
    (work / "plugin.c").write_text(PLUGIN)
    subprocess.run(["cc", "-O2", "-static", "-o", work / "plugin", work / "plugin.c"], check=True)
    subprocess.run(["apt-get", "download", "nagios4-core"], cwd=work, check=True, stdout=subprocess.DEVNULL, stderr=subprocess.DEVNULL)
    subprocess.run(["dpkg", "-x", next(work.glob("nagios4-core*.deb")), work / "nagios"], check=True)
    subprocess.run(["cc", "-shared", "-fPIC", "-o", work / "slow_sync.so", TOP / "monitor/tests/slow_sync.c", "-ldl"], check=True)


def row_of(rate, who, measured):
    """The cells of a measurement."""
    (a_second, cost, megabytes), late, ends = measured
    latency = ", ".join(f"{each:.0f}" for each in late)
    return [f"{rate:,}", NAMES[who], f"{a_second:,.0f}", f"{cost:.2f}", f"{megabytes:.0f}", latency, *(["-", "-"] if ends is None else (f"{each:.1f}" for each in ends))]


def main(program, *words):
    rates = [int(word) for word in words if word != "--write"] or RATES
    rows = []
    with tempfile.TemporaryDirectory() as holder:
        work = pathlib.Path(holder)
        prepare(work)
        slow = {**os.environ, "LD_PRELOAD": str(work / "slow_sync.so")}
        print("\t".join(COLUMNS))
        for rate in rates:
            sides = {"Nagios": (measure_nagios, work / "nagios/usr/sbin/nagios4"), "monitor": (measure_monitor, program)}
            if rate == SLOW:
                sides["slow disk"] = (functools.partial(measure_monitor, environment=slow), program)
            for who, (ran, binary) in sides.items():
                rows.append(row_of(rate, who, ran(work, binary, work / "plugin", rate)))
                print("\t".join(rows[-1]), flush=True)
    if "--write" in words:
        results.write_table("monitor", "bench/monitor.py PROGRAM --write", COLUMNS, rows)


if __name__ == "__main__":
    main(str(pathlib.Path(sys.argv[1]).resolve()), *sys.argv[2:])
