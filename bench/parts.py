#!/usr/bin/env python3
"""Sites of 1,000 hosts and 20,000 services in parts with mirrors: the cost of taking them over, and of running them.

    bench/parts.py PROGRAM [SECONDS [--write]]      manually; with --write the figures replace those of bench/results/parts.tsv

Two networks of Nagios's own files, one behind a single gateway and one in a tree of ten children each, every object checked every five minutes. For each:
parts and mirrors; seconds, processor seconds and megabytes of `monitor/from_nagios/from_nagios.py --site`. Then the monitor runs it for SECONDS (300) with plugins that
end at once. The figures of that run are checks per second over the second half, and their lateness at the median and the 95th percentile, in milliseconds.
Then processor milliseconds per check, and resident megabytes of all processes except plugins. Last the seconds of a restart until it answers, and of a reload.
"""
import json
import os
import pathlib
import signal
import sqlite3
import subprocess
import sys
import tempfile
import time

import monitor
import results

TOP = pathlib.Path(__file__).resolve().parent.parent
sys.path.insert(0, str(TOP / "monitor"))
from tests.networks import write_network

HOSTS, SERVICES = 1_000, 20
NETWORKS = {"one gateway": 0, "a tree": 10}
COLUMNS = ("Network", "Parts, mirrors", "Converter, MB", "Monitor, MB", "Checks per second", "Processor ms per check", "Restart, s", "Reload, s")


def prepare_site(folder, children):
    """Makes the folder of a site: parts, mirrors, seconds, processor seconds, megabytes."""
    write_network(folder, HOSTS, SERVICES, children)
    begin = time.monotonic()
    made = subprocess.Popen([sys.executable, TOP / "monitor/from_nagios/from_nagios.py", "--site", folder / "site", folder / "nagios.cfg", folder / "objects.precache"],
                            stderr=subprocess.DEVNULL)
    _, status, used = os.wait4(made.pid, 0)
    seconds = time.monotonic() - begin
    assert status == 0
    mirrors = json.loads((folder / "site/mirrors.json").read_text())
    parts = len(list((folder / "site").glob("part-*.json")))
    return parts, sum(map(len, mirrors.values())), seconds, used.ru_utime + used.ru_stime, used.ru_maxrss / 1000


def checks_of(folder):
    """The number of results that the monitor has counted, and when it wrote that."""
    with sqlite3.connect(folder / "monitor.db") as database:
        figures = dict(database.execute("SELECT name, value FROM figures"))
    return sum(value for name, value in figures.items() if name.startswith("checks.")), figures.get("written_at", 0)


def run(folder, program, seconds):
    """Runs the site: checks a second, lateness, processor time and memory."""
    running = subprocess.Popen([sys.executable, monitor.MONITOR, "--program", program, folder], stdout=subprocess.DEVNULL, stderr=subprocess.DEVNULL)
    time.sleep(seconds / 2)
    before, (made, begin) = monitor.usage(running.pid), checks_of(folder)
    time.sleep(seconds / 2)
    after, (all_made, end) = monitor.usage(running.pid), checks_of(folder)
    running.send_signal(signal.SIGTERM)
    running.wait(timeout=60)
    checks = all_made - made
    return checks / max(end - begin, 1), monitor.percentiles(monitor.late_of(folder)), (after[0] - before[0]) * 1000 / max(checks, 1), after[1]


def main(program, seconds="300", *words):
    rows = []
    print(f"{'':12} {'parts':>5} {'mirrors':>7} {'take-over s':>11} {'CPU s':>6} {'MB':>5} "
          f"{'checks a second':>16} {'median ms':>10} {'95th ms':>8} {'CPU ms a check':>15} {'MB':>6} {'restart s':>9} {'reload s':>8}")
    for name, children in NETWORKS.items():
        with tempfile.TemporaryDirectory() as holder:
            folder = pathlib.Path(holder)
            parts, mirrors, took, processor, megabytes = prepare_site(folder, children)
            print(f"{name:12} {parts:>5} {mirrors:>7} {took:>11.1f} {processor:>6.1f} {megabytes:>5.0f}", end=" ", flush=True)
            a_second, (median, late), cost, resident = run(folder / "site", program, float(seconds))
            restart, reload = monitor.measure_restart(folder / "site", program)
            print(f"{a_second:>16.1f} {median:>10.1f} {late:>8.1f} {cost:>15.2f} {resident:>6.0f} {restart:>9.2f} {reload:>8.2f}", flush=True)
            rows.append([name, f"{parts}, {mirrors}", f"{megabytes:.0f}", f"{resident:.0f}", f"{a_second:.1f}", f"{cost:.2f}", f"{restart:.1f}", f"{reload:.1f}"])
    if "--write" in words:
        results.write_table("parts", f"bench/parts.py PROGRAM {seconds} --write", COLUMNS, rows)


if __name__ == "__main__":
    main(str(pathlib.Path(sys.argv[1]).resolve()), *sys.argv[2:])
