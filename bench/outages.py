#!/usr/bin/env python3
"""An hour of trouble: hung plugins, a stopped runner, a killed scheduler, a full disk, and an outage in which plugins take 30 seconds.

    bench/outages.py PROGRAM SITE [SECONDS]     manually, as root; SITE has Nagios's nagios.cfg, resource.cfg and objects.precache

The monitor runs the site against the real clock. A plugin in sh takes the place of all plugins. The site's folder is a file system of its own, so that it can
be filled. SECONDS is the length of a minute of the plan, 60 if it isn't given. After the plan it prints the starts of plugins per second before and after each
trouble. An object that had no result for longer than its interval, its limit and a minute is printed with the minute of its longest wait, and makes the status
1. Objects without active checks, with a check period, or with a dependency that can hold them back are left out. While the disk is full no
result can be stored, so an object with an interval and a limit of less than a minute together waits too long then.
"""
from __future__ import annotations

import collections
import contextlib
import json
import os
import pathlib
import re
import shlex
import signal
import sqlite3
import statistics
import subprocess
import sys
import tempfile
import time
from typing import Any, Callable, Iterator

TOP = pathlib.Path(__file__).resolve().parent.parent
MEGABYTES = 200
# Logs its start, and acts as the mode says: `NAME hang` for an object, or `all slow`.
PLUGIN = """#!/bin/sh
date +"%s.%N $1" >> "$2/starts"
read -r what mode < "$2/mode"
case "$what $mode" in
    "all slow") sleep 30; echo "CRITICAL - no answer"; exit 2;;
    *) case " $(cat "$2/hung") " in *" $1 "*) exec sleep 100000;; esac;;
esac
echo "OK - $1 | t=1"
"""


# A line of the log about a change of state.
CHANGE = re.compile(r" is [A-Z]+ (SOFT|HARD) ")


class Site:
    """The folder of the site on its own file system, and the folder that the plugins use."""

    def __init__(self, work: pathlib.Path, nagios: pathlib.Path) -> None:
        self.mount, self.control = work / "disk", work / "control"
        self.folder, self.filler = self.mount / "site", self.mount / "filler"
        self.mount.mkdir()
        self.control.mkdir()
        self.set_mode("none")
        self.set_hung([])
        image = work / "image"
        with image.open("wb") as file:
            file.truncate(MEGABYTES << 20)
        subprocess.run(["mkfs.ext4", "-q", "-m", "0", image], check=True)
        subprocess.run(["mount", "-o", "loop", image, self.mount], check=True)
        subprocess.run([sys.executable, TOP / "monitor/from_nagios/from_nagios.py", "--site", self.folder, "--resource", nagios / "resource.cfg", nagios / "nagios.cfg",
                        nagios / "objects.precache"], check=True, stderr=subprocess.DEVNULL)
        plugin = self.control / "plugin"
        plugin.write_text(PLUGIN)
        plugin.chmod(0o755)
        commands = self.read("commands.json")
        for name, command in commands.items():
            command.pop("shell", None)
            command["line"] = f"{plugin} {shlex.quote(name)} {self.control}"
        (self.folder / "commands.json").write_text(json.dumps(commands))

    def read(self, name: str) -> dict[str, Any]:
        path = self.folder / name
        return dict(json.loads(path.read_text())) if path.exists() else {}

    def set_mode(self, words: str) -> None:
        (self.control / "mode").write_text(words + "\n")

    def set_hung(self, names: list[str]) -> None:
        (self.control / "hung").write_text(" ".join(names))

    def allowed(self) -> dict[str, float]:
        """For each object with regular active checks, the longest time in seconds that it may have no result."""
        setup, commands = self.read("setup.json"), self.read("commands.json")
        left_out = {name for name, rule in self.read("passive.json").items() if rule.get("only")} | set(self.read("periods.json").get("objects", {}))
        left_out |= {link["dependent"] for sort in ("service", "host") for link in setup.get(f"{sort}_dependencies", [])}
        unit = setup["options"].get("interval_length", 60)
        named = {entry["name"]: entry for entry in setup["hosts"]} | {f"{entry['host']};{entry['description']}": entry for entry in setup["services"]}
        return {name: entry.get("check_interval", 5) * unit + commands[name].get("limit", 60) + 60
                for name, entry in named.items() if name not in left_out and entry.get("enabled", True) and entry.get("check_interval", 5)}

    def fill(self) -> None:
        """Leaves no room on the disk. The log of the database gives back its own room first, or the database would write there."""
        with contextlib.closing(sqlite3.connect(self.folder / "monitor.db", timeout=10)) as database:
            database.execute("PRAGMA wal_checkpoint(TRUNCATE)")
        block = bytes(1 << 12)
        with self.filler.open("wb", buffering=0) as file, contextlib.suppress(OSError):
            while file.write(block):
                pass

    def empty(self) -> None:
        self.filler.unlink()


class Waits:
    """How long each object has been without a result."""

    def __init__(self, site: Site) -> None:
        self._database, self._allowed = site.folder / "monitor.db", site.allowed()
        self.began, self.worst = time.time(), dict[str, tuple[float, float]]()

    def look(self) -> None:
        """Notes the time since the last result of each object, beyond what is allowed."""
        with contextlib.closing(sqlite3.connect(f"file:{self._database}?mode=ro", uri=True, timeout=5)) as database:
            rows = database.execute("SELECT name, last_check + took FROM standings").fetchall()
        now = time.time()
        for name, ended in rows:
            if name in self._allowed:
                beyond = (now - max(ended or 0, self.began) - self._allowed[name], now - self.began)
                self.worst[name] = max(self.worst.get(name, beyond), beyond)

    def over(self, minute: float) -> list[str]:
        worst = sorted(self.worst.items(), key=lambda row: -row[1][0])
        return [f"{name}: {beyond:.0f} s longer, at minute {at / minute:.0f}" for name, (beyond, at) in worst if beyond > 0]


def children_named(parent: int, word: str) -> Iterator[int]:
    """The children of a process whose first argument ends with this word. A runner's guard is a child of the runner, so it isn't one of them."""
    for each in filter(str.isdecimal, os.listdir("/proc")):
        with contextlib.suppress(OSError):
            fields = pathlib.Path(f"/proc/{each}/stat").read_text().rpartition(")")[2].split()
            if int(fields[1]) == parent and pathlib.Path(f"/proc/{each}/cmdline").read_text().partition("\0")[0].endswith(word):
                yield int(each)


def signal_all(running: subprocess.Popen[bytes], word: str, number: signal.Signals) -> None:
    found = list(children_named(running.pid, word))
    if not found:
        raise SystemExit(f"no process {word} runs")
    for process in found:
        os.kill(process, number)


def plan(site: Site, running: subprocess.Popen[bytes], program: str) -> list[tuple[float, str, Callable[[], None]]]:
    """Each step: its minute, its name, and what it does. A trouble's end has an empty name."""
    hung = [name for name in sorted(site.allowed()) if " " not in name][::50]
    return [
        (5, f"{len(hung)} plugins hang for 4 minutes", lambda: site.set_hung(hung)), (9, "", lambda: site.set_hung([])),
        (15, "the runner is stopped for a minute", lambda: signal_all(running, "nagsched-runner", signal.SIGSTOP)),
        (16, "", lambda: signal_all(running, "nagsched-runner", signal.SIGCONT)),
        (22, "the scheduler is killed", lambda: signal_all(running, program, signal.SIGKILL)), (22.01, "", lambda: None),
        (28, "the disk is full for 2 minutes", site.fill), (30, "", site.empty),
        (38, "all plugins take 30 s for 3 minutes", lambda: site.set_mode("all slow")), (41, "", lambda: site.set_mode("none")),
        (60, "", lambda: None),
    ]


def rates(site: Site, begin: float, minute: float) -> str:
    """The starts per second in a minute: their mean, their deviation, and the most."""
    counts = collections.Counter(int(float(line.split()[0]) - begin) for line in (site.control / "starts").read_text().splitlines())
    each = [counts[second] for second in range(int(minute))]
    return f"{statistics.mean(each):5.1f} a second, deviation {statistics.pstdev(each):4.1f}, most {max(each)}"


def follow_plan(site: Site, running: subprocess.Popen[bytes], program: str, minute: float) -> int:
    time.sleep(5)
    waits, begin, lines = Waits(site), time.time(), list[tuple[float, str]]()
    for at, name, act in plan(site, running, program):
        while time.time() < begin + at * minute:
            waits.look()
            if running.poll() is not None:
                raise SystemExit(f"the monitor ended with {running.returncode}:\n{(site.control / 'log').read_text()[-2000:]}")
            time.sleep(1)
        act()
        lines.append((at, name))
    for (at, name), (end, _) in zip(lines[::2], lines[1::2]):
        print(f"minute {at}: {name}")
        for what, place in (("before", at - 1), ("during", at), ("from the next minute on", end + 1), ("5 minutes later", end + 5)):
            print(f"    {what + ':':25} {rates(site, begin + place * minute, minute)}")
    over = waits.over(minute)
    print(f"{len(waits.worst)} objects, {len((site.control / 'starts').read_text().splitlines())} plugins started; {len(over)} objects waited too long")
    print("".join(line + "\n" for line in over), end="")
    print("".join(line for line in (site.control / "log").read_text().splitlines(keepends=True) if not CHANGE.search(line)), end="")
    return 1 if over else 0


def run(site: Site, program: str, minute: float) -> int:
    command = [sys.executable, TOP / "monitor/nagsched-monitor", "--program", program, site.folder]
    with (site.control / "log").open("wb") as log:
        running = subprocess.Popen([str(word) for word in command], stdout=log, stderr=log)
    try:
        return follow_plan(site, running, program, minute)
    finally:
        running.send_signal(signal.SIGTERM)
        running.wait(timeout=60)


def main() -> int:
    program, nagios = str(pathlib.Path(sys.argv[1]).resolve()), pathlib.Path(sys.argv[2])
    minute = float((sys.argv[3:] or ["60"])[0])
    with tempfile.TemporaryDirectory(prefix="outages-") as work:
        site = Site(pathlib.Path(work), nagios)
        try:
            return run(site, program, minute)
        finally:
            subprocess.run(["umount", "-l", site.mount], check=True)


if __name__ == "__main__":
    sys.exit(main())
