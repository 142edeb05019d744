#!/usr/bin/env python3
"""The shortest correct monitor: it takes each due check, runs it, and reports it, with `nagsched live` as the scheduler.

    examples/monitor.py SETUP COMMANDS [SECONDS [PROGRAM]]

SETUP is a setup document, COMMANDS a JSON object with a command line for each full name. It prints a line for each change of state. It stores nothing: each
start begins from scratch. Read it, and begin your own program from it; to monitor a site, use monitor/nagsched-monitor.
"""
import concurrent.futures
import json
import pathlib
import queue
import subprocess
import sys
import time

WORKERS, LIMIT = 8, 60
UNKNOWN = 3
# The wall clock at the start. From then on time passes by a clock that never goes back.
BEGIN = time.time_ns() - time.monotonic_ns()


def now():
    return (BEGIN + time.monotonic_ns()) // 1_000_000


class Scheduler:
    """A conversation with `nagsched live --json`: one line there, one line back."""

    def __init__(self, program, setup):
        try:
            self.process = subprocess.Popen([program, "live", "--json", "--start", str(now())], stdin=subprocess.PIPE, stdout=subprocess.PIPE, text=True)
        except OSError as error:
            raise SystemExit(f"monitor: {program} can't be run ({error.strerror}): name the program as the fourth argument") from None
        self.process.stdin.write(setup + "\n")

    def ask(self, *call):
        """Makes a call, and returns its answer."""
        self.process.stdin.write(json.dumps(call) + "\n")
        self.process.stdin.flush()
        line = self.process.stdout.readline()
        answer = json.loads(line) if line else {}
        if not answer or answer.get("code", "C")[0] != "C":
            raise SystemExit(f"monitor: nagsched answered {line!r} to {call}")
        return answer


def code_of(command):
    """Runs a plugin, and returns its code: UNKNOWN if the plugin's code isn't one of the four."""
    try:
        code = subprocess.run(command, shell=True, stdin=subprocess.DEVNULL, stdout=subprocess.DEVNULL, timeout=LIMIT).returncode
    except subprocess.TimeoutExpired:
        return UNKNOWN
    return code if 0 <= code <= UNKNOWN else UNKNOWN


def main(setup, commands, seconds="inf", program="nagsched"):
    scheduler = Scheduler(program, json.dumps(json.loads(pathlib.Path(setup).read_bytes())))
    lines = json.loads(pathlib.Path(commands).read_bytes())
    results, out, end = queue.Queue(), 0, time.monotonic() + float(seconds)
    with concurrent.futures.ThreadPoolExecutor(WORKERS) as workers:
        while time.monotonic() < end:
            wait = 1.0
            while out < WORKERS:
                taken = scheduler.ask("take", now())
                if taken["answer"] == "taken":
                    run, name = taken["run"], taken["name"]
                    check = workers.submit(code_of, lines.get(name, "exit 3"))
                    check.add_done_callback(lambda check, name=name, run=run: results.put((name, run, check.result())))
                    out += 1
                elif taken["answer"] != "putoff":
                    if taken.get("next_check") is not None:
                        wait = min(wait, max(0, taken["next_check"] - now()) / 1000)
                    break
            try:
                name, run, code = results.get(timeout=wait)
            except queue.Empty:
                continue
            out -= 1
            standing = scheduler.ask("report", name, run, code)
            if standing.get("changed"):
                print(time.strftime("%H:%M:%S"), name, "is", standing["state"], standing["kind"], standing["attempt"], flush=True)


if __name__ == "__main__":
    if not 3 <= len(sys.argv) <= 5:
        sys.exit("usage: examples/monitor.py SETUP COMMANDS [SECONDS [PROGRAM]]")
    main(*sys.argv[1:])
