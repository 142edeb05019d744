#!/usr/bin/env python3
"""Two workers and a dashboard share one scheduler, each in a thread of its own.

    tools/build_c.sh && NAGSCHED_LIBRARY=out/c/lib/libnagsched.so PYTHONPATH=python python/examples/embed.py [MINUTES]

It writes the setup, then a line for each call of the history, as c/examples/embed.c does: the call, as `nagsched run` reads it,
a tab, and the caller with the answer. The last line, on standard error, is the dashboard's view.
"""
import json
import sys
import threading

import nagsched
from nagsched import CallKind, Code, ReplyKind, State

MINUTE = 60_000
# A house, which is never checked, and its doors.
HOUSE = json.dumps({
    "options": {"service_inter_check_delay_method": "n"},
    "hosts": [{"name": "house", "check_interval": 0, "max_check_attempts": 1}],
    "services": [{"host": "house", "description": door, "check_interval": 1, "max_check_attempts": 3} for door in ("cellar", "front")],
})


def check(run):
    """The plugin: a model of a check that takes its time. No one waits for it."""
    return Code.WARNING if run % 4 == 0 else Code.OK


def work(mine, minutes):
    """A worker: takes each check that is due at each minute, runs it, and reports its result."""
    for minute in range(minutes):
        reply = mine.take(minute * MINUTE)
        if reply.kind == ReplyKind.TAKEN:
            mine.report(reply.object, reply.run, check(reply.run))


def watch(mine, ended, seen):
    """The dashboard: glances at each door for as long as the workers work. A glance is no call, and it never waits."""
    while not ended.wait(0.001):
        for door in range(mine.hosts, mine.objects):
            seen.add((mine.name(door), mine.glance(door).state))


def written(book, call):
    """A call as `nagsched run` reads it."""
    name = book.name(call.object)
    words = {
        CallKind.TAKE: lambda: ["take", call.moment],
        CallKind.REPORT: lambda: ["report", name, call.run, call.code],
        CallKind.ABANDON: lambda: ["abandon", name, call.run, call.moment],
        CallKind.RESCHEDULE: lambda: ["reschedule", name, call.moment, call.flag],
        CallKind.ENABLE: lambda: ["enable", name, call.flag],
        CallKind.STATUS: lambda: ["status", name],
    }
    return json.dumps(words[call.kind](), separators=(",", ":"))


def main():
    minutes = int(sys.argv[1]) if len(sys.argv) > 1 else 3
    ended, seen = threading.Event(), set()
    with nagsched.Setup(HOUSE).open(passes=3) as desk:
        *workers, dashboard = desk.passes
        threads = [threading.Thread(target=work, args=(mine, minutes)) for mine in workers]
        watcher = threading.Thread(target=watch, args=(dashboard, ended, seen))
        for thread in [watcher, *threads]:
            thread.start()
        for thread in threads:
            thread.join()
        ended.set()
        watcher.join()
        with desk.close() as book:
            print(HOUSE)
            for entry in book:
                print(written(book, entry.call), book.text(entry), sep="\t", end="")
    print("seen:", *sorted(f"{door} {State(state).name}" for door, state in seen), file=sys.stderr)


if __name__ == "__main__":
    main()
