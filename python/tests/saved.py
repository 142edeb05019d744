"""Saves a book with python/nagsched and resumes it: over a setup of the same document, and over another.

Needs NAGSCHED_LIBRARY and PYTHONPATH. The last line counts the comparisons.
"""
import json
import sys

import nagsched
from nagsched import Code, Kind, ReplyKind, Run, State

MINUTE = 60_000
told = []


def setup(hosts, max_check_attempts):
    """A setup of these hosts, which are never due, and one service of the last host, with one or more attempts."""
    return nagsched.Setup(json.dumps({
        "options": {"service_inter_check_delay_method": "n", "host_inter_check_delay_method": "n"},
        "hosts": [{"name": name, "check_interval": 0, "max_check_attempts": 3} for name in hosts],
        "services": [{"host": hosts[-1], "description": "s", "max_check_attempts": max_check_attempts}],
    }))


def is_so(what, test):
    told.append((what, bool(test)))


def saved_state():
    """The saved state after one failed check at 0, with a second check running since a minute later."""
    with setup(["h"], 3).open() as desk:
        mine = desk.passes[0]
        mine.report(1, mine.take(0).run, Code.CRITICAL)
        is_so("a check that is out", mine.take(MINUTE).run == 2)
        with desk.close() as book:
            is_so("the checks that are out", (book.running(0), book.running(1), book.all_running()) == (None, Run(2, MINUTE), {1: Run(2, MINUTE)}))
            return book.save()


def same_setup(saved):
    """Over the same setup everything continues, and is saved to the same text."""
    with setup(["h"], 3).resume(saved, 0) as book:
        is_so("the same text", book.save() == saved and len(book) == 0)
        with book.open() as desk:
            mine = desk.passes[0]
            is_so("it isn't taken again", mine.take(10 * MINUTE).kind == ReplyKind.IDLE)
            reply = mine.report(1, 2, Code.CRITICAL)
            is_so("its report", (reply.standing.kind, reply.standing.attempt, reply.time) == (Kind.SOFT, 2, 2 * MINUTE))
            with desk.close() as closed:
                is_so("nothing is out", closed.all_running() == {})


def changed_setup(saved):
    """Over another setup a soft problem is hard, if one attempt is enough there. A new host comes before the others."""
    with setup(["g", "h"], 1).resume(saved.decode(), 2 * MINUTE) as book:
        is_so("it is out still", book.all_running() == {2: Run(2, MINUTE)})
        with book.open() as desk:
            standing = desk.passes[0].glance(2)
            is_so("a hard problem", (standing.state, standing.kind, standing.attempt) == (State.CRITICAL, Kind.HARD, 1))


def main():
    saved = saved_state()
    is_so("a saved state is JSON in one line", json.loads(saved)["format"] == 1 and b"\n" not in saved)
    same_setup(saved)
    changed_setup(saved)
    wrong = [what for what, was_so in told if not was_so]
    for what in wrong:
        print(f"not so: {what}")
    print(f"saved states in Python: {len(told) - len(wrong)} passed, {len(wrong)} failed")
    return 1 if wrong else 0


sys.exit(main())
