#!/usr/bin/env python3
"""Writes which hosts Nagios Core 4.4.6's own code checks on account of a result, for the monitor's tests. Run it manually; it isn't part of the gate.

    conformance/nagios/requests.py BUILT [HISTORIES] > monitor/tests/nagios_requests.json

build.sh has left the harness in the directory BUILT. A row has the kind of the result's object, its state before and after the result, and the
other object's relation to it (its host, a parent or a child). Then that object's state, and whether Nagios asks for a check of it. A host that was
never checked is PENDING. Hosts that were checked in the second of the result, whose last result still counts, are left out. So are hosts that were
never checked and whose first check is an interval or more ahead.
"""
from __future__ import annotations

import json
import pathlib
import sys
from typing import Optional

import comparison
import histories
import judge
import model

Row = tuple[str, str, str, str, str]


def state_of(o: model.Object) -> str:
    return o.there.state if o.checked else "PENDING"


class Requests(comparison.Comparison):
    """A comparison that notes Nagios's requests for hosts; the harness confirms each of them."""

    def __init__(self, history: histories.History, told: histories.Told, known: set[str]) -> None:
        self.rows: dict[Row, set[bool]] = {}
        self.before: Optional[tuple[str, dict[str, str]]] = None
        super().__init__(history, told, known)

    def on_result(self, words: list[str]) -> None:
        self.before = state_of(self.objects[words[1]]), {o.name: state_of(o) for o in self.rules.objects}
        super().on_result(words)

    def requests(self, of: model.Object, result: model.Result, now: int, what: str) -> None:
        assert self.before is not None
        was, states = self.before
        asked = {o.name for o, _ in result.asked}
        others = [("host", of.host)] if of.host is not None else [("parent", o) for o in of.parents] + [("child", o) for o in of.children]
        for relation, other in others:
            is_far = not other.checked and other.next_check >= other.check + now
            if other.last_check < now and not is_far:
                row = ("host" if of.is_host else "service", was, of.there.state, relation, states[other.name])
                self.rows.setdefault(row, set()).add(other.name in asked)
        super().requests(of, result, now, what)


def main() -> int:
    built, count = pathlib.Path(sys.argv[1]), int(sys.argv[2]) if len(sys.argv) > 2 else 500
    rows: dict[Row, set[bool]] = {}
    for first in range(0, count, judge.BATCH):
        played = [history for number in range(first, min(count, first + judge.BATCH)) if not (history := judge.random_history("requests", number)).keeps]
        for history, told in zip(played, histories.play(built, played)):
            for row, asked in Requests(history, told, judge.named_rows(judge.TOP / "docs/NAGIOS.md")).rows.items():
                rows.setdefault(row, set()).update(asked)
    unclear = [row for row, asked in rows.items() if len(asked) != 1]
    if unclear:
        print(f"the state of the other object doesn't decide: {unclear}", file=sys.stderr)
        return 1
    print("[\n" + ",\n".join(json.dumps([*row, *asked]) for row, asked in sorted(rows.items())) + "\n]")
    return 0


if __name__ == "__main__":
    sys.exit(main())
