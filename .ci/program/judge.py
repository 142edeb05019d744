#!/usr/bin/env python3
"""Replays stored histories of Nagios: the program must answer by the rules, and rows of docs/NAGIOS.md must explain each difference from Nagios.

    .ci/program/judge.py [PROGRAM]     crates/nagsched/out/nagsched if no program is named

conformance/nagios/histories.xz has what Nagios Core 4.4.6 did in each history, so Nagios isn't needed. conformance/nagios/stored.py writes it. Each
history is one comparison, and so is each row of the page, which a history must show.
"""
from __future__ import annotations

import os
import sys
import time
from concurrent.futures import ProcessPoolExecutor
from typing import Optional

from harness import TOP, Harness

# Before the folder of this script, which has a module of the same name as the judge's.
sys.path.insert(0, str(TOP / "conformance/nagios"))
import judge
import stored
from comparison import Counts
from histories import History, Told

KNOWN = judge.named_rows(TOP / "docs/NAGIOS.md")
LEAST = 50_000  # results


def judged(item: tuple[str, History, Told]) -> tuple[Optional[Counts], Optional[str]]:
    """The figures of a history, or why it fails."""
    program, history, told = item
    comparison, failure = judge.failure_of(history, told, program, KNOWN)
    return (comparison.counts if comparison is not None else None), (str(failure) if failure is not None else None)


def main() -> None:
    harness = Harness("judge")
    begun, total = time.time(), Counts()
    found = list(stored.read())
    directed, others = found[:len(stored.DIRECTED)], found[len(stored.DIRECTED):]
    rows, failures = judge.check_directed([told for _, told in directed], harness.program, KNOWN)
    harness.passed += len(rows)
    for failure in failures:
        harness.compare("a row", "shown", failure)
    with ProcessPoolExecutor(os.cpu_count()) as processes:
        jobs = [(harness.program, history, told) for history, told in others]
        for number, (counts, why) in enumerate(processes.map(judged, jobs, chunksize=5)):
            harness.compare(f"history {number}", None, why)
            if counts is not None:
                total.add(counts)
    results = total.compared["standing"]
    harness.compare("the number of histories and of results", (stored.PLAIN + stored.WIDE, True), (len(others), results >= LEAST))
    print(f"judge: {results} results, {total.equal_results} of them equal in every answer of Nagios, {time.time() - begun:.0f} s")
    harness.end()


if __name__ == "__main__":
    main()
