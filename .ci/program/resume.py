#!/usr/bin/env python3
"""Cuts, saves and resumes runs: they answer as the whole run does.

    .ci/program/resume.py PROGRAM

Each case of conformance/ that `run` accepts, and the office of examples/, is cut after each of its calls, or at 40 places if it has more. The
first part is followed by `["save"]`, and the second part is run with `--resume` after the saved line. The answers of both together are those of
the whole, except for the line `saved`. `live` answers each of the two as `run` does, at the middle cut.
"""
from __future__ import annotations

import os
from concurrent.futures import ThreadPoolExecutor
from typing import Iterator, NamedTuple, Optional

from harness import EXAMPLES, Harness
from cases import runs

PLACES = 40
BLANK = b" \t\r"


class Case(NamedTuple):
    """An input that `run` accepts: its name, the arguments after `run`, its lines, and its output."""

    name: str
    arguments: list[str]
    lines: list[bytes]
    wanted: bytes


def cases() -> Iterator[Case]:
    """The cases that `run` accepts, except for its help, and the office."""
    for case in runs():
        yield Case(case.name, case.arguments[1:], case.given.split(b"\n"), case.wanted)
    office = EXAMPLES / "office.txt"
    yield Case("office", [], office.read_bytes().split(b"\n"), office.with_suffix(".out").read_bytes())


def cuts(case: Case) -> list[int]:
    """The places after calls at which a case is cut: each, or some of them if there are many."""
    calls = [place + 1 for place, line in enumerate(case.lines) if place > 0 and line.strip(BLANK)]
    step = max(1, -(-len(calls) // PLACES))
    return calls[::step]


def program_output(harness: Harness, arguments: list[str], lines: list[bytes]) -> Optional[bytes]:
    """The program's output, if it ends in 0."""
    written, status = harness.run(arguments, b"\n".join(lines))
    return written if status == 0 else None


def fault_at(harness: Harness, case: Case, cut: int, subcommand: str) -> Optional[str]:
    """How a case that is cut there differs from the whole, or nothing."""
    before = program_output(harness, [subcommand, *case.arguments], [*case.lines[:cut], b'["save"]'])
    answers = before.splitlines(keepends=True) if before else [b""]
    if not answers[-1].startswith(b"saved "):
        return f"{case.name}: cut at line {cut}, {subcommand} saves nothing"
    saved = answers[-1].rstrip(b"\n").removeprefix(b"saved ")
    behind = program_output(harness, [subcommand, "--resume"], [case.lines[0], saved, *case.lines[cut:]])
    if behind is None or b"".join(answers[:-1]) + behind != case.wanted:
        return f"{case.name}: cut at line {cut}, {subcommand} goes on otherwise"
    return None


def faults(harness: Harness, case: Case) -> Iterator[Optional[str]]:
    """The results of each cut of a case."""
    places = cuts(case)
    for cut in places:
        yield fault_at(harness, case, cut, "run")
    if places:
        yield fault_at(harness, case, places[len(places) // 2], "live")


def main() -> None:
    """Cuts each case, and counts the results."""
    harness = Harness("resume")
    with ThreadPoolExecutor(os.cpu_count()) as threads:
        for found in threads.map(lambda case: list(faults(harness, case)), cases()):
            for fault in found:
                harness.compare("a cut", None, fault)
    harness.end()


main()
