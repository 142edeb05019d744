#!/usr/bin/env python3
"""Lets Nagios Core 4.4.6's own code judge nagsched, over random histories. Run it manually; it isn't part of the gate.

    conformance/nagios/judge.py BUILT [HISTORIES] [--wide] [--seed SEED] [--program PROGRAM] [--one NUMBER] [--page PAGE]
    conformance/nagios/judge.py BUILT sequences [--program PROGRAM]

build.sh has left the harness in the directory BUILT. The harness plays each history, and `nagsched live` answers the same calls. The program
must answer by the rules (model.Rules), and Nagios must act by model.Nagios. If the two sides differ, a row of the page docs/NAGIOS.md must
explain that very answer. Anything else fails, and the history is cut down to a small example. The directed histories (directed.py) are played
first, so that each row of the page is shown; a row that no history shows fails too. `--wide` takes the histories from wide.py. `sequences` plays every sequence of seven results, with 1
to 4 attempts, of hosts and of services whose host is up.
"""
from __future__ import annotations

import argparse
import itertools
import json
import pathlib
import random
import re
import subprocess
import sys
import time
from typing import Any, Iterator, Optional

import directed
import histories
import model
import smaller
import wide
from comparison import Comparison, Counts, Failure
from histories import START, History, Told
from model import Standing

TOP = pathlib.Path(__file__).resolve().parent.parent.parent
BATCH = 100  # histories that the harness plays at a time
TIMEOUT = 600  # seconds for the program to answer one history
EXAMPLES = 3  # failures that are cut down to small examples


def named_rows(page: pathlib.Path) -> set[str]:
    """The names of the page's rows: bold, in the first cell."""
    return set(re.findall(r"^\| \*\*(.+?)\*\* \|", page.read_text(encoding="utf-8"), re.M))


# ---- the program


def last_hard(line: str, place: int) -> str:
    """The last hard state of the object at a place of a saved state, or the whole line if it has none."""
    try:
        return str(json.loads(line.removeprefix("saved "))["objects"][place]["last_hard_state"])
    except (ValueError, LookupError, TypeError):
        return line


def run_program(program: str, comparison: Comparison) -> None:
    """`nagsched live` answers the calls according to the rules."""
    script = "".join(call + "\n" for call in comparison.calls)
    try:
        done = subprocess.run([program, "live", "--start", str(START * 1000)], input=script, stdout=subprocess.PIPE, text=True, timeout=TIMEOUT)
    except subprocess.TimeoutExpired as late:
        raise Failure("program", f"the program hasn't answered within {TIMEOUT} s") from late
    for number, (call, wanted, line) in enumerate(itertools.zip_longest(comparison.calls[1:], comparison.answers, done.stdout.splitlines()), 2):
        if wanted is not None and line is not None and wanted.startswith("last hard "):
            *_, wanted, place = wanted.split()
            line = last_hard(line, int(place))
        if line != wanted:
            raise Failure("program", f"line {number}, {call}: the program answers '{line}', by the rules it is '{wanted}'")


def judged(history: History, told: Told, program: Optional[str], known: set[str], rules: type[model.Rules] = model.Rules) -> Comparison:
    """The comparison of one history; Failure if it fails."""
    comparison = Comparison(history, told, known, rules)
    if program is not None:
        run_program(program, comparison)
    return comparison


def sequences() -> Iterator[History]:
    """Every sequence of seven results, each after two good ones, with 1 to 4 attempts: of hosts, and of services whose host is up."""
    codes = [code for sequence in itertools.product(range(4), repeat=7) for code in (0, 0, *sequence)]
    members: list[dict[str, Any]] = [{"max_check_attempts": attempts, "check_interval": 1} for attempts in range(1, 5)]
    options = {"interval_length": 1, "host_inter_check_delay_method": "n", "service_inter_check_delay_method": "n"}
    setup = {"options": options, "hosts": [{"name": f"h{member['max_check_attempts']}", **member} for member in members]
             + [{"name": "up", "max_check_attempts": 1, "check_interval": 0}],
             "services": [{"host": "up", "description": f"s{member['max_check_attempts']}", **member} for member in members]}
    size = 9 * 256
    for first in range(0, len(codes), size):
        plan = [(0, code) for code in codes[first:first + size]]
        yield History(setup, {name: plan for name in histories.names(setup) if name != "up"}, START + size - 1)


def random_history(seed: str, number: int, is_wide: bool = False) -> History:
    chance = random.Random(f"{seed}/{number}")
    return wide.random_history(chance) if is_wide else histories.random_history(chance)


# ---- directed histories


def from_start(value: object) -> object:
    """A value of an answer, with its time counted from the start."""
    if isinstance(value, int) and value >= START * 1000:
        return value - START * 1000
    return tuple(map(from_start, value)) if isinstance(value, tuple) and not isinstance(value, Standing) else value


def check_shown(shown: directed.Shown, comparison: Comparison) -> None:
    """The row explains a difference in that answer, with these values."""
    found = [difference for difference in comparison.differences if difference.answer == shown.answer and shown.row in difference.rows]
    if not any(from_start(difference.here) == shown.here and shown.there in (from_start(difference.there), directed.ANY) for difference in found):
        raise Failure(shown.answer, f"'{shown.row}' doesn't make {shown.answer} {shown.here} here, {shown.there} in Nagios; it makes {found}")


def check_told(case: directed.Told, told: Told, program: Optional[str]) -> None:
    """Nagios's lines come in that order, and the program gives these answers to the calls."""
    lines = iter(" ".join(str(int(word) - START) if word.isdigit() and len(word) == len(str(START)) else word for word in words) + " " for words in told)
    for wanted in case.nagios:
        if not any(line.startswith(wanted + " ") for line in lines):
            raise Failure("Nagios", f"'{case.row}': Nagios doesn't write '{wanted}' there")
    if program is not None and case.calls:
        script = "\n".join((histories.text(case.history.setup), *case.calls)) + "\n"
        answers = subprocess.run([program, "live"], input=script, stdout=subprocess.PIPE, text=True, timeout=60).stdout.splitlines()
        if tuple(answers) != case.answers:
            raise Failure("program", f"'{case.row}': the program answers {answers}")


def directed_told(built: pathlib.Path) -> list[Told]:
    """The harness's lines about the directed histories."""
    return histories.play(built, [shown.history for shown in directed.SHOWN] + [case.history for case in directed.TOLD])


def check_directed(all_told: list[Told], program: Optional[str], known: set[str]) -> tuple[set[str], list[str]]:
    """The rows that the directed histories show, and what failed."""
    rows: set[str] = set()
    failures: list[str] = []
    for shown, told in zip(directed.SHOWN, all_told):
        try:
            comparison = judged(shown.history, told, program, known)
            check_shown(shown, comparison)
            rows |= comparison.counts.shown()
        except (Failure, AssertionError) as failure:
            failures.append(f"the history of '{shown.row}': {failure}")
    for case, told in zip(directed.TOLD, all_told[len(directed.SHOWN):]):
        try:
            check_told(case, told, program)
            rows.add(case.row)
        except Failure as failure:
            failures.append(f"the history of {failure}")
    failures += [f"the page has no row '{row}'" for row in sorted(rows - known)] + [f"no history shows the row '{row}'" for row in sorted(known - rows)]
    return rows, failures


# ---- a whole run


def failure_of(history: History, told: Told, program: Optional[str], known: set[str]) -> tuple[Optional[Comparison], Optional[Failure]]:
    """The comparison of one history, or why it fails."""
    try:
        return judged(history, told, program, known), None
    except Failure as failure:
        return None, failure
    except AssertionError as wrong:
        return None, Failure("assertion", f"an assertion is wrong: {wrong!r}")


def example(built: pathlib.Path, history: History, failed: Failure, program: Optional[str], known: set[str]) -> str:
    """The smallest history found in which the same answer is wrong."""
    def fails(less: History) -> Optional[Failure]:
        try:
            _, failure = failure_of(less, histories.play(built, [less])[0], program, known)
        except RuntimeError:
            return None
        return failure if failure is not None and failure.what == failed.what else None

    small = smaller.smallest(history, lambda less: fails(less) is not None)
    return f"{smaller.told(small)}\n  {fails(small)}"


def report(counts: Counts, begun: float, what: str) -> None:
    results = counts.compared["standing"]
    print(f"{what}: {results} results, {counts.equal_results} of them equal in every answer, {time.time() - begun:.0f} s")
    print("  compared  different  answer")
    for answer, count in sorted(counts.compared.items()):
        print(f"{count:10} {counts.different[answer]:10}  {answer}")
    print("differences by row")
    for (row, answer), count in sorted(counts.rows.items()):
        print(f"{count:10}  {row}: {answer}")
    print("requests for checks on demand")
    for request, count in sorted(counts.requests.items()):
        print(f"{count:10}  {request}")


def arguments() -> argparse.Namespace:
    parser = argparse.ArgumentParser(description="Lets Nagios's own code judge nagsched.")
    parser.add_argument("built", type=pathlib.Path, help="the directory that build.sh filled")
    parser.add_argument("histories", nargs="?", default="2000", help="how many random histories, or 'sequences'")
    parser.add_argument("--wide", action="store_true", help="histories over the whole ranges of the setup, with changed clocks (wide.py)")
    parser.add_argument("--seed", default="1")
    parser.add_argument("--program", default=str(TOP / "crates/nagsched/out/nagsched"), help="nagsched, or 'none' for the rules alone")
    parser.add_argument("--page", type=pathlib.Path, default=TOP / "docs/NAGIOS.md", help="the page whose rows may explain a difference")
    parser.add_argument("--one", type=int, help="only the history of this number, with all that the harness tells of it")
    options = parser.parse_args()
    for built in (options.built / "harness", *([pathlib.Path(options.program)] if options.program != "none" else [])):
        if not built.is_file():
            parser.error(f"'{built}' isn't there: build it, or name another")
    return options


def main() -> int:
    options = arguments()
    known = named_rows(options.page)
    program = None if options.program == "none" else options.program
    total, begun, played = Counts(), time.time(), 0
    rows, failures = check_directed(directed_told(options.built), program, known)
    print("".join(failure + "\n" for failure in failures), end="")
    numbered: Iterator[tuple[int, History]] = enumerate(sequences())
    if options.histories != "sequences":
        numbers = range(int(options.histories)) if options.one is None else [options.one]
        numbered = iter((number, random_history(options.seed, number, options.wide)) for number in numbers)
    while batch := list(itertools.islice(numbered, 4 if options.histories == "sequences" else BATCH)):
        for (number, history), told in zip(batch, histories.play(options.built, [history for _, history in batch])):
            if options.one is not None:
                print("\n".join(" ".join(words) for words in told))
            played += 1
            comparison, failure = failure_of(history, told, program, known)
            if comparison is not None:
                total.add(comparison.counts)
            if failure is not None:
                failures.append(f"history {number} of seed {options.seed}: {failure}")
                print(failures[-1])
                if len(failures) <= EXAMPLES:
                    print(f"a small example:\n{example(options.built, history, failure, program, known)}")
    report(total, begun, f"{played} histories of seed {options.seed}")
    print(f"judge: {len(rows)} rows shown, {len(failures)} failures")
    return 1 if failures else 0


if __name__ == "__main__":
    sys.exit(main())
