"""The rows of docs/NAGIOS.md that explain a difference at a result. The judge and the second opinion share them."""
from __future__ import annotations

from typing import Iterable, Iterator, NamedTuple, Optional

import model
from model import HARD, SOFT, Object, Standing

UNEXPLAINED = "no row"
Moment = Optional[int]


def explain(here: object, there: object, steps: Iterable[tuple[str, object]]) -> Optional[set[str]]:
    """The rows that lead from our value to Nagios's; None if they lead elsewhere."""
    found, last = set(), here
    for row, value in steps:
        found |= {row} if value != last else set()
        last = value
    return found if last == there else None


class Handled(NamedTuple):
    """How Nagios handled a result: what follows, the standing by the table of verdicts, and the row by which it left that table."""

    result: model.Result
    by_table: Standing
    row: str


def handle(nagios: model.Nagios, o: Object, state: str, begun: int, now: int, is_passive: bool = False) -> Handled:
    """Lets the model of Nagios handle a result; a passive one of a host where such results are hard at once."""
    before, is_passive = o.there, is_passive and o.is_host
    by_table = nagios.rules.verdict(before, state, o.most, nagios.rules.host_down(o))
    result = nagios.result(o, state, begun, now)
    if is_passive:
        o.there = o.there._replace(kind=HARD) if state == before.state else Standing(state, HARD, 1, state)
        result = result._replace(logged=o.there if result.logged is not None else None)
    return Handled(result, by_table, "passive result of a host" if is_passive else standing_row(o, before, by_table, nagios.rules.host_down(o)))


def standing_row(o: Object, before: Standing, by_table: Standing, host_down: bool) -> str:
    """The row by which Nagios leaves the table of verdicts at this result."""
    is_good = before.state in model.GOOD
    if not is_good and not (before.attempt == o.most and before.last_hard == before.state if before.kind == HARD
                            else before.attempt < o.most and before.last_hard in model.GOOD and not o.had_host_problem):
        return "passive result of a host" if o.is_host else "after a problem while the host was down"
    if o.there.state in model.GOOD:
        return "soft recovery" if before.is_soft_problem() and by_table[1:3] == (SOFT, before.attempt + 1) else UNEXPLAINED
    return "problem while the host is down" if is_good and host_down and by_table[1:3] == (HARD, o.most) else UNEXPLAINED


def standing_steps(o: Object, handled: Handled, were_apart: bool, told: Standing) -> Iterator[tuple[str, Standing]]:
    """From our standing to the one that Nagios stores or logs, row by row. By our table it differs from ours if the two were different before."""
    if were_apart:
        yield "passive result of a host" if o.is_host else "after a problem while the host was down", handled.by_table
    yield handled.row if told == o.there else log_row(o, handled, told), told


def log_row(o: Object, handled: Handled, logged: Standing) -> str:
    """The same for the standing that Nagios logs, which isn't always the one that it stores."""
    is_hard_recovery = handled.row == UNEXPLAINED and handled.by_table[1:3] == (HARD, 1) and logged[1:3] == (HARD, o.most) and not o.is_host
    return "hard recovery in the log" if is_hard_recovery else handled.row


def restart(o: Object) -> None:
    """What a restart of Nagios changes in what it retains."""
    o.host_problem = False
    if o.there.kind == HARD and o.there.state not in model.GOOD:
        o.there = o.there._replace(attempt=o.most)


def flag_steps(o: Object) -> list[tuple[str, bool]]:
    """From our flag for flapping to Nagios's, row by row."""
    flags = o.flaps.flags
    return [(name, later) for name, earlier, later in zip(model.Flaps.ROWS, flags, flags[1:]) if earlier != later]


def next_steps(rules: model.Rules, o: Object, handled: Handled, begun: int, now: int) -> Iterator[tuple[str, Moment]]:
    """From our next time to Nagios's, row by row, in milliseconds."""
    result, by_table, row = handled
    interval = rules.interval(o, by_table)
    if interval != rules.interval(o, o.here):
        yield "after a problem while the host was down", rules.after(o, begun * 1000, by_table)
    if not o.enabled:
        yield "result of a disabled object", None
        return
    if not o.scheduled:
        return
    base = begun
    if result.interval != interval:
        name = "retry after a soft recovery" if result.is_soft_recovery else row
        yield name, (begun + result.interval) * 1000
    if not result.interval:
        yield "no retry interval", begun * 1000
    if result.base != begun:
        base = result.base
        yield "from the handling", (base + result.interval) * 1000
    if base + result.interval < now:
        yield "past times", now * 1000


def reach(o: Object) -> list[model.Link]:
    """The dependencies of an object, of its masters, and so on."""
    return [link for direct in o.links for link in (direct, *reach(direct.master))]
