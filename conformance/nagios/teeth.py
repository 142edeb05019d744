#!/usr/bin/env python3
"""Does the judge have teeth? Wrong rules take the place of ours, one at a time, and Nagios's own code must show that they are wrong.

    conformance/nagios/teeth.py BUILT [HISTORIES [SEED]]     500 histories if no number is given

A wrong rule acts as a program that answers by it, so only Nagios can detect it. The output has the number of the first history that detects it.
Then each row of docs/NAGIOS.md is left out, one at a time, and the directed histories must fail. The status is 1 if something isn't detected.
"""
from __future__ import annotations

import pathlib
import sys
from fractions import Fraction
from typing import Optional

import histories
import judge
import model
from comparison import Comparison, Failure
from model import GOOD, HARD, SOFT, Link, Object, Rules, Standing


class FirstProblemIsTheSecond(Rules):
    """a first problem has attempt 2"""

    def verdict(self, before: Standing, state: str, most: int, host_down: bool) -> Standing:
        after = super().verdict(before, state, most, host_down)
        return after._replace(attempt=2) if after.is_soft_problem() and before.state in GOOD and most > 2 else after


class FirstProblemIsHard(Rules):
    """a first problem is hard"""

    def verdict(self, before: Standing, state: str, most: int, host_down: bool) -> Standing:
        return super().verdict(before, state, most, host_down or before.state in GOOD)


class HardTooLate(Rules):
    """a problem is hard one attempt late"""

    def verdict(self, before: Standing, state: str, most: int, host_down: bool) -> Standing:
        after = super().verdict(before, state, most, host_down)
        return after._replace(kind=SOFT) if after.kind == HARD and before.is_soft_problem() and state not in GOOD and not host_down else after


class OtherProblemsBeginAgain(Rules):
    """a soft problem that becomes another problem begins at attempt 1"""

    def verdict(self, before: Standing, state: str, most: int, host_down: bool) -> Standing:
        is_other = before.is_soft_problem() and state != before.state and state not in GOOD
        return super().verdict(before._replace(state="OK") if is_other else before, state, most, host_down)


class HardProblemsTurnSoft(Rules):
    """a hard problem that becomes another problem is soft"""

    def verdict(self, before: Standing, state: str, most: int, host_down: bool) -> Standing:
        after = super().verdict(before, state, most, host_down)
        return after._replace(kind=SOFT) if before.kind == HARD and before.state not in GOOD and state not in (before.state, *GOOD) else after


class HostDoesNotCount(Rules):
    """a service's host doesn't count"""

    def host_down(self, o: Object) -> bool:
        return False


class AlwaysSoftRecoveries(Rules):
    """a hard problem recovers softly"""

    def verdict(self, before: Standing, state: str, most: int, host_down: bool) -> Standing:
        after = super().verdict(before, state, most, host_down)
        return after._replace(kind=SOFT) if before.kind == HARD and before.state not in GOOD and state in GOOD else after


class LastHardStays(Rules):
    """the last hard state stays as it was at a recovery"""

    def verdict(self, before: Standing, state: str, most: int, host_down: bool) -> Standing:
        after = super().verdict(before, state, most, host_down)
        return after._replace(last_hard=before.last_hard) if state in GOOD else after


class LastHardFollows(Rules):
    """the last hard state follows soft problems"""

    def verdict(self, before: Standing, state: str, most: int, host_down: bool) -> Standing:
        return super().verdict(before, state, most, host_down)._replace(last_hard=state)


class OneParent(Rules):
    """a host is UNREACHABLE if one of its parents isn't up"""

    def state_of(self, o: Object, code: int) -> str:
        state = super().state_of(o, code)
        return "UNREACHABLE" if state == "DOWN" and any(parent.here.state != "UP" for parent in o.parents) else state


class NeverUnreachable(Rules):
    """a host is never UNREACHABLE"""

    def state_of(self, o: Object, code: int) -> str:
        return super().state_of(o, code).replace("UNREACHABLE", "DOWN")


class AlwaysAggressive(Rules):
    """the code 1 of a host is a problem"""

    def state_of(self, o: Object, code: int) -> str:
        return super().state_of(o, 2 if code == 1 else code)


class WrongWeights(Rules):
    """changes weigh `low`, and `step` more for each that came before"""

    low, step = 0, 0

    def __init__(self, setup: histories.Setup) -> None:
        super().__init__(setup)
        self.flags = {o: False for o in self.objects}

    def flag(self, o: Object) -> bool:
        changes = o.flaps.own.changes
        whole = sum(self.low + self.step * (model.HISTORY - 1 - bit) for bit in range(model.HISTORY) if changes >> bit & 1)
        whole = whole if o.flaps.own.count > model.HISTORY else 0
        self.flags[o] = 100 * whole // 1520 >= (o.low if self.flags[o] else o.high)
        return self.flags[o]


class EqualWeights(WrongWeights):
    """each change weighs the same in flapping"""

    low = 76


class OldChangesWeighMore(WrongWeights):
    """older changes weigh more in flapping"""

    low, step = 95, -2


class AlwaysTheCheckInterval(Rules):
    """a soft problem is checked again after the check interval"""

    def interval(self, o: Object, standing: Standing) -> int:
        return o.check


class AlwaysTheRetryInterval(Rules):
    """a hard problem is checked again after the retry interval"""

    def interval(self, o: Object, standing: Standing) -> int:
        return o.check if standing.state in GOOD else o.retry


class ASecondLate(Rules):
    """each next check is a second late"""

    def after(self, o: Object, begun: int, standing: Standing) -> Optional[int]:
        return super().after(o, begun + 1000, standing)


class NothingChanges(Rules):
    """no result changes the state"""

    def changed(self, before: str, after: str) -> bool:
        return False


class NoInheritance(Rules):
    """no dependency is inherited"""

    def is_forbidden(self, o: Object) -> bool:
        return any(self.fails(link) for link in o.links)


class MastersOnly(Rules):
    """a dependency of a master is inherited, but none of a master's masters"""

    def is_forbidden(self, o: Object) -> bool:
        return any(self.fails(link) or (link.inherits and any(map(self.fails, link.master.links))) for link in o.links)


class AlwaysInheritance(Rules):
    """every dependency is inherited"""

    def is_forbidden(self, o: Object) -> bool:
        return any(self.fails(link) or self.is_forbidden(link.master) for link in o.links)


class AllMastersMustFail(Rules):
    """a check is forbidden only if each dependency fails"""

    def is_forbidden(self, o: Object) -> bool:
        return bool(o.links) and all(self.fails(link) or (link.inherits and self.is_forbidden(link.master)) for link in o.links)


class SoftStatesAlwaysCount(Rules):
    """a master's soft state counts even if the option is off"""

    def fails(self, link: Link) -> bool:
        return model.LETTERS[link.master.here.state] in link.here if link.master.checked else super().fails(link)


class OneMoreThanTheLimit(Rules):
    """one check more than the limit"""

    def is_full(self) -> bool:
        return bool(self.limit) and sum(o.run is not None for o in self.objects if not o.is_host) > self.limit


class PutOffTwice(Rules):
    """a check is put off by twice the check interval"""

    def put_off(self, o: Object, now: int) -> Optional[int]:
        return now + o.check * 2000 if o.check else None


class NoInterleaving(Rules):
    """first checks are not interleaved"""

    def first_rank(self, o: Object) -> int:
        return sum(other.scheduled and other.is_host == o.is_host for other in self.objects[:o.number])


class NoMaximumSpread(Rules):
    """the maximum spread doesn't count"""

    def delay(self, sort: str, scheduled: list[Object]) -> Fraction:
        usual = super().delay(sort, scheduled)
        return Fraction(sum(o.check for o in scheduled), len(scheduled) ** 2) if scheduled and usual == Fraction(
            self.options[f"max_{sort}_check_spread"] * 60, len(scheduled)) else usual


WRONG: tuple[type[Rules], ...] = (
    FirstProblemIsTheSecond, FirstProblemIsHard, HardTooLate, OtherProblemsBeginAgain, HardProblemsTurnSoft, HostDoesNotCount, AlwaysSoftRecoveries,
    LastHardStays, LastHardFollows, OneParent, NeverUnreachable, AlwaysAggressive, EqualWeights, OldChangesWeighMore, AlwaysTheCheckInterval,
    AlwaysTheRetryInterval, ASecondLate, NothingChanges, NoInheritance, MastersOnly, AlwaysInheritance, AllMastersMustFail,
    SoftStatesAlwaysCount, OneMoreThanTheLimit, PutOffTwice, NoInterleaving, NoMaximumSpread)


def first_to_detect(rules: type[Rules], played: list[histories.History], told: list[histories.Told], known: set[str]) -> Optional[int]:
    """The number of the first history that fails with these rules, as `judge.py --one` takes it."""
    for number, (history, lines) in enumerate(zip(played, told)):
        try:
            Comparison(history, lines, known, rules)
        except (Failure, AssertionError):
            return number
    return None


def main() -> int:
    built, count, seed = pathlib.Path(sys.argv[1]), int((sys.argv[2:] or ["500"])[0]), (sys.argv[3:] or ["teeth"])[0]
    known = judge.named_rows(judge.TOP / "docs/NAGIOS.md")
    played = [judge.random_history(seed, number) for number in range(count)]
    told = histories.play(built, played)
    missed = 0
    for rules in WRONG:
        number = first_to_detect(rules, played, told, known)
        missed += number is None
        print("NOT DETECTED" if number is None else f"detected by history {number}", rules.__doc__, sep=": ")
    all_told = judge.directed_told(built)
    unmissed = [row for row in sorted(known) if not judge.check_directed(all_told, None, known - {row})[1]]
    print("".join(f"NOT MISSED: the row '{row}'\n" for row in unmissed), end="")
    print(f"teeth: {len(WRONG) - missed} of {len(WRONG)} wrong rules detected, {len(known) - len(unmissed)} of {len(known)} rows missed when left out")
    return 1 if missed or unmissed else 0


if __name__ == "__main__":
    sys.exit(main())
