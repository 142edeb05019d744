"""The comparison of one history: the harness's lines about Nagios, nagsched's calls and answers, and the rows that explain each difference."""
from __future__ import annotations

import collections
from fractions import Fraction
from typing import Any, Iterator, NamedTuple, Optional

import histories
import model
import rows
from histories import START, History, Told
from model import HARD, SOFT, Object, Standing
from rows import UNEXPLAINED, Moment

FAR = 2**59  # a next time that never comes: no call takes a next time away
KINDS = (SOFT, HARD)


class Failure(Exception):
    """A difference that no row explains, or a side that doesn't do what the model says. `what` is the answer that is wrong."""

    def __init__(self, what: str, text: str) -> None:
        super().__init__(text)
        self.what = what


class Difference(NamedTuple):
    """An answer that differs, and the rows that explain it."""

    answer: str
    rows: frozenset[str]
    here: object
    there: object


class Counts:
    """The figures of a run."""

    def __init__(self) -> None:
        self.compared: collections.Counter[str] = collections.Counter()
        self.different: collections.Counter[str] = collections.Counter()
        self.rows: collections.Counter[tuple[str, str]] = collections.Counter()
        self.requests: collections.Counter[str] = collections.Counter()
        self.equal_results = 0

    def add(self, other: Counts) -> None:
        self.compared.update(other.compared)
        self.different.update(other.different)
        self.requests.update(other.requests)
        self.rows.update(other.rows)
        self.equal_results += other.equal_results

    def shown(self) -> set[str]:
        return {row for row, _ in self.rows}


class Comparison:
    """One history: the harness's lines about Nagios, next to nagsched's calls and answers."""

    def __init__(self, history: History, told: Told, known: set[str], rules: type[model.Rules] = model.Rules) -> None:
        self.history, self.known = history, known
        self.rules = rules(history.setup)
        self.nagios = model.Nagios(self.rules, history)
        self.objects = {o.name: o for o in self.rules.objects}
        self.counts = Counts()
        self.differences: list[Difference] = []
        self.calls: list[str] = [histories.text(history.setup)]
        self.answers: list[str] = []
        self.asked: list[tuple[str, int]] = []
        self.commands = (command for command in history.commands if command.word in histories.NAGIOS_WORDS)
        self.place = "the first checks"
        firsts = [words for words in told if words[0] == "first"]
        self.first_checks(firsts)
        for words in told[len(firsts):]:
            self.place = " ".join(words)
            handle = {"start": self.turn, "putoff": self.turn, "held": self.turn, "asked": self.on_asked, "result": self.on_result,
                      "command": self.on_command, "clock": self.on_clock}[words[0]]
            handle(words)

    # ---- comparing

    def expect(self, what: str, modelled: object, nagios: object) -> None:
        if modelled != nagios:
            raise Failure(what, f"{self.place}: {what}: Nagios has {nagios}, its model {modelled}")

    def compare(self, answer: str, here: object, there: object, *steps: tuple[str, object]) -> bool:
        """Counts an answer. The steps lead from ours to Nagios's, each with the row that makes it. Returns whether the two are equal."""
        self.counts.compared[answer] += 1
        named = rows.explain(here, there, steps)
        if named is None:
            raise Failure(answer, f"{self.place}: {answer}: {here} here, {there} in Nagios; no row explains it (rows lead to {[here, *steps][-1]})")
        if here == there:
            return True
        if not named <= self.known:
            raise Failure(answer, f"{self.place}: {answer}: {here} here, {there} in Nagios; the page has no row {sorted(named - self.known)}")
        self.counts.different[answer] += 1
        self.counts.rows.update((row, answer) for row in named)
        self.differences.append(Difference(answer, frozenset(named), here, there))
        return False

    # ---- nagsched's calls

    def call(self, answer: str, call: str) -> None:
        self.calls.append(call)
        self.answers.append(answer)

    def take(self, now: int) -> tuple[str, Optional[Object]]:
        word, o = self.rules.choice(now)
        if o is None:
            waiting = [other.next for other in self.rules.objects if other.next is not None and other.run is None and (other.enabled or other.forced)]
            self.call(f"idle {min(waiting, default='none')}" if word == "idle" else word, f'["take",{now}]')
        elif word == "putoff":
            o.next = self.rules.put_off(o, now)
            self.call(f"putoff {'none' if o.next is None else o.next} {o.name}", f'["take",{now}]')
        else:
            self.rules.runs += 1
            o.run, o.next, o.forced = (self.rules.runs, now), None, False
            self.call(f"taken {self.rules.runs} {o.name}", f'["take",{now}]')
        return word, o

    def reschedule(self, o: Object, at: int, forced: bool) -> None:
        o.next, o.forced = at, forced
        self.call(f"done {o.name}", f'["reschedule","{o.name}",{at},{"true" if forced else "false"}]')

    def abandon(self, o: Object, now: int) -> None:
        assert o.run is not None
        number, _ = o.run
        o.run, o.next = None, now if o.next is None else o.next
        self.call(f"freed {o.next} {o.name}", f'["abandon","{o.name}",{number},{now}]')

    def begin(self, o: Object, begun: int) -> None:
        """Has nagsched run the object since that moment, without a next time. If the limit is reached, another check makes room."""
        if o.run is not None:
            self.abandon(o, begun)
        while not o.is_host and self.rules.is_full():
            other = next(other for other in self.rules.objects if not other.is_host and other.run is not None)
            assert other.run is not None
            other.missing.append((other.run[1] // 1000, "forced past the limit"))
            self.abandon(other, begun)
            self.follow(other)
        self.reschedule(o, 0, True)
        self.take(begun)

    def follow(self, o: Object) -> None:
        """Sets our next time to Nagios's, so that an earlier difference doesn't show again."""
        if o.event is None:
            if visible(o.next) is not None and o.run is not None:
                self.begin(o, o.run[1])
            elif visible(o.next) is not None:
                self.reschedule(o, FAR, False)
        elif (o.next, o.forced) != (o.event.time * 1000, o.event.forced):
            self.reschedule(o, o.event.time * 1000, o.event.forced)

    # ---- first checks

    def first_checks(self, told: list[list[str]]) -> None:
        self.expect("the objects", [o.name for o in self.rules.objects], [words[1] for words in told])
        for sort in ("service", "host"):
            scheduled = [o for o in self.rules.objects if o.is_host == (sort == "host") and o.scheduled]
            exact = self.rules.delay(sort, scheduled)
            rough = nagios_delay(self.rules.options, sort, scheduled)
            for place, o in enumerate(scheduled):
                ours = self.rules.first_rank(o) * exact
                there = seconds(told[o.number][2])
                steps = [(row, START * 1000 + int(1000 * value)) for row, value in self.spread(scheduled, place, ours, exact, rough)]
                if o.is_host and steps and steps[-1][1] > (START + o.check) * 1000:
                    self.expect("the first time", True, there is not None and START * 1000 <= there <= (START + o.check) * 1000)
                    steps.append(("random first check", there or 0))
                o.next = START * 1000 + int(1000 * ours)
                self.compare("first check", o.next, there, *steps)
                o.event = model.Event((there or 0) // 1000, False, False, (there or 0) // 1000)
                o.next_check = o.event.time
        for o in self.rules.objects:
            if not o.scheduled:
                self.compare("first check", None, seconds(told[o.number][2]))
        # The program's own first times, before ours become Nagios's.
        for o in self.rules.objects:
            standing = f"standing PENDING HARD 1 no {'FLAPPING' if self.rules.flag(o) else 'STEADY'}"
            self.call(f"{standing} {'none' if o.next is None else o.next} {o.name}", f'["status","{o.name}"]')
        for o in self.rules.objects:
            self.follow(o)

    def spread(self, scheduled: list[Object], place: int, ours: Fraction, exact: Fraction, rough: float) -> Iterator[tuple[str, Fraction]]:
        """A first time, changed by one row after another, in seconds from the start."""
        time, whole = ours, int(place * rough)
        if not scheduled[0].is_host:
            own, count = scheduled[place].check, len(scheduled)
            factor = self.rules.factor(scheduled) or 1
            blocks = -(-count // factor)
            turn, block = place % factor, place // factor
            rank = sum((other % factor, other) < (turn, place) for other in range(count))
            if count != sum(not o.is_host for o in self.rules.objects):
                time = rank * exact
                yield "scheduled places", time
            time += (turn * blocks + block - rank) * exact
            yield "gaps in the ranks", time
            time += blocks * exact
            yield "empty first block", time
            whole = int(((turn + 1) * blocks + block) * rough)
            if whole > own:
                time = min(time, Fraction(own))
                yield "cut to the interval", time
            whole = min(whole, own)
        if abs(time - whole) <= 1:
            yield "whole seconds", Fraction(whole)

    # ---- an event of Nagios's queue

    def turn(self, words: list[str]) -> None:
        """Nagios handles an object's event: its check begins, is put off, or is held back."""
        outcome, name, now = words[0], words[1], int(words[2])
        o = self.objects[name]
        if o.event is None or o.event.due > now or o.event.due > min(other.event.due for other in self.rules.objects if other.event is not None):
            raise Failure("queue", f"{self.place}: the model's queue has another event first")
        forced = o.event.forced
        if outcome == "start":
            self.expect("forced", forced, words[3] == "1")
        steps, stays = list(self.turn_steps(o, now)), visible(o.next)
        here = self.ask(o, now)
        self.compare("turn", here, outcome, *steps)
        if outcome == "held":
            if here != "start":
                self.compare("time after a turn", stays, seconds(words[3]), ("pushed back", seconds(words[3])))
            self.expect("pushed back by 5 to 17 s", True, 5 <= int(words[3]) - o.next_check <= 17)
            o.event = model.Event(int(words[3]), forced, o.event.on_demand, max(int(words[3]), now))
            o.next_check = int(words[3])
        elif outcome == "putoff":
            self.after_put_off(o, now, here, stays, seconds(words[3]))
        else:
            self.nagios.begin(o)
            if here == "putoff":
                self.begin(o, now * 1000)
            elif here != "start":
                o.missing.append((now, "checked twice at once" if here == "runs" else "forced past the limit"))
        if outcome != "start" and here == "start":
            self.abandon(o, now * 1000)
        self.follow(o)

    def here(self, o: Object, runs: bool, off: bool, full: bool, forbidden: bool) -> str:
        """The outcome for the object when its time has come."""
        if runs or off:
            return "runs" if runs else "off"
        if full and not o.is_host:
            return "held"
        return "putoff" if forbidden and not o.forced else "start"

    def turn_steps(self, o: Object, now: int) -> Iterator[tuple[str, str]]:
        """From our outcome to Nagios's, row by row."""
        rules, nagios = self.rules, self.nagios
        assert o.event is not None
        full = rules.is_full()
        off = not o.enabled and not o.forced
        ours = rules.is_forbidden(o)
        barred = nagios.barred(o, now)
        if barred is not None and o.executing:
            yield barred, "putoff"
            return
        if o.run is not None:
            yield "checked twice at once", self.here(o, False, off, full, ours)
        if off:
            yield "switching off", self.here(o, False, False, full, ours)
        held = nagios.is_held(o)
        if held != full and not o.is_host:
            missing = [row for other in rules.objects for _, row in other.missing]
            row = "forced past the limit" if o.event.forced else missing[0] if missing else UNEXPLAINED
            yield row, self.here(o, False, False, held, ours)
        if held:
            return
        if barred is not None:
            yield barred, "putoff"
            return
        for row, forbidden in self.forbidden_steps(o):
            yield row, self.here(o, False, False, False, forbidden)
        if off:
            yield "switching off", "putoff"

    def forbidden_steps(self, o: Object) -> Iterator[tuple[str, bool]]:
        """Whether dependencies forbid the check, by one row of Nagios's after another. A row counts only if something in reach differs by it."""
        def forbids(dependent: Object, letters: bool) -> bool:
            """With each master's state, checked or not, and perhaps the letters that Nagios's reader leaves."""
            for link in dependent.links:
                named = link.there if letters else link.here
                if named is not None and (model.LETTERS[self.counted(link.master.here)] in named or (link.inherits and forbids(link.master, letters))):
                    return True
            return False

        links = rows.reach(o)
        if not all(link.master.checked for link in links):
            yield "master never checked", forbids(o, False)
        if any(link.there != link.here - {"p"} for link in links):
            yield "criteria with n", forbids(o, True)
        if any(link.master.here != link.master.there for link in links):
            yield "after a problem while the host was down", self.nagios.is_forbidden(o)

    def counted(self, standing: Standing) -> str:
        return standing.state if self.rules.options["soft_state_dependencies"] else standing.last_hard

    def ask(self, o: Object, now: int) -> str:
        """Asks nagsched for its answer at this moment, compares which object comes first, and returns the outcome for this object."""
        is_ours = o.run is None and (o.enabled or o.forced)
        outcome = self.here(o, o.run is not None, not is_ours, self.rules.is_full(), self.rules.is_forbidden(o))
        word, first = self.answered(o, now)
        if is_ours and outcome != "held":
            assert first is not None and o.event is not None
            steps = []
            if first.event is not None and first.event.time == o.event.time:
                steps = [("equal times", o.name)]
            elif first.event is not None and (first.event.due, o.event.due) != (first.event.time, o.event.time):
                steps = [("past times", o.name)]
            self.compare("which comes first", first.name, o.name, *steps)
        if first is not o and is_ours:
            self.reschedule(o, 0, o.forced)
            self.answered(o, now)
        return outcome

    def answered(self, o: Object, now: int) -> tuple[str, Optional[Object]]:
        """A take. If it took or put off another object than this one, that is undone."""
        word, first = self.take(now * 1000)
        if first is not None and first is not o:
            if word == "taken":
                self.abandon(first, now * 1000)
            self.follow(first)
        return word, first

    def after_put_off(self, o: Object, now: int, here: str, stays: Moment, there: Moment) -> None:
        """The next time after an event without a check."""
        barred, is_soft = self.nagios.barred(o, now), o.there.is_soft_problem()
        by_kind = now + (o.retry if is_soft else o.check)
        self.nagios.put_off(o, now)
        self.expect("the waiting check", o.event and o.event.time * 1000, there)
        if here == "putoff" and barred is None:
            steps: list[tuple[str, Moment]] = []
            if is_soft:
                steps.append(("put off by the retry interval", by_kind * 1000 if by_kind > now else None))
            if by_kind == now and there == (now + 300) * 1000:
                steps.append(("five minutes", there))
            if by_kind - now >= model.TOO_LONG:
                steps.append(("long interval", there))
            self.compare("time after a turn", o.next, there, *steps)
        elif here != "start":
            row = barred or {"runs": "checked twice at once", "off": "switching off"}[here]
            self.compare("time after a turn", o.next if here == "putoff" else stays, there, (row, there))

    # ---- results and calls

    def on_asked(self, words: list[str]) -> None:
        self.asked.append((words[1], int(words[3])))

    def requests(self, of: Object, result: model.Result, now: int, what: str) -> None:
        """Compares the checks that Nagios asked for with the model's; nagsched asks for none."""
        moved = []
        for o, why in result.asked:
            self.counts.requests[f"{what} asks for {why}{'' if why == model.HOST else f' that is {o.there.state}'}"] += 1
            before = o.event, o.next_check, o.forced_option
            if self.nagios.schedule(o, now, now, False, why != model.MASTER):
                moved.append((o.name, now))
                self.compare("check on demand", None, now * 1000, ("checks on demand", now * 1000))
            if not self.history.keeps:
                o.event, o.next_check, o.forced_option = before
        if not result.asked:
            self.counts.requests[f"{what} asks for nothing"] += 1
        self.expect("the checks on demand", sorted(set(moved)), sorted(self.asked))
        self.asked = []
        if self.history.keeps:
            for o, _ in result.asked:
                self.follow(o)

    def on_command(self, words: list[str]) -> None:
        command = next(self.commands)
        o, now = self.objects[words[1]], int(words[2])
        there = None if words[3] == "-" else (int(words[3]) * 1000, words[4] == "1")
        row = "reschedule"
        if command.word in ("reschedule", "force"):
            self.nagios.schedule(o, now, command.time, command.word == "force")
            self.reschedule(o, command.time * 1000, command.word == "force")
        elif command.word in ("enable", "disable"):
            row = "switching on"
            is_on = command.word == "enable"
            if o.enabled != is_on:
                o.enabled = is_on
                o.scheduled = is_on and o.check != 0
                o.next_check = now if is_on else o.next_check
                if o.scheduled:
                    self.nagios.schedule(o, now, now, False)
            self.call(f"done {o.name}", f'["enable","{o.name}",{"true" if is_on else "false"}]')
        self.expect("whether checks are on", o.enabled, words[5] == "1")
        self.expect("the waiting check", o.event and (o.event.time * 1000, o.event.forced), there)
        here = None if visible(o.next) is None else (o.next, o.forced)
        self.compare("time after a call", here, there, (row, there))
        self.follow(o)

    def on_clock(self, words: list[str]) -> None:
        """The clock was set back, or the process stopped: Nagios may have moved the object's times. nagsched isn't told."""
        o, now, by, stays = self.objects[words[1]], int(words[2]), int(words[4]), visible(self.objects[words[1]].next)
        if by < 0 or by >= self.history.threshold:
            self.nagios.clock_changed(o, now, by)
        self.expect("the waiting check", o.event and o.event.time * 1000, seconds(words[3]))
        self.compare("time after a change of the clock", stays, seconds(words[3]), ("clock set back" if by < 0 else "pause", seconds(words[3])))
        self.follow(o)

    def on_result(self, words: list[str]) -> None:
        """A result: Nagios has handled it, nagsched gets it, and their answers are compared."""
        o, now, code, begun = self.objects[words[1]], int(words[2]), int(words[3]), int(words[4])
        names, host = model.HOST_STATES if o.is_host else model.SERVICE_STATES, o.host or o
        there = Standing(names[int(words[5])], KINDS[int(words[6])], int(words[7]), names[int(words[8])])
        before, before_here, waiting = o.there, o.here, o.event
        what_before = before.state, host.there.state if host.checked else "never checked"
        state, host_down = self.rules.state_of(o, code), self.rules.host_down(o)
        handled = rows.handle(self.nagios, o, state, begun, now)
        result = handled.result
        self.expect("the standing", o.there, there)
        self.expect("the percent", f"{model.percent(o.flaps.all.changes):.9f}", words[11])
        self.expect("the host's percent and flag", (f"{model.percent(host.flaps.all.changes):.9f}", host.flaps.flags[5]), (words[16], words[15] == "1"))
        self.requests(o, result, now, situation(o, state, *what_before))
        changed = self.rules.changed(before_here.state, state)
        flag = self.rules.flag(o)
        ours = self.report(o, code, begun, self.rules.verdict(before_here, state, o.most, host_down), changed, flag)
        equal = [self.compare("standing", o.here, there, *rows.standing_steps(o, handled, before_here != before, o.there)),
                 self.compare("changed", changed, names[int(words[9])] != there.state),
                 self.compare("flapping", flag, words[10] == "1", *rows.flag_steps(o))]
        self.logged(o, words[14], names, handled, before_here != before)
        due = self.nagios_next(o, result, now)
        self.expect("the waiting check", due, (seconds(words[12]), words[13] == "1"))
        steps = list(rows.next_steps(self.rules, o, handled, begun, now))
        if waiting is not None:
            steps = [("checks on demand" if waiting.on_demand else "reschedule", due[0])]
        equal.append(self.compare("next check", ours, due[0], *steps))
        self.counts.equal_results += all(equal)
        o.checked = True
        self.follow(o)

    def report(self, o: Object, code: int, begun: int, after: Standing, changed: bool, flag: bool) -> Moment:
        """Reports a result to nagsched, whose run begins only now if nagsched couldn't begin it before. The next time by our rules."""
        if o.run is None or o.run[1] != begun * 1000:
            o.missing.remove(next(missing for missing in o.missing if missing[0] == begun))
            if o.run is not None:
                o.missing.append((o.run[1] // 1000, "checked twice at once"))
            self.begin(o, begun * 1000)
            self.follow(o)
        assert o.run is not None
        number, _ = o.run
        o.here, o.run = after, None
        if o.next is None:
            o.next = self.rules.after(o, begun * 1000, after)
        self.call(f"standing {after.state} {after.kind} {after.attempt} {'yes' if changed else 'no'} {'FLAPPING' if flag else 'STEADY'} "
                  f"{'none' if o.next is None else o.next} {o.name}", f'["report","{o.name}",{number},{code}]')
        self.call(f"last hard {after.last_hard} {o.number}", '["save"]')
        return o.next

    def logged(self, o: Object, told: str, names: tuple[str, ...], handled: rows.Handled, were_apart: bool) -> None:
        """The log, which doesn't always show the standing that Nagios stores."""
        logged = handled.result.logged
        if logged is None:
            self.expect("the log", "-", told)
            return
        state, kind, attempt = map(int, told.split(","))
        self.expect("the log", logged[:3], (names[state], KINDS[kind], attempt))
        steps = rows.standing_steps(o, handled, were_apart, logged)
        self.compare("log", o.here[:3], logged[:3], *((row, standing[:3]) for row, standing in steps))

    def nagios_next(self, o: Object, result: model.Result, now: int) -> tuple[Moment, bool]:
        """The check that waits in Nagios's queue after the result, and whether it is forced."""
        if o.scheduled:
            time = max(result.base + result.interval, now)
            o.next_check = time
            self.nagios.schedule(o, now, time, False)
        return (o.event.time * 1000, o.event.forced) if o.event is not None else (None, False)


# ---- small parts


def visible(time: Moment) -> Moment:
    return None if time is None or time >= FAR else time


def seconds(word: str) -> Moment:
    return None if word == "-" else int(word) * 1000


def nagios_delay(options: dict[str, Any], sort: str, scheduled: list[Object]) -> float:
    """The delay between two first checks as Nagios computes it, in seconds."""
    method, count = options[f"{sort}_inter_check_delay_method"], len(scheduled)
    if method == "s":
        spread: int = options[f"max_{sort}_check_spread"] * 60
        return min(sum(o.check for o in scheduled) / count / count, spread / count) if count else 0.0
    milliseconds: int = {"n": 0, "d": 1000}.get(method, method)
    return milliseconds / 1000


def situation(o: Object, state: str, was: str, host: str) -> str:
    """A result, as far as Nagios's requests depend on it."""
    if o.is_host:
        return f"host {was} to {state}"
    change = "OK" if state == "OK" else "the same problem" if state == was else "a new or another problem"
    return f"service with {change}, host {host}"
