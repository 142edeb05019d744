"""Both verdicts on each result that Nagios wrote, and the harm between them. For second_opinion.py."""
from __future__ import annotations

import collections
import dataclasses
import re
from typing import Optional

from second_opinion_records import AT_ONCE, FLAPPING, LATE, NEVER, OVERDUE, STOOD, TWICE, UNEXPLAINED, Findings, Line, Site, clock, full_name
import from_nagios
import model
import rows
from nagsched_monitor.faults import ConversationEnded
from nagsched_monitor.model.protocol import Report, Reschedule, Standing as Verdict, Take, call_line, read_standing
from nagsched_monitor.scheduler.schedulers import Conversation

FULL = 21  # results that fill a history for flapping
HELD = 5  # seconds for which lines of obsessing commands wait for others, since they come in any order


class Program(Conversation):
    """`nagsched live` with one setup. Each result is that of a forced check at time 0, before all planned ones."""

    def __init__(self, path: str, setup: model.Setup) -> None:
        super().__init__(path, from_nagios.json_text(setup).rstrip("\n").encode(), start=1)
        self.runs = 0

    def report(self, name: str, begun: int, code: int) -> Verdict:
        """The program's verdict on a result."""
        self.runs += 1
        calls = [call_line(Reschedule(name, 0, True)), call_line(Take(begun * 1000)), call_line(Report(name, self.runs, code))]
        answer = self.ask_lines(calls)[-1]
        if not answer.startswith("standing "):
            raise ConversationEnded(f"nagsched gives no verdict on {name}, but answers {answer}")
        return read_standing(answer.partition(" ")[2])


@dataclasses.dataclass
class Known:
    """What is known of an object since both sides had the same standing."""

    told: Optional[str] = None  # the problem that Nagios has told
    is_soft_again: bool = False
    waits: Optional[tuple[int, str]] = None  # since when nagsched has told a problem that Nagios hasn't, and both verdicts
    flag: Optional[bool] = None  # whether Nagios says that it flaps, once that is known
    flaps_unseen: bool = False


@dataclasses.dataclass(eq=False)
class Watch:
    of: model.Object
    programs: list[Program]  # the first one decides; in the others the object is a mirror
    is_timed: bool  # whether it is known when Nagios should check it
    known: Optional[Known] = None
    next: int = 0  # nagsched's next time, in seconds, or 0
    steps: Optional[list[tuple[str, int]]] = None  # from that time to Nagios's, until both were compared
    due: Optional[int] = None  # when Nagios should begin its next check at the latest, in seconds
    last: int = 0  # when its last result began
    runs: list[Line] = dataclasses.field(default_factory=list)  # its last active checks

    def ask(self, begun: int, code: int) -> None:
        """Reports a result to nagsched."""
        verdict, *_ = [program.report(self.of.name, begun, min(2, 2 * code) if self.of.is_host else code) for program in self.programs]
        self.of.here = model.Standing(verdict.state, verdict.kind, verdict.attempt, verdict.state if verdict.kind == model.HARD else self.of.here.last_hard)
        self.of.flaps.flags[0], self.next = verdict.flapping, (verdict.next or 0) // 1000

    def settle(self, begun: int, code: int) -> bool:
        """Gives both sides the hard standing of this state. Whether they have it."""
        o, state = self.of, self.of.states[code]
        for _ in range(o.most + 1):
            if (o.here.state in model.GOOD) != (code == 0) or o.here.kind == model.SOFT:
                self.ask(begun, code)
        o.there = model.Standing(state, model.HARD, o.most if code else 1, state)
        return o.here.state == state

    def begin(self, line: Line) -> None:
        """Begins to compare the object: at a result after a good one, or after a result that is good or a hard problem."""
        if line.before == 0 or line.state == 0 or (line.kind, line.attempt) == (model.HARD, self.of.most):
            self.known = Known() if self.settle(line.begun, line.state if line.before else 0) else None
            self.of.flaps, self.of.host_problem = model.Flaps(self.of), line.host_state != 0 and not self.of.is_host


class Opinion:
    """Both verdicts over one configuration."""

    def __init__(self, site: Site, program: str, late: int, found: Findings) -> None:
        self.site, self.late, self.found = site, late, found
        self.rules = model.Rules(site.setup)
        self.nagios = model.Nagios(self.rules, model.KeepsNothing())
        self.programs = [Program(program, part) for part in site.parts]
        homes: dict[str, list[Program]] = collections.defaultdict(list)
        for number, (part, running) in enumerate(zip(site.parts, self.programs), 1):
            for name in model.names(part):
                homes[name].insert(len(homes[name]) if name in site.mirrors.get(f"part-{number}", ()) else 0, running)
        self.watches = {o.name: Watch(o, homes[o.name], o.scheduled and o.name not in site.untimed) for o in self.rules.objects}
        for o in self.rules.objects:
            o.checked = True
        self.held: list[Line] = []
        self.first = 0
        found.objects = max(found.objects, len(self.watches))

    def add(self, line: Line) -> None:
        """Takes the next line. Those of obsessing commands wait for some seconds, since they come in any order."""
        self.held.append(line)
        self.release(line.handled + 1 if line.is_stored else line.handled - HELD)

    def release(self, before: float) -> None:
        """Handles the held lines of earlier seconds: in each by the changes of states, and hosts before their services."""
        while self.held:
            line = min(self.held, key=lambda each: (each.handled, each.change, ";" in each.name))
            if line.handled >= before:
                break
            self.held.remove(line)
            self.result(line)

    def result(self, line: Line) -> None:
        watch, found = self.watches.get(line.name), self.found
        if watch is None:
            found.counts["results of objects that the configuration doesn't have"] += 1
            return
        self.note_time(line.handled)
        if watch.of.host is not None:
            self.follow_host(self.watches[watch.of.host.name], line)
        if watch.known is not None and watch.of.states[line.before] != watch.of.there.state:
            found.counts["results before which others are missing"] += 1
            watch.known = None
        watch.next, watch.steps, watch.last = 0, None, line.begun
        was_known = watch.known is not None or line.before == 0
        if watch.known is None:
            watch.begin(line)
        if was_known and watch.known is not None:
            self.compare(watch, watch.known, line)
        else:
            found.counts["results before the object's beginning"] += 1
        if not line.is_passive:
            self.time(watch, line)

    def note_time(self, now: int) -> None:
        """Notes the time of a result, and whether Nagios stood still before it."""
        found = self.found
        self.first, found.first = self.first or now, found.first or now
        found.minutes[(now - found.first) // 60] += 1
        if 0 < found.last < now - self.late:
            waiting = [watch for watch in self.watches.values() if watch.due and watch.due < now - self.late]
            if len(waiting) > 2:
                found.harm(STOOD, "all objects", found.last, now, f"no result for {now - found.last} s, while {len(waiting)} checks were due")
                for watch in waiting:
                    watch.due = now
        found.last = max(found.last, now)

    def restart(self, is_planned: bool) -> None:
        """Nagios has restarted: what was due may be planned again, and flapping may have ended. If it was killed, it has older states."""
        self.release(float("inf"))
        self.found.counts["restarts and reloads of Nagios"] += 1
        for watch in self.watches.values():
            rows.restart(watch.of)
            watch.due = watch.steps = None
            watch.known = dataclasses.replace(watch.known, flag=None) if watch.known is not None and is_planned else None

    def follow_host(self, watch: Watch, line: Line) -> None:
        """Brings a host into the state that its service's line has, if its own lines don't say so."""
        is_up = line.host_state == 0
        if (watch.of.there.state == "UP", watch.of.here.state == "UP") != (is_up, is_up):
            self.found.counts["states of hosts that were taken from a service's line"] += 1
            watch.known = None
            watch.settle(line.begun, line.host_state)

    def compare(self, watch: Watch, known: Known, line: Line) -> None:
        """Lets both sides judge a result, Nagios by the judge's model of it, and compares that with what Nagios wrote."""
        o, found, were_apart = watch.of, self.found, watch.of.there[:3] != watch.of.here[:3]
        handled = rows.handle(self.nagios, o, o.states[line.state], line.begun, line.handled, line.is_passive and not self.site.is_soft)
        watch.ask(line.begun, line.state)
        there = o.there if line.is_stored else handled.result.logged or o.there
        told = there._replace(state=o.states[line.state], kind=line.kind, attempt=line.attempt)
        steps = rows.standing_steps(o, handled, were_apart, there)
        causes = rows.explain(o.here[:3], told[:3], ((row, standing[:3]) for row, standing in steps))
        both = f"Nagios {told}, nagsched {o.here}"
        found.counts["results compared"] += 1
        if causes is None or rows.UNEXPLAINED in causes:
            watch.known = None
            found.harm(UNEXPLAINED, line.name, line.begun, line.handled, f"{both}; by Nagios's own rules {there}")
            return
        found.counts["equal verdicts"] += told[:3] == o.here[:3]
        found.rows.update(causes if told[:3] != o.here[:3] else ())
        self.tell(watch, known, line, f"{both} ({', '.join(sorted(causes))})" if causes else both)
        self.compare_flags(watch, known, line)
        if not line.is_passive:
            watch.steps = [(row, (moment or 0) // 1000) for row, moment in rows.next_steps(self.rules, o, handled, line.begun, line.handled)]

    def tell(self, watch: Watch, known: Known, line: Line, both: str) -> None:
        """Follows which problems each side tells: hard ones, of a service only while its host is up."""
        harm, can_tell, state = self.found.harm, watch.of.is_host or line.host_state == 0, watch.of.states[line.state]
        is_told = line.state != 0 and line.kind == model.HARD and can_tell
        if is_told and known.told == state and known.is_soft_again:
            harm(TWICE, line.name, line.begun, line.handled, f"told again without a recovery: {both}")
        elif known.waits is not None and (line.state == 0 or is_told):
            since, earlier = known.waits
            text = f"{line.handled - since} s later: {earlier}; then {both}" if is_told else f"not told before it was over: {earlier}"
            harm(LATE, line.name, since, line.handled, text)
        if line.state == 0 or is_told:
            known.waits, known.told, known.is_soft_again = None, state if is_told else None, False
        elif line.kind == model.SOFT:
            known.is_soft_again = known.told is not None
            if watch.of.here.kind == model.HARD and can_tell and known.waits is None:
                known.waits = line.handled, both

    def compare_flags(self, watch: Watch, known: Known, line: Line) -> None:
        """Compares the flags, once both histories are full."""
        o, found = watch.of, self.found
        if o.name in self.site.flaps_otherwise or min(o.flaps.own.count, o.flaps.all.count) < FULL:
            return
        if abs(model.percent(o.flaps.all.changes) - line.percent) > 0.006:
            found.counts["results whose percent of changes has another beginning"] += 1
            known.flag = None
        elif known.flag is not None or not o.low < line.percent < o.high:
            here, known.flag = o.flaps.flags[0], o.flaps.flags[5]
            causes = rows.explain(here, known.flag, rows.flag_steps(o)) or set()
            found.counts["flags compared"] += 1
            found.rows.update(causes if here != known.flag else ())
            was_unseen, known.flaps_unseen = known.flaps_unseen, here and not known.flag
            if known.flaps_unseen and not was_unseen:
                text = f"nagsched FLAPPING, Nagios not, with {line.percent:.0f} of {o.high} percent ({', '.join(causes)})"
                found.harm(FLAPPING, line.name, line.handled, line.handled, text)

    def time(self, watch: Watch, line: Line) -> None:
        """Whether an active check began in time and alone, and when the next one is due."""
        harm, due = self.found.harm, watch.due
        for run in watch.runs:
            if line.begun + 1 <= run.begun + run.took and run.begun + 1 <= line.begun + line.took:
                self.found.rows["checked twice at once"] += 1
                harm(AT_ONCE, line.name, max(run.begun, line.begun), line.handled, f"one check ran for {run.took:.0f} s from {clock(run.begun)}, "
                     f"another for {line.took:.0f} s from {clock(line.begun)}; nagsched begins no second one")
        if due is not None and line.begun - due > self.late:
            harm(OVERDUE, line.name, due, line.begun, f"begun {line.begun - due} s late; Nagios's own latency is {line.latency:.0f} s")
        watch.runs, watch.due = [*watch.runs[-3:], line], None
        if watch.is_timed and watch.next:
            watch.due = max(line.handled, watch.next, *(moment for _, moment in watch.steps or ()))

    def finish(self) -> None:
        """The end of the lines: what is still due, isn't told or flaps."""
        self.release(float("inf"))
        harm, end = self.found.harm, self.found.last
        for name, watch in self.watches.items():
            if watch.known is not None and watch.known.waits is not None:
                harm(LATE, name, watch.known.waits[0], end, f"not told until the last line: {watch.known.waits[1]}")
            if watch.due is not None and end - watch.due > self.late + max((run.took for run in watch.runs), default=0):
                harm(OVERDUE, name, watch.due, end, f"not begun for {end - watch.due} s, until the last line")
            elif watch.is_timed and not watch.runs and end - self.first > 2 * watch.of.check + self.late:
                harm(NEVER, name, self.first, end, f"no check in {end - self.first} s, with an interval of {watch.of.check} s")
        for program in self.programs:
            program.close()

    def sample(self, text: str) -> None:
        """Compares next checks and flags with a status file."""
        for body in re.findall(r"^(?:hoststatus|servicestatus) \{\n(.*?)^\t\}", text, re.MULTILINE | re.DOTALL):
            status = dict(line.strip().split("=", 1) for line in body.splitlines() if "=" in line)
            watch = self.watches.get(full_name(status))
            if watch is None:
                continue
            watch.of.enabled = status["active_checks_enabled"] == "1"
            watch.is_timed = watch.of.enabled and watch.of.check > 0 and watch.of.name not in self.site.untimed
            watch.due = watch.due if watch.is_timed else None
            if watch.steps is None or int(status["last_check"]) != watch.last:
                continue
            known, is_flapping = watch.known, status["is_flapping"] == "1"
            if known is not None and known.flag not in (None, is_flapping) and not watch.of.is_host:
                self.found.counts["flags that Nagios set or removed otherwise"] += 1
                watch.of.flaps.flags[5] = is_flapping
            if watch.is_timed and status["should_be_scheduled"] == "1":
                here, there = watch.next, int(status["next_check"])
                causes = rows.explain(here, there, watch.steps)
                self.found.counts["next checks compared"] += 1
                self.found.counts["equal next checks"] += here == there
                self.found.counts["next checks that a command, a check on demand, a recent result or a dependency moved"] += causes is None
                self.found.rows.update(causes if causes is not None and here != there else ())
                watch.due = max(watch.due, there) if causes is None and watch.due is not None else watch.due
            watch.steps = None
