"""The times of checks: switches, periods, freshness, phases, operators and results set them.

The age of what is known is the time since each object's last result, compared with the time that its site promises. It finds every cause that keeps
results away: no plugin can be started, a runner is away, a scheduler or the disk fails."""
import collections
from functools import partial
from typing import Callable, Dict, List, Mapping, NamedTuple, Optional, Sequence, Tuple

from ..model.clock import Clock
from ..model.objects import HOST_FIRST, LONGEST_SHARING, RESULT_FIRST, ObjectDefinition, ObjectState
from ..model.protocol import NO_PROBLEM, Enable, Reschedule, Standing, Take
from ..scheduler.plans import Plan
from ..scheduler.scheduling import Scheduling
from .passive import PassiveResults

WINDOW = 15_000  # the time within which overdue checks are made, in milliseconds, unless their interval is shorter
# The greatest difference from the phase that a next check may keep, in milliseconds.
TOLERANCE = LONGEST_SHARING + 100
# The time after two intervals and the limit of the plugin until an object is overdue, and between two log lines about overdue objects, in milliseconds.
MARGIN = 60_000
LOG_AGAIN = 600_000


class Overdue(NamedTuple):
    """The objects without a result in time: how many of how many, and by how many milliseconds which object is overdue the longest."""

    number: int
    promised: int
    by: int
    name: str


class Checks:
    def __init__(self, scheduling: Scheduling, passive: PassiveResults, operator: Dict[str, bool], clock: Clock, log: Callable[[str], None]) -> None:
        self._scheduling, self._passive, self._clock, self._log = scheduling, passive, clock, log
        self._objects = scheduling.states.objects
        self.operator_switches = operator
        # The next checks that wait to be set; the objects that were switched on, and the parts whose overdue checks aren't spread yet.
        self.planned_checks: Dict[str, Reschedule] = {}
        self._to_spread: List[str] = []
        self._unspread: List[int] = []
        # The periods that include the minute for which they were looked at last.
        self._periods: Mapping[str, bool] = {}
        self._minute: Optional[int] = None
        self._logged_at: Optional[int] = None  # when overdue objects were logged last, while there are some

    def has_more(self, now: int) -> bool:
        """Whether something has to be planned at once. A next check that waits to be set for later isn't urgent."""
        urgent = [self._objects[name] for name, call in self.planned_checks.items() if call.time <= now and name in self._objects]
        return bool(self._to_spread or self._unspread) or any(self._scheduling.is_open(obj.definition.part) for obj in urgent)

    def is_to_be_enabled(self, definition: ObjectDefinition, switch: Optional[bool] = None) -> bool:
        """Whether the active checks of an object have to be on: both the operator's switch and its period have to allow them."""
        on = self.operator_switches.get(definition.name, definition.enabled) if switch is None else switch
        return on and not definition.passive_only and self.is_in_period(definition)

    def is_in_period(self, definition: ObjectDefinition) -> bool:
        return definition.period is None or self._periods.get(definition.period, True)

    def recheck_periods(self) -> None:
        self._minute = None

    def plan_periods(self, plan: Plan) -> None:
        """Switches objects by their periods, once a minute. Objects that are switched on are spread."""
        wall = self._clock.wall()
        minute = int(wall // 60)
        if minute == self._minute:
            return
        self._periods = self._scheduling.site.periods.active_by_name(wall)
        changed = [obj for obj in self._objects.values() if obj.on != self.is_to_be_enabled(obj.definition)]
        opened = [obj for obj in changed if self._scheduling.is_open(obj.definition.part)]
        plan.calls += [(obj.definition.part, Enable(obj.name, not obj.on), None) for obj in opened]
        plan.then.append(partial(setattr, self, "_minute", minute if len(opened) == len(changed) else None))
        plan.then.append(partial(self._to_spread.extend, [obj.name for obj in changed if not obj.on]))

    def apply_switch(self, obj: ObjectState, on: Optional[bool]) -> None:
        """An operator's switch was stored; None if it was removed."""
        if on is None:
            self.operator_switches.pop(obj.name, None)
        else:
            self.operator_switches[obj.name] = on
        if on is not False:
            self._to_spread.append(obj.name)

    def plan_check(self, obj: ObjectState, time: int, forced: bool) -> None:
        """Has the next check of an object set, with the next plan."""
        self.planned_checks[obj.name] = Reschedule(obj.name, time, forced)

    def plan_next_checks(self, plan: Plan, now: int) -> None:
        """Sets the next checks that wait, after requests have set theirs."""
        left: Dict[str, Reschedule] = {}
        for name, call in self.planned_checks.items():
            obj = self._objects.get(name)
            if obj is None or name in plan.requested:
                continue
            if not self._scheduling.is_open(obj.definition.part):
                left[name] = call
            elif obj.run is None:
                plan.calls.append((obj.definition.part, call, None))
                (plan.at_once if call.time <= now else plan.later).add(name)
        plan.then.append(partial(setattr, self, "planned_checks", left))

    def plan_freshness(self, now: int) -> None:
        """Asks for a check of each object that had no result within its freshness, which runs its command."""
        for name in self._scheduling.site.with_freshness:
            obj = self._objects[name]
            if obj.is_stale(now) and name not in self._passive and self._scheduling.is_open(obj.definition.part) and self.is_in_period(obj.definition):
                self._log(f"{name}: no result for {(obj.definition.freshness or 0) / 1000:g} seconds; its command is run")
                self.plan_check(obj, now, True)

    def plan_spread(self, is_after_pause: bool, now: int) -> None:
        """Spreads the overdue checks after a pause, those of one part in a turn, and the checks of objects that were switched on."""
        if is_after_pause:
            self._unspread = sorted(self._scheduling.parts)
        part = self._unspread.pop(0) if self._unspread else None
        found = {name: self._objects[name] for name in self._to_spread if name in self._objects}
        if part is not None:
            found.update((obj.name, obj) for obj in self._objects.values() if obj.definition.part == part)
        overdue: List[Tuple[int, str]] = []
        for obj in (obj for name, obj in found.items() if name not in self._passive):
            due = obj.due_time()
            never = obj.next is None and obj.run is None and obj.on and obj.definition.check_interval > 0
            if never or due is not None and due < now:
                overdue.append((now if due is None else due, obj.name))
        for place, (_, name) in enumerate(sorted(overdue)):
            obj = self._objects[name]
            time = now + min(obj.definition.check_interval or WINDOW, WINDOW) * place // len(overdue)
            self.plan_check(obj, time, obj.forced)
            obj.phase = time if obj.phase is None else obj.phase
        self._to_spread.clear()

    def plan_takes(self, plan: Plan, now: int) -> None:
        """A take for each check that is due and has a free slot."""
        states = self._scheduling.states
        due = states.due.due_names(now)
        counts = collections.Counter({part: len(names) for part, names in due.items()})
        for part, name in (self._objects[name].key for name in plan.later - plan.at_once):
            counts[part] -= name in due[part]
        for part, name in (self._objects[name].key for name in plan.at_once):
            counts[part] += name not in due[part]
        if not any(counts.values()):
            return
        free = self._scheduling.site.options.slots - sum(job.runner is None for job in states.running.plugins()) + plan.freed
        for part, count in sorted(counts.items()):
            if self._scheduling.is_open(part) and part not in self._unspread:
                taken = max(0, min(count, free))
                plan.calls += [(part, Take(now), None)] * taken
                free -= taken

    def apply_result(self, obj: ObjectState, before: Optional[Standing], standing: Standing, now: int) -> None:
        """The object returns to its phase, and hosts may matter."""
        if obj.operator_check is not None and standing.next == obj.operator_check[0]:
            pass  # an operator set it while the check ran
        elif obj.operator_check is not None and obj.operator_check[0] > now:
            self.plan_check(obj, *obj.operator_check)
        elif obj.on and not (standing.is_problem() and standing.kind == "SOFT"):
            time = time_back_in_phase(obj.phase, obj.definition.check_interval, standing.next, now)
            if time is not None:
                self.plan_check(obj, time, obj.forced)
        for host in hosts_to_check(obj, before, standing, self._objects, self._scheduling.site.children.get(obj.name, ())):
            # It is checked now, unless a result came recently or its check is running, off or already asked for.
            horizon = self._scheduling.site.options.cached_host_check_horizon * 1000
            is_fresh = host.last_result is not None and now - host.last_result < horizon
            if not is_fresh and host.run is None and host.on and host.next not in (HOST_FIRST, RESULT_FIRST):
                self.plan_check(host, HOST_FIRST, host.forced)

    def promise(self, obj: ObjectState, now: int) -> Optional[int]:
        """The time within which a result of an object has to come, in milliseconds; None while none is promised."""
        its = obj.definition
        if its.command is None or obj.operator_check is not None and obj.operator_check[0] > now:
            return None
        margin = round(its.command.limit * 1000) + MARGIN
        if obj.on and its.check_interval > 0:
            return 2 * max(its.check_interval, its.retry_interval) + margin
        return its.freshness + margin if its.freshness is not None and self.is_in_period(its) else None

    def overdue(self) -> Overdue:
        """Looks over all objects. The time of an object that is promised nothing begins when it is."""
        now, number, promised, by, name = self._clock.moment(), 0, 0, 0, ""
        for obj in self._objects.values():
            promise = self.promise(obj, now)
            if promise is None:
                obj.known_at = now
                continue
            promised += 1
            # The first check of an object may be as far off as its phase.
            since = obj.known_at if obj.phase is None else max(obj.known_at, obj.phase - obj.definition.check_interval)
            late = now - since - promise
            if late > 0:
                number += 1
                by, name = max((by, name), (late, obj.name))
        return Overdue(number, promised, by, name)

    def figures(self) -> Dict[str, float]:
        """The figures of overdue objects, which are logged when they begin and end, and every ten minutes."""
        found, now = self.overdue(), self._clock.moment()
        if found.number and (self._logged_at is None or now - self._logged_at >= LOG_AGAIN):
            late = f"{found.name} is overdue by {found.by / 1000:.0f} seconds"
            self._log(f"not checked: {found.number} of {found.promised} objects have no result in time; {late}")
            self._logged_at = now
        elif not found.number and self._logged_at is not None:
            self._log("all objects have results in time again")
            self._logged_at = None
        return {"overdue": found.number, "promised": found.promised, "overdue_by": found.by / 1000}


def next_in_phase(phase: int, interval: int, now: int) -> int:
    """The first moment after now that lies whole intervals from the phase."""
    return phase + ((now - phase) // interval + 1) * interval


def time_back_in_phase(phase: Optional[int], interval: int, next_check: Optional[int], now: int) -> Optional[int]:
    """The time to which a next check has to be moved so that it is in phase; None if it is, or the object has no phase."""
    if phase is None or interval == 0 or next_check is None:
        return None
    off = (next_check - phase) % interval
    return next_in_phase(phase, interval, now) if min(off, interval - off) > TOLERANCE else None


def state_of(standing: Optional[Standing]) -> str:
    return "PENDING" if standing is None else standing.state


def hosts_to_check(obj: ObjectState, before: Optional[Standing], now: Standing, objects: Mapping[str, ObjectState],
                   children: Sequence[str]) -> List[ObjectState]:
    """The hosts that have to be checked at once after a result of an object, as in Nagios; `children` are the hosts that have it as a parent."""
    was, is_problem = state_of(before), now.is_problem()
    if obj.definition.host is not None:
        # A service's host: after another problem while the host is up or was never checked, or an OK while it isn't up.
        host = objects.get(obj.definition.host)
        state = state_of(None if host is None else host.standing)
        is_needed = now.state != was and state in NO_PROBLEM if is_problem else state != "UP"
        return [host] if host is not None and is_needed else []
    if (was in NO_PROBLEM) != is_problem:
        return []
    # The parents and children that a host's result affects. A host that was never checked counts as up.
    expected = ("UNREACHABLE",) if is_problem else NO_PROBLEM
    parents = [objects[name] for name in obj.definition.parents if name in objects]
    odd_parents = [each for each in parents if (state_of(each.standing) in NO_PROBLEM) != is_problem]
    return odd_parents + [objects[name] for name in children if state_of(objects[name].standing) not in expected]
