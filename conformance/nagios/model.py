"""The rules of both sides: those of docs/rules.md (`Rules`), and those of Nagios Core 4.4.6 (`Nagios`).

`Rules` gives the answers that the program must give. `Nagios` gives the reports that Nagios's own code must make. judge.py tests both, and explains
each difference between the two by rows of docs/NAGIOS.md. Times are in seconds, except nagsched's own, which are in milliseconds.
"""
from __future__ import annotations

import dataclasses
import functools
import math
from fractions import Fraction
from typing import Any, Iterable, NamedTuple, Optional, Protocol

Setup = dict[str, Any]  # a setup document as nagsched reads it

SOFT, HARD = "SOFT", "HARD"
GOOD = ("OK", "UP")
SERVICE_STATES = ("OK", "WARNING", "CRITICAL", "UNKNOWN")
HOST_STATES = ("UP", "DOWN", "UNREACHABLE")
LETTERS = {"OK": "o", "WARNING": "w", "CRITICAL": "c", "UNKNOWN": "u", "UP": "o", "DOWN": "d", "UNREACHABLE": "u"}
TOO_LONG = 2**31  # seconds that don't fit into the int that Nagios has for an interval
HISTORY = 20  # changes that count for flapping
# What an object is whose check Nagios asks for. A recent result counts for it, except for a master's.
HOST, PARENT, CHILD, MASTER = "the host", "a parent", "a child", "a master"
DEFAULTS: dict[str, Any] = {
    "interval_length": 60, "service_inter_check_delay_method": "s", "max_service_check_spread": 30, "service_interleave_factor": "s",
    "host_inter_check_delay_method": "s", "max_host_check_spread": 30, "max_concurrent_checks": 0, "soft_state_dependencies": False,
    "use_aggressive_host_checking": False, "low_service_flap_threshold": 20, "high_service_flap_threshold": 30,
    "low_host_flap_threshold": 20, "high_host_flap_threshold": 30}


class KeepsNothing(NamedTuple):
    """A Nagios without checks on demand, for a history as Nagios itself wrote it."""

    keeps: bool = False
    horizon: int = 0


class Keeping(Protocol):
    """What Nagios keeps of earlier results: whether checks on demand stay in its queue, and for how many seconds a host's result counts."""

    @property
    def keeps(self) -> bool: ...

    @property
    def horizon(self) -> int: ...


class Standing(NamedTuple):
    state: str
    kind: str
    attempt: int
    last_hard: str

    def is_soft_problem(self) -> bool:
        return self.kind == SOFT and self.state not in GOOD

    def __str__(self) -> str:
        return f"{self.state} {self.kind} {self.attempt}"


class Event(NamedTuple):
    """A check that waits in Nagios's queue."""

    time: int
    forced: bool
    on_demand: bool
    due: int  # a time in the past is moved to the moment at which it is scheduled


class Link(NamedTuple):
    """A dependency. `there` are the letters that Nagios's reader leaves, or None if it drops the dependency."""

    master: Object
    inherits: bool
    here: frozenset[str]
    there: Optional[frozenset[str]]


@dataclasses.dataclass(eq=False)
class Object:
    """A host or a service, as nagsched stores it (`here`) and as Nagios does (`there`)."""

    number: int
    name: str
    is_host: bool
    check: int
    retry: int
    most: int
    low: int
    high: int
    enabled: bool
    here: Standing
    there: Standing
    host: Optional[Object] = None  # of a service
    parents: list[Object] = dataclasses.field(default_factory=list)
    children: list[Object] = dataclasses.field(default_factory=list)
    links: list[Link] = dataclasses.field(default_factory=list)
    checked: bool = False
    scheduled: bool = False
    # nagsched: the next time, and the number and the start of the check that runs
    next: Optional[int] = None
    forced: bool = False
    run: Optional[tuple[int, int]] = None
    # Nagios
    event: Optional[Event] = None
    next_check: int = 0
    forced_option: bool = False
    executing: bool = False
    last_check: int = 0
    host_problem: bool = False  # a service's host_problem_at_last_check, and its value before the last result
    had_host_problem: bool = False
    flaps: Flaps = dataclasses.field(init=False)
    missing: list[tuple[int, str]] = dataclasses.field(default_factory=list)  # starts that nagsched can't make, each with the row

    def __post_init__(self) -> None:
        self.flaps = Flaps(self)

    @property
    def good(self) -> str:
        return "UP" if self.is_host else "OK"

    @property
    def states(self) -> tuple[str, ...]:
        return HOST_STATES if self.is_host else SERVICE_STATES


# ---- flapping


@functools.lru_cache(1 << 16)
def weight(changes: int) -> int:
    """The weight of changes, the newest in bit 0, in parts of 1,520."""
    return sum(95 - 2 * bit for bit in range(HISTORY) if changes >> bit & 1)


@functools.lru_cache(1 << 16)
def percent(changes: int) -> float:
    """Nagios's percent of the same changes, added up in its order."""
    total = 0.0
    for place in range(HISTORY):
        if changes >> (HISTORY - 1 - place) & 1:
            total += place * (1.25 - 0.75) / 19.0 + 0.75
    return total * 100.0 / 20.0


class Recorded:
    """The last states that count, as changes: the newest is bit 0."""

    def __init__(self, state: str) -> None:
        self.state, self.changes, self.count = state, 0, 0

    def add(self, state: str) -> None:
        self.changes = (self.changes << 1 | (state != self.state)) & (1 << HISTORY) - 1
        self.state = state
        self.count += 1


class Flaps:
    """An object's flag: by nagsched's rules, and with more and more of Nagios's."""

    ROWS = ("fewer than 21 results", "soft problems", "results of services", "stop", "equal thresholds")

    def __init__(self, of: Object) -> None:
        self.of = of
        self.own, self.firm, self.all = Recorded(of.good), Recorded(of.good), Recorded(of.good)
        self.flags = [False] * 6

    def of_service(self) -> None:
        """A result of one of the host's services: Nagios records the host's state again."""
        self.all.add(self.of.there.state)
        self.judge(3)

    def add(self, state: str, is_soft_problem: bool) -> None:
        self.own.add(state)
        if not is_soft_problem:
            self.firm.add(state)
            self.all.add(state)
        self.judge(0, 2 if is_soft_problem else 6)

    def judge(self, first: int, end: int = 6) -> None:
        recorded = (self.own, self.own, self.firm, self.all, self.all, self.all)
        for rule in range(first, end):
            self.flags[rule] = self.flag(rule, recorded[rule])

    def flag(self, rule: int, recorded: Recorded) -> bool:
        was, low, high = self.flags[rule], self.of.low, self.of.high
        if rule == 5:
            exact = percent(recorded.changes)
            return was if low < exact < high else exact > low
        whole = 0 if rule == 0 and recorded.count <= HISTORY else weight(recorded.changes)
        if was and rule == 4:
            return 100 * whole > 1520 * low
        return 100 * whole // 1520 >= (low if was else high)


# ---- setups


def criteria(letters: str, is_host: bool) -> Optional[frozenset[str]]:
    """The criteria that Nagios's reader leaves of these. Nagios never uses `p`."""
    words = letters.split(",")
    if "n" in words:
        if not is_host:
            return None
        words = words[len(words) - words[::-1].index("n"):]
    return frozenset(words) - {"p"}


def names(setup: Setup) -> list[str]:
    """Full names in the order of the objects' numbers."""
    hosts = sorted((host["name"] for host in setup["hosts"]), key=str.encode)
    services = sorted(((s["host"], s["description"]) for s in setup.get("services", ())), key=lambda s: (s[0].encode(), s[1].encode()))
    return hosts + [";".join(service) for service in services]


def objects_of(setup: Setup, options: dict[str, Any]) -> list[Object]:
    members = {host["name"]: host for host in setup["hosts"]}
    members.update({f"{service['host']};{service['description']}": service for service in setup.get("services", ())})
    found: list[Object] = []
    for number, name in enumerate(names(setup)):
        item, is_host = members[name], ";" not in name
        standing = Standing("UP" if is_host else "OK", HARD, 1, "UP" if is_host else "OK")
        sort = "host" if is_host else "service"
        check, retry = (item.get(f"{word}_interval", usual) * options["interval_length"] for word, usual in (("check", 5), ("retry", 1)))
        found.append(Object(number, name, is_host, check, retry, item["max_check_attempts"], options[f"low_{sort}_flap_threshold"],
                            options[f"high_{sort}_flap_threshold"], item.get("enabled", True), standing, standing))
    by_name = {o.name: o for o in found}
    for o in found:
        o.scheduled = o.enabled and o.check != 0
        o.host = None if o.is_host else by_name[o.name.partition(";")[0]]
        o.parents = [by_name[parent] for parent in members[o.name].get("parents", ())]
        for parent in o.parents:
            parent.children.append(o)
    for link in (*setup.get("service_dependencies", ()), *setup.get("host_dependencies", ())):
        dependent, letters = by_name[link["dependent"]], link["criteria"]
        dependent.links.append(Link(by_name[link["master"]], link.get("inherits_parent", False), frozenset(letters.split(",")),
                                    criteria(letters, dependent.is_host)))
    return found


# ---- nagsched's rules


class Rules:
    """The rules of docs/rules.md. teeth.py puts wrong ones in their place."""

    def __init__(self, setup: Setup) -> None:
        self.options = {**DEFAULTS, **setup.get("options", {})}
        self.objects = objects_of(setup, self.options)
        self.limit: int = self.options["max_concurrent_checks"]
        self.runs = 0

    def verdict(self, before: Standing, state: str, most: int, host_down: bool) -> Standing:
        was_problem = before.state not in GOOD
        if state in GOOD:
            kind, attempt = (SOFT, before.attempt + 1) if before.is_soft_problem() else (HARD, 1)
        elif host_down or (was_problem and before.kind == HARD):
            kind, attempt = HARD, most
        else:
            attempt = before.attempt + 1 if was_problem else 1
            kind = HARD if attempt >= most else SOFT
        return Standing(state, kind, attempt, state if kind == HARD else before.last_hard)

    def state_of(self, o: Object, code: int) -> str:
        if not o.is_host:
            return SERVICE_STATES[code]
        if code == 0 or (code == 1 and not self.options["use_aggressive_host_checking"]):
            return "UP"
        return "UNREACHABLE" if o.parents and all(parent.here.state != "UP" for parent in o.parents) else "DOWN"

    def changed(self, before: str, after: str) -> bool:
        return before != after

    def host_down(self, o: Object) -> bool:
        """Whether the object is a service whose host isn't up."""
        return o.host is not None and o.host.here.state != "UP"

    def interval(self, o: Object, standing: Standing) -> int:
        return o.retry if standing.is_soft_problem() else o.check

    def after(self, o: Object, begun: int, standing: Standing) -> Optional[int]:
        """The next time after a result, if none was set meanwhile."""
        interval = self.interval(o, standing)
        return begun + interval * 1000 if interval else None

    def flag(self, o: Object) -> bool:
        return o.flaps.flags[0]

    def fails(self, link: Link) -> bool:
        standing = link.master.here
        if not link.master.checked:
            return "p" in link.here
        return LETTERS[standing.state if self.options["soft_state_dependencies"] else standing.last_hard] in link.here

    def is_forbidden(self, o: Object) -> bool:
        return any(self.fails(link) or (link.inherits and self.is_forbidden(link.master)) for link in o.links)

    def is_full(self) -> bool:
        return bool(self.limit) and sum(o.run is not None for o in self.objects if not o.is_host) >= self.limit

    def choice(self, now: int) -> tuple[str, Optional[Object]]:
        """The answer of a take at this moment, and the object."""
        due = [o for o in self.objects if o.next is not None and o.next <= now and o.run is None and (o.enabled or o.forced)]
        is_full = self.is_full()
        eligible = [o for o in due if o.is_host or not is_full]
        if not eligible:
            return ("atlimit" if due else "idle"), None
        o = min(eligible, key=lambda each: (each.next, each.number))
        return ("putoff" if not o.forced and self.is_forbidden(o) else "taken"), o

    def put_off(self, o: Object, now: int) -> Optional[int]:
        return now + o.check * 1000 if o.check else None

    def factor(self, services: Iterable[Object]) -> int:
        """The interleave factor over these services."""
        named = self.options["service_interleave_factor"]
        hosts = sum(o.is_host for o in self.objects)
        return math.ceil(len(list(services)) / hosts) if named == "s" else int(named)

    def delay(self, sort: str, scheduled: list[Object]) -> Fraction:
        """The time between two first checks, in seconds."""
        method, count = self.options[f"{sort}_inter_check_delay_method"], len(scheduled)
        if method == "s":
            spread = self.options[f"max_{sort}_check_spread"] * 60
            return min(Fraction(sum(o.check for o in scheduled), count * count), Fraction(spread, count)) if count else Fraction(0)
        return Fraction({"n": 0, "d": 1000}.get(method, method), 1000)

    def first_rank(self, o: Object) -> int:
        """The rank of a scheduled object among the first checks of its sort."""
        if o.is_host:
            return sum(other.scheduled for other in self.objects[:o.number])
        services = [other for other in self.objects if not other.is_host]
        factor = self.factor(services) or 1

        def visit(place: int) -> tuple[int, int]:
            return place % factor, place

        mine = visit(services.index(o))
        return sum(other.scheduled and visit(place) < mine for place, other in enumerate(services))


# ---- Nagios


class Result(NamedTuple):
    """How Nagios handles a result, without the object's standing."""

    logged: Optional[Standing]
    base: int  # the next check counts from here, in seconds
    interval: int
    is_soft_recovery: bool  # of a service, which is then checked after the retry interval
    asked: list[tuple[Object, str]]  # for these checks, and why: HOST, PARENT, CHILD or MASTER


class Nagios:
    """Nagios's queue and its handling of results, over the same objects."""

    def __init__(self, rules: Rules, history: Keeping) -> None:
        self.rules, self.objects, self.options = rules, rules.objects, rules.options
        self.horizon, self.is_predictive = history.horizon, history.keeps
        self.running = 0  # checks of services

    def schedule(self, o: Object, now: int, time: int, forced: bool, on_demand: bool = False) -> bool:
        """Whether the check came into the queue."""
        if not (o.enabled or forced) or (on_demand and o.last_check + self.horizon > time):
            return False
        if o.event is not None:
            is_better = forced and (not o.event.forced or time < o.event.time) or (not o.event.forced and time < o.event.time)
            if not is_better:
                o.next_check = o.event.time
                return False
        o.event = Event(time, forced, on_demand, max(time, now))
        o.next_check, o.forced_option = time, forced
        return True

    def fails(self, link: Link) -> bool:
        standing = link.master.there
        is_soft = standing.kind == SOFT and not self.options["soft_state_dependencies"]
        return link.there is not None and LETTERS[standing.last_hard if is_soft else standing.state] in link.there

    def is_forbidden(self, o: Object) -> bool:
        return any(self.fails(link) or (link.there is not None and link.inherits and self.is_forbidden(link.master)) for link in o.links)

    def is_held(self, o: Object) -> bool:
        limit = self.rules.limit
        return not o.is_host and not o.forced_option and bool(limit) and self.running >= limit

    def barred(self, o: Object, now: int) -> Optional[str]:
        """Why the check of a host whose time has come isn't begun, before dependencies are tested: the row of the page."""
        assert o.event is not None
        if not o.is_host or o.event.forced or not (o.executing or o.last_check + self.horizon > now):
            return None
        if o.event.on_demand and o.last_check + self.horizon > now + (o.check or 300):
            return "dropped from the queue"
        return "host being checked" if o.executing else "recent result"

    def interval(self, o: Object) -> int:
        """The time by which a check that can't be made is put off."""
        interval = self.rules.interval(o, o.there)
        if interval >= TOO_LONG:
            interval = -TOO_LONG
        return interval if interval > 0 or not o.is_host else 300

    def begin(self, o: Object) -> None:
        o.event, o.forced_option, o.executing = None, False, True
        self.running += not o.is_host

    def clock_changed(self, o: Object, now: int, by: int) -> None:
        """Moves the object's times by these seconds, to a clock that shows this moment now."""
        if o.event is not None:
            time = o.event.time + by
            o.event = o.event._replace(time=time, due=max(time, now))
        o.next_check += by if o.next_check else 0
        o.last_check += by if o.last_check else 0

    def put_off(self, o: Object, now: int) -> None:
        """Handles an event whose check isn't made."""
        assert o.event is not None
        forced, on_demand = o.event.forced, o.event.on_demand
        time = now + self.interval(o) if self.barred(o, now) is None else now
        if time <= now:
            time = now + (o.check or 300)
        o.event = None
        if o.scheduled:
            o.next_check = time
            self.schedule(o, now, time, forced, on_demand)

    def result(self, o: Object, state: str, begun: int, now: int) -> Result:
        """Handles a result: the standing, and everything that the next check depends on. Our rule, which is also Nagios's, decides about UNREACHABLE."""
        o.last_check, o.executing, o.scheduled, o.had_host_problem = begun, False, True, o.host_problem
        found = self.host_result(o, state, begun, now) if o.host is None else self.service_result(o, o.host, state, begun, now)
        if not o.is_host:
            self.running = max(0, self.running - 1)
        return found

    def service_result(self, o: Object, host: Object, state: str, begun: int, now: int) -> Result:
        was, kind, attempt, last_hard = o.there
        is_up, is_good = host.there.state == "UP", state == "OK"
        asked = self.asked_by_service(host, was, state, now)
        kind_before = kind
        if is_good:
            o.host_problem = o.host_problem or (host.checked and not is_up)
        else:
            if is_up and o.host_problem and kind == SOFT:
                attempt = 1
            o.host_problem = not is_up
        becomes_hard = not is_up and last_hard != state
        if becomes_hard:
            kind, attempt, last_hard = HARD, o.most, state
        if was == "OK":
            attempt = 1
            if is_good:
                kind = HARD
            elif not o.host_problem and not becomes_hard:
                kind = SOFT
        base, interval = (now, o.retry) if kind == SOFT else (begun, o.check)
        if kind == SOFT:
            if attempt < o.most and (was != "OK" or is_good):
                attempt += 1
            elif was != state and not is_good:
                attempt = 1
        if attempt >= o.most and (state != last_hard or (kind == SOFT and not is_good)):
            base, interval, becomes_hard = now, o.check, True
        if state != was:
            kind = SOFT
        if becomes_hard:
            kind, last_hard = HARD, state
        shown = Standing(state, kind, attempt, last_hard)
        logged = shown if state != was or becomes_hard or shown.is_soft_problem() else None
        o.there = shown
        if is_good and state != was:
            o.there = Standing(state, HARD, 1, state)
            o.host_problem = o.host_problem and not becomes_hard
        o.flaps.add(state, shown.is_soft_problem())
        host.flaps.of_service()
        self.settle(o, shown)
        return Result(logged, base, interval, is_good and kind_before == kind == SOFT, asked)

    def asked_by_service(self, host: Object, was: str, state: str, now: int) -> list[tuple[Object, str]]:
        is_up = host.there.state == "UP"
        if state != "OK":
            is_asked = is_up and was != state and host.last_check + self.horizon < now
        elif not host.checked:
            is_asked = host.next_check == 0 or host.next_check < host.check + now
        else:
            is_asked = not is_up and (was != "OK" or now - host.last_check >= self.horizon)
        return [(host, HOST)] if is_asked else []

    def host_result(self, o: Object, state: str, begun: int, now: int) -> Result:
        was, kind, attempt, last_hard = o.there
        is_up = state == "UP"
        asked: list[tuple[Object, str]] = []
        becomes_hard = False
        if was == "UP":
            kind, attempt = HARD if is_up else SOFT, 1
            if not is_up:
                asked += [(parent, PARENT) for parent in o.parents if parent.there.state != "UP"]
                asked += [(child, CHILD) for child in o.children if child.there.state != "UNREACHABLE"]
                if self.is_predictive and o.most == 2:
                    asked += [(link.master, MASTER) for link in o.links]
        elif is_up:
            asked += [(parent, PARENT) for parent in o.parents if parent.there.state == "UP"]
            asked += [(child, CHILD) for child in o.children if child.there.state != "UP"]
            if kind == HARD:
                becomes_hard, attempt = True, 1
        base, interval = (now, o.retry) if kind == SOFT and not is_up else (begun, o.check)
        if kind == SOFT:
            if was != "UP" and not is_up and attempt < o.most:
                attempt += 1
            elif state != was or is_up:
                attempt = 1
            elif attempt < o.most:
                attempt += 1
        if attempt >= o.most and state != last_hard:
            base, interval, becomes_hard = now, o.check, True
        if state != was:
            kind = SOFT
        if becomes_hard:
            kind, last_hard = HARD, state
        o.there = Standing(state, kind, attempt, last_hard)
        o.flaps.add(state, False)
        self.settle(o, o.there)
        return Result(o.there if state != was or becomes_hard else None, base, interval, False, asked)

    def settle(self, o: Object, shown: Standing) -> None:
        """Whether Nagios schedules another check."""
        if not o.enabled or (o.check == 0 and not shown.is_soft_problem()):
            o.scheduled = False
