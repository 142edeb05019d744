"""One scheduler's judgement of results, for any number of objects: the standard for the parts of a site."""
from dataclasses import dataclass, field
from typing import Any, Dict, List, Mapping, Optional, Sequence, Tuple

from nagsched_monitor.model.protocol import Standing

STATES = ("OK", "WARNING", "CRITICAL", "UNKNOWN")
WELL = ("OK", "UP")
FAILED = ("DOWN", "UNREACHABLE")
MOST_RESULTS, ALL_WEIGHTS = 21, 1_520

# State, kind, attempt, and whether it is flapping.
StandingParts = Tuple[str, str, int, bool]


@dataclass
class JudgedObject:
    """An object, and its standing."""

    host: str
    parents: Sequence[str]
    most: int
    state: str
    low: int
    high: int
    kind: str = "HARD"
    attempt: int = 1
    flapping: bool = False
    results: List[str] = field(default_factory=list)

    def add(self, state: str) -> None:
        """A result: the state, its kind and attempt, and whether the object flaps now."""
        self.results = [*self.results, state][-MOST_RESULTS:]
        self.state = state
        percent = 0
        if len(self.results) == MOST_RESULTS:
            weights = (57 + 2 * place for place in range(MOST_RESULTS - 1) if self.results[place] != self.results[place + 1])
            percent = 100 * sum(weights) // ALL_WEIGHTS
        self.flapping = percent >= (self.low if self.flapping else self.high)


class OneScheduler:
    """All objects of a site."""

    def __init__(self) -> None:
        self.objects: Dict[str, JudgedObject] = {}
        self.is_aggressive = False

    def add(self, setup: Mapping[str, Any], but: Sequence[str] = ()) -> None:
        """Adds the objects of a setup, except some."""
        options = setup.get("options", {})
        self.is_aggressive = options.get("use_aggressive_host_checking", False)
        for host in setup["hosts"]:
            if host["name"] not in but:
                limits = options.get("low_host_flap_threshold", 20), options.get("high_host_flap_threshold", 30)
                self.objects[host["name"]] = JudgedObject("", host.get("parents", ()), host["max_check_attempts"], "UP", *limits)
        for service in setup["services"]:
            name = f"{service['host']};{service['description']}"
            if name not in but:
                limits = options.get("low_service_flap_threshold", 20), options.get("high_service_flap_threshold", 30)
                self.objects[name] = JudgedObject(service["host"], (), service["max_check_attempts"], "OK", *limits)

    def report(self, name: str, code: int) -> StandingParts:
        """The standing of an object after a result."""
        judged = self.objects[name]
        state = self.state_of(judged, code)
        was_well, was_soft = judged.state in WELL, judged.kind == "SOFT"
        if state in WELL:
            is_soft = not was_well and was_soft
            judged.kind, judged.attempt = ("SOFT", judged.attempt + 1) if is_soft else ("HARD", 1)
        elif judged.host and self.objects[judged.host].state in FAILED or not was_well and not was_soft:
            judged.kind, judged.attempt = "HARD", judged.most
        else:
            judged.attempt = 1 if was_well else judged.attempt + 1
            judged.kind = "HARD" if judged.attempt == judged.most else "SOFT"
        judged.add(state)
        return state, judged.kind, judged.attempt, judged.flapping

    def state_of(self, judged: JudgedObject, code: int) -> str:
        if judged.host:
            return STATES[code]
        if code == 0 or code == 1 and not self.is_aggressive:
            return "UP"
        cut_off = judged.parents and all(self.objects[parent].state in FAILED for parent in judged.parents)
        return "UNREACHABLE" if cut_off else "DOWN"


def is_change(before: Optional[StandingParts], now: StandingParts) -> bool:
    """Whether a result is reported as a change: another state, a problem that became hard, flapping that begins or ends."""
    state, kind, _, flapping = now
    if before is None:
        return state not in WELL or flapping
    return state != before[0] or flapping != before[3] or state not in WELL and (before[1], kind) == ("SOFT", "HARD")


def standing_parts(standing: Standing) -> StandingParts:
    """The parts of a scheduler's answer that this one has to give too."""
    return standing.state, standing.kind, standing.attempt, standing.flapping
