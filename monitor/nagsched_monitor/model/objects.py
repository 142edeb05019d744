"""The objects of a site, their running checks, their states by the scheduler's answers, and the due objects."""
import collections
import enum
import heapq
import zlib
from dataclasses import dataclass, field
from typing import Any, DefaultDict, Dict, Iterable, List, Mapping, NamedTuple, Optional, Sequence, Set, Tuple

from .jobs import Job
from .protocol import Abandon, Answer, Call, Done, Enable, Freed, PutOff, Report, Reschedule, Standing, Taken

# The times of checks that are asked for at once, in their order: a mirror, the object of a passive result, a host that has to be checked now. All are before
# the times of due checks.
MIRROR_FIRST, RESULT_FIRST, HOST_FIRST = 0, 1, 2
FIRST_TIME = 3  # any time from this one on is a time by the clock

ObjectKey = Tuple[int, str]  # a part and the full name of an object in it


class Command(NamedTuple):
    """A command line, split unless a shell runs it."""

    arguments: Sequence[str]
    limit: float  # the limit of the plugin, in seconds


class ObjectDefinition(NamedTuple):
    name: str
    part: int
    host: Optional[str]  # the host of a service; None for a host
    parents: Sequence[str]
    check_interval: int
    enabled: bool  # whether the setup has it enabled
    retry_interval: int = 0  # the interval while a problem is soft
    command: Optional[Command] = None
    period: Optional[str] = None
    passive_only: bool = False
    freshness: Optional[int] = None  # milliseconds within which a result has to come; None without a limit
    runner: Optional[str] = None  # the runner elsewhere that makes its checks; None if they are made here

    def is_host(self) -> bool:
        return self.host is None


class Owner(enum.Enum):
    """The component that will end a run."""

    NOBODY = "nobody"  # it was taken before this monitor started, or its owner is lost: it is abandoned
    PLUGIN = "plugin"  # a plugin, here or in a worker
    RESULT = "result"  # a passive result, which is reported in the next turn
    ORIGINAL = "original"  # the original of a mirror, whose next result is reported to it too


@dataclass
class Run:
    """A check that a scheduler returned and that hasn't ended."""

    key: ObjectKey
    number: int
    owner: Owner = Owner.NOBODY
    # The moment after which it is abandoned; None for a mirror's, which ends with the next result of its original.
    deadline: Optional[int] = None
    job: Optional[Job] = None
    forced: bool = False  # as the next try then is
    retry_at: Optional[int] = None  # the moment at which its check is made again if it is abandoned; None for at once
    began_at: Optional[float] = None  # when it was taken, in seconds since 1970 of the wall clock


class RunTable(Dict[ObjectKey, Run]):
    """All runs of a site, by their objects: each has one at most. A check that isn't in it doesn't run."""

    def __init__(self) -> None:
        super().__init__()
        # Plugins whose runs are over, by the names of their objects: no second plugin is started while they run.
        self.leftover_jobs: Dict[str, Job] = {}

    def plugins(self) -> List[Job]:
        return [run.job for run in self.owned_by(Owner.PLUGIN) if run.job is not None] + list(self.leftover_jobs.values())

    def owned_by(self, owner: Owner) -> List[Run]:
        return [run for run in self.values() if run.owner is owner]


@dataclass
class StateHistory:
    """How long an object has been in its state, in seconds since 1970 of the wall clock; None if that isn't known."""

    # The state that it has had since then, and the hard one.
    state: Optional[str] = None
    since: Optional[float] = None
    hard_state: Optional[str] = None
    hard_since: Optional[float] = None
    last_check: Optional[float] = None
    # How many seconds its last check took, and how late the last one began.
    took: Optional[float] = None
    late: Optional[float] = None

    def note(self, state: str, kind: str, time: float) -> None:
        if state != self.state:
            self.state, self.since = state, time
        if kind == "HARD" and state != self.hard_state:
            self.hard_state, self.hard_since = state, time


@dataclass
class ObjectState:
    definition: ObjectDefinition
    running: RunTable
    # Whether the scheduler has its checks on, and other facts as the scheduler has them.
    on: bool
    next: Optional[int] = None
    forced: bool = False
    last_due: Optional[int] = None  # the time for which its last run waited
    standing: Optional[Standing] = None
    phase: Optional[int] = None  # a moment in its phase: its other checks are whole intervals away
    # The time to which an operator set its next check, and whether it is forced, until that check is made.
    operator_check: Optional[Tuple[int, bool]] = None
    # The moment of its last result, and the output of that result.
    last_result: Optional[int] = None
    output: str = ""
    awaited_since: int = 0  # the moment since which a result is awaited, if none came while this monitor runs
    known_at: int = 0  # the moment of its last result, or since which one is promised
    history: StateHistory = field(default_factory=StateHistory)
    name: str = field(init=False)
    key: ObjectKey = field(init=False)

    def __post_init__(self) -> None:
        self.name = self.definition.name
        self.key = self.definition.part, self.name

    @property
    def run(self) -> Optional[Run]:
        return self.running.get(self.key)

    def due_time(self) -> Optional[int]:
        """The time for which it waits; None if it is running, off, or has no next check."""
        return self.next if (self.on or self.forced) and self.next is not None and self.run is None else None

    def is_stale(self, now: int) -> bool:
        freshness = self.definition.freshness
        if freshness is None or self.forced or self.run is not None:
            return False
        return now - (self.awaited_since if self.last_result is None else self.last_result) >= freshness


# How many objects are enough for one turn, and how long one object waits for others, in milliseconds. Objects that are due together wait half as long.
ENOUGH = 100
LONGEST_SHARING = 350


@dataclass
class DueQueue:
    """Objects by the times for which they wait."""

    _times: Dict[ObjectKey, int] = field(default_factory=dict)
    # Each waiting object with its time, and times that aren't an object's any more. Objects whose time has come are due: the names of each part.
    _heap: List[Tuple[int, ObjectKey]] = field(default_factory=list)
    _due: DefaultDict[int, Set[str]] = field(default_factory=lambda: collections.defaultdict(set))

    def set_time(self, key: ObjectKey, time: Optional[int]) -> None:
        if time == self._times.get(key):
            return
        part, name = key
        self._due[part].discard(name)
        self._times.pop(key, None)
        if time is not None:
            self._times[key] = time
            heapq.heappush(self._heap, (time, key))

    def due_names(self, moment: int) -> DefaultDict[int, Set[str]]:
        while (first := self.first_time()) is not None and first <= moment:
            part, name = heapq.heappop(self._heap)[1]
            self._due[part].add(name)
        return self._due

    def first_time(self) -> Optional[int]:
        """The earliest time after the last moment that was asked for."""
        while self._heap and self._times.get(self._heap[0][1]) != self._heap[0][0]:
            heapq.heappop(self._heap)
        return self._heap[0][0] if self._heap else None

    def shared_time(self, enough: int = ENOUGH) -> Optional[int]:
        """The time at which enough objects are due for one turn, or at which the last of those is due that share a turn with the first."""
        first = latest = self.first_time() or 0
        together: Set[Tuple[int, ObjectKey]] = set()
        while len(together) < enough and (time := self.first_time()) is not None and time <= latest:
            together.add(heapq.heappop(self._heap))
            if time == first:
                latest = first + LONGEST_SHARING // min(2, len(together))
        for each in together:
            heapq.heappush(self._heap, each)
        return max(together)[0] if together else None


class ObjectStates:
    def __init__(self) -> None:
        self.objects: Dict[str, ObjectState] = {}
        self.running = RunTable()
        self.due = DueQueue()

    def change_site(self, objects: Mapping[str, ObjectDefinition], now: int) -> Dict[str, ObjectState]:
        """Takes over another site, and keeps the state of the objects that stay. A check of an object that moves to another part is abandoned there. Returns
        the objects that are new or have another definition."""
        changed = {}
        before, self.due = dict(self.objects), DueQueue()
        self.objects.clear()
        for name, definition in objects.items():
            obj = before.pop(name, None)
            if obj is None:
                obj = changed[name] = ObjectState(definition, self.running, definition.enabled, awaited_since=now, known_at=now)
            elif obj.definition != definition:
                changed[name] = obj
                self._change_definition(obj, definition, now)
            self.objects[name] = obj
            self.due.set_time(obj.key, obj.due_time())
        for obj in before.values():
            self.end_run(obj)
        return changed

    def _change_definition(self, obj: ObjectState, definition: ObjectDefinition, now: int) -> None:
        before, obj.definition = obj.definition, definition
        if before.part != definition.part:
            self.end_run(obj)
            obj.key = definition.part, obj.name
        if before.enabled != definition.enabled:
            obj.on = definition.enabled
        if before.freshness is None and obj.last_result is None:
            obj.awaited_since = now
        if obj.phase is not None and before.check_interval != definition.check_interval:
            obj.phase = phase_of(obj.name, definition.check_interval)

    def end_run(self, obj: ObjectState) -> None:
        """Ends an object's run. A plugin that still runs has no owner any more, and the next run of the object waits for it."""
        run = self.running.pop(obj.key, None)
        if run is not None and run.job is not None:
            self.running.leftover_jobs[obj.name] = run.job

    def apply_saved(self, members: Iterable[Mapping[str, Any]]) -> List[str]:
        """Takes in objects from their scheduler's saved state. Returns the names of the objects whose known state was different."""
        others = []
        for it in members:
            obj = self.objects.get(it["name"])
            if obj is None:
                continue
            run, number = obj.run, None if it.get("run") is None else it["run"]["number"]
            saved = (it["enabled"], it["forced"], it.get("next_check"), number)
            if saved != (obj.on, obj.forced, obj.next, None if run is None else run.number):
                others.append(obj.name)
            obj.on, obj.forced, obj.next, _ = saved
            if number is None:
                self.running.pop(obj.key, None)
            elif run is None or run.number != number:
                self.running[obj.key] = Run(obj.key, number)
            self.due.set_time(obj.key, obj.due_time())
        return others

    def apply_answer(self, obj: ObjectState, call: Call, answer: Answer) -> None:
        if isinstance(answer, Taken):
            self.running[obj.key] = Run(obj.key, answer.run, forced=obj.forced)
            obj.last_due, obj.next, obj.forced = obj.next, None, False
        elif isinstance(answer, PutOff):
            obj.next = answer.next
        elif isinstance(answer, Standing):
            obj.standing, obj.next = answer, answer.next
            if isinstance(call, Report):
                self.running.pop(obj.key, None)
        elif isinstance(answer, Freed) and isinstance(call, Abandon):
            self.running.pop(obj.key, None)
            obj.next = answer.next
        elif isinstance(answer, Done) and isinstance(call, Reschedule):
            obj.next, obj.forced = call.time, call.forced
        elif isinstance(answer, Done) and isinstance(call, Enable):
            obj.on = call.on
        self.due.set_time(obj.key, obj.due_time())


def phase_of(name: str, interval: int) -> int:
    """The phase of an object whose interval has changed: by its name, so that objects fill any interval evenly."""
    return zlib.crc32(name.encode()) % max(1, interval)
