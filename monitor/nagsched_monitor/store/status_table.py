"""The table of standings: the state of each object, for other processes that read the database, and for the monitor's next start.

An object that an answer is about is marked. It is written with the first calls after half a second. A run that has just begun isn't written, since its result
mostly comes before that. After a second an object is written without other calls. Times in the table are seconds since 1970 of the wall clock.
"""
import itertools
from typing import Dict, List, Mapping, Optional, Tuple

from ..model.clock import Clock
from ..model.objects import FIRST_TIME, ObjectState, Run, StateHistory
from ..model.protocol import Answer, Call, Report, Standing, Taken
from .rows import StoredStanding
from .store import Store, Write, delete, store_standings

# In milliseconds: how long a marked object waits for more answers, and the time after which it is written without other calls.
SHORTEST = 500
LONGEST = 1_000


class StandingTable:
    def __init__(self, store: Store, clock: Clock) -> None:
        self._store, self._clock = store, clock
        # Objects and the moments at which they were marked, the earliest first. The moment 0 is for those to be written with the next calls.
        self._marked: Dict[str, Tuple[ObjectState, int]] = {}
        self._chosen: List[ObjectState] = []  # the objects of the last writes
        self._dropped: List[str] = []  # rows of objects that aren't part of the site any more

    def read(self, objects: Mapping[str, ObjectState]) -> None:
        for row in self._store.standings():
            if row.name in objects:
                obj = objects[row.name]
                obj.output, obj.phase, obj.history, obj.known_at = row.words, row.phase, history_of(row), row.known or 0

    def settle(self, objects: Mapping[str, ObjectState], changed: Mapping[str, ObjectState]) -> None:
        """Takes over the objects of a site, and has those written that changed with it. If the table had another state of an object, the stored changes show
        when the new one began."""
        self._dropped = [name for name in self._store.row_numbers if name not in objects]
        for obj in objects.values():
            standing, past = obj.standing, obj.history
            if standing is None or is_settled(standing, past):
                continue
            stored = self._store.last_changes(obj.name) or StateHistory()
            past.note(standing.state, standing.kind, stored.since if stored.since and stored.state == standing.state else self._clock.wall())
            if stored.hard_since is not None and stored.hard_state == past.hard_state:
                past.hard_since = stored.hard_since
        self._marked = {name: marked for name, marked in self._marked.items() if name in objects and marked[0].standing is not None}
        self.write_soon(changed)

    def apply_answer(self, obj: ObjectState, call: Call, answer: Answer, ended: Optional[Run]) -> None:
        """Takes in the changes of an object from an answer, and marks the object. `ended` is its run before."""
        past = obj.history
        if isinstance(answer, Taken) and obj.run is not None:
            obj.run.began_at = self._clock.wall()
        elif isinstance(call, Report) and isinstance(answer, Standing):
            now = self._clock.wall()
            begun = now if ended is None or ended.began_at is None else ended.began_at
            past.last_check, past.took = begun, max(0.0, now - begun)
            past.note(answer.state, answer.kind, now)
        self._marked.setdefault(obj.name, (obj, self._clock.moment()))

    def write_soon(self, others: Mapping[str, ObjectState]) -> None:
        """Has all marked objects written with the next calls, and others whose states are known: in the order of their checks, which new rows keep."""
        known = {obj.name: (obj, 0) for obj in sorted(others.values(), key=lambda obj: obj.phase or 0) if obj.standing is not None}
        self._marked = {**known, **{name: (obj, 0) for name, (obj, _) in self._marked.items()}}

    def is_overdue(self) -> bool:
        """Whether a marked object has waited too long for calls to be written with."""
        now = self._clock.moment()
        _, earliest = next(iter(self._marked.values()), (None, now))
        return now - earliest > LONGEST

    def writes(self, most: Optional[int] = None) -> List[Write]:
        """The rows that are due, or this many of them: the others are due with the next calls."""
        now, wall = self._clock.moment(), self._clock.wall()
        due = itertools.islice(itertools.takewhile(lambda marked: now - marked[1] >= SHORTEST, self._marked.values()), most)
        self._chosen = [obj for obj, since in due if now - since >= LONGEST or not has_just_begun(obj.run, wall)]
        gone = [delete("standings", "name = ?", name) for name in self._dropped]
        return [*gone, store_standings([row_of(obj, wall, now / 1000 - wall) for obj in self._chosen])]

    def clear_marks(self) -> None:
        """The last writes were carried out."""
        for obj in self._chosen:
            self._marked.pop(obj.name, None)
        self._dropped = []


def has_just_begun(run: Optional[Run], wall: float) -> bool:
    return run is not None and run.began_at is not None and 0 <= (wall - run.began_at) * 1000 < LONGEST


def is_settled(standing: Standing, past: StateHistory) -> bool:
    return standing.state == "PENDING" or standing.state == past.state and (standing.kind == "SOFT" or standing.state == past.hard_state)


def history_of(row: StoredStanding) -> StateHistory:
    """The past of an object from its row. A soft problem has a hard recovery, or nothing, before it."""
    well = "OK" if ";" in row.name else "UP"
    hard = None if row.hard_since is None else row.state if row.kind == "HARD" else well
    state = None if row.since is None else row.state
    return StateHistory(state, row.since, hard, row.hard_since, row.last_check, row.took, row.late)


def row_of(obj: ObjectState, wall: float, ahead: float) -> StoredStanding:
    """The row of an object. Moments are `ahead` seconds ahead of the wall clock."""
    standing, past = obj.standing, obj.history
    state, kind, attempt, flapping = (None, None, None, False) if standing is None else (standing.state, standing.kind, standing.attempt, standing.flapping)
    next_check = None if obj.next is None else wall if obj.next < FIRST_TIME else obj.next / 1000 - ahead
    return StoredStanding(
        obj.name, state, kind, attempt, flapping, past.since, past.hard_since, past.last_check, next_check, obj.on,
        None if obj.run is None else obj.run.began_at, past.took, past.late, obj.output, obj.phase, obj.known_at,
    )
