"""Passive results that wait: each is reported as the result of a check that is taken for it."""
import collections
from functools import partial
from typing import Callable, Deque, Dict, Iterator, List

from ..faults import NotStored
from ..model.objects import RESULT_FIRST, ObjectState, Owner
from ..model.protocol import Report, Take
from ..scheduler.mirroring import forced_take
from ..scheduler.plans import Plan
from ..scheduler.scheduling import Scheduling
from ..store.rows import StoredResult
from ..store.store import Store, Write, delete, insert

MOST_WAITING = 10_000  # the greatest number of results that may wait


class PassiveResults:
    """Passive results, those of one object in the order in which they came. All are stored."""

    def __init__(self, store: Store, scheduling: Scheduling, log: Callable[[str], None]) -> None:
        self._store, self._scheduling, self._log = store, scheduling, log
        self._results: Dict[str, Deque[StoredResult]] = {}
        self.count = 0
        for result in store.waiting_results():
            self.add(result)
        self.drop_others()

    def add(self, result: StoredResult) -> None:
        self._results.setdefault(result.name, collections.deque()).append(result)
        self.count += 1

    def rows(self) -> List[Write]:
        return [insert("passive", *result) for results in self._results.values() for result in results]

    def __contains__(self, name: object) -> bool:
        return name in self._results

    def is_deliverable(self) -> bool:
        """Whether an object can be taken for its result now."""
        return any(obj.next != RESULT_FIRST for obj in self._takeable_objects())

    def _takeable_objects(self) -> Iterator[ObjectState]:
        """The objects that have a result, aren't running, and whose schedulers can be called."""
        for name in self._results:
            obj = self._scheduling.states.objects[name]
            if obj.run is None and self._scheduling.is_open(obj.definition.part):
                yield obj

    def plan_takes(self, plan: Plan, now: int) -> None:
        for obj in self._takeable_objects():
            if obj.next != RESULT_FIRST:
                plan.calls += forced_take(obj.definition.part, obj.name, RESULT_FIRST, now)
            else:
                plan.calls.append((obj.definition.part, Take(now), None))  # the limit of running checks was reached when it had to be taken
                plan.later.add(obj.name)

    def plan_reports(self, plan: Plan, now: int) -> None:
        for run in self._scheduling.states.running.owned_by(Owner.RESULT):
            part, name = run.key
            if name not in self._results or not self._scheduling.is_reportable(run.key):
                continue
            result = self._results[name][0]
            plan.calls += self._scheduling.mirrors.report_calls(part, Report(name, run.number, result.code), result.words, now)
            plan.writes.append(delete("passive", "id = ?", result.id))
            plan.then.append(partial(self._remove_first, result))
            if len(self._results[name]) > 1:
                plan.calls += forced_take(part, name, RESULT_FIRST, now)

    def _remove_first(self, result: StoredResult) -> None:
        results = self._results[result.name]
        assert results[0].id == result.id
        results.popleft()
        self.count -= 1
        if not results:
            del self._results[result.name]

    def drop_others(self) -> None:
        gone = sorted(name for name in self._results if name not in self._scheduling.states.objects)
        writes = [delete("passive", "id = ?", result.id) for name in gone for result in self._results.pop(name)]
        self.count -= len(writes)
        for name in gone:
            self._log(f"{name}: its passive results are dropped, since it isn't part of the site any more")
        try:
            if writes:
                self._store.write(*writes)
        except NotStored as fault:
            self._log(f"results of objects that are gone stay stored: {fault}")
