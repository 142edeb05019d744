"""The monitor's core. A turn reads events, plans one list of calls, stores it, makes it, and acts on the answers.

A turn can be refused only while it is stored, and then nothing has changed. Clock, runners, schedulers and database are parameters, so that tests can
simulate a day in seconds."""
import collections
from functools import partial
from typing import Any, Callable, Deque, Dict, List, Optional, Sequence

from ..faults import ConversationEnded, NotStored
from ..model.clock import Clock
from ..model.objects import ObjectState, Owner
from ..model.protocol import Abandon, Call, Freed, PutOff, Refused, Report, Reschedule, Standing, Taken, call_line
from ..run.runners import RunnerPools
from ..scheduler.plans import ObjectAnswer, Plan
from ..scheduler.scheduling import Scheduling
from ..site.site import Site
from ..store.counters import Counters
from ..store.store import Store, store_figures
from .checks import WINDOW, Checks
from .passive import PassiveResults
from .plugin_runs import MARGIN, PluginRuns
from .requests import Actions, Request, Requests

PAUSE = 10_000  # the longest time between two turns that isn't a pause, in milliseconds
# The longest wait for the next turn, and how soon a change is stored or a next check is set, in milliseconds.
LONGEST_WAIT = 1_000
CHANGES_WAIT = 100
AFTER_REFUSAL = 60_000  # how long a check whose result was refused waits for the next one, in milliseconds
# The number of calls after which the next part is saved, the time in which each part is saved, and the pause before another try, in milliseconds.
SAVE_CALLS = 50_000
SAVE_AFTER = 300_000
SAVE_AGAIN = 10_000


class Engine:
    def __init__(self, scheduling: Scheduling, runners: RunnerPools, store: Store, clock: Clock, log: Callable[[str], None],
                 reload: Callable[[Request], None], stop: Callable[[], None]) -> None:
        self.scheduling, self.store, self.runners, self._clock, self._log = scheduling, store, runners, clock, log
        self.objects = scheduling.states.objects
        self._now = clock.moment()
        figures = store.figures()
        self.counters = Counters(figures, clock)
        spooled_at = 0.0 if store.spooled is None else figures.get("spooled_at") or clock.wall()
        self.counters.note({"spooled": -1 if store.spooled is None else store.spooled, "spooled_at": spooled_at})
        self.passive = PassiveResults(store, scheduling, log)
        self.checks = Checks(scheduling, self.passive, store.switches(), clock, log)
        self.plugins = PluginRuns(scheduling, runners, clock, log, self.counters)
        actions = Actions(self.signs, self.save, self.counters.note, self._renew_database, reload, stop, self.counters.count)
        self.requests = Requests(scheduling, store, self.checks, self.passive, clock, log, actions)
        # Requests that wait for a turn, and those that are stored and not answered yet.
        self._requests: List[Request] = []
        self._stored_requests: List[Request] = []
        # Answers that aren't applied yet: a fault in the middle leaves the rest to the next turn.
        self._answers: Deque[ObjectAnswer] = collections.deque()
        # The moments of the last turn that stored everything, and of the last one.
        self._last_turn: Optional[int] = None
        self._last_try: Optional[int] = None
        self._schedule_save()
        self.is_stuck = False
        # A result of each object is awaited since its last one, without the time in which no monitor ran. If it had none, since its part began.
        until, away = min(clock.wall(), figures.get("written_at", 0.0)), self._now - round(figures.get("moment", self._now))
        for obj in self.objects.values():
            start, last = scheduling.parts[obj.definition.part].generation.start, obj.history.last_check
            obj.awaited_since = start if last is None else self._now - round(max(0.0, until - last) * 1000)
            obj.known_at = obj.known_at + away if obj.known_at else obj.awaited_since

    def turn(self) -> int:
        """Does all the work that is due now, and returns the moment for which the next turn is wanted."""
        now = self._now = self._clock.moment()
        self._log_pause(now)
        self.plugins.collect_events(now)
        plan = self._make_plan(now)
        try:
            self.scheduling.store_calls(plan.calls, plan.writes)
        except NotStored as error:
            return self._retry_later(error, now)
        except Exception as error:  # any exception: the requests may be its cause, and aren't stored again
            self.requests.refuse(self._requests, f"the monitor has a fault: {type(error).__name__}: {error}", False)
            self._requests = []
            raise
        if self.is_stuck:
            self._log("the database takes writes again")
        self.is_stuck = False
        self._stored_requests += self._requests  # a fault in the rest of this turn doesn't have them stored again
        self._requests = []
        for follow in plan.then:
            follow()
        self._answers.extend(self.scheduling.make_calls())
        while self._answers:
            self._apply(self._answers.popleft())
        for follow in plan.last:
            follow()
        self.requests.answer(self._stored_requests)
        self._stored_requests = []
        self.runners.flush()
        self._last_turn = now
        self._save_when_due()
        return self._next_turn(now)

    def _log_pause(self, now: int) -> None:
        """Logs that no turn came for a while: the monitor or its machine stood still."""
        if self._last_try is not None and now - self._last_try > PAUSE:
            self._log(f"stood still for {(now - self._last_try) / 1000:.0f} seconds: overdue checks are spread over {WINDOW / 1000:g} seconds")
        self._last_try = now

    def _retry_later(self, error: NotStored, now: int) -> int:
        """Nothing could be stored, and nothing has changed: the client may send the request again."""
        if not self.is_stuck:
            self._log(f"no call is made until it can be stored: {error}")
        self.is_stuck = True
        self.requests.refuse(self._requests, str(error))
        self._requests = []
        self.runners.flush()
        return now + LONGEST_WAIT

    def _next_turn(self, now: int) -> int:
        running = self.scheduling.states.running
        has_run = any(self.scheduling.is_open(run.key[0]) for owner in (Owner.RESULT, Owner.NOBODY) for run in running.owned_by(owner))
        if has_run or self.checks.has_more(now) or self.passive.is_deliverable():
            return 0  # the next turn comes without any rest
        first = self.scheduling.states.due.first_time()
        latest = now + (CHANGES_WAIT if self.scheduling.has_more() or self.checks.planned_checks else LONGEST_WAIT)
        return latest if first is None else min(first, latest)

    def _make_plan(self, now: int) -> Plan:
        """All the work of this turn, in the order in which schedulers get it."""
        plan = Plan()
        plan.calls += [each for each in self.scheduling.mirrors.take_calls(now) if self.scheduling.is_open(each[0])]
        self.plugins.plan(plan, now)
        self.passive.plan_reports(plan, now)
        self.checks.plan_periods(plan)
        self._plan_requests(plan)
        self.checks.plan_freshness(now)
        self.checks.plan_spread(self._last_turn is None or now - self._last_turn > PAUSE, now)
        self.checks.plan_next_checks(plan, now)
        self.passive.plan_takes(plan, now)
        self.checks.plan_takes(plan, now)
        if self.is_stuck or self.counters.are_due(now):  # a stuck monitor has something to write in each turn, which shows when it can
            figures = self.counters.changed_figures(self.store.last_call, self.checks.figures())
            plan.writes.append(store_figures(figures))
            plan.then.append(partial(self.counters.set_written, figures))
        return plan

    def add_request(self, request: Request) -> None:
        self._requests.append(request)

    def _plan_requests(self, plan: Plan) -> None:
        for request in self._requests:
            step = self.requests.plan(request)
            plan.calls += step.calls
            plan.requested |= {call.name for _, call, _ in step.calls if isinstance(call, Reschedule)}
            plan.writes += step.writes
            plan.then += step.then
            plan.last += step.last
            plan.at_once |= step.at_once

    def _apply(self, object_answer: ObjectAnswer) -> None:
        call, answer, obj, before = object_answer
        if isinstance(answer, Refused):
            self._apply_refusal(call, answer, obj)
        elif obj is None:
            return
        elif isinstance(answer, Taken):
            self._apply_take(obj)
        elif isinstance(answer, PutOff):
            obj.known_at = self._now  # its setup holds back the check
        elif isinstance(call, Abandon) and isinstance(answer, Freed):
            self.counters.count_result("given_up")
        elif isinstance(call, Report) and isinstance(answer, Standing):
            self.counters.count_result(answer.state)
            obj.last_result = obj.known_at = self._now
            self.checks.apply_result(obj, before, answer, self._now)

    def _apply_refusal(self, call: Call, answer: Refused, obj: Optional[ObjectState]) -> None:
        if obj is None or not isinstance(call, (Report, Abandon)):
            about = "" if obj is None else f"{obj.name}: "
            self._log(f"{about}{call_line(call)} was refused: {answer.why}")
            return
        self._log(f"{obj.name}: the result of run {call.run} came too late ({answer.why})")
        self.counters.count_result("refused")
        if obj.run is not None and obj.run.number == call.run:
            obj.run.owner, obj.run.retry_at = Owner.NOBODY, self._now + AFTER_REFUSAL

    def _apply_take(self, obj: ObjectState) -> None:
        """Gives a run its owner: the passive result that waits, the plugin that still runs, or a new one."""
        run = obj.run
        if run is None:
            return
        if obj.operator_check is not None and obj.last_due is not None and obj.last_due >= obj.operator_check[0]:
            obj.operator_check = None
        if obj.name in self.passive:
            run.owner, run.deadline = Owner.RESULT, self._now + MARGIN
        elif obj.definition.command is not None:
            self.plugins.start(obj, run, obj.definition.command)
        else:
            self._log(f"{obj.name} has no command: no check of it is made")

    def signs(self) -> Dict[str, Any]:
        wall, overdue = self._clock.wall(), self.checks.overdue()
        since_turn = self._clock.moment() - (self._now if self._last_turn is None else self._last_turn)
        try:
            changes, first = self.store.waiting_changes()
        except NotStored:
            changes, first = 0, None
        return {
            "turn": wall - since_turn / 1000, "is_stuck": self.is_stuck, "passive_waiting": self.passive.count, "changes_waiting": changes,
            "oldest_change": 0.0 if first is None else max(0, self._clock.moment() - first) / 1000, "runners": self.runners.process_counts(),
            "overdue": overdue.number, "promised": overdue.promised, "overdue_by": overdue.by / 1000, "most_overdue": overdue.name,
            "out": len(self.scheduling.states.running.plugins()), "made": self.counters.result_count, "latest_start": self.counters.latest_start,
        }

    def _schedule_save(self) -> None:
        """Has the next part saved at a later time, or after enough calls from now on."""
        self._save_at, self._saved_call = self._clock.moment() + SAVE_AFTER // len(self.scheduling.parts), self.store.last_call

    def _save_when_due(self) -> None:
        """Saves one part at a time, so that checks don't wait for all."""
        part = self.scheduling.pop_long_replay()
        if part is not None or self._now >= self._save_at or self.store.last_call - self._saved_call >= SAVE_CALLS:
            try:
                self.save([self.scheduling.longest_unsaved() if part is None else part])
            except (NotStored, ConversationEnded) as fault:
                self._log(f"the state isn't saved: {fault}")
                self._save_at, self._saved_call = self._now + SAVE_AGAIN, self.store.last_call

    def save(self, parts: Optional[Sequence[int]] = None) -> None:
        for part in self.scheduling.parts if parts is None else parts:
            self.scheduling.save(part)
        self._schedule_save()
        self.counters.count_save()

    def _renew_database(self) -> None:
        self.scheduling.renew_database(*self.requests.rows())
        self.counters.write_all()
        self._schedule_save()

    def close(self) -> None:
        self.save()
        self.store.write(store_figures(self.counters.changed_figures(self.store.last_call, self.checks.figures())))

    def reload(self, site: Site) -> List[str]:
        """Takes over another site; running checks continue. If it is refused, nothing has changed. Returns the changes of objects that stay."""
        changed = self.scheduling.reload(site)
        self.checks.recheck_periods()
        self.passive.drop_others()
        return changed
