"""Runs of plugins: their beginning, their end, and the handling of those that don't end."""
import collections
from functools import partial
from typing import Callable, Counter, Dict, List, Tuple, Union

from ..model.clock import Clock
from ..model.jobs import Event, Job, JobFinished, JobLost, StuckJobEnded
from ..model.objects import FIRST_TIME, Command, ObjectState, Owner, Run
from ..model.protocol import GREATEST_CODE, Abandon, Report, Reschedule
from ..model.text import plain_text
from ..run.runners import RunnerPools
from ..scheduler.mirroring import PlannedCall
from ..scheduler.plans import Plan
from ..scheduler.scheduling import Scheduling
from ..store.counters import Counters
from ..system.log import RepeatedLines

# How often a check whose runner ended is made again, and its result if it is lost once more.
MOST_LOST = 2
CRITICAL, UNKNOWN = 2, 3
MARGIN = 15_000  # the time after its limit within which a result may come, in milliseconds
# The pause before the next try of a check that this machine couldn't start, in milliseconds. It doubles each time, up to the longest.
RETRY, LONGEST_RETRY = 1_000, 60_000
SWEEP = 1_000  # the time between two sweeps of all runs, in milliseconds


class PluginRuns:
    def __init__(self, scheduling: Scheduling, runners: RunnerPools, clock: Clock, log: Callable[[str], None], counters: Counters) -> None:
        self._scheduling, self._runners, self._clock, self._log, self._counters = scheduling, runners, clock, log, counters
        self._events: List[Event] = []
        self._delayed = RepeatedLines(log, lambda: clock.moment() / 1000)
        # Plugins that were killed and haven't ended, by the names of their objects.
        self._stuck: Dict[str, Job] = {}
        # How often in a row the check of an object was lost, and couldn't be run here.
        self._losses: Counter[str] = collections.Counter()
        self._delays: Counter[str] = collections.Counter()
        self._last_sweep = clock.moment()

    def start(self, obj: ObjectState, run: Run, command: Command) -> None:
        """Runs the plugin of a check that was taken. If the plugin of an earlier run still runs, this run ends."""
        left = self._scheduling.states.running.leftover_jobs.pop(obj.name, None)
        if left is not None:
            self._assign(run, left)
            return
        late = 0
        if obj.last_due is not None and obj.last_due >= FIRST_TIME:
            late = self._clock.moment() - obj.last_due
            self._counters.count_start(late)
        obj.history.late = max(0, late) / 1000
        job = Job(obj.name, run.number, command.arguments, command.limit, obj.definition.runner)
        self._assign(run, job)
        if obj.name in self._stuck:
            self._events.append(JobFinished(job, "limit", 0, "the plugin of an earlier check still runs and can't be killed"))
        else:
            self._runners.start(job)

    def _assign(self, run: Run, job: Job) -> None:
        remote = None if job.runner is None else self._scheduling.site.runners.get(job.runner)
        wait = 0 if remote is None else round(2 * remote.wait * 1000) + MARGIN  # for the runner, and for the queue after it
        run.owner, run.job, run.deadline = Owner.PLUGIN, job, self._clock.moment() + round(job.limit * 1000) + wait + MARGIN

    def collect_events(self, now: int) -> None:
        """Takes in the events of runners, and looks over all runs every second."""
        self._events.extend(self._runners.events())
        self._delayed.flush()
        if now - self._last_sweep >= SWEEP:
            self._last_sweep = now
            self._end_overdue(now)

    def _end_overdue(self, now: int) -> None:
        """Ends a run that is past its deadline, by ending its runner. A run that no runner has belongs to nobody."""
        running = self._scheduling.states.running
        ended, there = {id(event.job) for event in self._events}, self._runners.job_ids()
        for run in running.owned_by(Owner.PLUGIN):
            if run.job is None or id(run.job) in ended:
                continue
            if id(run.job) not in there:
                self._log(f"{run.key[1]}: no runner has run {run.number}")
                run.owner = Owner.NOBODY
            elif run.deadline is not None and run.deadline < now:
                self._log(f"{run.key[1]}: run {run.number} gave no result in time")
                self._runners.kill(run.job)
                run.deadline = now + MARGIN
        running.leftover_jobs = {name: job for name, job in running.leftover_jobs.items() if id(job) in ended or id(job) in there}

    def plan(self, plan: Plan, now: int) -> None:
        """Reports the results of plugins. Events that can't be reported now stay."""
        left: List[Event] = []
        runs = {id(run.job): run for run in self._scheduling.states.running.values()}
        for event in self._events:
            run = runs.get(id(event.job))
            if isinstance(event, StuckJobEnded) or run is None:
                plan.then.append(partial(self._drop_event, event))
            elif self._scheduling.is_reportable(run.key):
                plan.calls += self._ending_calls(run, event, now)
                plan.freed += event.job.runner is None
                plan.then.append(partial(self._count_losses, event))
            else:
                left.append(event)
        for run in self._scheduling.states.running.owned_by(Owner.NOBODY):
            if self._scheduling.is_open(run.key[0]):
                plan.calls += abandon_calls(run, now)
                plan.then.append(partial(self._log, f"abandoned: run {run.number} of {run.key[1]}"))
        plan.then.append(partial(setattr, self, "_events", left))

    def _drop_event(self, event: Event) -> None:
        """A plugin has ended that no run waits for."""
        name, left = event.job.name, self._scheduling.states.running.leftover_jobs
        if self._stuck.get(name) is event.job:
            del self._stuck[name]
            self._log(f"{name}: the plugin that couldn't be killed has ended")
        elif not isinstance(event, StuckJobEnded):
            if left.get(name) is event.job:
                del left[name]
            self._log(f"{name}: the result of run {event.job.run} is dropped: it was abandoned, or the object isn't part of the site any more")

    def _ending_calls(self, run: Run, event: Union[JobFinished, JobLost], now: int) -> List[PlannedCall]:
        """The calls that end a run. A lost check is made again; a service's check whose runner ended is UNKNOWN the third time."""
        part, name = run.key
        obj = self._scheduling.states.objects[name]
        if isinstance(event, JobFinished):
            code, words = verdict(event, obj.definition.is_host(), self._scheduling.site.options.timeout_code)
            return self._scheduling.mirrors.report_calls(part, Report(name, run.number, code), words, now)
        if self._is_delayed(event):
            again = min(LONGEST_RETRY, RETRY << min(self._delays[name], 16))
            self._delayed.add(name, f"its plugin can't be run now, and is tried again after 1 to {LONGEST_RETRY / 1000:g} seconds: {event.why}")
            return [(part, Abandon(name, run.number, now), None), (part, Reschedule(name, now + again, run.forced), None)]
        if self._losses[name] == MOST_LOST:
            return self._scheduling.mirrors.report_calls(part, Report(name, run.number, UNKNOWN), f"{event.why} {MOST_LOST + 1} times", now)
        return abandon_calls(run, now)

    def _is_delayed(self, event: JobLost) -> bool:
        """Whether a lost check says nothing about its object, and is made again after a pause: a host is never DOWN because of its runners."""
        name = event.job.name
        return event.is_local or self._losses[name] == MOST_LOST and self._scheduling.states.objects[name].definition.is_host()

    def _count_losses(self, event: Event) -> None:
        name = event.job.name
        if isinstance(event, JobLost) and self._is_delayed(event):
            self._delays[name] += 1
            self._counters.count_result("not_started")
            return
        self._delays.pop(name, None)
        if isinstance(event, JobLost) and self._losses[name] < MOST_LOST:
            self._losses[name] += 1
        else:
            self._losses.pop(name, None)
        if isinstance(event, JobFinished) and event.is_stuck:
            self._stuck[name] = event.job
            self._log(f"{name}: its plugin can't be killed; no other is started meanwhile")


def abandon_calls(run: Run, now: int) -> List[PlannedCall]:
    """The calls that abandon a run; its check is made again, forced if it was."""
    part, name = run.key
    abandon: PlannedCall = (part, Abandon(name, run.number, now), None)
    is_set = run.forced or run.retry_at is not None
    return [abandon, (part, Reschedule(name, now if run.retry_at is None else run.retry_at, run.forced), None)] if is_set else [abandon]


def verdict(event: JobFinished, is_host: bool, timeout_code: int) -> Tuple[int, str]:
    """The return code and words of a plugin's end, as in Nagios: its exit code, or CRITICAL (DOWN for a host) if that isn't a plugin's code.

    The first line of the words is its output; the others are its long output and its standard error."""
    words, error = plain_text(event.output), plain_text(event.stderr)
    if error:
        words = f"{words}\n{error}" if words else f"(No output on stdout) stderr: {error}"
    if event.end == "exited" and 0 <= event.code <= GREATEST_CODE:
        return event.code, words
    whys = {"limit": f"timed out after {event.job.limit:g} seconds", "failed": "not started", "signal": f"ended by signal {event.code}"}
    why = whys.get(event.end, f"ended by exit code {event.code}")
    code = timeout_code if event.end == "limit" and not is_host else CRITICAL
    return code, f"{why}: {words}" if words else why
