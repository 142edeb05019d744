"""Facts that hold after each turn of a simulated monitor, whatever has happened."""
from typing import TYPE_CHECKING, Dict, List

from nagsched_monitor.core.engine import Engine
from nagsched_monitor.model.jobs import Event, JobLost
from nagsched_monitor.model.objects import Owner

if TYPE_CHECKING:
    from .simulated import SimulatedRunners


class Invariants:
    def __init__(self, engine: Engine, runners: "SimulatedRunners") -> None:
        self._engine, self._runners = engine, runners
        self._most_slots = self._started = 0
        # The last event of each object that the engine has handled.
        self._ends: Dict[str, Event] = {}
        count = engine.plugins._count_losses

        def noted(event: Event) -> None:
            self._ends[event.job.name] = event
            count(event)

        setattr(engine.plugins, "_count_losses", noted)
        # The facts that didn't hold.
        self.broken: List[str] = []

    def look(self) -> None:
        """Looks after a turn. A turn that could store nothing has left everything as it was."""
        engine = self._engine
        site, states, plugins = engine.scheduling.site, engine.scheduling.states, engine.plugins
        self._most_slots = max(self._most_slots, site.options.slots)
        local = sum(job.runner is None for job in states.running.plugins())
        self._require(local <= self._most_slots, f"{local} plugins run in {self._most_slots} slots")
        waiting = sum(map(len, engine.passive._results.values()))
        self._require(engine.passive.count == waiting, f"{waiting} passive results wait, and {engine.passive.count} are counted")
        there = self._runners.job_ids() | {id(event.job) for event in plugins._events}
        for run in states.running.owned_by(Owner.PLUGIN):
            self._require(id(run.job) in there, f"the result of {run.key[1]} is nowhere")
        for name in (*plugins._losses, *plugins._delays):
            self._require(isinstance(self._ends[name], JobLost), f"a loss of {name} is counted after a result")
        self._look_at_periods()
        self._started = len(self._runners.started)

    def _look_at_periods(self) -> None:
        """Objects are on by their periods at this minute, and none is started outside of its period unless it is forced."""
        engine = self._engine
        active = engine.scheduling.site.periods.active_by_name(engine._clock.wall())
        if not active or engine.is_stuck:
            return
        for _, job in self._runners.started[self._started :]:
            obj = engine.objects.get(job.name)
            if obj is not None and obj.definition.period is not None and obj.run is not None and obj.run.job is job:
                self._require(active[obj.definition.period] or obj.run.forced, f"{job.name} is started outside of its period")
        for obj in engine.objects.values():
            if obj.definition.period is not None and not active[obj.definition.period] and engine.scheduling.is_open(obj.definition.part):
                self._require(not obj.on, f"{obj.name} is on outside of its period")

    def _require(self, holds: bool, fact: str) -> None:
        if not holds:
            self.broken.append(fact)
