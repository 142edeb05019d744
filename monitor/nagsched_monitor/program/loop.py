"""The loop of a monitor: one turn after another, the waiting between them, the chores of every second, and the handling of a turn's exceptions.

A turn costs far more than one more check in it, so events that come close together share one."""
import traceback
from typing import Callable, Optional, Sequence

from ..core.engine import Engine
from ..model.clock import Clock
from ..model.objects import ENOUGH, LONGEST_SHARING
from ..system.poller import FilePoller

# All times are in milliseconds. The least time from one turn to the next, the same for a turn of results alone, and how far off a due check may be so that
# results wait for its turn.
BETWEEN_TURNS, BEFORE_RESULTS, LONGEST_UNREPORTED = 10, 50, LONGEST_SHARING + 100
CHORES_EVERY = 1_000
# The wait after a turn that raised an exception; the number of such turns in a row after which the process ends, and its status then.
AFTER_FAULT = 1_000
MOST_FAULTS = 3
BROKEN = 70
# An action before or after each turn: it returns how long the next turn may wait, or None. The others are carried out every second.
Action = Callable[[], Optional[int]]


class Loop:
    def __init__(self, engine: Engine, poller: FilePoller, clock: Clock, log: Callable[[str], None], before: Sequence[Action], after: Sequence[Action],
                 chores: Sequence[Callable[[], None]]) -> None:
        self._engine, self._poller, self._clock, self._log = engine, poller, clock, log
        self._before, self._after, self._chores = before, after, chores
        self.status: Optional[int] = None  # the exit status of the process, when the loop has to end
        self._chores_at = 0
        self._faults = 0

    def stop(self) -> None:
        self.status = 0 if self.status is None else self.status

    def run(self) -> int:
        while self.status is None:
            self.run_turn()
        return self.status

    def run_turn(self) -> None:
        begun = self._clock.moment()
        try:
            wanted = self._turn(begun)
            self._faults = 0
        except Exception:  # any exception: monitoring continues
            wanted = begun + AFTER_FAULT
            self._handle_fault()
        if self.status is None:
            scheduling = self._engine.scheduling
            self.wait(begun, wanted, scheduling.states.due.shared_time(min(ENOUGH, (scheduling.site.options.slots + 1) // 2)))

    def _turn(self, begun: int) -> int:
        waits = [each() for each in self._before]
        self._engine.requests.begin_turn()
        wanted = self._engine.turn()
        waits += [each() for each in self._after]
        if begun >= self._chores_at:
            self._chores_at = begun + CHORES_EVERY
            for chore in self._chores:
                chore()
        return 0 if 0 in waits else min([wanted, *(self._clock.moment() + wait for wait in waits if wait is not None)])

    def _handle_fault(self) -> None:
        self._faults += 1
        self._engine.counters.count("faults")
        for line in traceback.format_exc().rstrip().split("\n"):
            self._log(f"fault: {line}")
        if self._faults >= MOST_FAULTS:
            self._log(f"{MOST_FAULTS} turns in a row ended like this: the monitor ends with status {BROKEN}")
            self.status = BROKEN

    def wait(self, begun: int, wanted: int, shared: Optional[int]) -> None:
        """Waits for the next turn, and has files read until then.

        `begun` is when the last turn began. `wanted` is the moment at which something is due, 0 for at once. `shared` is when the checks are due that
        share a turn. All are moments."""
        if wanted == 0:
            self._poller.wait(0)
            return
        next_turn = next_turn_time(begun, wanted, shared)
        self._sleep_until(begun + BEFORE_RESULTS if next_turn is None else next_turn)
        if self._poller.wait(0) or next_turn is not None or not self._poller.wait(wanted - self._clock.moment()):
            return
        now = self._clock.moment()
        self._sleep_until(wanted if wanted <= now + LONGEST_UNREPORTED else now + BEFORE_RESULTS)
        self._poller.wait(0)

    def _sleep_until(self, at: float) -> None:
        self._poller.sleep(at - self._clock.moment())


def next_turn_time(begun: float, wanted: float, shared: Optional[float]) -> Optional[float]:
    """The time of the next turn, even if something comes before it; None if `wanted` is so far off that a result has a turn of its own.

    Checks that are due wait for the next ones that share their turn. They are due together from then on, as far as their phases allow it."""
    if wanted > begun + LONGEST_UNREPORTED:
        return None
    if shared is not None and wanted <= shared <= wanted + LONGEST_SHARING:
        wanted = shared
    return max(begun + BETWEEN_TURNS, wanted)
