"""The figures of the monitor itself: results, delays of checks, saves. They continue after a restart.

The metrics say what most of the stored figures mean. The others:

    checks.STATE          results that were reported, by the state in which each left its object
    late.BOUND            checks that began at most this many seconds late, and more than the bound before; `late.more` those later than all bounds
    late.sum              the seconds by which all of these were late, together
    moment                the moment at which these were written
    begun_at, written_at  when this monitor began, and when it wrote its figures last, in seconds since 1970
    uptime                the seconds since the machine was started when these were written: a wrong clock doesn't change them
    checks_a_second       results per second, over the last minute or since this monitor began
    latest_start          the most seconds by which a check was late, since this monitor began; `latest_start_lately` in the last minute
    promised              objects that are promised a result in time
    spooled               the last call whose result is in the spool of performance data; -1 without a spool"""
import bisect
import collections
import time
from typing import DefaultDict, Deque, Dict, Mapping, Tuple

from ..model.clock import Clock

# How often figures are written, and the time over which a rate is taken, in milliseconds.
EVERY = 5_000
MINUTE = 60_000
# The bounds of the histogram of late starts, in seconds.
BOUNDS = (0.05, 0.1, 0.25, 0.5, 1.0, 2.5, 5.0, 10.0, 30.0, 60.0)
BUCKETS = tuple(f"late.{bound:g}" for bound in BOUNDS) + ("late.more",)
RESULTS = ("OK", "WARNING", "CRITICAL", "UNKNOWN", "UP", "DOWN", "UNREACHABLE", "given_up", "refused", "not_started")
RESTORED = (*(f"checks.{result}" for result in RESULTS), *BUCKETS, "late.sum", "saves", "saved_at", "faults", "changes_aside", "commands_refused",
            "spooled", "spooled_at", "unspooled")


class Counters:
    def __init__(self, stored: Mapping[str, float], clock: Clock) -> None:
        self._clock = clock
        self._values: DefaultDict[str, float] = collections.defaultdict(float, {name: stored[name] for name in RESTORED if name in stored})
        self._started_at = clock.wall()
        # Since this monitor began: the number of results, and the most milliseconds by which a check was late.
        self.result_count = self.latest_start = 0
        self._written: Dict[str, float] = {}
        self._written_at = clock.moment() - EVERY
        # At moments of the last minute: the number of results until then, and the latest start since the moment before.
        self._moments: Deque[Tuple[int, int, int]] = collections.deque([(clock.moment(), 0, 0)])
        self._latest_lately = 0

    def count_result(self, result: str) -> None:
        """A result was reported: the state in which it left its object, `given_up` or `refused`."""
        self._values[f"checks.{result}"] += 1
        if result not in ("given_up", "refused", "not_started"):
            self.result_count += 1

    def count(self, figure: str) -> None:
        self._values[figure] += 1

    def note(self, figures: Mapping[str, float]) -> None:
        self._values.update(figures)

    def count_start(self, late: int) -> None:
        """A check began late, by a number of milliseconds."""
        seconds = max(0, late) / 1000
        self._values[BUCKETS[bisect.bisect_left(BOUNDS, seconds)]] += 1
        self._values["late.sum"] += seconds
        self.latest_start, self._latest_lately = max(self.latest_start, late), max(self._latest_lately, late)

    def count_save(self) -> None:
        self._values["saves"] += 1
        self._values["saved_at"] = self._clock.wall()

    def are_due(self, now: int) -> bool:
        return now - self._written_at >= EVERY

    def changed_figures(self, calls: int, others: Mapping[str, float]) -> Dict[str, float]:
        """The figures that have changed since they were written last, with some others. `calls` is the number of calls so far."""
        now = self._clock.moment()
        self._moments.append((now, self.result_count, self._latest_lately))
        self._latest_lately = 0
        while len(self._moments) > 2 and self._moments[1][0] <= now - MINUTE:
            self._moments.popleft()
        first, count, _ = self._moments[0]
        rate = round((self.result_count - count) * 1000 / (now - first), 3) if now > first else 0.0
        lately = max(latest for _, _, latest in self._moments)
        of_this_run = {"calls": calls, "begun_at": self._started_at, "written_at": self._clock.wall(), "checks_a_second": rate, "moment": now,
                       "uptime": time.clock_gettime(time.CLOCK_BOOTTIME)}
        values = {**self._values, **of_this_run, **others, "latest_start": self.latest_start / 1000, "latest_start_lately": lately / 1000}
        return {name: value for name, value in values.items() if self._written.get(name) != value}

    def write_all(self) -> None:
        """Has all figures written next."""
        self._written.clear()
        self._written_at -= EVERY

    def set_written(self, figures: Mapping[str, float]) -> None:
        self._written_at = self._clock.moment()
        self._written.update(figures)
