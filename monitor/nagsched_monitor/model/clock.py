"""Moments, for the scheduler, and the wall clock, for people."""
import time

MILLISECOND = 1_000_000
# The last time that has a date here, at the beginning of the year 9999, in seconds since 1970.
LAST_TIME = 253_370_764_800


class Clock:
    """The machine's clock: moments in milliseconds, which never go back, and the wall clock in seconds since 1970. Moments begin at the wall clock,
    or at the last stored moment if that is later. They continue by the time since the machine was started, also while it sleeps. So setting the clock
    neither stops checks nor hurries them."""

    def __init__(self, last_kept: int = 0) -> None:
        first = max(time.time_ns() // MILLISECOND, last_kept)
        # How far moments are ahead of the time since the machine was started, in nanoseconds.
        self._ahead = first * MILLISECOND - time.clock_gettime_ns(time.CLOCK_BOOTTIME)

    def moment(self) -> int:
        return (self._ahead + time.clock_gettime_ns(time.CLOCK_BOOTTIME)) // MILLISECOND

    def wall(self) -> float:
        return time.time()
