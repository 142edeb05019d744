"""The errors that are raised when a function of the library returns another status than OK."""
from __future__ import annotations

from .kinds import Result
from .records import Refusal


class Error(Exception):
    """A function of the library returned another status than OK. Except for a setup that was read, nothing has changed."""

    status: Result


class Spent(Error):
    """The pass has no call left."""

    status = Result.SPENT


class NoMemory(Error, MemoryError):
    """Out of memory. If it was one of the six calls, it wasn't made, and the book counts it as refused."""

    status = Result.NO_MEMORY


class Refused(Error, ValueError):
    """The document is no setup, or the text no saved state: `refusal` has the reason and the place."""

    status = Result.REFUSED

    def __init__(self, told: str, refusal: Refusal):
        super().__init__(told)
        self.refusal = refusal


class Missing(Error, LookupError):
    """No object has that name, or passes aren't gathered yet."""

    status = Result.MISSING


class Wrong(Error, ValueError):
    """A mistake of the caller: a number out of its range, a closed object, or a pass that another thread uses."""

    status = Result.WRONG


ERRORS = {error.status: error for error in (Spent, NoMemory, Missing, Wrong)}
