"""Counts the work of a function, so that a test of its size gives the same result on every machine."""
import collections
import sys
import unittest
from types import FrameType
from typing import Any, Callable, Counter


class CountedName(str):
    """A name whose comparisons are calls of a Python function, so that a search in a list counts too."""

    __hash__ = str.__hash__

    def __eq__(self, other: object) -> bool:
        return str.__eq__(self, other)


def work_of(function: Callable[[], object]) -> Counter[str]:
    """The Python functions that are called (`call`) and the lines that run (`line`). Each turn of a loop or of a comprehension runs a line."""
    work: Counter[str] = collections.Counter()

    def count(frame: FrameType, event: str, argument: Any) -> Any:
        work[event] += 1
        return count

    before = sys.gettrace()
    sys.settrace(count)
    try:
        function()
    finally:
        sys.settrace(before)
    return work


def check_growth(case: unittest.TestCase, work: Callable[[int], Counter[str]], most_calls: int) -> None:
    """Fails if the work for a number of objects grows faster than that number, or is more than this many calls for each of 4,096 objects."""
    few, many = work(1_024), work(4_096)
    for event in ("call", "line"):
        case.assertLessEqual(many[event], 4.2 * few[event], event)
    case.assertLessEqual(many["call"], most_calls * 4_096)
