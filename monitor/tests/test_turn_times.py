"""When turns begin: their number, and the delays of checks."""
import heapq
import os
import unittest
from typing import List, Tuple
from unittest import mock

from nagsched_monitor.model.clock import Clock
from nagsched_monitor.model.objects import ENOUGH, LONGEST_SHARING, DueQueue
from nagsched_monitor.program.loop import BEFORE_RESULTS, BETWEEN_TURNS, Loop, next_turn_time
from nagsched_monitor.system.poller import FilePoller

INTERVAL = 10_000


def turns(a_second: int, until: int) -> Tuple[List[float], List[float]]:
    """The turns of this many checks per second, each object every ten seconds, spread evenly at first; and the delay of each check of the last ten seconds."""
    waiting = [1_000 * number / a_second for number in range(a_second * INTERVAL // 1_000)]
    begun, late = [0.0], []
    while begun[-1] < until:
        first = waiting[0]
        window = LONGEST_SHARING / min(2, waiting.count(first))
        shared = max(time for time in heapq.nsmallest(ENOUGH, waiting) if time <= first + window)
        now = next_turn_time(begun[-1], first, shared)
        # The results of this turn have a turn of their own if the next one is far off.
        begun.append(begun[-1] + BEFORE_RESULTS if now is None else now)
        if now is None:
            begun.append(first)
        while waiting[0] <= begun[-1]:
            late += [begun[-1] - waiting[0]] if begun[-1] > until - INTERVAL else []
            heapq.heapreplace(waiting, begun[-1] + INTERVAL)
    return begun, late


class Turns(unittest.TestCase):
    def test_how_many_and_how_late(self) -> None:
        """At each rate: the most turns per second, and the longest delay of a check, in the first round and in later ones."""
        for a_second, most_turns in ((1, 2), (5, 3), (8, 3), (10, 3), (13, 3), (18, 3), (25, 3), (40, 3), (100, 3), (200, 3), (500, 5), (800, 8), (2_000, 20)):
            with self.subTest(a_second=a_second):
                _, at_first = turns(a_second, INTERVAL)
                begun, late = turns(a_second, 5 * INTERVAL)
                self.assertLessEqual(max(at_first), LONGEST_SHARING + 1e-3)
                self.assertLessEqual(sorted(late)[len(late) * 95 // 100], 1e-3)
                self.assertLessEqual(len([each for each in begun if each > 4 * INTERVAL]) * 1_000 / INTERVAL, most_turns + 1)

    def test_checks_that_are_due_soon_after_each_other_share_a_turn_from_then_on(self) -> None:
        begun, late = turns(18, 3 * INTERVAL)
        self.assertAlmostEqual(max(late), 0)
        self.assertEqual(len([each for each in begun if 20_000 <= each < 29_900]), 25)

    def test_a_turn_isn_t_begun_before_the_last_one_is_rested(self) -> None:
        self.assertEqual(next_turn_time(1_000, 1_005, None), 1_000 + BETWEEN_TURNS)
        self.assertEqual(next_turn_time(1_000, 1_005, 1_008), 1_000 + BETWEEN_TURNS)
        self.assertEqual(next_turn_time(1_000, 1_010, 1_200), 1_200)
        self.assertIsNone(next_turn_time(1_000, 2_000, 2_010))


class Shared(unittest.TestCase):
    def test_checks_that_share_a_turn(self) -> None:
        due = DueQueue()
        self.assertIsNone(due.shared_time())
        for name, at in (("a", 5), ("b", 7), ("c", 5 + LONGEST_SHARING), ("d", 6 + LONGEST_SHARING)):
            due.set_time((0, name), at)
        self.assertEqual((due.first_time(), due.shared_time()), (5, 5 + LONGEST_SHARING))
        due.set_time((0, "c"), None)
        self.assertEqual((due.first_time(), due.shared_time()), (5, 7))
        due.set_time((0, "f"), 5 + LONGEST_SHARING)
        self.assertEqual(due.shared_time(), 5 + LONGEST_SHARING)
        due.set_time((0, "g"), 5)
        self.assertEqual(due.shared_time(), 7)  # two that are due together wait half as long
        due.set_time((0, "f"), None)
        due.set_time((0, "g"), None)
        for number in range(ENOUGH - 1):
            self.assertEqual((due.first_time(), due.shared_time()), (5, 7))
            due.set_time((number % 2, f"e{number}"), 5)
        self.assertEqual((due.first_time(), due.shared_time()), (5, 5))
        self.assertEqual(sum(map(len, due.due_names(6).values())), ENOUGH)
        self.assertEqual((due.first_time(), due.shared_time()), (7, 6 + LONGEST_SHARING))


class Waiting(unittest.TestCase):
    def setUp(self) -> None:
        self.there, self.back = os.pipe()
        self.addCleanup(os.close, self.there)
        self.addCleanup(os.close, self.back)
        self.read: List[bytes] = []
        self.poller = FilePoller()
        self.poller.watch(self.there, lambda: self.read.append(os.read(self.there, 10)))
        self.clock = Clock()
        self.loop = Loop(mock.Mock(), self.poller, self.clock, lambda line: None, [], [], [])

    def test_what_came_since_the_last_turn_has_a_turn_at_once(self) -> None:
        os.write(self.back, b"x")
        begun = self.clock.moment()
        self.loop.wait(begun, begun + 60_000, None)
        self.assertLess(self.clock.moment() - begun, 10_000)
        self.assertEqual(self.read, [b"x"])

    def test_a_turn_that_is_wanted_begins_with_nothing_to_read(self) -> None:
        begun = self.clock.moment()
        self.loop.wait(begun, begun + 300, None)
        self.assertGreaterEqual(self.clock.moment() - begun, 299)
        self.assertEqual(self.read, [])

    def test_a_turn_that_is_wanted_at_once(self) -> None:
        """There is no rest before it, and available input is read."""
        os.write(self.back, b"x")
        with mock.patch.object(self.poller, "sleep", side_effect=AssertionError):
            self.loop.wait(self.clock.moment(), 0, None)
        self.assertEqual(self.read, [b"x"])

    def test_a_file_that_isn_t_watched_any_more(self) -> None:
        self.poller.unwatch(self.there)
        os.write(self.back, b"x")
        begun = self.clock.moment()
        self.loop.wait(begun, begun, None)
        self.assertEqual(self.read, [])
