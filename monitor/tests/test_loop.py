"""The actions around a turn: a fault of the monitor's own is caught, logged and counted; the log holds up nobody."""
import os
import unittest
from typing import Any, List
from unittest import mock

from nagsched_monitor.core.requests import Request
from nagsched_monitor.program.loop import BROKEN
from nagsched_monitor.system.log import MOST_LINES, Log, RepeatedLines

from .simulated import SiteTest, fine, host
from .waiting import becomes_true


class Faults(SiteTest):
    def test_one_is_caught(self) -> None:
        """Its traceback is in the log, it is counted, and monitoring continues, also after two in a row, twice."""
        self.write_site([host("web")], [])
        monitor = self.monitor(fine)
        monitor.work(10)
        with mock.patch.object(monitor.engine, "turn", side_effect=2 * [KeyError("what"), ZeroDivisionError, monitor.clock.now + 1000]):
            for _ in range(6):
                monitor.loop.run_turn()
        self.assertIn("fault: KeyError: 'what'", monitor.lines)
        monitor.work(120)
        self.assertEqual((monitor.loop.status, len(monitor.starts()["web"])), (None, 3))
        monitor.engine.close()
        self.assertEqual(monitor.store.figures()["faults"], 4)

    def test_three_in_a_row_end_the_process(self) -> None:
        self.write_site([host("web")], [])
        monitor = self.monitor(fine)
        monitor.work(1)
        begun = monitor.clock.now
        with mock.patch.object(monitor.engine, "turn", side_effect=KeyError):
            self.assertEqual((monitor.loop.run(), BROKEN), (70, 70))
        self.assertGreaterEqual(monitor.clock.now - begun, 2_000)

    def test_a_request_with_a_fault(self) -> None:
        """It gets an error, and the turn continues."""
        self.write_site([host("web")], [])
        monitor = self.monitor(fine)
        with mock.patch.object(monitor.engine.requests, "_find_object", side_effect=KeyError("what")):
            self.assertIn("the monitor has a fault: KeyError", monitor.ask(do="reschedule", name="web")["error"])
        monitor.work(70)
        self.assertEqual(len(monitor.starts()["web"]), 2)

    def test_a_request_that_cant_be_stored_for_a_fault(self) -> None:
        """It is refused, the turn is a fault, and the next one is as ever."""
        self.write_site([host("web")], [])
        monitor = self.monitor(fine)
        monitor.work(10)
        answers: List[Any] = []
        monitor.engine.add_request(Request(b'{"do":"disable","name":"web"}', answers.append))
        with mock.patch.object(monitor.store, "insert_all", side_effect=UnicodeEncodeError("utf-8", "x", 0, 1, "no")):
            monitor.loop.run_turn()
        self.assertIn("the monitor has a fault: UnicodeEncodeError", answers[0]["error"])
        self.assertNotIn("again", answers[0])
        monitor.work(60)
        self.assertEqual((monitor.loop.status, len(monitor.starts()["web"]), monitor.store.figures()["faults"]), (None, 2, 1))

    def test_a_pause(self) -> None:
        self.write_site([host("web")], [])
        monitor = self.monitor(fine)
        monitor.work(10)
        monitor.pause(600)
        monitor.work(20)
        (line,) = [line for line in monitor.lines if "stood still" in line]
        self.assertRegex(line, "stood still for 60[01] seconds: overdue checks are spread over 15 seconds")

    def test_a_fault_after_a_turn_was_stored(self) -> None:
        """Its requests aren't stored again, and the next turn answers them."""
        self.write_site([host("web")], [])
        monitor = self.monitor(fine)
        monitor.work(10)
        answers: List[Any] = []
        monitor.engine.add_request(Request(b'{"do":"result","name":"web","code":0,"output":"fine"}', answers.append))
        with mock.patch.object(monitor.scheduling, "make_calls", side_effect=KeyError("what")):
            monitor.loop.run_turn()
        self.assertEqual(answers, [])
        monitor.loop.run_turn()
        self.assertEqual((len(answers), monitor.store.last_result), (1, 1))

    def test_what_is_done_every_second(self) -> None:
        self.write_site([host("web")], [])
        monitor = self.monitor(fine)
        done: List[int] = []
        monitor.chores.append(lambda: done.append(monitor.clock.now))
        monitor.work(30)
        self.assertTrue(25 <= len(done) <= 31, len(done))


class Lines(unittest.TestCase):
    def test_a_pipe_that_nobody_reads(self) -> None:
        """Lines wait, and the lines past the limit are counted."""
        there, back = os.pipe()
        self.addCleanup(os.close, there)
        self.addCleanup(os.close, back)
        log = Log(back)
        for number in range(2 * MOST_LINES):
            log(f"line {number} with a plugin's\x1b[2K words\nand more")
        read = b""

        def is_whole() -> bool:
            nonlocal read
            read += os.read(there, 1 << 20)
            return b"are missing here" in read

        self.assertTrue(becomes_true(is_whole))
        log.close()
        lines = read.decode().splitlines()
        self.assertEqual(lines[0], "line 0 with a plugin's [2K words and more")
        (missing,) = [int(line.split()[0]) for line in lines if "are missing here" in line]
        self.assertGreaterEqual(missing, MOST_LINES // 2)

    def test_lines_with_one_cause(self) -> None:
        """The first is logged, and once a minute the number of the others."""
        now, lines = [0.0], [""]
        repeated = RepeatedLines(lines.append, lambda: now[0])
        for now[0] in (0.0, 1.0, 59.0, 61.0, 62.0, 130.0, 200.0, 300.0):
            if now[0] < 100:
                repeated.add(f"h{now[0]:g}", "no room")
            repeated.flush()
        self.assertEqual(lines[1:], ["h0: no room", "3 times more in 61 seconds: no room", "1 times more in 69 seconds: no room"])

    def test_its_last_lines_are_written(self) -> None:
        there, back = os.pipe()
        self.addCleanup(os.close, there)
        log = Log(back)
        log("ends")
        log.close()
        os.close(back)
        self.assertEqual(os.read(there, 100), b"ends\n")
