"""The lines of calls."""
import unittest
from typing import List

from nagsched_monitor.model.protocol import Abandon, Call, Enable, Report, Reschedule, Status, Take, call_line, read_call


class Calls(unittest.TestCase):
    def test_a_line_has_the_call(self) -> None:
        name = 'wéb;"disk\\c:\x01"'
        calls: List[Call] = [Take(5), Report(name, 7, 2), Abandon(name, 7, 9), Reschedule(name, 9, True), Enable(name, False), Status(name)]
        for call in calls:
            self.assertEqual(read_call(call_line(call)), call)
        self.assertEqual(call_line(Report('é"', 1, 0)), '["report","é\\"",1,0]')
        self.assertEqual(call_line(Take(5)), '["take",5]')
