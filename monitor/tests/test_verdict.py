"""The result of a plugin's end, and the stored part of its output."""
import unittest
from typing import Tuple

from nagsched_monitor.core.plugin_runs import verdict
from nagsched_monitor.model.jobs import Job, JobFinished

WARNING, CRITICAL, UNKNOWN = 1, 2, 3


def judged(end: str, code: int, output: str = "", stderr: str = "", is_host: bool = False) -> Tuple[int, str]:
    return verdict(JobFinished(Job("web", 1, ["x"], 30), end, code, output, stderr), is_host, UNKNOWN)


class Ends(unittest.TestCase):
    def test_codes(self) -> None:
        for is_host in (False, True):
            for code in range(4):
                self.assertEqual(judged("exited", code, "said", is_host=is_host), (code, "said"))
            self.assertEqual(judged("exited", 4, "said", is_host=is_host), (CRITICAL, "ended by exit code 4: said"))
            self.assertEqual(judged("exited", 127, is_host=is_host), (CRITICAL, "ended by exit code 127"))
            self.assertEqual(judged("signal", 9, is_host=is_host), (CRITICAL, "ended by signal 9"))
            self.assertEqual(judged("failed", 0, "no such file", is_host=is_host), (CRITICAL, "not started: no such file"))

    def test_a_limit(self) -> None:
        """A service is what the site says; a host is always DOWN."""
        self.assertEqual(judged("limit", 0, "so far"), (UNKNOWN, "timed out after 30 seconds: so far"))
        self.assertEqual(judged("limit", 0, is_host=True), (CRITICAL, "timed out after 30 seconds"))

    def test_words(self) -> None:
        """All lines are stored, and standard error; 4 KiB of each, cut between two characters, without control characters."""
        self.assertEqual(judged("exited", 0, "one\r\ntwo|a=1\n", "said\n")[1], "one\ntwo|a=1\nsaid")
        self.assertEqual(judged("exited", 0, "", "said")[1], "(No output on stdout) stderr: said")
        self.assertEqual(judged("exited", 0, "a\x1b[2Kb\x07\x85c\u202ed\te")[1], "a [2Kb  c d e")
        self.assertEqual(judged("exited", 0, "ä" * 5_000, "b" * 5_000)[1], "ä" * 2_048 + "\n" + "b" * 4_096)
