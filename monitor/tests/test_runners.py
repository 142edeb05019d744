"""The runner processes of a monitor: each job is finished or lost, for any fate of its runner."""
import os
import pathlib
import signal
import subprocess
import tempfile
import threading
import time
import unittest
from typing import Any, List
from unittest import mock

from nagsched_monitor.model.jobs import Job, JobFinished, JobLost, StuckJobEnded
from nagsched_monitor.run.runners import RunnerPools
from nagsched_monitor.system.poller import FilePoller
from nagsched_monitor.system.programs import runner_command

from .one_runner import processes_of
from .waiting import LONG, becomes_true


class ManyRunners(unittest.TestCase):
    def setUp(self) -> None:
        self.lines: List[str] = []
        self.poller = FilePoller()
        self.passed = 0.0
        self.runners = RunnerPools(2, self.lines.append, self.poller, lambda: time.monotonic() + self.passed)
        self.addCleanup(self.runners.close)

    def wait(self, count: int) -> List[Any]:
        events: List[Any] = []

        def came() -> bool:
            self.runners.flush()
            self.poller.wait(100)
            events.extend(self.runners.events())
            return len(events) >= count

        becomes_true(came)
        return events

    def process_ids(self) -> List[int]:
        self.runners.flush()
        return [process.pid for process in processes_of(self.runners)]

    def test_jobs_come_back(self) -> None:
        for run in range(20):
            self.runners.start(Job("web", run, ["/bin/sh", "-c", f"exit {run % 4}"], 10))
        events = self.wait(20)
        self.assertEqual(sorted((it.job.run, it.code) for it in events if isinstance(it, JobFinished)), [(run, run % 4) for run in range(20)])

    def test_a_runner_that_is_killed(self) -> None:
        for run in range(4):
            self.runners.start(Job("web", run, ["sleep", "60"], 100))
            self.runners.flush()
        self.passed = 10
        os.kill(self.process_ids()[0], signal.SIGKILL)
        events = self.wait(2)
        self.assertEqual([type(event) for event in events], [JobLost, JobLost])
        self.assertEqual(len(self.process_ids()), 2)
        self.assertIn("2 checks with it", self.lines[0])
        self.runners.start(Job("db", 9, ["true"], 10))
        self.assertEqual([event.job.name for event in self.wait(1)], ["db"])

    def test_processes_that_plugins_leave(self) -> None:
        """They run on, and are counted when their plugin has ended. They end with their runner, if that is killed."""
        self.runners.start(Job("web", 1, ["/bin/sh", "-c", "sleep 600 & sleep 600 & exec 1>&- 2>&-; exit 2"], 100))
        self.runners.start(Job("web", 2, ["/bin/sh", "-c", "sleep 600; true"], 100))
        self.assertEqual([event.job.run for event in self.wait(1)], [1])
        self.assertTrue(becomes_true(lambda: self.runners.process_counts()["local"]["left"] == 2))
        self.passed = 10
        for process in self.process_ids():
            os.kill(process, signal.SIGKILL)
        self.assertEqual([event.job.run for event in self.wait(1)], [2])
        self.assertTrue(becomes_true(lambda: self.runners.process_counts()["local"]["left"] == 0))

    def test_one_that_stands_still(self) -> None:
        """It is killed with the job that is late; its other jobs are lost, and others run its next jobs."""
        stopped = self.process_ids()
        for process in stopped:
            os.kill(process, signal.SIGSTOP)
        jobs = [Job("web", run, ["true"], 1) for run in range(4)]
        for job in jobs:
            self.runners.start(job)
            self.runners.flush()
        self.assertTrue(all(id(job) in self.runners.job_ids() for job in jobs))
        self.runners.kill(jobs[0])
        self.assertEqual([type(event) for event in self.wait(2)], [JobLost, JobLost])
        self.assertEqual([id(job) in self.runners.job_ids() for job in jobs], [False, True, False, True])
        self.runners.kill(jobs[0])
        self.runners.kill(jobs[1])
        self.assertFalse(set(stopped) & set(self.process_ids()))
        self.runners.start(Job("db", 9, ["true"], 10))
        self.assertIn("db", [event.job.name for event in self.wait(3)])

    def test_one_that_reads_no_jobs(self) -> None:
        """Jobs that don't fit into its pipe wait, and don't hold up the monitor."""
        for process in self.process_ids():
            os.kill(process, signal.SIGSTOP)
            self.addCleanup(os.kill, process, signal.SIGCONT)
        for run in range(40):
            self.runners.start(Job("web", run, ["/bin/sh", "-c", ": " + 8_000 * "x"], LONG))
        handing = threading.Thread(target=self.runners.flush, daemon=True)
        handing.start()
        handing.join(10)
        self.assertFalse(handing.is_alive())
        for process in self.process_ids():
            os.kill(process, signal.SIGCONT)
        self.assertEqual(sorted(event.job.run for event in self.wait(40)), list(range(40)))

    def test_no_room_for_another_one(self) -> None:
        """One line says so. Jobs go to the remaining runners. If there is no runner, they wait until there is room."""
        first, second = self.process_ids()
        self.passed = 10
        with mock.patch.object(subprocess, "Popen", side_effect=BlockingIOError(11, "no room")):
            for process, left in ((first, [second]), (second, [])):
                os.kill(process, signal.SIGKILL)
                self.assertTrue(becomes_true(lambda: self.wait(0) == [] and self.process_ids() == left))
            job = Job("web", 1, ["true"], 10)
            self.runners.start(job)
            self.assertEqual((self.wait(0), id(job) in self.runners.job_ids()), ([], True))
        self.assertEqual([line for line in self.lines if "no room" in line],
                         [f"a runner can't be started: {runner_command()[0]}: no room: raise the limit of processes, or end some; it is tried again"])
        self.passed = 20
        self.assertEqual([type(event) for event in self.wait(1)], [JobFinished])
        self.assertEqual(len(self.process_ids()), 2)


class Pauses(unittest.TestCase):
    def test_one_that_ends_at_once(self) -> None:
        """It is started again after a pause that grows: no storm of processes and of lines."""
        lines: List[str] = []
        now, poller = [0.0], FilePoller()
        with mock.patch.dict(os.environ, {"NAGSCHED_RUNNER": "/bin/false"}):
            made = RunnerPools(1, lines.append, poller, lambda: now[0])
        self.addCleanup(made.close)
        for _ in range(600):
            now[0] += 0.1
            for process in processes_of(made):
                process.wait()
            poller.wait(0)
            made.flush()
        self.assertTrue(3 <= len(lines) <= 7, lines)

    def test_two_that_end_at_once(self) -> None:
        """Each line says when another is started."""
        lines: List[str] = []
        poller = FilePoller()
        made = RunnerPools(2, lines.append, poller, lambda: 5.0)
        self.addCleanup(made.close)
        for process in processes_of(made):
            process.kill()
        self.assertTrue(becomes_true(lambda: poller.wait(100) and not processes_of(made)))
        self.assertEqual(lines, ["a runner ended with status -9, and 0 checks with it; another is started in 1 seconds"] * 2)


class StandIn(unittest.TestCase):
    """A runner of the test's own, which writes these lines for the first job."""

    def events(self, *answers: str, count: int = 1) -> List[Any]:
        folder = tempfile.TemporaryDirectory()
        self.addCleanup(folder.cleanup)
        (pathlib.Path(folder.name) / "answers").write_bytes("".join(f"{answer}\n" for answer in answers).encode("latin-1"))
        runner = pathlib.Path(folder.name) / "runner"
        runner.write_text(f"#!/bin/sh\nread line\ncat {folder.name}/answers\nread line\nread line\nread line\n")
        runner.chmod(0o700)
        self.lines: List[str] = []
        poller = FilePoller()
        with mock.patch.dict(os.environ, {"NAGSCHED_RUNNER": str(runner)}):
            made = RunnerPools(1, self.lines.append, poller)
        self.addCleanup(made.close)
        self.jobs = [Job("web", run, ["true"], 10) for run in (1, 2)]
        for job in self.jobs:
            made.start(job)
        made.flush()
        events: List[Any] = []

        def came() -> bool:
            poller.wait(100)
            events.extend(made.events())
            return len(events) >= count

        self.assertTrue(becomes_true(came))
        return events

    def test_half_a_character(self) -> None:
        """JSON may have it, but no database accepts it: it is replaced in a worker's answers."""
        events = self.events('{"job":1,"code":0,"end":"exited","output":"half \\ud800"}', '{"job":2,"lost":"\\udfff gone"}', count=2)
        self.assertEqual(events, [JobFinished(self.jobs[0], "exited", 0, "half ?"), JobLost(self.jobs[1], "? gone", True)])

    def test_both_streams(self) -> None:
        (event,) = self.events('{"job":1,"code":1,"end":"exited","output":"one\\ntwo","stderr":"said"}')
        self.assertEqual(event, JobFinished(self.jobs[0], "exited", 1, "one\ntwo", "said"))

    def test_a_plugin_that_cant_be_killed(self) -> None:
        events = self.events('{"job":1,"code":0,"end":"limit","output":"","stuck":true}', '{"job":1,"gone":true}', '{"job":1,"gone":true}', count=2)
        self.assertEqual(events, [JobFinished(self.jobs[0], "limit", 0, "", "", True), StuckJobEnded(self.jobs[0])])

    def test_bad_lines(self) -> None:
        """None ends the monitor: each is logged, and the check that it is about is made again."""
        for line, is_read in (("hello", False), ("[1]", False), ("[" * 100_000, False), ("{}", False),
                              ('{"job":"1","end":"exited","code":0,"output":""}', False),
                              ("\xff", False), ('{"job":true,"end":"exited","code":0,"output":""}', False), ('{"error":"no \\u001b number"}', False),
                              ('{"job":1,"end":"exited","output":""}', True), ('{"job":1,"end":"exited","code":"0","output":""}', True),
                              ('{"job":1,"end":"exited","code":-1,"output":""}', True), ('{"job":1,"end":"exited","code":true,"output":""}', True),
                              ('{"job":1,"end":"fine","code":0,"output":""}', True), ('{"job":1,"end":"exited","code":0,"output":7}', True)):
            with self.subTest(line[:60]):
                events = self.events(line, '{"job":2,"end":"exited","code":0,"output":""}', count=2 if is_read else 1)
                self.assertEqual([type(event) for event in events], [JobLost, JobFinished] if is_read else [JobFinished])
                self.assertEqual(len(self.lines), 1)
                self.assertTrue(self.lines[0].isprintable())
