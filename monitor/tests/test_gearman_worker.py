"""A worker of a Gearman server: its requests to the server, the plugins that it runs, and its answers. No server is needed."""
import os
import signal
import time
import unittest
from typing import Any, Dict, List
from unittest import mock

from nagsched_monitor.run import gearman_worker

from nagsched_monitor.model.jobs import JobFinished
from nagsched_monitor.run.gearman import ECHO_EVERY, RETRY, Code
from nagsched_monitor.run.gearman_queue import read_result
from nagsched_monitor.run.gearman_signing import RESULT
from nagsched_monitor.run.gearman_worker import GRACE
from nagsched_monitor.run.runners import RunnerPool

from .one_worker import WorkerTest


class Working(WorkerTest):
    """A worker that needs no signatures."""

    def test_results(self) -> None:
        self.start_worker()
        for line in ("echo fine; echo why >&2", "echo bad; exit 2", "kill -9 $$"):
            self.job(["/bin/sh", "-c", line])
        self.job(["/no/such/plugin"])
        results = self.results(4)
        self.assertEqual([(it["job"], it["end"], it["code"], it["output"].partition(":")[0], it["stderr"]) for it in results],
                         [("mark-1", "exited", 0, "fine\n", "why\n"), ("mark-2", "exited", 2, "bad\n", ""), ("mark-3", "signal", 9, "", ""),
                          ("mark-4", "failed", 0, "/no/such/plugin", "")])
        for result in results:
            self.assertEqual({**read_result(self.signer, result["job"], self.signer.sign(RESULT, result)), "job": result["job"]}, result)

    def test_a_limit(self) -> None:
        self.start_worker()
        self.job(["sleep", "60"], limit=0.3)
        self.assertEqual([it["end"] for it in self.results(1)], ["limit"])

    def test_as_many_at_once_as_it_has_slots(self) -> None:
        runner = mock.Mock(events=mock.Mock(return_value=[]), processes=[])
        worker = self.start_worker(3, runner=runner)
        for _ in range(8):
            self.job(["true"])
        self.turns(10)
        self.assertEqual((runner.start.call_count, len(self.jobs), len(worker.running)), (3, 5, 3))
        runner.events.return_value = [JobFinished(call.args[0], "exited", 0, "fine") for call in runner.start.call_args_list]
        worker.turn()
        runner.events.return_value = []
        self.turns(10)
        self.assertEqual((len(self.answers), runner.start.call_count, len(worker.running)), (3, 6, 3))

    def test_what_it_asks_the_server_for(self) -> None:
        """It announces its functions, sleeps when there is nothing, and wakes when the server wakes it."""
        self.start_worker(2)
        self.turns(3)
        self.assertEqual(self.there.codes, [Code.CAN_DO, Code.CAN_DO, Code.GRAB_JOB, Code.ECHO_REQ, Code.PRE_SLEEP])
        self.job(["true"])
        self.assertEqual(len(self.results(1)), 1)
        self.assertTrue(self.turns_until(lambda: self.there.codes[-1] is Code.PRE_SLEEP))

    def test_a_server_that_is_lost(self) -> None:
        """It is tried again, and logged once."""
        worker = self.start_worker(1)
        self.there.faults += [ConnectionError("still gone"), ConnectionError("gone")]
        for _ in range(3):
            self.turns(2)
            self.passed += RETRY
        self.turns(2)
        self.assertEqual(self.lines, ["the server isn't reached: gone", "the server is reached again"])
        self.job(["/bin/sh", "-c", "sleep 0.3; echo old"])
        self.assertTrue(self.turns_until(lambda: bool(worker.running)))
        self.there.connections[0].close()
        self.turns(2)
        self.passed += RETRY
        self.job(["echo", "fine"])
        self.assertEqual([it["output"] for it in self.results(1)], ["fine\n"])
        self.assertTrue(self.turns_until(lambda: not worker.running))
        self.turns(2)
        self.assertEqual(len(self.answers), 1)  # the server gave the first one to another worker

    def test_a_server_that_stands_still(self) -> None:
        self.start_worker(1)
        self.turns(2)
        self.there.is_echoing = False
        for _ in range(2):
            self.passed += ECHO_EVERY
            self.turns(2)
        self.assertEqual(self.lines, ["the server isn't reached: it gives no answer"])

    def test_it_stops_when_its_plugins_have_ended(self) -> None:
        worker = self.start_worker(2)
        self.job(["/bin/sh", "-c", "sleep 0.5; echo fine"])
        self.assertTrue(self.turns_until(lambda: bool(worker.running)))
        worker.is_stopping = True
        self.job(["true"])
        gearman_worker.run_worker(worker, self.server, self.poller)
        self.assertEqual(([it["output"] for it in self.results(1)], len(self.jobs)), (["fine\n"], 1))

    def test_it_stops_in_time(self) -> None:
        worker = self.start_worker(1)
        self.job(["sleep", "60"], limit=60)
        self.assertTrue(self.turns_until(lambda: bool(worker.running)))
        worker.is_stopping = True
        with mock.patch.object(gearman_worker, "STOPPING", 0.1):
            gearman_worker.run_worker(worker, self.server, self.poller)
        self.assertEqual((self.answers, len(worker.running)), ([], 1))

    def test_what_is_no_command(self) -> None:
        several: List[Dict[str, Any]] = [{"words": []}, {"words": "true"}, {"words": [1]}, {"words": ["a\0b"]}, {"words": None}, {"limit": 0}, {"limit": -1},
                                         {"limit": True},
                                         {"limit": "9"}, {"limit": 1e9}, {"limit": 10**400}, {"limit": float("nan")}, {"limit": float("inf")}, {"limit": None}]
        self.start_worker(runner=mock.Mock(start=mock.Mock(side_effect=AssertionError), events=mock.Mock(return_value=[]), processes=[]))
        for members in several:
            self.job(["true"], **members)
        told = {it["lost"] for it in self.results(len(several))}
        self.assertEqual(told, {f"its worker refused it: {why}" for why in ("it has no command", "it has no limit", "its limit is no number")})

    def test_what_is_no_job(self) -> None:
        """Each is answered, and the worker continues."""
        self.jobs += [b"", b"[]", b"1", b"\xff", b'{"job":1}', b'{"job":[]}', b"[" * 100_000, b'{"a":' * 100_000, b'{"limit":1' + 400 * b"0" + b"}",
                      b"x" * 2_000_000, b'"' * 3]
        count = len(self.jobs)
        self.start_worker()
        self.assertTrue(self.turns_until(lambda: len(self.answers) == count))
        self.job(["echo", "fine"])
        self.results(count + 1)
        self.assertIn(b"fine", self.answers[-1])

    def test_a_fault_of_its_own(self) -> None:
        """A job that can't be made ends nothing."""
        runner = mock.Mock(start=mock.Mock(side_effect=MemoryError("none left")), events=mock.Mock(return_value=[]), processes=[])
        worker = self.start_worker(1, runner=runner)
        self.job(["true"])
        self.assertEqual(self.results(1), [{"lost": "its worker refused it: MemoryError('none left')", "job": "mark-1"}])
        self.assertEqual((worker.running, self.lines), ({}, ["1 jobs were refused; the last one: MemoryError('none left')"]))


class Runner(WorkerTest):
    """The runner of a worker."""

    def process(self) -> int:
        (process,) = self.runner.processes
        return int(process.process.pid)

    def test_one_that_is_killed(self) -> None:
        worker = self.start_worker()
        self.job(["sleep", "60"], limit=60)
        self.assertTrue(self.turns_until(lambda: bool(worker.running)))
        self.passed = 10
        os.kill(self.process(), signal.SIGKILL)
        self.assertEqual(self.results(1), [{"lost": "its runner ended", "job": "mark-1"}])
        self.job(["true"])
        self.assertEqual(self.results(2)[1]["end"], "exited")

    def test_one_that_is_deaf(self) -> None:
        """It is killed when a result is late."""
        worker = self.start_worker()
        self.job(["true"])
        self.results(1)
        stopped = self.process()
        os.kill(stopped, signal.SIGSTOP)
        self.job(["true"])
        self.assertTrue(self.turns_until(lambda: bool(worker.running)))
        self.passed = 10 + GRACE
        self.assertEqual(self.results(2)[1], {"lost": "its runner ended", "job": "mark-2"})
        self.assertNotEqual(self.process(), stopped)

    def test_one_that_cannot_be_started(self) -> None:
        self.start_worker(words="/no/such/runner")
        self.job(["true"], limit=1)
        self.turns_until(lambda: not self.jobs)
        self.passed = 1 + GRACE
        self.assertEqual(self.results(1), [{"lost": "its runner can't be started", "job": "mark-1"}])

    def test_a_plugin_that_cannot_be_killed(self) -> None:
        """No second one is started next to it until it has ended."""
        script = """read l; echo '{"job":1,"code":9,"end":"limit","output":"","stuck":true}'; read l; echo '{"job":2,"code":0,"end":"exited","output":""}'
                    echo '{"job":1,"gone":true}'; read l; echo '{"job":3,"code":0,"end":"exited","output":"fine"}'; read l"""
        runner = RunnerPool("worker", ["/bin/sh", "-c", script], 1, None, 0.0, self.lines.append, self.poller, time.monotonic)
        self.addCleanup(runner.close)
        self.start_worker(1, runner=runner)
        said = []
        for count, word in enumerate(("hangs", "hangs", "other", "hangs"), 1):
            self.job([word])
            said.append(self.results(count)[-1]["output"])
            self.turns_until(lambda: count != 3 or not any(process.stuck for process in runner.processes))
        self.assertEqual(said, ["", "the plugin before it can't be killed", "", "fine"])


class Starting(unittest.TestCase):
    """The requirements of a worker before it begins."""

    def test_faults(self) -> None:
        for words, why in (("--unsigned --only /no/such/file", "can't be started: Command"), ("--slots 0 --unsigned", "--slots"), ("", "--key"),
                           ("--unsigned --key x", "one of the two"),
                           ("--key /no/such/key", "/no/such/key")):
            with self.assertRaises(SystemExit) as ended:
                gearman_worker.main([*words.split(), "127.0.0.1:4730", "dmz"])
            self.assertIn(why, str(ended.exception))
