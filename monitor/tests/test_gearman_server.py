"""Queues over a real server, gearmand, if it is here."""
import os
import sys
import unittest

from .gearman_trial import GearmanTrial, SubmittedJobs, missing_program, runner_command
from .running import ProcessTest
from .waiting import LONG, becomes_true


@unittest.skipIf(missing_program() is not None, f"{missing_program()} isn't here")
class OverAServer(unittest.TestCase):
    def setUp(self) -> None:
        self.trial = GearmanTrial()
        self.addCleanup(self.trial.close)
        self.trial.begin_server()

    def jobs(self, wait: float) -> SubmittedJobs:
        jobs = SubmittedJobs(self.trial, wait)
        self.addCleanup(jobs.close)
        return jobs

    def test_servers_and_workers_that_are_killed(self) -> None:
        """Each of the jobs has one answer, the plugin's."""
        for _ in range(2):
            self.trial.begin_worker("dmz", slots=8)
        jobs = self.jobs(60)
        for kill in range(4):
            jobs.submit_steadily(100, 1, "dmz", ["sleep", "0.05"])
            if kill == 1:
                self.trial.kill_server()
                self.trial.begin_server()
            else:
                self.trial.kill_worker(0)
                self.trial.begin_worker("dmz", slots=8)
        self.assertTrue(jobs.wait(LONG), (jobs.sent, jobs.ends()))
        self.assertEqual(jobs.ends(), {"exited": jobs.sent})

    def test_a_queue_without_a_worker(self) -> None:
        """Its jobs hold up no others, are abandoned, and are made when a worker comes."""
        self.trial.begin_worker("checks")
        jobs = self.jobs(10)
        self.assertTrue(jobs.wait_until_one_is_made("checks", LONG))
        before = jobs.sent
        jobs.submit(20, "nobody", ["true"])
        jobs.submit(20, "checks", ["true"])
        self.assertTrue(jobs.wait(LONG), jobs.ends())
        self.assertEqual([answers[0].get("end", "lost") for number, answers in sorted(jobs.answers.items()) if number > before],
                         ["lost"] * 20 + ["exited"] * 20)
        self.trial.begin_worker("nobody")
        self.assertTrue(jobs.wait_until_one_is_made("nobody", LONG))
        before = jobs.sent
        jobs.submit(5, "nobody", ["true"])
        self.assertTrue(jobs.wait(LONG), jobs.ends())
        self.assertEqual([answers[0]["code"] for number, answers in sorted(jobs.answers.items()) if number > before], [0] * 5)

    def test_a_server_that_stands_still(self) -> None:
        """Waiting jobs are abandoned within their limit, and all continues when the server does."""
        self.trial.begin_worker("dmz")
        jobs = self.jobs(10)
        self.assertTrue(jobs.wait_until_one_is_made("dmz", LONG))
        before = jobs.sent
        self.trial.stop_server()
        jobs.submit(10, "dmz", ["true"])
        is_answered = jobs.wait(LONG)
        self.trial.continue_server()
        self.assertTrue(is_answered, jobs.ends())
        self.assertEqual({answers[0].get("end", "lost") for number, answers in jobs.answers.items() if number > before}, {"lost"})
        self.assertTrue(jobs.wait_until_one_is_made("dmz", LONG))

    def test_a_job_that_is_refused(self) -> None:
        """A job that no worker takes is lost, and its worker continues."""
        jobs = self.jobs(60)
        worker = self.trial.begin_worker("other")
        jobs.submit(1, "other", [])
        self.assertTrue(jobs.wait(LONG))
        self.assertEqual(jobs.ends(), {"lost": 1})
        self.assertIsNone(worker.poll())


@unittest.skipIf(missing_program() is not None, f"{missing_program()} isn't here")
class ASite(ProcessTest):
    """A monitor, one of whose objects is checked by a worker."""

    def setUp(self) -> None:
        super().setUp()
        self.trial = GearmanTrial()
        self.addCleanup(self.trial.close)
        self.trial.begin_server()

    def words_of(self, name: str) -> str:
        """The state and the last output of an object."""
        state, _, rest = self.run_command("status", name).stdout.strip().partition(" ")
        return f"{state} {rest.partition(': ')[2]}"

    def await_words(self, name: str, wanted: str) -> None:
        becomes_true(lambda: self.words_of(name) == wanted)
        self.assertEqual(self.words_of(name), wanted)

    def test_a_worker_that_comes_and_goes(self) -> None:
        """Its checks are UNKNOWN without it, with an output that names the queue; the other object is checked all the time."""
        self.write_site(self.objects(1), [{"host": "h00", "description": "far", "check_interval": 1, "max_check_attempts": 1}])
        line = f"{sys.executable} -c \"import os; print('queue' if os.getppid() != {os.getpid()} else 'none')\""
        self.write("commands.json", {"h00": {"line": "echo here"}, "h00;far": {"line": line}})
        self.write("runners.json", {"runners": {"far": runner_command(self.trial, "far", "--wait", "2")}, "objects": {"far": ["h00;far"]}, "wait": 2})
        running = self.start_monitor()
        self.await_words("h00;far", "UNKNOWN no worker took it from the queue far 3 times")
        self.assertEqual(self.words_of("h00"), "UP here")
        self.trial.begin_worker("far", slots=2)
        self.await_words("h00;far", "OK queue")
        self.trial.kill_worker(0)
        self.await_words("h00;far", "UNKNOWN no worker took it from the queue far 3 times")
        self.write("commands.json", {"h00": {"line": "echo here"}, "h00;far": {"line": "echo here too"}})
        (self.folder / "runners.json").unlink()
        self.run_command("reload")
        self.await_words("h00;far", "OK here too")
        log = self.stop_monitor(running)
        self.assertIn("h00;far: run ", log)
        self.assertIn(" is abandoned: no worker took it from the queue far", log)
