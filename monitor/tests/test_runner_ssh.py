"""A runner on another machine, over SSH: it runs the commands that that machine allows, and a cut connection leaves no plugin running."""
import os
import random
import time
import unittest

from .one_runner import OneRunner
from .ssh_server import SshServer, missing_program
from .test_runner import living
from .waiting import becomes_true

# How often the connection is cut. Manually: CUTS=20 python3 -m unittest tests.test_runner_ssh
CUTS = int(os.environ.get("CUTS", "4"))
RATE, SECONDS = 100, 0.5


@unittest.skipIf(missing_program() is not None, f"{missing_program()} isn't here")
class OverSsh(unittest.TestCase):
    def begin(self, patterns: str) -> SshServer:
        server = SshServer()
        self.addCleanup(server.close)
        allowed = server.folder / "allowed"
        allowed.write_text(patterns)
        server.allow(f"{os.environ['NAGSCHED_RUNNER']} --only {allowed}")
        return server

    def runner(self, server: SshServer) -> OneRunner:
        return OneRunner(*server.options(), "127.0.0.1", "anything that the key may not run", program="ssh")

    def test_what_the_machine_allows(self) -> None:
        server = self.begin("echo fine\n")
        with self.runner(server) as runner:
            results = runner.results_of({"job": 1, "words": ["echo", "fine"], "limit": 9}, {"job": 2, "words": ["id"], "limit": 9})
            self.assertEqual(runner.end(), 0)
        self.assertEqual([(it["end"], it["output"]) for it in results],
                         [("exited", "fine\n"), ("failed", "this machine's --only file doesn't allow this command line")])

    def test_a_connection_that_is_cut(self) -> None:
        """Each job has at most one result, and a job without one is no longer run."""
        chance = random.Random(9)
        seconds = f"{100_000 + os.getpid()}.{time.monotonic_ns()}"
        server = self.begin(f"true\n/bin/sh -c 'sleep {seconds}; true'\n")
        for _ in range(CUTS):
            with self.runner(server) as runner:
                self.assertEqual(runner.results_of({"job": 0, "words": ["true"], "limit": 60})[0]["end"], "exited")
                runner.send({"job": 1, "words": ["/bin/sh", "-c", f"sleep {seconds}; true"], "limit": 600})
                self.assertTrue(becomes_true(lambda: bool(living(seconds))))
                count = int(RATE * SECONDS)
                for number in range(2, 2 + count):
                    runner.send({"job": number, "words": ["true"], "limit": 60})
                    time.sleep(1 / RATE)
                results = runner.results(count, chance.random() * 0.2)
                runner.process.kill()
            self.assertEqual(len({it["job"] for it in results}), len(results))
            self.assertTrue(becomes_true(lambda: not living(seconds)))
