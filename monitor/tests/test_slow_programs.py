"""Programs that a file system holds up while they are loaded, by a lease on each of their files. They hold up no other plugin."""
import fcntl
import os
import pathlib
import shutil
import signal
import tempfile
import unittest

from .one_runner import OneRunner, shell
from .waiting import LONG

COUNT = 5


class SlowPrograms(unittest.TestCase):
    def setUp(self) -> None:
        holder = tempfile.TemporaryDirectory()
        self.addCleanup(holder.cleanup)
        before = signal.signal(signal.SIGIO, signal.SIG_IGN)  # the kernel tells the holder of a lease by it
        self.addCleanup(signal.signal, signal.SIGIO, before)
        self.programs = [pathlib.Path(holder.name, f"program-{number}") for number in range(COUNT)]
        self.files = []
        for program in self.programs:
            shutil.copy("/bin/true", program)
            file = os.open(program, os.O_RDONLY)
            fcntl.fcntl(file, fcntl.F_SETLEASE, fcntl.F_WRLCK)
            self.files.append(file)
        self.addCleanup(self.end_leases)

    def end_leases(self) -> None:
        while self.files:
            os.close(self.files.pop())

    def test_others_run_meanwhile(self) -> None:
        """They are ended at their limits, and the next ones are started."""
        with OneRunner() as runner:
            for first in (0, 100):
                slow = [{"job": first + number, "words": [str(program)], "limit": 3.0} for number, program in enumerate(self.programs)]
                runner.send(*slow, *(shell(first + number, "echo fine") for number in range(50, 60)))
                fast = runner.results(10)
                self.assertEqual([(each["job"], each["output"]) for each in fast], [(first + number, "fine\n") for number in range(50, 60)])
                late = runner.results(COUNT)
                self.assertEqual([(each["job"], each["end"], each["output"]) for each in late], [(first + number, "limit", "") for number in range(COUNT)])

    def test_they_run_after_it(self) -> None:
        with OneRunner() as runner:
            runner.send(*({"job": number, "words": [str(program)], "limit": LONG} for number, program in enumerate(self.programs)))
            runner.send(shell(50, "echo fine"))
            self.assertEqual(len(runner.results(1)), 1)
            self.end_leases()
            self.assertEqual([(each["job"], each["end"], each["code"]) for each in runner.results(COUNT)], [(number, "exited", 0) for number in range(COUNT)])
            threads = pathlib.Path(f"/proc/{runner.process.pid}/task")
            count = len(list(threads.iterdir()))
            self.assertGreater(count, COUNT + 1)  # its first one, and those that waited
            runner.results_of(*(shell(number, "echo fine") for number in range(100)))
            self.assertLess(len(list(threads.iterdir())), count + 50)  # they start the next ones

    def test_a_runner_that_ends_meanwhile(self) -> None:
        """It takes them with it."""
        runner = OneRunner()
        with runner:
            runner.send(*({"job": number, "words": [str(program)], "limit": LONG} for number, program in enumerate(self.programs)))
            runner.send(shell(50, "echo fine"))
            self.assertEqual(len(runner.results(1)), 1)
            runner.process.kill()
            self.assertEqual(runner.results(1), [])
        self.end_leases()
        for program in self.programs:
            with program.open("ab"):  # it isn't loaded
                pass
