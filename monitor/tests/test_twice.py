"""No two plugins of one object run at once, whatever ends: a runner, its guard, or the monitor. Each plugin has a lock of its object while it runs."""
import fcntl
import os
import pathlib
import random
import signal
import sys
import tempfile
import time
import unittest
from typing import Any, Callable, Dict, List

from nagsched_monitor.model.jobs import Job, JobLost
from nagsched_monitor.run.runners import RunnerPools
from nagsched_monitor.system.poller import FilePoller
from nagsched_monitor.system.processes import living_processes

from .one_runner import OneRunner, shell
from .running import ProcessTest
from .waiting import LONG, becomes_true

# Its child has the lock too, and much memory, so that the kernel needs a while to end it.
PLUGIN = "exec 9>>{0}/{1}; flock -n 9 || echo {1} >> {0}/twice; echo {1} >> {0}/begun; dd if=/dev/zero bs=32M 2>&- | sleep 100; true"
GUARD = "nagsched-guard"
# A plugin with a lock and much memory, whose first thread ends before another one.
THREADS = """import ctypes, fcntl, sys, threading, time
file, memory = open(sys.argv[1], "ab", 0), b"x" * (128 << 20)
fcntl.flock(file, fcntl.LOCK_EX | fcntl.LOCK_NB)
def work():
    time.sleep(0.05)
    file.write(b"x")
    time.sleep(100)
threading.Thread(target=work).start()
ctypes.CDLL(None).pthread_exit(None)
"""


def children_of(process: int, name: str) -> List[int]:
    """The children of a process that have this name."""
    found = []
    for each in filter(str.isdigit, os.listdir("/proc")):
        try:
            before, _, after = pathlib.Path("/proc", each, "stat").read_text().rpartition(") ")
        except OSError:
            continue  # it has just ended
        if before.partition(" (")[2] == name and int(after.split()[1]) == process:
            found.append(int(each))
    return found


class LockedPlugins:
    """Plugins that write down their beginnings, and each that found another of its object."""

    def __init__(self) -> None:
        self._folder = tempfile.TemporaryDirectory()
        self.close = self._folder.cleanup

    def line(self, name: str) -> str:
        return PLUGIN.format(self._folder.name, name)

    def lines_of(self, file: str) -> List[str]:
        path = pathlib.Path(self._folder.name, file)
        return path.read_text().splitlines() if path.exists() else []

    def await_count(self, count: int) -> bool:
        """Waits until this many have begun."""
        return becomes_true(lambda: len(self.lines_of("begun")) >= count)


class Runner(unittest.TestCase):
    def test_its_output_ends_after_its_plugins(self) -> None:
        """The next runner's plugin finds no lock, in a hundred ends of a runner."""
        plugins = LockedPlugins()
        self.addCleanup(plugins.close)
        for count in range(1, 101):
            with OneRunner() as runner:
                runner.send(shell(1, plugins.line("web")))
                self.assertTrue(plugins.await_count(count))
                runner.process.kill()
                self.assertEqual(runner.results(1), [])
        self.assertEqual(plugins.lines_of("twice"), [])


    def test_a_plugin_whose_first_thread_has_ended(self) -> None:
        """Its other threads are awaited too."""
        with tempfile.TemporaryDirectory() as folder:
            path = pathlib.Path(folder, "lock")
            for count in range(1, 11):
                with OneRunner() as runner:
                    runner.send({"job": 1, "words": [sys.executable, "-c", THREADS, str(path)], "limit": LONG})
                    self.assertTrue(becomes_true(lambda: path.exists() and len(path.read_bytes()) == count))
                    living = [process for process, _, session in living_processes() if session == runner.process.pid]
                    self.assertEqual(len(living), 3)  # the runner, its guard and the plugin
                    runner.process.kill()
                    self.assertEqual(runner.results(1), [])
                with path.open() as file:
                    fcntl.flock(file, fcntl.LOCK_EX | fcntl.LOCK_NB)


class Pools(unittest.TestCase):
    """Each job that is lost is started again at once."""

    def setUp(self) -> None:
        self.plugins = LockedPlugins()
        self.addCleanup(self.plugins.close)
        self.passed, self.count = 0.0, 0
        self.poller = FilePoller()
        self.pools = RunnerPools(2, lambda line: None, self.poller, lambda: time.monotonic() + self.passed)
        self.addCleanup(self.pools.close)
        self.ways: Dict[str, Callable[[int], None]] = {"killed": self.kill, "with its guard": self.kill_both, "stands still": self.stop}

    def start(self, name: str) -> None:
        self.count += 1
        self.pools.start(Job(name, self.count, ["/bin/sh", "-c", self.plugins.line(name)], LONG))

    def kill(self, process: int) -> None:
        os.kill(process, signal.SIGKILL)

    def kill_both(self, process: int) -> None:
        for each in (process, *children_of(process, GUARD)):
            os.kill(each, signal.SIGKILL)

    def stop(self, process: int) -> None:
        """A runner that stands still with its guard is killed by the monitor, with its guard."""
        for each in (process, *children_of(process, GUARD)):
            os.kill(each, signal.SIGSTOP)
        (pool,) = self.pools._pools.values()
        job = next(job for each in pool.processes if each.process.pid == process for job, _ in each.jobs.values())
        self.pools.kill(job)

    def start_lost_ones(self) -> bool:
        """Has the lost jobs started again. Whether there were some."""
        self.passed += 100
        self.pools.flush()
        self.poller.wait(20)
        lost = [event.job.name for event in self.pools.events() if isinstance(event, JobLost)]
        for name in lost:
            self.start(name)
        self.pools.flush()
        return bool(lost)

    def test_hundreds_of_ends(self) -> None:
        """No process of a runner that has ended is left, not even its guard."""
        chance, ended = random.Random(1), set()
        for name in "abcdefgh":
            self.start(name)
        self.pools.flush()
        for _ in range(100):
            for way, end in self.ways.items():
                self.assertTrue(self.plugins.await_count(self.count))
                (pool,) = self.pools._pools.values()
                process = chance.choice([process.process.pid for process in pool.processes if process.jobs])
                ended.add(process)
                end(process)
                self.assertTrue(becomes_true(self.start_lost_ones), way)
        self.assertEqual(self.plugins.lines_of("twice"), [])
        self.assertTrue(becomes_true(lambda: not [session for _, _, session in living_processes() if session in ended]))


class Monitor(ProcessTest):
    def test_a_monitor_that_is_killed(self) -> None:
        """Its plugins are gone when the next one starts, also those of runners that stand still."""
        plugins = LockedPlugins()
        self.addCleanup(plugins.close)
        names = [f"h{number}" for number in range(4)]
        hosts: List[Dict[str, Any]] = [{"name": name, "check_interval": 1, "max_check_attempts": 1} for name in names]
        self.write_site(hosts, [], commands={name: {"line": plugins.line(name), "shell": True, "limit": 1000} for name in names})
        for count in range(4, 41, 4):
            running = self.start_monitor()
            self.assertTrue(plugins.await_count(count))
            for process in children_of(running.pid, "nagsched-runner") if count % 8 else ():
                os.kill(process, signal.SIGSTOP)
            self.stop_monitor(running, signal.SIGKILL)
        self.assertEqual(plugins.lines_of("twice"), [])
