"""A worker of a Gearman server that gets its jobs from a test. No server is needed."""
import os
import socket
import time
import unittest
from typing import Any, Callable, Dict, List
from unittest import mock

from nagsched_monitor.run.gearman import Code, Server
from nagsched_monitor.run.gearman_signing import JOB, RESULT, Refusal, Signer
from nagsched_monitor.run.gearman_worker import Worker
from nagsched_monitor.run.runners import RunnerPool
from nagsched_monitor.system.poller import FilePoller

from .gearman_server import FarEnd
from .waiting import becomes_true


class StandInServer:
    """A server that has these jobs for its one worker, and the worker's requests and answers."""

    def __init__(self) -> None:
        self.jobs: List[bytes] = []
        self.answers: List[bytes] = []
        self.codes: List[Code] = []
        self.connections: List[FarEnd] = []
        self.faults: List[Exception] = []
        self.is_echoing, self.is_worker_asleep = True, False

    def connect(self) -> socket.socket:
        if self.faults:
            raise self.faults.pop()
        self.connections.append(FarEnd())
        return self.connections[-1].near

    def close(self) -> None:
        for there in self.connections:
            there.close()

    def turn(self) -> None:
        """Handles the worker's requests."""
        for there in self.connections:
            for code, body in [] if there.is_closed else there.requests():
                self.codes.append(Code(code))
                if code == Code.GRAB_JOB:
                    self.is_worker_asleep = False
                    there.send(Code.JOB_ASSIGN, b"handle", b"dmz", self.jobs.pop(0)) if self.jobs else there.send(Code.NO_JOB)
                elif code == Code.PRE_SLEEP:
                    self.is_worker_asleep = True
                elif code == Code.WORK_COMPLETE:
                    self.answers.append(body.partition(b"\0")[2])
                elif code == Code.ECHO_REQ and self.is_echoing:
                    there.send(Code.ECHO_RES, body)
        if self.jobs and self.is_worker_asleep:
            self.connections[-1].send(Code.NOOP)


class WorkerTest(unittest.TestCase):
    """A worker with a runner."""

    signer = Signer(None)

    def setUp(self) -> None:
        self.there = StandInServer()
        self.jobs, self.answers = self.there.jobs, self.there.answers
        self.lines: List[str] = []
        self.poller = FilePoller()
        self.last = 0
        # The seconds by which the clock is ahead.
        self.passed = 0.0
        real = time.monotonic
        clock = mock.patch("time.monotonic", lambda: real() + self.passed)
        clock.start()
        self.addCleanup(clock.stop)

    def start_worker(self, slots: int = 4, words: str = "", runner: Any = None) -> Worker:
        if runner is None:
            command = [words] if words else [os.environ["NAGSCHED_RUNNER"]]
            runner = RunnerPool("worker", command, 1, None, 0.0, self.lines.append, self.poller, time.monotonic)
            self.addCleanup(runner.close)
        self.runner = runner
        self.server = Server(self.there.connect, self.poller, self.lines.append)
        self.addCleanup(self.there.close)
        self.addCleanup(self.server.disconnect)
        self.worker = Worker(self.server, ["dmz", "lan"], slots, self.signer, runner, self.lines.append)
        return self.worker

    def document(self, command: Any, **members: Any) -> Dict[str, Any]:
        now = time.time()
        self.last += 1
        return {"job": f"mark-{self.last}", "words": command, "limit": 10.0, "queue": "dmz", "time": now, "until": now + 30, **members}

    def job(self, command: Any, **members: Any) -> None:
        self.jobs.append(self.signer.sign(JOB, self.document(command, **members)))

    def turns(self, count: int) -> None:
        for _ in range(count):
            self.worker.turn()
            self.there.turn()
            self.poller.wait(0)

    def turns_until(self, what: Callable[[], bool]) -> bool:
        def turned() -> bool:
            for _ in range(100):
                self.turns(1)
                if what():
                    return True
            return False

        return becomes_true(turned)

    def opened(self, answer: bytes) -> Dict[str, Any]:
        """The document of an answer; no members if it isn't one for a job."""
        try:
            return self.signer.verified_document(RESULT, answer)
        except Refusal:
            return {}

    def results(self, count: int) -> List[Dict[str, Any]]:
        self.turns_until(lambda: len(self.answers) >= count)
        return sorted(map(self.opened, self.answers), key=lambda answer: str(answer.get("job")))
