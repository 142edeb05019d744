"""A queue of a Gearman server that gets its answers from a test. No server is needed."""
import json
import unittest
from typing import Any, Dict, List
from unittest import mock

from nagsched_monitor.run.gearman import Server
from nagsched_monitor.run.gearman_queue import Queue
from nagsched_monitor.system.poller import FilePoller

from .gearman_server import ServedJob, StandInServer

WAIT, LIMIT = 30.0, 60.0


class QueueTest(unittest.TestCase):
    def setUp(self) -> None:
        self.server = StandInServer()
        self.answers: List[Dict[str, Any]] = []
        self.lines: List[str] = []
        self.now = 1000.0
        self.last = 0
        clock = mock.patch("time.monotonic", lambda: self.now)
        clock.start()
        self.addCleanup(clock.stop)
        self.begin_queue()

    def begin_queue(self) -> None:
        server = Server(self.server.connect, FilePoller(), self.lines.append)
        self.queue = Queue("dmz", "mark", WAIT, server, self.answers.append, self.server.signer)
        self.addCleanup(self.server.restart)
        self.addCleanup(server.disconnect)

    def add(self, count: int = 1) -> None:
        for _ in range(count):
            self.last += 1
            self.queue.add_line(json.dumps({"job": self.last, "words": ["plugin", str(self.last)], "limit": LIMIT}).encode())

    def pass_by(self, seconds: float = 0) -> None:
        """Lets this many seconds pass, while the queue and the server work."""
        self.now += seconds
        for _ in range(2):
            self.queue.turn()
            self.server.turn()
        self.queue.turn()

    def take(self) -> ServedJob:
        job = self.server.take()
        assert job is not None
        return job

    def ends(self) -> List[Any]:
        return [(it["job"], it.get("end", "lost"), it.get("lost", it.get("output"))) for it in self.answers]
