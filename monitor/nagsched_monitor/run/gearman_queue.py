"""A runner that sends its jobs to a queue of a Gearman server: it reads jobs and writes results as nagsched-runner does, and runs no plugin itself.

Each job is answered once, or abandoned within a limit. If the connection is lost, all jobs are submitted again: answers over it can't come any more.
"""
import argparse
import collections
import contextlib
import json
import os
import pathlib
import secrets
import signal
import sys
import time
from functools import partial
from typing import Any, Callable, Deque, Dict, Tuple

from ..faults import MonitorFault, raising
from ..model.jobs import Job, event_members, read_event
from ..system.addresses import parse_address
from ..system.log import Log
from ..system.poller import FilePoller, write_ready
from .gearman import BUSY, IDLE, READ_BYTES, Code, Server, connect
from .gearman_signing import JOB, RESULT, Signer, read_signer

# In seconds: the delay of a result after its limit, and a job's longest wait for a worker.
GRACE, WAIT = 15.0, 30.0
STUCK = 30  # a turn that takes longer, in seconds, ends the process by SIGALRM, and the monitor starts another
TOGETHER = 5  # events within this time, in milliseconds, share a turn


class Queue:
    """One queue. Its `mark` distinguishes its jobs from those of every other runner."""

    def __init__(self, name: str, mark: str, wait: float, server: Server, answer: Callable[[Dict[str, Any]], None], signer: Signer) -> None:
        self._name, self._mark, self._wait, self._server, self._answer, self._signer = name, mark, wait, server, answer, signer
        # The jobs without an answer, by the numbers under which they were submitted last, each with the time until which it may wait for a worker.
        self._pending: Dict[int, Tuple[Job, float]] = {}
        self._last = 0
        # Over the current connection: the numbers that wait for the server's names, in their order, the others by these names, and those that a worker has,
        # each with the time at which its result is late.
        self._unnamed: Deque[int] = collections.deque()
        self._named: Dict[bytes, int] = {}
        self._taken: Dict[int, float] = {}

    def add_line(self, line: bytes) -> None:
        try:
            given = json.loads(line)
            job = Job("a job", int(given["job"]), list(map(str, given["words"])), float(given["limit"]))
        except (ValueError, KeyError, TypeError, OverflowError, RecursionError):
            self._answer({"error": "the line is no job"})
        else:
            self._submit(job, time.monotonic() + self._wait)

    def _submit(self, job: Job, wait_until: float) -> None:
        """Submits a job. If there is no connection, it is submitted over the next one."""
        self._last += 1
        self._pending[self._last] = job, wait_until
        self._unnamed.append(self._last)
        # The message to a worker: the job, its queue, and the time for which it is valid, by the wall clock.
        now = time.time()
        document = {"job": f"{self._mark}-{self._last}", "words": job.arguments, "limit": job.limit,
                    "queue": self._name, "time": now, "until": now + self._wait}
        self._server.send(Code.SUBMIT_JOB, self._name.encode(), b"", self._signer.sign(JOB, document))

    def turn(self) -> None:
        """Handles what comes from the server, submits new jobs, and abandons late ones."""
        for code, parts in self._server.turn():
            if code == Code.CONNECTED:
                again, self._pending, self._unnamed, self._named = self._pending, {}, collections.deque(), {}
                for job, wait_until in again.values():
                    self._submit(job, wait_until)
            elif code == Code.JOB_CREATED and self._unnamed:
                self._named[parts[0]] = self._unnamed.popleft()
            elif self._named.get(parts[0]) in self._pending:
                self._handle(self._named[parts[0]], code, parts[-1])
        self._abandon_late()

    def _handle(self, number: int, code: int, data: bytes) -> None:
        if code == Code.WORK_STATUS:
            self._taken.setdefault(number, time.monotonic() + self._pending[number][0].limit + GRACE)
        elif code == Code.WORK_FAIL:
            self._end(number, {"lost": "its worker failed"})
        elif code == Code.WORK_COMPLETE:
            self._end(number, read_result(self._signer, f"{self._mark}-{number}", data))

    def _end(self, number: int, result: Dict[str, Any]) -> None:
        job, _ = self._pending.pop(number)
        self._taken.pop(number, None)
        self._answer({**result, "job": job.run})

    def _abandon_late(self) -> None:
        """Abandons the jobs whose results are late, and those that no worker took in time: the server forgets these when the connection ends."""
        if self._server.connection is None:
            self._taken.clear()
        now, nobody = time.monotonic(), "the server of the queue {} wasn't reached" if self._server.is_lost else "no worker took it from the queue {}"
        late = [number for number, (_, wait_until) in self._pending.items() if now >= self._taken.get(number, wait_until)]
        for number in late:
            self._end(number, {"lost": "its worker gave no result" if number in self._taken else nobody.format(self._name)})
        if late and not self._taken:
            self._server.disconnect()


def read_result(signer: Signer, mark: str, data: bytes) -> Dict[str, Any]:
    """A worker's answer to the job of this mark. The job is lost if it is no result of that job."""
    why = "it is of another job"
    try:
        document = signer.verified_document(RESULT, data)
        if document["job"] == mark:
            return event_members(read_event(Job(mark, 0, (), 0.0), document))
    except ValueError as error:
        why = str(error)
    return {"lost": f"its worker's answer was no result: {why}"}


def run(arguments: argparse.Namespace, log: Log) -> None:
    """Hands jobs from standard input to the queue, and writes results to standard output, until no more jobs come."""
    place, signer, poller = parse_address(arguments.server, "server"), read_signer(arguments.key, arguments.unsigned), FilePoller()
    jobs, results, unread, unsent, is_ended = sys.stdin.fileno(), sys.stdout.fileno(), b"", bytearray(), False

    def read_jobs() -> None:
        nonlocal unread, is_ended
        data = os.read(jobs, READ_BYTES)
        is_ended = not data
        *lines, unread = (unread + data).split(b"\n")
        for line in lines:
            queue.add_line(line)

    server = Server(partial(connect, place), poller, lambda line: log(f"queue {arguments.queue}: {line}"))
    queue = Queue(arguments.queue, secrets.token_hex(16), arguments.wait, server, lambda result: unsent.extend(json.dumps(result).encode() + b"\n"), signer)
    os.set_blocking(results, False)
    poller.watch(jobs, read_jobs)
    while not is_ended:
        signal.alarm(STUCK)
        queue.turn()
        write_ready(results, unsent)  # results are written while the monitor reads them; the others wait
        poller.wait(BUSY if unsent or server.unsent else IDLE)
        poller.sleep(TOGETHER)


def main() -> None:
    parser = argparse.ArgumentParser(prog="nagsched-gearman-runner", description="Hands jobs to a queue of a Gearman server.")
    parser.add_argument("server", metavar="ADDRESS:PORT", help="where gearmand listens")
    parser.add_argument("queue", metavar="QUEUE", help="the queue from which workers take the jobs")
    parser.add_argument("--wait", metavar="SECONDS", type=float, default=WAIT, help=f"how long a job may wait for a worker; {WAIT:g} without it")
    parser.add_argument("--key", type=pathlib.Path, metavar="FILE", help="sign jobs with the key of this file, and take only results that are signed with it")
    parser.add_argument("--unsigned", action="store_true", help="neither sign jobs nor want signed results")
    signal.signal(signal.SIGINT, signal.SIG_IGN)
    signal.signal(signal.SIGTERM, signal.SIG_IGN)
    with raising(SystemExit, parser.prog, MonitorFault), contextlib.suppress(BrokenPipeError):  # the monitor has ended
        run(parser.parse_args(), Log(2))
