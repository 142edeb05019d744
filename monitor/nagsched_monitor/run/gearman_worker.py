"""A worker: it takes jobs from queues of a Gearman server, has their plugins run by a runner, and answers with their results."""
import argparse
import contextlib
import pathlib
import signal
import socket
import subprocess
import time
from functools import partial
from typing import Any, Callable, Dict, List, NamedTuple, Optional, Sequence

from ..faults import MonitorFault, raising, require
from ..model.jobs import Job, StuckJobEnded, event_members
from ..system.addresses import parse_address
from ..system.log import Log
from ..system.poller import FilePoller
from ..system.programs import RUNNER, runner_command
from .gearman import BUSY, IDLE, Code, Server, connect
from .gearman_signing import JOB, RESULT, JobPolicy, Refusal, Signer, read_signer
from .runners import RunnerPool, raise_file_limit

# In seconds: the delay after its limit at which a result is late, and the time that running plugins have to end when the worker stops.
GRACE, STOPPING = 10.0, 10.0
LOG_REFUSALS_EVERY = 60.0  # the time between two log lines about refused jobs, in seconds
SLOTS, MOST_SLOTS = 32, 1_000


class RunningJob(NamedTuple):
    """A job whose plugin runs, with the receiver of its answer and the time at which it is late."""

    job: Job
    connection: Optional[socket.socket]
    handle: bytes
    late: float


class Worker:
    """At most one job for each slot. When the connection is lost, another worker gets the jobs from the server, and what runs here ends without an answer."""

    def __init__(self, server: Server, queues: Sequence[str], slots: int, signer: Signer, runner: RunnerPool, log: Callable[[str], None]) -> None:
        self._server, self._queues, self._slots, self._signer, self._runner, self._log = server, queues, slots, signer, runner, log
        self._policy = JobPolicy(signer, queues)
        # The number of jobs requested from the server, and the running jobs by their identities.
        self._grabbing = 0
        self.running: Dict[int, RunningJob] = {}
        self._refused, self._last_logged = 0, -LOG_REFUSALS_EVERY
        self.is_stopping = False

    def turn(self) -> None:
        self._end_jobs()
        for code, parts in self._server.turn():
            if code == Code.CONNECTED:
                for queue in self._queues:
                    self._server.send(Code.CAN_DO, queue.encode())
                self._grabbing = 0
                self._grab(1)
            elif code == Code.NOOP:
                self._grab(1)
            elif code == Code.NO_JOB:
                self._grabbing -= 1
                if self._grabbing == 0:
                    self._server.send(Code.PRE_SLEEP)
            elif code == Code.JOB_ASSIGN:
                self._grabbing -= 1
                self._server.send(Code.WORK_STATUS, parts[0], b"0", b"1")
                self._start_job(parts[0], parts[2])
                self._grab(2)  # there may be more
        self._runner.flush()

    def _grab(self, count: int) -> None:
        """Requests jobs, as far as slots are free."""
        for _ in range(min(count, self._slots - self._grabbing - len(self.running))):
            if not self.is_stopping:
                self._grabbing += 1
                self._server.send(Code.GRAB_JOB)

    def _start_job(self, handle: bytes, workload: bytes) -> None:
        """Has the plugin of a job run. No content of a job ends the worker."""
        number = None
        try:
            document = self._signer.verified_document(JOB, workload)
            number = document["job"]
            job = self._policy.job_of(document)
            if any(job.arguments == stuck.arguments for process in self._runner.processes for stuck in process.stuck.values()):
                self._answer(handle, job.name, {"end": "limit", "code": 9, "output": "the plugin before it can't be killed"})
            else:
                self._runner.start(job)
                self.running[id(job)] = RunningJob(job, self._server.connection, handle, time.monotonic() + job.limit + GRACE)
        except Exception as error:  # the job is made again elsewhere
            why = str(error) if isinstance(error, Refusal) else repr(error)
            self._answer(handle, number, {"lost": f"its worker refused it: {why}"})
            self._refused += 1
            if time.monotonic() - self._last_logged >= LOG_REFUSALS_EVERY:
                self._log(f"{self._refused} jobs were refused; the last one: {why}")
                self._refused, self._last_logged = 0, time.monotonic()

    def _end_jobs(self) -> None:
        """Answers the jobs that have ended. A runner that gives no result in time is killed."""
        for running in list(self.running.values()):
            if time.monotonic() > running.late:
                self._runner.kill(running.job)
        for event in self._runner.events():
            if not isinstance(event, StuckJobEnded):
                running = self.running.pop(id(event.job))
                if running.connection is self._server.connection:
                    self._answer(running.handle, event.job.name, event_members(event))
                self._grab(1)

    def _answer(self, handle: bytes, number: Optional[str], result: Dict[str, Any]) -> None:
        self._server.send(Code.WORK_COMPLETE, handle, self._signer.sign(RESULT, {**result, "job": number}))


def run(arguments: argparse.Namespace, log: Log) -> None:
    require(1 <= arguments.slots <= MOST_SLOTS, f"--slots: it has to be a number from 1 to {MOST_SLOTS}", MonitorFault)
    place, signer, poller = parse_address(arguments.server, "server"), read_signer(arguments.key, arguments.unsigned), FilePoller()
    RUNNER.test(runner_command()[0])
    command = [*runner_command(), *([] if arguments.only is None else ["--only", str(arguments.only)])]
    raise_file_limit()
    with raising(MonitorFault, "its runner can't be started", subprocess.SubprocessError):
        subprocess.run(command, input=b"", timeout=10, check=True)
    runner = RunnerPool("worker", command, 1, None, 0.0, log, poller, time.monotonic)
    server = Server(partial(connect, place), poller, log)
    worker = Worker(server, arguments.queues, arguments.slots, signer, runner, log)
    for number in (signal.SIGINT, signal.SIGTERM):
        signal.signal(number, lambda *_: setattr(worker, "is_stopping", True))
    log(f"begins: {arguments.slots} slots, queues {', '.join(arguments.queues)}")
    run_worker(worker, server, poller)
    runner.close()
    log("ends")


def run_worker(worker: Worker, server: Server, poller: FilePoller) -> None:
    """Works until it is asked to stop; running plugins may then end."""
    stop_at = None
    while stop_at is None or time.monotonic() < stop_at and worker.running:
        worker.turn()
        if worker.is_stopping and stop_at is None:
            stop_at = time.monotonic() + STOPPING
        poller.wait(BUSY if server.unsent else IDLE)
    worker.turn()


def main(given: Optional[List[str]] = None) -> None:
    parser = argparse.ArgumentParser(prog="nagsched-gearman-worker", description="Runs the plugins of a monitor's jobs from queues of a Gearman server.")
    parser.add_argument("server", metavar="ADDRESS:PORT", help="where gearmand listens")
    parser.add_argument("queues", metavar="QUEUE", nargs="+", help="a queue from which it takes jobs; those of the first one first")
    parser.add_argument("--slots", type=int, default=SLOTS, metavar="N", help=f"how many plugins may run at once; {SLOTS} without it")
    parser.add_argument("--key", type=pathlib.Path, metavar="FILE", help="take only jobs that are signed with the key of this file, and sign results with it")
    parser.add_argument("--unsigned", action="store_true", help="take every job; who reaches the server runs what --only allows")
    parser.add_argument("--only", type=pathlib.Path, metavar="FILE", help="run only command lines that fit a pattern of this file")
    with raising(SystemExit, parser.prog, MonitorFault), contextlib.closing(Log()) as log:
        run(parser.parse_args(given), log)
