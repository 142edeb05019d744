"""All runners of a monitor: those of this machine, one for each processor, and one for each runner elsewhere. A process that ends is started again.

No line of a runner ends the monitor."""
import collections
import os
import resource
import subprocess
import time
from dataclasses import dataclass, field
from functools import partial
from typing import Callable, Deque, Dict, List, Mapping, Optional, Sequence, Set, Tuple, Union

from ..faults import trouble_text
from ..model.jobs import Event, Job, JobFinished, JobLost, StuckJobEnded, job_members, read_event, read_line
from ..model.text import plain_text
from ..site.runner_file import LOCAL, Remote
from ..system.log import RepeatedLines
from ..system.poller import FilePoller, write_ready
from ..system.processes import count_left, end_process, end_session
from ..system.programs import RUNNER, runner_command

READ_BYTES = 65_536
# The longest line of a runner, in bytes. A longer line ends its runner.
LONGEST_LINE = 1_048_576
# The least time from one start of a runner to the next, in seconds. It doubles up to the longest. After a runner that ran that long, it is the first again.
PAUSE, LONGEST_PAUSE = 1.0, 60.0
LATE = 10.0  # the longest delay of a plugin's result after its limit, in seconds
TOGETHER = 8  # how many jobs a process of this machine gets before another one is woken


def raise_file_limit() -> int:
    """Raises the limit of open files of this process, and of all that it starts, as far as the machine allows. Returns that limit."""
    _, most = resource.getrlimit(resource.RLIMIT_NOFILE)
    resource.setrlimit(resource.RLIMIT_NOFILE, (most, most))
    return most


@dataclass
class RunnerProcess:
    """One runner process, and its jobs, each with the time at which its result is late."""

    process: "subprocess.Popen[bytes]"
    # The files by which it reads jobs, and writes results.
    reads_from: int
    writes_to: int
    started_at: float
    jobs: Dict[int, Tuple[Job, float]] = field(default_factory=dict)
    stuck: Dict[int, Job] = field(default_factory=dict)
    unread: bytes = b""
    unsent: bytearray = field(default_factory=bytearray)


class RunnerPool:
    """Processes of one command, which inherit some files. Without `slots` they have any number of jobs at once, and a job waits for them without a limit."""

    def __init__(self, name: str, arguments: Sequence[str], count: int, slots: Optional[int], wait: float, log: Callable[[str], None],
                 poller: FilePoller, clock: Callable[[], float], files: Callable[[], Sequence[int]] = tuple) -> None:
        self._files = files
        self._name, self._arguments, self._count, self._slots, self._wait = name, arguments, count, slots, wait
        self._log, self._poller, self._clock = log, poller, clock
        self._lost = RepeatedLines(log, clock)
        self._title = "a runner" if slots is None else f"the runner {name}"
        self._events: List[Event] = []
        self._number = 0
        self.processes: List[RunnerProcess] = []
        # The jobs that no process has got yet, each with the time at which it came.
        self._waiting: Deque[Tuple[Job, float]] = collections.deque()
        self._cannot_start = False
        self._pause, self._not_before = PAUSE, 0.0
        self._start_missing()

    def _start_missing(self) -> None:
        """Starts the processes that are missing. If there is no room for one now, a later flush tries again."""
        if self._clock() < self._not_before:
            return
        try:
            while len(self.processes) < self._count:
                started = subprocess.Popen(self._arguments, stdin=subprocess.PIPE, stdout=subprocess.PIPE, bufsize=0, start_new_session=True,
                                           pass_fds=self._files())
                assert started.stdin is not None and started.stdout is not None
                process = RunnerProcess(started, started.stdin.fileno(), started.stdout.fileno(), self._clock())
                os.set_blocking(process.writes_to, False)
                os.set_blocking(process.reads_from, False)  # bytes that it doesn't read at once don't hold up the monitor
                self.processes.append(process)
                self._poller.watch(process.writes_to, partial(self._read, process))
            self._cannot_start = False
        except OSError as error:
            if not self._cannot_start:
                program = self._arguments[0]
                why = RUNNER.trouble(program, error) if self._slots is None else f"{program}: {trouble_text(error)}"
                self._log(f"{self._title} can't be started: {why}; it is tried again")
            self._cannot_start, self._not_before = True, self._clock() + PAUSE

    def start(self, job: Job) -> None:
        self._waiting.append((job, self._clock()))

    def flush(self) -> None:
        """Passes on the jobs for which there is room, with one write for each process."""
        self._start_missing()
        self._lost.flush()
        now, together = self._clock(), TOGETHER if self._slots is None else 1
        while self._waiting and self.processes:
            process = min(self.processes, key=lambda each: len(each.jobs))
            if self._slots is not None and len(process.jobs) >= self._slots:
                break
            for _ in range(min(together, len(self._waiting))):
                job = self._waiting.popleft()[0]
                self._number += 1
                process.jobs[self._number] = job, now + job.limit + LATE + self._wait
                process.unsent += b'{"job":%d,%s\n' % (self._number, job_members(tuple(job.arguments), job.limit))
        while self._slots is not None and self._waiting and now - self._waiting[0][1] >= self._wait:
            self._add_event(JobLost(self._waiting.popleft()[0], f"the runner {self._name} didn't take it"))
        for process in [each for each in self.processes if each.unsent]:
            try:
                write_ready(process.reads_from, process.unsent)
            except OSError:
                self._end(process)

    def _add_event(self, event: Union[JobFinished, JobLost]) -> None:
        if isinstance(event, JobLost) and not event.is_local:
            self._lost.add(event.job.name, f"its check is abandoned: {event.why}")
        self._events.append(event)

    def _read(self, process: RunnerProcess) -> None:
        data = os.read(process.writes_to, READ_BYTES)
        if not data:
            self._end(process)
            return
        *lines, process.unread = (process.unread + data).split(b"\n")
        for line in lines:
            self._handle_line(process, line)
        if len(process.unread) > LONGEST_LINE:
            self._log(f"{self._title} wrote a line of more than {LONGEST_LINE} bytes; it is killed")
            self._end(process)

    def _handle_line(self, process: RunnerProcess, line: bytes) -> None:
        """One line of a runner. A faulty line is logged, and the run that it is about is lost, if that can be read."""
        number = -1
        try:
            number, members = read_line(line)
            if "error" in members:
                self._log(f"{self._title}: {plain_text(str(members['error']))}")
            elif number in process.stuck and members.get("gone") is True:
                self._events.append(StuckJobEnded(process.stuck.pop(number)))
            elif number in process.jobs:
                event = read_event(process.jobs[number][0], members)
                del process.jobs[number]
                self._add_event(event)
                if isinstance(event, JobFinished) and event.is_stuck:
                    process.stuck[number] = event.job
        except (ValueError, RecursionError) as error:
            self._log(f"a line of {self._title} is no result: {error}: {plain_text(line[:200].decode(errors='replace'))!r}")
            if number in process.jobs:
                self._events.append(JobLost(process.jobs.pop(number)[0], "its runner gave no result"))

    def _end(self, process: RunnerProcess) -> None:
        """Has another process started in place of one that has ended, after a pause."""
        status, now = self._close_process(process), self._clock()
        if now >= self._not_before and now - process.started_at < self._pause:
            self._not_before, self._pause = now + self._pause, min(LONGEST_PAUSE, 2 * self._pause)
        elif now >= self._not_before:
            self._pause = PAUSE
        again = "another is started" + (f" in {self._not_before - now:.2g} seconds" if now < self._not_before else "")
        self._log(f"{self._title} ended with status {status}, and {len(process.jobs)} checks with it; {again}")

    def _close_process(self, process: RunnerProcess) -> object:
        """Ends a process with its plugins, and returns its status. Its jobs are lost: another plugin of an object may start only when this one is gone."""
        self.processes.remove(process)
        self._poller.unwatch(process.writes_to)
        end_session(process.process.pid)
        self._events.extend(JobLost(job) for job, _ in process.jobs.values())
        self._events.extend(StuckJobEnded(job) for job in process.stuck.values())
        return end_process(process.process)

    def kill(self, job: Job) -> None:
        """Kills the process that has this job, since it gives no answer. A job that no process has yet is lost."""
        for process in list(self.processes):
            if any(job is each for each, _ in process.jobs.values()):
                self._log(f"{self._title} gave no result in time: it is killed, and {len(process.jobs)} checks with it")
                self._close_process(process)
        for waiting in list(self._waiting):
            if waiting[0] is job:
                self._waiting.remove(waiting)
                self._events.append(JobLost(job, "its runner can't be started"))

    def close(self) -> None:
        """Ends all processes; their jobs, and the jobs that wait, are lost."""
        for process in list(self.processes):
            self._close_process(process)
        while self._waiting:
            self._events.append(JobLost(self._waiting.popleft()[0]))

    def events(self) -> List[Event]:
        events, self._events = self._events, []
        return events

    def jobs(self) -> List[Job]:
        return [job for process in self.processes for job, _ in process.jobs.values()] + [job for job, _ in self._waiting]

    def process_counts(self) -> Dict[str, int]:
        now = self._clock()
        stuck = sum(any(late < now for _, late in process.jobs.values()) for process in self.processes)
        left = count_left({process.process.pid for process in self.processes})
        return {"running": len(self.processes), "wanted": self._count, "stuck": stuck, "waiting": len(self._waiting), "left": left}


class RunnerPools:
    def __init__(self, count: int, log: Callable[[str], None], poller: FilePoller, clock: Callable[[], float] = time.monotonic,
                 files: Callable[[], Sequence[int]] = tuple) -> None:
        """`files` stay open until the plugins of this machine are gone, also if the monitor is killed."""
        self._pool = partial(RunnerPool, log=log, poller=poller, clock=clock)
        self._pools: Dict[str, RunnerPool] = {LOCAL: self._pool(LOCAL, runner_command(), count, None, 0.0, files=files)}
        self._remotes: Dict[str, Remote] = {}
        self._events: List[Event] = []  # the last events of pools that were removed

    def set_remotes(self, remotes: Mapping[str, Remote]) -> None:
        """Has these runners elsewhere from now on; jobs at others are lost."""
        for name in [name for name, remote in self._remotes.items() if remotes.get(name) != remote]:
            pool = self._pools.pop(name)
            pool.close()
            self._events += pool.events()
        self._remotes = dict(remotes)
        for name, remote in remotes.items():
            if name not in self._pools:
                self._pools[name] = self._pool(name, remote.arguments, 1, remote.slots, remote.wait)

    def start(self, job: Job) -> None:
        """Has a job run from the next `flush` on."""
        pool = self._pools.get(job.runner or LOCAL)
        if pool is None:
            self._events.append(JobLost(job, f"there is no runner {job.runner}"))
        else:
            pool.start(job)

    def flush(self) -> None:
        for pool in self._pools.values():
            pool.flush()

    def job_ids(self) -> Set[int]:
        """The identities of the jobs that runners have, or will get."""
        return {id(job) for pool in self._pools.values() for job in pool.jobs()} | {id(event.job) for event in self._events}

    def kill(self, job: Job) -> None:
        """Kills the runner that has this job; its running jobs are lost."""
        for pool in self._pools.values():
            pool.kill(job)

    def events(self) -> List[Event]:
        """The events since the last call."""
        events, self._events = self._events, []
        return events + [event for pool in self._pools.values() for event in pool.events()]

    def process_counts(self) -> Dict[str, Dict[str, int]]:
        return {name: pool.process_counts() for name, pool in self._pools.items()}

    def close(self) -> None:
        """Ends the runners, with the running plugins and all that plugins left behind."""
        for pool in self._pools.values():
            pool.close()
