"""The processes of this package: how they begin and end."""
import contextlib
import json
import os
import pathlib
import select
import signal
import subprocess
import sys
import time
from typing import Callable, Container, Iterator, List, Optional, Tuple

from ..faults import trouble_text
from .programs import FOLDER, INSTALL

GRACE = 5.0  # the limit for the end of a process, in seconds
LOOK_AGAIN = 0.005  # the pause between two looks at killed processes, in seconds
# The least time from one start of a helper to the next, in seconds. It doubles up to the longest. After a process that ran that long, it is the first again.
PAUSE, LONGEST_PAUSE = 5.0, 60.0
# The time without a line after which a helper stands still, in seconds, and the most bytes of its lines that are read at once.
SILENCE, READ_BYTES = 120.0, 65_536
ARGUMENTS = "NAGSCHED_HELPER"  # the variable with a helper's arguments


def module_command(module: str, arguments: List[str]) -> List[str]:
    """The command that runs a module of this package as a process next to the monitor. No variable and no folder of its caller decides what it imports.

    The process ignores Ctrl-C and SIGTERM, which are for the monitor."""
    code = (f"import signal, sys\nsignal.signal(signal.SIGINT, signal.SIG_IGN); signal.signal(signal.SIGTERM, signal.SIG_IGN); "
            f"sys.path.insert(0, {str(FOLDER)!r})\ntry: import nagsched_monitor.{module} as it\n"
            f"except ImportError as error: sys.exit('{{}}, in {{}}: {INSTALL}'.format(error, {str(FOLDER)!r}))\nsys.exit(it.main())")
    return [sys.executable, "-I", "-c", code, *arguments]


def end_process(process: "subprocess.Popen[bytes]") -> object:
    """The exit status of a process after its pipes are closed. It is killed if it doesn't end, and nobody waits for it if that doesn't help."""
    for pipe in (process.stdin, process.stdout):
        if pipe is not None:
            pipe.close()
    for _ in range(2):
        with contextlib.suppress(subprocess.TimeoutExpired):
            return process.wait(timeout=GRACE)
        process.kill()
    return "unknown"


def living_processes() -> Iterator[Tuple[int, int, int]]:
    """The processes of this machine, each with its group and session, except those that have ended and wait for their parents."""
    for name in filter(str.isdigit, os.listdir("/proc")):
        with contextlib.suppress(OSError, ValueError):  # it has just ended
            state, *others = pathlib.Path("/proc", name, "stat").read_bytes().rpartition(b")")[2].split()
            if state not in b"ZX" or int(others[16]) > 1:  # a first thread may end before the others
                yield int(name), int(others[1]), int(others[2])


def count_left(sessions: Container[int]) -> int:
    """The number of processes in these sessions whose group's first process has ended: plugins left them behind."""
    groups = {process: group for process, group, session in living_processes() if session in sessions}
    return sum(group not in groups for group in groups.values())


def kill_members(session: int) -> int:
    """Kills the processes of a session, except another user's, and returns their number."""
    count = 0
    for process in [process for process, _, its in living_processes() if its == session]:
        with contextlib.suppress(OSError):
            os.kill(process, signal.SIGKILL)
            count += 1
    return count


def end_session(session: int) -> None:
    """Kills the processes of a session, and waits until they are gone. Its number is no other's as long as its first process waits for its parent."""
    end = time.monotonic() + GRACE
    while kill_members(session) and time.monotonic() < end:
        time.sleep(LOOK_AGAIN)


class HelperProcess:
    """A process next to the monitor, which starts it, restarts it if it ends or stands still, and ends with it. It ends when its standard input does.

    The monitor reads its lines and logs them. An empty line is a sign of life."""

    def __init__(self, module: str, arguments: List[str], log: Callable[[str], None], clock: Callable[[], float] = time.monotonic) -> None:
        self._command, self._name, self._log, self._clock = module_command(module, []), module.rpartition(".")[2], log, clock
        # Its arguments, which may have a password, aren't in its command line, which every user of the machine can read.
        self._environment = {**os.environ, ARGUMENTS: json.dumps(arguments)}
        self._process: Optional["subprocess.Popen[bytes]"] = None
        self._unread = b""
        self._started_at = self._heard_at = self._not_before = clock()
        self._pause = PAUSE

    def work(self) -> None:
        """Starts the process if it doesn't run, and logs its lines."""
        if self._process is not None:
            status = self._process.poll()
            self._log_lines(self._process)
            if status is None and self._clock() - self._heard_at < SILENCE:
                return
            self._pause = PAUSE if self._clock() - self._started_at >= LONGEST_PAUSE else self._pause
            self._not_before = self._started_at + self._pause
            self._pause = min(LONGEST_PAUSE, 2 * self._pause)
            self._log(f"{self._name} {'stands still' if status is None else f'ended with status {status}'}; it is begun again")
            self._process.kill()
            self.close()
        if self._clock() >= self._not_before:
            self._start()

    def _start(self) -> None:
        self._started_at = self._heard_at = self._clock()
        try:
            self._process = subprocess.Popen(self._command, stdin=subprocess.PIPE, stdout=subprocess.PIPE, stderr=subprocess.STDOUT, bufsize=0,
                                             env=self._environment)
            assert self._process.stdout is not None
            os.set_blocking(self._process.stdout.fileno(), False)
        except OSError as error:  # there is no room for a process now
            self._not_before = self._started_at + LONGEST_PAUSE
            self._log(f"{self._name} can't be begun: {trouble_text(error)}; it is tried again")

    def _log_lines(self, process: "subprocess.Popen[bytes]") -> None:
        assert process.stdout is not None
        with contextlib.suppress(BlockingIOError):
            data = os.read(process.stdout.fileno(), READ_BYTES)
            self._heard_at = self._clock() if data else self._heard_at
            *lines, rest = (self._unread + data).split(b"\n")
            self._unread = rest[:READ_BYTES]
            for line in filter(None, lines):
                self._log(line.decode(errors="replace"))

    def close(self) -> None:
        if self._process is not None:
            end_process(self._process)
            self._process = None
            self._unread = b""


class ParentMonitor:
    """For a helper's process: the monitor that started it, gets its lines, and ends it by the end of its standard input."""

    def __init__(self) -> None:
        os.set_blocking(sys.stdout.fileno(), False)
        self.arguments: List[str] = json.loads(os.environ.pop(ARGUMENTS))

    def log(self, line: str) -> None:
        """Passes on a line. It is lost if the monitor reads none."""
        with contextlib.suppress(OSError):
            os.write(sys.stdout.fileno(), line.replace("\n", " ").encode(errors="replace") + b"\n")

    def is_ended(self, seconds: float) -> bool:
        """Gives a sign of life, waits for this time, or until the monitor has ended, and returns whether it has."""
        self.log("")
        return bool(select.select([sys.stdin], [], [], seconds)[0]) and not os.read(sys.stdin.fileno(), 4_096)
