"""A runner that gets its lines from a test."""
import json
import os
import pathlib
import select
import subprocess
import time
from types import TracebackType
from typing import Any, Dict, List, Optional, Sequence, Type, Union

from nagsched_monitor.run.runners import RunnerPools

from .waiting import LONG

MONITOR = pathlib.Path(__file__).resolve().parent.parent
Line = Union[bytes, Dict[str, Any]]


def shell(job: int, line: str, limit: float = LONG) -> Dict[str, Any]:
    return {"job": job, "words": ["/bin/sh", "-c", line], "limit": limit}


class OneRunner:
    """A runner process in a group of its own, for a `with`."""

    def __init__(self, *words: str, program: str = "", environment: Optional[Dict[str, str]] = None, before: Sequence[str] = ()) -> None:
        command = [*before, program or os.environ["NAGSCHED_RUNNER"], *words]
        environment = {**os.environ, **(environment or {})}
        self.process = subprocess.Popen(command, stdin=subprocess.PIPE, stdout=subprocess.PIPE, env=environment, bufsize=0, start_new_session=True)
        assert self.process.stdin is not None and self.process.stdout is not None
        self._jobs, self._results = self.process.stdin, self.process.stdout
        self._unread = b""

    def send(self, *lines: Line) -> None:
        data = b"".join(line if isinstance(line, bytes) else json.dumps(line).encode() + b"\n" for line in lines)
        while data:
            data = data[self._jobs.write(data) or 0 :]

    def results(self, count: int, seconds: float = LONG) -> List[Dict[str, Any]]:
        """The next results that come in time, in the order of their jobs."""
        end, lines = time.monotonic() + seconds, list[Any]()
        while len(lines) < count and select.select([self._results], [], [], max(0, end - time.monotonic()))[0]:
            data = self._results.read(65_536)
            if not data:
                break
            *came, self._unread = (self._unread + data).split(b"\n")
            lines += [json.loads(line) for line in came]
        return sorted(lines, key=lambda line: int(line.get("job", -1)))

    def results_of(self, *lines: Line) -> List[Dict[str, Any]]:
        """The results of these jobs."""
        self.send(*lines)
        return self.results(len(lines))

    def __enter__(self) -> "OneRunner":
        return self

    def end(self) -> int:
        """Ends its standard input, and returns its status."""
        self._jobs.close()
        return self.process.wait(timeout=LONG)

    def __exit__(self, kind: Optional[Type[BaseException]], error: Optional[BaseException], trace: Optional[TracebackType]) -> None:
        self._jobs.close()
        try:
            self.process.wait(timeout=LONG)
        finally:
            self.process.kill()
            self.process.wait()
            self._results.close()


def processes_of(pools: RunnerPools) -> List["subprocess.Popen[bytes]"]:
    return [process.process for pool in pools._pools.values() for process in pool.processes]
