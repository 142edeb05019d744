"""A Gearman server and workers that run as processes, for trials with Debian's packages."""
import json
import os
import pathlib
import shutil
import signal
import socket
import subprocess
import sys
import tempfile
import threading
import time
from typing import Dict, List, Optional, Sequence

HERE = pathlib.Path(__file__).resolve().parent.parent
WORKER = HERE / "nagsched-gearman-worker"


def missing_program() -> Optional[str]:
    """Missing requirements of a trial; None if this machine has everything."""
    return "gearmand" if shutil.which("gearmand", path=search_path()) is None else None


def search_path() -> str:
    """The directories of programs: servers are in /usr/sbin."""
    return os.environ.get("PATH", "") + ":/usr/sbin:/sbin"


def is_open(address: str, port: int) -> bool:
    with socket.socket() as tried:
        tried.settimeout(1)
        return tried.connect_ex((address, port)) == 0


def runner_command(trial: "GearmanTrial", queue: str, *options: str) -> List[str]:
    """The command of a runner that sends jobs to a queue."""
    return [str(HERE / "nagsched-gearman-runner"), "--key", str(trial.key), *options, trial.place(), queue]


class GearmanTrial:
    """A server on a free port of an address, and its workers. All of them end with it."""

    def __init__(self, address: str = "127.0.0.1") -> None:
        with socket.socket() as free:
            free.bind((address, 0))
            self.address, self.port = address, int(free.getsockname()[1])
        self._server: Optional["subprocess.Popen[bytes]"] = None
        # The key with which the monitor and the workers sign.
        self._holder = tempfile.TemporaryDirectory()
        self.key = pathlib.Path(self._holder.name, "gearman.key")
        self.key.touch(0o600)
        self.key.write_text("a key for trials alone\n")
        self.workers: List["subprocess.Popen[bytes]"] = []

    def place(self) -> str:
        return f"{self.address}:{self.port}"

    def begin_server(self) -> None:
        program = shutil.which("gearmand", path=search_path())
        assert program is not None
        words = [program, "--listen", self.address, "--port", str(self.port), "--log-file", "none", "--pid-file", f"/tmp/gearmand.{self.port}"]
        self._server = subprocess.Popen([*words, "--job-retries", "3", "--keepalive"], stdout=subprocess.DEVNULL, stderr=subprocess.DEVNULL)
        for _ in range(200):
            if is_open(self.address, self.port):
                return
            time.sleep(0.05)
        raise RuntimeError(f"gearmand doesn't listen on {self.place()}")

    def server_id(self) -> int:
        assert self._server is not None
        return self._server.pid

    def stop_server(self) -> None:
        """Stops the server; `continue_server` ends that."""
        os.kill(self.server_id(), signal.SIGSTOP)
        while pathlib.Path(f"/proc/{self.server_id()}/stat").read_text().rpartition(")")[2].split()[0] != "T":
            time.sleep(0.01)

    def continue_server(self) -> None:
        os.kill(self.server_id(), signal.SIGCONT)

    def kill_server(self) -> None:
        if self._server is not None:
            self._server.kill()
            self._server.wait()
        self._server = None

    def begin_worker(self, *queues: str, slots: int = 16, before: Sequence[str] = (), options: Sequence[str] = ()) -> "subprocess.Popen[bytes]":
        words = [*before, sys.executable, str(WORKER), "--slots", str(slots), "--key", str(self.key), *options, self.place(), *queues]
        worker = subprocess.Popen(words, stdout=subprocess.DEVNULL, start_new_session=True)
        self.workers.append(worker)
        return worker

    def kill_worker(self, number: int) -> None:
        """Kills a worker; its plugins and its runners end too, or continue without it."""
        worker = self.workers.pop(number)
        worker.kill()
        worker.wait()

    def close(self) -> None:
        for worker in self.workers:
            worker.send_signal(signal.SIGTERM)
        for worker in self.workers:
            try:
                worker.wait(timeout=15)
            except subprocess.TimeoutExpired:
                worker.kill()
                worker.wait()
        self.workers.clear()
        self.kill_server()
        pathlib.Path(f"/tmp/gearmand.{self.port}").unlink(missing_ok=True)
        self._holder.cleanup()


class SubmittedJobs:
    """A runner for each queue; each answer is stored under the number of its job."""

    def __init__(self, trial: GearmanTrial, wait: float) -> None:
        self._trial, self._wait = trial, wait
        self._runners: Dict[str, "subprocess.Popen[bytes]"] = {}
        self.answers: Dict[int, List[Dict[str, object]]] = {}
        self.sent = 0

    def _runner(self, queue: str) -> "subprocess.Popen[bytes]":
        if queue not in self._runners:
            words = runner_command(self._trial, queue, "--wait", str(self._wait))
            self._runners[queue] = subprocess.Popen(words, stdin=subprocess.PIPE, stdout=subprocess.PIPE, stderr=subprocess.DEVNULL, bufsize=0)
            threading.Thread(target=self._read, args=(self._runners[queue],), daemon=True).start()
        return self._runners[queue]

    def _read(self, runner: "subprocess.Popen[bytes]") -> None:
        assert runner.stdout is not None
        with runner.stdout as lines:
            for line in lines:
                answer = json.loads(line)
                self.answers.setdefault(answer["job"], []).append(answer)

    def submit(self, count: int, queue: str, words: Sequence[str], limit: float = 10) -> None:
        jobs = self._runner(queue).stdin
        assert jobs is not None
        lines = b""
        for _ in range(count):
            self.sent += 1
            lines += json.dumps({"job": self.sent, "words": list(words), "limit": limit}).encode() + b"\n"
        while lines:
            lines = lines[jobs.write(lines) or 0 :]

    def submit_steadily(self, rate: float, seconds: float, queue: str, words: Sequence[str]) -> None:
        """Passes on this many jobs per second, in batches as a monitor does."""
        begin, before = time.monotonic(), self.sent
        while time.monotonic() - begin < seconds:
            self.submit(int((time.monotonic() - begin) * rate) - (self.sent - before), queue, words)
            time.sleep(0.05)

    def wait(self, seconds: float) -> bool:
        """Waits until each job is answered; returns whether it is."""
        end = time.monotonic() + seconds
        while len(self.answers) < self.sent and time.monotonic() < end:
            time.sleep(0.05)
        return len(self.answers) == self.sent

    def wait_until_one_is_made(self, queue: str, seconds: float) -> bool:
        """Submits one job after another until a plugin's result comes."""
        end = time.monotonic() + seconds
        while time.monotonic() < end:
            self.submit(1, queue, ["true"])
            self.wait(seconds)
            (answer, *_) = self.answers.get(self.sent, [{}])
            if (answer.get("end"), answer.get("code")) == ("exited", 0):
                return True
            time.sleep(0.5)
        return False

    def ends(self) -> Dict[str, int]:
        """The number of jobs that ended in each way; `twice` counts those with more than one answer."""
        found: Dict[str, int] = {}
        for answers in list(self.answers.values()):
            end = str(answers[0].get("end", "lost")) if len(answers) == 1 else "twice"
            found[end] = found.get(end, 0) + 1
        return found

    def close(self) -> None:
        for runner in self._runners.values():
            assert runner.stdin is not None
            runner.stdin.close()
            runner.wait(timeout=30)
