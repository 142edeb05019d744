"""A monitor that runs as a process, for tests."""
import pathlib
import signal
import subprocess
import sys
from typing import Any, Dict, List, Optional

from nagsched_monitor.faults import MonitorFault
from nagsched_monitor.inputs import client

from .simulated import PROGRAM, SiteTest
from .waiting import LONG, becomes_true

MONITOR = pathlib.Path(__file__).resolve().parent.parent / "nagsched-monitor"


class ProcessTest(SiteTest):
    """A test with a monitor."""

    def start_monitor(self, *words: str, environment: Optional[Dict[str, str]] = None) -> "subprocess.Popen[str]":
        command = [sys.executable, str(MONITOR), "--program", PROGRAM, *words, str(self.folder)]
        running = subprocess.Popen(command, stdout=subprocess.PIPE, text=True, env=environment, start_new_session=True)
        self.addCleanup(self.stop_monitor, running)
        self.await_socket(running)
        return running

    def stop_monitor(self, running: "subprocess.Popen[str]", number: int = signal.SIGTERM) -> str:
        if running.poll() is None:
            running.send_signal(number)
        output, _ = running.communicate(timeout=LONG) if running.stdout is not None and not running.stdout.closed else ("", None)
        return output

    def await_socket(self, running: "subprocess.Popen[str]") -> None:
        self.assertTrue(becomes_true(lambda: self.is_answering() or running.poll() is not None))

    def is_answering(self) -> bool:
        try:
            return bool(client.send_request(self.folder, b'{"do":"signs"}'))
        except MonitorFault:
            return False

    def run_command(self, *words: str) -> "subprocess.CompletedProcess[str]":
        return subprocess.run([sys.executable, str(MONITOR), str(self.folder), *words], capture_output=True, text=True, check=False)

    def states(self) -> List[str]:
        """The lines of `status` in the order of names, with single spaces and without the word for a running check."""
        lines = [" ".join(line.split()).replace(" running ", " ", 1) for line in self.run_command("status").stdout.splitlines()]
        return sorted(lines, key=lambda line: line.partition(":")[0].split()[-1])

    def await_states(self, wanted: List[str]) -> None:
        """Waits until each object has this standing. A running check doesn't matter: the next one may have begun."""
        came: List[str] = []

        def stand() -> bool:
            came[:] = self.states()
            return came == wanted

        becomes_true(stand)
        self.assertEqual(came, wanted)

    def children_of(self, process: int) -> List[int]:
        told = subprocess.run(["ps", "-o", "pid=", "--ppid", str(process)], stdout=subprocess.PIPE, text=True, check=False).stdout
        return [int(each) for each in told.split()]

    def objects(self, count: int, **members: Any) -> List[Dict[str, Any]]:
        return [{"name": f"h{number:02}", "check_interval": 1, "max_check_attempts": 2, **members} for number in range(count)]

    def refusal(self) -> str:
        """The words of a monitor that doesn't start."""
        command = [sys.executable, str(MONITOR), "--program", PROGRAM, str(self.folder)]
        refused = subprocess.run(command, capture_output=True, text=True, check=False, timeout=2 * LONG)
        self.assertEqual(refused.returncode, 1)
        return refused.stderr
