"""The messages to a service manager, over a socket of the test."""
import os
import pathlib
import shutil
import signal
import socket
import subprocess
import sys
from typing import Dict, List

from nagsched_monitor.outputs.sd_notify import ServiceManager

from .simulated import PROGRAM, SiteTest
from .waiting import LONG, becomes_true

MONITOR = pathlib.Path(__file__).resolve().parent.parent / "nagsched-monitor"
UNIT = pathlib.Path(__file__).resolve().parent.parent / "nagsched-monitor@.service"


class Notices(SiteTest):
    def manager(self, address: str) -> socket.socket:
        there = socket.socket(socket.AF_UNIX, socket.SOCK_DGRAM)
        self.addCleanup(there.close)
        there.bind(address)
        there.settimeout(LONG)
        return there

    def heard(self, there: socket.socket) -> List[str]:
        """The messages that wait at the socket."""
        there.setblocking(False)
        lines = []
        while True:
            try:
                lines.append(there.recv(4096).decode())
            except BlockingIOError:
                return lines

    def test_the_words(self) -> None:
        path, now = str(self.folder / "notify"), [0.0]
        there = self.manager(path)
        environment = {"NOTIFY_SOCKET": path, "WATCHDOG_USEC": "2000000", "WATCHDOG_PID": str(os.getpid()), "HOME": "/"}
        service = ServiceManager(environment, lambda: now[0])
        self.assertEqual(environment, {"HOME": "/"})
        service.notify("READY=1\nSTATUS=3 objects")
        for now[0] in (0.5, 0.9, 1.1, 1.5, 2.2):
            service.notify_alive()
        service.notify("STOPPING=1")
        self.assertEqual(self.heard(there), ["READY=1\nSTATUS=3 objects", "WATCHDOG=1", "WATCHDOG=1", "STOPPING=1"])

    def test_a_name_that_is_none_of_a_file(self) -> None:
        name = f"nagsched-test-{os.getpid()}"
        there = self.manager(f"\0{name}")
        ServiceManager({"NOTIFY_SOCKET": f"@{name}"}).notify("STOPPING=1")
        self.assertEqual(self.heard(there), ["STOPPING=1"])

    def test_nobody_hears(self) -> None:
        """No manager, a manager that is gone, one that reads nothing, and the watchdog of another process."""
        environments: List[Dict[str, str]] = [{}, {"NOTIFY_SOCKET": ""}, {"NOTIFY_SOCKET": str(self.folder / "gone")}]
        for environment in environments:
            service = ServiceManager(environment)
            service.notify("READY=1")
            service.notify_alive()
            service.notify("STOPPING=1")
        there = self.manager(str(self.folder / "full"))
        service = ServiceManager({"NOTIFY_SOCKET": str(self.folder / "full")})
        for _ in range(5_000):
            service.notify("STOPPING=1")
        self.heard(there)
        other = ServiceManager({"NOTIFY_SOCKET": str(self.folder / "full"), "WATCHDOG_USEC": "1", "WATCHDOG_PID": "1"})
        other.notify_alive()
        self.assertEqual(self.heard(there), [])

    def test_a_monitor(self) -> None:
        """It reports that it is ready when it accepts requests, that it is alive, and that it ends. Plugins don't have the socket."""
        self.write_site([{"name": "web", "check_interval": 1, "max_check_attempts": 1}], [])
        self.write("commands.json", {"web": {"line": "env | grep -c -e NOTIFY_ -e WATCHDOG_; exit 0", "shell": True}})
        there = self.manager(str(self.folder / "notify"))
        environment: Dict[str, str] = {**os.environ, "NOTIFY_SOCKET": str(self.folder / "notify"), "WATCHDOG_USEC": "600000"}
        running = subprocess.Popen([sys.executable, str(MONITOR), "--program", PROGRAM, str(self.folder)], stdout=subprocess.PIPE, text=True, env=environment)
        self.addCleanup(running.kill)
        self.assertEqual(there.recv(4096).decode(), "READY=1\nSTATUS=1 objects")
        self.assertEqual([there.recv(4096).decode() for _ in range(3)], ["WATCHDOG=1"] * 3)
        words = [sys.executable, str(MONITOR), str(self.folder), "status"]
        said: List[str] = []

        def is_up() -> bool:
            said[:] = [subprocess.run(words, capture_output=True, text=True, check=True).stdout.replace(" running", "")]
            return said == ["UP HARD 1 web: 0\n"]

        becomes_true(is_up)
        self.assertEqual(said, ["UP HARD 1 web: 0\n"])
        running.send_signal(signal.SIGTERM)
        running.communicate(timeout=LONG)
        self.assertEqual([line for line in self.heard(there) if line != "WATCHDOG=1"], ["STOPPING=1"])


class Unit(SiteTest):
    def test_the_unit_goes_with_it(self) -> None:
        members = [line.partition("=")[::2] for line in UNIT.read_text().splitlines() if "=" in line]
        unit = dict(members)
        wanted = {"Type": "notify", "NotifyAccess": "main", "KillMode": "mixed", "NoNewPrivileges": "yes", "User": "nagsched"}
        self.assertEqual({name: unit.get(name) for name in wanted}, wanted)
        self.assertGreater(int(unit["WatchdogSec"]), 30)

    def test_systemd_takes_it(self) -> None:
        if shutil.which("systemd-analyze") is None:
            self.skipTest("there is no systemd-analyze")
        unit = self.folder / "nagsched-monitor@.service"
        unit.write_text(UNIT.read_text().replace("/usr/local/bin/nagsched-monitor", str(MONITOR)))
        ran = subprocess.run(["systemd-analyze", "verify", "--man=no", str(unit)], stdout=subprocess.PIPE, stderr=subprocess.STDOUT, text=True, check=False)
        if "Failed to" in ran.stdout and unit.name not in ran.stdout:
            self.skipTest(f"systemd-analyze can't work here: {ran.stdout.strip()}")
        self.assertEqual([line for line in ran.stdout.splitlines() if unit.stem in line], [])
        self.assertEqual(ran.returncode, 0, ran.stdout)
