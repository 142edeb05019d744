"""The start of a monitor: with options of its site, where it isn't possible, and the reading of a site by a process of its own."""
import io
import json
import os
import pickle
import socket
import sqlite3
import subprocess
import sys
import time
import warnings
from typing import Any, List, Tuple, cast
from unittest import mock

from nagsched_monitor.faults import ConversationEnded, MonitorFault, NotStored
from nagsched_monitor.program import main, monitor, site_reader
from nagsched_monitor.scheduler.schedulers import Conversation
from nagsched_monitor.site.site import Site
from nagsched_monitor.store.store import Store

from .running import MONITOR, ProcessTest
from .simulated import PROGRAM, SiteTest
from .waiting import LONG, becomes_true

POPEN = subprocess.Popen


class Reloading(SiteTest):
    def read(self) -> Site:
        """The site, when its process has read it."""
        try:
            reading = site_reader.read_apart(self.folder, PROGRAM)
            while next(reading):
                time.sleep(0.01)
        except StopIteration as end:
            return cast(Site, end.value)
        raise AssertionError

    def test_whatever_is_wrong_with_a_site(self) -> None:
        """It is refused with a line."""
        self.write_site([{"name": "web", "max_check_attempts": 1}], [])
        written = io.BytesIO()
        with mock.patch.object(site_reader, "read_site", side_effect=OSError("no room\nat all")), mock.patch("sys.stdout", mock.Mock(buffer=written)):
            with mock.patch("sys.argv", ["", str(self.folder), PROGRAM]):
                self.assertEqual(site_reader.main(), 0)
        self.assertEqual(pickle.loads(written.getvalue()), "the site can't be read: OSError: no room at all")
        self.assertEqual(set(self.read().objects), {"web"})
        self.write("commands.json", {"web": {}})
        self.assertRaisesRegex(MonitorFault, "commands.json: web", self.read)

    def test_whatever_becomes_of_the_process(self) -> None:
        """It isn't started, takes too long, or is killed; the monitor's end ends it too."""
        self.write_site([{"name": "web", "max_check_attempts": 1}], [])
        with mock.patch.object(subprocess, "Popen", side_effect=BlockingIOError(11, "no room")):
            self.assertRaisesRegex(MonitorFault, "the site can't be read: .*no room", self.read)
        with mock.patch.object(site_reader, "LIMIT", 0.0), warnings.catch_warnings():
            warnings.simplefilter("ignore", ResourceWarning)  # of the process that nobody waits for
            self.assertRaisesRegex(MonitorFault, "the site wasn't read within 0 seconds", self.read)
        started: List["subprocess.Popen[bytes]"] = []

        def start(*words: Any, **more: Any) -> "subprocess.Popen[bytes]":
            started.append(POPEN(*words, **more))
            return started[-1]

        with mock.patch.object(site_reader, "module_command", return_value=["sleep", str(LONG)]), mock.patch.object(subprocess, "Popen", start):
            ended, killed = (site_reader.read_apart(self.folder, PROGRAM) for _ in range(2))
            self.assertTrue(next(ended) and next(killed))
        started[1].kill()
        with self.assertRaisesRegex(MonitorFault, "the site can't be read"):
            self.assertTrue(becomes_true(lambda: not next(killed)))
        ended.close()
        self.assertEqual([process.wait(timeout=LONG) for process in started], [-9, -9])

    def test_more_slots_than_files(self) -> None:
        self.write_site([{"name": "web", "max_check_attempts": 1}], [], monitor={"slots": 200})
        wanted = "slots: 200 plugins may take 900 open files"
        with mock.patch.object(monitor, "raise_file_limit", return_value=500), self.assertRaisesRegex(MonitorFault, wanted):
            monitor.Monitor(main.parse_arguments(["--program", PROGRAM, str(self.folder)]), mock.Mock())


class Starting(SiteTest):
    """A start that isn't possible ends with a status and one line."""

    def setUp(self) -> None:
        super().setUp()
        self.write_site([{"name": "web", "max_check_attempts": 1}], [])

    def refused(self) -> str:
        with mock.patch.object(monitor, "START_PAUSE", 0.0), mock.patch.object(main, "Log"), self.assertRaises(SystemExit) as ended:
            main.main(["--program", PROGRAM, str(self.folder)])
        told = str(ended.exception.code)
        self.assertNotIn("\n", told)
        return told

    def test_a_full_disk(self) -> None:
        with mock.patch.object(Store, "write", side_effect=NotStored("monitor.db: database or disk is full")):
            self.assertEqual(self.refused(), f"nagsched-monitor: monitor.db: database or disk is full; it was tried {monitor.START_TRIES} times")

    def test_no_room_for_a_file(self) -> None:
        opened = os.open

        def full(path: Any, *others: Any, **more: Any) -> int:
            if str(path).endswith("monitor.db"):
                raise OSError(28, "No space left on device")
            return opened(path, *others, **more)

        with mock.patch.object(os, "open", full):
            self.assertIn("No space left on device", self.refused())

    def test_no_room_in_a_database(self) -> None:
        with mock.patch("nagsched_monitor.store.database_file.migrate", side_effect=sqlite3.OperationalError("database or disk is full")):
            self.assertIn("database or disk is full", self.refused())

    def test_no_scheduler(self) -> None:
        with mock.patch.object(Conversation, "__init__", side_effect=ConversationEnded("no room for a process")):
            self.assertIn(f"no room for a process; it was tried {monitor.START_TRIES} times", self.refused())


class Options(ProcessTest):
    def is_listening(self, address: Tuple[str, int]) -> bool:
        try:
            socket.create_connection(address, timeout=5).close()
        except OSError:
            return False
        return True

    def test_options_of_the_site(self) -> None:
        """Options in monitor.json work as those of the command line; a command is given a test, and what is hard when it is new."""
        taken = self.folder / "taken"
        with socket.create_server(("127.0.0.1", 0)) as free:
            page = free.getsockname()[:2]
        options = {"on_change": f"cat >> {taken}", "page": f"127.0.0.1:{page[1]}", "log_passive": False}
        self.write_site(self.objects(2, check_interval=3600, max_check_attempts=1), [], monitor=options)
        running = self.start_monitor()
        self.assertIn("notify-test: done", self.run_command("notify-test").stdout)
        self.assertTrue(becomes_true(lambda: taken.exists() and "notify-test" in taken.read_text()))
        self.assertTrue(json.loads(taken.read_text())["test"])
        self.run_command("result", "h01", "DOWN", "it burns")
        self.assertTrue(becomes_true(lambda: "h01" in taken.read_text()))
        self.assertTrue(becomes_true(lambda: self.is_listening(page)))
        output = self.stop_monitor(running)
        self.assertNotIn("asked: result", output)
        again = self.folder / "again"
        running = self.start_monitor("--on-change", f"cat >> {again}")
        self.assertTrue(becomes_true(lambda: again.exists() and again.read_text().endswith("\n")))
        self.stop_monitor(running)
        self.assertEqual([json.loads(line)["name"] for line in again.read_text().splitlines()], ["h01"])
        self.write("monitor.json", {"on_change": "if"})
        self.assertIn("the command for changes: ", self.refusal())
        self.write("monitor.json", {"on_change": "/nosuch x"})
        self.assertIn("the command for changes: there is no program /nosuch: put it on the path, or name its whole path\n", self.refusal())
        self.write("monitor.json", {"page": "nowhere"})
        self.assertIn("--page has to be ADDRESS:PORT", self.refusal())

    def test_no_site(self) -> None:
        told = subprocess.run([sys.executable, str(MONITOR), str(self.folder), "test"], capture_output=True, text=True, check=False)
        self.assertEqual(told.returncode, 1)
        self.assertTrue(told.stderr.startswith("nagsched-monitor: ") and told.stderr.count("\n") == 1, told.stderr)
