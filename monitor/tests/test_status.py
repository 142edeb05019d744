"""What the commands print that need no monitor: `status`, `--version`, and the advice for another user."""
import contextlib
import io
import os
import pathlib
import pwd
import subprocess
import sys
import time
from typing import Tuple
from unittest import mock

from nagsched_monitor import faults
from nagsched_monitor.faults import MonitorFault
from nagsched_monitor.inputs import client
from nagsched_monitor.outputs.status_query import StatusUnavailable, clock_time, read_site_status
from nagsched_monitor.program import main
from nagsched_monitor.system import programs

from .running import MONITOR
from .shown_site import fill_database, standing
from .simulated import SiteTest

TOP = MONITOR.parent.parent
NOBODY = 65_534


def printed(*words: str) -> Tuple[int, str, str]:
    """The status of a command, and what it prints."""
    with contextlib.redirect_stdout(io.StringIO()) as output, contextlib.redirect_stderr(io.StringIO()) as errors:
        status = main.main([*words])
    return status, output.getvalue(), errors.getvalue()


class Status(SiteTest):
    def fill(self) -> None:
        now = time.time()
        fill_database(self.folder, [
            standing("web", words="PING OK|rta=0.1ms;1;2"), standing("web;http", "WARNING", "SOFT", "slow | time=9s", attempt=2, since=now - 9),
            standing("web;a new one", "PENDING", "HARD", "", is_on=False), standing("db", "DOWN", since=now - 50, hard_since=now - 50, words="gone\nfor long", flapping=True),
            standing("gate", "UNREACHABLE", attempt=10, words="", out_since=now),
        ])

    def test_columns_and_order(self) -> None:
        """Hard problems come first, by severity, then soft ones, then the others by name. Texts have no performance data."""
        self.fill()
        self.assertEqual(printed(str(self.folder), "status"), (0, "\n".join([
            "DOWN        HARD 1  FLAPPING db:            gone",
            "UNREACHABLE HARD 10 running  gate:",
            "WARNING     SOFT 2           web;http:      slow",
            "UP          HARD 1           web:           PING OK",
            "PENDING             off      web;a new one:",
        ]) + "\n", ""))

    def test_names(self) -> None:
        """A column that is empty isn't there. The name of one object counts before a pattern, and a long name isn't aligned to."""
        self.fill()
        self.assertEqual(printed(str(self.folder), "status", "web;h*"), (0, "WARNING SOFT 2 web;http: slow\n", ""))
        fill_database(self.folder, [standing("a*", words="one"), standing("ab", words="two"), standing("a" * 200, words="three")])
        self.assertEqual(printed(str(self.folder), "status", "a*")[1], "UP HARD 1 a*: one\n")
        self.assertEqual(printed(str(self.folder), "status", "a?")[1], "UP HARD 1 a*: one\nUP HARD 1 ab: two\n")
        self.assertIn(f"UP HARD 1 ab:{46 * ' '}two\n", printed(str(self.folder), "status")[1])

    def test_next_checks(self) -> None:
        at = time.time() + 100
        fill_database(self.folder, [standing("a", next_check=at), standing("b", next_check=None)])
        wanted = f"UP HARD 1 a: next {clock_time(at)} fine\nUP HARD 1 b: next none                      fine\n"
        self.assertEqual(printed(str(self.folder), "status", "--long")[1], wanted)

    def test_a_name_that_is_none(self) -> None:
        self.fill()
        wanted = f"nagsched-monitor: no object of {self.folder} has the name 'nosuch*': `status` without a name lists all\n"
        self.assertEqual(printed(str(self.folder), "status", "nosuch*"), (1, "", wanted))

    def test_no_database(self) -> None:
        for folder in (self.folder, self.folder / "nosuch"):
            with self.assertRaisesRegex(SystemExit, f"^nagsched-monitor: {folder}/monitor.db doesn't exist: name the folder of a site whose monitor has run$"):
                main.main([str(folder), "status"])


class OtherUsers(SiteTest):
    """A command of a user who may not reach the files of the site's user."""

    def test_both_messages(self) -> None:
        path = self.folder / "monitor.db"
        path.write_text("no database")
        with mock.patch("os.geteuid", return_value=NOBODY), mock.patch.object(sys, "argv", ["nagsched-monitor", "my site", "status"]):
            advice = self.advice(os.stat(path).st_uid, "nagsched-monitor 'my site' status")
            with self.assertRaises(StatusUnavailable) as unread:
                read_site_status(self.folder)
            with mock.patch("socket.socket.connect", side_effect=PermissionError(13, "Permission denied")), self.assertRaises(MonitorFault) as unheard:
                client.send_request(self.folder, b"{}")
        self.assertEqual(str(unread.exception), f"{path} can't be read: file is not a database{advice}")
        self.assertEqual(str(unheard.exception), f"the monitor of {self.folder} doesn't answer: Permission denied{advice}")

    def advice(self, owner: int, words: str) -> str:
        names = [pwd.getpwuid(number).pw_name for number in (NOBODY, owner)]
        return f": you are {names[0]}, and it belongs to {names[1]}; try: sudo -u {names[1]} {words}"

    def test_none(self) -> None:
        """The owner and root get no advice. A user without a name has a number, and a file that nobody can see belongs to nobody known."""
        path = self.folder / "monitor.db"
        self.assertEqual(faults.owner_advice(path), "")
        for number in (0, self.folder.stat().st_uid):
            with mock.patch("os.geteuid", return_value=number):
                self.assertEqual(faults.owner_advice(path), "")
        with mock.patch("os.geteuid", return_value=NOBODY):
            self.assertEqual(faults.owner_advice(self.folder / "no/such/file"), "")
        with mock.patch("pwd.getpwuid", side_effect=KeyError):
            self.assertEqual(faults.user_name(4_711), "#4711")

    def test_a_real_one(self) -> None:
        """As another user, who can't enter the folder."""
        if os.geteuid() != 0:
            self.skipTest("only root can become another user")
        os.chmod(self.folder, 0o700)
        for word, wanted in (("status", "can't be read"), ("save", "doesn't answer")):
            with mock.patch.object(sys, "argv", ["nagsched-monitor", str(self.folder), word]), self.assertRaises(SystemExit) as ended:
                os.seteuid(NOBODY)
                try:
                    main.main(sys.argv[1:])
                finally:
                    os.seteuid(0)
            self.assertRegex(str(ended.exception), f"{wanted}: .*: you are nobody, and it belongs to root; try: sudo -u root nagsched-monitor {self.folder} {word}$")


class OwnFiles(SiteTest):
    """What a monitor finds next to it."""

    def test_version(self) -> None:
        ran = subprocess.run([sys.executable, str(MONITOR), "--version"], capture_output=True, text=True, timeout=60, check=False)
        version = (TOP / "VERSION").read_text().strip()
        self.assertEqual((ran.returncode, ran.stdout, ran.stderr), (0, f"nagsched-monitor {version}\n", ""))
        (self.folder / "lib").mkdir()
        with mock.patch.object(programs, "FOLDER", self.folder / "lib"):
            self.assertIn(f"no file {self.folder}/lib/VERSION and no {self.folder}/VERSION", programs.own_version())
            (self.folder / "VERSION").write_text("1\n")
            self.assertEqual(programs.own_version(), "1")
            (self.folder / "lib/VERSION").write_text("2\n")
            self.assertEqual(programs.own_version(), "2")

    def test_program(self) -> None:
        """The program on the path comes first, then the one next to the monitor, then the one that a checkout has built."""
        built, beside = self.folder / "crates/nagsched/out/nagsched", self.folder / "monitor/nagsched"

        def found(path: pathlib.Path) -> str:
            with mock.patch.dict(os.environ, {"PATH": str(path)}):
                return programs.scheduler_path(self.folder / "monitor/nagsched-monitor")

        beside.parent.mkdir()
        self.assertEqual(found(self.folder), "nagsched")
        for program in (built, beside):
            program.parent.mkdir(parents=True, exist_ok=True)
            program.touch()
            program.chmod(0o755)
            self.assertEqual(found(self.folder), str(program))
        self.assertEqual(found(beside.parent), "nagsched")
