"""What a monitor says if a program or a file that it needs at its start is missing, can't be used, or is of another version: the path, what is wrong in the
system's words, and what to do. No message has a traceback."""
import os
import pathlib
import shutil
import subprocess
import sys
import time
from typing import List, Optional, Tuple
from unittest import mock

from nagsched_monitor.faults import MonitorFault, user_name
from nagsched_monitor.run.runners import RunnerPool
from nagsched_monitor.scheduler.mirroring import carry_over
from nagsched_monitor.scheduler.schedulers import Conversation
from nagsched_monitor.site.site import read_site
from nagsched_monitor.system import programs
from nagsched_monitor.system.poller import FilePoller
from nagsched_monitor.system.programs import INSTALL, RUNNER, SCHEDULER, Program

from .running import MONITOR, ProcessTest
from .simulated import PROGRAM
from .waiting import LONG, becomes_true

TOP = MONITOR.parent.parent
VERSION = (TOP / "VERSION").read_text().strip()
SETTINGS = {SCHEDULER: "name another one with --program", RUNNER: "name another one in the variable NAGSCHED_RUNNER"}


class Programs(ProcessTest):
    """A monitor, and its worker of a queue, with programs that can't be used."""

    def setUp(self) -> None:
        super().setUp()
        self.write_site(self.objects(1), [])
        self.path = str(self.folder / "program")

    def write_program(self, text: str, mode: int = 0o755) -> None:
        pathlib.Path(self.path).write_text(text)
        os.chmod(self.path, mode)

    def answer(self, program: Program, path: str, *words: str, script: pathlib.Path = MONITOR) -> str:
        """The only line of a monitor that has this program."""
        given = ["--program", path if program is SCHEDULER else PROGRAM, str(self.folder)] if script == MONITOR else []
        environment = {**os.environ, **({"NAGSCHED_RUNNER": path} if program is RUNNER else {})}
        ran = subprocess.run([sys.executable, str(script), *given, *words], env=environment, capture_output=True, text=True, timeout=2 * LONG, check=False)
        self.assertEqual((ran.returncode, ran.stdout), (1, ""))
        self.assertTrue(ran.stderr.startswith(f"{script.name}: ") and ran.stderr.count("\n") == 1, ran.stderr)
        return ran.stderr

    def assert_told(self, why: str, path: Optional[str] = None) -> None:
        """Each program says why a path can't be used, and names the script that builds it and the setting that names another."""
        for program in (SCHEDULER, RUNNER):
            with self.subTest(program=program.name):
                advice = f"build it with {TOP / program.script}, or {SETTINGS[program]}\n"
                wanted = f"nagsched-monitor: {why.format(name=program.name, path=path or self.path)}: {advice}"
                self.assertEqual(self.answer(program, path or self.path), wanted)

    def test_no_file(self) -> None:
        self.assert_told("{name} can't be run: {path}: No such file or directory")
        folders = os.environ["PATH"]
        self.assert_told(f"{{name}} can't be run: {{path}}: No such file or directory in the folders of PATH, {folders}", "nosuch-program")

    def test_no_right(self) -> None:
        self.write_program("#!/bin/sh\n", 0o644)
        self.assert_told("{name} can't be run: {path}: Permission denied, since " + f"{user_name(os.geteuid())} may not execute it")

    def test_a_folder(self) -> None:
        os.mkdir(self.path)
        self.assert_told("{name} can't be run: {path}: Permission denied, since it is a folder")

    def test_no_program(self) -> None:
        """A text without `#!`, a script whose interpreter is missing, a file where a folder should be."""
        self.write_program("hello\n")
        self.assert_told("{name} can't be run: {path}: Exec format error")
        self.assert_told("{name} can't be run: {path}: Not a directory", f"{self.path}/x")
        self.write_program("#!/no/such\n")
        self.assert_told("{name} can't be run: {path}: No such file or directory, though it exists: its interpreter or its loader doesn't")

    def test_another_program(self) -> None:
        """One that ends at once, and one that prints something else."""
        self.write_program("#!/bin/sh\nexit 5\n")
        self.assert_told("{path} isn't the program {name}: with --version it ends with status 5 and prints nothing")
        self.write_program("#!/bin/sh\necho a word >&2\n")
        self.assert_told("{path} isn't the program {name}: with --version it ends with status 0 and prints 'a word'")

    def test_another_version(self) -> None:
        for program in (SCHEDULER, RUNNER):
            self.write_program(f"#!/bin/sh\necho {program.name} 0.1\n")
            self.assertIn(f": {self.path} is {program.name} 0.1, and this monitor has version {VERSION}: build it with ", self.answer(program, self.path))
        self.write_program(f"#!/bin/sh\necho {SCHEDULER.name} 0.1\n")
        with mock.patch.object(programs, "FOLDER", self.folder):  # no VERSION is there
            SCHEDULER.test(self.path)

    def test_no_answer(self) -> None:
        self.write_program(f"#!/bin/sh\nexec sleep {LONG}\n")
        wanted = f"{self.path} doesn't print its version within 0.2 seconds: build it with "
        with mock.patch.object(programs, "LIMIT", 0.2), self.assertRaisesRegex(MonitorFault, wanted):
            SCHEDULER.test(self.path)

    def test_an_installation(self) -> None:
        """It has no script that builds a program."""
        with mock.patch.object(programs, "FOLDER", self.folder):
            self.assertEqual(SCHEDULER.advice(), f"{INSTALL}, or name another one with --program")
            self.assertEqual(RUNNER.advice(), f"{INSTALL}, or name another one in the variable NAGSCHED_RUNNER")

    def test_a_worker(self) -> None:
        told = self.answer(RUNNER, self.path, "127.0.0.1:1", "queue", "--unsigned", script=MONITOR.with_name("nagsched-gearman-worker"))
        self.assertIn(f": nagsched-runner can't be run: {self.path}: No such file or directory: build it with ", told)

    def good_until(self, word: str, text: str) -> None:
        """A program that is nagsched, except that with this word it does something else."""
        self.write_program(f'#!/bin/sh\n[ "$1" = {word} ] || exec "{PROGRAM}" "$@"\n{text}\n')

    def test_one_that_ends_at_once(self) -> None:
        """After it has said which program it is."""
        self.good_until("check", "exit 7")
        with self.assertRaisesRegex(MonitorFault, f"setup.json: {self.path} gives no answer, and ends with status 7$"):
            read_site(self.folder, self.path)
        with self.assertRaisesRegex(MonitorFault, f"the saved state can't be taken over: {self.path} gives no answer, and ends with status 7$"):
            carry_over(self.path, read_site(self.folder, PROGRAM), 0, b"{}")
        self.good_until("check", "echo hello")
        with self.assertRaisesRegex(MonitorFault, f"{self.path} wrote a setup that is no JSON: "):
            read_site(self.folder, self.path)
        self.good_until("live", "exit 7")
        conversation = Conversation(self.path, b"{}", 0)
        self.addCleanup(conversation.close)
        with self.assertRaisesRegex(Exception, f"^{self.path} answered nothing, and ended with status 7: build it with "):
            conversation.ask_lines(['["list"]'])
        self.assertRaisesRegex(Exception, "^nagsched can't be run: /no/such: No such file or directory: build it with ", Conversation, "/no/such", b"{}", 0)


    def test_while_a_monitor_runs(self) -> None:
        """A runner that is gone, here and elsewhere."""
        lines: List[str] = []
        for name, slots in (("local", None), ("far", 8)):
            RunnerPool(name, [self.path], 1, slots, 0.0, lines.append, FilePoller(), time.monotonic).close()
        missing = f"{self.path}: No such file or directory"
        self.assertEqual(lines, [f"a runner can't be started: {missing}: {RUNNER.advice()}; it is tried again",
                                 f"the runner far can't be started: {missing}: correct its name, or make it; it is tried again"])


class Places(ProcessTest):
    """The places of programs."""

    def test_the_runner(self) -> None:
        """If there is none, it is looked for where it is built, or in an installation where it is installed. A folder isn't one."""
        with mock.patch.object(programs, "FOLDER", self.folder), mock.patch.object(programs, "PROGRAM_FOLDERS", (self.folder, self.folder / "out")):
            with mock.patch.dict(os.environ, {"NAGSCHED_RUNNER": "", "PATH": "/no"}):
                (self.folder / "nagsched-runner").mkdir()
                self.assertEqual(programs.runner_command(), [f"{self.folder}/nagsched-runner"])
                (self.folder / "build_runner.sh").touch()
                self.assertEqual(programs.runner_command(), [f"{self.folder}/out/nagsched-runner"])
                (self.folder / "out").mkdir()
                shutil.copy("/bin/true", self.folder / "out/nagsched-runner")
                self.assertEqual(programs.runner_command(), [f"{self.folder}/out/nagsched-runner"])

    def test_the_scheduler_of_a_checkout(self) -> None:
        """A program that isn't built is looked for where it is built."""
        (self.folder / "monitor").mkdir()
        (self.folder / "monitor/build_runner.sh").touch()
        with mock.patch.dict(os.environ, {"PATH": "/no"}):
            self.assertEqual(programs.scheduler_path(self.folder / "monitor/nagsched-monitor"), f"{self.folder.resolve()}/crates/nagsched/out/nagsched")


class Files(ProcessTest):
    """Other files: those of the site, and those of the package."""

    def copied(self) -> pathlib.Path:
        """A copy of the package and its scripts."""
        home = self.folder / "copy"
        shutil.copytree(MONITOR.parent / "nagsched_monitor", home / "nagsched_monitor", ignore=shutil.ignore_patterns("__pycache__"))
        for name in ("nagsched-monitor", "nagsched-gearman-worker", "nagsched-gearman-runner"):
            shutil.copy(MONITOR.with_name(name), home / name)
        return home

    def output(self, script: pathlib.Path, *words: str) -> Tuple[int, str]:
        ran = subprocess.run([sys.executable, str(script), *words], stdout=subprocess.PIPE, stderr=subprocess.STDOUT, text=True, timeout=2 * LONG, check=False)
        return ran.returncode, ran.stdout

    def test_of_the_site(self) -> None:
        self.write_site(self.objects(1), [])
        (self.folder / "commands.json").unlink()
        missing = "No such file or directory: correct its name, or make it"
        self.assertEqual(self.refusal(), f"nagsched-monitor: {self.folder}/commands.json: {missing}\n")
        (self.folder / "setup.json").unlink()
        self.assertEqual(self.refusal(), f"nagsched-monitor: {self.folder} has no setup.json and no part-1.json\n")
        self.write_site(self.objects(1), [])
        (self.folder / "monitor.socket").mkdir()
        self.assertEqual(self.refusal(), f"nagsched-monitor: {self.folder}/monitor.socket: Is a directory: name a file\n")

    def test_the_package(self) -> None:
        home = self.copied()
        self.assertEqual(self.output(home / "nagsched-monitor", "--version"),
                         (0, f"nagsched-monitor of an unknown version: there is no file {home}/VERSION and no {home.parent}/VERSION\n"))
        (home / "nagsched_monitor/site/site.py").unlink()
        status, told = self.output(home / "nagsched-monitor", "--help")
        self.assertEqual((status, told.count("\n")), (1, 1))
        self.assertIn(f"nagsched-monitor: No module named 'nagsched_monitor.site.site', in {home}: install it again", told)
        shutil.rmtree(home / "nagsched_monitor")
        for script in home.iterdir():
            status, told = self.output(script, "--help")
            self.assertEqual((status, told.count("\n")), (1, 1))
            self.assertIn(f"{script.name}: No module named 'nagsched_monitor', in {home}: install it again", told)

    def test_of_helpers(self) -> None:
        """The log says what a helper lacks."""
        self.write_site(self.objects(1), [])
        home = self.copied()
        (home / "nagsched_monitor/outputs/page.css").unlink()
        (home / "nagsched_monitor/outputs/livestatus_query.py").unlink()
        log = self.folder / "log"
        words = ["--program", PROGRAM, "--page", "127.0.0.1:0", "--livestatus", str(self.folder / "livestatus"), str(self.folder)]
        with log.open("wb") as file:
            running = subprocess.Popen([sys.executable, str(home / "nagsched-monitor"), *words], stdout=file, stderr=file, text=True)
            self.addCleanup(running.wait, LONG)
            self.addCleanup(self.stop_monitor, running)
            wanted = [f"{home}/nagsched_monitor/outputs/page.css: No such file or directory: {INSTALL}\n",
                      f"No module named 'nagsched_monitor.outputs.livestatus_query', in {home}: {INSTALL}\n"]
            self.assertTrue(becomes_true(lambda: all(line in log.read_text() for line in wanted)), log.read_text())
        self.assertNotIn("Traceback", log.read_text())
