"""Livestatus next to a running monitor: commands, waiting for a result, and the process that is begun again."""
import json
import os
import pathlib
import signal
import subprocess
import time

from .livestatus_site import ask
from .running import ProcessTest
from .waiting import becomes_true


class Process(ProcessTest):
    def setUp(self) -> None:
        super().setUp()
        self.path = self.folder / "live"
        self.write_site(self.objects(2, check_interval=3600, retry_interval=3600),
                        [{"host": "h00", "description": "my job", "check_interval": 3600, "max_check_attempts": 1}])

    def helper_of(self, running: "subprocess.Popen[str]") -> int:
        words = subprocess.run(["ps", "-o", "pid=,args=", "--ppid", str(running.pid)], stdout=subprocess.PIPE, text=True, check=False).stdout
        return next((int(line.split()[0]) for line in words.splitlines() if "outputs.livestatus" in line), 0)

    def ask(self, text: str) -> str:
        try:
            return ask(self.path, text)
        except OSError:
            return ""

    def command(self, line: str) -> str:
        return self.ask(f"COMMAND [{int(time.time())}] {line}\n")

    def test_commands_and_waiting(self) -> None:
        running = self.start_monitor("--livestatus", str(self.path))
        self.assertTrue(becomes_true(lambda: self.ask("GET services\nStats: has_been_checked = 1\n") == "1\n"))
        self.assertEqual(self.command("DISABLE_SVC_CHECK;h00;my job"), "")
        self.assertTrue(becomes_true(lambda: self.ask("GET services\nColumns: active_checks_enabled\n") == "0\n"))
        self.assertEqual(self.command("PROCESS_SERVICE_CHECK_RESULT;h00;my job;2;no answer; at all|t=1"), "")
        waited = self.ask("GET services\nColumns: state plugin_output perf_data\nOutputFormat: json\n"
                          "WaitObject: h00;my job\nWaitCondition: state = 2\nWaitTrigger: check\nWaitTimeout: 20000\n")
        self.assertEqual(json.loads(waited), [[2, "no answer; at all", "t=1"]])
        before = int(self.ask("GET hosts\nColumns: last_check\nFilter: name = h01\n"))
        self.assertTrue(becomes_true(lambda: time.time() >= before + 1))
        self.assertEqual(self.command(f"SCHEDULE_FORCED_HOST_CHECK;h01;{int(time.time())}"), "")
        waited = self.ask(f"GET hosts\nColumns: last_check\nFilter: name = h01\nWaitObject: h01\nWaitCondition: last_check > {before}\nWaitTimeout: 20000\n")
        self.assertGreater(int(waited), before)
        # If a command isn't obeyed, the sender gets the reason, and the log has it.
        refusal = "ENABLE_HOST_CHECK: nobody: there is no object 'nobody'; the command status lists the full names"
        self.assertEqual(self.command("ENABLE_HOST_CHECK;nobody"), f"400: {refusal}\n")
        self.assertEqual(self.ask("COMMAND nonsense\n"), "400: a line has to be [TIME] COMMAND;ARGUMENT.., not 'nonsense'\n")
        # Several commands, and a query after them, on one connection.
        now = int(time.time())
        text = f"COMMAND [{now}] ENABLE_SVC_CHECK;h00;my job\n\nCOMMAND [{now}] DISABLE_HOST_CHECK;h00\nGET hosts\nStats: state = 0\nKeepAlive: on\n\n"
        self.assertEqual(self.ask(text), "2\n")
        self.assertTrue(becomes_true(lambda: self.ask("GET hosts\nColumns: active_checks_enabled\n") == "0\n1\n"))
        output = self.stop_monitor(running)
        self.assertIn(f"refused: livestatus: {refusal}\n", output)
        self.assertIn(f"livestatus is at {self.path}\n", output)
        self.assertNotIn(".py:", output)
        self.assertTrue(becomes_true(lambda: not self.path.exists()))

    def test_begun_again_and_ended(self) -> None:
        running = self.start_monitor("--livestatus", str(self.path))
        self.assertTrue(becomes_true(lambda: self.ask("GET hosts\nStats: name !=\n") == "2\n"))
        first = self.helper_of(running)
        os.kill(first, signal.SIGKILL)
        self.assertTrue(becomes_true(lambda: self.helper_of(running) not in (0, first) and self.ask("GET hosts\nStats: name !=\n") == "2\n"))
        second = self.helper_of(running)
        os.kill(running.pid, signal.SIGKILL)
        self.assertTrue(becomes_true(lambda: not pathlib.Path(f"/proc/{second}").exists() or " Z " in pathlib.Path(f"/proc/{second}/stat").read_text()))
        output, _ = running.communicate(timeout=10)
        self.assertIn("livestatus ended with status -9; it is begun again\n", output)

    def test_a_place_that_is_taken(self) -> None:
        """The monitor runs on, and its log says what is wrong."""
        self.path.write_text("a file")
        running = self.start_monitor("--livestatus", str(self.path))
        self.assertTrue(becomes_true(lambda: len(self.states()) == 3))
        time.sleep(2)
        self.assertIn(f"livestatus: {self.path} is no socket: move it away\n", self.stop_monitor(running))
        self.assertEqual(self.path.read_text(), "a file")
