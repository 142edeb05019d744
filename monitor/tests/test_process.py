"""The monitor as a process: killed at random moments it loses nothing; requests, reloads and signals."""
import contextlib
import json
import os
import pathlib
import random
import shutil
import signal
import sqlite3
import subprocess
import sys
import time
from typing import Any, Dict, List

from nagsched_monitor.inputs import client

from .running import MONITOR, ProcessTest
from .simulated import PROGRAM
from .waiting import LONG, becomes_true

KILLS = 10


class Running(ProcessTest):
    def calls(self, database: sqlite3.Connection) -> List[str]:
        return [line for (line,) in database.execute("SELECT line FROM calls ORDER BY id")]

    def count_of_calls(self) -> int:
        """The number of calls stored since the last save, while the monitor runs."""
        with sqlite3.connect(self.folder / "monitor.db") as database:
            return len(self.calls(database))

    def numbers_of_calls(self) -> List[int]:
        with sqlite3.connect(self.folder / "monitor.db") as database:
            return [number for (number,) in database.execute("SELECT id FROM calls ORDER BY id")]

    def answers(self, calls: List[str]) -> List[str]:
        """The answers of one run to the stored calls, from the state that was saved before them."""
        with sqlite3.connect(self.folder / "monitor.db") as database:
            setup, start, saved = database.execute("SELECT setup, start, saved FROM generations").fetchone()
        given = setup + b"\n" + (b"" if saved is None else saved + b"\n") + "".join(f"{call}\n" for call in calls).encode()
        words = [PROGRAM, "run", *([] if saved is None else ["--resume"]), "--start", str(start)]
        ran = subprocess.run(words, input=given, stdout=subprocess.PIPE, text=False, check=True)
        lines: List[str] = ran.stdout.decode().splitlines()
        return lines

    def test_killed_at_random_moments(self) -> None:
        """If any of its processes is killed, no run is taken twice, no plugin runs twice at once, and each reported result is kept."""
        self.write_site(self.objects(20), [])
        plugin = "flock -w 1 -o {folder}/{name}.lock sleep 1.5 || echo {name} >> {folder}/twice; exit {code}"
        names = [f"h{number:02}" for number in range(20)]
        lines = {name: plugin.format(folder=self.folder, name=name, code=number % 3) for number, name in enumerate(names)}
        self.write("commands.json", {name: {"line": line, "shell": True} for name, line in lines.items()})
        chance = random.Random(7)
        for kill in range(KILLS):
            running = self.start_monitor()
            before = self.last_call()
            self.assertTrue(becomes_true(lambda: self.last_call() > before + 20))
            time.sleep(chance.uniform(0, 1.5))
            if kill == KILLS // 3:
                self.run_command("save")
            victims = [running.pid, *self.children_of(running.pid)]
            os.kill(victims[kill % len(victims)], signal.SIGKILL)
            before = self.last_call()
            self.assertTrue(kill % len(victims) == 0 or becomes_true(lambda: self.last_call() > before + 20))
            self.stop_monitor(running, signal.SIGKILL)
        running = self.start_monitor()
        self.assertTrue(becomes_true(lambda: self.count_of_calls() > 200))
        told = self.states()
        self.stop_monitor(running, signal.SIGKILL)
        self.assertFalse((self.folder / "twice").exists())
        with sqlite3.connect(self.folder / "monitor.db") as database:
            kept = self.calls(database)
        answers = self.answers(kept)
        runs = [answer.split(" ")[1] for answer in answers if answer.startswith("taken ")]
        self.assertGreater(len(runs), 40)
        self.assertEqual(len(runs), len(set(runs)))
        self.assertEqual([answer for answer in answers if answer.startswith("refused")], [])
        self.assertEqual([line.split(" ")[0] for line in told], ["UP" if number % 3 < 2 else "DOWN" for number in range(20)])

    def last_call(self) -> int:
        """The number of the last call that was stored, while the monitor runs."""
        with sqlite3.connect(self.folder / "monitor.db") as database:
            numbers = database.execute("SELECT max(id) FROM calls UNION SELECT max(last_call) FROM generations")
            return max(int(number or 0) for (number,) in numbers)

    def test_a_slow_sync(self) -> None:
        """A disk whose sync takes 10 milliseconds: one sync stores what comes meanwhile, and every call was synced before it was made."""
        compiler = shutil.which("cc")
        if compiler is None:
            self.skipTest("there is no C compiler")
        shim = self.folder / "slow_sync.so"
        subprocess.run([compiler, "-shared", "-fPIC", "-o", str(shim), str(pathlib.Path(__file__).parent / "slow_sync.c"), "-ldl"], check=True)
        self.write_site(self.objects(50), [])
        synced = self.folder / "synced"
        running = self.start_monitor(environment={**os.environ, "LD_PRELOAD": str(shim), "SYNCED": str(synced)})
        self.assertTrue(becomes_true(lambda: self.count_of_calls() > 400))
        before, calls = synced.stat().st_size, self.count_of_calls()
        self.assertTrue(becomes_true(lambda: self.count_of_calls() > calls + 400))
        self.stop_monitor(running, signal.SIGKILL)
        with sqlite3.connect(self.folder / "monitor.db") as database:
            kept = self.calls(database)
        count = synced.stat().st_size - before
        self.assertTrue(3 < count < (len(kept) - calls) / 2, (count, len(kept) - calls))
        answers = self.answers(kept)
        reported = [answer for answer in answers if answer.startswith("standing ")]
        self.assertGreater(len(reported), 100)
        self.assertFalse([answer for answer in answers if answer.startswith("refused")])

    def test_a_plugin_that_leaves_a_child(self) -> None:
        self.write_site(self.objects(1), [])
        self.write("commands.json", {"h00": {"line": "echo fine; sleep 20 & exit 0", "shell": True}})
        running = self.start_monitor()
        self.await_states(["UP HARD 1 h00: fine"])
        self.stop_monitor(running)

    def test_words(self) -> None:
        self.write_site(self.objects(2), [{"host": "h00", "description": "trap", "max_check_attempts": 1, "enabled": False}])
        self.write("commands.json", {"h00": {"line": "echo up"}, "h01": {"line": "echo up"}})
        self.write("passive.json", {"h00;trap": {"only": True}})
        running = self.start_monitor("--on-change", f"cat >> {self.folder}/changes")
        self.assertEqual(self.run_command("result", "h00;trap", "2", "door open").stdout, "result: h00;trap\n")
        self.assertTrue(becomes_true(lambda: "UP HARD 1 h01: up" in self.states()))
        self.assertEqual(self.run_command("disable", "h01").stdout, "disable: h01\n")
        wrong = self.run_command("enable", "h02")
        self.assertEqual((wrong.returncode, wrong.stderr), (1, "nagsched-monitor: there is no object 'h02'; the command status lists the full names\n"))
        self.await_states(["UP HARD 1 h00: up", "CRITICAL HARD 1 off h00;trap: door open", "UP HARD 1 off h01: up"])
        self.assertTrue(becomes_true(lambda: (self.folder / "changes").exists() and (self.folder / "changes").read_text().endswith("\n")))
        second = subprocess.run([sys.executable, str(MONITOR), "--program", PROGRAM, str(self.folder)], capture_output=True, text=True, check=False)
        self.assertEqual(second.returncode, 1)
        self.assertIn("another monitor", second.stderr)
        self.assertEqual(self.run_command("stop").stdout, "stop: done\n")
        running.wait(timeout=30)
        output = self.stop_monitor(running)
        self.assertRegex(output, r"\d\d:\d\d:\d\d[+-]\d\d:\d\d h00;trap is CRITICAL HARD 1: door open")
        self.assertEqual(json.loads((self.folder / "changes").read_text())["name"], "h00;trap")
        self.assertEqual(running.returncode, 0)
        self.assertEqual(self.run_command("enable", "h00").returncode, 1)

    def test_reload(self) -> None:
        """Ten checks run while the site is read again: each is reported. A faulty site is refused with its line, and the old one continues."""
        self.write_site(self.objects(10), [])
        self.write("commands.json", {f"h{number:02}": {"line": f"until test -e {self.folder}/go; do sleep 0.1; done; echo slow; echo >> {self.folder}/ended",
                                                       "shell": True} for number in range(10)})
        running = self.start_monitor()
        self.assertTrue(becomes_true(lambda: sum(" running " in line for line in self.run_command("status").stdout.splitlines()) == 10))
        self.write("commands.json", {f"h{number:02}": {"line": "echo 'quick", "shell": False} for number in range(10)})
        refused = self.run_command("reload")
        self.assertEqual(refused.returncode, 1)
        self.assertIn("commands.json: h00: its line can't be split", refused.stderr)
        self.write("commands.json", {f"h{number:02}": {"line": "echo quick"} for number in range(10)})
        self.assertEqual(self.run_command("reload").stdout, "reload: done\n")
        self.assertEqual(sum(" running " in line for line in self.run_command("status").stdout.splitlines()), 10)
        (self.folder / "go").touch()
        self.await_states([f"UP HARD 1 h{number:02}: quick" for number in range(10)])
        self.assertEqual((self.folder / "ended").read_text(), "\n" * 10)
        (self.folder / "commands.json").write_text("no site")
        running.send_signal(signal.SIGHUP)
        time.sleep(0.5)
        self.write("commands.json", {f"h{number:02}": {"line": "echo by a signal"} for number in range(10)})
        running.send_signal(signal.SIGHUP)
        self.await_states([f"UP HARD 1 h{number:02}: by a signal" for number in range(10)])
        output = self.stop_monitor(running)
        self.assertNotIn("too late", output)
        self.assertNotIn("is dropped", output)
        self.assertIn("the site isn't taken over: commands.json: ", output)

    def test_reload_over_another_setup(self) -> None:
        """Objects of both setups continue, with state and attempt. New objects begin, removed ones are dropped, and changes are named."""
        self.write_site([*self.objects(2), {"name": "gone", "check_interval": 1, "max_check_attempts": 3}], [])
        self.write("commands.json", {name: {"line": f"echo {name}; exit 2", "shell": True} for name in ("h00", "h01", "gone")})
        running = self.start_monitor()
        self.await_states(["DOWN HARD 3 gone: gone", "DOWN HARD 2 h00: h00", "DOWN HARD 2 h01: h01"])
        hosts = [{**self.objects(1)[0], "check_interval": 100, "retry_interval": 100, "max_check_attempts": 4}, self.objects(2)[1]]
        self.write_site([*hosts, {"name": "new", "check_interval": 100, "max_check_attempts": 1}], [])
        self.write("commands.json", {name: {"line": f"echo {name}; exit 2", "shell": True} for name in ("h00", "h01", "new")})
        told = self.run_command("reload").stdout.splitlines()
        self.assertEqual(told, ["reload: done", "new: new", "dropped: gone", "changed attempts h00", "changed interval h00"])
        self.await_states(["DOWN HARD 4 h00: h00", "DOWN HARD 2 h01: h01", "DOWN HARD 1 new: new"])
        output = self.stop_monitor(running)
        self.assertNotIn("h00 is UP", output)
        with sqlite3.connect(self.folder / "monitor.db") as database:
            (runs,) = database.execute("SELECT saved FROM generations").fetchone()
        self.assertGreater(json.loads(runs)["runs"], 7)

    def test_a_saved_state(self) -> None:
        """Calls before it are dropped; a monitor that is killed resumes it, with the calls since."""
        self.write_site(self.objects(3), [])
        self.write("commands.json", {name: {"line": f"echo {name}; exit 2", "shell": True} for name in ("h00", "h01", "h02")})
        running = self.start_monitor()
        down = [f"DOWN HARD 2 h0{number}: h0{number}" for number in range(3)]
        self.await_states(down)
        last = self.numbers_of_calls()[-1]
        self.assertEqual(self.run_command("save").stdout, "save: done\n")
        self.assertEqual([number for number in self.numbers_of_calls() if number <= last], [])
        self.run_command("disable", "h02")
        self.stop_monitor(running, signal.SIGKILL)
        running = self.start_monitor()
        self.await_states([*down[:2], down[2].replace("h02", "off h02", 1)])
        self.stop_monitor(running)

    def test_a_signal_to_all_of_its_processes(self) -> None:
        """Ctrl-C in a terminal reaches the whole group: the state is saved all the same."""
        self.write_site(self.objects(2), [])
        running = self.start_monitor("--page", "127.0.0.1:0", "--nagios-files", str(self.folder))
        self.assertTrue(becomes_true((self.folder / "status.dat").exists))
        os.killpg(running.pid, signal.SIGINT)
        output = running.communicate(timeout=30)[0]
        self.assertEqual((running.returncode, "isn't saved" in output), (0, False))
        with sqlite3.connect(self.folder / "monitor.db") as database:
            self.assertEqual(self.calls(database), [])

    def test_a_log_that_takes_nothing(self) -> None:
        """Its disk is full, or its reader has ended: the site is monitored all the same."""
        self.write_site(self.objects(1), [])
        there, back = os.pipe()
        os.close(there)
        for log in (os.open("/dev/full", os.O_WRONLY), back):
            running = subprocess.Popen([sys.executable, str(MONITOR), "--program", PROGRAM, str(self.folder)], stdout=log, stderr=subprocess.DEVNULL, text=True)
            os.close(log)
            self.addCleanup(self.stop_monitor, running)
            self.await_socket(running)
            self.await_states(["UP HARD 1 h00:"])
            self.assertEqual(self.run_command("stop").stdout, "stop: done\n")
            running.wait(timeout=LONG)

    def test_a_database_that_is_gone(self) -> None:
        """The monitor is stuck by name, answers that the request may come again, and goes on when the file is back."""
        self.write_site(self.objects(2), [])
        running = self.start_monitor()
        self.assertTrue(becomes_true(lambda: bool(self.signs()["made"] > 2)))
        (self.folder / "monitor.db").rename(self.folder / "away")
        self.assertTrue(becomes_true(lambda: bool(self.signs()["is_stuck"])))
        answer = json.loads(client.send_request(self.folder, b'{"do":"result","name":"h00","code":0}'))
        self.assertEqual((answer["again"], "moved or deleted" in answer["error"]), (True, True))
        made = self.signs()["made"]
        (self.folder / "away").rename(self.folder / "monitor.db")
        self.assertTrue(becomes_true(lambda: bool(self.signs()["made"] > made + 2)))
        for path in self.folder.glob("monitor.db*"):
            path.unlink()
        self.assertTrue(becomes_true(lambda: bool(self.signs()["is_stuck"])))
        self.assertEqual(self.run_command("new-database").stdout, "new-database: done\n")
        for process in self.runners_of(running.pid):
            os.kill(process, signal.SIGKILL)
        made = self.signs()["made"]
        self.assertTrue(becomes_true(lambda: bool(self.signs()["made"] > made + 2)))
        for process in self.runners_of(running.pid):  # they have the lock of the new one
            self.assertIn(str(self.folder / "monitor.db"), [os.readlink(each) for each in pathlib.Path(f"/proc/{process}/fd").iterdir()])
        self.assertEqual(len(self.states()), 2)
        self.assertIn("moved or deleted", self.stop_monitor(running))

    def runners_of(self, process: int) -> List[int]:
        return [each for each in self.children_of(process) if pathlib.Path(f"/proc/{each}/comm").read_text() == "nagsched-runner\n"]

    def test_a_damaged_database(self) -> None:
        """The start is refused by a message with the command that continues, and continues after it."""
        self.write_site(self.objects(2), [])
        running = self.start_monitor()
        self.assertTrue(becomes_true(lambda: bool(self.signs()["made"] > 2)))
        self.stop_monitor(running, signal.SIGKILL)
        with contextlib.closing(sqlite3.connect(self.folder / "monitor.db")) as database:
            database.execute("UPDATE calls SET line = 'x' WHERE id = (SELECT max(id) FROM calls)")
            database.commit()
        self.assertIn(f"nagsched-monitor {self.folder} drop-calls", self.refusal())
        dropped = self.run_command("drop-calls")
        self.assertEqual((dropped.returncode, "calls since the last saved states are dropped" in dropped.stdout), (0, True))
        self.start_monitor()
        self.assertTrue(becomes_true(lambda: bool(self.signs()["made"] > 2)))

    def signs(self) -> Dict[str, Any]:
        signs: Dict[str, Any] = json.loads(client.send_request(self.folder, b'{"do":"signs"}'))
        return signs
