"""A monitor of parts with mirrors that is killed at random moments: each result is with its original and its mirrors, or with none of them."""
import os
import random
import signal
import sqlite3
import time
from typing import Any, Dict

from nagsched_monitor.model.protocol import Standing, Status
from nagsched_monitor.scheduler.scheduling import Scheduling
from nagsched_monitor.site.site import read_site
from nagsched_monitor.store.store import Store

from .one_scheduler import standing_parts
from .running import ProcessTest
from .simulated import PROGRAM, SimulatedClock
from .waiting import becomes_true

KILLS = 8
OPTIONS = {"interval_length": 1, "host_inter_check_delay_method": "n", "service_inter_check_delay_method": "n"}


class Killed(ProcessTest):
    def write_parts(self) -> None:
        """A root and three hosts below it in the first part; mirrors of all four, and a host below each, in the second."""
        names = [f"h{number}" for number in range(3)]
        timing: Dict[str, Any] = {"check_interval": 1, "retry_interval": 1, "max_check_attempts": 3}
        hosts: Dict[str, Dict[str, Any]] = {"root": {"name": "root", **timing}}
        hosts.update((name, {"name": name, "parents": ["root"], **timing}) for name in names)
        never = {"enabled": False, "check_interval": 0, "retry_interval": 0}
        behind = [{"name": f"behind {name}", "parents": [name], **timing} for name in names]
        self.write("part-1.json", {"options": OPTIONS, "hosts": list(hosts.values())})
        self.write("part-2.json", {"options": OPTIONS, "hosts": [{**it, **never} for it in hosts.values()] + behind})
        self.write("mirrors.json", {"part-2": {name: "part-1" for name in hosts}})
        lines = {name: f"exit $(( ($(date +%s%N) / 700000000 + {number}) % 3 ))" for number, name in enumerate([*hosts, *(it["name"] for it in behind)])}
        self.write("commands.json", {name: {"line": line, "shell": True} for name, line in lines.items()})

    def last_call(self) -> int:
        """The number of the last stored call, while a monitor runs."""
        with sqlite3.connect(self.folder / "monitor.db") as database:
            numbers = database.execute("SELECT max(id) FROM calls UNION SELECT max(last_call) FROM generations")
            return max(int(number or 0) for (number,) in numbers)

    def test_killed_at_random_moments(self) -> None:
        self.write_parts()
        chance = random.Random(3)
        for kill in range(KILLS):
            running = self.start_monitor()
            wanted = self.last_call() + chance.randrange(8, 60)
            self.assertTrue(becomes_true(lambda: self.last_call() >= wanted))
            time.sleep(chance.uniform(0, 0.2))
            victims = [running.pid, *self.children_of(running.pid)]
            os.kill(victims[kill % len(victims)], signal.SIGKILL)
            time.sleep(0.1)
            self.stop_monitor(running, signal.SIGKILL)
        store = Store(self.folder)
        self.addCleanup(store.close)
        scheduling = Scheduling(PROGRAM, read_site(self.folder, PROGRAM), store, SimulatedClock(store.last_moment()), lambda line: None, False)
        scheduling.open()
        self.addCleanup(scheduling.close)
        told = []
        for name in ("root", "h0", "h1", "h2"):
            first, second = [scheduling.parts[part].query([Status(name)])[0] for part in (0, 1)]
            assert isinstance(first, Standing) and isinstance(second, Standing)
            self.assertEqual(standing_parts(first), standing_parts(second), name)
            told.append(first.state)
        self.assertNotEqual(set(told), {"PENDING"})
        self.assertGreater(store.last_call, 50)
