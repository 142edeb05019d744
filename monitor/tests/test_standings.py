"""The table of standings: it agrees with the monitor, and a restart continues with it."""
import pathlib
import sqlite3
from typing import Dict, Tuple
from unittest import mock

from nagsched_monitor.faults import ConversationEnded
from nagsched_monitor.site.site import read_site
from nagsched_monitor.store.rows import StoredStanding

from .simulated import BEGIN, PROGRAM, SimulatedClock, SimulatedMonitor, SiteTest, fine

HOSTS = [{"name": name, "check_interval": 60, "retry_interval": 10, "max_check_attempts": 3} for name in ("db", "web")]
SERVICES = [{"host": "web", "description": "http", "check_interval": 60, "max_check_attempts": 1}]
DOWN_FROM, DOWN_TO = BEGIN + 100_000, BEGIN + 400_000


def outage(name: str, moment: int) -> Tuple[int, int, str]:
    """A plugin that takes half a second, for a site whose host `web` and its service are down for five minutes."""
    if name.startswith("web") and DOWN_FROM <= moment < DOWN_TO:
        return 500, 2, "no answer|rta=0"
    return 500, 0, "fine"


def table(folder: pathlib.Path) -> Dict[str, StoredStanding]:
    """The standings as another process reads them."""
    with sqlite3.connect(f"file:{folder}/monitor.db?mode=ro", uri=True) as database:
        rows = database.execute(f"SELECT {', '.join(StoredStanding._fields)} FROM standings").fetchall()
    return {row[0]: StoredStanding(*row) for row in rows}


class Table(SiteTest):
    def setUp(self) -> None:
        super().setUp()
        self.write_site(HOSTS, SERVICES)

    def wall(self, seconds: float) -> float:
        return BEGIN / 1000 + seconds

    def assert_same(self, monitor: SimulatedMonitor) -> Dict[str, StoredStanding]:
        """The table agrees with the answer to a request, except for changes within the last second."""
        kept = table(self.folder)
        objects = monitor.scheduling.states.objects
        self.assertEqual(set(kept), set(objects))
        for name, obj in objects.items():
            row, standing = kept[name], obj.standing
            assert standing is not None
            self.assertEqual((row.state, row.kind, row.attempt, bool(row.flapping)), (standing.state, standing.kind, standing.attempt, standing.flapping))
            self.assertEqual((bool(row.is_on), row.words, row.out_since is None), (obj.on, obj.output, obj.run is None))
            self.assertEqual(row.next_check, None if obj.next is None else obj.next / 1000)
        return kept

    def test_rows_are_in_the_order_of_checks(self) -> None:
        """So those that are written together are next to each other. A row keeps its number over restarts and in other sites; a new object gets the next one."""
        def numbers() -> Dict[str, int]:
            with sqlite3.connect(self.folder / "monitor.db") as database:
                return dict(database.execute("SELECT name, id FROM standings ORDER BY id").fetchall())

        names = [f"h{number:02}" for number in range(40)]
        spread = {"max_host_check_spread": 1, "interval_length": 1, "host_inter_check_delay_method": "s"}
        self.write_site([{"name": name, "check_interval": 60, "max_check_attempts": 1} for name in reversed(names)], [], spread)
        monitor = self.monitor(fine)
        monitor.run(70)
        before = numbers()
        self.assertEqual(list(before), sorted(names, key=lambda name: monitor.starts()[name][0]))
        monitor.close()
        for site in (names[5:] + ["new"], names[10:] + ["new", "a", "b"], [*names, "b"]):
            self.write_site([{"name": name, "check_interval": 60, "max_check_attempts": 1} for name in sorted(site)], [], spread)
            monitor = self.monitor(fine, SimulatedClock(monitor.clock.now + 1_000))
            monitor.run(130)
            now = numbers()
            self.assertEqual(set(now), set(site))
            self.assertEqual({name: now[name] for name in now if name in before}, {name: before[name] for name in now if name in before})
            before = now
            monitor.close()

    def test_a_reload_while_no_scheduler_can_be_started(self) -> None:
        """The table keeps the states of objects until they are known again, and gets those of new objects then, before their next checks."""
        monitor = self.monitor(fine)
        monitor.run(35)
        self.write_site([*HOSTS, {"name": "new", "max_check_attempts": 1}], SERVICES)
        with mock.patch.object(monitor.scheduling, "_converse", side_effect=ConversationEnded("no room for a process")):
            monitor.engine.reload(read_site(self.folder, PROGRAM))
            monitor.run(3)
            self.assertEqual({name: row.state for name, row in table(self.folder).items()}, {"db": "UP", "web": "UP", "web;http": "OK"})
        monitor.run(4)
        self.assertEqual(set(self.assert_same(monitor)), {"db", "web", "web;http", "new"})

    def test_a_site_in_an_outage(self) -> None:
        monitor = self.monitor(outage)
        monitor.run(30)
        before = self.assert_same(monitor)
        self.assertEqual((before["web"].since, before["web"].hard_since, before["web"].last_check), (self.wall(0.5), self.wall(0.5), self.wall(0)))
        self.assertEqual((before["web"].took, before["web"].late, before["web"].words), (0.5, 0.0, "fine"))
        monitor.run(270)
        during = self.assert_same(monitor)
        web, http = during["web"], during["web;http"]
        self.assertEqual((web.state, web.kind, web.attempt, web.words), ("DOWN", "HARD", 3, "no answer|rta=0"))
        assert web.since is not None and web.hard_since is not None
        self.assertTrue(self.wall(100) < web.since < web.hard_since < self.wall(200), web)
        self.assertEqual((http.state, http.since == http.hard_since), ("CRITICAL", True))
        self.assertEqual(during["db"].since, self.wall(0.5))
        monitor.run(200)
        after = self.assert_same(monitor)
        assert after["web"].since is not None
        self.assertEqual((after["web"].state, after["web"].since == after["web"].hard_since), ("UP", True))
        self.assertGreater(after["web"].since, self.wall(400))

    def test_what_is_out(self) -> None:
        monitor = self.monitor(lambda name, moment: (5_000, 0, "slow"))
        monitor.run(3)
        self.assertEqual(self.assert_same(monitor)["db"].out_since, self.wall(0))
        monitor.run(5)
        db = self.assert_same(monitor)["db"]
        self.assertEqual((db.out_since, db.took, db.last_check), (None, 5.0, self.wall(0)))

    def test_switches_and_periods(self) -> None:
        monitor = self.monitor(fine)
        monitor.run(3)
        monitor.ask(do="disable", name="db")
        monitor.run(3)
        self.assertEqual({name: row.is_on for name, row in self.assert_same(monitor).items()}, {"db": 0, "web": 1, "web;http": 1})

    def test_a_restart_keeps_words_and_times(self) -> None:
        """Killed after a saved state or without one: times and output are those of before."""
        for saves in (False, True):
            with self.subTest(saves=saves):
                (self.folder / "monitor.db").unlink(missing_ok=True)
                monitor = self.monitor(outage)
                monitor.run(350)
                if saves:
                    monitor.engine.save()
                before = self.assert_same(monitor)
                monitor.close()
                again = self.monitor(outage, monitor.clock)
                self.assertEqual({name: obj.output for name, obj in again.scheduling.states.objects.items()},
                                 {"db": "fine", "web": "no answer|rta=0", "web;http": "no answer|rta=0"})
                again.run(0.1)
                after = self.assert_same(again)
                # Time in which no monitor ran makes nothing older.
                self.assertEqual({name: row._replace(known=0) for name, row in after.items()}, {name: row._replace(known=0) for name, row in before.items()})
                again.close()

    def test_a_row_that_lags_behind(self) -> None:
        """The table lost the latest rows: the stored changes show when an object's state began."""
        monitor = self.monitor(outage)
        monitor.run(350)
        before = self.assert_same(monitor)
        monitor.close()
        with sqlite3.connect(self.folder / "monitor.db") as database:
            database.execute("DELETE FROM standings WHERE name <> 'db'")
        again = self.monitor(outage, monitor.clock)
        again.run(0.1)
        after = self.assert_same(again)
        for name, row in before.items():
            self.assertEqual((after[name].since, after[name].hard_since, after[name].words), (row.since, row.hard_since, row.words))

    def test_a_reload_drops_rows(self) -> None:
        monitor = self.monitor(outage)
        monitor.run(350)
        before = table(self.folder)
        self.write_site([HOSTS[1], {**HOSTS[0], "name": "new"}], SERVICES)
        monitor.engine.reload(read_site(self.folder, PROGRAM))
        monitor.run(5)
        after = self.assert_same(monitor)
        self.assertEqual(sorted(after), ["new", "web", "web;http"])
        self.assertEqual([after["web"][index] for index in (1, 2, 5, 6, 13)], [before["web"][index] for index in (1, 2, 5, 6, 13)])
        monitor.close()
        self.monitor(outage, monitor.clock)

    def test_a_short_check_is_written_once(self) -> None:
        """A run that has just begun isn't written, so that a check costs one row and not two."""
        names = [f"h{number:02}" for number in range(50)]
        self.write_site([{"name": name, "check_interval": 10, "max_check_attempts": 3} for name in names], [], {"host_inter_check_delay_method": "s"})
        monitor = self.monitor(lambda name, moment: (600, 0, "fine"))
        monitor.run(20)
        begun, rows = len(monitor.runners.started), 0

        def count(statement: str) -> None:
            nonlocal rows
            rows += statement.startswith("INSERT OR REPLACE INTO standings")

        monitor.store._database.set_trace_callback(count)
        monitor.run(60)
        checks = len(monitor.runners.started) - begun
        self.assertGreater(checks, 250)
        self.assertLess(rows, checks * 1.1)

    def test_no_write_of_its_own_before_a_second(self) -> None:
        monitor = self.monitor(fine)
        monitor.run(3)
        writes, rows = 0, 0

        def count(statement: str) -> None:
            nonlocal writes, rows
            rows += statement.startswith("INSERT OR REPLACE INTO standings")
            if statement == "COMMIT":
                writes, rows = writes + (rows > 0), 0

        monitor.store._database.set_trace_callback(count)
        monitor.run(50)
        self.assertEqual(writes, 0)
        monitor.run(20)
        # Each of the three checks is taken and reported; the waiting rows are written once.
        self.assertTrue(1 <= writes <= 2 + 2 + 1, writes)
