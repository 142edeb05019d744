"""A database that is deleted, replaced or overwritten while its monitor runs: the monitor is stuck by name, and a new one is written on an operator's word."""
import contextlib
import os
import pathlib
import re
import shutil
import sqlite3
import struct
from typing import Any, Callable, Dict, List, Set, Tuple
from unittest import mock

from nagsched_monitor.faults import NotStored
from nagsched_monitor.store.store import Store, insert

from .simulated import SimulatedMonitor, SiteTest, fine, host, service

SIDES = ("", "-wal", "-shm")


def delete_file(path: pathlib.Path) -> None:
    for side in SIDES:
        pathlib.Path(f"{path}{side}").unlink()


def replace_file(path: pathlib.Path) -> None:
    """An older copy takes its place."""
    shutil.copy(path.with_name("copy"), path.with_name("other"))
    path.with_name("other").replace(path)


def overwrite_file(path: pathlib.Path) -> None:
    """An older copy is written into it, as `cp` does."""
    shutil.copyfile(path.with_name("copy"), path)


def spoil_file(path: pathlib.Path) -> None:
    path.write_bytes(b"\xff" * path.stat().st_size)


def cut_log(path: pathlib.Path) -> None:
    """What SQLite hasn't yet written into the file itself is lost."""
    os.truncate(f"{path}-wal", 0)


def delete_log(path: pathlib.Path) -> None:
    pathlib.Path(f"{path}-wal").unlink()


def replace_log(path: pathlib.Path) -> None:
    """A copy takes its place, which SQLite doesn't write any more."""
    shutil.copy(f"{path}-wal", path.with_name("other"))
    path.with_name("other").replace(f"{path}-wal")


WAYS: List[Tuple[Callable[[pathlib.Path], None], str, bool]] = [
    (delete_file, "moved or deleted", True), (replace_file, "replaced", True), (overwrite_file, "overwritten", False), (spoil_file, "overwritten", False),
    (cut_log, "overwritten", False), (delete_log, "overwritten", False), (replace_log, "overwritten", True),
]


class Stuck(SiteTest):
    """A monitor with nothing to do for an hour."""

    def setUp(self) -> None:
        super().setUp()
        self.write_site([host("web", check_interval=3_600)], [])
        self.idle = self.monitor(fine)
        self.idle.run(61)

    def test_a_full_disk(self) -> None:
        """It stays stuck until something is written, and says once that the database takes writes again."""
        with mock.patch.object(self.idle.store, "write", side_effect=NotStored("database or disk is full")):
            self.assertTrue(self.idle.ask(do="result", name="web", code=0)["again"])
            for _ in range(30):
                self.idle.run(0.5)
                self.assertTrue(self.idle.engine.is_stuck)
        self.idle.run(2)
        self.assertFalse(self.idle.engine.is_stuck)
        self.assertEqual(self.idle.lines.count("the database takes writes again"), 1)

    def test_a_file_that_is_gone(self) -> None:
        """It is noticed within a second."""
        path, away = self.idle.store.path, self.idle.store.path.with_name("away")
        for _ in range(10):
            self.idle.run(0.9)
            path.rename(away)
            self.idle.run(1.1)
            self.assertTrue(self.idle.engine.is_stuck)
            away.rename(path)
            self.idle.run(1.1)
            self.assertFalse(self.idle.engine.is_stuck)


class NewDatabase(SiteTest):
    def setUp(self) -> None:
        super().setUp()
        self.path = self.folder / "monitor.db"

    def begin(self) -> SimulatedMonitor:
        """A site with a problem, a switch, a passive result, a numbered request, and an older copy of its database."""
        for path in self.folder.iterdir():
            path.unlink()
        self.write_site([host("web"), host("db")], [service("web", "http"), service("db", "backup")], passive={"db;backup": {"only": True}})
        monitor = self.monitor(lambda name, moment: (1_000, 2 if name == "web;http" else 0, f"at {moment}"))
        monitor.run(200)
        with sqlite3.connect(self.path) as source, sqlite3.connect(self.folder / "copy") as copy:
            source.backup(copy)
        self.assertEqual(monitor.ask(do="disable", name="db", number="n-1")["on"], False)
        monitor.ask(do="result", name="db;backup", code=2, output="no space left")
        monitor.store.write(insert("settings", None, "on_change", "cat"), insert("not_taken", None, "{}"))
        monitor.engine.counters.count("faults")
        monitor.run(400)
        return monitor

    def history(self, monitor: SimulatedMonitor) -> Set[Tuple[object, ...]]:
        """The rows that only the database has."""
        rows = {table: monitor.store._read(f"SELECT * FROM {table}") for table in ("changes", "outbox", "not_taken", "settings")}
        self.assertTrue(all(rows.values()))
        return {(table, *row) for table, its in rows.items() for row in its}

    def facts(self, monitor: SimulatedMonitor) -> Dict[str, Any]:
        """What has to be the same after a restart."""
        states = {obj.name: (obj.standing and obj.standing[:3], obj.on, obj.next, obj.output, obj.phase, obj.history.since)
                  for obj in monitor.engine.objects.values()}
        made = {name: value for name, value in monitor.engine.counters._values.items() if name.startswith(("checks.", "faults"))}
        return {"states": states, "numbers": monitor.engine.requests._numbers, "made": made, "switches": monitor.engine.checks.operator_switches}

    def test_each_way(self) -> None:
        for damage, name, has_history in WAYS:
            with self.subTest(damage.__name__):
                monitor = self.begin()
                history, last_call = self.history(monitor) if has_history else set(), monitor.store.last_call
                damage(self.path)
                monitor.run(100)
                self.assertTrue(monitor.engine.is_stuck)
                self.assertRegex(monitor.lines[-1], f"no call is made until it can be stored: .*{name} while .*new-database")
                self.assertIs(monitor.ask(do="result", name="db;backup", code=0)["again"], True)
                self.assertEqual(monitor.ask(do="new-database"), {"done": "new-database"})
                self.assertIn("the database takes writes again", monitor.lines)
                self.assertLessEqual(history, self.history(monitor) if has_history else set())
                self.assertGreaterEqual(monitor.store.last_call, last_call)
                self.assertEqual(self.path.with_name("monitor.db.old").exists(), damage is not delete_file)
                self.assert_continues(monitor, has_history)

    def assert_continues(self, monitor: SimulatedMonitor, has_history: bool) -> None:
        """Checks are made again, by a scheduler that is started again too, and by the next monitor, which has what this one had."""
        starts, lines = len(monitor.starts()["web"]), len(monitor.lines)
        monitor.kill_schedulers()
        monitor.ask(do="result", name="db;backup", code=0, output="done")
        monitor.run(200)
        self.assertGreater(len(monitor.starts()["web"]), starts + 2)
        monitor.engine.save()
        self.assertEqual([line for line in monitor.lines[lines:] if re.search("too late|refused|otherwise", line)], [])
        before, history = self.facts(monitor), monitor.store.last_changes("web;http")
        self.assertTrue(history is not None or not has_history)
        monitor.engine.close()
        monitor.close()
        after = SimulatedMonitor(self.folder, lambda name, moment: (1_000, 0, ""), monitor.clock)
        self.addCleanup(after.close)
        self.assertEqual(self.facts(after), before)
        self.assertEqual(after.store.last_changes("web;http"), history)
        self.assertEqual([line for line in after.lines if "was changed since" in line], [])
        after.close()

    def test_what_waits(self) -> None:
        """A change that isn't stored yet is in the new database, and a passive result that isn't reported yet."""
        monitor = self.begin()
        monitor.ask(do="result", name="db;backup", code=0, output="done")
        for _ in range(100):
            if monitor.scheduling._pending_writes:
                break
            monitor.run(0.01)
        monitor.add_result("db;backup", 1, "late")
        delete_file(self.path)
        monitor.engine._renew_database()
        past = monitor.store.last_changes("db;backup")
        self.assertEqual((past and past.state, [result.words for result in monitor.store.waiting_results()]), ("OK", ["late"]))

    def test_a_file_that_is_as_it_was(self) -> None:
        """Also after work of another program through SQLite, such as a backup's: nothing is done."""
        numbers = "WITH RECURSIVE numbers (it) AS (SELECT 1 UNION ALL SELECT it + 1 FROM numbers LIMIT 3000)"
        rows = ("BEGIN IMMEDIATE", "CREATE TABLE audit (line TEXT)", f"INSERT INTO audit {numbers} SELECT zeroblob(4000) FROM numbers")
        works = [(*rows, "COMMIT"), (*rows, "ROLLBACK"), ("VACUUM",), *((f"PRAGMA wal_checkpoint({way})",) for way in ("PASSIVE", "FULL", "RESTART", "TRUNCATE"))]
        for work in works:
            with self.subTest(work):
                monitor = self.begin()
                with contextlib.closing(sqlite3.connect(self.path, isolation_level=None)) as other:
                    for line in ("PRAGMA cache_size = 10", *work):
                        other.execute(line).fetchall()
                monitor.run(100)
                self.assertFalse(monitor.engine.is_stuck)
                answer = monitor.ask(do="new-database")
                self.assertRegex(answer["error"], "is as the monitor left it")
                self.assertNotIn("again", answer)
                monitor.close()

    def test_a_checkpoint_that_another_program_makes_now(self) -> None:
        """The file may change as long as SQLite's index says so."""
        monitor = self.begin()
        file = os.open(f"{self.path}-shm", os.O_RDWR)
        self.addCleanup(os.close, file)
        for added, is_stuck in ((1, False), (-1, True)):
            (begun,) = struct.unpack("=I", os.pread(file, 4, 128))
            os.pwrite(file, struct.pack("=I", begun + added), 128)
            monitor.store.file.note_state()
            os.utime(self.path)
            monitor.run(10)
            self.assertEqual(monitor.engine.is_stuck, is_stuck)

    def test_a_file_that_cannot_be_written(self) -> None:
        """Also if it is the monitor's own: its pages may be damaged."""
        monitor = self.begin()
        with mock.patch.object(monitor.store, "write", side_effect=NotStored("database disk image is malformed")):
            monitor.run(10)
            self.assertTrue(monitor.engine.is_stuck)
        self.assertEqual(monitor.ask(do="new-database"), {"done": "new-database"})
        self.assert_continues(monitor, True)

    def test_no_room_for_it(self) -> None:
        """Nothing has changed, and the request may come again; no file is left."""
        monitor = self.begin()
        delete_file(self.path)
        with mock.patch.object(Store, "write", side_effect=NotStored("disk full")):
            self.assertEqual(monitor.ask(do="new-database"), {"error": "disk full", "again": True})
        with mock.patch("nagsched_monitor.store.store.Store", side_effect=OSError(28, "no room")):
            self.assertEqual(monitor.ask(do="new-database"), {"error": f"{self.path}: no room: make room on its disk", "again": True})
        self.assertEqual(sorted(path.name for path in self.folder.glob("monitor*")), [])
        monitor.run(10)
        self.assertEqual(monitor.ask(do="new-database"), {"done": "new-database"})

    def test_many_checkpoints(self) -> None:
        """What SQLite itself writes into the file isn't taken for another program's."""
        monitor = self.begin()
        monitor.store._database.execute("PRAGMA wal_autocheckpoint=1")
        monitor.run(2_000)
        self.assertEqual([line for line in monitor.lines if "overwritten" in line], [])
