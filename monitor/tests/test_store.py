"""The database: changed rows are found, and a failed write changes nothing."""
import contextlib
import gc
import os
import sqlite3
from typing import List
from unittest import mock

from nagsched_monitor.faults import MonitorFault, NotStored
from nagsched_monitor.model.remarks import Remark
from nagsched_monitor.store.remark_table import store_remark
from nagsched_monitor.store.rows import LOSSES, TABLES, VERSION, Generation, StoredChange, StoredStanding, checksum_of
from nagsched_monitor.store.generations import begin_generations
from nagsched_monitor.store.store import (
    Store, delete, drop_changes_before, insert, store_calls, store_change, store_figures, store_request, store_standings,
)

from .simulated import SiteTest

STANDING = StoredStanding("web", "DOWN", "HARD", 3, False, 990.5, 1000.5, 1000.25, 1060.0, True, None, 0.5, 0.0, "no answer", 60_000, 61_000)
REMARK = Remark(3, "downtime", "web", "ada", "move", 1000.5, 1000.5, 2000.0, True, False, 60.0, 1030.0, "DOWN")
CHANGE = StoredChange(2, 1000.5, "web", "DOWN", "HARD", 3, False, "no answer")


class Database(SiteTest):
    def filled(self) -> Store:
        """A database with a row in each table."""
        store = Store(self.folder)
        self.addCleanup(store.close)
        store.write(
            begin_generations([Generation(0, b"{}", 7, b'{"format":1}', 0, frozenset({"gateway"}))]),
            store_calls([(0, '["take",8]', None), (0, '["report","web",1,2]', "no answer")]),
            insert("switches", None, "web", 0),
            insert("passive", None, "web", 1, "slow"),
            store_change(CHANGE, '{"name":"web"}', 8),
            insert("settings", None, "on_change", "cat"),
            insert("not_taken", None, "{}"),
            store_standings([STANDING]),
            store_figures({"saves": 3.0}),
            store_request("a-1", "{}"),
            insert("aside", 1, 0, '["take",8]'),
            store_remark(REMARK),
        )
        return store

    def test_what_was_written_is_read(self) -> None:
        self.filled().close()
        store = Store(self.folder)
        self.addCleanup(store.close)
        self.assertEqual([call.line for call in store.calls_since(0, 0)], ['["report","web",1,2]'])
        self.assertEqual((store.switches(), [result.words for result in store.waiting_results()]), ({"web": False}, ["slow"]))
        self.assertEqual((store.generations()[0].saved, store.last_call, store.changes_after(0), store.last_moment()), (b'{"format":1}', 2, {2}, 8))
        self.assertEqual(store.requests(), {"a-1": "{}"})
        self.assertEqual(store.generations()[0].mirrors, {"gateway"})
        self.assertEqual((store.outbox(), store.figures()), ([(1, '{"name":"web"}', 8)], {"saves": 3.0}))
        self.assertEqual(store.standings(), [STANDING])
        self.assertEqual(store.remarks(), [REMARK])
        store.write(store_figures({"moment": 9.0}))
        self.assertEqual(store.last_moment(), 9)
        store.write(delete("standings", "name = ?", "web"))
        self.assertEqual(store.standings(), [])

    def test_figures_are_replaced(self) -> None:
        store = self.filled()
        store.write(store_figures({"calls": 7.0, "saves": 4.0}))
        store.write(store_figures({"calls": 8.0, "late.sum": 0.25}))
        self.assertEqual(store.figures(), {"saves": 4.0, "calls": 8.0, "late.sum": 0.25})
        store.close()
        Store(self.folder).close()

    def test_a_changed_byte_in_each_table(self) -> None:
        """A damaged row that schedulers continue from is refused; any other is set aside with a line that says what its loss means."""
        self.filled().close()
        for table, members in TABLES.items():
            for member in ["checksum", *(each.split()[0] for each in members.split(", "))]:
                if table not in ("changes", "damaged"):
                    with self.subTest(f"{table}.{member}"), sqlite3.connect(self.folder / "monitor.db") as database:
                        row = database.execute(f"SELECT * FROM {table} ORDER BY id LIMIT 1").fetchone()
                        (before,) = database.execute(f"SELECT {member} FROM {table} ORDER BY id LIMIT 1").fetchone()
                        after = 9 if isinstance(before, (int, float)) else b"x" if isinstance(before, bytes) else "x"
                        database.execute(f"UPDATE {table} SET {member} = ? WHERE id = (SELECT min(id) FROM {table})", (after,))
                        database.commit()
                        self.assert_found(table)
                        database.execute(f"INSERT OR REPLACE INTO {table} VALUES ({','.join('?' * len(row))})", row)
                        database.commit()
        Store(self.folder).close()

    def assert_found(self, table: str) -> None:
        lines: List[str] = []
        if table not in LOSSES:
            with self.assertRaisesRegex(MonitorFault, rf"row \d+ of {table} .*drop-calls"):
                Store(self.folder)
            return
        Store(self.folder, lines.append).close()
        self.assertRegex(lines[0], rf"row \d+ of {table} was changed since it was written.*{LOSSES[table]}")

    def test_which_tables_stop_a_start(self) -> None:
        """Those that schedulers continue from."""
        self.assertEqual(set(TABLES) - set(LOSSES), {"generations", "mirrors", "calls", "damaged"})

    def test_a_changed_byte_in_the_history(self) -> None:
        """It is found when it is read: it counts for nothing, and stays for inspection."""
        self.filled().close()
        with sqlite3.connect(self.folder / "monitor.db") as database:
            database.execute("UPDATE changes SET state = 'UP'")
        lines: List[str] = []
        store = Store(self.folder, lines.append)
        self.addCleanup(store.close)
        self.assertEqual((lines, store.last_changes("web")), (lines, None))
        self.assertEqual(len(lines), 1)
        self.assertEqual([source for (source,) in store._database.execute("SELECT source FROM damaged")], ["changes"])

    def test_a_database_of_the_version_before(self) -> None:
        """Its standings are taken over; one of a later version is refused."""
        self.filled().close()
        with sqlite3.connect(self.folder / "monitor.db") as database:
            row = database.execute("SELECT * FROM standings").fetchone()
            database.execute("DROP TABLE standings")
            members = TABLES["standings"].replace(", phase INTEGER, known INTEGER", "")
            database.execute(f"CREATE TABLE standings (id INTEGER PRIMARY KEY, {members}, checksum TEXT)")
            cells = row[1:-3]
            database.execute(f"INSERT INTO standings VALUES ({','.join('?' * len(row[:-2]))})", (row[0], *cells, checksum_of("standings", row[0], cells)))
            database.execute("DROP TABLE outbox")
            database.execute("CREATE TABLE outbox (id INTEGER PRIMARY KEY, document TEXT, checksum TEXT)")
            database.execute("INSERT INTO outbox VALUES (1, '{}', ?)", (checksum_of("outbox", 1, ["{}"]),))
            for table in ("requests", "aside", "damaged", "settings", "not_taken"):
                database.execute(f"DROP TABLE {table}")
            database.execute("PRAGMA user_version = 0")
        store = Store(self.folder)
        self.assertEqual(store.standings(), [STANDING._replace(phase=None, known=None)])
        self.assertEqual(store.outbox(), [(1, "{}", None)])
        self.assertEqual(store.requests(), {})
        store.close()
        with sqlite3.connect(self.folder / "monitor.db") as database:
            self.assertEqual(database.execute("PRAGMA user_version").fetchone(), (VERSION,))
            database.execute(f"PRAGMA user_version = {VERSION + 1}")
        with self.assertRaisesRegex(MonitorFault, f"it has version {VERSION + 1}"):
            Store(self.folder)

    def test_it_is_for_its_owner_only_and_synced(self) -> None:
        store = self.filled()
        self.assertEqual(store.path.stat().st_mode & 0o777, 0o600)
        self.assertEqual(store._database.execute("PRAGMA synchronous").fetchone(), (2,))
        self.assertEqual(store._database.execute("PRAGMA journal_mode").fetchone(), ("wal",))

    def test_a_read_that_fails(self) -> None:
        """It is reported as data that can't be stored, and tried again."""
        store = self.filled()
        store._database.execute("ALTER TABLE outbox RENAME TO gone")
        with self.assertRaises(NotStored):
            store.outbox()

    def test_a_call_that_is_gone(self) -> None:
        store = self.filled()
        store.write(store_calls([(0, '["take",9]', None)]))
        store.close()
        with sqlite3.connect(self.folder / "monitor.db") as database:
            database.execute("DELETE FROM calls WHERE id = 2")
        with self.assertRaisesRegex(MonitorFault, "1 rows of calls are missing"):
            Store(self.folder)

    def test_another_monitor(self) -> None:
        self.filled()
        with self.assertRaisesRegex(MonitorFault, "another monitor"):
            Store(self.folder)

    def test_no_database(self) -> None:
        (self.folder / "monitor.db").write_text("this is no database " * 100)
        with self.assertRaises(MonitorFault):
            Store(self.folder)

    def test_a_full_disk_changes_nothing(self) -> None:
        store = self.filled()
        (pages,) = store._database.execute("PRAGMA page_count").fetchone()
        store._database.execute(f"PRAGMA max_page_count = {pages}")
        with self.assertRaises(NotStored):
            store.write(insert("switches", None, "db", 1), store_calls([(0, '["take",%d]' % number, None) for number in range(2000)]))
        self.assertEqual((store.last_call, store.switches()), (2, {"web": False}))
        store._database.execute("PRAGMA max_page_count = 100000")
        store.write(store_calls([(0, '["take",10]', None)]))
        self.assertEqual([call.id for call in store.calls_since(0, 0)], [2, 3])

    def test_a_write_that_fails_behind_others(self) -> None:
        """None of them is stored, and numbers continue as before."""
        def failing(store: Store) -> None:
            raise sqlite3.OperationalError("disk I/O error")

        store = self.filled()
        with self.assertRaises(NotStored):
            store.write(store_calls([(0, '["take",9]', None)]), failing)
        self.assertEqual((store.last_call, [call.id for call in store.calls_since(0, 0)]), (2, [2]))

    def test_an_opening_writes_nothing(self) -> None:
        """So a monitor starts on a full disk."""
        self.filled().close()
        before = (self.folder / "monitor.db").read_bytes()
        store = Store(self.folder)
        self.addCleanup(store.close)
        self.assertEqual(sum(path.stat().st_size for path in self.folder.glob("monitor.db-wal")), 0)
        self.assertEqual((self.folder / "monitor.db").read_bytes(), before)

    def test_a_write_that_raises_something_else(self) -> None:
        """It is rolled back too, and the next write is carried out."""
        store = self.filled()
        with self.assertRaises(UnicodeEncodeError):
            store.write(store_calls([(0, '["take",9]', None)]), store_request("\ud800", "{}"))
        store.write(store_request("b", "{}"))
        self.assertEqual((store.last_call, store.requests()), (2, {"a-1": "{}", "b": "{}"}))

    def test_calls_that_are_dropped(self) -> None:
        """A damaged database continues from its last saved states: numbers go on, and a part whose state is damaged begins from scratch."""
        for damage, parts in (("UPDATE calls SET line = 'x' WHERE id = 3", 2), ("UPDATE generations SET saved = 'x' WHERE part = 1", 1),
                              ("DELETE FROM calls WHERE id = 4", 2), ("UPDATE mirrors SET names = 'x'", 1)):
            with self.subTest(damage):
                store = self.filled()
                store.write(begin_generations([Generation(part, b"{}", 7, b'{"format":1}', 0, frozenset({"gateway"} if part else {})) for part in (0, 1)]),
                            store_calls([(0, '["take",8]', None)] * 3))
                store.close()
                with contextlib.closing(sqlite3.connect(self.folder / "monitor.db")) as database:
                    database.execute(damage)
                    database.commit()
                with self.assertRaisesRegex(MonitorFault, "drop-calls"):
                    Store(self.folder)
                lines: List[str] = []
                Store(self.folder, lines.append, is_calls_dropped=True).close()
                self.assertIn("calls since the last saved states are dropped", lines[-1])
                store = Store(self.folder)
                self.assertEqual((len(store.generations()), store.calls_since(0, 0), store.last_call > 0), (parts, [], True))
                store.close()
                for path in self.folder.glob("monitor.db*"):
                    path.unlink()

    def test_a_file_that_is_gone_or_another(self) -> None:
        """Nothing is written until it is back."""
        store, path, away = self.filled(), self.folder / "monitor.db", self.folder / "away"
        path.rename(away)
        with self.assertRaisesRegex(NotStored, "moved or deleted"):
            store.write(store_figures({"calls": 7.0}))
        path.write_bytes(b"")
        with self.assertRaisesRegex(NotStored, "replaced"):
            store.write(store_figures({"calls": 7.0}))
        away.replace(path)
        store.write(store_figures({"calls": 7.0}))

    def test_a_new_database_leaves_no_file_open(self) -> None:
        gc.collect()  # it closes what other tests left open
        store, count = self.filled(), len(os.listdir("/proc/self/fd"))
        store.renew()
        self.assertEqual(len(os.listdir("/proc/self/fd")), count)
        store.close()
        self.assertEqual(len(os.listdir("/proc/self/fd")), count - 5)  # the file and the index twice, and SQLite's log

    def test_a_program_that_reads_without_an_end(self) -> None:
        """The log says so when SQLite's log is too large, at twice the size, and of another such program."""
        for module in ("store", "database_file"):
            smaller = mock.patch(f"nagsched_monitor.store.{module}.LARGEST_LOG", 6_400_000)
            smaller.start()
            self.addCleanup(smaller.stop)
        lines: List[str] = []
        store = Store(self.folder, lines.append)
        self.addCleanup(store.close)
        for program in (1, 2):
            with contextlib.closing(sqlite3.connect(store.path, isolation_level=None)) as reader:
                reader.execute("BEGIN")
                reader.execute("SELECT * FROM figures").fetchall()
                for number, told in ((1, 0), (5, 0), (8, 1), (12, 1), (15, 2)):
                    while store.file.log_size() < number * 1_000_000:
                        store.write(insert("not_taken", 1, "x" * 1_000_000))
                    self.assertEqual(len(lines), 2 * (program - 1) + told)
            for _ in range(3):
                store.write(insert("not_taken", 1, "x"))
        self.assertRegex(lines[0], "monitor.db-wal has [67] MB and grows: end the program")

    def test_a_saved_state_lets_go_of_the_calls_before(self) -> None:
        store = self.filled()
        store.write(begin_generations([Generation(0, b"{}", 7, b"{}", 2)]), store_calls([(0, '["take",11]', None)]))
        self.assertEqual([call.line for call in store.calls_since(0, 2)], ['["take",11]'])
        self.assertEqual(len(list(store.calls_since(0, 0))), 1)

    def test_old_changes_go(self) -> None:
        store = self.filled()
        store.write(store_change(StoredChange(3, 2000.0, "web", "UP", "HARD", 1, False, ""), None), drop_changes_before(1500.0))
        self.assertEqual(store._database.execute("SELECT id FROM changes").fetchall(), [(3,)])
