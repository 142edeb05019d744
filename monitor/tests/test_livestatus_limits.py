"""Livestatus: what it refuses, mutated queries, the limits of its socket, and a database that can't be read."""
import os
import random
import socket
import sqlite3
import stat
import time
from functools import partial
from typing import Counter, List
from unittest import mock

from nagsched_monitor.faults import MonitorFault
from nagsched_monitor.outputs import livestatus, livestatus_query, livestatus_tables
from nagsched_monitor.outputs.object_rows import ObjectRows
from nagsched_monitor.store.rows import StoredChange, StoredStanding
from nagsched_monitor.store.store import Store, store_standings
from nagsched_monitor.system.thread_server import MOST_CLIENTS

from .livestatus_site import NOW, LivestatusTest, ask, remark
from .shown_site import standing, store_site
from .waiting import becomes_true
from .work_count import check_growth, work_of

# Queries of all kinds, which are mutated.
GOOD = (
    "GET hosts\nColumns: name alias state groups custom_variables\nFilter: state >= 0\nFilter: groups >= linux\nOr: 2\nNegate:\nSort: name desc\nLimit: 10\n",
    "GET services\nColumns: host_name description plugin_output\nFilter: description ~~ ^h(tt|ss)p\n"
    "Filter: host_custom_variables = RACK 7\nAnd: 2\nOutputFormat: json\n",
    "GET services\nStats: state = 0\nStats: state = 2\nStatsOr: 2\nStats: avg latency\nStats: max state\nColumns: host_name\nOutputFormat: python\nOffset: 1\n",
    "GET log\nColumns: time type message\nFilter: time >= 5\nFilter: time < 1795766500\nFilter: state = 1\nOr: 2\nAuthUser: ada\nLimit: 5\n",
    "GET downtimes\nColumns: id author host_name service_description\nResponseHeader: fixed16\nKeepAlive: on\nColumnHeaders: on\nSeparators: 10 59 44 124\n",
    "GET hosts\nWaitTrigger: check\nWaitObject: web\nWaitCondition: state = 0\nWaitTimeout: 20\nColumns: name last_check\nLocaltime: 1\n",
    "COMMAND [1795766400] SCHEDULE_FORCED_SVC_CHECK;web;http;1795766400\n", "GET columns\nFilter: table = hosts\n", "GET servicesbygroup\nFilter: members =\n",
)


class Refused(LivestatusTest):
    def setUp(self) -> None:
        super().setUp()
        self.serve()

    def test_codes(self) -> None:
        for code, lines, why in (
            (404, ["GET nothing"], "there is no table 'nothing': the tables are hosts, services, "),
            (452, ["GET"], "a request has to be GET TABLE or COMMAND [TIME] NAME, not 'GET'"), (452, ["PUT hosts"], "'PUT hosts'"), (452, ["hosts"], "'hosts'"),
            (450, ["GET hosts", "Columns: name nocolumn"], "'Columns: name nocolumn': the table hosts has no column 'nocolumn'"),
            (450, ["GET hosts", "Filter: no = 1"], "has no column 'no'"), (450, ["GET hosts", "Stats: sum no"], "has no column 'no'"),
            (450, ["GET hosts", "Sort: no"], "has no column 'no'"), (450, ["GET log", "Filter: no = 1"], "the table log has no column 'no'"),
            (400, ["GET hosts", "Filters: state = 0"], "'Filters: state = 0': there is no such header"),
            (400, ["GET hosts", "state = 0"], "there is no such header"),
            (400, ["GET hosts", "Filter: state"], "'Filter: state': it has to be COLUMN OPERATOR VALUE, with one of the operators = < > <= >= ~ ~~ =~"),
            (400, ["GET hosts", "Filter: state == 0"], "COLUMN OPERATOR VALUE"), (400, ["GET hosts", "Filter: state = down"], "the column needs a number"),
            (400, ["GET hosts", "Filter: state ~ 1"], "a number takes no such operator"),
            (400, ["GET hosts", "Filter: groups = linux"], "a list takes `>= NAME`"),
            (400, ["GET hosts", "Filter: name ~ (a"], "'Filter: name ~ (a': it is no regular expression: "), (400, ["GET hosts", "Filter:"], "COLUMN OPERATOR"),
            (400, ["GET hosts", "Filter: state = 0", "And: 2"], "'And: 2': it needs 2 conditions before it"), (400, ["GET hosts", "Or: 0"], "1 conditions"),
            (400, ["GET hosts", "Negate:"], "it needs 1 conditions before it"), (400, ["GET hosts", "And: -1"], "it needs a whole number"),
            (400, ["GET hosts", "Stats: sum latency", "Stats: state = 0", "StatsAnd: 2"], "2 conditions"),
            (400, ["GET hosts", "Stats: sum name"], "a column of numbers"),
            (400, ["GET hosts", "Limit: ten"], "'Limit: ten': it needs a whole number"), (400, ["GET hosts", "Offset: 99999999999999"], "whole number"),
            (400, ["GET hosts", "OutputFormat: xml"], "it has to be one of csv, json, python"), (400, ["GET hosts", "KeepAlive: yes"], "on, off"),
            (400, ["GET hosts", "ColumnHeaders: 1"], "on, off"), (400, ["GET hosts", "Sort: name up"], "asc, desc"),
            (400, ["GET hosts", "WaitTrigger: x"], "all, check"),
            (400, ["GET hosts", "WaitObject: nobody"], "the table hosts has no such object"), (400, ["GET status", "WaitObject: web"], "no such object"),
            (400, ["GET hosts", "Separators: 10 59"], "four codes"), (400, ["GET hosts", "Separators: 10 59 44 256"], "whole number up to 255"),
            (400, ["GET hosts", "Localtime: 5"], "clock differs"), (413, ["GET hosts", "Columns: " + "name " * 1001], "at most 1000 columns"),
            (413, ["GET hosts", *["Stats: state = 0"] * 1001], "at most 1000 columns"),
        ):
            self.assertIn(why, self.refused(code, *lines), lines)
        self.assertEqual(self.lines, [])

    def test_without_a_frame(self) -> None:
        """The code is before the text, so that nobody takes it for data."""
        self.assertTrue(self.ask("GET x").startswith("404: there is no table 'x': "))
        self.assertEqual(ask(self.path, "GET hosts\nColumns: na"), "451: it ends within the line 'Columns: na': a request ends with an empty line\n")
        self.assertTrue(ask(self.path, "GET hosts\nResponseHeader: fixed16\nx").startswith("451          "))
        self.assertEqual((ask(self.path, ""), ask(self.path, "\n\n\n")), ("", ""))
        self.assertEqual(ask(self.path, "GET hosts\nColumns: name\nLimit: 1\n"), "db\n")

    def test_mutated_queries(self) -> None:
        """Each of 300 mutated queries gets an answer or a refusal with a known code, and the log has no fault."""
        for module, limit in ((livestatus_query, "LONGEST_WAIT"), (livestatus, "PATIENCE")):  # a query may lose its own limit, and no monitor runs
            short = mock.patch.object(module, limit, 0.1)
            short.start()
            self.addCleanup(short.stop)
        chance, codes = random.Random(110), set()
        for number in range(300):
            data = bytearray(GOOD[number % len(GOOD)].encode())
            for _ in range(chance.randint(1, 4)):
                place = chance.randrange(len(data))
                change = chance.randrange(4)
                if change == 0:
                    data[place] = chance.randrange(256)
                elif change == 1:
                    del data[place : place + chance.randint(1, 8)]
                elif change == 2:
                    data[place:place] = chance.choice((b"\n", b"9" * 30, b"\xff\xfe", b"And: 7\n", b"Negate:\n", b" ", b"(", b"Filter: name ~ [\n", b"\0",
                                                       b"-"))
                else:
                    data[place:place] = data[: chance.randint(1, 40)]
                data = data or bytearray(b"x")
            framed = ask(self.path, data.decode(errors="surrogateescape") + "\nResponseHeader: fixed16\n\n")
            codes.add(framed[:3])
            self.assertNotIn("the monitor has a fault", framed, bytes(data))
        self.assertTrue({"200", "400", "404", "450", "452"} <= codes, codes)
        self.assertEqual([line for line in self.lines if ".py:" in line], [])

    def test_a_fault_of_its_own(self) -> None:
        with mock.patch.object(livestatus_query.Query, "answer", side_effect=KeyError("x")):
            self.assertIn("the monitor has a fault: KeyError: see its log", self.refused(502, "GET hosts"))
        self.assertTrue(becomes_true(lambda: any("KeyError: 'x' (" in line for line in self.lines)), self.lines)

    def test_queries_that_ask_for_too_much(self) -> None:
        with mock.patch.object(livestatus_query, "LONGEST", 0.0):
            self.assertIn("the query takes more than 0 seconds", self.refused(413, "GET hosts", "Filter: state = 0"))
        with mock.patch.object(livestatus_query, "MOST_VALUES", 5):
            self.assertIn("the answer has more than 5 values", self.refused(413, "GET hosts", "Columns: name state"))
        self.fill(changes=[StoredChange(number, NOW + number, "web", "DOWN", "HARD", 1, False, "") for number in range(1, 9)])
        with mock.patch.object(livestatus_tables, "MOST_ENTRIES", 5):
            self.assertIn("the log has more than 5 entries between these times", self.refused(413, "GET log"))
            self.assertEqual(len(self.rows("GET log", "Columns: time", f"Filter: time >= {NOW + 4}")), 5)


class Limits(LivestatusTest):
    def test_the_socket(self) -> None:
        self.serve()
        mode = self.path.stat().st_mode
        self.assertTrue(stat.S_ISSOCK(mode))
        self.assertEqual(stat.S_IMODE(mode), 0o660)
        with socket.socket(socket.AF_UNIX) as other:
            other.bind(str(self.folder / "left"))
        left = livestatus.Server(self.folder / "left", self.folder, False, self.lines.append)  # of a process that was killed
        left.server_close()
        self.assertFalse((self.folder / "left").exists())
        second = livestatus.Server(self.path, self.folder, False, self.lines.append)
        self.server.server_close()
        self.assertTrue(self.path.exists(), "the socket of another process stays")
        second.server_close()
        (self.folder / "file").write_text("text")
        for place, why in (("file", "file is no socket: move it away"), ("no/live", "correct its name"), ("x" * 200, "too long")):
            with self.assertRaises(MonitorFault) as caught:
                livestatus.Server(self.folder / place, self.folder, False, self.lines.append)
            self.assertIn(why, str(caught.exception))

    def test_long_requests(self) -> None:
        self.serve()
        for text in ("GET hosts\n" + "Filter: state = 0\n" * 60_000, "GET " + "x" * 2_000_000, "COMMAND [1] " + "x" * 1_100_000):
            try:
                answer = ask(self.path, text)
            except OSError:
                continue  # unread bytes may cost the answer
            self.assertTrue(answer.startswith("413: a request has at most 1048576 bytes"), answer[:80])
        self.assertEqual(self.ask("GET hosts", "Columns: name", "Limit: 1"), "db\n")

    def clients(self, sent: bytes) -> List[socket.socket]:
        """As many clients as there may be, each of which has sent this."""
        self.serve()
        clients = [socket.socket(socket.AF_UNIX) for _ in range(MOST_CLIENTS)]
        for client in clients:
            self.addCleanup(client.close)
            client.settimeout(20)
            client.connect(str(self.path))
            client.sendall(sent)
        return clients

    def test_slow_and_many_clients(self) -> None:
        self.clients(b"GET ho")
        self.assertTrue(becomes_true(lambda: len(self.server.ends_at) == MOST_CLIENTS))
        with self.assertRaises(OSError), socket.socket(socket.AF_UNIX) as late:
            late.settimeout(20)
            late.connect(str(self.path))
            late.sendall(b"GET hosts\n\n")
            if not late.recv(100):
                raise ConnectionError
        self.assertTrue(becomes_true(lambda: any("a client is turned away, since 64 are connected" in line for line in self.lines)))
        for request in list(self.server.ends_at):
            self.server.ends_at[request] = time.monotonic()
        self.assertTrue(becomes_true(lambda: not self.server.ends_at))
        self.assertEqual(self.ask("GET hosts", "Columns: name", "Limit: 1"), "db\n")

    def test_a_silent_client_makes_room(self) -> None:
        clients = self.clients(b"GET hosts\nStats: name !=\nKeepAlive: on\n\n")
        for client in clients:
            self.assertEqual(client.recv(100), b"3\n")
        self.assertTrue(becomes_true(lambda: len(self.server.silent_since) == MOST_CLIENTS))
        time.sleep(1.1)
        clients[0].sendall(b"GET hosts\nStats: name !=\nKeepAlive: on\n\n")
        self.assertEqual(clients[0].recv(100), b"3\n")
        self.assertEqual(self.ask("GET hosts", "Stats: name !="), "3\n")
        self.assertEqual((clients[1].recv(100), self.lines), (b"", []))

    def test_no_database(self) -> None:
        self.serve()
        self.assertEqual(self.ask("GET hosts", "Columns: name", "Limit: 1"), "db\n")
        (self.folder / "monitor.db").rename(self.folder / "kept")
        self.assertIn(f"{self.folder}/monitor.db doesn't exist: ", self.refused(502, "GET hosts"))
        (self.folder / "kept").rename(self.folder / "monitor.db")
        self.assertEqual(self.ask("GET hosts", "Columns: name", "Limit: 1"), "db\n")
        for name in ("monitor.db", "monitor.db-wal", "monitor.db-shm"):
            (self.folder / name).unlink(missing_ok=True)
        self.fill(remark(1, "comment", "web"))
        self.assertEqual(self.rows("GET comments", "Columns: id"), [[1]], "a database in the place of another is read")
        for name in ("monitor.db-wal", "monitor.db-shm"):
            (self.folder / name).unlink(missing_ok=True)
        (self.folder / "new").write_text("this is no database" * 100)
        os.replace(self.folder / "new", self.folder / "monitor.db")
        self.assertIn("monitor.db can't be read: ", self.refused(502, "GET hosts"))

    def test_another_database(self) -> None:
        """What the one before it had is forgotten."""
        rows = ObjectRows(self.folder, self.lines.append)
        self.addCleanup(rows.close)
        down, up = (StoredChange(number, 1000.0 * number, "web", state, "HARD", 1, False, "") for number, state in ((1, "DOWN"), (2, "UP")))
        for changes, wanted in (((down, up), {"UP": 1000.0, "DOWN": 2000.0}), ((), {})):
            for name in ("monitor.db", "monitor.db-wal", "monitor.db-shm"):
                (self.folder / name).unlink(missing_ok=True)
            store_site(self.folder, {}, [StoredStanding(**standing("web"))], *changes)
            rows.read()
            self.assertEqual(rows.objects["web"].last_times, wanted)

    def test_what_has_changed(self) -> None:
        """States and files are read again when they change. A faulty file changes nothing, and is logged once."""
        self.serve()
        asked = ("GET services", "Columns: state plugin_output host_alias", "Filter: description = disk")
        self.assertEqual(self.rows(*asked), [[2, "CRITICAL - 99% \u00fcber", "db"]])
        self.fill(state="WARNING", words="better")
        self.assertEqual(self.rows(*asked), [[1, "better", "db"]])
        self.write("inventory.json", {"db": {"alias": "Database"}})
        self.assertEqual(self.rows(*asked), [[1, "better", "Database"]])
        self.write("inventory.json", '{"db": ')
        for _ in range(3):
            self.assertEqual(self.rows(*asked), [[1, "better", "Database"]])
        self.assertEqual(len(self.lines), 1)
        self.assertIn("inventory.json: ", self.lines[0])

    def test_a_damaged_text(self) -> None:
        with sqlite3.connect(self.folder / "monitor.db") as database:
            database.execute("UPDATE standings SET words = CAST(x'6261ff64' AS TEXT) WHERE name = 'web'")
        database.close()
        self.serve()
        self.assertEqual(self.rows("GET hosts", "Columns: name plugin_output", "Filter: name = web"), [["web", "ba\ufffdd"]])


class Size(LivestatusTest):
    def work(self, count: int) -> Counter[str]:
        """Counts the calls and lines of two queries of this many objects, after one of these has changed."""
        names = [name for number in range(count // 16) for name in (f"h{number:03}", *(f"h{number:03};s{service:02}" for service in range(15)))]
        (self.folder / "monitor.db").unlink()
        store_site(self.folder, {}, [StoredStanding(**standing(name, "OK" if ";" in name else "UP")) for name in names])
        tables = livestatus_tables.Tables(ObjectRows(self.folder, self.lines.append, True))
        self.addCleanup(tables.rows.close)

        def ask_both() -> None:
            for lines in (["Columns: host_name description plugin_output", "Filter: state != 0", "Filter: host_acknowledged = 0"],
                          ["Stats: state = 0", "Stats: host_state = 0", "Stats: scheduled_downtime_depth = 0", "StatsAnd: 2", "Stats: max latency"]):
                livestatus_query.Query(tables.table("services", lines), lines).answer()

        ask_both()
        store = Store(self.folder)
        store.write(store_standings([StoredStanding(**standing("h001;s01", "CRITICAL"))]))
        store.close()
        with mock.patch("time.time", partial(float, time.time())):  # tables are made again when the second is another one
            return work_of(ask_both)

    def test_4096_objects(self) -> None:
        check_growth(self, self.work, 20)
