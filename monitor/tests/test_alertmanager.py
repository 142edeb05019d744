"""The alerts that are posted to Alertmanager, over a server that accepts them."""
import datetime
import http.server
import json
import socket
import threading
import time
from typing import Any, Dict, List, Tuple
from unittest import mock

from nagsched_monitor.model.remarks import Remark
from nagsched_monitor.outputs import alertmanager
from nagsched_monitor.outputs.alertmanager import FLAPPING, HEARTBEAT, HELD, NOT_CHECKED, PROBLEM, AlertPoster
from nagsched_monitor.store.remark_table import store_remark
from nagsched_monitor.store.store import Store, delete

from .shown_site import fill_database, standing
from .simulated import SiteTest


class Posting(SiteTest):
    def setUp(self) -> None:
        super().setUp()
        self.posted: List[List[Dict[str, Any]]] = []
        self.is_refusing = self.is_write_only = False
        # The alerts that fire there, by their labels, and the name of a host whose alerts are refused.
        self.firing: Dict[str, Dict[str, Any]] = {}
        self.refused = ""
        test = self

        class Taking(http.server.BaseHTTPRequestHandler):
            def do_POST(self) -> None:
                alerts = json.loads(self.rfile.read(int(self.headers["Content-Length"])))
                is_bad = any(it["labels"].get("host") == test.refused or it.get("startsAt", "") > it["endsAt"] for it in alerts)
                if not test.is_refusing and not is_bad:
                    test.take(alerts)
                self.send_response(500 if test.is_refusing or self.path != "/api/v2/alerts" else 400 if is_bad else 200)
                self.end_headers()

            def do_GET(self) -> None:
                if test.is_write_only:
                    return self.send_error(501)
                self.send_response(200)
                self.end_headers()
                self.wfile.write(json.dumps([it for it in test.firing.values() if it["labels"]["alertname"] != HEARTBEAT]).encode())

            def log_message(self, *_: Any) -> None:
                pass

        server = http.server.HTTPServer(("127.0.0.1", 0), Taking)
        threading.Thread(target=server.serve_forever, args=(0.05,), daemon=True).start()
        self.addCleanup(server.server_close)
        self.addCleanup(server.shutdown)
        self.url = f"http://127.0.0.1:{server.server_port}/"
        self.lines: List[str] = []
        self.alerts = AlertPoster(self.url, self.folder, log=self.lines.append)
        self.addCleanup(mock.patch.stopall)

    def take(self, alerts: List[Dict[str, Any]]) -> None:
        """Takes alerts as Alertmanager does."""
        self.posted.append(alerts)
        for it in alerts:
            key = json.dumps(it["labels"], sort_keys=True)
            if datetime.datetime.fromisoformat(it["endsAt"]).timestamp() > time.time():
                self.firing[key] = it
            else:
                self.firing.pop(key, None)

    def look(self) -> List[Tuple[str, str, str, bool]]:
        """The alerts that are posted now: name, host and service of each, and whether it is firing."""
        before = len(self.posted)
        self.alerts.post_due()
        alerts = [alert for alerts in self.posted[before:] for alert in alerts if alert["labels"]["alertname"] != HEARTBEAT]
        now = datetime.datetime.now(datetime.timezone.utc)
        return sorted((it["labels"]["alertname"], it["labels"]["host"], it["labels"].get("service", ""), datetime.datetime.fromisoformat(it["endsAt"]) > now)
                      for it in alerts)

    def test_what_stands(self) -> None:
        """Hard problems and flapping objects, with their labels; no soft problem, nothing that is OK or was never checked."""
        self.write("groups.json", {"web;http": {"host_groups": ["linux", "dmz"], "contact_groups": ["ops"]}})
        now = time.time()
        fill_database(self.folder, [
            standing("db", "DOWN", words="no answer\nat all", hard_since=now - 60), standing("db;disk", "CRITICAL", words="full"),
            standing("far", "UNREACHABLE"),
            standing("soft", "DOWN", "SOFT"), standing("soft;http", "UNKNOWN"), standing("web"), standing("web;http", "WARNING", words="slow"),
            standing("web;load", "OK", flapping=True), standing("web;ok", "OK"), standing("web;new", "PENDING", None)])
        self.assertEqual(self.look(), [
            (FLAPPING, "web", "load", True), (PROBLEM, "db", "", True), (PROBLEM, "db", "disk", True), (PROBLEM, "far", "", True),
            (PROBLEM, "soft", "http", True),
            (PROBLEM, "web", "http", True)])
        found = {(it["labels"]["alertname"], it["labels"].get("host"), it["labels"].get("service")): it for posted in self.posted for it in posted}
        self.assertEqual([it["labels"]["alertname"] for it in self.posted[0]], [HEARTBEAT])
        site = self.folder.name
        self.assertEqual(found[PROBLEM, "web", "http"]["labels"], {
            "alertname": PROBLEM, "site": site, "host": "web", "service": "http", "severity": "warning", "host_groups": ",linux,dmz,",
            "contact_groups": ",ops,"})
        self.assertEqual(found[PROBLEM, "db", None]["labels"], {"alertname": PROBLEM, "site": site, "host": "db", "severity": "critical"})
        self.assertEqual([found[(PROBLEM, *name)]["annotations"]["host_state"] for name in (("db", "disk"), ("soft", "http"), ("far", None))],
                         ["DOWN", "UP", "UNREACHABLE"])
        self.assertEqual([found[(PROBLEM, *name)]["labels"]["severity"] for name in (("far", None), ("soft", "http"))], ["unreachable", "unknown"])
        self.assertEqual(found[PROBLEM, "db", None]["annotations"],
                         {"state": "DOWN", "host_state": "DOWN", "summary": "db is DOWN: no answer", "output": "no answer\nat all",
                          "monitor": f"{socket.gethostname()}:{self.folder.resolve()}"})
        self.assertEqual(found[FLAPPING, "web", "load"]["annotations"]["summary"], "web load is flapping: fine")
        started = datetime.datetime.fromisoformat(found[PROBLEM, "db", None]["startsAt"]).timestamp()
        ends = datetime.datetime.fromisoformat(found[PROBLEM, "db", None]["endsAt"]).timestamp()
        self.assertAlmostEqual(started, now - 60, delta=0.01)
        self.assertAlmostEqual(ends, time.time() + alertmanager.ENDS, delta=60)
        self.assertEqual(found[HEARTBEAT, None, None]["labels"], {"alertname": HEARTBEAT, "site": site, "severity": "none"})
        # Alertmanager takes the end for the beginning of an alert without one.
        latest = max(datetime.datetime.fromisoformat(it["startsAt"]).timestamp() for it in found.values())
        self.assertLessEqual(latest, time.time())

    def test_held_objects(self) -> None:
        """Each has an alert with its labels, which is posted before the others and ends with its remarks; the others stay."""
        now = time.time()
        fill_database(self.folder, [standing("web"), standing("web;http", "CRITICAL"), standing("web;ssh", "OK"), standing("db;disk", "WARNING", "SOFT"),
                                    standing("db;load", "WARNING"), standing("db")])
        store = Store(self.folder)
        remarks = [Remark(1, "downtime", "web", "ada", "new disk", now, now - 9, now + 60), Remark(2, "comment", "db;load", "bob", "x", now, now),
                   Remark(3, "acknowledgement", "db;disk", "bob", "known\nsince May", now, now, state="WARNING"),
                   Remark(4, "downtime", "db;load", "ada", "later", now, now + 600, now + 900)]
        store.write(*map(store_remark, remarks))
        problems = [(PROBLEM, "db", "load", True), (PROBLEM, "web", "http", True)]
        held = [(HELD, "db", "disk", True), (HELD, "web", "", True), (HELD, "web", "http", True), (HELD, "web", "ssh", True)]
        self.assertEqual(self.look(), [*held, *problems])
        self.assertEqual([{it["labels"]["alertname"] for it in posted} for posted in self.posted], [{HEARTBEAT}, {HELD}, {PROBLEM}])
        found = {(it["labels"]["host"], it["labels"].get("service")): it for it in self.posted[1]}
        self.assertEqual(found["web", "http"]["labels"], {"alertname": HELD, "site": self.folder.name, "host": "web", "service": "http", "severity": "none"})
        self.assertEqual([found[name]["annotations"]["summary"] for name in (("web", "http"), ("db", "disk"))],
                         ["web http is held: downtime by ada: new disk", "db disk is held: acknowledgement by bob: known"])
        ends = [datetime.datetime.fromisoformat(found[name]["endsAt"]).timestamp() - now for name in (("web", "http"), ("db", "disk"))]
        self.assertAlmostEqual(ends[0], 60, delta=0.01)
        self.assertAlmostEqual(ends[1], alertmanager.ENDS, delta=60)
        store.write(delete("remarks", "id = 1"))
        self.assertEqual(self.look(), [held[0], *((*each[:3], False) for each in held[1:]), *problems])
        store.write(store_remark(Remark(5, "mute", "", "ada", "move", now, now)))
        self.assertEqual([each for each in self.look() if each[0] == HELD], [
            (HELD, host, service, True) for host, service in (("db", ""), ("db", "disk"), ("db", "load"), ("web", ""), ("web", "http"), ("web", "ssh"))])
        store.close()

    def test_what_objects_want(self) -> None:
        """Labels for routes from groups.json, and annotations from inventory.json; both files are read again when they change."""
        mock.patch.object(alertmanager, "EVERY", 0).start()
        fill_database(self.folder, [standing("web", "DOWN"), standing("web;http", "CRITICAL"), standing("db", "DOWN")])
        self.write("groups.json", {"web": {"notifications": {"enabled": False, "options": ["critical"]}}, "web;http": {"contacts": ["ada"], "notifications": {
            "options": ["critical", "recovery"], "period": "workhours", "delay": 600, "interval": 0}}, "db": {"notifications": {"options": []}}})
        self.write("inventory.json", {"web": {"alias": "Web server", "address": "192.0.2.7", "notes": "room 3", "custom": {"PASSWORD": "secret"}},
                                      "web;http": {"notes_url": "http://wiki/http", "icon_image": "a.png"}})
        self.look()
        found = {(it["labels"].get("host"), it["labels"].get("service")): it for it in self.posted[-1]}
        wanted = {("web", None): {"notification_options": ",none,"}, ("db", None): {"notification_options": ",none,"}, ("web", "http"): {
            "notification_options": ",critical,recovery,", "notification_period": "workhours", "notification_delay": "600s", "notification_interval": "0s"}}
        named = {name: {label: value for label, value in found[name]["labels"].items() if label.startswith("notification")} for name in wanted}
        self.assertEqual(named, wanted)
        usual = ("state", "host_state", "summary", "output", "monitor")
        shown = {name: {note: text for note, text in found[name]["annotations"].items() if note not in usual} for name in wanted}
        self.assertEqual(shown, {
            ("web", None): {"alias": "Web server", "address": "192.0.2.7", "notes": "room 3"}, ("db", None): {},
            ("web", "http"): {"alias": "Web server", "address": "192.0.2.7", "notes_url": "http://wiki/http"}})
        self.write("inventory.json", {"db": {"address": "192.0.2.9"}})
        self.look()
        self.assertEqual([it["annotations"].get("address") for it in self.posted[-1] if it["labels"].get("host") == "db"], ["192.0.2.9"])

    def test_when_it_is_posted(self) -> None:
        """At once when something changes, otherwise at a fixed interval; an end is posted once."""
        fill_database(self.folder, [standing("web"), standing("web;http", "CRITICAL")])
        self.assertEqual(self.look(), [(PROBLEM, "web", "http", True)])
        self.assertEqual(self.look(), [])
        fill_database(self.folder, [standing("web"), standing("web;http", "WARNING")])
        self.assertEqual(self.look(), [(PROBLEM, "web", "http", False), (PROBLEM, "web", "http", True)])
        fill_database(self.folder, [standing("web"), standing("web;http", "OK")])
        self.assertEqual(self.look(), [(PROBLEM, "web", "http", False)])
        self.assertEqual(self.look(), [])
        mock.patch.object(alertmanager, "EVERY", 0).start()
        fill_database(self.folder, [standing("web", "DOWN")])
        self.assertEqual([self.look(), self.look()], [[(PROBLEM, "web", "", True)]] * 2)

    def test_one_that_only_takes(self) -> None:
        """A receiver that can't be asked for its alerts: those that this process posted are ended, and the log says once what isn't."""
        self.is_write_only = True
        fill_database(self.folder, [standing("web"), standing("web;http", "CRITICAL")])
        self.assertEqual([self.look(), self.look()], [[(PROBLEM, "web", "http", True)], []])
        fill_database(self.folder, [standing("web"), standing("web;http", "OK")])
        self.assertEqual([self.look(), self.look(), len(self.lines)], [[(PROBLEM, "web", "http", False)], [], 1])
        self.assertRegex(self.lines[0], "doesn't say which alerts it has .*501.*lasts up to 6 hours: allow GET of http")
        for is_write_only, count in ((False, 1), (True, 2)):
            self.is_write_only, self.alerts._next_post = is_write_only, 0.0
            self.look()
            self.assertEqual(len(self.lines), count)

    def test_one_that_was_restarted(self) -> None:
        """It has forgotten all alerts, and gets the end of one that ended meanwhile, so that it tells of it."""
        fill_database(self.folder, [standing("web", "DOWN"), standing("db", "DOWN")])
        self.look()
        self.is_refusing = True
        fill_database(self.folder, [standing("web"), standing("db", "DOWN")])
        self.look()
        self.is_refusing = False
        self.firing.clear()
        self.assertEqual([self.look(), self.look()], [[(PROBLEM, "db", "", True), (PROBLEM, "web", "", False)], []])

    def test_one_that_takes_nothing(self) -> None:
        """It is posted again with each look, and logged once; an end that wasn't accepted is posted again."""
        fill_database(self.folder, [standing("web", "DOWN")])
        self.look()
        self.is_refusing = True
        fill_database(self.folder, [standing("web")])
        self.assertEqual([self.look(), self.look()], [[], []])
        self.assertEqual(len(self.lines), 1)
        self.is_refusing = False
        self.assertEqual([self.look(), self.look()], [[(PROBLEM, "web", "", False)], []])
        self.assertEqual(len(self.lines), 2)

    def test_a_database_that_cant_be_read(self) -> None:
        (self.folder / "monitor.db").write_text("this is no database" * 100)
        self.assertEqual([self.look(), self.look()], [[], []])
        self.assertEqual(len(self.lines), 1)

    def test_a_monitor_that_writes_nothing(self) -> None:
        """Its problems stay as they were; its heartbeat ends."""
        fill_database(self.folder, [standing("web", "DOWN")])
        self.look()
        fill_database(self.folder, [standing("web", "DOWN")], {"written_at": time.time() - 60})
        self.posted.clear()
        self.alerts._next_post = 0.0
        self.assertEqual(self.look(), [(PROBLEM, "web", "", True)])
        self.assertEqual([len(alerts) for alerts in self.posted], [1])

    def test_results_that_are_missing(self) -> None:
        """One alert for all of them; the heartbeat stops when they are more than half."""
        for overdue, wanted in ((0, [HEARTBEAT]), (3, [HEARTBEAT, NOT_CHECKED]), (6, [NOT_CHECKED])):
            self.posted.clear()
            fill_database(self.folder, [standing("web")], {"overdue": overdue, "promised": 10})
            self.alerts._next_post = 0.0
            self.alerts.post_due()
            self.assertEqual([it["labels"]["alertname"] for alerts in self.posted for it in alerts], wanted)
        (alert,) = self.posted[0]
        self.assertEqual(alert["labels"]["severity"], "critical")
        self.assertTrue(alert["annotations"]["summary"].startswith(f"6 of 10 objects of {self.folder.name} have no result in time"))

    def test_what_another_process_posted(self) -> None:
        """An alert of an earlier process that doesn't stand is ended, also one that seems to begin later than now. Alerts of others stay."""
        labels = {"alertname": PROBLEM, "site": self.folder.name, "host": "web", "severity": "critical"}
        mine = f"{socket.gethostname()}:{self.folder.resolve()}"
        for host, monitor in (("web", {"monitor": mine}), ("other", {"monitor": "elsewhere:/site"}), ("rule", {})):
            self.firing[host] = {"labels": {**labels, "host": host}, "annotations": monitor, "startsAt": "2999-01-01T00:00:00.5Z",
                                 "endsAt": "2999-01-02T00:00:00Z"}
        fill_database(self.folder, [standing("web")])
        self.assertEqual(self.look(), [(PROBLEM, "web", "", False)])

    def test_a_refused_alert(self) -> None:
        """It holds back itself alone, and is logged; one that begins later than now isn't refused."""
        self.refused = "h3"
        fill_database(self.folder, [standing(f"h{number}", "DOWN", hard_since=time.time() + 3600) for number in range(10)])
        self.assertEqual([host for _, host, _, _ in self.look()], [f"h{number}" for number in range(10) if number != 3])
        self.alerts._next_post = 0.0
        self.look()
        self.assertEqual([("refused" in line, "h3" in line) for line in self.lines], [(True, True)])
        begins = [datetime.datetime.fromisoformat(it["startsAt"]).timestamp() for alerts in self.posted for it in alerts]
        self.assertLessEqual(max(begins), time.time())

    def test_signs_of_life(self) -> None:
        """Each request shows that this process is at work: the heartbeat, all four, two and two, and one and one of these."""
        signs: List[bool] = []
        self.alerts, self.refused = AlertPoster(self.url, self.folder, log=self.lines.append, alive=lambda: signs.append(True)), "h3"
        fill_database(self.folder, [standing(f"h{number}", "DOWN") for number in range(4)])
        self.look()
        self.assertEqual(len(signs), 6)

    def test_links(self) -> None:
        self.alerts = AlertPoster(self.url, self.folder, "http://monitor.example.org/", self.lines.append)
        fill_database(self.folder, [standing("web"), standing("web;load 5", "WARNING", is_on=False)])
        self.look()
        self.assertEqual(self.posted[-1][0]["generatorURL"], "http://monitor.example.org/object?name=web%3Bload%205")
        self.assertEqual(self.posted[-1][0]["annotations"]["checks"], "off")
