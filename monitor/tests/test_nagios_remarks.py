"""What people said in Nagios comes over: from its retention.dat into the site's remarks.json, and from there into the monitor."""
import json
import time
from typing import Any, Dict, List

from nagsched_monitor.faults import SiteFault
from nagsched_monitor.site.site import read_site

from .converting import Converting, defined
from .simulated import PROGRAM, SimulatedClock, SiteTest, fine, host, service

NOW = int(time.time())
OBJECTS = defined("command", {"command_name": "dummy", "command_line": "/bin/true"}) + defined(
    "host", {"host_name": "web", "check_command": "dummy", "max_check_attempts": "3"}) + "".join(
    defined("service", {"host_name": "web", "service_description": word, "check_command": "dummy", "max_check_attempts": "3"}) for word in ("http", "ssh"))
HTTP, SSH = {"host_name": "web", "service_description": "http"}, {"host_name": "web", "service_description": "ssh"}
WEB = {"host_name": "web"}


def block(kind: str, members: Dict[str, str], **others: object) -> str:
    """A block as Nagios Core 4.4.6 wrote it."""
    return f"{kind} {{\n" + "".join(f"{name}={value}\n" for name, value in [*members.items(), *others.items()]) + "}\n"


def comment(kind: str, members: Dict[str, str], entry_type: int, persistent: int, author: str, data: str) -> str:
    return block(kind, members, entry_type=entry_type, comment_id=1, source=0, persistent=persistent, entry_time=NOW - 60, expires=0, expire_time=0,
                 author=author, comment_data=data)


def downtime(kind: str, members: Dict[str, str], start: int, end: int, text: str, **others: int) -> str:
    usual = {"flex_downtime_start": 0, "triggered_by": 0, "fixed": 1, "duration": end - start, "is_in_effect": 0, **others}
    return block(kind, members, comment_id=3, downtime_id=1, entry_time=NOW - 60, start_time=start, end_time=end, **usual, author="ada", comment=text)


RETENTION = "".join((
    "########################################\n#          NAGIOS STATE RETENTION FILE\n",
    block("info", {}, created=NOW, version="4.4.6"),
    block("host", WEB, modified_attributes=0, current_state=0, notifications_enabled=1, problem_has_been_acknowledged=0, acknowledgement_type=0),
    block("service", HTTP, modified_attributes=0, current_state=2, notifications_enabled=1, problem_has_been_acknowledged=1, acknowledgement_type=2),
    block("service", SSH, modified_attributes=1, current_state=1, notifications_enabled=0, problem_has_been_acknowledged=1, acknowledgement_type=1,
          last_state_change=NOW - 90, plugin_output="a = b {"),
    comment("servicecomment", HTTP, 4, 1, "ada", "disk is ordered; since May"),
    comment("hostcomment", WEB, 2, 0, "ada", "This host has been scheduled for fixed downtime"),
    comment("hostcomment", WEB, 1, 1, "ada", "it is the old one"), comment("hostcomment", WEB, 1, 0, "ada", "not for long"),
    comment("hostcomment", {"host_name": "gone"}, 1, 1, "ada", "about nothing"),
    downtime("hostdowntime", WEB, NOW - 60, NOW + 7_200, "move"), downtime("hostdowntime", WEB, NOW - 90, NOW - 1, "over"),
    downtime("servicedowntime", HTTP, NOW - 60, NOW + 7_200, "boot", fixed=0, duration=1_800, flex_downtime_start=NOW - 30),
    downtime("servicedowntime", SSH, NOW - 60, NOW + 7_200, "after the other", triggered_by=1),
))


class Retention(Converting, SiteTest):
    def setUp(self) -> None:
        Converting.setUp(self)

    def remarks(self, text: str) -> List[Dict[str, Any]]:
        (self.folder / "retention.dat").write_text(text)
        ran = self.taken(OBJECTS, words=["--retention", str(self.folder / "retention.dat")])
        self.assertEqual(ran.returncode, 0, ran.stderr)
        for line in ("triggered downtimes", "remarks about objects that aren't in the configuration"):
            self.assertIn(line, ran.stderr)
        found: List[Dict[str, Any]] = json.loads((self.site / "remarks.json").read_text())["remarks"]
        return found

    def test_what_comes_over(self) -> None:
        mute, *others = sorted(self.remarks(RETENTION), key=lambda its: (its["kind"] != "mute", its["kind"], its["name"], its["text"]))
        made = {"made_at": NOW - 60, "starts_at": NOW - 60}
        self.assertEqual((mute["name"], mute["text"]), ("web;ssh", "notifications are disabled"))
        self.assertEqual(others, [
            {"kind": "acknowledgement", "name": "web;http", "author": "ada", "text": "disk is ordered; since May", **made, "sticky": True, "persistent": True,
             "state": "CRITICAL"},
            {"kind": "acknowledgement", "name": "web;ssh", "author": "nagios", "text": "acknowledged in Nagios", "made_at": NOW - 90, "starts_at": NOW - 90,
             "sticky": False, "persistent": False, "state": "WARNING"},
            {"kind": "comment", "name": "web", "author": "ada", "text": "it is the old one", **made, "persistent": True},
            {"kind": "downtime", "name": "web", "author": "ada", "text": "move", **made, "ends_at": NOW + 7_200},
            {"kind": "downtime", "name": "web;http", "author": "ada", "text": "boot", **made, "ends_at": NOW + 7_200, "duration": 1_800, "began_at": NOW - 30},
        ])
        self.take(OBJECTS)
        self.assertFalse((self.site / "remarks.json").exists())

    def test_a_file_that_is_none(self) -> None:
        for text, why in ((RETENTION[:-1].rpartition("\n")[0], "it ends within a block"), ("web\n", "line 1 isn't one of Nagios's"),
                          (block("hostdowntime", WEB, fixed=1), "hostdowntime of web: 'duration'"),
                          (block("service", HTTP, problem_has_been_acknowledged=1, current_state=7), "service of web;http: tuple index out of range")):
            (self.folder / "retention.dat").write_text(text)
            ran = self.taken(OBJECTS, words=["--retention", str(self.folder / "retention.dat")])
            self.assertEqual((ran.returncode, self.site.exists()), (1, False))
            self.assertIn(why, ran.stderr)

    def test_the_monitor_takes_them_over_once(self) -> None:
        said = self.remarks(RETENTION)
        members = {"check_interval": 60, "retry_interval": 10, "max_check_attempts": 3}
        self.write_site([host("web")], [service("web", word, **members) for word in ("http", "ssh")], remarks={"remarks": said})
        clock = SimulatedClock(NOW * 1000)

        def plugin(name: str, moment: int) -> Any:
            return (10, 2, "broken") if name == "web;http" and moment < (NOW + 300) * 1000 else fine(name, moment)

        monitor = self.monitor(plugin, clock)
        self.assertEqual([each.kind for each in monitor.store.remarks()], [])
        monitor.run(10)
        self.assertEqual(len(monitor.store.remarks()), 5)  # the service ssh is OK, so that its acknowledgement has ended
        monitor.ask(do="remove", kind="comment", name="web")
        monitor.close()
        monitor = self.monitor(plugin, clock)
        monitor.run(200)
        kinds = ["acknowledgement", "mute", "downtime", "downtime"]
        self.assertEqual([each.kind for each in monitor.store.remarks()], kinds)
        # A file with one remark more, which a reload takes over. The one that was removed comes again, as the file has it.
        self.write("remarks.json", {"remarks": [*said, {**said[-1], "kind": "comment", "text": "new"}]})
        monitor.engine.reload(read_site(self.folder, PROGRAM))
        monitor.run(300)
        self.assertEqual([(each.kind, each.text) for each in monitor.store.remarks() if each.kind == "comment"],
                         [("comment", "disk is ordered; since May"), ("comment", "it is the old one"), ("comment", "new")])

    def test_a_site_with_faulty_remarks(self) -> None:
        self.write_site([host("web")], [])
        good = {"kind": "downtime", "name": "web", "author": "ada", "text": "move", "made_at": 1, "starts_at": 2, "ends_at": 3}
        self.write("remarks.json", {"remarks": [good, {**good, "sticky": True, "duration": 60, "began_at": 2, "state": "UP"}]})
        self.assertEqual([(each.id, each.duration, each.sticky) for each in read_site(self.folder, PROGRAM).remarks], [(1, None, False), (2, 60.0, True)])
        bad: List[Dict[str, Any]] = [
            {"kind": "joke"}, {"kind": []}, {"name": "db"}, {"name": None}, {"author": ""}, {"author": 7}, {"text": None}, {"made_at": "now"},
            {"made_at": True}, {"starts_at": -1},
            {"ends_at": None}, {"duration": 0.5}, {"sticky": 1}, {"persistent": "no"}, {"state": 2}, {"id": 7}, {"colour": "red"}]
        for document in [*({"remarks": [good, {**good, **each}]} for each in bad), {"remarks": [7]}, {"remarks": [None]}, {"remarks": {}}, {"remarks": 7},
                         {"others": []}, [], {"remarks": [{name: value for name, value in good.items() if name != "ends_at"}]}]:
            self.write("remarks.json", document)
            with self.subTest(document), self.assertRaises(SiteFault) as caught:
                read_site(self.folder, PROGRAM)
            self.assertTrue(str(caught.exception).startswith("remarks.json"))
