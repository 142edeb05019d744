"""The lines of Nagios's pipe: each line with a meaning here is obeyed, every other one is named; bursts, long lines and many writers."""
import os
import threading
from typing import Any, Dict, List, Tuple

from nagsched_monitor.faults import MonitorFault, RequestFault
from nagsched_monitor.inputs.nagios_pipe import LONGEST_LINE, NAME, Pipe, requests_of
from nagsched_monitor.site.people_files import Groups

from .simulated import SiteTest
from .waiting import becomes_true


class Lines(SiteTest):
    SERVICES: Dict[str, List[str]] = {"web": ["http", "ssh"], "db": []}

    def test_commands(self) -> None:
        def at(name: str, forced: bool) -> Dict[str, Any]:
            return {"do": "reschedule", "name": name, "at": 1795766400, "force": forced}

        rows: List[Tuple[str, List[Dict[str, Any]]]] = [
            ("SCHEDULE_HOST_CHECK;web;1795766400", [at("web", False)]),
            ("SCHEDULE_FORCED_HOST_CHECK;web;1795766400", [at("web", True)]),
            ("SCHEDULE_SVC_CHECK;web;http;1795766400", [at("web;http", False)]),
            ("SCHEDULE_FORCED_SVC_CHECK;web;http;1795766400", [at("web;http", True)]),
            ("SCHEDULE_HOST_SVC_CHECKS;web;1795766400", [at("web;http", False), at("web;ssh", False)]),
            ("SCHEDULE_FORCED_HOST_SVC_CHECKS;web;1795766400", [at("web;http", True), at("web;ssh", True)]),
            ("SCHEDULE_HOST_SVC_CHECKS;db;1795766400", []),
            ("ENABLE_HOST_CHECK;web", [{"do": "enable", "name": "web"}]),
            ("DISABLE_HOST_CHECK;web", [{"do": "disable", "name": "web"}]),
            ("ENABLE_SVC_CHECK;web;http", [{"do": "enable", "name": "web;http"}]),
            ("DISABLE_SVC_CHECK;web;http", [{"do": "disable", "name": "web;http"}]),
            ("PROCESS_HOST_CHECK_RESULT;web;0;up", [{"do": "result", "name": "web", "code": 0, "output": "up"}]),
            ("PROCESS_HOST_CHECK_RESULT;web;1;down;for long", [{"do": "result", "name": "web", "code": 2, "output": "down;for long"}]),
            ("PROCESS_HOST_CHECK_RESULT;web;2", [{"do": "result", "name": "web", "code": 2, "output": ""}]),
            ("PROCESS_SERVICE_CHECK_RESULT;web;http;3;what?\\nmore", [{"do": "result", "name": "web;http", "code": 3, "output": "what?\nmore"}]),
            ("PROCESS_SERVICE_CHECK_RESULT;web;http;1;a|b=1;2;3\r", [{"do": "result", "name": "web;http", "code": 1, "output": "a|b=1;2;3"}]),
            ("PROCESS_SERVICE_CHECK_RESULT;web;http;1", [{"do": "result", "name": "web;http", "code": 1, "output": ""}]),
        ]
        for text, wanted in rows:
            with self.subTest(text):
                name, requests = requests_of(f"[1795766400] {text}".encode(), self.SERVICES)
                self.assertEqual((name, requests), (text.partition(";")[0], wanted))

    def test_commands_about_remarks(self) -> None:
        """Those of Ansible's module, in its form, and those of Nagios's pages."""
        said = {"author": "Ansible", "text": "Scheduling downtime; twice"}
        end = ";Ansible;Scheduling downtime; twice"
        downtime: Dict[str, Any] = {"do": "downtime", "from": 1000, "until": 2800, **said}
        mute: Dict[str, Any] = {"do": "mute", "author": "nagios.cmd", "text": "notifications are disabled"}
        ack: Dict[str, Any] = {"do": "ack", **said, "sticky": False, "persistent": False}
        hosts, services, shop = ["web", "db"], ["web;http", "web;ssh"], ["web;http", "db;old"]
        unmute: Dict[str, Any] = {"do": "remove", "kind": "mute"}
        remove: Dict[str, Any] = {"do": "remove", "kind": "downtime"}
        several = {"SVC;web;http": ["web;http"], "HOST;web": ["web"], "HOST_SVC;web": services, "HOSTGROUP_HOST;linux": hosts, "HOSTGROUP_SVC;linux": services,
                   "SERVICEGROUP_HOST;shop": hosts, "SERVICEGROUP_SVC;shop": shop}
        rows: List[Tuple[str, Dict[str, Any], List[str]]] = [
            row for of, names in several.items() for kind, _, name in [of.partition(";")] for row in (
                (f"SCHEDULE_{kind}_DOWNTIME;{name};1000;2800;1;0;1800{end}", downtime, names),
                (f"SCHEDULE_{kind}_DOWNTIME;{name};1000;2800;0;0;1800{end}", {**downtime, "duration": 1800}, names),
                (f"DISABLE_{kind}_NOTIFICATIONS;{name}", mute, names), (f"ENABLE_{kind}_NOTIFICATIONS;{name}", unmute, names))]
        rows += [
            ("DISABLE_NOTIFICATIONS", mute, [""]), ("ENABLE_NOTIFICATIONS", unmute, [""]),
            (f"ACKNOWLEDGE_HOST_PROBLEM;web;0;1;0{end}", ack, ["web"]),
            (f"ACKNOWLEDGE_SVC_PROBLEM;web;http;2;1;1{end}", {**ack, "sticky": True, "persistent": True}, ["web;http"]),
            ("REMOVE_SVC_ACKNOWLEDGEMENT;web;http", {"do": "remove", "kind": "acknowledgement"}, ["web;http"]),
            (f"ADD_SVC_COMMENT;web;http;1{end}", {"do": "comment", **said, "persistent": True}, ["web;http"]),
            ("DEL_ALL_HOST_COMMENTS;web", {"do": "remove", "kind": "comment"}, ["web"]),
            ("DISABLE_HOSTGROUP_SVC_CHECKS;linux", {"do": "disable"}, services),
        ]
        plain: List[Tuple[str, Dict[str, Any]]] = [
            ("DEL_HOST_COMMENT;7", {"do": "remove", "kind": "comment", "id": 7}), ("DEL_SVC_DOWNTIME;8", {**remove, "id": 8}),
            ("DEL_DOWNTIME_BY_HOST_NAME;web;;;Scheduling downtime", {**remove, "host": "web", "text": "Scheduling downtime"}),
            ("DEL_DOWNTIME_BY_HOST_NAME;web;http;1000;", {**remove, "name": "web;http", "from": 1000}), ("DEL_DOWNTIME_BY_HOST_NAME;web", {**remove, "host": "web"}),
            ("DEL_DOWNTIME_BY_START_TIME_COMMENT;1000;move", {**remove, "from": 1000, "text": "move"}),
        ]
        groups = {"web": Groups({"host_groups": ["linux"]}), "db": Groups({"host_groups": ["linux", "db"]}),
                  "web;http": Groups({"host_groups": ["linux"], "service_groups": ["shop"]}), "db;old": Groups({"service_groups": ["shop"]})}
        for text, wanted in [*((text, [{**request, "name": name} for name in names]) for text, request, names in rows),
                             *((text, [request]) for text, request in plain)]:
            with self.subTest(text):
                self.assertEqual(requests_of(f"[1795766400] {text}".encode(), self.SERVICES, groups), (text.partition(";")[0], wanted))

    def test_others_are_named(self) -> None:
        rows = [
            (b"[1] DISABLE_FAILURE_PREDICTION", "DISABLE_FAILURE_PREDICTION isn't obeyed here"),
            (b"[1] ACKNOWLEDGE_HOST_PROBLEM;web;2;1;1;me", "ACKNOWLEDGE_HOST_PROBLEM: it needs 6 arguments, and has 5"),
            (b"[1] SCHEDULE_HOST_DOWNTIME;web;1;2;1;7;60;me;move", "a downtime that begins with another one can't be made here"),
            (b"[1] SCHEDULE_HOSTGROUP_HOST_DOWNTIME;none;1;2;1;0;60;me;move", "there is no host group 'none'"),
            (b"[1] SCHEDULE_SERVICEGROUP_SVC_DOWNTIME;linux;1;2;1;0;60;me;move", "there is no service group 'linux'"),
            (b"[1] DISABLE_HOST_SVC_NOTIFICATIONS;gone", "there is no host 'gone'"), (b"[1] DEL_SVC_COMMENT;x", "it needs a number, not 'x'"),
            (b"[1] RESTART_PROGRAM", "RESTART_PROGRAM isn't obeyed here"),
            (b"", "a line has to be [TIME] COMMAND"), (b"SCHEDULE_HOST_CHECK;web;1", "a line has to be [TIME] COMMAND"), (b"[x] SCHEDULE_HOST_CHECK;web;1", "a line has to be [TIME] COMMAND"),
            (b"[1] schedule", "a line has to be [TIME] COMMAND"), (b"[1]SCHEDULE_HOST_CHECK;web;1", "a line has to be [TIME] COMMAND"), (b"\xff\x00", "a line has to be [TIME] COMMAND"),
            (b"[1] SCHEDULE_HOST_CHECK", "SCHEDULE_HOST_CHECK: it needs 2 arguments, and has 0"),
            (b"[1] SCHEDULE_HOST_CHECK;web;soon", "SCHEDULE_HOST_CHECK: it needs a number, not 'soon'"),
            (b"[1] SCHEDULE_HOST_CHECK;web;-1", "it needs a number, not"), (b"[1] SCHEDULE_HOST_CHECK;web;" + b"9" * 400, "it needs a number, not"),
            (b"[1] SCHEDULE_HOST_SVC_CHECKS;gone;1", "there is no host 'gone'"), (b"[1] DISABLE_SVC_CHECK;web", "it needs 2 arguments, and has 1"),
            (b"[1] PROCESS_HOST_CHECK_RESULT;web;3;x", "the code of a host has to be 0, 1 or 2, not 3"),
            (b"[1] PROCESS_HOST_CHECK_RESULT;web", "it needs 3 arguments, and has 1"),
            (b"[1] PROCESS_SERVICE_CHECK_RESULT;web;http", "it needs 4 arguments, and has 2"),
            (b"[1] PROCESS_SERVICE_CHECK_RESULT;web;http;;x", "it needs a number, not ''"),
            (b"[1] A;" + b"x" * LONGEST_LINE, "longer than 65536 bytes"),
        ]
        for line, word in rows:
            with self.subTest(line[:60]), self.assertRaises(RequestFault) as caught:
                requests_of(line, self.SERVICES)
            self.assertIn(word, str(caught.exception))
            self.assertLess(len(str(caught.exception)), 400)


class Fifo(SiteTest):
    def pipe(self) -> Pipe:
        pipe = Pipe(self.folder)
        self.addCleanup(lambda: os.close(pipe.file))
        return pipe

    def read(self, pipe: Pipe, count: int) -> List[bytes]:
        """This many lines."""
        lines: List[bytes] = []

        def came() -> bool:
            lines.extend(pipe.read())
            return len(lines) >= count

        becomes_true(came)
        return lines

    def test_parts_of_lines(self) -> None:
        pipe = self.pipe()
        self.assertEqual((self.folder / NAME).stat().st_mode & 0o777, 0o660)
        for part, wanted in ((b"[1] ONE", []), (b";a\n[1] TW", [b"[1] ONE;a"]), (b"O\n\n[1] THREE\n", [b"[1] TWO", b"", b"[1] THREE"]), (b"", [])):
            with open(self.folder / NAME, "wb", buffering=0) as there:
                there.write(part)
            self.assertEqual(pipe.read(), wanted)

    def test_long_lines(self) -> None:
        pipe = self.pipe()
        longest, longer = b"[1] A;".ljust(LONGEST_LINE, b"x"), b"[1] B;".ljust(3 * LONGEST_LINE, b"y")

        def write() -> None:
            with open(self.folder / NAME, "wb") as there:
                there.write(longest + b"\n" + longer + b"\n[1] C\n" + longer[: LONGEST_LINE + 1] + b"\n[1] D\n")

        writer = threading.Thread(target=write)
        writer.start()
        lines = self.read(pipe, 5)
        writer.join()
        self.assertEqual([lines[0] == longest, lines[2], lines[4]], [True, b"[1] C", b"[1] D"])
        self.assertEqual([(len(line), line[:5]) for line in (lines[1], lines[3])], [(LONGEST_LINE + 1, b"[1] B")] * 2)

    def test_many_writers(self) -> None:
        pipe = self.pipe()

        def write(who: int) -> None:
            for number in range(200):
                with open(self.folder / NAME, "wb", buffering=0) as there:
                    there.write(b"[1] W%d;%d;%s\n" % (who, number, b"x" * 1000))

        writers = [threading.Thread(target=write, args=(who,)) for who in range(8)]
        for writer in writers:
            writer.start()
        lines = self.read(pipe, 1600)
        for writer in writers:
            writer.join()
        for who in range(8):
            begin = b"[1] W%d;" % who
            self.assertEqual([int(line.split(b";")[1]) for line in lines if line.startswith(begin)], list(range(200)))

    def test_something_else_is_there(self) -> None:
        (self.folder / NAME).mkdir()
        with self.assertRaisesRegex(MonitorFault, "no pipe"):
            Pipe(self.folder)
        with self.assertRaises(MonitorFault):
            Pipe(self.folder / "gone")

    def test_a_file_is_there(self) -> None:
        """A writer made it while there was no pipe: its lines are taken over, and a pipe takes its place."""
        (self.folder / NAME).write_text("[1] ONE\n[2] TWO")
        pipe = Pipe(self.folder)
        self.addCleanup(pipe.close)
        self.assertEqual(pipe.taken_over, [b"[1] ONE", b"[2] TWO"])
        self.assertEqual(([path.name for path in self.folder.iterdir()], (self.folder / NAME).is_fifo()), ([NAME], True))
