"""Nagios's own files: `status.dat` agrees with the monitor, and the pipe's lines are obeyed."""
import os
import pathlib
import signal
import subprocess
import time
from typing import Callable, Counter, Dict, List, Mapping, Tuple
from unittest import mock

from nagsched_monitor.inputs.nagios_pipe import NAME
from nagsched_monitor.model.remarks import Remark
from nagsched_monitor.outputs.nagios_files import NagiosFiles, status_file
from nagsched_monitor.outputs.object_columns import HOST_STATES, SERVICE_STATES
from nagsched_monitor.outputs.object_rows import ObjectRows
from nagsched_monitor.outputs.status_query import read_site_status
from nagsched_monitor.store.rows import StoredChange, StoredStanding

from .running import ProcessTest
from .shown_site import store_site
from .simulated import BEGIN, SiteTest
from .waiting import becomes_true
from .work_count import check_growth, work_of

Block = Dict[str, str]
WELL = StoredStanding("web", "UP", "HARD", 1, False, 1000.5, 1000.5, 2000.25, 2060.9, True, None, 0.5, 0.25, "fine|rta=0.8ms;1;2")
BAD = StoredStanding("web;http", "CRITICAL", "SOFT", 2, True, 1500.0, 900.0, 2001.0, None, False, 2002.0, None, None, "no\x07answer\nof\\it")
NEW = StoredStanding("web;new", "PENDING", "HARD", 1, False, None, None, None, 3000.0, True, None, None, None, "")
# The members that the pages of nagios4-cgi 4.4.6 read of a host and of a service.
READ = (
    "host_name has_been_checked should_be_scheduled check_execution_time check_latency check_type current_state last_hard_state plugin_output "
    "long_plugin_output performance_data current_attempt max_attempts last_check next_check check_options state_type last_state_change "
    "last_hard_state_change last_notification next_notification no_more_notifications current_notification_number notifications_enabled "
    "problem_has_been_acknowledged acknowledgement_type active_checks_enabled passive_checks_enabled event_handler_enabled flap_detection_enabled "
    "process_performance_data obsess last_update is_flapping percent_state_change scheduled_downtime_depth"
).split()
READ_OF_HOSTS = [*READ, "last_time_up", "last_time_down", "last_time_unreachable"]
READ_OF_SERVICES = [*READ, "service_description", "last_time_ok", "last_time_warning", "last_time_critical", "last_time_unknown"]
READ_OF_PROGRAM = (
    "nagios_pid daemon_mode program_start last_log_rotation enable_notifications active_service_checks_enabled passive_service_checks_enabled "
    "active_host_checks_enabled passive_host_checks_enabled enable_event_handlers obsess_over_services obsess_over_hosts check_service_freshness "
    "check_host_freshness enable_flap_detection process_performance_data active_scheduled_host_check_stats active_ondemand_host_check_stats "
    "passive_host_check_stats active_scheduled_service_check_stats active_ondemand_service_check_stats passive_service_check_stats "
    "cached_host_check_stats cached_service_check_stats external_command_stats parallel_host_check_stats serial_host_check_stats"
).split()


def blocks_of(data: bytes) -> List[Tuple[str, Block]]:
    """The blocks of a status file, read as Nagios's pages do: line by line, each a name and a value."""
    blocks: List[Tuple[str, Block]] = []
    for line in data.split(b"\n"):
        text = line.decode().strip()
        if text.endswith(" {"):
            blocks.append((text[:-2], {}))
        elif "=" in text:
            name, _, value = text.partition("=")
            assert name not in blocks[-1][1], (name, blocks[-1])
            blocks[-1][1][name] = value
        else:
            assert text in ("", "}"), text
    return blocks


def objects_of(data: bytes) -> Dict[str, Block]:
    """The blocks of hosts and services by their full names."""
    objects = {}
    for kind, block in blocks_of(data):
        if kind == "hoststatus":
            objects[block["host_name"]] = block
        elif kind == "servicestatus":
            objects[f"{block['host_name']};{block['service_description']}"] = block
    return objects


def line_of(name: str, block: Block) -> str:
    """The output of `status` for an object, made from a block."""
    states = {number: word for word, number in (SERVICE_STATES if ";" in name else HOST_STATES).items()}
    state = states[int(block["current_state"])] if block["has_been_checked"] == "1" else "PENDING"
    marks = f"{' FLAPPING' if block['is_flapping'] == '1' else ''}{'' if block['active_checks_enabled'] == '1' else ' off'}"
    output = block["plugin_output"] + (f"|{block['performance_data']}" if block["performance_data"] else "")
    return f"{state} {'HARD' if block['state_type'] == '1' else 'SOFT'} {block['current_attempt']}{marks} {name}: {output}"


class Blocks(SiteTest):
    def written(self, *remarks: Remark) -> bytes:
        host = {"name": "web", "check_interval": 5, "max_check_attempts": 3}
        http = {"host": "web", "description": "http", "check_interval": 10, "retry_interval": 2, "max_check_attempts": 4}
        store_site(self.folder, {"hosts": [host], "services": [http]}, [BAD, NEW, WELL], StoredChange(1, 1500.0, "web;http", "CRITICAL", "SOFT", 2, False, ""),
                   remarks=remarks)
        self.write("commands.json", {"web": {"line": "/usr/bin/check_ping -H web"}})
        self.write("periods.json", {"periods": {"always": {}}, "objects": {"web": "always"}})
        self.write("passive.json", {"web;http": {"only": True}})
        rows = ObjectRows(self.folder, print, True)
        self.addCleanup(rows.close)
        self.assertTrue(rows.read())
        rows.now, rows.process, rows.started_at = 2050.7, 77, 500
        return status_file(rows).encode()

    def test_members(self) -> None:
        (_, info), (_, program), (_, web), (_, http), (_, new) = blocks = blocks_of(self.written())
        self.assertEqual([kind for kind, _ in blocks], ["info", "programstatus", "hoststatus", "servicestatus", "servicestatus"])
        self.assertEqual((info["created"], info["version"]), ("2050", "4.4.6"))
        for block, wanted in ((program, READ_OF_PROGRAM), (web, READ_OF_HOSTS), (http, READ_OF_SERVICES), (new, READ_OF_SERVICES)):
            self.assertEqual([name for name in wanted if name not in block], [])

    def test_values(self) -> None:
        _, (_, program), (_, web), (_, http), (_, new) = blocks_of(self.written())
        rows: List[Tuple[Block, Mapping[str, str]]] = [
            (program, {"nagios_pid": "77", "program_start": "500", "enable_notifications": "1", "active_scheduled_host_check_stats": "1,1,1",
                       "active_scheduled_service_check_stats": "0,0,0", "passive_service_check_stats": "1,1,1"}),
            (web, {"current_state": "0", "last_hard_state": "0", "state_type": "1", "current_attempt": "1", "max_attempts": "3", "last_state_change": "1000",
                   "plugin_output": "fine", "performance_data": "rta=0.8ms;1;2", "last_check": "2000", "next_check": "2060", "check_execution_time": "0.500",
                   "check_latency": "0.250", "check_period": "always", "check_command": "check_ping", "check_interval": "5.000", "last_time_up": "2000",
                   "last_time_down": "0", "check_type": "0", "should_be_scheduled": "1", "last_update": "2050"}),
            (http, {"current_state": "2", "last_hard_state": "0", "state_type": "0", "current_attempt": "2", "plugin_output": "no answer",
                    "long_plugin_output": "of\\it", "is_flapping": "1", "active_checks_enabled": "0", "should_be_scheduled": "0", "next_check": "0",
                    "last_time_critical": "2001",
                    "last_time_ok": "1500", "last_hard_state_change": "900", "check_type": "1", "check_execution_time": "0.000"}),
            (new, {"has_been_checked": "0", "current_state": "0", "last_check": "0", "next_check": "3000", "last_state_change": "0", "current_attempt": "1"}),
        ]
        for block, wanted in rows:
            self.assertEqual({name: block[name] for name in wanted}, wanted)

    def test_remarks(self) -> None:
        ack = Remark(1, "acknowledgement", "web;http", "ada", "known;\nagain", 1000.5, 1000.5, sticky=True, persistent=True, state="CRITICAL")
        remarks = [ack, Remark(2, "comment", "web", "bob", "old", 1001.0, 1001.0), Remark(3, "downtime", "web", "bob", "move", 1002.0, 2000.0, 3000.0),
                   Remark(4, "downtime", "web;http", "bob", "boot", 1003.0, 1003.0, 3000.0, duration=600.0, began_at=1900.0),
                   Remark(5, "mute", "web;new", "bob", "off", 1004.0, 1004.0)]
        (_, _), (_, program), (_, web), (_, http), (_, new), *said = blocks_of(self.written(*remarks))
        shown = ("problem_has_been_acknowledged", "acknowledgement_type", "scheduled_downtime_depth", "notifications_enabled")
        self.assertEqual([[block[name] for name in shown] for block in (web, http, new)], [["0", "0", "1", "1"], ["1", "2", "1", "1"], ["0", "0", "0", "0"]])
        of_web, of_http = {"host_name": "web"}, {"host_name": "web", "service_description": "http"}
        begun = {"triggered_by": "0", "is_in_effect": "1", "start_notification_sent": "0", "comment_id": "0", "author": "bob", "end_time": "3000"}
        well = {"source": "1", "expires": "0", "expire_time": "0"}
        self.assertEqual(said, [
            ("hostcomment", {**of_web, **well, "entry_type": "1", "comment_id": "2", "persistent": "0", "entry_time": "1001", "author": "bob",
                             "comment_data": "old"}),
            ("hostdowntime", {**of_web, **begun, "downtime_id": "3", "entry_time": "1002", "start_time": "2000", "flex_downtime_start": "0", "fixed": "1",
                              "duration": "1000", "comment": "move"}),
            ("servicecomment", {**of_http, **well, "entry_type": "4", "comment_id": "1", "persistent": "1", "entry_time": "1000", "author": "ada",
                                "comment_data": "known;\\nagain"}),
            ("servicedowntime", {**of_http, **begun, "downtime_id": "4", "entry_time": "1003", "start_time": "1003", "flex_downtime_start": "1900",
                                 "fixed": "0", "duration": "600", "comment": "boot"})])
        muted = self.written(Remark(6, "mute", "", "bob", "off", 1.0, 1.0))
        self.assertEqual((program["enable_notifications"], blocks_of(muted)[1][1]["enable_notifications"]), ("1", "0"))


class Outage(SiteTest):
    def test_object_by_object(self) -> None:
        """Through an outage the status file agrees with the monitor about each object."""
        hosts = [{"name": "gate", "check_interval": 20, "retry_interval": 5, "max_check_attempts": 2}]
        hosts += [{"name": f"h{n}", "parents": ["gate"], "check_interval": 30, "retry_interval": 10, "max_check_attempts": 3} for n in range(4)]
        services = [{"host": f"h{n}", "description": word, "check_interval": 20, "retry_interval": 10, "max_check_attempts": 3}
                    for n in range(4) for word in ("http", "load")]
        self.write_site(hosts, services, passive={"h3;load": {"only": True}})

        def plugin(name: str, moment: int) -> Tuple[int, int, str]:
            seconds = (moment - BEGIN) // 1000
            if 60 <= seconds < 160 and not name.endswith("load"):
                return 300, 2, f"{name} gives no answer|rta=0"
            return 200, 1 if name == "h1;load" and seconds // 20 % 2 else 0, f"{name} is fine|load={seconds % 7}"

        monitor = self.monitor(plugin)
        files = NagiosFiles(self.folder, self.folder / "nagios", True, mock.Mock())
        monitor.ask(do="disable", name="h2;load")
        states, compared = set(), 0
        for _ in range(80):
            monitor.run(3)
            # No check is taken for more than a second, so that the table agrees with the monitor.
            if monitor.scheduling.states.running.plugins() or monitor.scheduling._standings._marked:
                continue
            files.write()
            blocks = objects_of((self.folder / "nagios/status.dat").read_bytes())
            objects = monitor.engine.objects
            self.assertEqual(sorted(blocks), sorted(objects))
            for name, obj in objects.items():
                block, it = blocks[name], obj.standing
                assert it is not None
                marks = f"{' FLAPPING' if it.flapping else ''}{'' if obj.on else ' off'}"
                self.assertEqual(line_of(name, block), f"{it.state} {it.kind} {it.attempt}{marks} {name}: {obj.output}")
                self.assertEqual(int(block["next_check"]), (obj.next or 0) // 1000)
                states.add((it.state, it.kind))
                compared += 1
        self.assertGreater(compared, 100)
        wanted = {("DOWN", "HARD"), ("DOWN", "SOFT"), ("UNREACHABLE", "HARD"), ("CRITICAL", "HARD"), ("OK", "HARD"), ("UP", "HARD"), ("PENDING", "HARD"),
                  ("WARNING", "SOFT")}
        self.assertEqual(wanted - states, set())
        gate = blocks["gate"]
        self.assertTrue(60 <= int(gate["last_time_down"]) - BEGIN // 1000 <= 180, gate)
        self.assertEqual((gate["check_interval"], gate["max_attempts"], blocks["h3;load"]["check_type"]), ("20.000", "2", "1"))
        files._pipe.close()


class Process(ProcessTest):
    def setUp(self) -> None:
        super().setUp()
        self.nagios = self.folder / "nagios"
        self.write_site(self.objects(2, check_interval=3600, retry_interval=3600), [
            {"host": "h00", "description": name, "check_interval": 3600, "max_check_attempts": 1} for name in ("http", "ssh")
        ])
        self.write("commands.json", {name: {"line": f"echo run >> '{self.folder}/{name}.runs'; echo fine", "shell": True}
                                     for name in ("h00", "h01", "h00;http", "h00;ssh")})

    def command(self, *lines: str) -> None:
        with open(self.nagios / NAME, "wb") as there:
            there.write("".join(f"[{int(time.time())}] {line}\n" for line in lines).encode())

    def runs(self, name: str) -> int:
        path = self.folder / f"{name}.runs"
        return path.read_text().count("run") if path.exists() else 0

    def wait(self, what: Callable[[], bool]) -> None:
        self.assertTrue(becomes_true(what))

    def helper_of(self, running: "subprocess.Popen[str]") -> int:
        words = subprocess.run(["ps", "-o", "pid=,args=", "--ppid", str(running.pid)], stdout=subprocess.PIPE, text=True, check=False).stdout
        return next((int(line.split()[0]) for line in words.splitlines() if "nagios_files" in line), 0)

    def test_the_pipe(self) -> None:
        running = self.start_monitor("--nagios-files", str(self.nagios))
        names = ("h00", "h01", "h00;http", "h00;ssh")
        self.wait(lambda: (self.nagios / NAME).exists() and all(self.runs(name) == 1 for name in names) and (self.nagios / "status.dat").exists())
        self.assertIn("h00;ssh", objects_of((self.nagios / "status.dat").read_bytes()))
        now = int(time.time())
        self.command(f"SCHEDULE_FORCED_HOST_CHECK;h01;{now}")
        self.wait(lambda: self.runs("h01") == 2)
        self.command(f"SCHEDULE_HOST_SVC_CHECKS;h00;{now}")
        self.wait(lambda: (self.runs("h00;http"), self.runs("h00;ssh")) == (2, 2))
        self.command("DISABLE_SVC_CHECK;h00;ssh", f"SCHEDULE_SVC_CHECK;h00;ssh;{now}", "DISABLE_HOST_CHECK;h01")
        self.wait(lambda: self.run_command("status", "h*").stdout.count(" off ") == 2)
        self.command(f"SCHEDULE_FORCED_SVC_CHECK;h00;ssh;{now}", "ENABLE_HOST_CHECK;h01")
        self.wait(lambda: self.runs("h00;ssh") == 3)
        self.command("PROCESS_SERVICE_CHECK_RESULT;h00;http;2;no answer;at all", "PROCESS_HOST_CHECK_RESULT;h01;1;it is gone")
        self.command("REMOVE_HOST_ACKNOWLEDGEMENT;h00", "ENABLE_HOST_CHECK;h07", "RESTART_PROGRAM", "nonsense")
        self.wait(lambda: "CRITICAL HARD 1 h00;http: no answer;at all" in self.states())
        self.wait(lambda: "DOWN SOFT 1 h01: it is gone" in self.states())
        self.command(f"SCHEDULE_HOST_DOWNTIME;h00;{now};{now + 3600};1;0;3600;ada;new disk", "ADD_SVC_COMMENT;h00;ssh;1;ada;slow; since May")
        self.wait(lambda: self.run_command("status", "h00*").stdout.count(" downtime ") == 3)
        self.wait(lambda: self.run_command("remarks", "h00;*").stdout.endswith(" ada: slow; since May\n"))
        # A burst, and no result of it is lost: each is another state than the one before.
        self.command(*[f"PROCESS_SERVICE_CHECK_RESULT;h00;http;{number % 3};number {number}" for number in range(300)])
        self.wait(lambda: ": number 299" in self.run_command("status", "h00;http").stdout)
        output = self.stop_monitor(running)
        told = [line.rpartition(" ")[2] for line in output.splitlines() if " h00;http is " in line and ": number " in line]
        self.assertEqual(told[-299:], [str(number) for number in range(1, 300)])
        for why in ("REMOVE_HOST_ACKNOWLEDGEMENT: h00: there is no such acknowledgement",
                    "ENABLE_HOST_CHECK: h07: there is no object 'h07'; the command status lists the full names"):
            self.assertIn(f"refused: nagios.cmd: {why}\n", output)
        self.assertEqual(read_site_status(self.folder).figures["commands_refused"], 4)
        self.assertEqual((self.runs("h00;ssh"), (self.nagios / NAME).exists()), (3, False))

    def test_begun_again_and_ended(self) -> None:
        running = self.start_monitor("--nagios-files", str(self.nagios))
        self.wait(lambda: (self.nagios / "status.dat").exists())
        first = self.helper_of(running)
        os.kill(first, signal.SIGKILL)
        self.wait(lambda: self.helper_of(running) not in (0, first))
        second = self.helper_of(running)
        self.command("DISABLE_HOST_CHECK;h01")
        self.wait(lambda: " off " in self.run_command("status", "h01").stdout)
        os.kill(running.pid, signal.SIGKILL)
        self.wait(lambda: not pathlib.Path(f"/proc/{second}").exists() or " Z " in pathlib.Path(f"/proc/{second}/stat").read_text())
        running.communicate(timeout=10)

    def test_the_same_as_status(self) -> None:
        """With a running monitor: each object's block agrees with its line of `status`."""
        self.write("commands.json", {name: {"line": f"echo 'of {name}|a=1'; exit {code}", "shell": True}
                                     for name, code in (("h00", 0), ("h01", 2), ("h00;http", 1), ("h00;ssh", 2))})
        self.start_monitor()
        files = NagiosFiles(self.folder, self.nagios, False, mock.Mock())

        def same() -> bool:
            files.write()
            blocks = objects_of((self.nagios / "status.dat").read_bytes())
            lines = self.states()
            return len(lines) == 4 and "PENDING" not in "".join(lines) and [line_of(name, blocks[name]).partition("|")[0] for name in sorted(blocks)] == lines

        self.wait(same)


class Size(SiteTest):
    def work(self, count: int) -> Counter[str]:
        """Counts the calls and lines that write the file of this many objects, 15 services on each host."""
        hosts = [f"h{n:03}" for n in range(count // 16)]
        names = [*hosts, *(f"{host};s{n:02}" for host in hosts for n in range(15))]
        words = "PING OK - Packet loss = 0%, RTA = 0.80 ms|rta=0.8ms;3;5"
        (self.folder / "monitor.db").unlink(missing_ok=True)
        store_site(self.folder, {"hosts": [{"name": host, "max_check_attempts": 3} for host in hosts]},
                   [WELL._replace(name=name, state="OK" if ";" in name else "UP", words=words) for name in names])
        rows = ObjectRows(self.folder, print)
        rows.read()
        self.assertEqual(len(objects_of(status_file(rows).encode())), count)
        self.assertEqual(sum(map(len, rows.services.values())), count // 16 * 15)
        rows.close()
        fresh = ObjectRows(self.folder, print)
        work = work_of(lambda: (fresh.read(), status_file(fresh).encode()))
        fresh.close()
        return work

    def test_4096_objects(self) -> None:
        check_growth(self, self.work, 75)
