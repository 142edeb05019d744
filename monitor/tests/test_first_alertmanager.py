"""The alertmanager.yml that the converter writes: whom it notifies during a day, compared with Nagios. The wanted values are worked out from Nagios's rules;
packages_notifications compares them with a running Nagios.

A model of Alertmanager counts notifications, and amtool finds the same receivers for each alert, and accepts the file.
"""
import datetime
import json
import shutil
import subprocess
import sys
from typing import Any, Dict, List, Sequence, Tuple

from nagsched_monitor.outputs.alertmanager import FLAPPING, PROBLEM
from nagsched_monitor.site.people_files import labels_of, read_groups
from nagsched_monitor.site.periods import Periods, read_periods

from .alert_model import DAYS, Event, Labels, Model, Told, is_within
from .converting import SCRIPT, Converting, defined
from .waiting import LONG

ALL_OF_HOSTS, ALL_OF_SERVICES = "r,d,u,f,s", "r,w,u,c,f,s"
# The contacts: their period, and their options for hosts and for services. Eve's notifications about hosts are switched off.
CONTACTS = {
    "ann": ("always", ALL_OF_HOSTS, ALL_OF_SERVICES), "bob": ("always", "r,d", "r,c"), "cy": ("always", "d", "w,c"),
    "dee": ("work", ALL_OF_HOSTS, ALL_OF_SERVICES),
    "eve": ("always", ALL_OF_HOSTS, ALL_OF_SERVICES), "fay": ("always", "f", "f"), "gus": ("night", ALL_OF_HOSTS, ALL_OF_SERVICES),
    "hal": ("always", ALL_OF_HOSTS, ALL_OF_SERVICES), "ida": ("always", "n", "n"), "jon": ("always", "r,u", "r,u"),
}
PERIODS = {"always": "00:00-24:00", "work": "09:00-17:00", "night": "00:00-09:00,17:00-24:00"}
TEAM = {"contact_groups": "team"}
OBJECTS: Dict[str, Dict[str, str]] = {
    "gw": {"contacts": "ann"}, "web": {**TEAM, "parents": "gw"}, "db": {"contacts": "bob"},
    "web;http": {**TEAM, "contacts": "ann"}, "web;pay": TEAM, "web;disk": {**TEAM, "notifications_enabled": "0"},
    "web;load": {**TEAM, "notification_options": "c,r", "first_notification_delay": "10.000000", "notification_interval": "60.000000"},
    "web;mail": {**TEAM, "notification_period": "work", "notification_interval": "0.000000"}, "web;app": TEAM, "db;sql": {"contacts": "bob"},
}
ESCALATIONS = {"web;http": {"contacts": "hal", **TEAM}, "web;pay": {"contacts": "hal"}}


EVENTS: Dict[str, Sequence[Event]] = {
    "http at night": [Event("web;http", "critical", 180, 220)],
    "pay": [Event("web;pay", "critical", 300, 350)],
    "unknown": [Event("web;http", "unknown", 420, 440)],
    "before work": [Event("web;http", "warning", 500, 565)],
    "web is down": [Event("web", "critical", 600, 650), Event("web;http", "critical", 601, 650)],
    "gw is down": [Event("gw", "critical", 720, 760), Event("web", "unreachable", 720, 760)],
    "load": [Event("web;load", "critical", 840, 930)],
    "load is high": [Event("web;load", "warning", 960, 990)],
    "mail": [Event("web;mail", "critical", 940, 1000)],
    "muted": [Event("web;disk", "critical", 1050, 1110)],
    "mail at night": [Event("web;mail", "critical", 1140, 1190)],
    "flapping": [Event("web;http", "warning", 1200, 1230, FLAPPING), Event("web;http", "critical", 1205, 1220)],
    "sql": [Event("db;sql", "critical", 1260, 1320), Event("web;app", "critical", 1262, 1318)],
    "slow sql": [Event("db;sql", "warning", 1330, 1340), Event("web;app", "critical", 1331, 1345)],
}
NAGIOS: Dict[str, Dict[str, Told]] = {
    "http at night": {**{name: (2, 180, name != "cy") for name in ("ann", "bob", "cy", "eve", "gus")}, "hal": (1, 210, True)},
    # From its second notification on, the escalation replaces the contacts, also for the recovery.
    "pay": {**{name: (1, 300, False) for name in ("ann", "bob", "cy", "eve", "gus")}, "hal": (1, 330, True)},
    "unknown": {name: (1, 420, True) for name in ("ann", "eve", "gus", "jon")},
    "before work": {"ann": (3, 500, True), "cy": (3, 500, False), "dee": (1, 560, True), "eve": (3, 500, True), "gus": (2, 500, False), "hal": (2, 530, True)},
    # Nagios also notifies contacts of a host's recovery who weren't notified of the problem.
    "web is down": {"ann": (2, 600, True), "bob": (2, 600, True), "cy": (2, 600, False), "dee": (2, 600, True), "jon": (0, 650, True)},
    "gw is down": {"ann": (4, 720, True), "bob": (0, 760, True), "dee": (2, 720, True), "jon": (2, 720, True)},
    "load": {"ann": (2, 850, True), "bob": (2, 850, True), "cy": (2, 850, False), "dee": (2, 850, True), "eve": (2, 850, True)},
    "load is high": {}, "muted": {}, "mail at night": {},
    "mail": {"ann": (1, 940, True), "bob": (1, 940, True), "cy": (1, 940, False), "dee": (1, 940, True), "eve": (1, 940, True)},
    "flapping": {name: (1, 1200, True) for name in ("ann", "eve", "fay", "gus")},
    "sql": {"bob": (2, 1260, True)},
    "slow sql": {"ann": (1, 1331, True), "bob": (1, 1331, True), "cy": (1, 1331, False), "eve": (1, 1331, True), "gus": (1, 1331, True)},
}
# Differences of Alertmanager: contacts whom an escalation replaces are still notified, and a period that begins is noticed at once. It notifies nobody
# of the end alone.
DIFFERENT: Dict[str, Dict[str, Told]] = {
    "pay": {name: (2, 300, name != "cy") for name in ("ann", "bob", "cy", "eve", "gus")},
    "before work": {"dee": (1, 540, True)},
}

def nagios_objects() -> str:
    text = defined("command", {"command_name": "dummy", "command_line": "/bin/true"})
    text += defined("command", {"command_name": "mail", "command_line": "/usr/bin/mail $CONTACTEMAIL$"})
    text += "".join(defined("timeperiod", {"timeperiod_name": name, **{day: times for day in DAYS}}) for name, times in PERIODS.items())
    for name, (period, of_hosts, of_services) in CONTACTS.items():
        text += defined("contact", {"contact_name": name, "host_notification_period": period, "service_notification_period": period,
                                    "host_notification_options": of_hosts, "service_notification_options": of_services, "host_notification_commands": "mail",
                                    "email": f"{name}@example.org", **({"host_notifications_enabled": "0"} if name == "eve" else {})})
    text += defined("contactgroup", {"contactgroup_name": "team", "members": ",".join(name for name in CONTACTS if name != "hal")})
    for name, members in OBJECTS.items():
        text += defined("service" if ";" in name else "host", {**named(name), "check_command": "dummy", "max_check_attempts": "3", **members})
    for name, members in ESCALATIONS.items():
        text += defined("serviceescalation", {**named(name), "first_notification": "2", "last_notification": "0", "notification_interval": "30.000000",
                                              **members})
    return text + defined("servicedependency", {**named("db;sql"), "dependent_host_name": "web", "dependent_service_description": "app", "inherits_parent": "0",
                                                "notification_failure_options": "c"})


def named(name: str) -> Dict[str, str]:
    host, _, description = name.partition(";")
    return {"host_name": host, **({"service_description": description} if description else {})}


class FirstConfiguration(Converting):
    def setUp(self) -> None:
        super().setUp()
        self.told = self.take(nagios_objects(), "use_timezone=UTC\nadmin_email=root@example.org\n")
        self.path = self.site / "alertmanager.yml"

    def labels(self, event: Event) -> Labels:
        return {"site": "site", **labels_of(event.name, read_groups(self.site)), "alertname": event.alert, "severity": event.severity}

    def receivers(self, labels: Sequence[str]) -> List[str]:
        """The receivers that amtool finds for an alert."""
        ran = subprocess.run(["amtool", "config", "routes", "test", f"--config.file={self.path}", *labels], stdout=subprocess.PIPE, stderr=subprocess.DEVNULL,
                             text=True, timeout=LONG, check=True)
        return sorted(ran.stdout.strip().split(","))

    def configuration(self) -> Dict[str, Any]:
        """The content of the file as data, of which the file is the text."""
        make = ("import json, pathlib, sys, nagios_alerting as a, nagios_values as v; work = pathlib.Path(sys.argv[1]); report = v.LeftOut(); "
                "report.always = {'always'}; made = a.configuration(v.read_options(work / 'nagios.cfg'), v.read_objects(work / 'objects'), "
                "json.loads((work / 'site/groups.json').read_text()), 60, report); print(json.dumps([made, a.yaml_text(made)]))")
        ran = subprocess.run([sys.executable, "-c", make, str(self.folder)], cwd=SCRIPT.parent, stdout=subprocess.PIPE, timeout=LONG, check=True)
        made, text = json.loads(ran.stdout)
        self.assertEqual(text, self.path.read_text())
        return dict(made)

    def test_ten_contacts_on_one_day(self) -> None:
        config = self.configuration()
        for name, events in EVENTS.items():
            found: Dict[str, List[Told]] = {}
            for contact, told in Model(config, [(event, self.labels(event)) for event in events]).notifications():
                found.setdefault(contact, []).append(told)
            all_of = {contact: (sum(its[0] for its in told), min(its[1] for its in told), all(its[2] for its in told)) for contact, told in found.items()}
            wanted = {contact: its for contact, its in {**NAGIOS[name], **DIFFERENT.get(name, {})}.items() if its[0]}
            self.assertEqual({contact: (count, has_end) for contact, (count, _, has_end) in all_of.items()},
                             {contact: (count, has_end) for contact, (count, _, has_end) in wanted.items()}, name)
            for contact, (_, first, _) in wanted.items():
                self.assertIn(all_of[contact][1] - first, (0, 1), (name, contact))
        self.assertIn("differs: contacts whom an escalation replaces (1): they are still notified: web;pay", self.told.splitlines())

    def test_amtool(self) -> None:
        """It accepts the file, and finds the receivers that the model finds."""
        if shutil.which("amtool") is None:
            self.skipTest("amtool isn't here")
        self.assertEqual(subprocess.run(["amtool", "check-config", str(self.path)], stdout=subprocess.DEVNULL, timeout=LONG, check=False).returncode, 0)
        model = Model(self.configuration(), [])
        for event in (event for events in EVENTS.values() for event in events):
            words = [f"{label}={value}" for label, value in self.labels(event).items()]
            self.assertEqual(self.receivers(words), sorted(route["receiver"] for route in model.routes(self.labels(event))), event)

    def test_what_is_named(self) -> None:
        """Contacts without a mail address that works, and what Alertmanager does otherwise. With notifications off, nobody hears of a problem."""
        contacts: Dict[str, Dict[str, str]] = {
            "no address": {}, "pager": {"email": "p@example.org", "host_notification_commands": "page"}, "here": {"email": "root"}}
        text = nagios_objects() + defined("command", {"command_name": "page", "command_line": "/usr/bin/page $CONTACTPAGER$"})
        text += "".join(defined("contact", {"contact_name": name, "host_notification_options": "d", **members}) for name, members in contacts.items())
        text += defined("host", {"host_name": "h", "check_command": "dummy", "max_check_attempts": "3", "contacts": ",".join(contacts)})
        text += defined("hostescalation", {"host_name": "h", "first_notification": "2", "last_notification": "4", "contacts": "ann"})
        text += defined("hostdependency", {"host_name": "gw", "dependent_host_name": "h", "notification_failure_options": "o,p"})
        self.path.unlink()
        told = self.take(text, "enable_notifications=0\n").splitlines()
        self.assertIn("needs a receiver: contacts without mail (2): their receivers in alertmanager.yml notify nobody until you give them a way: "
                      "no address, pager", told)
        self.assertIn("needs a receiver: mail addresses without a domain (1): Alertmanager can't send mail to them: add the domain: here", told)
        self.assertIn("differs: last_notification of a hostescalation (1): its contacts are notified until the problem ends: h", told)
        for letter in "op":
            self.assertTrue(any(line.startswith(f"left out: notification_failure_options {letter} (1): ") for line in told), told)
        muted = [line for line in self.path.read_text().splitlines() if "NagschedProblem|NagschedFlapping" in line]
        self.assertEqual(len(muted), 2)  # one holds back what remarks hold
        if shutil.which("amtool") is not None:
            labels = [f"alertname={PROBLEM}", "host=h", "severity=critical", "contacts=,here,"]
            self.assertEqual(self.receivers(labels), ["nobody"])

    def test_it_is_written_once(self) -> None:
        self.path.write_text("mine")
        told = self.take(nagios_objects(), "use_timezone=UTC\n")
        self.assertEqual(self.path.read_text(), "mine")
        self.assertIn("left out: contact definitions (10)", told)
        self.assertIn("needs a route: ", told)
        self.assertNotIn("contact definitions", self.told)
        self.assertNotIn("needs a route: ", self.told)


WEEK = {day: "09:00-17:00" for day in DAYS[:5]}
# Periods: their times by days, and the period that each excludes.
OF_DATES: Dict[str, Tuple[Dict[str, str], str]] = {
    "week": ({**WEEK, "saturday": "00:00-01:15,03:15-24:00"}, ""),
    "holidays": ({"2026-12-24 - 2027-01-02": "00:00-24:00", "may 1": "00:00-24:00", "monday 2 may": "08:00-12:00"}, ""),
    "not on holidays": (WEEK, "holidays"), "not at week": ({day: "00:00-24:00" for day in DAYS}, "week"),
    "days": ({**WEEK, "day 1": "00:00-24:00", "day -1": "22:00-24:00", "thursday 2": "06:00-07:00"}, ""),
    "weeks": ({**WEEK, "friday 4": "18:00-20:00", "monday 1": "00:00-00:00", "2027-02-28": "03:00-04:00"}, ""),
    "ranges": ({**WEEK, "day 10 - 12": "07:00-08:00", "day -6 - -5": "07:00-09:00", "july 3 - july 9": "12:00-13:00"}, ""),
}


class TimeIntervals(Converting):
    def test_they_are_the_periods(self) -> None:
        """Over two years, alone and within another period, compared with the periods of the monitor."""
        text = defined("command", {"command_name": "dummy", "command_line": "/bin/true"})
        for name, (times, exclude) in OF_DATES.items():
            text += defined("timeperiod", {"timeperiod_name": name, **times, **({"exclude": exclude} if exclude else {})})
            text += defined("host", {"host_name": name, "check_command": "dummy", "max_check_attempts": "1", "check_period": name})
        self.take(text)
        make = ("import json, pathlib, sys, nagios_time_intervals as t, nagios_values as v; report = v.LeftOut(); names = json.loads(sys.argv[2])\n"
                "its = t.Intervals(v.read_objects(pathlib.Path(sys.argv[1])), '', report)\n"
                "print(json.dumps([[its.members(each) for each in names], its.used, list(report.kinds)]))")
        sets = [*([name] for name in OF_DATES), *(["days", name] for name in ("week", "not on holidays"))]
        ran = subprocess.run([sys.executable, "-c", make, str(self.folder / "objects"), json.dumps(sets)], cwd=SCRIPT.parent, stdout=subprocess.PIPE,
                             timeout=LONG, check=True)
        members, used, kinds = json.loads(ran.stdout)
        self.assertEqual(kinds, [])
        intervals = {each["name"]: each["time_intervals"] for each in used}
        periods = Periods(read_periods(self.read("periods")["periods"], "periods.json"), datetime.timezone.utc)
        for names, route in zip(sets, members):
            for step in range(0, 2 * 365 * 24 * 60, 197):
                at = datetime.datetime(2026, 1, 1, tzinfo=datetime.timezone.utc) + datetime.timedelta(minutes=step)
                is_active = any(is_within(intervals[name], at) for name in route["active_time_intervals"])
                is_muted = any(is_within(intervals[name], at) for name in route.get("mute_time_intervals", ()))
                self.assertEqual(is_active and not is_muted, all(periods.includes(name, at.timestamp()) for name in names), (names, at))
