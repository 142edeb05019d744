"""Taking over a configuration of Nagios: the values of macros, groups, and the monitor's options."""
import json
import subprocess
import sys
from typing import Any, Dict, List, Optional, Tuple


from .converting import SCRIPT, Converting, defined
from .waiting import LONG

# As `nagios4 -vp` of Nagios Core 4.4.6 writes it: groups by name.
GROUPS: Dict[str, Dict[str, str]] = {
    "contactgroup oncall": {"alias": "On call", "members": "ann"},
    "hostgroup alpha": {"alias": "The alphas", "members": "db,web"},
    "hostgroup middle": {"alias": "The middles", "members": "web"},
    "hostgroup zebra": {"alias": "The zebras", "members": "db,web", "notes": "group notes $HOSTNAME$", "notes_url": "http://g/$HOSTGROUPNAME$",
                        "action_url": "http://a/"},
    "servicegroup as": {"alias": "A services", "members": "web,http"},
    "servicegroup zs": {"alias": "Z services", "members": "db,plain,web,http", "notes": "sg notes"},
}
ALIAS = "A b-c_d.e/f:g~h?i=j&k%l+m@n,o"
HOSTS: Dict[str, Dict[str, str]] = {
    "web": {"alias": ALIAS, "display_name": "Web shown", "address": "192.0.2.7", "notes": "about $HOSTADDRESS$ & more", "notes_url": "http://n/?h=$HOSTALIAS$",
            "action_url": "http://act/$HOSTNAME$", "_RACK": "r 7", "_GROUPX": "gx", "contact_groups": "oncall", "contacts": "bob,ann"},
    "db": {"alias": "Db", "address": "192.0.2.8"},
    "lone": {"address": "192.0.2.9"},
}
SERVICES: Dict[str, Dict[str, str]] = {
    "web;http": {"display_name": "Http shown", "notes": "svc $SERVICEDESC$ of $HOSTNAME$", "notes_url": "http://sn/?a b=$SERVICEDESC$&c=1",
                 "action_url": "http://sa/", "_OID": "1.3"},
    "web;more": {},
    "db;plain": {},
}
# The values that Nagios Core 4.4.6 passed to a plugin of each object, by the macro. None: Nagios leaves the macro unchanged, or knows its value only later.
MACROS: Dict[str, Dict[str, Optional[str]]] = {
    "web": {
        "HOSTGROUPNAME": "zebra", "HOSTGROUPNAMES": "zebra,middle,alpha", "HOSTGROUPALIAS": "The zebras", "HOSTNOTES": "about 192.0.2.7 & more",
        "HOSTNOTESURL": "http://n/?h=A%20b-c_d.e%2Ff%3Ag~h%3Fi%3Dj%26k%25l%2Bm%40n%2Co", "HOSTACTIONURL": "http://act/web", "_HOSTGROUPX": "gx",
        "_HOSTRACK": "r 7",
        "HOSTSTATE": None, "HOSTPARENTS": None, "LONGDATETIME": None,
    },
    "db": {"HOSTGROUPMEMBERS": "db,web", "HOSTGROUPNOTES": "group notes db", "HOSTGROUPNOTESURL": "http://g/zebra", "HOSTGROUPACTIONURL": "http://a/",
           "HOSTNOTES": "",
           "HOSTNOTESURL": "", "HOSTGROUPNAMES": "zebra,alpha"},
    "lone": {"HOSTGROUPNAME": "$HOSTGROUPNAME$", "HOSTGROUPNAMES": "", "HOSTALIAS": "lone", "HOSTADDRESS:web": "192.0.2.7", "HOSTALIAS:web": ALIAS,
             "_HOSTRACK:web": "r 7",
             "HOSTGROUPMEMBERS:zebra": "db,web", "HOSTNAME:nosuch": None},
    "web;http": {"SERVICEGROUPNAME": "zs", "SERVICEGROUPNAMES": "zs,as", "SERVICEGROUPALIAS": "Z services", "SERVICENOTES": "svc http of web",
                 "SERVICENOTESURL": "http://sn/?a b=http&c=1", "SERVICEACTIONURL": "http://sa/", "SERVICESTATEID:db:plain": None},
    "db;plain": {"HOSTGROUPNAME": "zebra", "SERVICEGROUPMEMBERS": "db,plain,web,http", "SERVICEGROUPNOTES": "sg notes", "SERVICEDESC:web:http": "http",
                 "SERVICEDISPLAYNAME:web:http": "Http shown", "HOSTADDRESS:web": "192.0.2.7"},
    "web;more": {"HOSTGROUPALIAS:alpha": "The alphas", "SERVICEGROUPALIAS:as": "A services", "HOSTGROUPNAME:alpha": "alpha", "SERVICEDESC::http": "http",
                 "HOSTADDRESS:zebra:,": "192.0.2.8,192.0.2.7", "HOSTALIAS:zebra:|": f"Db|{ALIAS}", "HOSTDISPLAYNAME:alpha:, ": "db, Web shown",
                 "HOSTGROUPNAMES:web": "zebra,middle,alpha",
                 "HOSTGROUPALIAS:web": None},
}


class TakingOver(Converting):
    def network(self, commands: Dict[str, str]) -> str:
        """All objects, each with the command that is named for it."""
        text = "".join(defined(name.split()[0], {f"{name.split()[0]}_name": name.split()[1], **members}) for name, members in GROUPS.items())
        for name, line in commands.items():
            text += defined("command", {"command_name": f"of {name}", "command_line": line})
        for name, members in {**HOSTS, **SERVICES}.items():
            host, semicolon, description = name.partition(";")
            own = {"host_name": host, **({"service_description": description} if semicolon else {}), **members, "check_command": f"of {name}",
                   "max_check_attempts": "3"}
            text += defined("service" if semicolon else "host", own)
        return text

    def test_macros_that_nagios_knows_before_it_runs(self) -> None:
        known = {name: [(macro, wanted) for macro, wanted in macros.items() if wanted is not None] for name, macros in MACROS.items()}
        self.take(self.network({name: "/bin/echo " + " ".join(f"'{macro}=${macro}$'" for macro, _ in macros) for name, macros in known.items()}))
        for name, macros in known.items():
            self.assertEqual(self.read("commands")[name]["line"], "/bin/echo " + " ".join(f"'{macro}={wanted}'" for macro, wanted in macros))

    def test_macros_that_nagios_knows_when_it_runs(self) -> None:
        """An object with such a macro is disabled, and named."""
        for name, macros in MACROS.items():
            for macro in (macro for macro, wanted in macros.items() if wanted is None):
                told = self.take(self.network({**{each: "/bin/true" for each in {**HOSTS, **SERVICES}}, name: f"/bin/echo '${macro}$'"}))
                self.assertNotIn(name, self.read("commands"))
                self.assertIn(f"{name}: ${macro}$ has no value before Nagios runs", told)

    def test_what_objects_want_of_notifications(self) -> None:
        """What isn't Nagios's default is in groups.json, in seconds. Each object is named if alertmanager.yml stays as it was. A downtime (s) is nothing that is notified."""
        full, host = {"host_name": "h", "check_command": "dummy", "max_check_attempts": "3"}, {"first_notification_delay": "0.000000"}
        wishes: List[Tuple[str, Dict[str, str], Any, str]] = [
            ("host usual", {**host, "notification_options": "r,d,u,f,s", "notifications_enabled": "1", "notification_interval": "30.000000",
                            "notification_period": "always"}, None, ""),
            ("host all", {"notification_options": "a"}, None, ""),
            ("host most", {"notification_options": "r,d,u,f"}, None, ""),
            ("host off", {"notifications_enabled": "0"}, {"enabled": False}, 'notifications_enabled 0 (1): label notification_options=",none,"'),
            ("host nothing", {"notification_options": "n"}, {"options": []}, 'notification_options n of a host (1): label notification_options=",none,"'),
            ("host down", {"notification_options": "d,r"}, {"options": ["critical", "recovery"]},
             'notification_options d,r of a host (1): label notification_options=",critical,recovery,"'),
            ("service some", {"notification_options": "w,u,f,s"}, {"options": ["warning", "unknown", "flapping"]}, "notification_options w,u,f,s of a service"),
            ("service work", {"notification_period": "work"}, {"period": "work"}, 'notification_period work (1): label notification_period="work"'),
            ("service late", {"first_notification_delay": "10.000000"}, {"delay": 300},
             'first_notification_delay of 300 s (1): label notification_delay="300s"'),
            ("service again", {"notification_interval": "0.5"}, {"interval": 15}, 'notification_interval of 15 s (1): label notification_interval="15s"'),
            ("service once", {"notification_interval": "0"}, {"interval": 0}, "notification_interval of 0 s"),
        ]
        text, days = self.small(), {day: "00:00-24:00" for day in ("monday", "tuesday", "wednesday", "thursday", "friday", "saturday", "sunday")}
        text += defined("timeperiod", {"timeperiod_name": "always", **days}) + defined("timeperiod", {"timeperiod_name": "work", "monday": "09:00-17:00"})
        text += defined("host", full)
        self.take(self.small())
        for kind, name in (it[0].split() for it in wishes):
            members = {**full, **({"host_name": name} if kind == "host" else {"service_description": name})}
            text += defined(kind, {**members, **next(it[1] for it in wishes if it[0] == f"{kind} {name}")})
        told = self.take(text, "interval_length=30\n").splitlines()
        groups = self.read("groups")
        for (kind, name), wanted, line in ((it[0].split(), it[2], it[3]) for it in wishes):
            full_name = name if kind == "host" else f"h;{name}"
            self.assertEqual(groups.get(full_name, {}).get("notifications"), wanted, name)
            found = [each for each in told if each.startswith("needs a route: ") and each.endswith(f": {full_name}")]
            self.assertEqual(len(found), 0 if wanted is None else 1, (name, told))
            self.assertIn(line, "".join(found))
        ran = self.taken(self.small() + defined("host", {**full, "notification_options": "d,w"}))
        self.assertEqual((ran.returncode, "objects:14: notification_options: 'w'" in ran.stderr), (1, True), ran.stderr)

    def test_what_people_see(self) -> None:
        """It is in inventory.json, with macros that have a value before Nagios runs; the others stay, and are named."""
        late = {"host_name": "late", "alias": "late", "address": "192.0.2.9", "notes": "up since $HOSTDURATION$", "icon_image": "a.png", "2d_coords": "1,2",
                "check_command": "dummy", "max_check_attempts": "3"}
        told = self.take(self.network({name: "/bin/true" for name in {**HOSTS, **SERVICES}}) + self.small() + defined("host", late))
        inventory = self.read("inventory")
        self.assertEqual(inventory["web"], {
            "alias": ALIAS, "display_name": "Web shown", "address": "192.0.2.7", "notes": MACROS["web"]["HOSTNOTES"],
            "notes_url": MACROS["web"]["HOSTNOTESURL"], "action_url": "http://act/web", "custom": {"RACK": "r 7", "GROUPX": "gx"}})
        self.assertEqual(inventory["web;http"], {"display_name": "Http shown", "notes": "svc http of web", "notes_url": MACROS["web;http"]["SERVICENOTESURL"],
                                                 "action_url": "http://sa/", "custom": {"OID": "1.3"}})
        self.assertEqual(inventory["late"], {"address": "192.0.2.9", "notes": "up since $HOSTDURATION$", "icon_image": "a.png", "2d_coords": "1,2"})
        self.assertEqual((inventory.get("web;more"), inventory.get("db;plain")), (None, None))
        self.assertIn("left out: a macro in notes (1): $HOSTDURATION$ has no value before Nagios runs, so it stays as it is: late", told.splitlines())

    def test_no_object_is_left_out_without_its_name(self) -> None:
        """Whatever is left out of an object, also a member that nobody knows, is a line with its name; with --all every name is there."""
        full = {"check_command": "dummy", "max_check_attempts": "3"}
        members = {"stalking_options": "d", "importance": "5", "retain_status_information": "0", "retain_nonstatus_information": "0", "event_handler": "x",
                   "colour": "red", "retry_interval": "0", "flap_detection_options": "d", "initial_state": "d", "is_volatile": "1"}
        hosts = "".join(defined("host", {"host_name": f"{member}-{number}", **full, member: value}) for member, value in members.items() for number in range(7))
        contact = defined("contact", {"contact_name": "ann"}) + defined("contactgroup", {"contactgroup_name": "all", "members": "ann"})
        told = self.take(self.small() + hosts + contact).splitlines()
        for member in members:
            self.assertEqual([line.endswith(f"{member}-4 and 2 more") for line in told if f" {member}-0" in line], [True], member)
        whole = self.taken(self.small() + hosts + contact, words=["--all"]).stderr.splitlines()
        for member in members:
            names = [f"{member}-{number}" for number in range(7)]
            self.assertEqual([line.endswith(": " + ", ".join(names)) for line in whole if f" {member}-0" in line], [True], member)
        self.assertEqual([line.rpartition(": ")[2] for line in told if "contact" in line], ["ann"])
        self.assertEqual([line.rpartition(": ")[2] for line in whole if "contact" in line], ["ann", "all"])
        self.assertEqual({it["name"]: it["retry_interval"] for it in self.read("setup")["hosts"] if it["name"].startswith("retry")},
                         {f"retry_interval-{number}": 1 for number in range(7)})

    def test_files_that_are_wrong(self) -> None:
        """What, where and what to do; no number of an error, and no path twice."""
        self.take(self.small())
        options, objects, nowhere = (str(self.folder / name) for name in ("nagios.cfg", "objects", "nowhere"))
        (self.folder / "latin").write_bytes(b"define host {\n\talias\t\xfc\n\t}\n")
        (self.folder / "open").write_text("define host {\n")
        (self.folder / "words").write_text("interval_length\n")
        for words, wanted in (
            ([objects, options], f"{objects}:1: this file has objects: name nagios.cfg first, and then objects.precache"),
            ([options, options], f"{options}:1: this file has options: name nagios.cfg first, and then objects.precache"),
            ([nowhere, objects], f"{nowhere}: there is no such file: the first file has to be nagios.cfg, on Debian /etc/nagios4/nagios.cfg"),
            ([options, nowhere], f"{nowhere}: there is no such file: Nagios writes it as its precached_object_file, with `nagios4 -vp nagios.cfg`"),
            ([options, str(self.folder)], f"{self.folder}: Is a directory"),
            ([options, str(self.folder / "latin")],
             f"{self.folder}/latin:2: this line isn't UTF-8: convert the file, for example with `iconv -f latin1 -t utf-8`"),
            ([options, str(self.folder / "open")], f"{self.folder}/open: its last definition has no `}}`: let Nagios write the file again"),
            ([str(self.folder / "words"), objects], f"{self.folder}/words:1: an option has to be like name=value, not 'interval_length'"),
            (["--site", objects, options, objects], f"{objects}: File exists"),
            (["--commands", f"{nowhere}/x", options, objects], f"{nowhere}/x: No such file or directory"),
            (["--parts", f"{objects}/x", options, objects], f"{objects}/x: Not a directory"),
        ):
            ran = subprocess.run([sys.executable, str(SCRIPT), *words], capture_output=True, text=True, timeout=LONG, check=False)
            self.assertEqual((ran.returncode, ran.stderr.splitlines()[-1]), (1, f"from_nagios: {wanted}"))

    def test_freshness_that_is_off(self) -> None:
        """As in Nagios, the results of hosts have to be fresh only if nagios.cfg says so."""
        host = {"host_name": "h", "check_command": "dummy", "max_check_attempts": "3", "check_freshness": "1", "freshness_threshold": "90"}
        text = self.small() + defined("host", host)
        for option, wanted in (("", {}), ("check_host_freshness=1\n", {"h": {"freshness": 90.0}}), ("check_host_freshness=0\n", {})):
            self.take(text, option)
            self.assertEqual(self.read("passive"), wanted)

    def test_groups(self) -> None:
        self.take(self.network({name: "/bin/true" for name in {**HOSTS, **SERVICES}}))
        self.assertEqual(self.read("groups"), {
            "web": {"host_groups": ["alpha", "middle", "zebra"], "contact_groups": ["oncall"], "contacts": ["ann", "bob"]},
            "db": {"host_groups": ["alpha", "zebra"]},
            "web;http": {"host_groups": ["alpha", "middle", "zebra"], "service_groups": ["as", "zs"]},
            "web;more": {"host_groups": ["alpha", "middle", "zebra"]},
            "db;plain": {"host_groups": ["alpha", "zebra"], "service_groups": ["zs"]},
        })

    def test_groups_and_contacts(self) -> None:
        """What people see of them is in directory.json, and who is in a contact group."""
        contacts = defined("contact", {"contact_name": "ann", "alias": "Ann A", "email": "ann@example.org"}) + defined("contact", {"contact_name": "bob", "alias": "bob"})
        self.take(self.network({name: "/bin/true" for name in {**HOSTS, **SERVICES}}) + contacts)
        directory = self.read("directory")
        self.assertEqual(directory["contact_groups"], {"oncall": {"alias": "On call", "members": ["ann"]}})
        self.assertEqual(directory["contacts"], {"ann": {"alias": "Ann A", "email": "ann@example.org"}, "bob": {}})
        self.assertEqual(directory["service_groups"], {"as": {"alias": "A services"}, "zs": {"alias": "Z services", "notes": "sg notes"}})
        self.assertEqual(directory["host_groups"]["zebra"], {"alias": "The zebras", "notes": "group notes $HOSTNAME$", "notes_url": "http://g/$HOSTGROUPNAME$",
                                                             "action_url": "http://a/"})

    def test_options_of_the_monitor(self) -> None:
        """The values in nagios.cfg count, then the earlier ones, then Nagios's defaults. Members that nagios.cfg can't express stay."""
        self.take(self.small())
        self.assertEqual(self.read("monitor"), {"slots": 200, "cached_host_check_horizon": 15, "service_check_timeout_state": "c"})
        before = {"slots": 5000, "cached_host_check_horizon": 20, "service_check_timeout_state": "u", "zone": "Europe/Paris", "keep_days": 400, "other": [1]}
        (self.site / "monitor.json").write_text(json.dumps(before))
        self.take(self.small())
        self.assertEqual(self.read("monitor"), before)
        self.take(self.small(), "max_concurrent_checks=40\ncached_host_check_horizon=9\nservice_check_timeout_state=w\nuse_timezone=:America/Lima\n")
        self.assertEqual(self.read("monitor"), {**before, "slots": 40, "cached_host_check_horizon": 9, "service_check_timeout_state": "w",
                                                "zone": "America/Lima"})

    def test_options_that_would_be_lost(self) -> None:
        """A monitor.json that can't be read stops it, and so does an unknown zone; nothing is changed then."""
        self.take(self.small())
        for text in ("{", "[]"):
            (self.site / "monitor.json").write_text(text)
            ran = self.taken(self.small(2))
            self.assertEqual((ran.returncode, (self.site / "monitor.json").read_text()), (1, text))
            self.assertIn("monitor.json", ran.stderr)
        (self.site / "monitor.json").unlink()
        ran = self.taken(self.small(2), "use_timezone=Mars/Olympus\n")
        self.assertEqual((ran.returncode, len(self.read("setup")["hosts"])), (1, 1))
        self.assertIn("use_timezone=Mars/Olympus", ran.stderr)

    def test_what_is_named(self) -> None:
        options = {"enable_environment_macros": "NAGIOS_", "accept_passive_service_checks": "services", "accept_passive_host_checks": "hosts",
                   "log_passive_checks": "logged", "enable_notifications": "notified", "process_performance_data": "passed on"}
        neutral = {"enable_environment_macros": "0", "accept_passive_service_checks": "1", "accept_passive_host_checks": "1", "log_passive_checks": "1",
                   "enable_notifications": "1", "process_performance_data": "0"}
        for option, word in options.items():
            told = [line for line in self.take(self.small(), f"{option}={1 - int(neutral[option])}\n").splitlines() if option in line]
            self.assertEqual(len(told), 1)
            self.assertIn(word, told[0])
            self.assertNotIn(option, self.take(self.small(), f"{option}={neutral[option]}\n"))
        host = {"host_name": "h", "check_command": "dummy", "max_check_attempts": "3"}
        told = self.take(self.small() + defined("host", {**host, "passive_checks_enabled": "0"})).splitlines()
        self.assertIn("left out: passive_checks_enabled 0 (1): a passive result of it is taken all the same: h", told)
        self.assertNotIn("passive_checks", self.take(self.small() + defined("host", {**host, "passive_checks_enabled": "1"})))
        ran = subprocess.run([sys.executable, str(SCRIPT), str(self.folder / "nagios.cfg"), str(self.folder / "objects")], capture_output=True, text=True,
                             check=False)
        self.assertNotIn("zone", ran.stderr)
        (self.folder / "nagios.cfg").write_text("use_timezone=Europe/Paris\n")
        ran = subprocess.run([sys.executable, str(SCRIPT), str(self.folder / "nagios.cfg"), str(self.folder / "objects")], capture_output=True, text=True,
                             check=False)
        self.assertIn("left out: use_timezone (1): times are those of the machine's zone", ran.stderr)

    def test_values_that_a_shell_obeys(self) -> None:
        """They are expanded as Nagios does it, and the objects are named. An object whose command line itself needs the shell isn't named."""
        host = {"alias": "Web; rm -rf /", "_PLAIN": "a b", "check_command": "dummy", "max_check_attempts": "3"}
        lines = {"bare": "/bin/true $HOSTALIAS$", "quoted": "/bin/true '$HOSTALIAS$'", "plain": "/bin/true $_HOSTPLAIN$",
                 "piped": "/bin/true $HOSTALIAS$ | cat"}
        text = "".join(defined("command", {"command_name": name, "command_line": line}) + defined("host", {"host_name": name, **host, "check_command": name})
                       for name, line in lines.items())
        told = [line for line in self.take(text).splitlines() if "quotes" in line]
        self.assertEqual(told, ["left out: quotes around values (1): an alias or custom variable has a sign that the shell of its command line obeys: bare"])
        self.assertEqual({name: entry.get("shell", False) for name, entry in self.read("commands").items()},
                         {"bare": True, "quoted": False, "plain": False, "piped": True})
