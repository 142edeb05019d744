"""A site of Nagios whose plugins fail for a while, for packages_hour.py."""
import pathlib
import random
import re
import shutil
import subprocess
import sys
from typing import Dict, List

TOP = pathlib.Path(__file__).resolve().parent.parent.parent
TOOL = TOP / "tools/second_opinion.py"
PACKAGED = pathlib.Path("/etc/nagios4/nagios.cfg")
HOSTS, SERVICES = 30, 200
ROUTERS = 4  # the first hosts: a gateway, and routers behind it
WAYS = ("stored", "logged")
LIMIT = 120  # seconds for Nagios or the tool to do what they are asked
PLUGIN = """#!/bin/sh
read -r code wait < "$1"
[ "$wait" = 0 ] || sleep "$wait"
echo "code $code|wait=${wait}s"
exit "$code"
"""
Members = Dict[str, object]
TIMED: Members = {"check_period": "always", "contacts": "nobody"}
FRESH: Members = {"active_checks_enabled": 0, "check_freshness": 1, "freshness_threshold": 90}
# What some services have, by their place among 50.
OF_SOME: Dict[int, Members] = {20: {"check_period": "broken"}, 21: {"low_flap_threshold": 10, "high_flap_threshold": 30}, 22: {"flap_detection_enabled": 0}}
DAYS = "".join(f" {day} {{0}}\n" for day in ("monday", "tuesday", "wednesday", "thursday", "friday", "saturday", "sunday"))
COMMON = """define timeperiod {{
 timeperiod_name always
 alias always
{always}}}
define timeperiod {{
 timeperiod_name broken
 alias broken
{broken}}}
define command {{
 command_name check
 command_line {folder}/plugin {folder}/codes/$ARG1$
}}
define command {{
 command_name lost
 command_line /nowhere/plugin
}}
define contact {{
 contact_name nobody
 host_notifications_enabled 0
 service_notifications_enabled 0
 host_notification_period always
 service_notification_period always
 host_notification_commands lost
 service_notification_commands lost
}}
"""


class Site:
    """Nagios's files. Each object has a file with the code that its plugin returns, and with the seconds that it takes."""

    def __init__(self, folder: pathlib.Path, chance: random.Random) -> None:
        self.folder, self.chance = folder, chance
        self.hosts = ["gateway", *(f"router{number}" for number in range(1, ROUTERS)), *(f"host {number:02}" for number in range(ROUTERS, HOSTS))]
        self.parents = {host: "gateway" if place < ROUTERS else self.hosts[1 + place % (ROUTERS - 1)] for place, host in enumerate(self.hosts) if place}
        self.services = [f"{self.hosts[number % HOSTS]};{('load', 'disk / usage', 'Tür', 'http', 'ping', 'users', 'swap')[number // HOSTS]}"
                         for number in range(SERVICES)]
        self.passive = self.services[150:160]
        self.numbers = {name: number for number, name in enumerate((*self.hosts, *self.services, "router1;new"))}
        for name in ("codes", "spool", "archives", "temporary"):
            (folder / name).mkdir(parents=True)
        (folder / "plugin").write_text(PLUGIN)
        (folder / "plugin").chmod(0o755)
        for name in self.numbers:
            self.write_code(name, 0, 0)
        self.write_main()
        self.write_objects(is_changed=False)
        for path in (folder, *folder.rglob("*")):
            shutil.chown(path, "nagios", "nagios")

    def results(self, way: str) -> pathlib.Path:
        return self.folder / f"results-{way}"

    def write_code(self, name: str, code: int, wait: float) -> None:
        new = self.folder / "codes/new"
        new.write_text(f"{code} {wait}\n")
        new.replace(self.folder / f"codes/{self.numbers[name]}")

    def lines(self, way: str) -> List[str]:
        """The parts of the lines that the tool wants in Nagios's files."""
        told = subprocess.run([sys.executable, TOOL, "--lines", self.results(way)], stdout=subprocess.PIPE, text=True, check=True, timeout=LIMIT).stdout
        return re.split(r"^# .*\n", re.sub("^#(?! )", "", told, flags=re.M), flags=re.M)[1:]

    def write_main(self) -> None:
        """The packaged file, with this folder's paths and a time unit of a second."""
        kept = re.sub(r"^(cfg_\w+|resource_file|process_performance_data|obsess_over_\w+)=.*\n", "", PACKAGED.read_text(), flags=re.M)
        for option, value in {
            "log_file": "nagios.log", "object_cache_file": "objects.cache", "precached_object_file": "objects.precache", "status_file": "status.dat",
            "command_file": "nagios.cmd", "lock_file": "nagios.pid", "temp_file": "nagios.tmp", "temp_path": "temporary", "check_result_path": "spool",
            "log_archive_path": "archives", "state_retention_file": "retention.dat", "debug_file": "nagios.debug",
        }.items():
            kept = re.sub(rf"^{option}=.*$", f"{option}={self.folder / value}", kept, flags=re.M)
        for option, value in {"interval_length": "1", "log_rotation_method": "h", "use_syslog": "0", "check_for_updates": "0", "service_check_timeout": "12",
                              "service_freshness_check_interval": "15", "check_result_reaper_frequency": "2", "max_service_check_spread": "1",
                              "max_host_check_spread": "1", "enable_notifications": "0"}.items():
            kept = re.sub(rf"^{option}=.*$", f"{option}={value}", kept, flags=re.M)
        own = f"query_socket={self.folder}/nagios.qh\ncfg_file={self.folder}/objects.cfg\n{self.lines('stored')[0]}{self.lines('logged')[1]}"
        (self.folder / "nagios.cfg").write_text(kept + "\n" + own)

    def write_objects(self, is_changed: bool) -> None:
        """All objects; with the change a service more, one less, and other attempts and intervals."""
        chance = random.Random(1)
        text = COMMON.format(always=DAYS.format("00:00-24:00"), broken=DAYS.format("00:00-23:59"), folder=self.folder) + self.lines("logged")[2]
        for host in self.hosts:
            text += definition("host", {
                **TIMED, "host_name": host, "address": "127.0.0.1", "parents": self.parents.get(host, ""), "check_command": f"check!{self.numbers[host]}",
                "max_check_attempts": chance.choice((1, 2, 3, 3, 4)) + (is_changed and host == "host 09"), "check_interval": chance.randint(15, 60),
                "retry_interval": chance.randint(5, 15)})
        for place, name in enumerate(self.services):
            members = self.service(place, name, chance)
            members["check_interval"] = 90 if is_changed and place == 40 else members["check_interval"]
            text += definition("service", members) if not (is_changed and place == SERVICES - 1) else ""
        text += definition("service", self.service(SERVICES, "router1;new", chance)) if is_changed else ""
        for place in range(60, 90, 5):
            (master, word), (host, description) = self.services[place].split(";"), self.services[place + 31].split(";")
            text += definition("servicedependency", {"host_name": master, "service_description": word, "dependent_host_name": host,
                                                     "dependent_service_description": description, "execution_failure_criteria": "c,u"})
        (self.folder / "objects.cfg").write_text(text)

    def service(self, place: int, name: str, chance: random.Random) -> Members:
        host, description = name.split(";")
        return {**TIMED, "host_name": host, "service_description": description, "check_command": "lost" if place == 77 else f"check!{self.numbers[name]}",
                "max_check_attempts": chance.choice((1, 2, 3, 3, 4, 5)), "check_interval": chance.randint(15, 60), "retry_interval": chance.randint(5, 15),
                **(FRESH if name in self.passive[5:] else {}), **OF_SOME.get(place % 50, {})}


def definition(kind: str, members: Members) -> str:
    return f"define {kind} {{\n" + "".join(f" {key} {value}\n" for key, value in members.items() if value != "") + "}\n"


class Outages:
    """What the plugins find: services that fail for a while, hosts that go down with their services and with what is behind them."""

    def __init__(self, site: Site) -> None:
        self.site, self.chance = site, site.chance
        self.down: Dict[str, float] = {}
        self.ends = {name: 0.0 for name in site.numbers}
        self.codes = {name: (0, 0.0) for name in site.numbers}

    def turn(self, now: float) -> None:
        """Lets each object's code end, and chooses the next."""
        chance, down = self.chance, self.down
        for host in self.site.hosts:
            if down.get(host, now + 1) < now:
                del down[host]
            elif host not in down and chance.random() < (0.0002 if host in self.site.hosts[:ROUTERS] else 0.0008):
                down[host] = now + chance.choice((20, 60, 150, 300))
        for name in self.site.numbers:
            code, wait = self.codes[name]
            if name in self.site.hosts:
                cut = any(each in down for each in (name, self.site.parents.get(name), "gateway"))
                code, wait = (chance.choice((2, 2, 3)) if code == 0 else code, 0.0) if cut else (0, 0.0)
            elif now > self.ends[name]:
                code = 0 if code and chance.random() < 0.7 else chance.choice((0, 0, 0, 1, 1, 2, 2, 2, 3, 126, 5)[: 11 if name.endswith("swap") else 9])
                wait = chance.choice((0.0,) * 30 + (1.0, 3.0, 8.0, 8.0, 15.0))
                self.ends[name] = now + chance.choice((10, 40, 90, 300, 600) if code == 0 else (5, 15, 30, 60, 200))
            elif name.partition(";")[0] in down and code == 0:
                code = chance.choice((2, 2, 1, 0))
            if (code, wait) != self.codes[name]:
                self.codes[name] = code, wait
                self.site.write_code(name, code, wait)
