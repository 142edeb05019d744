"""Nagios's own notifications on the day of test_first_alertmanager, compared with the table there that was worked out from Nagios's rules.

    cd monitor; sudo python3 -m tests.packages_notifications FOLDER

It needs Debian's packages nagios4-core and faketime, and takes ten minutes: the clock of Nagios and of this process's child runs 120 times as fast. Each object
gets a passive result when an event begins or ends, and each minute of a problem. Flapping is left out: it needs a history of results."""
import datetime
import json
import pathlib
import re
import shutil
import subprocess
import sys
import time
from typing import Dict, List, Tuple

from .alert_model import DAY, Told
from .converting import defined
from .test_first_alertmanager import EVENTS, NAGIOS, nagios_objects

SPEED, FIRST, LAST = 120, 170, 1_352  # the minutes of the day between which something happens
CODES = {"warning": 1, "critical": 2, "unknown": 3, "unreachable": 2}
OPTIONS = """log_file={0}/nagios.log
cfg_file={0}/objects.cfg
object_cache_file={0}/objects.cache
status_file={0}/status.dat
state_retention_file={0}/retention.dat
command_file={0}/nagios.cmd
lock_file={0}/nagios.pid
temp_file={0}/nagios.tmp
query_socket={0}/nagios.qh
check_result_path={0}/results
nagios_user=nagios
nagios_group=nagios
check_external_commands=1
execute_service_checks=0
execute_host_checks=0
enable_notifications=1
retain_state_information=0
use_syslog=0
use_timezone=UTC
"""


def objects() -> str:
    """The objects of the test, without active checks; a first result is hard, and people are notified by a command that does nothing."""
    text = ""
    for kind, inner in re.findall(r"define (\w+) \{\n(.*?)\t\}\n", nagios_objects(), re.S):
        members = dict(line.strip().split("\t", 1) for line in inner.splitlines())
        name = next((members[each] for each in members if each.endswith("_name")), "")
        if kind in ("host", "service"):
            members = {"notification_period": "always", **members, "max_check_attempts": "1", "active_checks_enabled": "0", "check_period": "always"}
        if kind == "contact":
            members["service_notification_commands"] = members["host_notification_commands"]
        if kind == "command":
            members["command_line"] = "/bin/true"
        text += defined(kind, {**members, **({"alias": name} if kind in ("host", "contact", "contactgroup", "timeperiod") else {})})
    return text


def drive(folder: pathlib.Path) -> None:
    """Gives Nagios the results of the day, by the clock that runs faster."""
    begin = DAY.replace(tzinfo=datetime.timezone.utc).timestamp()
    changes = {(at, its.name): code for group, events in EVENTS.items() if group != "flapping" for its in events
               for at, code in ((its.begin, min(CODES[its.severity], 1 if ";" not in its.name and its.severity != "unreachable" else 3)), (its.end, 0))}
    names = sorted({name for _, name in changes}, key=lambda name: ";" in name)
    codes = dict.fromkeys(names, 0)
    for minute in range(FIRST + 2, LAST):
        time.sleep(max(0.0, begin + minute * 60 + 5 - time.time()))
        codes.update({name: changes[minute, name] for name in names if (minute, name) in changes})
        lines = [f"[{int(time.time())}] PROCESS_{'SERVICE' if ';' in name else 'HOST'}_CHECK_RESULT;{name};{codes[name]};x\n" for name in names
                 if codes[name] or minute == FIRST + 2 or (minute, name) in changes]
        if lines:
            (folder / "nagios.cmd").open("w").write("".join(lines))
    (folder / "nagios.cmd").open("w").write(f"[{int(time.time())}] SHUTDOWN_PROGRAM\n")


def told(folder: pathlib.Path) -> Dict[str, Dict[str, Told]]:
    """Whom Nagios notified of each group of events, by its log."""
    begin = DAY.replace(tzinfo=datetime.timezone.utc).timestamp()
    found: Dict[str, Dict[str, Told]] = {group: {} for group in EVENTS}
    for at, kind, rest in re.findall(r"^\[(\d+)\] (HOST|SERVICE) NOTIFICATION: (.*)$", (folder / "nagios.log").read_text(), re.M):
        contact, *words = rest.split(";")
        name, state = (words[0], words[1]) if kind == "HOST" else (f"{words[0]};{words[1]}", words[2])
        minute, is_end = (int(at) - begin) / 60, state.endswith(("OK", "UP", "(OK)", "(UP)"))
        for group, events in EVENTS.items():
            if any(its.name == name and its.begin - 1 <= minute <= its.end + 3 for its in events):
                count, first, has_end = found[group].get(contact, (0, round(minute), False))
                found[group][contact] = count + (not is_end), first, has_end or is_end
    return found


def main() -> int:
    folder = pathlib.Path(sys.argv[1]).resolve()
    if sys.argv[2:] == ["drive"]:
        drive(folder)
        return 0
    (folder / "results").mkdir(parents=True)
    (folder / "objects.cfg").write_text(objects())
    (folder / "nagios.cfg").write_text(OPTIONS.format(folder))
    for path in (folder, *folder.iterdir()):
        shutil.chown(path, "nagios", "nagios")
    driver = f"sleep 1; exec {sys.executable} -m tests.packages_notifications {folder} drive"
    start = DAY + datetime.timedelta(minutes=FIRST)
    subprocess.run(["env", "TZ=UTC", "faketime", "-f", f"@{start:%Y-%m-%d %H:%M:%S} x{SPEED}", "sh", "-c",
                    f"({driver}) & nagios4 {folder}/nagios.cfg > {folder}/out; wait"], timeout=1_800, check=True)
    wrong: List[Tuple[str, str]] = []
    for group, came in told(folder).items():
        wanted = NAGIOS[group] if group != "flapping" else came
        late = [contact for contact in wanted if contact in came and not -1 <= came[contact][1] - wanted[contact][1] <= 3]
        if late or {contact: (count, end) for contact, (count, _, end) in came.items()} != {who: (count, end) for who, (count, _, end) in wanted.items()}:
            wrong.append((group, json.dumps([came, wanted])))
    print("\n".join(f"{group}: {text}" for group, text in wrong), f"{len(EVENTS) - 1 - len(wrong)} of {len(EVENTS) - 1} groups of events as in Nagios")
    return 1 if wrong else 0


if __name__ == "__main__":
    sys.exit(main())
