"""Random setups and histories, their files for Nagios, and the harness that plays them."""
from __future__ import annotations

import dataclasses
import json
import pathlib
import random
import subprocess
import tempfile
from typing import Any, Sequence

from model import Setup as Setup, names as names

START = 1_000_000_000  # when each history begins, in seconds
NO_THRESHOLD = 1_000_000_000  # seconds that no pause has
TIMEOUT = 3600  # seconds for the harness to play the histories that it gets
Plan = list[tuple[int, int]]  # for each check, its seconds and its return code

# The frequency of each of the codes 0 to 3, while a plugin is in one mood.
MOODS = ((30, 1, 1, 1), (1, 3, 8, 1), (3, 1, 3, 1), (1, 1, 1, 1), (20, 0, 1, 0), (0, 1, 8, 0))
NAGIOS_WORDS = {"reschedule": "SCHEDULE_{}_CHECK", "force": "SCHEDULE_FORCED_{}_CHECK", "disable": "DISABLE_{}_CHECK", "enable": "ENABLE_{}_CHECK"}


@dataclasses.dataclass(frozen=True)
class Command:
    """An operator's call: the word is a key of NAGIOS_WORDS, or an external command that only Nagios gets."""

    at: int
    word: str
    name: str
    time: int = 0

    def line(self) -> str:
        word = NAGIOS_WORDS.get(self.word)
        if word is None:
            return f"at {self.at} {self.name} {self.word}"
        text = f"{word.format('SVC' if ';' in self.name else 'HOST')};{self.name}"
        return f"at {self.at} {self.name} {text}{f';{self.time}' if self.word in ('reschedule', 'force') else ''}"


@dataclasses.dataclass(frozen=True)
class History:
    """A history. `keeps`: checks on demand stay in Nagios's queue, with its horizon for cached results and its predictive checks."""

    setup: Setup
    plans: dict[str, Plan]
    end: int
    commands: tuple[Command, ...] = ()
    keeps: bool = False
    horizon: int = 0
    early: int = 0
    config: str = ""  # more lines of nagios.cfg
    threshold: int = NO_THRESHOLD  # a pause of so many seconds moves all times

    def lines(self, directory: pathlib.Path) -> list[str]:
        plans = [f"plan {name} " + " ".join(f"{takes}:{code}" for takes, code in plan) for name, plan in self.plans.items() if plan]
        return [f"play {directory} {START} {self.end} {int(self.keeps)} {self.early}", *plans, *(command.line() for command in self.commands), "go"]

    def weight(self) -> int:
        """Its size, for finding small examples."""
        return (len(names(self.setup)) * 100 + len(self.commands) * 30 + sum(len(plan) for plan in self.plans.values())
                + len(self.setup.get("options", ())) + (self.end - START) // 60)


def text(setup: Setup) -> str:
    return json.dumps(setup, separators=(",", ":"))


# ---- random histories


def random_object(chance: random.Random, is_host: bool, is_plain: bool) -> dict[str, Any]:
    """The members that hosts and services share. Nagios refuses a service with the retry interval 0."""
    members: dict[str, Any] = {"check_interval": chance.choice((1, 2, 3, 4, 5, 5, 7, 10)), "retry_interval": chance.choice((1, 1, 2, 3)),
                               "max_check_attempts": chance.choice((1, 2, 3, 3, 4, 5))}
    if not is_plain:
        if is_host and chance.random() < 0.08:
            members["retry_interval"] = 0
        if chance.random() < 0.08:
            members["check_interval"] = 0
        if chance.random() < 0.1:
            members["enabled"] = False
    return members


def random_criteria(chance: random.Random, letters: str) -> str:
    chosen = [letter for letter in letters if chance.random() < 0.4] or [chance.choice(letters)]
    chance.shuffle(chosen)
    if chance.random() < 0.07:
        chosen.insert(chance.randint(0, len(chosen)), "n")
    return ",".join(chosen)


def random_links(chance: random.Random, known: list[str], letters: str, most: int) -> list[dict[str, Any]]:
    """Dependencies without a cycle. Some setups have a chain of three or more that all inherit, so that masters of masters matter."""
    order = chance.sample(known, len(known))
    pairs = [(*sorted(chance.sample(range(len(order)), 2)), chance.random() < 0.4) for _ in range(chance.randint(0, most) if len(known) > 1 else 0)]
    if len(known) > 3 and chance.random() < 0.2:
        pairs += [(master, master + 1, True) for master in range(chance.randint(3, len(order) - 1))]
    return [{"dependent": order[dependent], "master": order[master], "criteria": random_criteria(chance, letters), "inherits_parent": inherits}
            for master, dependent, inherits in pairs]


def random_thresholds(chance: random.Random, sort: str) -> dict[str, int]:
    kind = chance.random()
    if kind < 0.3:
        return {}
    low, high = sorted((5 * chance.randint(1, 9), 5 * chance.randint(1, 9)) if kind < 0.7 else (chance.randint(1, 60), chance.randint(1, 60)))
    return {f"low_{sort}_flap_threshold": low, f"high_{sort}_flap_threshold": low if kind < 0.45 else high}


def random_options(chance: random.Random) -> dict[str, Any]:
    options: dict[str, Any] = {"interval_length": chance.choice((1, 10, 60, 60))}
    for name in ("soft_state_dependencies", "use_aggressive_host_checking"):
        options[name] = chance.random() < 0.4
    for sort in ("service", "host"):
        options.update(random_thresholds(chance, sort))
        options[f"{sort}_inter_check_delay_method"] = chance.choice(("n", "d", "s", "s", "s", 250, 333, 1000, 1500, 7000, 100000))
        if chance.random() < 0.3:
            options[f"max_{sort}_check_spread"] = chance.randint(1, 20)
    if chance.random() < 0.4:
        options["service_interleave_factor"] = chance.randint(1, 9)
    if chance.random() < 0.25:
        options["max_concurrent_checks"] = chance.randint(1, 3)
    return options


def random_setup(chance: random.Random) -> Setup:
    is_plain = chance.random() < 0.4
    order = [f"h{number}" for number in range(chance.randint(1, 6))]
    chance.shuffle(order)
    hosts = []
    for rank, name in enumerate(order):
        host: dict[str, Any] = {"name": name, **random_object(chance, True, is_plain)}
        if rank and chance.random() < 0.6:
            host["parents"] = chance.sample(order[:rank], min(rank, chance.choice((1, 1, 1, 2, 3))))
        hosts.append(host)
    busy = chance.choices(order, k=chance.randint(1, 3))
    services = [{"host": chance.choice(busy), "description": f"s{number}", **random_object(chance, False, is_plain)} for number in range(chance.randint(0, 8))]
    setup = {"options": random_options(chance), "hosts": hosts, "services": services}
    known = names(setup)
    setup["service_dependencies"] = random_links(chance, known[len(hosts):], "owucp", 4)
    setup["host_dependencies"] = random_links(chance, known[:len(hosts)], "oudp", 3)
    return setup


def random_codes(chance: random.Random, count: int) -> list[int]:
    codes: list[int] = []
    while len(codes) < count:
        codes += chance.choices(range(4), chance.choice(MOODS), k=chance.randint(1, 30))
    return codes[:count]


def random_history(chance: random.Random) -> History:
    setup = random_setup(chance)
    end = START + chance.randint(20, 200) * setup["options"]["interval_length"]
    longest = chance.choice((0, 0, 3, 10, 40))
    plans = {name: [(chance.randint(0, longest), code) for code in random_codes(chance, 60)] for name in names(setup)}
    commands = []
    for _ in range(chance.randint(1, 12) if chance.random() < 0.4 else 0):
        at = chance.randint(START + 1, end)
        word = chance.choice(("reschedule", "force", "force", "disable", "enable"))
        commands.append(Command(at, word, chance.choice(names(setup)), at + chance.choice((-30, 0, 0, 1, 20, 100, 400))))
    keeps = chance.random() < 0.15
    return History(setup, plans, end, tuple(sorted(commands, key=lambda command: command.at)), keeps, 15 if keeps else 0)


# ---- Nagios's side

CONFIG = """cfg_file={0}/objects.cfg
log_file={0}/log
object_cache_file=/dev/null
precached_object_file=/dev/null
status_file=/dev/null
state_retention_file=/dev/null
lock_file={0}/lock
temp_file={0}/temp
temp_path={0}
check_result_path={0}
use_syslog=0
check_external_commands=0
enable_notifications=0
enable_event_handlers=0
execute_service_checks=1
execute_host_checks=1
accept_passive_service_checks=1
accept_passive_host_checks=1
retain_state_information=0
check_for_updates=0
check_for_orphaned_services=0
check_for_orphaned_hosts=0
check_service_freshness=0
check_host_freshness=0
enable_flap_detection=1
event_broker_options=0
"""


def config(history: History, directory: pathlib.Path) -> str:
    lines = [CONFIG.format(directory), f"time_change_threshold={history.threshold}\n"]
    for sort in ("host", "service"):
        lines.append(f"cached_{sort}_check_horizon={history.horizon}\nenable_predictive_{sort}_dependency_checks={int(history.keeps)}\n")
    for name, value in history.setup.get("options", {}).items():
        if name.endswith("delay_method") and isinstance(value, int):
            value = value / 1000
        lines.append(f"{name}={int(value) if isinstance(value, bool) else value}\n")
    return "".join(lines) + history.config


def define(kind: str, **members: Any) -> str:
    return f"define {kind}{{\n" + "".join(f"{name} {value}\n" for name, value in members.items()) + "}\n"


def shared(item: dict[str, Any]) -> dict[str, Any]:
    known = ("name", "host", "description", "parents", "check_interval", "retry_interval", "max_check_attempts", "enabled")
    return {"check_command": "c", "check_interval": item.get("check_interval", 5), "retry_interval": item.get("retry_interval", 1),
            "max_check_attempts": item["max_check_attempts"], "active_checks_enabled": int(item.get("enabled", True)),
            **{name: value for name, value in item.items() if name not in known}}


def objects(setup: Setup) -> str:
    """The objects of a setup. A member that nagsched doesn't know is passed to Nagios unchanged."""
    lines = [define("command", command_name="c", command_line="/bin/true"),
             define("contact", contact_name="nobody", host_notifications_enabled=0, service_notifications_enabled=0,
                    host_notification_commands="c", service_notification_commands="c")]
    for host in setup["hosts"]:
        parents = {"parents": ",".join(host["parents"])} if host.get("parents") else {}
        lines.append(define("host", host_name=host["name"], address="1", **parents, **shared(host)))
    for service in setup.get("services", ()):
        lines.append(define("service", host_name=service["host"], service_description=service["description"], **shared(service)))
    for sort in ("service", "host"):
        for link in setup.get(f"{sort}_dependencies", ()):
            (host, _, service), (of, _, dependent) = link["master"].partition(";"), link["dependent"].partition(";")
            members = {"service_description": service, "dependent_service_description": dependent} if service else {}
            lines.append(define(f"{sort}dependency", host_name=host, dependent_host_name=of, **members,
                                execution_failure_criteria=link["criteria"], inherits_parent=int(link.get("inherits_parent", False))))
    return "".join(lines)


Told = list[list[str]]  # the words of each line that the harness writes about a history


def play(built: pathlib.Path, played: Sequence[History]) -> list[Told]:
    """The harness's lines about each history."""
    memory = pathlib.Path("/dev/shm")
    with tempfile.TemporaryDirectory(prefix="nagios-", dir=memory if memory.is_dir() else None) as name:
        lines: list[str] = []
        for number, history in enumerate(played):
            directory = pathlib.Path(name) / str(number)
            directory.mkdir()
            (directory / "nagios.cfg").write_text(config(history, directory))
            (directory / "objects.cfg").write_text(objects(history.setup))
            lines += history.lines(directory)
        done = subprocess.run([built / "harness"], input="\n".join(lines) + "\n", stdout=subprocess.PIPE, text=True, timeout=TIMEOUT, check=True)
    found: list[Told] = [[]]
    for line in done.stdout.splitlines():
        if line.startswith("broken"):
            raise RuntimeError(f"the harness stopped ({line}) over {text(played[len(found) - 1].setup)}")
        if line == "end":
            found.append([])
        else:
            found[-1].append(line.split())
    return found[:-1]
