"""Random histories over the whole ranges of the setup's members, with clocks set back, gaps of hours, and plugins that overtake each other."""
from __future__ import annotations

import json
import pathlib
import random
from typing import Any

import histories
from histories import NO_THRESHOLD, START, Command, History, Plan, Setup

SCHEMA: dict[str, Any] = json.loads((pathlib.Path(__file__).resolve().parent.parent.parent / "docs/setup.schema.json").read_text(encoding="utf-8"))["properties"]
# Nagios refuses the rest of these ranges. docs/NAGIOS.md has the table.
READ_BY_NAGIOS = {"low_service_flap_threshold": (1, 99), "high_service_flap_threshold": (1, 100), "low_host_flap_threshold": (1, 99),
                  "high_host_flap_threshold": (1, 100), "service_inter_check_delay_method": (1, 86_400_000), "host_inter_check_delay_method": (1, 86_400_000)}
LONGEST = 100_000  # seconds of a history: Nagios has events of its own every few seconds
HOSTS, SERVICES = 14, 40
HOUR = 3600


def number(chance: random.Random, least: int, most: int) -> int:
    """A number of this range: an end, or one whose size is as likely as any other."""
    kind = chance.random()
    if kind < 0.2:
        return least if kind < 0.1 else most
    return max(least, min(most, int((most - least + 1) ** chance.random()) + least - 1))


def value(chance: random.Random, name: str, part: dict[str, Any]) -> Any:
    """A value of a member, as the schema describes it and Nagios reads it."""
    if "anyOf" in part:
        return value(chance, name, chance.choice(part["anyOf"]))
    if "enum" in part or "const" in part:
        return chance.choice(part.get("enum", [part.get("const")]))
    if part["type"] == "boolean":
        return chance.random() < 0.5
    least, most = READ_BY_NAGIOS.get(name, (part["minimum"], part["maximum"]))
    return number(chance, least, most)


def options(chance: random.Random) -> dict[str, Any]:
    found = {name: value(chance, name, part) for name, part in SCHEMA["options"]["properties"].items() if chance.random() < 0.6}
    for sort in ("service", "host"):
        low, high = f"low_{sort}_flap_threshold", f"high_{sort}_flap_threshold"
        if low in found or high in found:
            found[low], found[high] = sorted((found.get(low, 20), found.get(high, 30)))
    found["interval_length"] = chance.choice((1, 10, 60, found.get("interval_length", 60)))
    return found


def members(chance: random.Random, is_host: bool) -> dict[str, Any]:
    """The members that hosts and services share, half of them in everyday ranges. Nagios refuses a service with the retry interval 0."""
    properties = SCHEMA["hosts"]["items"]["properties"]
    found = {name: value(chance, name, properties[name]) for name in ("check_interval", "retry_interval", "max_check_attempts")}
    if chance.random() < 0.5:
        found.update(check_interval=chance.randint(0, 60), retry_interval=chance.randint(1, 10), max_check_attempts=chance.randint(1, 20))
    if not is_host:
        found["retry_interval"] = max(1, found["retry_interval"])
    if chance.random() < 0.1:
        found["enabled"] = False
    return found


def random_setup(chance: random.Random) -> Setup:
    order = [f"h{place}" for place in range(chance.randint(1, HOSTS))]
    chance.shuffle(order)
    hosts = [{"name": name, **members(chance, True), "parents": chance.sample(order[:rank], min(rank, chance.choice((0, 1, 1, 2, 5))))}
             for rank, name in enumerate(order)]
    services = [{"host": chance.choice(order), "description": f"s{place}", **members(chance, False)} for place in range(chance.randint(0, SERVICES))]
    setup: Setup = {"options": options(chance), "hosts": hosts, "services": services}
    known = histories.names(setup)
    setup["service_dependencies"] = histories.random_links(chance, known[len(hosts):], "owucp", 8)
    setup["host_dependencies"] = histories.random_links(chance, known[:len(hosts)], "oudp", 6)
    return setup


def length(chance: random.Random, setup: Setup) -> int:
    """The seconds in which some hundred checks begin."""
    unit = setup["options"]["interval_length"]
    rate = sum(1 / (unit * min(item["check_interval"], item["retry_interval"] or item["check_interval"]))
               for item in (*setup["hosts"], *setup["services"]) if item["check_interval"])
    return min(LONGEST, int(chance.randint(100, 1500) / rate)) if rate else 1000


def random_plans(chance: random.Random, setup: Setup) -> dict[str, Plan]:
    """Long and short checks of one object by turns, so that a later one ends first. Some objects fail all the time."""
    longest = chance.choice((0, 3, 40, 400))
    plans = {}
    for name in histories.names(setup):
        codes = [2] * 60 if chance.random() < 0.1 else histories.random_codes(chance, 60)
        plans[name] = [(chance.choice((0, 1, longest)), code) for code in codes]
    return plans


def random_commands(chance: random.Random, setup: Setup, end: int) -> list[Command]:
    known = histories.names(setup)
    commands = []
    for _ in range(chance.choice((0, 5, 40))):
        at = chance.randint(START + 1, end)
        word = chance.choice(("reschedule", "force", "force", "disable", "enable"))
        commands.append(Command(at, word, chance.choice(known), at + chance.choice((-1000, -30, 0, 0, 1, 20, 400, 4000))))
    for _ in range(chance.choice((0, 2, 10))):
        # A second check of an object begins while the first one runs, and can end before it.
        at, name = chance.randint(START + 1, end), chance.choice(known)
        commands += [Command(at, "force", name, at), Command(at + 1, "force", name, at + 1), Command(at + 2, "force", name, at + 2)]
    for _ in range(chance.choice((0, 0, 1, 3))):
        seconds = chance.choice((-1, -60, -HOUR, -9 * HOUR, 1, 899, 900, HOUR, 9 * HOUR))
        commands.append(Command(chance.randint(START + 1, end), f"PAUSE {seconds}", known[0]))
    return sorted(commands, key=lambda command: command.at)


def random_history(chance: random.Random) -> History:
    setup = random_setup(chance)
    end = START + max(10, length(chance, setup))
    keeps = chance.random() < 0.15
    return History(setup, random_plans(chance, setup), end, tuple(random_commands(chance, setup, end)), keeps, chance.randint(1, 60) if keeps else 0,
                   threshold=chance.choice((900, NO_THRESHOLD)))
