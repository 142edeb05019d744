"""Cuts a history down, as long as it still shows something."""
from __future__ import annotations

import copy
import dataclasses
from typing import Any, Callable, Iterator

import histories
from histories import START, History, Setup

TRIES = 1000  # of one history
PLAIN: tuple[tuple[str, Any], ...] = (("parents", []), ("enabled", True), ("check_interval", 5), ("retry_interval", 1), ("max_check_attempts", 1),
                                      ("max_check_attempts", 2), ("max_check_attempts", 3))


def without_object(setup: Setup, name: str) -> Setup:
    """The setup without an object, its services, and everything that names it."""
    less = copy.deepcopy(setup)
    less["hosts"] = [host for host in less["hosts"] if host["name"] != name]
    less["services"] = [service for service in less.get("services", ()) if name not in (service["host"], f"{service['host']};{service['description']}")]
    for host in less["hosts"]:
        host["parents"] = [parent for parent in host.get("parents", ()) if parent != name]
    known = histories.names(less)
    for part in ("service_dependencies", "host_dependencies"):
        less[part] = [link for link in less.get(part, ()) if link["dependent"] in known and link["master"] in known]
    return less


def smaller_setups(setup: Setup) -> Iterator[Setup]:
    for name in histories.names(setup):
        less = without_object(setup, name)
        if less["hosts"]:
            yield less
    for part in ("service_dependencies", "host_dependencies"):
        for place, link in enumerate(setup.get(part, ())):
            less = copy.deepcopy(setup)
            del less[part][place]
            yield less
            letters = link["criteria"].split(",")
            for letter in letters if len(letters) > 1 else ():
                less = copy.deepcopy(setup)
                less[part][place]["criteria"] = ",".join(other for other in letters if other != letter)
                yield less
    for option in setup.get("options", ()):
        less = copy.deepcopy(setup)
        del less["options"][option]
        yield less
        if option.endswith("delay_method") and setup["options"][option] != "n":
            less = copy.deepcopy(setup)
            less["options"][option] = "n"
            yield less
    for part in ("hosts", "services"):
        for place, item in enumerate(setup.get(part, ())):
            for member, value in PLAIN:
                if member in item and item[member] != value and not (member == "max_check_attempts" and item[member] < value):
                    less = copy.deepcopy(setup)
                    less[part][place][member] = value
                    yield less


def smaller(history: History) -> Iterator[History]:
    """Histories that are a little simpler."""
    for share in (0.25, 0.5, 0.75, 0.9, 0.97):
        end = START + int((history.end - START) * share)
        yield dataclasses.replace(history, end=end, commands=tuple(command for command in history.commands if command.at <= end))
    for setup in smaller_setups(history.setup):
        known = histories.names(setup)
        yield dataclasses.replace(history, setup=setup, plans={name: plan for name, plan in history.plans.items() if name in known},
                                  commands=tuple(command for command in history.commands if command.name in known))
    for place in range(len(history.commands)):
        yield dataclasses.replace(history, commands=history.commands[:place] + history.commands[place + 1:])
    for name, plan in history.plans.items():
        for less in ([(0, 0)], [(0, 2)], plan[:1], plan[:2], plan[:3], plan[:len(plan) // 2], plan[:-1], [(0, code) for _, code in plan],
                     [(0, min(code, 2)) for _, code in plan]):
            if less and (len(less) < len(plan) or less == [(0, min(code, 2)) for _, code in plan]):
                yield dataclasses.replace(history, plans={**history.plans, name: less})
    if history.keeps:
        yield dataclasses.replace(history, keeps=False, horizon=0)


def smallest(history: History, shows: Callable[[History], bool]) -> History:
    """A small history that still shows it."""
    tries, is_better = 0, True
    while is_better and tries < TRIES:
        is_better = False
        for less in smaller(history):
            tries += 1
            if less != history and shows(less):
                history, is_better = less, True
                break
    return history


def told(history: History) -> str:
    """A history to read: times in seconds from the start, and for each check its duration and its code."""
    setup = {part: value for part, value in history.setup.items() if value}
    lines = [f"  setup {histories.text(setup)}", f"  until {history.end - START} s{', checks on demand stay' if history.keeps else ''}"]
    lines += [f"  checks of {name}: {' '.join(f'{takes}s:{code}' for takes, code in plan)}" for name, plan in history.plans.items()]
    lines += [f"  at {command.at - START} s: {command.word} {command.name} {command.time - START} s" for command in history.commands]
    return "\n".join(lines)
