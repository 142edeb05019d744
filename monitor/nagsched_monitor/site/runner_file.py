"""Runners elsewhere, and the objects that they check: the file runners.json of a site, which `docs/scaling.md` describes."""
import fnmatch
import pathlib
import re
from typing import Any, Dict, Iterable, List, Mapping, NamedTuple, Tuple

from ..faults import require
from ..system.programs import find_program
from .json_files import ANY, NAMES, members_of, read_object, seconds, test_members, whole
from .people_files import Groups

FILE = "runners.json"
NAME = re.compile(r"[A-Za-z0-9_.-]{1,64}")
LOCAL = "local"  # the name of the runners of this machine, in figures
# The default number of checks that a runner has at once, and the default wait for it, in seconds.
SLOTS, WAIT, MOST_SLOTS = 32, 30.0, 10_000
GROUP_KINDS = {"hostgroup": "host_groups", "servicegroup": "service_groups"}


class Remote(NamedTuple):
    """A runner elsewhere: the command that reaches it, the number of checks that it has at once, and the wait for it, in seconds."""

    name: str
    arguments: Tuple[str, ...]
    slots: int = SLOTS
    wait: float = WAIT


def read_runners(folder: pathlib.Path, names: Iterable[str], groups: Mapping[str, Groups]) -> Tuple[Dict[str, Remote], Dict[str, str]]:
    """The runners of a site, and the runner of each object that has one: the first with a pattern that fits it."""
    members = read_object(folder, FILE, {"runners": ANY, "objects": ANY, "slots": ANY, "wait": seconds()})
    commands = members_of(members.get("runners", {}), f"{FILE}: runners")
    remotes = {name: read_remote(name, arguments) for name, arguments in commands.items()}
    objects, slots = (members_of(members.get(member, {}), f"{FILE}: {member}") for member in ("objects", "slots"))
    for member, of, form in (("objects", objects, NAMES), ("slots", slots, whole(1, MOST_SLOTS))):
        for name in of:
            require(name in commands, f"{FILE}: {member}: {name}: there is no such runner")
        test_members(of, dict.fromkeys(of, form), f"{FILE}: {member}: ")
    by_host: Dict[str, List[str]] = {}
    for name in names:
        by_host.setdefault(name.partition(";")[0], []).append(name)
    runner_of: Dict[str, str] = {}
    for runner, patterns in objects.items():
        require(patterns, f"{FILE}: objects: {runner}: its list is empty")
        for pattern in patterns:
            fitting = matching_objects(pattern, by_host, groups)
            require(fitting, f"{FILE}: objects: {runner}: no object fits {pattern}")
            runner_of.update((name, runner) for name in fitting if name not in runner_of)
    wait = members.get("wait", WAIT)
    return {name: remote._replace(slots=slots.get(name, SLOTS), wait=wait) for name, remote in remotes.items()}, runner_of


def read_remote(name: str, arguments: Any) -> Remote:
    place = f"{FILE}: runners: {name}"
    is_name = NAME.fullmatch(name) and name != LOCAL
    require(is_name, f"{place}: the name of a runner has 1 to 64 letters, digits, dots, underscores and hyphens, and isn't {LOCAL}")
    is_command = arguments and NAMES.fits(arguments) and not any("\0" in word for word in arguments)
    require(is_command, f"{place}: it has to be a command, as a list of arguments")
    program = find_program(arguments[0])
    require(program, f"{place}: there is no program {arguments[0]}")
    return Remote(name, (str(program), *arguments[1:]))


def matching_objects(pattern: str, by_host: Mapping[str, List[str]], groups: Mapping[str, Groups]) -> List[str]:
    """The objects that a pattern fits: by full names, by a group, or hosts with everything on them."""
    is_wild = any(sign in pattern for sign in "*?[")
    kind, _, rest = pattern.partition(":")
    if kind in GROUP_KINDS and rest:
        found = [name for name, of in groups.items() if fnmatch.filter(of.names.get(GROUP_KINDS[kind], ()), rest)]
        return [each for name in found for each in by_host.get(name, [name])]
    if ";" in pattern and is_wild:
        return [name for names in by_host.values() for name in fnmatch.filter(names, pattern)]
    if ";" in pattern:
        return [pattern] if pattern in by_host.get(pattern.partition(";")[0], ()) else []
    return [name for host in (fnmatch.filter(by_host, pattern) if is_wild else [pattern]) for name in by_host.get(host, ())]
