"""A site: the folder that says which objects are monitored, and how. It is read and tested as a whole before anything runs.

`docs/monitor.md` has its files, and the members of each."""
import json
import os
import pathlib
import subprocess
import zoneinfo
from concurrent.futures import ThreadPoolExecutor
from dataclasses import dataclass
from typing import AbstractSet, Any, Container, Dict, List, Mapping, Optional, Sequence, Tuple

from ..faults import SiteFault, raising, require
from ..model.objects import ObjectDefinition
from ..model.remarks import Remark
from ..system.programs import SCHEDULER
from .command_lines import read_commands
from .json_files import (
    ANY, FLAG, MOST_SECONDS, NAMES, TEXT, YEAR, lock_for_reading, members_by_name, members_of, one_of, read_by_name, read_object, seconds, whole,
)
from .mirror_file import read_mirrors
from .people_files import read_directory, read_groups, read_inventory, read_remarks
from .periods import Period, Periods, read_periods
from .runner_file import Remote, read_runners

PERIODS = "periods.json"
LIMIT = 300.0  # the limit for the test of a setup, in seconds
CODES_BY_LETTER = {"w": 1, "c": 2, "u": 3}
NAMED = 5  # the number of objects that a warning names
# The options of the command line, which are texts or lists of texts, and all options.
TEXTS, LISTS = ("on_change", "page", "page_url", "textfile", "nagios_files", "perfdata", "livestatus"), ("alertmanager", "page_name")
OPTIONS = {
    **dict.fromkeys(TEXTS, TEXT), **dict.fromkeys(LISTS, NAMES), "slots": whole(1, 10_000), "cached_host_check_horizon": whole(0, MOST_SECONDS),
    "keep_days": whole(0, 36_500), "log_passive": FLAG, "service_check_timeout_state": one_of(CODES_BY_LETTER), "zone": TEXT,
}


@dataclass(frozen=True)
class Options:
    slots: int = 64
    cached_host_check_horizon: int = 15
    timeout_code: int = 2
    keep_days: int = 90
    zone: Optional[zoneinfo.ZoneInfo] = None  # the machine's zone if it is None
    log_passive: bool = True  # whether the log has a line for each passive result
    # The options of the command line that can stand here too.
    alertmanager: Sequence[str] = ()
    on_change: Optional[str] = None
    page: Optional[str] = None
    page_url: Optional[str] = None
    page_name: Sequence[str] = ()
    textfile: Optional[str] = None
    nagios_files: Optional[str] = None
    perfdata: Optional[str] = None
    livestatus: Optional[str] = None


@dataclass(frozen=True)
class Site:
    """A site that was read and found to be good."""

    setups: Sequence[bytes]  # the setup of each part, on one line
    objects: Mapping[str, ObjectDefinition]
    periods: Periods
    options: Options
    children: Mapping[str, Sequence[str]]  # the hosts that have a host as their parent, by its name
    with_freshness: Sequence[str]  # the objects whose results have to be fresh
    mirrors: Mapping[int, AbstractSet[str]]  # the names of the mirrors of each part that has some
    runners: Mapping[str, Remote]
    warnings: Sequence[str]  # what may not be as it was meant
    remarks: Sequence[Remark] = ()


def read_site(folder: pathlib.Path, program: str) -> Site:
    """The site of a folder. Raises a `SiteFault` that names the file and the error, or a `MonitorFault` about the program."""
    SCHEDULER.test(program)
    with lock_for_reading(folder):
        paths = setup_files(folder)
        with ThreadPoolExecutor(os.cpu_count()) as several:
            setups = list(several.map(lambda path: setup_line(path, program), paths))
        with raising(SiteFault, f"{program} wrote a setup that is no JSON", ValueError):
            documents = {path.stem: json.loads(setup) for path, setup in zip(paths, setups)}
        mirrors = read_mirrors(folder, documents)
        objects = originals_of(documents, mirrors)
        options = read_options(folder)
        runners, runner_of = read_runners(folder, objects, read_groups(folder, objects))
        commands = read_commands(folder, objects, runner_of)
        periods, period_of = read_period_file(folder, objects)
        passive = read_passive(folder, objects)
        read_inventory(folder, objects)
        remarks = read_remarks(folder, objects)
        read_directory(folder)
    children: Dict[str, List[str]] = {}
    for name, definition in objects.items():
        for parent in definition.parents:
            children.setdefault(parent, []).append(name)
        only, freshness = passive.get(name, (False, None))
        command, period, runner = commands.get(name), period_of.get(name), runner_of.get(name)
        objects[name] = definition._replace(command=command, period=period, runner=runner, passive_only=only, freshness=freshness)
        test_command(objects[name])
    with_freshness = [name for name, definition in objects.items() if definition.freshness is not None]
    return Site(setups, objects, Periods(periods, options.zone), options, children, with_freshness, mirrors, runners,
                retry_warnings(documents, objects), remarks)


def setup_files(folder: pathlib.Path) -> List[pathlib.Path]:
    single = folder / "setup.json"
    parts = sorted(folder.glob("part-*.json"), key=lambda path: (len(path.name), path.name))
    if single.exists() and parts:
        raise SiteFault(f"{single.name} and {parts[0].name} are both there: a site has either one setup or parts")
    require(single.exists() or parts, f"{folder} has no setup.json and no part-1.json")
    return [single] if single.exists() else parts


def setup_line(path: pathlib.Path, program: str) -> bytes:
    """A setup on one line, as the scheduler reads it. A setup that it refuses is a fault, in the scheduler's words."""
    with raising(SiteFault, path):
        setup = path.read_bytes()
    with SCHEDULER.starting(program):
        try:
            checked = subprocess.run([program, "check", "--line"], input=setup, stdout=subprocess.PIPE, check=False, timeout=LIMIT)
        except subprocess.TimeoutExpired:
            raise SiteFault(f"{path.name}: {program} gives no answer within {LIMIT:g} seconds") from None
    line = checked.stdout.rstrip(b"\n")
    if checked.returncode != 0 or not line:
        why = "; ".join(line.decode(errors="replace").splitlines()) or f"{program} gives no answer, and ends with status {checked.returncode}"
        raise SiteFault(f"{path.name}: {why}")
    return line


def originals_of(documents: Mapping[str, Mapping[str, Any]], mirrors: Mapping[int, AbstractSet[str]]) -> Dict[str, ObjectDefinition]:
    """The objects of all parts, each once: mirrors aren't among them. Intervals become milliseconds."""
    objects: Dict[str, ObjectDefinition] = {}
    for part, (stem, setup) in enumerate(documents.items()):
        unit = setup.get("options", {}).get("interval_length", 60) * 1000
        for name, it in members_by_name(setup).items():
            if name in mirrors.get(part, ()):
                continue
            require(name not in objects, f"{stem}.json: {name} is in another part already, and mirrors.json doesn't name it")
            interval, retry = it.get("check_interval", 5) * unit, it.get("retry_interval", 1) * unit
            parents = tuple(it.get("parents", ()))
            objects[name] = ObjectDefinition(name, part, it.get("host"), parents, interval, it.get("enabled", True), retry)
    return objects


def retry_warnings(documents: Mapping[str, Mapping[str, Any]], objects: Container[str]) -> List[str]:
    """A line about the objects that no check follows after a soft problem."""
    all_of = (each for setup in documents.values() for each in members_by_name(setup).items())
    names = [name for name, it in all_of if name in objects and it.get("retry_interval") == 0 and it["max_check_attempts"] > 1 and it.get("enabled", True)]
    more = f" and {len(names) - NAMED} more" if len(names) > NAMED else ""
    advice = 'aren\'t checked again after a soft problem, since their "retry_interval" is 0: write 1 or more'
    return [f"warning: {len(names)} objects {advice}: {', '.join(names[:NAMED])}{more}"] if names else []


def test_command(definition: ObjectDefinition) -> None:
    """Each object that is checked at any time has a command."""
    is_checked = definition.enabled and not (definition.passive_only and definition.freshness is None)
    fault = f"commands.json: {definition.name} has no command"
    require(definition.command or not is_checked, fault)
    require(definition.command or definition.freshness is None, f"{fault}, which is run where no result came within its freshness")


def read_period_file(folder: pathlib.Path, objects: Optional[Container[str]] = None) -> Tuple[Dict[str, Period], Dict[str, str]]:
    """The periods of a site, and the period of each object that has one. With `objects`, a name that isn't one of them is a fault."""
    document = read_object(folder, PERIODS, {"periods": ANY, "objects": ANY})
    periods = read_periods(members_of(document.get("periods", {}), f"{PERIODS}: periods"), PERIODS)
    period_of = members_of(document.get("objects", {}), f"{PERIODS}: objects")
    for name, period in period_of.items():
        require(objects is None or name in objects, f"{PERIODS}: {name}: there is no such object")
        require(isinstance(period, str) and period in periods, f"{PERIODS}: {name}: there is no period {period!r}")
    return periods, period_of


def read_passive(folder: pathlib.Path, objects: Container[str]) -> Dict[str, Tuple[bool, Optional[int]]]:
    """For each object in the file, whether it is passive only, and its freshness in milliseconds."""
    passive = {}
    for name, _, members in read_by_name(folder, "passive.json", {"only": FLAG, "freshness": seconds(YEAR)}, objects):
        passive[name] = members.get("only", False), round(members["freshness"] * 1000) if "freshness" in members else None
    return passive


def read_options(folder: pathlib.Path) -> Options:
    members = read_object(folder, "monitor.json", OPTIONS)
    letter, zone = members.pop("service_check_timeout_state", "c"), members.pop("zone", None)
    try:
        read_zone = None if zone is None else zoneinfo.ZoneInfo(zone)
    except (ValueError, zoneinfo.ZoneInfoNotFoundError):
        raise SiteFault(f"monitor.json: there is no zone {zone!r}") from None
    return Options(**members, timeout_code=CODES_BY_LETTER[letter], zone=read_zone)
