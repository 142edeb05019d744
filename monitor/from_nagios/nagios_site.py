"""The folder of a site, as nagsched-monitor reads it, from a configuration of Nagios Core 4. For from_nagios.py --site."""
import contextlib
import fcntl
import json
import os
import pathlib
import pwd
import time
import zoneinfo
from typing import Any, Dict, Iterator, List, Mapping, Sequence, Set

import nagios_commands
import nagios_periods
from nagios_values import Definition, LeftOut, Members, checked_objects, split_list

# Nagios's defaults for options that nagios.cfg doesn't set.
DEFAULTS = {
    "service_check_timeout": "60",
    "host_check_timeout": "30",
    "cached_host_check_horizon": "15",
    "service_check_timeout_state": "c",
    "additional_freshness_latency": "15",
    "check_service_freshness": "1",
    "check_host_freshness": "0",
}
# The number of plugins that may run at once if the site has no limit.
SLOTS = 200
# Features that the monitor has, which therefore aren't left out: kinds of from_nagios.py.
DONE = {"check_period", "check_command", "check_freshness", "objects without active checks", "timeperiod definitions", "command definitions",
        "hostgroup definitions", "servicegroup definitions", "members that only a site has"}
# The files that may contain passwords.
SECRET = {"commands", "inventory"}
# The configuration of Alertmanager, which is written only if there is none.
ALERTING = "alertmanager.yml"
# The longest wait for a reload that reads the site, in seconds.
PATIENCE = 30.0

Options = Mapping[str, str]


class CannotWrite(Exception):
    """Why the site can't be written. The old files are unchanged."""


def option(options: Options, name: str) -> str:
    return options.get(name, DEFAULTS[name])


def periods_of(objects: Sequence[Definition], left_out: LeftOut) -> Dict[str, Any]:
    """The periods that objects need, and the period of each object. Times that never come are left out."""
    periods: Dict[str, nagios_periods.Period] = {}
    never: Dict[str, List[str]] = {}
    for kind, _, members in objects:
        if kind == "timeperiod":
            periods[str(members["timeperiod_name"])], never[str(members["timeperiod_name"])] = nagios_periods.period_of(members)
    for kind, _, members in objects:
        if kind == "timeperiod":
            require_periods(members, "exclude", periods)
    period_of = {}
    for name, _, members in checked_objects(objects):
        require_periods(members, "check_period", periods)
        period = str(members.get("check_period", ""))
        if period and not nagios_periods.is_always(periods[period]):
            period_of[name] = period
    used = with_excluded(periods, set(period_of.values()))
    for name, period in period_of.items():
        for times in (times for each in sorted(with_excluded(periods, {period})) for times in never[each]):
            left_out.add(f"times {times}", "they end before they begin, so Nagios never uses them either", name)
    return {"periods": {name: periods[name] for name in sorted(used)}, "objects": period_of}


def require_periods(members: Members, member: str, periods: Mapping[str, nagios_periods.Period]) -> None:
    """Refuses a member that names a period without a definition."""
    for name in split_list(members.get(member, "")):
        if name not in periods:
            members[member].refuse(f"{member}: there is no time period {name}")


def with_excluded(periods: Mapping[str, nagios_periods.Period], names: Set[str]) -> Set[str]:
    """These periods, and those that they exclude, and so on."""
    found: Set[str] = set()
    left = list(names)
    while left:
        name = left.pop()
        if name in periods and name not in found:
            found.add(name)
            left += periods[name]["exclude"]
    return found


def passive_of(options: Options, objects: Sequence[Definition], interval_of: Mapping[str, int]) -> Dict[str, Dict[str, Any]]:
    """The passive objects, and the freshness that their results need."""
    passive = {}
    for name, kind, members in checked_objects(objects):
        entry: Dict[str, Any] = {}
        if members.get("active_checks_enabled", "1") == "0":
            entry["only"] = True
        if members.get("check_freshness", "0") == "1" and option(options, f"check_{kind}_freshness") == "1":
            seconds = float(members.get("freshness_threshold", "0"))
            entry["freshness"] = seconds or interval_of[name] + float(option(options, "additional_freshness_latency"))
        if entry:
            passive[name] = entry
    return passive


def commands_of(options: Options, objects: Sequence[Definition], lines: Mapping[str, nagios_commands.CommandLine]) -> Dict[str, Dict[str, Any]]:
    """The command of each object that has a line."""
    commands: Dict[str, Dict[str, Any]] = {}
    for name, kind, _ in checked_objects(objects):
        if name in lines:
            commands[name] = {"line": lines[name].text, "limit": int(option(options, f"{kind}_check_timeout"))}
            if lines[name].needs_shell:
                commands[name]["shell"] = True
    return commands


def monitor_of(options: Options, before: Mapping[str, Any]) -> Dict[str, Any]:
    """The monitor's options: from nagios.cfg, otherwise from the site, otherwise Nagios's defaults. Other members stay."""
    said: Dict[str, Any] = {}
    if int(options.get("max_concurrent_checks", "0")):
        said["slots"] = int(options["max_concurrent_checks"])
    if "cached_host_check_horizon" in options:
        said["cached_host_check_horizon"] = int(options["cached_host_check_horizon"])
    if "service_check_timeout_state" in options:
        said["service_check_timeout_state"] = str(options["service_check_timeout_state"])
    if "use_timezone" in options:
        said["zone"] = zone_of(options["use_timezone"])
    defaults = {"slots": SLOTS, "cached_host_check_horizon": int(DEFAULTS["cached_host_check_horizon"]),
                "service_check_timeout_state": DEFAULTS["service_check_timeout_state"]}
    return {**defaults, **before, **said}


def zone_of(name: str) -> str:
    """A zone as the monitor knows it."""
    zone = str(name).removeprefix(":")
    try:
        zoneinfo.ZoneInfo(zone)
    except (ValueError, OSError, zoneinfo.ZoneInfoNotFoundError):
        raise CannotWrite(f"use_timezone={name}: this machine knows no zone of that name: correct nagios.cfg, or install the package tzdata") from None
    return zone


# ---- files


def options_before(folder: pathlib.Path) -> Dict[str, Any]:
    """The members of the site's monitor.json, if there is one."""
    path = folder / "monitor.json"
    try:
        members = json.loads(path.read_text(encoding="utf-8")) if path.exists() else {}
    except (OSError, ValueError) as error:
        raise CannotWrite(f"{path}: {getattr(error, 'strerror', error)}: its members would be lost, so make it readable, or move it away") from None
    if not isinstance(members, dict):
        raise CannotWrite(f"{path}: it has to be a JSON object, such as {{}}: correct it, or move it away")
    return members


def write_new(path: pathlib.Path, document: Any, mode: int) -> pathlib.Path:
    """Writes a file next to the one that it will replace, with its owner and group, or with those of the folder."""
    new, like = path.with_name(path.name + ".new"), (path if path.exists() else path.parent).stat()
    if os.geteuid() not in (0, like.st_uid):
        raise CannotWrite(f"{path.parent} belongs to the user {user_name(like.st_uid)}, who couldn't read a file of yours: run this as that user or root")
    file = os.open(new, os.O_WRONLY | os.O_CREAT | os.O_TRUNC, mode)
    with open(file, "w", encoding="utf-8") as written:
        os.fchmod(file, mode)
        with contextlib.suppress(PermissionError):  # a group that the user isn't in; the owner is right
            os.fchown(file, like.st_uid, like.st_gid)
        written.write(document if isinstance(document, str) else json.dumps(document, ensure_ascii=False, indent=1) + "\n")
        written.flush()
        os.fsync(file)
    return new


def user_name(number: int) -> str:
    try:
        return pwd.getpwuid(number).pw_name
    except KeyError:
        return str(number)


@contextlib.contextmanager
def lock_site(folder: pathlib.Path) -> Iterator[int]:
    """While nobody reads the site: the monitor holds its folder locked while it reads."""
    lock = os.open(folder, os.O_RDONLY)
    end = time.monotonic() + PATIENCE
    try:
        while True:
            try:
                fcntl.flock(lock, fcntl.LOCK_EX | fcntl.LOCK_NB)
                break
            except BlockingIOError:
                if time.monotonic() >= end:
                    raise CannotWrite(f"{folder}: another process has been reading it for {PATIENCE:g} seconds: try again") from None
                time.sleep(0.05)
        yield lock
    finally:
        os.close(lock)


def write_site(folder: pathlib.Path, setups: Sequence[Any], files: Mapping[str, Any]) -> None:
    """Writes the files of a site, first all of them next to the old ones. Then they replace these together, so that no reload sees half of them. Old files
    without a counterpart now are deleted; others stay.

    Command lines and custom variables may contain passwords: only the owner can read their files."""
    folder.mkdir(parents=True, exist_ok=True)
    names = ["setup"] if len(setups) == 1 else [f"part-{number}" for number in range(1, len(setups) + 1)]
    documents = {**dict(zip(names, setups)), **files}
    paths = {name: folder / (name if name == ALERTING else f"{name}.json") for name in documents}
    new = {name: write_new(paths[name], document, 0o600 if name in SECRET else 0o644) for name, document in documents.items()}
    with lock_site(folder) as file:
        for name, path in paths.items():
            os.replace(new[name], path)
        for path in [*folder.glob("part-*.json"), folder / "setup.json", folder / "mirrors.json", folder / "remarks.json"]:
            if path.stem not in documents:
                path.unlink(missing_ok=True)
        os.fsync(file)
