#!/usr/bin/env python3
"""Makes a setup from a configuration of Nagios Core 4.

    nagsched-from-nagios [--parts DIRECTORY] [--commands FILE] nagios.cfg objects.precache > setup.json
    nagsched-from-nagios --site DIRECTORY nagios.cfg objects.precache

The second file is Nagios's version of its object files, with templates, groups and inheritance expanded. `nagios4 -vp nagios.cfg`
writes it to the `precached_object_file`, and a running Nagios stores the same in its `object_cache_file`. The setup is one line, as
`nagsched run` needs it. Settings without a counterpart are named on standard error, each kind once. A setting that can't be taken over
is an error with its file and line, and then there is no setup.

With --parts the objects are divided into several setups, DIRECTORY/part-1.json and so on. No parent, dependency or service's host is
in another part.

With --commands the command line of each object is written to FILE, by its full name, as examples/monitor.py needs it. Macros are
expanded, and a line that needs a shell is given to one. Only its owner can read the file, since command lines may contain passwords.
An object without such a line is named on standard error. It is disabled in the setup, so that no unchecked object seems to be checked.

With --site the files of a site are written to DIRECTORY, as nagsched-monitor reads them. They are one or more setups, the command
lines, time periods, passive objects, the groups of each object and the notifications that it wants, what people see of it, and the
monitor's options; if there is no alertmanager.yml, that too. All are replaced together, and keep their owners. In monitor.json the
members that nagios.cfg doesn't set stay. The limit of concurrent checks is then the monitor's, over all parts. Parts have mirrors: a host, a parent or a master of another part
is also in the part that needs it. It is never checked there, and the monitor reports the results of its original to it.
With --retention the site also has the acknowledgements, downtimes and comments of Nagios's state_retention_file.

Settings that are left out, and notifications that need a route of Alertmanager, are named with the objects that they affect: a few of
these, or with --all each.
"""
import argparse
import json
import os
import pathlib
import sys
from typing import Any, Callable, Dict, List, Mapping, Sequence, Tuple

import nagios_alerting
import nagios_commands
import nagios_groups
import nagios_notifications
import nagios_parts
import nagios_periods
import nagios_remarks
import nagios_site
from nagios_objects import dependency_of, host_of, service_of, use_whole_units
from nagios_values import (
    FEW, MINUTES, CannotConvert, Definition, LeftOut, Members, Setup, Value, delay, factor, lines_of,
    number_between, percent, read_objects, read_options, reason, switch,
)

# Each option with a counterpart: how it is read, and Nagios's default.
OPTIONS: Dict[str, Tuple[Callable[[Value], object], str]] = {
    "interval_length": (number_between(1, 86_400), "60"),
    "service_inter_check_delay_method": (delay, "s"),
    "max_service_check_spread": (number_between(1, MINUTES), "30"),
    "service_interleave_factor": (factor, "s"),
    "host_inter_check_delay_method": (delay, "s"),
    "max_host_check_spread": (number_between(1, MINUTES), "30"),
    "max_concurrent_checks": (number_between(0, 1_000_000), "0"),
    "soft_state_dependencies": (switch, "0"),
    "use_aggressive_host_checking": (switch, "0"),
    "low_service_flap_threshold": (percent, "20"),
    "high_service_flap_threshold": (percent, "30"),
    "low_host_flap_threshold": (percent, "20"),
    "high_host_flap_threshold": (percent, "30"),
}
# Options that change what Nagios schedules: the value at which they don't, and the effect of leaving them out.
TELLING = {
    "enable_flap_detection": ("1", "flapping is reported of every object"),
    "execute_service_checks": ("1", "services are checked all the same"),
    "execute_host_checks": ("1", "hosts are checked all the same"),
    "auto_reschedule_checks": ("0", "no check is moved to even out the load"),
    "host_down_disable_service_checks": ("0", "services of a host that is down are checked all the same"),
    "service_skip_check_dependency_status": ("-1", "a check that a dependency holds back is put off, and its state stays"),
    "service_skip_check_parent_status": ("-1", "services have no parents"),
    "service_skip_check_host_down_status": ("-1", "services of a host that is down are checked all the same"),
    "host_skip_check_dependency_status": ("-1", "a check that a dependency holds back is put off, and its state stays"),
    "enable_environment_macros": ("0", "plugins get no variables such as NAGIOS_HOSTNAME"),
    "accept_passive_service_checks": ("1", "passive results of services are taken"),
    "accept_passive_host_checks": ("1", "passive results of hosts are taken"),
    "log_passive_checks": ("1", "changes are logged however their results came"),
    "enable_notifications": ("1", "people are notified all the same, unless you set no receivers"),
    "process_performance_data": ("0", "performance data is passed on as metrics alone"),
}
# Options that a site has, but a setup alone doesn't.
OF_A_SITE = {
    "use_timezone": "times are those of the machine's zone",
    **dict.fromkeys(("service_check_timeout", "host_check_timeout", "service_check_timeout_state"), "the program that runs a check decides when it has timed out"),
    "cached_host_check_horizon": "a host is checked when its time comes",
    **dict.fromkeys(("check_service_freshness", "check_host_freshness", "additional_freshness_latency"), "nothing is checked for being stale"),
    "resource_file": "it is read for command lines only",
}


def options_of(read: Members, left_out: LeftOut) -> Dict[str, object]:
    for name, value in read.items():
        if name in TELLING and value != TELLING[name][0]:
            left_out.add(f"{name}={value}", TELLING[name][1])
        elif name in OF_A_SITE:
            left_out.add(name, OF_A_SITE[name])
        elif name not in OPTIONS and name not in TELLING:
            left_out.add("other options of nagios.cfg", "files, logs, commands and other parts of Nagios", name)
    return {name: how(read.get(name, Value(default, f"the default of {name}"))) for name, (how, default) in OPTIONS.items()}


NOTHING_HERE = {
    "timeperiod": "a check is due at any time of the day",
    "command": "the program that takes a check runs its plugin",
    **dict.fromkeys(("contact", "contactgroup"), "receivers and routes of Alertmanager take its place, and you write them"),
    **dict.fromkeys(("hostescalation", "serviceescalation"), "a nested route of Alertmanager takes its place, and you write it"),
    "hostgroup": "Nagios has written out what they stand for",
    "servicegroup": "Nagios has written out what they stand for",
    "hostextinfo": "nothing is shown",
    "serviceextinfo": "nothing is shown",
}
# Kinds that the first alertmanager.yml has.
ROUTED = {"contact definitions", "contactgroup definitions", "hostescalation definitions", "serviceescalation definitions", "dependencies of notifications",
          "enable_notifications=0"}


def documents_of(options: Members, objects: Sequence[Definition], left_out: LeftOut) -> Setup:
    """One setup of everything: its options, and each object and dependency in the order of the file."""
    setup: Setup = {"options": options_of(options, left_out), "hosts": [], "services": [], "service_dependencies": [], "host_dependencies": []}
    left_out.always = nagios_periods.always_periods(objects)
    for kind, place, members in objects:
        if kind == "host":
            setup["hosts"].append(host_of(members, place, left_out))
        elif kind == "service":
            setup["services"].append(service_of(members, place, left_out))
        elif kind in ("servicedependency", "hostdependency"):
            service = kind == "servicedependency"
            dependency = dependency_of(members, place, service, left_out)
            if dependency is not None:
                setup["service_dependencies" if service else "host_dependencies"].append(dependency)
        elif kind in NOTHING_HERE:
            of = ";".join(members[name] for name in ("host_name", "service_description", f"{kind}_name") if name in members)
            left_out.add(f"{kind} definitions", NOTHING_HERE[kind], of or None)
        else:
            raise CannotConvert(f"{place}: a definition of a kind that isn't known: {kind}")
    use_whole_units(setup)
    return setup


# ---- parts


def fits_one_setup(setup: Setup) -> bool:
    """Whether one setup can have all of it."""
    return nagios_parts.Limits().allow(nagios_parts.sizes_of(setup))


def parts_of(setup: Setup, with_mirrors: bool) -> Tuple[List[Setup], Dict[str, Dict[str, str]]]:
    """Several setups, and their mirrors if mirrors are allowed."""
    try:
        return nagios_parts.parts_of(setup, with_mirrors=with_mirrors)
    except nagios_parts.CannotBeSplit as error:
        raise CannotConvert(str(error)) from None


# ---- command lines


def macros_of_file(arguments: argparse.Namespace, options: Members) -> Dict[str, str]:
    """The macros of the resource file, if there is one."""
    path = nagios_commands.resource_file(options, arguments.options, arguments.resource)
    try:
        return nagios_commands.read_resource(lines_of(path)) if path is not None else {}
    except nagios_commands.NoCommand as error:
        raise CannotConvert(str(error)) from None


def add_commands(arguments: argparse.Namespace, options: Members, objects: Sequence[Definition], setup: Setup) -> None:
    """Writes the command line of each object, and disables those without one."""
    resource = macros_of_file(arguments, options)
    lines, without = nagios_commands.commands_of(objects, resource)
    disable(setup, without)
    file = os.open(arguments.commands, os.O_WRONLY | os.O_CREAT | os.O_TRUNC, 0o600)
    os.fchmod(file, 0o600)
    with open(file, "w", encoding="utf-8") as commands:
        json.dump({name: nagios_commands.direct_line(line) for name, line in lines.items()}, commands, ensure_ascii=False, indent=1)
        commands.write("\n")


def disable(setup: Setup, without: Mapping[str, str]) -> None:
    """Disables the objects that have no command line, and prints why."""
    objects = nagios_parts.objects_by_name(setup)
    for name, why in without.items():
        objects[name]["enabled"] = False
        print(f"without a command, and disabled: {why}", file=sys.stderr)


# ---- a whole site


def write_site_files(arguments: argparse.Namespace, options: Members, objects: Sequence[Definition], setup: Setup, left_out: LeftOut) -> None:
    """Writes the files of a site, and prints what is left out."""
    unit = setup["options"]["interval_length"]
    interval_of = {name: it["check_interval"] * unit for name, it in nagios_parts.objects_by_name(setup).items()}
    resource = macros_of_file(arguments, options)
    lines, without = nagios_commands.commands_of(objects, resource)
    commands = nagios_site.commands_of(options, objects, lines)
    for name in (name for name, line in lines.items() if line.by_a_value):
        left_out.add("quotes around values", "an alias or custom variable has a sign that the shell of its command line obeys", name)
    passive = nagios_site.passive_of(options, objects, interval_of)
    disable(setup, {name: why for name, why in without.items() if not passive.get(name, {}).get("only") or "freshness" in passive[name]})
    for name in without:
        passive.get(name, {}).pop("freshness", None)
    periods = nagios_site.periods_of(objects, left_out)
    setup["options"]["max_concurrent_checks"] = 0
    setups, mirrors = ([setup], {}) if fits_one_setup(setup) else parts_of(setup, True)
    files: Dict[str, Any] = {"commands": commands, "periods": periods, "passive": passive, **files_of_people(options, objects, resource, left_out)}
    is_first = not (arguments.site / nagios_site.ALERTING).exists()
    if is_first:
        files[nagios_site.ALERTING] = nagios_alerting.yaml_text(nagios_alerting.configuration(options, objects, files["groups"], unit_of(options), left_out))
    try:
        files["monitor"] = nagios_site.monitor_of(options, nagios_site.options_before(arguments.site))
        if arguments.retention is not None:
            files["remarks"] = {"remarks": nagios_remarks.remarks_of(arguments.retention, interval_of, left_out)}
        nagios_site.write_site(arguments.site, setups, {**files, **({"mirrors": mirrors} if mirrors else {})})
    except nagios_site.CannotWrite as error:
        raise CannotConvert(str(error)) from None
    for host in setup["hosts"] if options.get("passive_host_checks_are_soft", "0") == "0" else ():
        if passive.get(host["name"], {}).get("only") and host["max_check_attempts"] > 1:
            left_out.add("passive results of hosts", "a problem is soft until its last attempt, where Nagios makes it hard at once", host["name"])
    routed = {*ROUTED, *left_out.of_verdict("needs a route")} if is_first else set()
    left_out.report({*nagios_site.DONE, *OF_A_SITE, *routed}, len(setup["hosts"]) + len(setup["services"]) if arguments.all else FEW)
    if len(setups) > 1:
        count = sum(map(len, mirrors.values()))
        print(f"{len(setups)} parts with {count} mirrors: the spread of first checks holds for each apart, and the limit for all", file=sys.stderr)
    print(f"{len(interval_of)} objects, {len(commands)} commands, {len(setups)} parts", file=sys.stderr)


def files_of_people(options: Members, objects: Sequence[Definition], resource: Mapping[str, str], left_out: LeftOut) -> Dict[str, Dict[str, Any]]:
    """The groups of each object with the notifications that it wants, and what people see of it, of groups and of contacts."""
    groups = nagios_groups.Groups(objects).document(objects)
    notifications, shown = nagios_notifications.of_objects(objects, unit_of(options), resource, left_out)
    for name, record in notifications.items():
        groups.setdefault(name, {})["notifications"] = record
    return {"groups": groups, "inventory": shown, "directory": nagios_groups.directory(objects)}


def unit_of(options: Members) -> int:
    """The seconds of the unit that Nagios counts in: that of the setup can be smaller."""
    return number_between(1, 86_400)(options.get("interval_length", Value("60", "the default of interval_length")))


def json_text(setup: Setup) -> str:
    return json.dumps(setup, ensure_ascii=False, separators=(",", ":")) + "\n"


def main() -> int:
    parser = argparse.ArgumentParser(description=__doc__, formatter_class=argparse.RawDescriptionHelpFormatter)
    parser.add_argument("--parts", metavar="DIRECTORY", type=pathlib.Path, help="write few setups into this folder")
    parser.add_argument("--commands", metavar="FILE", type=pathlib.Path, help="write the command line of each object into this file")
    parser.add_argument("--site", metavar="DIRECTORY", type=pathlib.Path, help="write the files of a site into this folder")
    parser.add_argument("--all", action="store_true", help="with --site: name every object that something is left out for")
    parser.add_argument("--retention", metavar="FILE", type=pathlib.Path, help="with --site: take over what people said, from Nagios's retention.dat")
    parser.add_argument("--resource", metavar="FILE", type=pathlib.Path, help="the resource file, if not the one that nagios.cfg names")
    parser.add_argument("options", metavar="nagios.cfg", type=pathlib.Path)
    parser.add_argument("objects", metavar="objects.precache", type=pathlib.Path)
    try:
        convert(parser.parse_args())
    except CannotConvert as error:
        print(f"from_nagios: {error}", file=sys.stderr)
        return 1
    except OSError as error:
        print(f"from_nagios: {error.filename or 'standard output'}: {reason(error)}", file=sys.stderr)
        return 1
    return 0


def convert(arguments: argparse.Namespace) -> None:
    """Writes the site or the setups, and the report."""
    left_out = LeftOut()
    options, objects = read_options(arguments.options), read_objects(arguments.objects)
    setup = documents_of(options, objects, left_out)
    if arguments.site is not None:
        write_site_files(arguments, options, objects, setup, left_out)
        return
    if arguments.commands is not None:
        add_commands(arguments, options, objects, setup)
    if arguments.parts is None and not fits_one_setup(setup):
        sizes = nagios_parts.sizes_of(setup)
        raise CannotConvert("more than one setup can have ({} objects, {} dependencies, {} parents): --parts makes several".format(*sizes))
    parts = [] if arguments.parts is None else parts_of(setup, False)[0]
    left_out.report()
    if arguments.parts is None:
        sys.stdout.write(json_text(setup))
        sys.stdout.flush()
        return
    arguments.parts.mkdir(parents=True, exist_ok=True)
    for number_of_part, part in enumerate(parts, 1):
        (arguments.parts / f"part-{number_of_part}.json").write_text(json_text(part), encoding="utf-8")
    print(f"{len(parts)} parts: the limit of concurrent checks and the spread of first checks hold for each apart", file=sys.stderr)


if __name__ == "__main__":
    sys.exit(main())
