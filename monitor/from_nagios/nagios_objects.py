"""Hosts, services and dependencies of a configuration of Nagios Core 4, as a setup has them. For from_nagios.py."""
import math
from typing import Dict, Optional, Tuple

from nagios_values import MOST_UNITS, LeftOut, Members, Setup, Value, number, required, switch, whole_number

TAKEN = {"host_name", "service_description", "parents", "check_interval", "retry_interval", "max_check_attempts", "active_checks_enabled"}
# Members without a counterpart: the values at which they change nothing, their kind, and the effect here.
MEMBERS: Dict[str, Tuple[Tuple[str, ...], str, str]] = {
    "check_period": ((), "check_period", "a check is due at any time of the day"),
    "check_command": ((), "check_command", "the program that takes a check runs its plugin"),
    "passive_checks_enabled": (("1",), "passive_checks_enabled 0", "a passive result of it is taken all the same"),
    "initial_state": (("o",), "initial_state", "an object begins as OK or UP, never checked"),
    "flap_detection_enabled": (("1",), "flap_detection_enabled 0", "flapping is reported of every object"),
    "flap_detection_options": (("a",), "flap_detection_options", "every result counts"),
    "low_flap_threshold": (("0.000000", "0"), "flap thresholds of an object", "those of all hosts or all services hold"),
    "high_flap_threshold": (("0.000000", "0"), "flap thresholds of an object", "those of all hosts or all services hold"),
    "check_freshness": (("0",), "check_freshness", "nothing is checked for being stale"),
    "freshness_threshold": (("0",), "check_freshness", "nothing is checked for being stale"),
    "is_volatile": (("0",), "is_volatile", "a problem that comes again is no new one"),
    "obsess": (("0", "1"), "", ""),
    "parallelize_check": (("1",), "parallelize_check 0", "its check runs while others do"),
    "event_handler": ((), "event_handler", "no event handler is run"),
    "event_handler_enabled": (("0", "1"), "", ""),
    "importance": (("0",), "importance", "it decides nothing"),
    "hourly_value": (("0",), "importance", "it decides nothing"),
    "stalking_options": (("n",), "stalking_options", "a new text without a new state isn't logged"),
    "process_perf_data": (("0", "1"), "", ""),
    "retain_status_information": (("1",), "retain_status_information 0", "its state is kept over a restart"),
    "retain_nonstatus_information": (("1",), "retain_nonstatus_information 0", "a switch that an operator set is kept over a restart"),
}
# Members that a site has, but a setup alone doesn't; custom variables too.
OF_A_SITE = {
    "contacts", "contact_groups", "notifications_enabled", "notification_options", "notification_period", "notification_interval",
    "first_notification_delay", "display_name", "alias", "address", "notes", "notes_url", "action_url", "icon_image", "icon_image_alt", "vrml_image",
    "statusmap_image", "2d_coords", "3d_coords",
}
SHOWN = ("members that only a site has", "who is notified, and what is shown")


def report_members(members: Members, left_out: LeftOut, of: str) -> None:
    for name, value in members.items():
        if name in ("use", "register", "name"):
            value.refuse("a template; let Nagios write them out: nagios4 -vp nagios.cfg")
        if name in MEMBERS:
            neutral, kind, meaning = MEMBERS[name]
            if value not in neutral and not (name == "check_period" and value in left_out.always):
                left_out.add(kind, meaning, of)
        elif name in OF_A_SITE or name.startswith("_"):
            left_out.add(*SHOWN, name)
        elif name not in TAKEN:
            left_out.add(f"member {name}", "it isn't known here", of)


def name_of(value: Value) -> str:
    size = len(value.encode())
    if not 1 <= size <= 255 or ";" in value or any(ord(letter) < 32 or ord(letter) == 127 for letter in value):
        value.refuse("a name has 1 to 255 bytes, no `;` and no control character")
    return str(value)


def timing_members(members: Members, place: str, left_out: LeftOut, of: str) -> Setup:
    """The members that hosts and services share; intervals are still those of Nagios."""
    report_members(members, left_out, of)
    attempts = required(members, "max_check_attempts", place)
    taken: Setup = {
        "check_interval": members.get("check_interval", Value("5", place)),
        "retry_interval": members.get("retry_interval", Value("1", place)),
        "max_check_attempts": whole_number(attempts, number(attempts), 1, 255),
    }
    is_active = switch(members.get("active_checks_enabled", Value("1", place)))
    if is_active and number(taken["retry_interval"]) == 0 and taken["max_check_attempts"] > 1:
        taken["retry_interval"] = Value("1", taken["retry_interval"].place)
        left_out.add("retry_interval 0", "a soft problem is checked again after 1 unit of interval_length, and not at once", of)
    if not is_active:
        taken["enabled"] = False
        left_out.add("objects without active checks", "switched off here; a passive result has no way in", of)
    return taken


def host_of(members: Members, place: str, left_out: LeftOut) -> Setup:
    host: Setup = {"name": name_of(required(members, "host_name", place))}
    parents = [parent.strip() for parent in members.get("parents", "").split(",") if parent.strip()]
    if parents:
        host["parents"] = parents
    return host | timing_members(members, place, left_out, host["name"])


def service_of(members: Members, place: str, left_out: LeftOut) -> Setup:
    host = required(members, "host_name", place)
    description = name_of(required(members, "service_description", place))
    if members.get("parents"):
        left_out.add("parents of services", "a service is checked in any state of its parents", f"{host};{description}")
    return {"host": str(host), "description": description} | timing_members(members, place, left_out, f"{host};{description}")


# ---- dependencies


def object_name(members: Members, place: str, before: str, service: bool) -> str:
    """The full name of the dependent (before is `dependent_`) or of the master."""
    host = required(members, before + "host_name", place)
    return f"{host};{required(members, before + 'service_description', place)}" if service else str(host)


def dependency_of(members: Members, place: str, service: bool, left_out: LeftOut) -> Optional[Setup]:
    """A dependency of execution; None if it is only one of notifications."""
    letters = "owucpn" if service else "odupn"
    criteria = members.get("execution_failure_options", members.get("execution_failure_criteria"))
    if "dependency_period" in members and members["dependency_period"] not in left_out.always:
        left_out.add("dependency_period", "a dependency holds at any time", object_name(members, place, "dependent_", service))
    if any(name.startswith("notification_failure") for name in members):
        left_out.add("dependencies of notifications", "no notification is held back by them", object_name(members, place, "dependent_", service))
    if criteria is None:
        return None
    named = [letter.strip() for letter in criteria.split(",")]
    if named == ["a"]:
        named = list(letters.replace("n", ""))
    for letter in named:
        if len(letter) != 1 or letter not in letters:
            criteria.refuse(f"the letters of a dependency are {', '.join(letters)}, or a for all, not {criteria!r}")
    dependency: Setup = {"dependent": object_name(members, place, "dependent_", service), "master": object_name(members, place, "", service)}
    dependency["criteria"] = ",".join(named)
    if switch(members.get("inherits_parent", Value("0", place))):
        dependency["inherits_parent"] = True
    return dependency


def use_whole_units(setup: Setup) -> None:
    """Makes every interval whole: if one isn't, the unit becomes the longest that divides them all."""
    timed = setup["hosts"] + setup["services"]
    length = setup["options"]["interval_length"]
    unit = length
    if any(number(it[name]).denominator != 1 for it in timed for name in ("check_interval", "retry_interval")):
        for it in timed:
            for name in ("check_interval", "retry_interval"):
                seconds = number(it[name]) * length
                if seconds.denominator != 1:
                    it[name].refuse(f"{it[name]} units of {length} seconds are no whole seconds")
                unit = math.gcd(unit, int(seconds))
    setup["options"]["interval_length"] = unit
    for it in timed:
        for name in ("check_interval", "retry_interval"):
            it[name] = whole_number(it[name], number(it[name]) * length / unit, 0, MOST_UNITS)
