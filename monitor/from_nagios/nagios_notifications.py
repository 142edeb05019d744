"""What hosts and services of Nagios Core 4 are notified of, and what people see of them. For from_nagios.py --site."""
import fractions
import math
from typing import Any, Dict, List, Mapping, Sequence, Tuple

import nagios_commands
from nagios_values import Definition, LeftOut, Members, Value, checked_objects, number, switch, whole_number

# The words for the letters of notification_options: the severity of an alert, a recovery and flapping. There are no notifications of downtimes (s).
HOST_WORDS = {"d": "critical", "u": "unreachable", "r": "recovery", "f": "flapping"}
SERVICE_WORDS = {"w": "warning", "c": "critical", "u": "unknown", "r": "recovery", "f": "flapping"}
# Nagios's default, in units of interval_length.
INTERVAL = 30
MOST_SECONDS = 31_536_000
# Members that are shown: those with macros by the macro that has their value.
MACROS = {"notes": "NOTES", "notes_url": "NOTESURL", "action_url": "ACTIONURL"}
PLAIN = ("display_name", "alias", "address", "icon_image", "icon_image_alt", "vrml_image", "statusmap_image", "2d_coords", "3d_coords")

Record = Dict[str, Any]


def options_of(value: Value, words: Mapping[str, str]) -> List[str]:
    """What is notified, by the letters of notification_options."""
    letters = [letter.strip() for letter in value.split(",")]
    for letter in letters:
        if letter not in (*words, "s", "n", "a"):
            value.refuse(f"notification_options: {letter!r} has to be one of {', '.join((*words, 's', 'n', 'a'))}")
    return [word for letter, word in words.items() if "n" not in letters and ("a" in letters or letter in letters)]


def seconds_of(value: Value, length: int) -> int:
    """A number of units in seconds, of which part of one counts as one."""
    return whole_number(value, fractions.Fraction(math.ceil(number(value) * length)), 0, MOST_SECONDS)


class Wishes:
    """The notifications that objects want. Those that aren't Nagios's defaults are reported: Alertmanager needs routes for them."""

    def __init__(self, length: int, always: Sequence[str], report: LeftOut) -> None:
        self._length, self._always, self._report = length, always, report

    def record_of(self, kind: str, members: Members, name: str) -> Record:
        """The members of the record that aren't defaults."""
        record: Record = {}
        if not switch(members.get("notifications_enabled", Value("1", name))):
            record["enabled"] = False
            self._add("notifications_enabled 0", 'label notification_options=",none,"; examples/alertmanager.yml mutes it', name)
        words = HOST_WORDS if kind == "host" else SERVICE_WORDS
        text = members.get("notification_options", Value("a", name))
        options = options_of(text, words)
        if options != list(words.values()):
            record["options"] = options
            label = f",{','.join(options or ['none'])},"
            self._add(f"notification_options {text} of a {kind}", f'label notification_options="{label}"; examples/alertmanager.yml mutes the rest', name)
        period = members.get("notification_period")
        if period is not None and period not in self._always:
            record["period"] = str(period)
            self._add(f"notification_period {period}", f'label notification_period="{period}"; give its route a time interval with these hours', name)
        for member, key, default, option in (("first_notification_delay", "delay", 0, "group_wait"),
                                             ("notification_interval", "interval", INTERVAL * self._length, "repeat_interval")):
            seconds = seconds_of(members[member], self._length) if member in members else default
            if seconds != default:
                record[key] = seconds
                self._add(f"{member} of {seconds} s", f'label notification_{key}="{seconds}s"; give its route this {option}', name)
        return record

    def _add(self, kind: str, meaning: str, name: str) -> None:
        self._report.add(kind, meaning, name, "needs a route")


def shown_of(network: nagios_commands.Network, kind: str, members: Members, name: str, report: LeftOut) -> Record:
    """What people see of an object: its members, with macros that have a value before Nagios runs, and its custom variables."""
    own = str(members["service_description" if kind == "service" else "host_name"])
    shown: Record = {member: str(members[member]) for member in PLAIN if member in members and members[member] != own}
    macros = nagios_commands.Macros(network, network.hosts.get(members["host_name"], members), members if kind == "service" else None)
    for member in (member for member in MACROS if members.get(member)):
        try:
            shown[member] = macros.lookup(f"{kind.upper()}{MACROS[member]}")
        except nagios_commands.NoCommand as why:
            shown[member] = str(members[member])
            report.add(f"a macro in {member}", f"{why}, so it stays as it is", name)
    custom = {key[1:]: str(value) for key, value in members.items() if key.startswith("_")}
    return {**shown, **({"custom": custom} if custom else {})}


def of_objects(objects: Sequence[Definition], length: int, resource: Mapping[str, str], report: LeftOut) -> Tuple[Dict[str, Record], Dict[str, Record]]:
    """The notifications of each object that wants others than Nagios's defaults, and what people see of each object, by full names."""
    network, wishes = nagios_commands.Network(objects, resource), Wishes(length, sorted(report.always), report)
    records, shown = {}, {}
    for name, kind, members in checked_objects(objects):
        records[name], shown[name] = wishes.record_of(kind, members, name), shown_of(network, kind, members, name, report)
    return {name: it for name, it in records.items() if it}, {name: it for name, it in shown.items() if it}
