"""The first configuration of Alertmanager for a site: contacts, escalations and dependencies of Nagios Core 4 as receivers, routes and inhibition. For
from_nagios.py --site.

Each contact has a route for the objects that name it and one for those that name a group of it, with a route for each kind of alert that it wants. Nested
ones are for objects that differ from Nagios's defaults.
"""
import collections
import re
from typing import Any, Dict, FrozenSet, Iterator, List, Mapping, NamedTuple, Optional, Sequence, Set, Tuple

from nagios_contacts import SEVERITIES, WORDS, Contact, Dependencies, Escalation, Notifications
from nagios_notifications import INTERVAL
from nagios_time_intervals import Intervals
from nagios_values import Definition, LeftOut, Members
from nagios_yaml import yaml_lines

PROBLEM, FLAPPING, HEARTBEAT, NOT_CHECKED, HELD = "NagschedProblem", "NagschedFlapping", "NagschedHeartbeat", "NagschedNotChecked", "NagschedHeld"
NOBODY, OPERATORS, ALIVE = "nobody", "operators", "dead-mans-switch"
# An interval of 0 in Nagios: there is no second notification.
ONCE = "52w"
HEAD = """# Made by nagsched-from-nagios from Nagios's contacts, escalations and dependencies. It is yours now: the converter doesn't write it again.
#
# Test it with `amtool check-config alertmanager.yml`. Give dead-mans-switch the address of a service that calls you when the heartbeat stops.
# Alerts of objects without a contact go to operators, as do missing results.
# An alert that is sent once is sent again after Alertmanager's --data.retention (five days by default).
"""

Record = Dict[str, Any]
Route = Dict[str, Any]


class Variant(NamedTuple):
    """How an object differs from others of the same contact: its period, its delay and interval, and whether it wants recoveries."""

    period: str = ""
    delay: str = ""
    interval: str = ""
    recovery: bool = True


# ---- matchers


def matcher(label: str, sign: str, value: str) -> str:
    escaped = value.replace("\\", "\\\\").replace('"', '\\"')
    return f'{label} {sign} "{escaped}"'


def any_of(names: Sequence[str]) -> str:
    return "|".join(re.sub(r"([\\.+*?()|\[\]{}^$])", r"\\\1", name) for name in names)


def listed(label: str, sign: str, names: Sequence[str]) -> str:
    """Whether a list with commas has one of these names."""
    return matcher(label, sign, f".*,({any_of(names)}),.*")


def named(label: str, names: Sequence[str]) -> str:
    return matcher(label, "=", names[0]) if len(names) == 1 else matcher(label, "=~", any_of(names))


def of_kind(kind: str) -> str:
    return matcher("service", "=" if kind == "host" else "!=", "")


def variant_of(record: Mapping[str, Any]) -> Variant:
    seconds = {key: f"{record[key]}s" if key in record else "" for key in ("delay", "interval")}
    return Variant(record.get("period", ""), seconds["delay"], seconds["interval"], "recovery" in record.get("options", ["recovery"]))


def kind_of(name: str) -> str:
    return "service" if ";" in name else "host"


def by_description(names: Sequence[str]) -> Dict[str, List[str]]:
    """The hosts of these objects, by the descriptions of services; empty for hosts."""
    found: Dict[str, List[str]] = collections.defaultdict(list)
    for name in names:
        host, _, description = name.partition(";")
        found[description].append(host)
    return found


# ---- routes


class Routes:
    """The routes of a site, by the groups, contacts and notifications of its objects."""

    def __init__(self, notifications: Notifications, groups: Mapping[str, Record], intervals: Intervals) -> None:
        self._its, self._groups, self._intervals = notifications, groups, intervals
        # The contacts that have receivers with recoveries, and without.
        self.receivers: Set[Tuple[str, bool]] = set()

    def direct(self, contact: Contact) -> Iterator[Route]:
        """The routes for the objects that name a contact, and for those that name a group of it."""
        its = {name: record for name, record in self._groups.items() if self._has(name, contact)}
        ways = [[listed("contacts", "=~", [contact.name])]] if any(contact.name in record.get("contacts", ()) for record in its.values()) else []
        if contact.groups:
            others = [listed("contacts", "!~", [contact.name])] if ways else []
            ways.append([listed("contact_groups", "=~", contact.groups), *others])
        for matchers in ways:
            variants = {name: variant_of(record.get("notifications", {})) for name, record in its.items()}
            yield {"matchers": matchers, "receiver": NOBODY, "continue": True, **nested(list(self.leaves(contact, variants)))}

    def _has(self, name: str, contact: Contact) -> bool:
        record = self._groups.get(name, {})
        return contact.name in record.get("contacts", ()) or not {*contact.groups}.isdisjoint(record.get("contact_groups", ()))

    def leaves(self, contact: Contact, variants: Mapping[str, Variant], escalation: Optional[Escalation] = None, **timing: str) -> Iterator[Route]:
        """The routes of what a contact wants to know of objects."""
        for kind in WORDS:
            wants = [word for word in contact.wants[kind] if word in SEVERITIES and (escalation is None or word in escalation.options)]
            different = {variant for name, variant in variants.items() if kind_of(name) == kind}
            if wants and (different or escalation is None):
                matchers = [matcher("alertname", "=", PROBLEM), of_kind(kind), named("severity", wants)]
                yield self._leaf(contact, kind, matchers, different, escalation, timing)
            if "flapping" in contact.wants[kind] and escalation is None:
                only_periods = {Variant(variant.period) for variant in different}
                yield self._leaf(contact, kind, [matcher("alertname", "=", FLAPPING), of_kind(kind)], only_periods, None, {}, True)

    def _leaf(self, contact: Contact, kind: str, matchers: List[str], variants: Set[Variant], escalation: Optional[Escalation], timing: Mapping[str, str],
              is_flapping: bool = False) -> Route:
        """One route, with one below it for each variant."""
        is_told = is_flapping or "recovery" in contact.wants[kind]
        variants = {variant._replace(recovery=variant.recovery and is_told) for variant in variants}
        usual = Variant(recovery=is_told)
        members = [member for member in Variant._fields if any(getattr(variant, member) != getattr(usual, member) for variant in variants)]
        below = [{"matchers": variant_matchers(variant, members), **self._told(contact, kind, variant, escalation)}
                 for variant in sorted(variants - {usual})]
        return {"matchers": matchers, **self._told(contact, kind, usual, escalation), **timing, **nested(below)}

    def _told(self, contact: Contact, kind: str, variant: Variant, escalation: Optional[Escalation]) -> Route:
        """The receiver of a variant, and when it is notified."""
        times = self._intervals.members([contact.periods[kind], variant.period, "" if escalation is None else escalation.period])
        if times is None:
            return {"receiver": NOBODY}
        self.receivers.add((contact.name, variant.recovery))
        told: Route = {"receiver": receiver_name(contact.name, variant.recovery)}
        if variant.delay:
            told["group_wait"] = variant.delay
        if variant.interval:
            told["repeat_interval"] = variant.interval if variant.interval != "0s" else ONCE
        return {**told, **times}

    def escalated(self, report: LeftOut) -> Iterator[Route]:
        """The routes of escalations: each waits as long as Nagios needs for its first notification."""
        same: Dict[Tuple[Escalation, int, int], List[str]] = collections.defaultdict(list)
        for name, escalations in self._its.escalations().items():
            wishes = self._groups.get(name, {}).get("notifications", {})
            for escalation in escalations:
                moment = moment_of(escalation.first, wishes, escalations, self._its._length)
                if moment is None:
                    report.add("escalations after the only notification", "they never come, in Nagios either", name, "differs")
                    continue
                again = interval_after(escalation.first, wishes, escalations, self._its._length)
                same[escalation, moment, again].append(name)
                if any(self._has(name, contact) and contact.name not in escalation.contacts for contact in self._its.contacts):
                    report.add("contacts whom an escalation replaces", "they are still notified", name, "differs")
        for (escalation, moment, again), names in same.items():
            for contact in (contact for contact in self._its.contacts if contact.name in escalation.contacts):
                yield from self._escalated_to(contact, escalation, {"group_wait": f"{moment}s", "repeat_interval": f"{again}s" if again else ONCE},
                                              [name for name in names if not self._has(name, contact)])

    def _escalated_to(self, contact: Contact, escalation: Escalation, timing: Mapping[str, str], names: Sequence[str]) -> Iterator[Route]:
        for description, hosts in by_description(names).items():
            full = {f"{host};{description}" if description else host: host for host in hosts}
            wishes = {name: variant_of(self._groups.get(name, {}).get("notifications", {}))._replace(delay="", interval="") for name in full}
            below = list(self.leaves(contact, wishes, escalation, **timing))
            if below:
                matchers = [named("host", sorted(hosts)), matcher("service", "=", description)]
                yield {"matchers": matchers, "receiver": NOBODY, "continue": True, **nested(below)}


def nested(routes: Sequence[Route]) -> Route:
    return {"routes": list(routes)} if routes else {}


def receiver_name(contact: str, has_recoveries: bool) -> str:
    name = f"contact {contact}" if contact in (NOBODY, OPERATORS, ALIVE) else contact
    return name if has_recoveries else f"{name} without recoveries"


def variant_matchers(variant: Variant, members: Sequence[str]) -> List[str]:
    """The matchers of an object's labels, for these members."""
    labels = [matcher(f"notification_{member}", "=", getattr(variant, member)) for member in members if member != "recovery"]
    return [*labels, *([matcher("notification_options", "=~" if variant.recovery else "!~", "(.*,recovery,.*)?")] if "recovery" in members else [])]


def interval_after(count: int, wishes: Record, escalations: Sequence[Escalation], length: int) -> int:
    """The seconds after a notification with this number: the least of the escalations that hold, or the object's."""
    held = [it.interval for it in escalations if it.first <= count and (it.last == 0 or count <= it.last) and it.interval is not None]
    return min(held) if held else int(wishes.get("interval", INTERVAL * length))


def moment_of(count: int, wishes: Record, escalations: Sequence[Escalation], length: int) -> Optional[int]:
    """The seconds until a notification with this number; None if it never comes."""
    moment = int(wishes.get("delay", 0))
    for before in range(1, count):
        pause = interval_after(before, wishes, escalations, length)
        if pause == 0:
            return None
        moment += pause
    return moment


# ---- inhibition


def masters_of(name: str, dependencies: Dependencies, seen: FrozenSet[str]) -> Iterator[Tuple[str, FrozenSet[str]]]:
    """The masters that hold back an object, and those above them."""
    for master, severities, inherits in dependencies.get(name, ()):
        if severities:
            yield master, severities
        if inherits and master not in seen:
            yield from masters_of(master, dependencies, seen | {master})


def inhibition(notifications: Notifications) -> List[Route]:
    """Objects that remarks hold, services of a host that isn't up, objects that flap, and dependents whose masters have problems. The last ones of a host
    are held back with its services."""
    rules: List[Route] = [
        {"source_matchers": [matcher("alertname", "=", HELD)], "target_matchers": [matcher("alertname", "=~", f"{PROBLEM}|{FLAPPING}")],
         "equal": ["site", "host", "service"]},
        {"source_matchers": [matcher("alertname", "=", PROBLEM), of_kind("host")], "target_matchers": [matcher("alertname", "=", PROBLEM), of_kind("service")],
         "equal": ["site", "host"]},
        {"source_matchers": [matcher("alertname", "=", FLAPPING)], "target_matchers": [matcher("alertname", "=", PROBLEM)],
         "equal": ["site", "host", "service"]},
    ]
    return [*rules, *(dependency_rule(*key, hosts) for key, hosts in hosts_of_dependents(notifications.dependencies()).items())]


# A master, its severities, and the description of dependents. A master without a host is one of the dependent's own host.
Held = Tuple[str, str, FrozenSet[str], str]


def hosts_of_dependents(dependencies: Dependencies) -> Dict[Held, List[str]]:
    """The hosts of dependents that one rule can hold back."""
    same: Dict[Held, List[str]] = collections.defaultdict(list)
    for name in dependencies:
        host, _, description = name.partition(";")
        for master, severities in masters_of(name, dependencies, frozenset([name])):
            of, _, service = master.partition(";")
            hosts = same["" if of == host else of, service, severities, description]
            hosts += [] if host in hosts else [host]
    return same


def dependency_rule(host: str, service: str, severities: FrozenSet[str], description: str, hosts: Sequence[str]) -> Route:
    return {
        "source_matchers": [matcher("alertname", "=", PROBLEM), *([named("host", [host])] if host else []), matcher("service", "=", service),
                            named("severity", sorted(severities))],
        "target_matchers": [matcher("alertname", "=", PROBLEM), named("host", sorted(hosts)), *([named("service", [description])] if description else [])],
        "equal": ["site"] if host else ["site", "host"]}


# ---- the whole


def mutes() -> List[Route]:
    """The routes of what objects don't want: notifications_enabled and notification_options."""
    muted = [([matcher("alertname", "=", PROBLEM), matcher("severity", "=", severity)], severity) for severity in SEVERITIES]
    muted.append(([matcher("alertname", "=", FLAPPING)], "flapping"))
    return [{"matchers": [*matchers, matcher("notification_options", "!~", f"(.*,{word},.*)?")], "receiver": NOBODY} for matchers, word in muted]


def configuration(options: Members, objects: Sequence[Definition], groups: Mapping[str, Record], length: int, report: LeftOut) -> Record:
    """The whole configuration, as data."""
    notifications, intervals = Notifications(objects, length, report), Intervals(objects, options.get("use_timezone", ""), report)
    routes = Routes(notifications, groups, intervals)
    found = [route for contact in notifications.contacts for route in routes.direct(contact)] + list(routes.escalated(report))
    off = [{"matchers": [matcher("alertname", "=~", f"{PROBLEM}|{FLAPPING}")], "receiver": NOBODY}] if options.get("enable_notifications") == "0" else []
    admin = str(options.get("admin_email", "")) if "@" in options.get("admin_email", "") else "root@localhost"
    root = {
        "receiver": OPERATORS, "group_by": ["site", "host", "service"], "group_wait": "1m", "group_interval": "1m",
        "repeat_interval": f"{INTERVAL * length}s",
        "routes": [
            {"matchers": [matcher("alertname", "=", HEARTBEAT)], "receiver": ALIVE, "group_wait": "0s", "group_interval": "1m", "repeat_interval": "1m"},
            {"matchers": [matcher("alertname", "=", NOT_CHECKED)], "receiver": OPERATORS},
            {"matchers": [matcher("alertname", "=", HELD)], "receiver": NOBODY}, *off, *mutes(), *found],
    }
    address = {contact.name: contact.email for contact in notifications.contacts}
    receivers = [{"name": NOBODY}, {"name": ALIVE}, receiver(OPERATORS, admin, True),
                 *(receiver(receiver_name(name, told), address[name], told) for name, told in sorted(routes.receivers))]
    return {
        "global": {"smtp_smarthost": "localhost:25", "smtp_from": admin, "smtp_require_tls": False}, "route": root,
        **({"time_intervals": intervals.used} if intervals.used else {}), "inhibit_rules": inhibition(notifications), "receivers": receivers,
    }


def receiver(name: str, email: str, has_recoveries: bool) -> Record:
    return {"name": name, **({"email_configs": [{"to": email, "send_resolved": has_recoveries}]} if email else {})}


def yaml_text(document: Record) -> str:
    return HEAD + "".join(f"{line}\n" for line in yaml_lines(document))
