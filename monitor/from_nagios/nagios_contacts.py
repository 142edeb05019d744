"""The contacts of a configuration of Nagios Core 4, and the escalations and dependencies of its notifications. For from_nagios.py --site."""
import collections
from typing import Dict, FrozenSet, List, Mapping, NamedTuple, Optional, Sequence, Tuple

from nagios_notifications import HOST_WORDS, SERVICE_WORDS, options_of, seconds_of
from nagios_values import Definition, LeftOut, Members, Value, full_name, number, split_list, switch

WORDS = {"host": HOST_WORDS, "service": SERVICE_WORDS}
SEVERITIES = ("warning", "critical", "unknown", "unreachable")
# The masters of each dependent: the name, the severities at which it holds notifications back, and whether its own masters do so too.
Dependencies = Mapping[str, Sequence[Tuple[str, FrozenSet[str], bool]]]


class Contact(NamedTuple):
    """A contact: its mail address, its groups, and for hosts and services the words of what it wants and the name of the period."""

    name: str
    email: str
    groups: Sequence[str]
    wants: Mapping[str, Sequence[str]]
    periods: Mapping[str, str]


class Escalation(NamedTuple):
    """An escalation of one object. An interval of None is that of the object; a last number of 0 is none."""

    contacts: FrozenSet[str]
    first: int
    last: int
    interval: Optional[int]
    options: FrozenSet[str]
    period: str


class Notifications:
    """The contacts of a configuration, and the escalations and dependencies of notifications of its objects."""

    def __init__(self, objects: Sequence[Definition], length: int, report: LeftOut) -> None:
        self.objects, self._length, self._report = objects, length, report
        self.groups: Dict[str, List[str]] = {}
        self.mail_commands = {str(members["command_name"]) for kind, _, members in objects
                              if kind == "command" and "$CONTACTEMAIL$" in members.get("command_line", "")}
        for kind, _, members in objects:
            if kind == "contactgroup":
                self.groups[str(members["contactgroup_name"])] = split_list(members.get("members", ""))
        self.contacts = [self._contact(members) for kind, _, members in objects if kind == "contact"]

    def _contact(self, members: Members) -> Contact:
        name = str(members["contact_name"])
        wants, periods = {}, {}
        for kind, words in WORDS.items():
            is_on = switch(members.get(f"{kind}_notifications_enabled", Value("1", name)))
            wants[kind] = options_of(members.get(f"{kind}_notification_options", Value("n", name)), words) if is_on else []
            periods[kind] = str(members.get(f"{kind}_notification_period", ""))
        commands = {each for kind in WORDS for each in split_list(members.get(f"{kind}_notification_commands", ""))}
        email = str(members.get("email", ""))
        if not email or commands and not commands & self.mail_commands:
            self._report.add("contacts without mail", "their receivers in alertmanager.yml notify nobody until you give them a way", name, "needs a receiver")
            email = ""
        elif "@" not in email:
            self._report.add("mail addresses without a domain", "Alertmanager can't send mail to them: add the domain", name, "needs a receiver")
        return Contact(name, email, sorted(group for group, its in self.groups.items() if name in its), wants, periods)

    def escalations(self) -> Dict[str, List[Escalation]]:
        """The escalations of each object."""
        found: Dict[str, List[Escalation]] = collections.defaultdict(list)
        for kind, _, members in self.objects:
            if kind in ("hostescalation", "serviceescalation"):
                of = kind.removesuffix("escalation")
                found[full_name(members)].append(self._escalation(of, members))
        return found

    def _escalation(self, kind: str, members: Members) -> Escalation:
        place = Value("0", full_name(members))
        groups = split_list(members.get("contact_groups", ""))
        contacts = {*split_list(members.get("contacts", "")), *(name for group in groups for name in self.groups.get(group, ()))}
        interval = members.get("notification_interval", Value("-1", place))
        if int(members.get("last_notification", place)):
            self._report.add(f"last_notification of a {kind}escalation", "its contacts are notified until the problem ends", full_name(members), "differs")
        return Escalation(frozenset(contacts), int(members.get("first_notification", place)), int(members.get("last_notification", place)),
                          seconds_of(interval, self._length) if number(interval) >= 0 else None,
                          frozenset(options_of(members.get("escalation_options", Value("a", place)), WORDS[kind])), str(members.get("escalation_period", "")))

    def dependencies(self) -> Dict[str, List[Tuple[str, FrozenSet[str], bool]]]:
        """The masters of each dependent: the name, the severities at which it holds notifications back, and whether its own masters do so too."""
        found: Dict[str, List[Tuple[str, FrozenSet[str], bool]]] = collections.defaultdict(list)
        for kind, _, members in self.objects:
            criteria = members.get("notification_failure_options", members.get("notification_failure_criteria"))
            if kind not in ("hostdependency", "servicedependency") or criteria is None:
                continue
            words = {letter: word for letter, word in WORDS[kind.removesuffix("dependency")].items() if word in SEVERITIES}
            letters, dependent = split_list(criteria), full_name(members, "dependent_")
            for letter in sorted({*letters} & {"o", "p"}):
                self._report.add(f"notification_failure_options {letter}", "an object without a problem has no alert that could hold back others", dependent)
            if members.get("dependency_period", "") not in ("", *self._report.always):
                self._report.add("dependency_period", "notifications are held back at any time", dependent)
            severities = frozenset(word for letter, word in words.items() if letters == ["a"] or letter in letters)
            found[dependent].append((full_name(members), severities, switch(members.get("inherits_parent", Value("0", dependent)))))
        return found
