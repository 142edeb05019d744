"""The tables of Livestatus: the columns of each, and its rows, which are made of the hosts and services of a site."""
import math
from functools import partial
from operator import attrgetter, itemgetter
from typing import Any, Collection, Dict, List, Mapping, NamedTuple, Optional, Sequence, Tuple

from ..model.text import printable_text
from .livestatus_query import SHOWN, Code, Query, Table, refuse
from .object_columns import (
    ENTRY_TYPES, HOST_COLUMNS, OF_SERVICES, SERVICE_COLUMNS, STATES, Column, columns, comments_of, constant, counts, downtimes_of, fact, is_checked, joined,
    state_of,
)
from .object_rows import ObjectRow, ObjectRows

MOST_ENTRIES = 50_000  # of the log that a query reads


class Named(NamedTuple):
    """A group or a contact, with its objects."""

    name: str
    facts: Mapping[str, Any] = {}
    members: Sequence[ObjectRow] = ()


class Pair(NamedTuple):
    """An object, which is None if it isn't part of the site any more, and a group of it, a remark about it, or a change of its state."""

    it: Optional[ObjectRow]
    of: Any


IT, OF, MEMBERS = attrgetter("it"), attrgetter("of"), attrgetter("members")


def event_text(row: Pair) -> str:
    return f"{row.of.name};{row.of.state};{row.of.kind};{row.of.attempt};{row.of.words.partition('|')[0]}".replace("\n", " ")


def event_type(row: Pair) -> str:
    return "SERVICE ALERT" if ";" in row.of.name else "HOST ALERT"


def services_of_all(it: Named) -> Sequence[ObjectRow]:
    return [service for host in it.members for service in host.services]


def hosts_in_state(state: int, it: Named) -> int:
    return sum(state_of(each) == state and is_checked(each) for each in it.members)


NAMED = {
    **columns("string", {"name": lambda it: it.name, "alias": lambda it: it.facts.get("alias") or it.name}),
    **columns("string", {name: fact(name) for name in ("notes", "notes_url", "action_url")}),
}
OF_OBJECT = {
    **joined("host_", HOST_COLUMNS, lambda row: row.it and row.it.host),
    **joined("service_", OF_SERVICES, lambda row: row.it if row.it and row.it.description else None),
}
OF_REMARK = {
    **columns("int", {"id": lambda row: row.of.id, "type": lambda row: 2 if row.it.description else 1,
                      "is_service": lambda row: int(bool(row.it.description))}),
    **columns("string", {"author": lambda row: printable_text(row.of.author), "comment": lambda row: printable_text(row.of.text)}),
    "entry_time": Column("time", lambda row: int(row.of.made_at)), **OF_OBJECT,
}
COLUMNS: Dict[str, Mapping[str, Column]] = {
    "hosts": HOST_COLUMNS, "services": SERVICE_COLUMNS,
    "hostgroups": {
        **NAMED, "members": Column("list", lambda it: [each.name for each in it.members]),
        "members_with_state": Column("list", lambda it: [[each.name, state_of(each), is_checked(each)] for each in it.members]),
        **columns("int", {
            "num_hosts": lambda it: len(it.members), "num_hosts_pending": lambda it: sum(not is_checked(each) for each in it.members),
            "worst_host_state": lambda it: max(map(state_of, it.members), default=0),
            **{f"num_hosts_{word}": partial(hosts_in_state, state) for state, word in enumerate(("up", "down", "unreach"))},
        }),
        **counts(services_of_all),
    },
    "servicegroups": {
        **NAMED, "members": Column("list", lambda it: [[each.host_name, each.description] for each in it.members]),
        "members_with_state": Column("list", lambda it: [[each.host_name, each.description, state_of(each), is_checked(each)] for each in it.members]),
        **counts(MEMBERS),
    },
    "hostsbygroup": {**joined("", HOST_COLUMNS, IT), **joined("hostgroup_", NAMED, OF)},
    "servicesbygroup": {**joined("", SERVICE_COLUMNS, IT), **joined("servicegroup_", NAMED, OF)},
    "servicesbyhostgroup": {**joined("", SERVICE_COLUMNS, IT), **joined("hostgroup_", NAMED, OF)},
    "contacts": {
        **NAMED, **columns("string", {name: fact(name) for name in ("email", "pager")}),
        **constant("int", 1, "can_submit_commands host_notifications_enabled service_notifications_enabled in_host_notification_period "
                   "in_service_notification_period"),
        **constant("string", "", "host_notification_period service_notification_period"), **constant("int", 0, "modified_attributes"),
        **constant("list", [], "custom_variable_names custom_variable_values modified_attributes_list"), **constant("dict", {}, "custom_variables"),
    },
    "contactgroups": {**NAMED, "members": Column("list", lambda it: it.facts.get("members", []))},
    "comments": {
        **OF_REMARK, **constant("int", 1, "source"), "expires": Column("int", lambda row: int(row.of.ends_at is not None)),
        "expire_time": Column("time", lambda row: int(row.of.ends_at or 0)),
        "entry_type": Column("int", lambda row: ENTRY_TYPES[row.of.kind]), "persistent": Column("int", lambda row: int(row.of.persistent)),
    },
    "downtimes": {
        **OF_REMARK, **constant("int", 0, "triggered_by"), "fixed": Column("int", lambda row: int(row.of.duration is None)),
        "type": Column("int", lambda row: int(not row.of.holds(row.it.site.now))), "duration": Column("int", lambda row: int(row.of.duration or 0)),
        "start_time": Column("time", lambda row: int(row.of.starts_at)), "end_time": Column("time", lambda row: int(row.of.ends_at or 0)),
    },
    "commands": columns("string", {"name": lambda name: name, "line": lambda name: name}),
    "timeperiods": {**columns("string", {"name": lambda row: row[0], "alias": lambda row: row[0]}), "in": Column("int", lambda row: int(row[1]))},
    "log": {
        **columns("int", {"attempt": lambda row: row.of.attempt, "state": lambda row: STATES.get(row.of.state, 0), "lineno": lambda row: row.of.id}),
        **constant("int", 1, "class"), "time": Column("time", lambda row: int(row.of.time)),
        **columns("string", {
            "type": event_type, "options": event_text, "state_type": lambda row: row.of.kind,
            "message": lambda row: f"[{int(row.of.time)}] {event_type(row)}: {event_text(row)}",
            "plugin_output": lambda row: row.of.words.partition("\n")[0].partition("|")[0],
            "host_name": lambda row: row.of.name.partition(";")[0], "service_description": lambda row: row.of.name.partition(";")[2],
        }),
        **constant("string", "", "comment contact_name command_name"),
        **{f"current_{name}": column for name, column in OF_OBJECT.items()},
    },
    "status": {
        **columns("int", {
            "nagios_pid": lambda its: its.process, "num_hosts": lambda its: len(its.services), "enable_notifications": lambda its: its.notifies(),
            "num_services": lambda its: sum(map(len, its.services.values())),
            "interval_length": lambda its: next((each.get("options", {}).get("interval_length", 60) for each in its.setups), 60),
        }),
        "program_start": Column("time", lambda its: its.started_at),
        **constant("string", "1.2.8", "livestatus_version"), **constant("string", "4.4.6", "program_version"),
        **constant("int", 1, "accept_passive_host_checks accept_passive_service_checks check_external_commands check_host_freshness check_service_freshness "
                   "enable_flap_detection execute_host_checks execute_service_checks"),
        **constant("int", 0, "enable_event_handlers obsess_over_hosts obsess_over_services process_performance_data cached_log_messages"),
        # Columns that aren't counted.
        **{f"{name}{rate}": Column("float", lambda its: 0.0) for rate in ("", "_rate") for name in (
            "connections", "external_commands", "forks", "host_checks", "log_messages", "neb_callbacks", "requests", "service_checks")},
        **constant("time", 0, "last_command_check last_log_rotation"),
    },
    "columns": columns("string", {name: itemgetter(place) for place, name in enumerate(("table", "name", "type", "description"))}),
}


def seen_by(it: ObjectRow) -> Collection[str]:
    return it.contacts | it.host.contacts


def seen_by_of(row: Pair) -> Collection[str]:
    return () if row.it is None else seen_by(row.it)


def seen_by_all(it: Named) -> Collection[str]:
    """The contacts who may see a group: those who may see all of its objects."""
    return frozenset.intersection(*(frozenset(seen_by(each)) for each in it.members)) if it.members else ()


def span_of(lines: Sequence[str]) -> Tuple[float, float]:
    """The times between which entries of the log can fit a good query."""
    always = -math.inf, math.inf
    stack: List[Tuple[float, float]] = []
    for name, _, text in (line.partition(":") for line in lines):
        column, order, value = (*text.split(), "", "", "")[:3]
        if name == "Filter":
            order = order if column in ("time", "log_time") else ""
            stack.append((float(value) if order in (">", ">=", "=") else -math.inf, float(value) if order in ("<", "<=", "=") else math.inf))
        elif name in ("And", "Or"):
            firsts, lasts = zip(*(stack.pop() for _ in range(int(text))))
            stack.append((max(firsts), min(lasts)) if name == "And" else (min(firsts), max(lasts)))
        elif name == "Negate":
            stack[-1] = always
    firsts, lasts = zip(always, *stack)
    return max(firsts), min(lasts)


class Tables:
    """The tables of a site. They are made again when something has changed."""

    def __init__(self, rows: ObjectRows) -> None:
        self.rows = rows
        self._made: Dict[str, Table] = {}

    def table(self, name: str, lines: Sequence[str] = ()) -> Table:
        """A table for a query with these lines. Raises `QueryFault` if there is no such table, and `StatusUnavailable`."""
        if self.rows.read():
            self._made.clear()
        if name not in COLUMNS:
            refuse(f"there is no table {name[:SHOWN]!r}: the tables are {', '.join(COLUMNS)}", Code.NO_TABLE)
        if name == "log":
            return Table(name, COLUMNS[name], self._log(lines), None, seen_by_of)
        if name not in self._made:
            self._made[name] = self._make(name)
        return self._made[name]

    def mark(self, trigger: str) -> object:
        """What differs after an event of this kind."""
        if trigger in ("comment", "downtime"):
            return [it.remarks for it in self.rows.objects.values() if it.remarks]
        return self.rows.last_change if trigger in ("state", "log") else self.rows.version

    def _make(self, name: str) -> Table:
        objects, make = self.rows.objects.values(), partial(Table, name, COLUMNS[name])
        if name in ("hosts", "services"):
            return make([it for it in objects if bool(it.description) == (name == "services")], attrgetter("name"), seen_by)
        if name in ("comments", "downtimes"):
            find = comments_of if name == "comments" else downtimes_of
            return make([Pair(it, remark) for it in objects for remark in find(it)], attrgetter("it.name"), seen_by_of)
        if "group" in name and name != "contactgroups":
            kind = "service" if name in ("servicegroups", "servicesbygroup") else "host"
            groups = [Named(group, facts, [it for it in members if bool(it.description) == (kind == "service")])
                      for group, facts, members in self._names(f"{kind}_groups")]
            if "by" not in name:
                return make(groups, None, seen_by_all)
            return make([Pair(it, group) for group in groups for it in (services_of_all(group) if name == "servicesbyhostgroup" else group.members)],
                        attrgetter("it.name"), seen_by_of)
        others: Dict[str, Sequence[Any]] = {
            "contacts": self._names("contacts"), "contactgroups": self._names("contact_groups"), "status": [self.rows],
            "commands": sorted({it.command for it in objects if it.command}), "timeperiods": sorted(self.rows.periods.items()),
            "columns": [(table, column, its.kind, column.replace("_", " ")) for table, of in COLUMNS.items() for column, its in of.items()],
        }
        return make(others[name])

    def _names(self, kind: str) -> Sequence[Named]:
        """The groups or contacts of a kind: those in the directory, and those of objects."""
        facts = self.rows.directory.get(kind, {})
        members: Dict[str, List[ObjectRow]] = {name: [] for name in facts}
        for it in self.rows.objects.values():
            for name in it.groups.names.get(kind, ()):
                members.setdefault(name, []).append(it)
        return [Named(name, facts.get(name, {}), members[name]) for name in sorted(members)]

    def _log(self, lines: Sequence[str]) -> Sequence[Pair]:
        """The entries that can fit a query, the latest first."""
        others = [line for line in lines if not line.startswith("Wait")]
        Query(Table("log", COLUMNS["log"], ()), others)  # which finds faults
        first, last = span_of(others)
        found = self.rows.changes(max(first, 0.0), min(last, 1e15), MOST_ENTRIES + 1)
        if len(found) > MOST_ENTRIES:
            refuse(f"the log has more than {MOST_ENTRIES} entries between these times: add conditions such as `Filter: time >= N`", Code.TOO_LARGE)
        return [Pair(self.rows.objects.get(each.name), each) for each in found]
