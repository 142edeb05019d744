"""The columns of hosts and services, by the names that Livestatus gives them: the kind of each, and its value in a row. The status file has them too."""
import contextlib
from functools import partial
from operator import attrgetter
from typing import Any, Callable, Dict, List, Mapping, NamedTuple, Sequence

from ..model.remarks import Kind, Remark
from ..model.text import printable_text, split_output
from .object_rows import ObjectRow

# Nagios's numbers for states.
HOST_STATES = {"UP": 0, "DOWN": 1, "UNREACHABLE": 2}
SERVICE_STATES = {"OK": 0, "WARNING": 1, "CRITICAL": 2, "UNKNOWN": 3}
STATES = {**HOST_STATES, **SERVICE_STATES}
ENTRY_TYPES: Mapping[str, int] = {"comment": 1, "acknowledgement": 4}  # Nagios's numbers for the kinds of comments
FACTS = ("notes", "notes_url", "action_url", "icon_image")  # what has a column for the text with macros replaced, too


class Column(NamedTuple):
    kind: str  # of its values: int, time, float, string, list or dict
    value: Callable[[Any], Any]  # the value of a row


def columns(kind: str, values: Mapping[str, Callable[[Any], Any]]) -> Dict[str, Column]:
    return {name: Column(kind, value) for name, value in values.items()}


def constant(kind: str, value: object, names: str) -> Dict[str, Column]:
    return dict.fromkeys(names.split(), Column(kind, lambda row: value))


def joined(before: str, of: Mapping[str, Column], find: Callable[[Any], Any]) -> Dict[str, Column]:
    """The columns of another row, with a word before their names. If there is no such row, they are empty."""
    def value_of(value: Callable[[Any], Any], empty: Any) -> Callable[[Any], Any]:
        return lambda row: empty if (found := find(row)) is None else value(found)

    return {f"{before}{name}": Column(its.kind, value_of(its.value, EMPTY[its.kind])) for name, its in of.items()}


EMPTY: Mapping[str, Any] = {"int": 0, "time": 0, "float": 0.0, "string": "", "list": [], "dict": {}}


def state_of(it: ObjectRow) -> int:
    return STATES.get(it.standing.state or "", 0)


def hard_state_of(it: ObjectRow) -> int:
    return state_of(it) if it.standing.kind == "HARD" else 0


def is_checked(it: ObjectRow) -> int:
    return int(it.standing.state not in (None, "PENDING"))


def last_time(state: str, it: ObjectRow) -> int:
    return int((it.standing.last_check if it.standing.state == state else it.last_times.get(state)) or 0)


def custom_variables(it: ObjectRow) -> Dict[str, str]:
    return {name[1:]: text for name, text in it.facts.items() if name.startswith("_")}


def staleness(it: ObjectRow) -> float:
    """The age of the last result, in intervals."""
    its, interval = it.standing, it.interval() * it.unit
    return max(0.0, it.site.now - its.last_check) / interval if its.last_check and interval and its.is_on else 0.0


def holding(it: ObjectRow, kind: Kind) -> List[Remark]:
    return [each for each in it.remarks if each.kind == kind and each.holds(it.site.now)]


def comments_of(it: ObjectRow) -> List[Remark]:
    """What was said of a row: comments, and acknowledgements."""
    return [each for each in it.remarks if each.kind in ENTRY_TYPES]


def downtimes_of(it: ObjectRow) -> List[Remark]:
    return [each for each in it.remarks if each.kind == "downtime"]


def wants_notifications(it: ObjectRow) -> int:
    return int(it.groups.notifications.get("notification_options") != ",none," and not holding(it, "mute"))


def seconds_of(it: ObjectRow, label: str, default: float) -> float:
    """A time between notifications, in units."""
    return float(it.groups.notifications.get(label, f"{default}s")[:-1]) / it.unit


def coordinate(place: int, it: ObjectRow) -> float:
    """A number of the coordinates on a map, which are three between commas."""
    with contextlib.suppress(ValueError, IndexError):
        return float(it.facts.get("3d_coords", "").split(",")[place])
    return 0.0


def fact(name: str) -> Callable[[Any], str]:
    return lambda it: str(it.facts.get(name, ""))


OF_BOTH: Dict[str, Column] = {
    **columns("string", {
        "display_name": lambda it: it.facts.get("display_name") or it.description or it.name,
        **{name: fact(name) for name in (*FACTS, "icon_image_alt")}, **{f"{name}_expanded": fact(name) for name in FACTS},
        "check_command": lambda it: it.command, "check_command_expanded": lambda it: it.command,
        "check_period": lambda it: it.period, "notification_period": lambda it: it.groups.notifications.get("notification_period", ""),
        "plugin_output": lambda it: printable_text(split_output(it.standing.words)[0]),
        "long_plugin_output": lambda it: "\\n".join(map(printable_text, split_output(it.standing.words)[1].split("\n"))),
        "perf_data": lambda it: printable_text(split_output(it.standing.words)[2]),
    }),
    **columns("int", {
        "state": state_of, "hard_state": hard_state_of, "last_hard_state": hard_state_of, "has_been_checked": is_checked,
        "last_state": lambda it: STATES.get(max(it.last_times, key=it.last_times.__getitem__, default=""), 0),
        "state_type": lambda it: int(it.standing.kind != "SOFT"), "current_attempt": lambda it: it.standing.attempt or 1,
        "max_check_attempts": lambda it: it.setup.get("max_check_attempts", 1), "is_flapping": lambda it: int(it.standing.flapping),
        "is_executing": lambda it: int(it.standing.out_since is not None), "active_checks_enabled": lambda it: int(it.standing.is_on),
        "checks_enabled": lambda it: int(it.standing.is_on), "check_type": lambda it: int(it.is_passive),
        "should_be_scheduled": lambda it: int(it.standing.next_check is not None and bool(it.standing.is_on)),
        "notifications_enabled": wants_notifications, "scheduled_downtime_depth": lambda it: len(holding(it, "downtime")) if it.remarks else 0,
        "acknowledged": lambda it: 1 if it.remarks and holding(it, "acknowledgement") else 0,
        "acknowledgement_type": lambda it: max((1 + each.sticky for each in holding(it, "acknowledgement")), default=0),
        "in_check_period": lambda it: int(it.site.is_active(it.period)),
        "in_notification_period": lambda it: int(it.site.is_active(it.groups.notifications.get("notification_period", ""))),
    }),
    **columns("time", {
        "last_check": lambda it: int(it.standing.last_check or 0), "next_check": lambda it: int(it.standing.next_check or 0),
        "last_state_change": lambda it: int(it.standing.since or 0), "last_hard_state_change": lambda it: int(it.standing.hard_since or 0),
    }),
    **columns("float", {
        "check_interval": lambda it: it.interval(), "retry_interval": lambda it: float(it.setup.get("retry_interval", 1)),
        "execution_time": lambda it: it.standing.took or 0.0, "latency": lambda it: it.standing.late or 0.0, "staleness": staleness,
        "notification_interval": lambda it: seconds_of(it, "notification_interval", 0),
        "first_notification_delay": lambda it: seconds_of(it, "notification_delay", 0),
    }),
    **columns("list", {
        "contacts": lambda it: sorted(it.contacts), "contact_groups": lambda it: it.groups.names.get("contact_groups", []),
        "custom_variable_names": lambda it: list(custom_variables(it)), "custom_variable_values": lambda it: list(custom_variables(it).values()),
    }),
    **columns("list", {
        "comments": lambda it: [each.id for each in comments_of(it)], "downtimes": lambda it: [each.id for each in downtimes_of(it)],
        "comments_with_info": lambda it: [[each.id, printable_text(each.author), printable_text(each.text)] for each in comments_of(it)],
        "downtimes_with_info": lambda it: [[each.id, printable_text(each.author), printable_text(each.text)] for each in downtimes_of(it)],
        "comments_with_extra_info": lambda it: [
            [each.id, printable_text(each.author), printable_text(each.text), ENTRY_TYPES[each.kind], int(each.made_at)] for each in comments_of(it)],
    }),
    "custom_variables": Column("dict", custom_variables),
    **constant("string", "", "event_handler filename service_period"),
    **constant("int", 1, "accept_passive_checks flap_detection_enabled in_service_period"),
    **constant("int", 0, "event_handler_enabled process_performance_data obsess modified_attributes check_options current_notification_number "
               "no_more_notifications pending_flex_downtime pnpgraph_present initial_state check_freshness"),
    **constant("time", 0, "last_notification next_notification"),
    **constant("float", 0.0, "percent_state_change low_flap_threshold high_flap_threshold"),
    **constant("list", [], "modified_attributes_list depends_exec depends_notify"),
}


def counts(services: Callable[[Any], Sequence[ObjectRow]]) -> Dict[str, Column]:
    """How many services of a row there are in each state, and in each hard one."""
    def count(find: Callable[[ObjectRow], int], state: int, row: Any) -> int:
        return sum(find(it) == state and is_checked(it) for it in services(row))

    def worst(find: Callable[[ObjectRow], int]) -> Callable[[Any], int]:
        return lambda row: max(map(find, services(row)), key=(0, 1, 3, 2).index, default=0)

    return columns("int", {
        "num_services": lambda row: len(services(row)), "num_services_pending": lambda row: sum(not is_checked(it) for it in services(row)),
        "worst_service_state": worst(state_of), "worst_service_hard_state": worst(hard_state_of),
        **{f"num_services_{before}{word}": partial(count, find, number)
           for before, find in (("", state_of), ("hard_", hard_state_of)) for number, word in enumerate(("ok", "warn", "crit", "unknown"))},
    })


HOST_COLUMNS: Dict[str, Column] = {
    **columns("string", {
        "name": lambda it: it.name, "alias": lambda it: it.facts.get("alias") or it.name, "address": lambda it: it.facts.get("address") or it.name,
        "statusmap_image": fact("statusmap_image"),
    }),
    **OF_BOTH,
    **columns("list", {
        "groups": lambda it: it.groups.names.get("host_groups", []), "parents": lambda it: list(it.setup.get("parents", ())), "childs": lambda it: it.children,
        "services": lambda it: [each.description for each in it.services],
        "services_with_state": lambda it: [[each.description, state_of(each), is_checked(each)] for each in it.services],
        "services_with_info": lambda it: [[each.description, state_of(each), is_checked(each), printable_text(split_output(each.standing.words)[0])]
                                          for each in it.services],
    }),
    **columns("time", {f"last_time_{state.lower()}": partial(last_time, state) for state in HOST_STATES}),
    **columns("float", {f"{axis}_3d": partial(coordinate, place) for place, axis in enumerate("xyz")}),
    **columns("int", {"total_services": lambda it: len(it.services)}), **constant("int", 0, "obsess_over_host"),
    **counts(attrgetter("services")),
}
OF_SERVICES: Dict[str, Column] = {
    "description": Column("string", lambda it: it.description),
    **OF_BOTH,
    "groups": Column("list", lambda it: it.groups.names.get("service_groups", [])),
    **columns("time", {f"last_time_{state.lower()}": partial(last_time, state) for state in SERVICE_STATES}),
    **constant("int", 0, "obsess_over_service"),
}
SERVICE_COLUMNS: Dict[str, Column] = {**OF_SERVICES, **joined("host_", HOST_COLUMNS, lambda it: it.host)}
