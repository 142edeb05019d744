"""A model of Alertmanager: it counts notifications minute by minute, over the routes, times and inhibition of its configuration."""
import calendar
import datetime
import re
from typing import Any, Dict, Iterator, List, NamedTuple, Optional, Sequence, Tuple

from nagsched_monitor.outputs.alertmanager import PROBLEM

# A Wednesday.
DAY = datetime.datetime(2026, 12, 2)
DAYS = ("monday", "tuesday", "wednesday", "thursday", "friday", "saturday", "sunday")


class Event(NamedTuple):
    """An alert, its first minute and the minute of its end."""

    name: str
    severity: str
    begin: int
    end: int
    alert: str = PROBLEM


# What a contact gets of an event: how often it is told, the minute when it is told first, and whether it is told of the end.
Told = Tuple[int, int, bool]
Labels = Dict[str, str]


def matches(labels: Labels, matchers: Sequence[str]) -> bool:
    return all(matches_one(labels, each) for each in matchers)


def matches_one(labels: Labels, text: str) -> bool:
    match = re.fullmatch(r'(\w+) (=~|!=|!~|=) "(.*)"', text)
    assert match is not None, text
    value, wanted = labels.get(match[1], ""), re.sub(r"\\(.)", r"\1", match[3])
    is_same = bool(re.fullmatch(wanted, value)) if "~" in match[2] else value == wanted
    return is_same != match[2].startswith("!")


def routes_of(labels: Labels, route: Dict[str, Any], above: Dict[str, Any]) -> List[Dict[str, Any]]:
    """The routes that take an alert, with the timing that they inherit."""
    timing = {key: route.get(key, above.get(key)) for key in ("receiver", "group_wait", "repeat_interval")}
    times = {key: route[key] for key in ("active_time_intervals", "mute_time_intervals") if key in route}
    found: List[Dict[str, Any]] = []
    for below in route.get("routes", ()):
        if matches(labels, below["matchers"]):
            found += routes_of(labels, below, timing)
            if not below.get("continue"):
                break
    return found or [{**timing, **times}]


def is_within(pieces: Sequence[Dict[str, Any]], at: datetime.datetime) -> bool:
    """Whether one of the pieces of a time interval includes a time."""
    of_month = calendar.monthrange(at.year, at.month)[1]

    def has(day: object) -> bool:
        """A range of days of the month, or one of them. Negative ones count from its end."""
        first, _, last = str(day).partition(":")
        begin, end = (max(min(int(each), of_month), -of_month) for each in (first, last or first))
        return (begin if begin > 0 else of_month + begin + 1) <= at.day <= (end if end > 0 else of_month + end + 1) and (int(first) <= of_month)

    today = [each for each in pieces if at.year in each.get("years", [at.year]) and at.month in each.get("months", [at.month])
             and DAYS[at.weekday()] in each.get("weekdays", DAYS) and any(map(has, each.get("days_of_month", ["1:31"])))]
    return any(times["start_time"] <= f"{at:%H:%M}" < times["end_time"] for each in today for times in each["times"])


def minutes(text: str) -> int:
    number, unit = int(text[:-1]), text[-1]
    return number * {"s": 1, "m": 60, "w": 604_800}[unit] // 60


class Model:
    """Alertmanager on one day."""

    def __init__(self, config: Dict[str, Any], alerts: Sequence[Tuple[Event, Labels]]) -> None:
        self._config, self._alerts = config, alerts
        self._recoveries = {each["name"] for each in config["receivers"] if each.get("email_configs", [{}])[0].get("send_resolved")}
        self._times = {each["name"]: each["time_intervals"] for each in config["time_intervals"]}

    def routes(self, labels: Labels) -> List[Dict[str, Any]]:
        return routes_of(labels, self._config["route"], {})

    def notifications(self) -> Iterator[Tuple[str, Told]]:
        """What each receiver gets of each alert."""
        for event, labels in self._alerts:
            for route in self.routes(labels):
                told = self._told(event, labels, route)
                if told is not None and route["receiver"] != "nobody":
                    yield route["receiver"].removesuffix(" without recoveries"), told

    def _told(self, event: Event, labels: Labels, route: Dict[str, Any]) -> Optional[Told]:
        sent: List[int] = []
        for minute in range(event.begin + minutes(route["group_wait"]), event.end):
            if not self._is_silent(labels, route, minute) and (not sent or minute - sent[-1] >= minutes(route["repeat_interval"])):
                sent.append(minute)
        has_end = route["receiver"] in self._recoveries and not self._is_silent(labels, route, event.end)
        return (len(sent), sent[0], has_end) if sent else None

    def _is_silent(self, labels: Labels, route: Dict[str, Any], minute: int) -> bool:
        active, mute = (route.get(key, []) for key in ("active_time_intervals", "mute_time_intervals"))
        is_out = active and not any(self._is_in(name, minute) for name in active)
        return bool(is_out) or any(self._is_in(name, minute) for name in mute) or self._is_inhibited(labels, minute)

    def _is_in(self, name: str, minute: int) -> bool:
        return is_within(self._times[name], DAY + datetime.timedelta(minutes=minute))

    def _is_inhibited(self, labels: Labels, minute: int) -> bool:
        standing = [its for event, its in self._alerts if event.begin <= minute < event.end and its != labels]
        rules = [rule for rule in self._config["inhibit_rules"] if matches(labels, rule["target_matchers"])]
        return any(matches(source, rule["source_matchers"]) and all(source.get(label, "") == labels.get(label, "") for label in rule["equal"])
                   for rule in rules for source in standing)
