"""Time periods of Nagios Core 4, as a site of nagsched-monitor has them. For from_nagios.py --site."""
import calendar
import datetime
import re
from typing import Any, Dict, List, Mapping, Sequence, Set, Tuple, Union

from nagios_values import Definition, Value

WEEKDAYS = ("monday", "tuesday", "wednesday", "thursday", "friday", "saturday", "sunday")
MONTHS = [month.lower() for month in calendar.month_name[1:]]
# A day of a date: with a year, or by its number, of a weekday, of a month.
DATE = re.compile(r"\d{4}-\d\d-\d\d")
DAY = re.compile(rf"(?:(?P<weekday>{'|'.join(WEEKDAYS)})|(?P<only_month>{'|'.join(MONTHS)})|day) (?P<number>-?\d+)(?: (?P<month>{'|'.join(MONTHS)}))?")
RANGE = re.compile(r"(?P<first>.*?)(?: - (?P<last>.*?))?(?: / (?P<step>\d+))?")
TIMES = re.compile(r"(\d\d:\d\d)-(\d\d:\d\d)")
ALL_DAY = ["00:00-24:00"]
# Members of a time period that describe no times.
OTHER = {"timeperiod_name", "alias", "exclude"}

# A day, days with other times, and a period, as a site has them.
Day = Union[str, Dict[str, Any]]
Dates = Dict[str, Any]
Period = Dict[str, Any]


def times_of(name: str, value: Value) -> Tuple[List[str], List[str]]:
    """Times such as 09:00-17:00, or several of them with commas; and those that end before they begin, which never come, in Nagios as here."""
    times: List[str] = []
    never: List[str] = []
    for text in (each.strip() for each in value.split(",")):
        match = TIMES.fullmatch(text)
        if match is None:
            value.refuse(f"{name}: times have to be like 09:00-17:00, not {text!r}")
        if match[1] < match[2]:
            times.append(text)
        elif match[1] > match[2]:
            never.append(f"{name} {text}")
    return times, never


def day_of(text: str, name: str, value: Value) -> Day:
    """One day of a date: `2026-12-24`, or one of those that come every month or year, such as `day -1`, `may 1`, `monday 2` and `monday 2 may`."""
    if DATE.fullmatch(text):
        try:
            datetime.date.fromisoformat(text)
        except ValueError:
            value.refuse(f"{name}: there is no day {text}")
        return text
    match = DAY.fullmatch(text)
    if match is None or match["month"] and not match["weekday"]:
        value.refuse(f"{name}: {text!r} is no day that a time period of Nagios can have")
    number, most = int(match["number"]), 5 if match["weekday"] else 31
    if not 1 <= abs(number) <= most:
        value.refuse(f"{name}: a number from 1 to {most}, or from -1 to -{most}, has to be in {text!r}")
    month = match["month"] or match["only_month"]
    day: Dict[str, Any] = {"month": MONTHS.index(month) + 1} if month else {}
    return {**day, **({"weekday": match["weekday"], "nth": number} if match["weekday"] else {"day": number})}


def dates_of(name: str, value: Value) -> Dates:
    """The days of a date, without their times: one day, or a range of days, and perhaps only each n-th of them."""
    match = RANGE.fullmatch(" ".join(name.lower().split()))
    assert match is not None  # each text has this form
    first_text, last_text, step = match["first"], match["last"], int(match["step"] or 1)
    first = day_of(first_text, name, value)
    if last_text is None and not (isinstance(first, str) and step > 1):
        return {"first": first, "last": first} if isinstance(first, str) else first
    dates: Dates = {"first": first}
    if last_text is not None:
        # `day 1 - 15` is short for `day 1 - day 15`.
        whole = re.sub(r"-?\d+", last_text, first_text, count=1) if re.fullmatch(r"-?\d+", last_text) else last_text
        dates["last"] = day_of(whole, name, value)
        if isinstance(first, str) != isinstance(dates["last"], str) or not isinstance(first, str) and first.keys() != dates["last"].keys():
            value.refuse(f"{name}: its first and its last day have to be of the same form")
        if isinstance(first, str) and dates["last"] < first:
            value.refuse(f"{name}: its last day comes before its first")
    return {**dates, **({"step": step} if step > 1 else {})}


def period_of(members: Mapping[str, Value]) -> Tuple[Period, List[str]]:
    """A period as a site has it, and its times that never come."""
    weekdays: Dict[str, List[str]] = {}
    dates: List[Dates] = []
    never: List[str] = []
    for name, value in members.items():
        if name in OTHER:
            continue
        times, of_these = times_of(name, value)
        never += of_these
        if name in WEEKDAYS:
            weekdays[name] = times
        else:
            dates.append({**dates_of(name, value), "times": times})
    excluded = [other.strip() for other in members.get("exclude", "").split(",") if other.strip()]
    return {"weekdays": weekdays, "dates": dates, "exclude": excluded}, never


def is_always(period: Period) -> bool:
    """Whether a period includes each time, such as the usual 24x7."""
    return all(period["weekdays"].get(day) == ALL_DAY for day in WEEKDAYS) and not period["dates"] and not period["exclude"]


def always_periods(objects: Sequence[Definition]) -> Set[str]:
    """The names of the periods that include each time."""
    return {str(members["timeperiod_name"]) for kind, _, members in objects if kind == "timeperiod" and is_always(period_of(members)[0])}
