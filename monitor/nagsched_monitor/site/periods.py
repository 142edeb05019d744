"""Time periods: the times at which an object is checked, in the local time of the site.

A period has times for weekdays and for dates, and may exclude other periods. If a date of a period fits, its times replace those of the weekday, as in
Nagios. The order is: dates with a year, of a month, of a day of any month, of a weekday of one month, of a weekday of any month.
"""
import calendar
import datetime
import graphlib
import re
from typing import Any, Dict, List, Mapping, NamedTuple, Optional, Sequence, Tuple, Union

from ..faults import SiteFault, require
from .json_files import ANY, LIST, NAMES, Form, members_of, one_of, whole

WEEKDAYS = ("monday", "tuesday", "wednesday", "thursday", "friday", "saturday", "sunday")
CLOCK_TIMES = re.compile(r"(\d\d):(\d\d)-(\d\d):(\d\d)")
DATE = re.compile(r"\d{4}-\d\d-\d\d")

# The members of a day without a year, in the order in which dates count if several fit, and the limits of those that are numbers.
KINDS = ({"month", "day"}, {"day"}, {"month", "weekday", "nth"}, {"weekday", "nth"})


def counted(most: int) -> Form:
    return Form(f"a whole number from 1 to {most}, or from -1 to -{most} to count backwards", lambda value: type(value) is int and 1 <= abs(value) <= most)


# The members of a period, of a range of days, and of a day without a year.
PERIOD = {
    "weekdays": Form("an object with members from monday to sunday", lambda value: isinstance(value, dict) and set(value) <= set(WEEKDAYS)),
    "dates": LIST, "exclude": NAMES,
}
RANGE = {"first": ANY, "last": ANY, "step": whole(1, 36_525)}
DAY = {"month": whole(1, 12), "day": counted(31), "nth": counted(5), "weekday": one_of(WEEKDAYS)}

Minutes = Tuple[int, int]  # from a minute of the day up to another, which is excluded


class DayOfMonth(NamedTuple):
    """A day of each month, or of one month of each year: its number, or which of its weekdays it is. A negative number counts from the end."""

    number: int
    weekday: Optional[int]
    month: Optional[int]


Day = Union[datetime.date, DayOfMonth]


def date_of(day: Day, months: int, is_last: bool = False) -> Optional[datetime.date]:
    """The date of a day in this month, which is counted from the year 0, or in its year. The last day of a range ends at the latest with its month."""
    if isinstance(day, datetime.date):
        return day
    year, month = months // 12, day.month or months % 12 + 1
    weekday_of_first, length = calendar.monthrange(year, month)
    if day.weekday is None:
        first, count, days = 1, length, 1
    else:
        first, days = 1 + (day.weekday - weekday_of_first) % 7, 7
        count = (length - first) // 7 + 1
    number = first + days * (day.number - 1 if day.number > 0 else count + day.number)
    number = min(number, length) if is_last else number
    return datetime.date(year, month, number) if 1 <= number <= length else None


class Dates(NamedTuple):
    """Days from the first to the last, or each n-th of them, and their times. Dates with a lower rank count first."""

    rank: int
    first: Day
    last: Day
    step: int
    times: Sequence[Minutes]

    def include(self, day: datetime.date) -> bool:
        """A range whose last day comes before its first goes on into the next month, or year."""
        months = 12 * day.year + day.month - 1
        first, last = date_of(self.first, months), date_of(self.last, months, is_last=True)
        if first is None or last is None or (not first <= day <= last if first <= last else last < day < first):
            return False
        if day < first and isinstance(self.first, DayOfMonth):
            first = date_of(self.first, months - (12 if self.first.month else 1))
        return self.step == 1 or first is not None and (day - first).days % self.step == 0


class Period(NamedTuple):
    """The times of weekdays, by their numbers, and of dates, in the order in which they count; and the periods whose times are excluded."""

    weekdays: Mapping[int, Sequence[Minutes]]
    dates: Sequence[Dates]
    excluded: Sequence[str]


class Periods:
    def __init__(self, periods: Mapping[str, Period], zone: Optional[datetime.tzinfo]) -> None:
        self._periods, self._zone = periods, zone

    def includes(self, name: str, wall: float) -> bool:
        moment = datetime.datetime.fromtimestamp(wall, self._zone)
        return self._includes(name, moment.date(), moment.hour * 60 + moment.minute)

    def _includes(self, name: str, day: datetime.date, minute: int) -> bool:
        period = self._periods[name]
        times = next((dates.times for dates in period.dates if dates.include(day)), period.weekdays.get(day.weekday(), ()))
        return any(first <= minute < last for first, last in times) and not any(self._includes(other, day, minute) for other in period.excluded)

    def active_by_name(self, wall: float) -> Dict[str, bool]:
        """Each period with whether it includes this time."""
        return {name: self.includes(name, wall) for name in self._periods}


def read_periods(document: Mapping[str, object], file: str) -> Dict[str, Period]:
    """The periods of a document, after a test: each excluded name exists, and no period excludes itself."""
    periods = {name: read_period(members, f"{file}: period {name}") for name, members in document.items()}
    for name, period in periods.items():
        for other in period.excluded:
            require(other in periods, f"{file}: period {name}: there is no period {other}, which it excludes")
    try:
        graphlib.TopologicalSorter({name: period.excluded for name, period in periods.items()}).prepare()
    except graphlib.CycleError as error:
        raise SiteFault(f"{file}: period {error.args[1][0]} excludes itself") from None
    return periods


def read_period(members: object, place: str) -> Period:
    document = members_of(members, place, PERIOD)
    times_of = {WEEKDAYS.index(day): read_times(texts, f"{place}: {day}") for day, texts in document.get("weekdays", {}).items()}
    read = [read_dates(each, f"{place}: date {index}") for index, each in enumerate(document.get("dates", []))]
    return Period(times_of, sorted(read, key=lambda dates: dates.rank), document.get("exclude", []))


def read_times(texts: Any, place: str) -> List[Minutes]:
    """Times such as 09:00-17:00, which end at 24:00 at the latest."""
    require(LIST.fits(texts), f"{place}: times are a list of texts such as 09:00-17:00")
    times = []
    for text in texts:
        match = CLOCK_TIMES.fullmatch(str(text))
        hour, minute, last_hour, last_minute = map(int, match.groups()) if match else (0, 0, 0, 0)
        first, last = hour * 60 + minute, last_hour * 60 + last_minute
        is_good = minute <= 59 and last_minute <= 59 and first < last <= 24 * 60
        require(is_good, f"{place}: times have to be like 09:00-17:00 and end on the same day, not {text!r}")
        times.append((first, last))
    return times


def read_dates(members: object, place: str) -> Dates:
    """Days with their times: one day, or those from a first to a last one. A range of dates with a step may have no end."""
    if not isinstance(members, dict) or "times" not in members:
        raise SiteFault(f"{place}: a date is an object with times")
    times, days = read_times(members["times"], place), {member: value for member, value in members.items() if member != "times"}
    if "first" not in days:
        rank, day = read_day(days, place)
        return Dates(rank, day, day, 1, times)
    members_of(days, place, RANGE)
    rank, first = read_day(days["first"], f"{place}: first")
    has_end = "last" in days or rank > 0 or "step" not in days
    last_rank, last = read_day(days.get("last"), f"{place}: last") if has_end else (0, datetime.date.max)
    require(rank == last_rank, f"{place}: first and last have to be days of the same form")
    is_in_order = not isinstance(first, datetime.date) or not isinstance(last, datetime.date) or first <= last
    require(is_in_order, f"{place}: its last day comes before its first")
    return Dates(rank, first, last, days.get("step", 1), times)


def read_day(value: object, place: str) -> Tuple[int, Day]:
    """A date, or a day of a month, and its rank."""
    if isinstance(value, str) and DATE.fullmatch(value):
        try:
            return 0, datetime.date.fromisoformat(value)
        except ValueError:
            raise SiteFault(f"{place}: there is no day {value}") from None
    if not isinstance(value, dict) or set(value) not in KINDS:
        raise SiteFault(f"{place}: a day is a date such as 2026-12-24, or has day and perhaps month, or weekday, nth and perhaps month")
    members_of(value, place, DAY)
    weekday = WEEKDAYS.index(value["weekday"]) if "weekday" in value else None
    return KINDS.index(set(value)) + 1, DayOfMonth(value["nth"] if "nth" in value else value["day"], weekday, value.get("month"))
