"""Time periods of Nagios Core 4 as time intervals of Alertmanager. For from_nagios.py --site.

If two dates of a period include the same day, Nagios takes the times of one; here only times that both have count."""
import datetime
from typing import Any, Dict, Iterator, List, Optional, Sequence, Tuple

import nagios_periods
from nagios_values import Definition, LeftOut

DAY = 24 * 60
Fields = Dict[str, Any]
Period = Dict[str, Any]


def minutes_of(text: str) -> List[int]:
    return [int(time[:2]) * 60 + int(time[3:]) for time in text.split("-")]


def outside(times: Sequence[str]) -> List[str]:
    """The times of a day that aren't in these."""
    left, at = [], 0
    for begin, end in sorted(minutes_of(each) for each in times):
        left += [(at, begin)] if begin > at else []
        at = max(at, end)
    left += [(at, DAY)] if at < DAY else []
    return [f"{begin // 60:02}:{begin % 60:02}-{end // 60:02}:{end % 60:02}" for begin, end in left]


def days_of(day: nagios_periods.Day) -> Fields:
    """One day as Alertmanager names it."""
    if isinstance(day, str):
        year, month, number = map(int, day.split("-"))
        return {"years": [year], "months": [month], "days_of_month": [number]}
    months = {"months": [day["month"]]} if "month" in day else {}
    if "nth" not in day:
        return {**months, "days_of_month": [day["day"]]}
    first = 7 * day["nth"] - 6 if day["nth"] > 0 else max(7 * day["nth"], -31)
    last = min(7 * day["nth"], 31) if day["nth"] > 0 else 7 * day["nth"] + 6
    return {**months, "weekdays": [day["weekday"]], "days_of_month": [f"{first}:{last}"]}


def months_of(first: str, last: str) -> Iterator[Fields]:
    """The days from one to another, month by month."""
    day, end = datetime.date.fromisoformat(first), datetime.date.fromisoformat(last)
    while day <= end:
        after = (day.replace(day=28) + datetime.timedelta(days=4)).replace(day=1)
        until = min(end, after - datetime.timedelta(days=1))
        yield {"years": [day.year], "months": [day.month], "days_of_month": [f"{day.day}:{until.day}"]}
        day = after


def ranges_of(dates: nagios_periods.Dates) -> Optional[List[Fields]]:
    """The days of a date; None if Alertmanager has no such days."""
    if "first" not in dates:
        return [days_of({key: value for key, value in dates.items() if key != "times"})]
    first, last = dates["first"], dates.get("last")
    if "step" in dates or last is None:
        return None
    if isinstance(first, str):
        return list(months_of(first, last))
    if "nth" in first or first.get("month") != last.get("month") or first["day"] * last["day"] < 0 or first["day"] > last["day"]:
        return None
    return [{**({"months": [first["month"]]} if "month" in first else {}), "days_of_month": [f"{first['day']}:{last['day']}"]}]


class Intervals:
    """The time intervals that routes use, and their names by the periods of Nagios."""

    def __init__(self, objects: Sequence[Definition], zone: str, report: LeftOut) -> None:
        self._periods = {str(members["timeperiod_name"]): nagios_periods.period_of(members)[0] for kind, _, members in objects if kind == "timeperiod"}
        self._zone, self._report = str(zone).removeprefix(":") or "Local", report
        self.used: List[Dict[str, Any]] = []

    def members(self, names: Sequence[str]) -> Optional[Dict[str, List[str]]]:
        """The members of a route for times that are in all of these periods. None if no time is in one of them; an empty name is always."""
        periods = {name: self._periods[name] for name in names if name in self._periods and not nagios_periods.is_always(self._periods[name])}
        if any(not any(period["weekdays"].values()) and not any(dates["times"] for dates in period["dates"]) for period in periods.values()):
            return None
        active: List[str] = []
        mute: List[str] = []
        for number, (name, period) in enumerate(sorted(periods.items())):
            if number == 0:
                active.append(self._use(name, [*self._weekly(period), *self._dates(name, period)]))
            else:
                mute.append(self._use(f"outside {name}", self._weekly(period, True)))
                if any(dates["times"] for dates in period["dates"]):
                    self._report.add("dates of two notification periods", "times of the second one's dates outside its weekdays stay silent", name, "differs")
            gone = [*self._dates(name, period, True), *self._excluded(name, period)]
            mute += [self._use(f"not in {name}", gone)] if gone else []
        return {**({"active_time_intervals": active} if active else {}), **({"mute_time_intervals": mute} if mute else {})}

    def _use(self, name: str, pieces: List[Fields]) -> str:
        if all(each["name"] != name for each in self.used):
            self.used.append({"name": name, "time_intervals": pieces})
        return name

    def _piece(self, times: Sequence[str], days: Fields) -> List[Fields]:
        if not times:
            return []
        bounds = [dict(zip(("start_time", "end_time"), each.split("-"))) for each in times]
        return [{**days, "times": bounds, "location": self._zone}]

    def _weekly(self, period: Period, is_outside: bool = False) -> List[Fields]:
        """The times of weekdays, or all others."""
        days_by_times: Dict[Tuple[str, ...], List[str]] = {}
        for day in nagios_periods.WEEKDAYS:
            times = period["weekdays"].get(day, [])
            days_by_times.setdefault(tuple(outside(times) if is_outside else times), []).append(day)
        return [piece for times, days in days_by_times.items() for piece in self._piece(times, {"weekdays": days})]

    def _dates(self, name: str, period: Period, is_outside: bool = False) -> List[Fields]:
        """The times of dates, or the other times of those days."""
        pieces: List[Fields] = []
        for dates in period["dates"]:
            ranges = ranges_of(dates)
            if ranges is None:
                self._report.add("dates of notification periods", "alertmanager.yml has no ranges with a step, of weekdays or over months", name, "differs")
            for days in ranges or ():
                pieces += self._piece(outside(dates["times"]) if is_outside else dates["times"], days)
        return pieces

    def _excluded(self, name: str, period: Period) -> List[Fields]:
        pieces: List[Fields] = []
        for other in (self._periods[other] for other in period["exclude"] if other in self._periods):
            if other["exclude"] or any(other["weekdays"].values()) and other["dates"]:
                self._report.add("exclusions of notification periods", "those with weekdays and dates, or exclusions, exclude both", name, "differs")
            pieces += [*self._weekly(other), *self._dates(name, other)]
        return pieces
