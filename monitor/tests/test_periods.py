"""Time periods: weekdays, dates before weekdays, exclusions, and changes of summer time."""
import datetime
import unittest
import zoneinfo
from typing import Any, Dict

from nagsched_monitor.site.periods import Periods, read_periods

BERLIN = zoneinfo.ZoneInfo("Europe/Berlin")
WORK = {day: ["09:00-17:00"] for day in ("monday", "tuesday", "wednesday", "thursday", "friday")}
ALWAYS = {day: ["00:00-24:00"] for day in (*WORK, "saturday", "sunday")}


class TimePeriods(unittest.TestCase):
    def includes(self, document: Dict[str, Any], name: str, text: str) -> bool:
        moment = datetime.datetime.fromisoformat(text).replace(tzinfo=BERLIN)
        return Periods(read_periods(document, "periods.json"), BERLIN).includes(name, moment.timestamp())

    def test_weekdays(self) -> None:
        document = {"work": {"weekdays": WORK}}
        for text, wanted in (
            ("2026-11-27T09:00", True), ("2026-11-27T16:59", True), ("2026-11-27T17:00", False), ("2026-11-27T08:59", False), ("2026-11-28T12:00", False),
        ):
            self.assertEqual(self.includes(document, "work", text), wanted, text)

    def test_a_date_stands_before_the_weekday(self) -> None:
        dates = [{"month": 12, "day": 24, "times": ["09:00-12:00"]}, {"first": "2026-12-24", "last": "2026-12-25", "times": []}]
        document = {"work": {"weekdays": WORK, "dates": dates}}
        self.assertFalse(self.includes(document, "work", "2026-12-24T10:00"))
        self.assertTrue(self.includes(document, "work", "2027-12-24T10:00"))
        self.assertFalse(self.includes(document, "work", "2027-12-24T13:00"))

    def test_days_of_a_month(self) -> None:
        document = {
            "last": {"dates": [{"day": -1, "times": ["00:00-24:00"]}]},
            "patch": {"dates": [{"weekday": "tuesday", "nth": 2, "times": ["00:00-24:00"]}]},
            "final": {"dates": [{"weekday": "friday", "nth": -1, "month": 11, "times": ["00:00-24:00"]}]},
        }
        for name, text, wanted in (
            ("last", "2026-11-30T00:00", True), ("last", "2028-02-29T00:00", True), ("last", "2026-11-29T00:00", False),
            ("patch", "2026-11-10T00:00", True), ("patch", "2026-11-03T00:00", False), ("patch", "2026-11-17T00:00", False),
            ("final", "2026-11-27T00:00", True), ("final", "2026-11-20T00:00", False), ("final", "2026-12-25T00:00", False),
        ):
            self.assertEqual(self.includes(document, name, text), wanted, (name, text))

    def test_what_is_excluded(self) -> None:
        document = {"all": {"weekdays": ALWAYS, "exclude": ["night"]}, "night": {"weekdays": {day: ["01:00-04:00"] for day in ALWAYS}}}
        self.assertTrue(self.includes(document, "all", "2026-11-27T00:59"))
        self.assertFalse(self.includes(document, "all", "2026-11-27T01:00"))
        self.assertTrue(self.includes(document, "all", "2026-11-27T04:00"))

    def test_summer_time(self) -> None:
        """Nine in the morning is nine by the clock on the wall, in summer and in winter; the hour that occurs twice is in the period twice."""
        document = {"work": {"weekdays": {**WORK, "sunday": ["02:00-03:00"]}}}
        periods = Periods(read_periods(document, "periods.json"), BERLIN)
        for text, wanted in (("2026-07-03T06:59:59+00:00", False), ("2026-07-03T07:00:00+00:00", True), ("2026-11-27T07:30:00+00:00", False),
                             ("2026-11-27T08:00:00+00:00", True), ("2026-10-25T00:30:00+00:00", True), ("2026-10-25T01:30:00+00:00", True),
                             ("2026-10-25T02:30:00+00:00", False), ("2026-03-29T01:30:00+00:00", False)):
            self.assertEqual(periods.includes("work", datetime.datetime.fromisoformat(text).timestamp()), wanted, text)
