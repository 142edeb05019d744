"""Time periods of Nagios, converted and read. The wanted values come from Nagios Core 4.4.6: from its own test suite, and from its code over many forms of
dates."""
import datetime
import json
import pathlib
import subprocess
import sys
import tempfile
import unittest
import zoneinfo
from typing import Dict, List, Mapping, Optional, Tuple

from nagsched_monitor.site.periods import Periods, read_periods

from .waiting import LONG

SCRIPT = pathlib.Path(__file__).resolve().parents[1] / "from_nagios/from_nagios.py"
EVERY_DAY = ("monday", "tuesday", "wednesday", "thursday", "friday", "saturday", "sunday")
LONDON, PARIS, NEW_YORK = "Europe/London", "Europe/Paris", "America/New_York"
# The periods of Nagios's test suite: the times of each by its days, and the period that it excludes.
OF_THE_SUITE: Dict[str, Tuple[Dict[str, str], str]] = {
    "none": ({}, ""),
    "24x7": ({day: "00:00-24:00" for day in EVERY_DAY}, ""),
    "sunday_only": ({"sunday": "00:00-01:15,03:15-22:00"}, ""),
    "weekly_complex": ({**{day: "01:15-23:15" for day in EVERY_DAY[:5]}, "saturday": "00:00-22:00,23:00-24:00", "sunday": "00:00-09:45,14:15-24:00"}, ""),
    "exclude": ({"tuesday -1 - monday 1": "16:30-24:00"}, "april and weekend"),
    "april and weekend": ({"april 1 - august 16": "00:00-24:00", "saturday -1 - monday 1": "16:00-24:00"}, ""),
    "exclude2": ({"tuesday 2": "16:30-24:00"}, "tuesday"),
    "tuesday": ({"tuesday": "00:00-23:58"}, ""),
    "exclude3": ({"tuesday 2": "16:30-24:00"}, "april"),
    "exclude4": ({"tuesday -1 - monday 1": "16:30-24:00"}, "april"),
    "april": ({"april 1 - august 16": "00:00-24:00"}, ""),
    "exclude_always": ({"monday": "00:00-24:00"}, "24x7"),
}
# A period, the zone, a time, and the next time that the period includes, which may be the same.
FACTS: List[Tuple[str, str, int, Optional[int]]] = [
    ("none", PARIS, 1_700_000_000, None), ("24x7", PARIS, 1_700_000_000, 1_700_000_000),
    *(("24x7", zone, time, time) for zone in ("UTC", LONDON, NEW_YORK) for time in range(1_256_425_261, 1_256_425_261 + 1_800_000, 1_800)),
    ("exclude", PARIS, 1_278_939_600, 1_288_103_400), ("exclude2", PARIS, 1_278_939_600, 1_279_058_340), ("exclude3", PARIS, 1_278_939_600, 1_284_474_600),
    ("exclude4", PARIS, 1_278_939_600, 1_283_265_000), ("exclude_always", PARIS, 1_278_939_600, None),
    ("sunday_only", LONDON, 1_256_421_000, 1_256_425_200), ("sunday_only", LONDON, 1_256_421_661, 1_256_425_200),
    ("sunday_only", LONDON, 1_256_425_400, 1_256_425_400), ("sunday_only", LONDON, 1_256_429_700, 1_256_429_700),
    ("sunday_only", LONDON, 1_256_430_400, 1_256_440_500), ("sunday_only", LONDON, 1_256_440_500, 1_256_440_500),
    ("sunday_only", LONDON, 1_256_500_000, 1_256_500_000), ("sunday_only", LONDON, 1_256_508_000, 1_256_508_000),
    ("sunday_only", LONDON, 1_256_508_001, 1_257_033_600), ("sunday_only", LONDON, 1_256_513_000, 1_257_033_600),
    ("weekly_complex", NEW_YORK, 1_268_109_420, 1_268_115_300),
]
# The next time here, if it differs, by period and time: times end before their last minute (the first, the second and the fourth), and the hour that occurs
# twice counts twice (the third).
HERE = {("exclude2", 1_278_939_600): 1_279_058_280, ("sunday_only", 1_256_429_700): 1_256_432_400, ("sunday_only", 1_256_430_400): 1_256_432_400,
        ("sunday_only", 1_256_508_000): 1_257_033_600}
# The days from 1 December 2027 to 31 March 2028 that Nagios finds in these dates.
DAYS = {
    "2028-02-28 - 2028-03-01": "02-28..03-01",
    "2027-12-30 / 7": "12-30 01-06 01-13 01-20 01-27 02-03 02-10 02-17 02-24 03-02 03-09 03-16 03-23 03-30",
    "day -3 - -1": "12-29..12-31 01-29..01-31 02-27..02-29 03-29..03-31",
    "day 29 - 31": "12-29..12-31 01-29..01-31 02-29 03-29..03-31",
    "day 20 - day 5": "12-01..12-05 12-20..01-05 01-20..02-05 02-20..03-05 03-20..03-31",
    "day 31 - 2": "12-01..12-02 12-31..01-02 01-31 03-01..03-02 03-31",
    "day 1 - 31 / 9": "12-01 12-10 12-19 12-28 01-01 01-10 01-19 01-28 02-01 02-10 02-19 02-28 03-01 03-10 03-19 03-28",
    "february 27 - march 2": "02-27..03-02",
    "february 3 - 5": "02-03..02-05",
    "february -2 - march -30": "02-28..03-02",
    "january 1 - december 31 / 20": "12-07 12-27 01-01 01-21 02-10 03-01 03-21",
    "monday 1 - tuesday 2": "12-06..12-14 01-03..01-11 02-07..02-08 03-06..03-14",
    "tuesday -1 - monday 1": "12-01..12-06 12-28..01-03 01-25..02-07 02-29..03-06 03-28..03-31",
    "friday 5 - sunday 1": "12-01..12-05 12-31 03-01..03-05 03-31",
    "thursday 2 - 4": "12-09..12-23 01-13..01-27 02-10..02-24 03-09..03-23",
    "saturday 4 - saturday 5": "12-25..12-31 01-22..01-29 02-26..02-29 03-25..03-31",
    "sunday -2 - sunday -1": "12-19..12-26 01-23..01-30 02-20..02-27 03-19..03-26",
    "monday 1 february - tuesday 2 february": "02-07..02-08",
    "wednesday 1 january - thursday 2 march": "01-05..03-09",
    "friday -1 january - sunday 1 february": "01-28..02-06",
}
# Dates whose days are others in Nagios: it ends a range with the year, and continues one with a step after its last day.
DAYS_HERE = {
    "december 30 - january 2": "12-30..01-02",
    "friday -1 december - monday 1 january": "12-31..01-03",
    "day 1 - 10 / 4": "12-01 12-05 12-09 01-01 01-05 01-09 02-01 02-05 02-09 03-01 03-05 03-09",
    "day 27 - 3 / 3": "12-03 12-27 12-30 01-02 01-27 01-30 02-02 02-27 03-01 03-27 03-30",
    "2028-01-01 - 2028-01-09 / 4": "01-01 01-05 01-09",
    "november 31 - december 2 / 2": "",
}


def run_converter(periods: Mapping[str, Tuple[Dict[str, str], str]], work: pathlib.Path) -> "subprocess.CompletedProcess[str]":
    """Converts a site with a host for each of these periods."""
    text = "define command {\n\tcommand_name\tdummy\n\tcommand_line\t/bin/true\n\t}\n"
    for name, (days, excluded) in periods.items():
        members = {"timeperiod_name": name, **({"exclude": excluded} if excluded else {}), **days}
        host = {"host_name": name.replace("/", "by"), "check_command": "dummy", "check_period": name, "max_check_attempts": "3"}
        for kind, defined in (("timeperiod", members), ("host", host)):
            text += f"define {kind} {{\n" + "".join(f"\t{member}\t{value}\n" for member, value in defined.items()) + "\t}\n"
    (work / "nagios.cfg").write_text("")
    (work / "objects").write_text(text)
    words = [sys.executable, str(SCRIPT), "--site", str(work / "site"), str(work / "nagios.cfg"), str(work / "objects")]
    return subprocess.run(words, capture_output=True, text=True, timeout=LONG, check=False)


def convert(periods: Mapping[str, Tuple[Dict[str, str], str]]) -> Dict[str, object]:
    """The periods as the converter writes them."""
    with tempfile.TemporaryDirectory() as folder:
        run_converter(periods, pathlib.Path(folder)).check_returncode()
        found: Dict[str, object] = json.loads(pathlib.Path(folder, "site/periods.json").read_text())["periods"]
        return found


def written_days(days: List[datetime.date]) -> str:
    """Days in their order, as in the tables: `12-29..12-31 01-29`."""
    runs: List[List[datetime.date]] = []
    for day in days:
        if runs and day - runs[-1][-1] == datetime.timedelta(1):
            runs[-1].append(day)
        else:
            runs.append([day])
    return " ".join(f"{run[0]:%m-%d}" + (f"..{run[-1]:%m-%d}" if len(run) > 1 else "") for run in runs)


class NagiosPeriods(unittest.TestCase):
    def test_the_suite(self) -> None:
        """Each time of the suite is in the period or not, and the next one is the wanted one."""
        read = read_periods(convert(OF_THE_SUITE), "periods.json")
        differ = set()
        for name, zone, time, of_nagios in FACTS:
            periods, wanted = Periods(read, zoneinfo.ZoneInfo(zone)), HERE.get((name, time), of_nagios)
            if wanted != of_nagios:
                differ.add((name, time))
            self.assertEqual(periods.includes(name, time), wanted == time, (name, time))
            end = time + 200 * 86_400 if wanted is None else wanted
            before = [*range(time, end, 600), *range(max(time, end - 120), end)]
            self.assertEqual([each for each in before if periods.includes(name, each)], [], (name, time))
            self.assertTrue(wanted is None or periods.includes(name, wanted), (name, time))
        self.assertEqual((len(FACTS), differ), (3_018, HERE.keys()))

    def test_dates(self) -> None:
        wanted = {**DAYS, **DAYS_HERE}
        names = {f"p{number}": dates for number, dates in enumerate(wanted)}
        read = read_periods(convert({name: ({dates: "12:00-13:00"}, "") for name, dates in names.items()}), "periods.json")
        noons = [datetime.datetime(2027, 12, 1, 12, tzinfo=datetime.timezone.utc) + datetime.timedelta(day) for day in range(122)]
        periods = Periods(read, datetime.timezone.utc)
        for name, dates in names.items():
            self.assertEqual(written_days([noon.date() for noon in noons if periods.includes(name, noon.timestamp())]), wanted[dates], dates)

    def test_what_is_no_date(self) -> None:
        """It is refused by its place and its name, and nothing is written."""
        for dates, times, words in (
            ("monday 6", "09:00-17:00", ("monday 6", "-5")), ("day 0", "09:00-17:00", ("day 0", "31")), ("2026-02-30", "09:00-17:00", ("no day 2026-02-30",)),
            ("day 1 - monday 2", "09:00-17:00", ("same form",)), ("monday 1 - tuesday 2 may", "09:00-17:00", ("same form",)),
            ("2026-02-03 - 2026-02-01", "09:00-17:00", ("before its first",)), ("workdays", "09:00-17:00", ("'workdays'",)),
            ("may 1 june", "09:00-17:00", ("'may 1 june'",)), ("monday", "9-17", ("monday", "09:00-17:00", "'9-17'")),
        ):
            with self.subTest(dates), tempfile.TemporaryDirectory() as folder:
                ran = run_converter({"p": ({dates: times}, "")}, pathlib.Path(folder))
                self.assertEqual((ran.returncode, pathlib.Path(folder, "site").exists()), (1, False))
                for word in ("objects:7", *words):
                    self.assertIn(word, ran.stderr)
        with tempfile.TemporaryDirectory() as folder:
            self.assertIn("exclude: there is no time period q", run_converter({"p": ({}, "q")}, pathlib.Path(folder)).stderr)


if __name__ == "__main__":
    unittest.main()
