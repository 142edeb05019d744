"""A site as other processes show it, read from its database, which is opened for reading only; and its states as lines, for the command `status`."""
import datetime
import fnmatch
import math
import pathlib
import sqlite3
import time
from contextlib import closing, contextmanager
from functools import partial
from typing import Iterator, List, Mapping, NamedTuple, Optional, Sequence, Tuple

from ..faults import owner_advice
from ..model.protocol import NO_PROBLEM
from ..model.remarks import Kind, Remark, holding_remarks, remarks_for
from ..model.text import first_line, split_output
from ..store.rows import REMARKS, StoredChange, StoredStanding, read_remarks

DAY = 86_400
PATIENCE = 2.0  # the limit of the wait for a locked database, in seconds
# The length at which texts in lists are cut, and the greatest number of changes of an object that are drawn.
LONGEST_WORDS = 500
MOST_CHANGES = 2_000
SILENCE = 20  # the time after which a monitor that wrote nothing counts as silent, in seconds
# The width at which names are no longer aligned.
WIDEST_NAME = 48

MEMBERS = ", ".join(StoredStanding._fields).replace("state,", "coalesce(state, 'PENDING'),", 1)
CUT = MEMBERS.replace("words", f"CASE WHEN length(words) > {LONGEST_WORDS} THEN substr(words, 1, {LONGEST_WORDS}) || '…' ELSE words END")
MARKS: Mapping[Kind, str] = {"acknowledgement": "ack", "downtime": "downtime", "mute": "muted"}
# The severities of problems, the worst first.
SEVERITIES = {state: rank for rank, state in enumerate(("DOWN", "CRITICAL", "UNREACHABLE", "UNKNOWN", "WARNING"))}
PROBLEMS = f"WHERE flapping OR state NOT IN {NO_PROBLEM}"
# The objects that downtimes and mutes may hold: those with some, services of a host with some, and all if the site has a mute.
HELD = "SELECT name FROM remarks WHERE kind IN ('downtime', 'mute')"
PROBLEMS_AND_HELD = f"{PROBLEMS} OR name IN ({HELD}) OR substr(name, 1, instr(name || ';', ';') - 1) IN ({HELD}) OR '' IN ({HELD})"


class StatusUnavailable(Exception):
    """The database is missing, is locked, or isn't a monitor's."""


class SiteStatus(NamedTuple):
    now: float
    objects: Sequence[StoredStanding]
    figures: Mapping[str, float]
    remarks: Sequence[Remark] = ()

    def problems(self) -> List[StoredStanding]:
        """The problems: hard ones before soft ones, each by its severity, the newest first."""
        wrong = [it for it in self.objects if it.is_problem()]
        return sorted(wrong, key=lambda it: (not it.is_hard_problem(), SEVERITIES.get(str(it.state), 0), -(it.since or 0.0), it.name))

    def running_count(self) -> int:
        return sum(it.out_since is not None for it in self.objects)

    def due_count(self) -> int:
        """The number of objects whose time has come and that aren't checked yet."""
        waiting = (it.next_check for it in self.objects if it.is_on and it.out_since is None)
        return sum(time is not None and time <= self.now for time in waiting)

    def overdue(self) -> Tuple[int, int]:
        """The number of objects without a result in time, and of those that are promised one."""
        return int(self.figures.get("overdue", 0)), int(self.figures.get("promised", 0))

    def holding(self) -> Mapping[str, Sequence[Remark]]:
        """The remarks that hold an object now, by its name, if there are some."""
        holding = holding_remarks(self.remarks, self.now)
        found = {it.name: remarks_for(it.name, holding) for it in self.objects} if holding else {}
        return {name: remarks for name, remarks in found.items() if remarks}

    def silent_seconds(self) -> Optional[float]:
        """The seconds for which the monitor has written nothing, if it counts as silent; None while it is at work."""
        # By the time since the machine was started, which nobody sets. The wall clock counts if the machine was started again since then.
        silent = time.clock_gettime(time.CLOCK_BOOTTIME) - self.figures.get("uptime", math.inf)
        silent = silent if silent >= 0 else self.now - self.figures.get("written_at", 0.0)
        return silent if silent > SILENCE else None


class ObjectStatus(NamedTuple):
    """An object with the changes of its last day and the last change before it, the earliest first; the services of a host, or the host of a service."""

    now: float
    standing: StoredStanding
    changes: Sequence[StoredChange]
    is_cut: bool  # whether there were more changes than the picture shows
    others: Sequence[StoredStanding] = ()
    remarks: Sequence[Remark] = ()


def unreadable(path: pathlib.Path, error: Exception) -> str:
    """Why a database can't be read, and what to do."""
    try:
        path.stat()
    except FileNotFoundError:
        return f"{path} doesn't exist: name the folder of a site whose monitor has run"
    except OSError:
        pass  # a folder above it is closed
    return f"{path} can't be read: {error}{owner_advice(path)}"


def connect(path: pathlib.Path) -> sqlite3.Connection:
    """A database, which can't be written. A text in it that was damaged is read as far as possible."""
    database = sqlite3.connect(f"{path.resolve().as_uri()}?mode=ro", uri=True, timeout=PATIENCE, isolation_level=None, check_same_thread=False)
    database.text_factory = partial(str, encoding="utf-8", errors="replace")
    return database


@contextmanager
def open_database(folder: pathlib.Path) -> Iterator[sqlite3.Connection]:
    """The database of a site as it is at one moment."""
    path = folder / "monitor.db"
    try:
        with closing(connect(path)) as database:
            database.execute("BEGIN")
            yield database
    except sqlite3.Error as error:
        raise StatusUnavailable(unreadable(path, error)) from None


def read_standings(database: sqlite3.Connection, members: str, condition: str = "", *cells: str) -> List[StoredStanding]:
    """Objects with their states, in the order of hosts and of services on them."""
    found = [StoredStanding(*row) for row in database.execute(f"SELECT {members} FROM standings {condition}", cells)]
    return sorted(found, key=lambda it: it.name.partition(";"))


def read_site_status(folder: pathlib.Path, condition: str = "", *cells: str, members: str = CUT) -> SiteStatus:
    """The objects of a site that meet a condition, at one moment; their words are cut, if not all members are wanted."""
    with open_database(folder) as database:
        figures = dict(database.execute("SELECT name, value FROM figures"))
        return SiteStatus(time.time(), read_standings(database, members, condition, *cells), figures, read_remarks(database.execute(REMARKS)))


def read_object(folder: pathlib.Path, name: str) -> Optional[ObjectStatus]:
    """An object of a site; None if no object has this name."""
    now = time.time()

    def read_changes(condition: str, most: int) -> List[StoredChange]:
        query = f"SELECT {', '.join(StoredChange._fields)} FROM changes WHERE name = ? AND time {condition} ? ORDER BY id DESC LIMIT {most}"
        return [StoredChange(*row) for row in database.execute(query, (name, now - DAY))]

    with open_database(folder) as database:
        found = read_standings(database, MEMBERS, "WHERE name = ?", name)
        lately, before = read_changes(">=", MOST_CHANGES + 1), read_changes("<", 1)
        host, _, service = name.partition(";")
        condition, *cells = ("WHERE name = ?", host) if service else ("WHERE name > ? AND name < ?", f"{host};", f"{host}<")
        others = read_standings(database, CUT, condition, *cells)
        remarks = [each for each in read_remarks(database.execute(REMARKS)) if each.name in (name, host, "")]
    return ObjectStatus(now, found[0], [*before, *lately[:MOST_CHANGES][::-1]], len(lately) > MOST_CHANGES, others, remarks) if found else None


def clock_time(seconds: float) -> str:
    return datetime.datetime.fromtimestamp(round(seconds)).astimezone().isoformat(sep=" ", timespec="seconds")


def cells_of(it: StoredStanding, is_long: bool, holding: Sequence[Remark] = ()) -> Tuple[str, ...]:
    """The cells of an object's line, the last of which is the plugin's text. `holding` has the remarks that hold it."""
    verdict = "" if it.kind is None or it.state in (None, "PENDING") else f"{it.kind} {it.attempt}"
    flags = [word for word, is_so in (("FLAPPING", it.flapping), ("running", it.out_since is not None), ("off", not it.is_on)) if is_so]
    marks = " ".join([*flags, *sorted({MARKS[each.kind] for each in holding})])
    next_check = () if not is_long else (f"next {'none' if it.next_check is None else clock_time(it.next_check)}",)
    return (it.state or "PENDING", verdict, marks, f"{it.name}:", *next_check, split_output(it.words)[0])


def status_lines(status: SiteStatus, is_long: bool) -> List[str]:
    """A line for each object, in columns: the problems first, then the others by name."""
    problems, holding = status.problems(), status.holding()
    rows = [cells_of(it, is_long, holding.get(it.name, ())) for it in [*problems, *(it for it in status.objects if not it.is_problem())]]
    widths = [max(len(row[place]) for row in rows) for place in range(len(rows[0]) - 1)] if rows else []
    columns = [(place, min(width, WIDEST_NAME)) for place, width in enumerate(widths) if width]
    return [" ".join([*(row[place].ljust(width) for place, width in columns), row[-1]]).rstrip() for row in rows]


def remark_lines(remarks: Sequence[Remark], pattern: str) -> List[str]:
    """A line for each remark about an object with this name, or whose name fits the pattern, by its object and number."""
    found = [each for each in remarks if pattern == each.name or fnmatch.fnmatchcase(each.name, pattern)]
    return [remark_line(each) for each in sorted(found, key=lambda its: (its.name.partition(";"), its.id))]


def remark_line(its: Remark) -> str:
    """A remark with the time for which it holds, its author and its text."""
    begin, end = its.starts_at if its.began_at is None else its.began_at, its.end()
    how = [word for word, is_so in (("sticky", its.sticky), ("persistent", its.persistent), ("flexible", its.duration is not None)) if is_so]
    times = clock_time(begin) + ("" if end is None else f" to {clock_time(end)}")
    return " ".join([str(its.id), its.kind, *how, f"{its.name or 'the site'}:", times, f"{its.author}:", first_line(its.text)])


def status_complaints(status: SiteStatus) -> List[str]:
    """Why the states may be old."""
    (overdue, promised), silent = status.overdue(), status.silent_seconds()
    late = [f"{overdue} of {promised} objects have no result in time: their states are old"] if overdue else []
    return late if silent is None else [*late, f"the monitor has written nothing for {silent:.0f} seconds: this is how objects were then"]
