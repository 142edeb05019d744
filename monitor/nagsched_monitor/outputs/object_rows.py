"""The hosts and services of a site for other programs: what its files say of each, and its standing in the database. Only what has changed is read again."""
import json
import os
import pathlib
import sqlite3
import time
from dataclasses import dataclass, field
from functools import partial
from typing import Any, Callable, Dict, FrozenSet, List, Mapping, Optional, Sequence, Tuple

from ..model.remarks import Remark
from ..model.text import printable_text
from ..site.json_files import members_by_name, read_by_name
from ..site.people_files import DIRECTORY, GROUPS, INVENTORY, NO_GROUPS, Directory, Facts, Groups, WatchedFile, read_directory, read_groups, read_inventory
from ..site.periods import Periods
from ..site.site import PERIODS, read_options, read_period_file
from ..store.rows import REMARKS, StoredChange, StoredStanding, read_remarks
from .status_query import MEMBERS, StatusUnavailable, connect, open_database, unreadable

Document = Mapping[str, Any]  # the content of a file of a site
COMMANDS, PASSIVE, OPTIONS = "commands.json", "passive.json", "monitor.json"
MOST_CHANGED = 500  # the number of changed rows above which all are read
UNKNOWN = StoredStanding("", None, None, None, False, None, None, None, None, False, None, None, None, "")


@dataclass(eq=False)
class ObjectRow:
    name: str
    site: "ObjectRows"
    setup: Document  # its members in the setup
    unit: int  # of its intervals, in seconds
    command: str  # the program of its command
    period: str
    is_passive: bool
    groups: Groups
    facts: Facts
    contacts: FrozenSet[str]  # also those of its contact groups
    last_times: Mapping[str, float]  # when it was last in each state that isn't its current one
    standing: StoredStanding = UNKNOWN
    remarks: List[Remark] = field(default_factory=list)
    services: List["ObjectRow"] = field(default_factory=list)
    children: List[str] = field(default_factory=list)

    def __post_init__(self) -> None:
        self.host_name, _, self.description = self.name.partition(";")
        self.host = self  # of a service, that of its host

    def interval(self) -> float:
        """The check interval in units."""
        return float(self.setup.get("check_interval", 5))


def command_name(members: Document) -> str:
    """The program of a command, without its folder. Its arguments aren't shown: they may contain passwords."""
    words = str(members.get("line", "")).split(maxsplit=1)
    return printable_text(words[0].rpartition("/")[2]) if words and "=" not in words[0] else ""


class ObjectRows:
    """All hosts and services of a site by their full names, in the order of hosts and of services on them, and the monitor that started this process."""

    def __init__(self, folder: pathlib.Path, log: Callable[[str], None], has_notifications: bool = False) -> None:
        self._path, self._has_notifications = folder / "monitor.db", has_notifications
        self.process, self.started_at = os.getppid(), int(time.time())
        readers: Mapping[str, Callable[[pathlib.Path], Dict[str, Any]]] = {
            COMMANDS: partial(read_plain, COMMANDS), PASSIVE: partial(read_plain, PASSIVE), GROUPS: read_groups,
            INVENTORY: read_inventory, DIRECTORY: read_directory, OPTIONS: lambda its: {"zone": read_options(its).zone},
            PERIODS: lambda its: dict(zip(("periods", "objects"), read_period_file(its))),
        }
        self._files = [WatchedFile(folder / name, read, log) for name, read in readers.items()]
        self._database: Optional[sqlite3.Connection] = None
        # Last read: the numbers of the database's file, its version, its generations, the checksum of each standing, and the site's files.
        self._file: Tuple[int, ...] = ()
        self.version: object = None
        self._generations: List[object] = []
        self._sums: Dict[str, str] = {}
        self._documents: List[Dict[str, Any]] = []
        # The number of the last change that was read, the state of each object after it, and when it left others.
        self.last_change = 0
        self._last_state: Dict[str, str] = {}
        self._last_times: Dict[str, Dict[str, float]] = {}
        self.objects: Dict[str, ObjectRow] = {}
        self.services: Dict[str, List[str]] = {}  # the descriptions of the services on each host
        self.groups: Mapping[str, Groups] = {}
        self.directory: Directory = {}
        self.setups: List[Document] = []
        self.other_remarks: List[Remark] = []  # those about the whole site, or about objects that aren't part of it now
        self.now = 0.0
        self.periods: Mapping[str, bool] = {}  # whether each includes this time

    def read(self) -> bool:
        """Reads what has changed. Returns whether anything has, or the second is another one. Raises `StatusUnavailable` if the database can't be read."""
        before, self.now = int(self.now), time.time()
        documents = [file.read() for file in self._files]
        try:
            database = self._connect()
            version = database.execute("PRAGMA data_version").fetchone()
            is_same = version == self.version and self._is_same(documents)
            if not is_same:
                with database:  # as it is at one moment
                    database.execute("BEGIN")
                    self._read_tables(database, documents)
            self.version, self._documents = version, documents
        except (sqlite3.Error, OSError, ValueError) as error:
            self.close()
            raise StatusUnavailable(unreadable(self._path, error)) from None
        self.periods = Periods(documents[6].get("periods", {}), documents[5].get("zone")).active_by_name(self.now)
        return not is_same or int(self.now) != before

    def changes(self, first: float, last: float, most: int) -> List[StoredChange]:
        """The changes between two times, the latest first."""
        query = f"SELECT {', '.join(StoredChange._fields)} FROM changes WHERE time >= ? AND time <= ? ORDER BY time DESC, id DESC LIMIT ?"
        with open_database(self._path.parent) as database:
            return list(map(StoredChange._make, database.execute(query, (first, last, most))))

    def close(self) -> None:
        if self._database is not None:
            self._database.close()
        self._database, self.version = None, None

    def notifies(self) -> int:
        """Whether people are notified of changes, and the site has no mute."""
        return int(self._has_notifications and not any(not each.name and each.holds(self.now) for each in self.other_remarks))

    def is_active(self, period: str) -> int:
        return int(self.periods.get(period, True))

    def _connect(self) -> sqlite3.Connection:
        """The database, which is opened again if its file is another one."""
        stat = os.stat(self._path)
        if self._database is None or self._file != (stat.st_dev, stat.st_ino):
            self.close()
            self._database = connect(self._path)
            self._file, self.last_change, self._generations = (stat.st_dev, stat.st_ino), 0, []
            self._last_state.clear()
            self._last_times.clear()
        return self._database

    def _is_same(self, documents: Sequence[object]) -> bool:
        return len(self._documents) == len(documents) and all(new is old for new, old in zip(documents, self._documents))

    def _read_tables(self, database: sqlite3.Connection, documents: List[Dict[str, Any]]) -> None:
        generations = database.execute("SELECT id FROM generations ORDER BY id").fetchall()
        sums = dict(database.execute("SELECT name, checksum FROM standings"))
        is_other_site = generations != self._generations or not self._is_same(documents) or sums.keys() != self._sums.keys()
        changed = [name for name, its in sums.items() if its != self._sums.get(name)]
        # Few have changed since a second ago, and most of the time is taken by reading rows.
        which = "" if is_other_site or len(changed) > MOST_CHANGED else f"WHERE name IN ({','.join('?' * len(changed))})"
        standings = list(map(StoredStanding._make, database.execute(f"SELECT {MEMBERS} FROM standings {which}", changed if which else ())))
        if is_other_site:
            self.setups = [json.loads(setup) for (setup,) in database.execute("SELECT setup FROM generations ORDER BY id")]
            self._make_rows(sorted(sums, key=lambda name: name.partition(";")), *documents)
        for standing in standings:
            self.objects[standing.name].standing = standing
        self._generations, self._sums, self.other_remarks = generations, sums, []
        for it in self.objects.values():
            it.remarks = []
        for remark in read_remarks(database.execute(REMARKS)):
            (self.objects[remark.name].remarks if remark.name in self.objects else self.other_remarks).append(remark)
        for number, moment, name, state in database.execute("SELECT id, time, name, state FROM changes WHERE id > ? ORDER BY id", (self.last_change,)):
            before = self._last_state.get(name, "OK" if ";" in name else "UP")
            if before != state:
                self._last_times.setdefault(name, {})[before] = moment
            self._last_state[name], self.last_change = state, number

    def _make_rows(self, names: Sequence[str], commands: Document, passive: Document, groups: Mapping[str, Groups], inventory: Mapping[str, Facts],
                   directory: Directory, _: Document, periods: Document) -> None:
        self.objects, self.groups, self.directory = {}, groups, directory
        setup_of = {name: (it, setup.get("options", {}).get("interval_length", 60)) for setup in self.setups for name, it in members_by_name(setup).items()}
        members = {name: its.get("members", []) for name, its in directory.get("contact_groups", {}).items()}
        for name in names:
            kinds = groups.get(name, NO_GROUPS).names
            contacts = {*kinds.get("contacts", ()), *(each for group in kinds.get("contact_groups", ()) for each in members.get(group, ()))}
            self.objects[name] = ObjectRow(
                name, self, *setup_of.get(name, ({}, 60)), command_name(commands.get(name, {})), str(periods.get("objects", {}).get(name, "")),
                bool(passive.get(name, {}).get("only")), groups.get(name, NO_GROUPS), inventory.get(name, {}), frozenset(contacts),
                self._last_times.setdefault(name, {}))
        for it in self.objects.values():
            it.host = self.objects.get(it.host_name, it)
            if it.description:
                it.host.services.append(it)
            for parent in it.setup.get("parents", ()):
                if parent in self.objects:
                    self.objects[parent].children.append(it.name)
        self.services = {name: [each.description for each in it.services] for name, it in self.objects.items() if not it.description}


def read_plain(file: str, folder: pathlib.Path) -> Dict[str, Any]:
    return {name: members for name, _, members in read_by_name(folder, file, None, None)}
