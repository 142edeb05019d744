"""The file of a site's database: its lock, whether it is still what the monitor wrote, and its opening with all tables."""
import contextlib
import fcntl
import os
import pathlib
import sqlite3
import struct
from typing import Tuple

from ..faults import MonitorFault, NotStored, raising
from ..system.poller import keep_trying
from .rows import GROWN, INDEXES, INSERTS, TABLES, VERSION, checksum_of

# How long a start waits for the plugins of a monitor that was killed, which are killed too, in seconds.
PATIENCE = 10.0
LARGEST_LOG = 67_108_864  # the size to which SQLite's log is cut after a long reader, in bytes
# What can happen to a file while a monitor has it, and what to do.
REPLACED = "was replaced while the monitor runs: put the old file back, restart the monitor to continue with the new one,"
GONE = "was moved or deleted while the monitor runs: put it back,"
OVERWRITTEN = "was overwritten while the monitor runs: stop it before you restore a copy,"
# In SQLite's index of its log: how much checkpoints have written from it into the file, and how much they begin to write; and the place of these two numbers.
CHECKPOINTS, AT = struct.Struct("=I28xI"), 96
RENEW = "or write what the monitor has in memory to a new one: nagsched-monitor {} new-database"


class DatabaseFile:
    """The file, locked. It and SQLite's index stay open until the database is closed: SQLite's locks end when any descriptor of a file is closed."""

    def __init__(self, path: pathlib.Path) -> None:
        """Makes the file if it isn't there, for its owner only, and locks it. The runners have the lock too, until their plugins are gone."""
        self.path = path
        with raising(MonitorFault, path):
            self.number = os.open(path, os.O_RDWR | os.O_CREAT | os.O_CLOEXEC, 0o600)
        self._files = [self.number]
        try:
            keep_trying(lambda: fcntl.flock(self.number, fcntl.LOCK_EX | fcntl.LOCK_NB), PATIENCE)
        except BlockingIOError:
            self.close()
            raise MonitorFault(f"another monitor runs on {path.parent}: stop it, or name another folder") from None

    def close(self) -> None:
        for file in self._files:
            os.close(file)

    def watch(self, database: sqlite3.Connection) -> None:
        self._database, self._index = database, os.open(f"{self.path}-shm", os.O_RDONLY | os.O_CLOEXEC)
        self._files.append(self._index)
        self.note_state()

    def note_state(self) -> None:
        """Notes the file as this monitor left it."""
        self._state, self._work = self._current_state(), self._sqlite_work()

    def _current_state(self) -> Tuple[int, int, int, int]:
        """The size of the file and when it was written, and the number and size of SQLite's log."""
        its, log = os.fstat(self.number), (0, 0)
        with contextlib.suppress(FileNotFoundError):
            found = os.stat(f"{self.path}-wal")
            log = found.st_ino, found.st_size
        return its.st_size, its.st_mtime_ns, *log

    def log_size(self) -> int:
        """The size of SQLite's log as this monitor left it, in bytes."""
        return self._state[-1]

    def _sqlite_work(self) -> object:
        """Differs when another program has written through SQLite, or has had it write its log into the file, and while that is being done."""
        with contextlib.suppress(sqlite3.Error, OSError, struct.error):
            written, begun = CHECKPOINTS.unpack(os.pread(self._index, CHECKPOINTS.size, AT))
            if written == begun:
                return *self._database.execute("PRAGMA data_version").fetchone(), written
        return object()

    def _is_overwritten(self) -> bool:
        """Whether something other than SQLite has written the file, or cut its log. What another program takes back in SQLite makes the log longer."""
        *now, size = self._current_state()
        *before, size_before = self._state
        return (now != before or size < size_before) and self._work == self._sqlite_work()

    def test(self) -> None:
        """Raises `NotStored` if the file isn't the one that this monitor wrote any more. Other programs may write through SQLite."""
        why = ""
        try:
            here, there = os.fstat(self.number), os.stat(self.path)
            if (here.st_dev, here.st_ino) != (there.st_dev, there.st_ino):
                why = REPLACED
            elif self._is_overwritten():
                why = OVERWRITTEN
        except OSError:
            why = GONE
        if why:
            raise NotStored(f"{self.path} {why} {RENEW.format(self.path.parent)}")


def open_database(path: pathlib.Path) -> sqlite3.Connection:
    """Opens a database, which then has all tables. Raises `MonitorFault` if it is of a later version, and `sqlite3.Error`."""
    database = sqlite3.connect(path, isolation_level=None, timeout=5)
    try:
        for setting in ("journal_mode=WAL", "synchronous=FULL", "wal_autocheckpoint=1000", f"journal_size_limit={LARGEST_LOG}"):
            database.execute(f"PRAGMA {setting}")
        database.execute("BEGIN IMMEDIATE")
        migrate(database, path)
        for table, members in TABLES.items():
            database.execute(f"CREATE TABLE IF NOT EXISTS {table} (id INTEGER PRIMARY KEY, {members}, checksum TEXT)")
        for index in INDEXES:
            database.execute(f"CREATE INDEX IF NOT EXISTS {index}")
        database.execute("COMMIT")
    except BaseException:
        database.close()
        raise
    return database


def migrate(database: sqlite3.Connection, path: pathlib.Path) -> None:
    """Takes over a database of a version before: some rows had fewer members."""
    (version,) = database.execute("PRAGMA user_version").fetchone()
    if version > VERSION:
        raise MonitorFault(f"{path}: it has version {version}, and this monitor reads versions up to {VERSION}")
    if version == VERSION:
        return  # nothing is written: the disk may be full
    for table in sorted({table for since, table in GROWN if version < since}):
        new = [None] * sum(version < since and table == each for since, each in GROWN)
        rows = []
        if database.execute("SELECT 1 FROM sqlite_master WHERE name = ?", (table,)).fetchone():
            rows = [row for row in database.execute(f"SELECT * FROM {table}") if row[-1] == checksum_of(table, row[0], row[1:-1])]
            database.execute(f"DROP TABLE {table}")
        database.execute(f"CREATE TABLE {table} (id INTEGER PRIMARY KEY, {TABLES[table]}, checksum TEXT)")
        for number, *cells, _ in rows:
            database.execute(INSERTS[table], (number, *cells, *new, checksum_of(table, number, [*cells, *new])))
    database.execute(f"PRAGMA user_version = {VERSION}")
