"""The database of a site: one SQLite file, which holds everything that the monitor stores.

    generations   for each part: the setup over which its scheduler was opened, the start, and the saved state that it resumed, if there was one
    mirrors       for each part that has mirrors: their names, as JSON
    calls         the calls that were made since, with the plugin's output if one reported; each is stored before it is made
    changes       changes of state, by the number of the call that made them
    standings     the standing of each object, a second old at most
    damaged       rows of other tables that were changed since they were written

`LOSSES` says what the others are for. Each row has a checksum over its table and its members, which shows whether the row was changed since."""
import contextlib
import json
import os
import pathlib
import sqlite3
import tempfile
from typing import Any, Callable, Dict, Iterable, List, Mapping, Optional, Sequence, Set, Tuple

from ..faults import MonitorFault, NotStored, raising
from ..model.objects import StateHistory
from ..model.protocol import GREATEST
from ..model.remarks import Remark
from .database_file import LARGEST_LOG, DatabaseFile, open_database
from .rows import INSERTS, LOSSES, ONLY_STORED, REMARKS, TABLES, Cell, Generation, StoredCall, StoredChange, StoredResult, StoredStanding
from .rows import checksum_of, plain_cells, read_remarks

Write = Callable[["Store"], object]  # it is carried out together with others, or not at all
MOST_REQUESTS = 1_000  # the number of stored answers to numbered requests
# The advice after damage to what schedulers continue from.
CONTINUE = "continue from the last saved state with: nagsched-monitor {} drop-calls"


class Store:
    """The database of one monitor. A second monitor on the same file is refused. With `is_calls_dropped` it continues from the last saved states."""

    def __init__(self, folder: pathlib.Path, log: Callable[[str], None] = lambda line: None, is_calls_dropped: bool = False) -> None:
        self.path, self._log = folder / "monitor.db", log
        self.last_call = 0
        self._told_size = LARGEST_LOG  # the size of SQLite's log above which it is told of
        self.spooled: Optional[int] = None  # the last call whose result is in the spool of performance data; None without a spool
        self._open(is_calls_dropped)

    def _open(self, is_calls_dropped: bool = False) -> None:
        """Opens the file, and tests its rows."""
        with contextlib.ExitStack() as opened:
            self.file = DatabaseFile(self.path)
            opened.callback(self.file.close)
            with raising(MonitorFault, self.path, sqlite3.Error):
                self._database = open_database(self.path)
                opened.callback(self._database.close)
                self.file.watch(self._database)
                if is_calls_dropped:
                    self._drop_calls()
                self._verify()
                self.last_call = max(self.greatest("calls"), self.greatest("generations", "last_call"), self.greatest("changes"))
                self.last_result = self.greatest("passive")
                # The number of each object's row. A new object gets the next one, so that rows that are written together can be next to each other.
                self.row_numbers: Dict[str, int] = dict(self._read("SELECT name, id FROM standings"))
                self._last_row = self.greatest("standings")
            self._opened = opened.pop_all()

    def _drop_calls(self) -> None:
        """Drops the calls since the last saved states, and damaged states: these parts begin from scratch."""
        (count,) = self._database.execute("SELECT count(*) FROM calls").fetchone()
        for table in ("generations", "mirrors"):
            for number, *cells, checksum in self._database.execute(f"SELECT * FROM {table}").fetchall():
                if checksum != checksum_of(table, int(str(number)), cells):
                    self._log(f"row {number!r} of {table} was changed since it was written: its part begins from scratch")
                    self.write(delete("generations", "part = ?", cells[0]), delete("mirrors", "part = ?", cells[0]), delete(table, "id = ?", number))
        self.write(delete("calls", "TRUE"), delete("aside", "TRUE"))
        self._log(f"{count} calls since the last saved states are dropped")

    def renew(self, *writes: Write) -> None:
        """Puts a new database in the place of the file: these writes, and the rows that only the file has. The file that is there becomes monitor.db.old.

        If the new one can't be written, `NotStored` is raised, and nothing has changed."""
        with raising(NotStored, self.path, MonitorFault):
            with tempfile.TemporaryDirectory(prefix="monitor.db.", dir=self.path.parent) as folder:
                fresh = Store(pathlib.Path(folder))
                with contextlib.closing(fresh):
                    self._copy_rows(fresh.path)
                    fresh.write(*writes)
                for end in ("", "-wal", "-shm"):  # SQLite's other two files belong to it
                    with contextlib.suppress(FileNotFoundError):
                        os.replace(f"{self.path}{end}", f"{self.path}.old{end}")
                self.close()
                os.replace(fresh.path, self.path)
        self._open()

    def _copy_rows(self, path: pathlib.Path) -> None:
        self._database.execute("ATTACH ? AS fresh", (str(path),))
        for table in ONLY_STORED:
            try:
                self._database.execute(f"INSERT INTO fresh.{table} SELECT * FROM main.{table}")
            except sqlite3.Error as error:
                self._log(f"the table {table} can't be taken over: {error}")
        self._database.execute("DETACH fresh")

    def close(self) -> None:
        self._opened.close()

    def _verify(self) -> None:
        """Tests each row's checksum, except those of the history, and that no call is missing between two."""
        for table in (each for each in TABLES if each not in ("changes", "damaged")):
            self._sound_rows(table, self._database.execute(f"SELECT * FROM {table} ORDER BY id").fetchall())
        first, last, count = self._database.execute("SELECT min(id), max(id), count(*) FROM calls").fetchone()
        if count and last - first + 1 != count:
            missing = f"{last - first + 1 - count} rows of calls are missing"
            raise MonitorFault(f"{self.path}: {missing}: restore the file, or {CONTINUE.format(self.path.parent)}")

    def _sound_rows(self, table: str, rows: Sequence[Sequence[Cell]]) -> List[Sequence[Cell]]:
        """Those of these rows that are as they were written, without their checksums. Other rows are a fault, or are set aside if only people read them."""
        sound = []
        for row in rows:
            number, *cells, checksum = row
            if checksum == checksum_of(table, int(str(number)), cells):
                sound.append(row[:-1])
                continue
            changed = f"row {number!r} of {table} was changed since it was written"
            if table not in LOSSES:
                raise MonitorFault(f"{self.path}: {changed}: restore the file, or {CONTINUE.format(self.path.parent)}")
            self._log(f"{changed}: it is in the table damaged now, and {LOSSES[table]}")
            with contextlib.suppress(NotStored):
                self.write(insert("damaged", None, table, ascii(row)), delete(table, "id = ?", number))
        return sound

    def _read(self, query: str, *cells: Cell) -> List[Any]:
        """The rows of a query. A failed read raises `NotStored`, as a failed write does."""
        with raising(NotStored, self.path, sqlite3.Error):
            return self._database.execute(query, cells).fetchall()

    def greatest(self, table: str, member: str = "id") -> int:
        (greatest,) = self._database.execute(f"SELECT max({member}) FROM {table}").fetchone()
        return int(greatest or 0)

    def generations(self) -> Dict[int, Generation]:
        rows = self._read("SELECT part, setup, start, saved, last_call, names FROM generations LEFT JOIN mirrors USING (part) ORDER BY generations.id")
        return {row[0]: Generation(*(*row[:-1], frozenset(json.loads(row[-1] or "[]")))) for row in rows}

    def calls_since(self, part: int, number: int, last: int = GREATEST) -> List[StoredCall]:
        """The calls of a part after the call with this number, up to the last one, except those that were set aside."""
        query = "SELECT id, part, line, words FROM calls WHERE part = ? AND id > ? AND id <= ? AND id NOT IN (SELECT id FROM aside) ORDER BY id"
        return [StoredCall(*row) for row in self._read(query, part, number, last)]

    def last_moment(self) -> int:
        """The greatest stored moment. After a save there may be no calls, so the figures have a moment too. It is a call's last member."""
        lines = self._read("""SELECT line FROM calls WHERE line LIKE '["take",%' OR line LIKE '["abandon",%' ORDER BY id DESC LIMIT 1""")
        starts = [generation.start for generation in self.generations().values()]
        return max([0, int(self.figures().get("moment", 0)), *starts, *(int(json.loads(line)[-1]) for (line,) in lines)])

    def switches(self) -> Dict[str, bool]:
        return {name: bool(on) for name, on in self._read("SELECT name, is_on FROM switches")}

    def waiting_results(self) -> List[StoredResult]:
        return [StoredResult(*row) for row in self._read("SELECT id, name, code, words FROM passive ORDER BY id")]

    def requests(self) -> Dict[str, str]:
        return dict(self._read("SELECT number, answer FROM requests ORDER BY id"))

    def remarks(self) -> List[Remark]:
        return read_remarks(self._read(REMARKS))

    def outbox(self) -> List[Tuple[int, str, Optional[int]]]:
        """The documents that the command for changes hasn't taken, the oldest first, with their moments."""
        return self._read("SELECT id, document, moment FROM outbox ORDER BY id")

    def setting(self, name: str) -> Optional[str]:
        found = self._read("SELECT value FROM settings WHERE name = ?", name)
        return str(found[0][0]) if found else None

    def waiting_changes(self) -> Tuple[int, Optional[int]]:
        """The number of documents that the command for changes hasn't taken, and the moment of the first."""
        ((count, first),) = self._read("SELECT count(*), min(moment) FROM outbox")
        return count, first

    def changes_after(self, number: int) -> Set[int]:
        return {each for (each,) in self._read("SELECT id FROM changes WHERE id > ?", number)}

    def figures(self) -> Dict[str, float]:
        return {name: float(value) for name, value in self._read("SELECT name, value FROM figures")}

    def standings(self) -> List[StoredStanding]:
        return [StoredStanding(*cells) for cells in self._read(f"SELECT {', '.join(StoredStanding._fields)} FROM standings")]

    def open_spool(self) -> None:
        """Calls stay from now on until their results are in the spool of performance data."""
        ((first,),), known = self._read("SELECT coalesce(min(id), ?) FROM calls", self.last_call + 1), int(self.figures().get("spooled", -1))
        self.spooled = first - 1 if known < 0 else known

    def last_changes(self, name: str) -> Optional[StateHistory]:
        """When an object's last state began, and its last hard one, from the stored changes; None if it has none."""
        past = StateHistory()
        for _, time, _, state, kind, *_ in self._sound_rows("changes", self._read("SELECT * FROM changes WHERE name = ? ORDER BY id", name)):
            past.note(str(state), str(kind), float(str(time)))
        return past if past.state else None

    def write(self, *writes: Write) -> None:
        """Writes all of these or nothing, and syncs the file. Raises `NotStored` if the disk is full or the file can't be written."""
        last_call = self.last_call
        self.file.test()
        try:
            self._database.execute("BEGIN IMMEDIATE")
            for write in writes:
                write(self)
            self._database.execute("COMMIT")
        except BaseException as error:
            self.last_call = last_call
            with contextlib.suppress(sqlite3.Error):  # there may be no transaction any more
                self._database.execute("ROLLBACK")
            if isinstance(error, sqlite3.Error):
                raise NotStored(f"{self.path}: {error}") from None
            raise
        finally:
            self.file.note_state()
        self._log_long_reader()

    def _log_long_reader(self) -> None:
        """Logs that SQLite's log grows, since it can't begin again while another program reads the database."""
        size = self.file.log_size()
        if size > self._told_size:
            self._log(f"{self.path}-wal has {size // 1_000_000} MB and grows: end the program that reads the database all the time; fuser {self.path} shows it")
            self._told_size = 2 * size
        elif size <= LARGEST_LOG:
            self._told_size = LARGEST_LOG

    def row_number(self, name: str) -> int:
        """The number of an object's row in the table of standings, which stays the same."""
        if name not in self.row_numbers:
            self._last_row += 1
            self.row_numbers[name] = self._last_row
        return self.row_numbers[name]

    def insert_all(self, table: str, rows: Sequence[Tuple[int, Sequence[Cell]]]) -> None:
        """Writes rows with their checksums."""
        self._database.executemany(INSERTS[table], [(number, *cells, checksum_of(table, number, cells)) for number, cells in rows])


def insert(table: str, number: Optional[int], *cells: Cell) -> Write:
    """A row, which replaces the one with the same number or the same unique name. Without a number it gets the next one."""
    return lambda store: store.insert_all(table, [(store.greatest(table) + 1 if number is None else number, plain_cells(cells))])


def delete(table: str, condition: str, *cells: Cell) -> Write:
    return lambda store: store._database.execute(f"DELETE FROM {table} WHERE {condition}", cells)


def all_of(*writes: Write) -> Write:
    return lambda store: [write(store) for write in writes]


def store_calls(calls: Sequence[Tuple[int, str, Optional[str]]]) -> Write:
    """Calls before they are made: the part, the line and the plugin's output of each."""
    def write(store: Store) -> None:
        store.insert_all("calls", list(enumerate(calls, store.last_call + 1)))
        store.last_call += len(calls)

    return write


def store_request(number: str, answer: str) -> Write:
    """The answer to a request with a number, which isn't obeyed twice."""
    return all_of(insert("requests", None, number, answer), delete("requests", f"id <= (SELECT max(id) FROM requests) - {MOST_REQUESTS}"))


def store_document(document: str, moment: int) -> Write:
    return insert("outbox", None, document, moment)


def store_change(stored: StoredChange, document: Optional[str] = None, moment: int = 0) -> Write:
    """A change of state, and the document for the command for changes, if the command is run for it."""
    change = insert("changes", *stored)
    return change if document is None else all_of(change, store_document(document, moment))


def drop_changes_before(time: float) -> Write:
    """Drops the changes before a time of the wall clock. The last one stays, since its number is used."""
    return delete("changes", "time < ? AND id < (SELECT max(id) FROM changes)", time)


def store_standings(standings: Sequence[StoredStanding]) -> Write:
    return lambda store: store.insert_all("standings", [(store.row_number(it.name), plain_cells(it)) for it in standings])


def store_figures(values: Mapping[str, float]) -> Write:
    return all_of(*(insert("figures", None, name, float(value)) for name, value in values.items()))
