"""Performance data of a site's results as files in the form of PNP4Nagios's spool: a process next to the monitor.

Its arguments are the folders of the site and of the spool. Each stored result is written once: a file is whole under another name before the monitor stores
which call it goes up to, and gets its real name after that. Until then the monitor keeps the calls, up to a limit."""
import contextlib
import json
import os
import pathlib
import sqlite3
import time
from typing import Callable, Dict, Iterator, List, Mapping, Optional, Sequence, Tuple

from ..faults import MonitorFault, require
from ..inputs.client import send_request
from ..model.text import performance_data, plain_text
from ..site.json_files import read_object
from ..site.people_files import WatchedFile
from ..system.log import Trouble
from ..system.poller import MODE
from ..system.processes import ParentMonitor
from .object_columns import SERVICE_STATES
from .object_rows import command_name
from .status_query import StatusUnavailable, open_database

EVERY, PATIENCE = 10.0, 10.0  # the time between two looks at the database, and the limit for the monitor's answer, in seconds
AT_ONCE = 5_000  # the greatest number of calls in one file
MOST_BYTES = 268_435_456  # the size of a spool that nothing reads
COMMANDS, TAKE = "commands.json", '["take"'
CODES = {"HOST": ("UP", "UP", "DOWN", "DOWN"), "SERVICE": tuple(SERVICE_STATES)}  # the states of plugins' codes

Row = Tuple[int, str, Optional[str]]  # a call: its number, its line, and the output that it reports


class Spool:
    def __init__(self, site: pathlib.Path, folder: pathlib.Path, log: Callable[[str], None]) -> None:
        self._site, self._folder, self._log, self._name = site, folder, log, plain_text(site.resolve().name)
        self._commands: WatchedFile[str] = WatchedFile(
            site / COMMANDS, lambda there: {name: command_name(its) for name, its in read_object(there, COMMANDS).items()})
        self._moment = 0  # when the last check began before the calls that come next
        self._trouble = Trouble(log, f"{folder} isn't written, and is tried again", f"{folder} is written again")

    def work(self) -> None:
        """Writes what came since the last time. If that fails, it stays in the database."""
        with self._trouble.noted(StatusUnavailable, MonitorFault, OSError, ValueError):
            while self._write_batch():
                pass

    def _write_batch(self) -> bool:
        """Writes one file, with the calls up to the last one whose change of state is certainly stored. Returns whether there may be more to write."""
        with open_database(self._site) as database:
            figures: Dict[str, float] = dict(database.execute("SELECT name, value FROM figures"))
            last = int(figures.get("spooled", -1))
            query = f"SELECT id, line, words FROM calls WHERE id > ? AND id <= ? ORDER BY id LIMIT {AT_ONCE}"
            rows: List[Row] = database.execute(query, (last, figures.get("calls", 0))).fetchall()
            text = "".join(self._lines(database, rows, figures))
        if last < 0:
            return False  # the monitor hasn't stored yet where the spool begins
        self._finish_files(last)  # the folder may be slow, and the database mustn't stay open meanwhile
        until, missing = (rows[-1][0], rows[0][0] - last - 1) if rows else (last, 0)
        if missing:
            self._log(f"{missing} calls were dropped before their results could be written to {self._folder}")
        if text:
            with contextlib.suppress(FileNotFoundError):  # something has just read one
                size = sum(path.stat().st_size for path in self._folder.iterdir())
                require(size <= MOST_BYTES, f"it has {size >> 20} MiB that nothing has read: start what reads it, or remove old files", MonitorFault)
            with open(self._folder / f"_nagsched.{self._name}.{until}", "w", encoding="utf-8", errors="replace") as there:
                os.fchmod(there.fileno(), MODE)
                print(text, end="", file=there, flush=True)
                os.fsync(there.fileno())
        request = json.dumps({"do": "spooled", "call": until, "missed": figures.get("unspooled", 0) + missing}).encode()
        answer = json.loads(send_request(self._site, request, PATIENCE) or b'{"error": "the monitor ended"}')
        require("error" not in answer, answer.get("error", ""), MonitorFault)
        self._finish_files(until)
        return len(rows) == AT_ONCE

    def _finish_files(self, last: int) -> None:
        """Gives the files up to a call their real names. Later ones weren't stored as written, and are written again."""
        for path in list(self._folder.iterdir()):
            begin, is_own, number = path.name.partition(f"_nagsched.{self._name}.")
            if begin or not is_own or not number.isdecimal():
                continue
            if int(number) > last:
                path.unlink()
            else:
                path.replace(path.with_name(f"perfdata.{int(time.time())}.{self._name}.{number}"))

    def _lines(self, database: sqlite3.Connection, rows: Sequence[Row], figures: Mapping[str, float]) -> Iterator[str]:
        """The lines of the results among these calls. A result came soon after the last check before it began."""
        commands, ahead = self._commands.read(), figures.get("moment", 0) / 1000 - figures.get("written_at", 0)  # moments can differ from the wall clock
        self._moment = self._moment or next((json.loads(line)[1] for _, line, _ in rows if line.startswith(TAKE)), 0)
        for number, line, words in rows:
            if line.startswith(TAKE):
                self._moment = json.loads(line)[1]
            elif words is not None and (data := performance_data(words)):
                yield spool_line(database, number, line, data, int(self._moment / 1000 - ahead), commands)


def spool_line(database: sqlite3.Connection, number: int, report: str, data: str, when: int, commands: Mapping[str, str]) -> str:
    """The line of a result, with the state after it by the last change until then. A service's state is that of its code."""
    _, name, _, code = json.loads(report)
    host, _, service = name.partition(";")
    what = "SERVICE" if service else "HOST"
    query = "SELECT id, state, kind FROM changes WHERE name = ? AND id <= ? ORDER BY id DESC LIMIT 1"
    change, state, kind = database.execute(query, (name, number)).fetchone() or (0, CODES[what][code], "HARD")
    state = CODES[what][code] if service else state
    kind = "HARD" if state in ("OK", "UP") and change != number else kind
    members = {"DATATYPE": f"{what}PERFDATA", "TIMET": str(when), "HOSTNAME": host, **({"SERVICEDESC": service} if service else {}),
               f"{what}PERFDATA": data, f"{what}CHECKCOMMAND": commands.get(name, ""), f"{what}STATE": state, f"{what}STATETYPE": kind}
    return "\t".join(f"{member}::{plain_text(text)}" for member, text in members.items()) + "\n"


def main() -> int:
    monitor = ParentMonitor()
    site, folder = map(pathlib.Path, monitor.arguments)
    spool = Spool(site, folder, lambda line: monitor.log(f"perfdata: {line}"))
    while True:
        spool.work()
        if monitor.is_ended(EVERY):
            return 0
