"""Livestatus of a site: a socket at which NagVis, Thruk and other tools ask for objects, and send Nagios's commands. A process next to the monitor.

Its arguments are the socket's path, the site's folder, and `notifies` if people are notified of changes. A request is lines up to an empty one, or one
command. Whoever may write to the socket may command the monitor: its folder decides the group."""
import pathlib
import re
import socket
import socketserver
import threading
import time
from typing import Callable, List, Sequence

from ..faults import MonitorFault, raising, require
from ..inputs.client import short_path
from ..inputs.nagios_pipe import MODE, CommandQueue
from ..system.processes import ParentMonitor
from ..system.thread_server import ThreadServer
from .livestatus_query import LONGEST_WAIT, SHOWN, Code, Query, QueryFault, refuse
from .livestatus_tables import Tables
from .object_rows import ObjectRows
from .status_query import StatusUnavailable

MOST_BYTES = 1_048_576  # of a request
# In seconds: how long a client may send nothing, how long a command waits for the monitor, and the time between two looks for what a query waits for.
IDLE, PATIENCE, LOOK_EVERY = 300.0, 10.0, 0.25


class Handler(socketserver.StreamRequestHandler):
    timeout = IDLE
    server: "Server"

    def handle(self) -> None:
        refused: List[str] = []  # commands: their sender learns of them when it ends its requests, since a client that goes on expects nothing here
        is_kept = True
        while is_kept:
            lines: List[str] = []
            try:
                is_kept = self._read_request(lines)
                if lines and lines[0].startswith("COMMAND "):
                    refused += self.server.obey(lines[0])
                elif lines:
                    is_kept = is_kept and "KeepAlive: on" in lines
                    self._reply(Code.OK, self.server.answer(lines), lines)
            except (QueryFault, StatusUnavailable) as fault:
                code = fault.code if isinstance(fault, QueryFault) else Code.UNAVAILABLE
                is_kept = is_kept and code not in (Code.INCOMPLETE, Code.TOO_LARGE)
                self._reply(code, f"{fault}\n", lines)
            except Exception as error:  # any exception: the client learns of it, and the log too
                if not isinstance(error, OSError):
                    self._reply(Code.UNAVAILABLE, f"the monitor has a fault: {type(error).__name__}: see its log\n", lines)
                raise
        for each in refused:
            self._reply(Code.WRONG_HEADER, f"{each}\n", [])

    def _read_request(self, lines: List[str]) -> bool:
        """Reads the lines of the next request, and returns whether others can follow."""
        now, left = time.monotonic(), MOST_BYTES
        self.server.silent_since[self.request], self.server.ends_at[self.request] = now, now + IDLE
        while True:
            line = self.rfile.readline(left)
            left -= len(line)
            if left <= 0:
                refuse(f"a request has at most {MOST_BYTES} bytes", Code.TOO_LARGE)
            if line and not line.endswith(b"\n"):
                refuse(f"it ends within the line {line[:SHOWN].decode(errors='replace')!r}: a request ends with an empty line", Code.INCOMPLETE)
            text = re.sub(r"^(\w+):\s*", r"\1: ", line.decode(errors="replace").strip())
            if text:
                lines.append(text)
                self.server.silent_since.pop(self.request, None)
                self.server.ends_at[self.request] = time.monotonic() + self.server.longest_request + LONGEST_WAIT
            if not line or text.startswith("COMMAND ") and len(lines) == 1 or lines and not text:
                return bool(line)

    def _reply(self, code: Code, text: str, lines: Sequence[str]) -> None:
        data = text.encode(errors="replace")
        if "ResponseHeader: fixed16" in lines:
            data = f"{code:3d} {len(data):11d}\n".encode() + data
        elif code != Code.OK:
            data = f"{code:3d}: ".encode() + data
        self.connection.settimeout(self.server.longest_request)
        self.wfile.write(data)


class Server(ThreadServer):
    address_family = socket.AF_UNIX

    def __init__(self, path: pathlib.Path, site: pathlib.Path, notifies: bool, log: Callable[[str], None]) -> None:
        self._path, self._site = path, site
        self._tables = Tables(ObjectRows(site, log, notifies))
        self._free = threading.Lock()  # one query is evaluated at a time
        with raising(MonitorFault, path):
            require(not path.exists() or path.is_socket(), f"{path} is no socket: move it away", MonitorFault)
            path.unlink(missing_ok=True)
            super().__init__(short_path(path), Handler, "livestatus", log)
            self._number = path.stat().st_ino

    def server_bind(self) -> None:
        super().server_bind()
        self._path.chmod(MODE)  # nobody can connect before it listens

    def server_close(self) -> None:
        super().server_close()
        if self._path.exists() and self._path.stat().st_ino == self._number:
            self._path.unlink(missing_ok=True)

    def answer(self, lines: Sequence[str]) -> str:
        """The answer to a query, after what it waits for, or its time."""
        method, _, name = lines[0].partition(" ")
        if method != "GET" or not name.strip():
            refuse(f"a request has to be GET TABLE or COMMAND [TIME] NAME, not {lines[0][:SHOWN]!r}", Code.WRONG_REQUEST)
        begun, before = time.monotonic(), None
        while True:
            with self._free:
                query = Query(self._tables.table(name.strip(), lines[1:]), lines[1:])
                mark = self._tables.mark(query.words.get("WaitTrigger", "all"))
                before = mark if before is None else before
                if not query.is_waiting(mark == before) or time.monotonic() - begun > query.patience():
                    return query.answer()
            time.sleep(LOOK_EVERY)

    def obey(self, line: str) -> List[str]:
        """Has the monitor obey a command. Returns why it doesn't."""
        queue, end = CommandQueue(self._site, "livestatus"), time.monotonic() + PATIENCE
        with self._free:
            self._tables.rows.read()
        queue.add(line.partition(" ")[2].encode(errors="replace"), self._tables.rows.services, self._tables.rows.groups)
        queue.send()
        while queue.waiting and time.monotonic() < end:
            time.sleep(LOOK_EVERY)
            queue.send()
        late = queue.drop()
        for each in late:
            self.log(f"livestatus: {each}")
        return [*queue.refused, *late]


def main() -> int:
    monitor = ParentMonitor()
    path, site, *others = monitor.arguments
    with raising(SystemExit, "livestatus", MonitorFault):
        server = Server(pathlib.Path(path), pathlib.Path(site), "notifies" in others, monitor.log)
    monitor.log(f"livestatus is at {path}")
    return server.run(monitor)
