"""The socket in the folder of a site, which takes requests for its monitor: lines of JSON, each answered by one line.

No client holds up the monitor or another client. A limited number of its lines is passed on in one turn, and answers that it doesn't read wait, up to a
limit."""
import json
import pathlib
import socket
import time
from dataclasses import dataclass, field
from functools import partial
from typing import Any, Callable, List, Mapping, Optional

from ..core.requests import Request
from ..faults import MonitorFault, raising
from ..system.poller import FilePoller, write_ready
from .client import NAME, short_path

LONGEST_LINE = 262_144
READ_BYTES = 65_536
# Limits: a client's lines in one turn, the bytes of its unread answers, clients at once, and the seconds for which a client may be silent. While there are
# too many clients, one that has been silent for a second makes room.
LINES_IN_TURN = 64
UNREAD_BYTES = 1024 * 1024
MOST_CLIENTS = 200
IDLE, SILENT = 300.0, 1.0
# How soon the next turn comes while an answer waits for its reader, in milliseconds.
SENDING_WAIT = 100


@dataclass
class Client:
    """A connection, the part of its next line that has come, and its unread answers."""

    connection: socket.socket
    unread: bytes = b""
    unsent: bytearray = field(default_factory=bytearray)
    # The requests without an answer, the time of its last line, and whether it sends no more.
    unanswered: int = 0
    last_line_at: float = field(default_factory=time.monotonic)
    has_ended: bool = False

    def is_idle(self) -> bool:
        """Whether it has been silent for a second, and waits for nothing."""
        return time.monotonic() - self.last_line_at > SILENT and not self.unanswered and not self.unsent and not self.unread


class ControlSocket:
    """The socket of a monitor. Its loop calls `work` in each turn."""

    def __init__(self, folder: pathlib.Path, ask: Callable[[Request], None], poller: FilePoller) -> None:
        self._add_request, self._poller = ask, poller
        self._path = folder / NAME
        self._socket = socket.socket(socket.AF_UNIX, socket.SOCK_STREAM)
        with raising(MonitorFault, self._path):
            self._path.unlink(missing_ok=True)
            self._socket.bind(short_path(self._path))
            self._path.chmod(0o600)  # nobody can connect before it listens
        self._socket.listen(socket.SOMAXCONN)
        self._socket.setblocking(False)
        self._clients: List[Client] = []
        poller.watch(self._socket.fileno(), self._accept)

    def _accept(self) -> None:
        """Accepts all clients that wait, as long as there is room. The one that has been idle the longest makes room for another."""
        while True:
            idle = [client for client in self._clients if client.is_idle()]
            if len(self._clients) >= MOST_CLIENTS and not idle:
                return
            try:
                connection, _ = self._socket.accept()
            except OSError:
                return  # none waits, or there is no room for another file: tried again if a client still waits
            if len(self._clients) >= MOST_CLIENTS:
                self._drop_client(min(idle, key=lambda client: client.last_line_at))
            connection.setblocking(False)
            client = Client(connection)
            self._clients.append(client)
            self._poller.watch(connection.fileno(), partial(self._read, client))

    def _read(self, client: Client) -> None:
        if b"\n" in client.unread:
            return  # earlier lines have their turn first
        try:
            data = client.connection.recv(READ_BYTES)
        except ConnectionError:
            data = b""  # the client has gone
        client.last_line_at = time.monotonic()
        client.unread += data
        if not data:
            self._stop_reading(client)

    def _stop_reading(self, client: Client) -> None:
        client.has_ended = True
        self._poller.unwatch(client.connection.fileno())

    def work(self) -> Optional[int]:
        """Passes on the lines that have come, sends answers, and forgets closed connections. Returns how long the next turn may wait, or None."""
        for client in self._clients:
            self._pass_on_lines(client)
            self._send(client)
            is_answered = not client.unanswered and not client.unsent and b"\n" not in client.unread
            if is_answered and (client.has_ended or time.monotonic() - client.last_line_at > IDLE):
                self._drop_client(client)
        if any(b"\n" in client.unread for client in self._clients):
            return 0
        return SENDING_WAIT if any(client.unsent for client in self._clients) else None

    def _pass_on_lines(self, client: Client) -> None:
        *lines, client.unread = client.unread.split(b"\n", LINES_IN_TURN)
        for line in lines:
            client.unanswered += 1
            self._add_request(Request(line, partial(self._reply, client)))
        if len(client.unread) > LONGEST_LINE and b"\n" not in client.unread:
            client.unsent += b'{"error": "the line is too long"}\n'
            client.unread = b""
            self._stop_reading(client)

    def _reply(self, client: Client, answer: Mapping[str, Any]) -> None:
        """Has an answer sent, unless too many earlier ones are unread. One answer may be of any length."""
        client.unanswered -= 1
        if len(client.unsent) > UNREAD_BYTES:
            self._drop_client(client)
        client.unsent += json.dumps(answer, ensure_ascii=False).encode(errors="replace") + b"\n"

    def _send(self, client: Client) -> None:
        try:
            write_ready(client.connection.fileno(), client.unsent)
        except OSError:
            client.unsent.clear()  # the client reads no more
            self._stop_reading(client)

    def _drop_client(self, client: Client) -> None:
        self._clients = [each for each in self._clients if each is not client]
        self._stop_reading(client)
        client.connection.close()

    def close(self) -> None:
        for client in self._clients:
            self._send(client)
            self._drop_client(client)
        self._poller.unwatch(self._socket.fileno())
        self._socket.close()
        self._path.unlink(missing_ok=True)
