"""The protocol of a Gearman server: packets over a connection that never blocks, and is made again when it is lost."""
import contextlib
import enum
import socket
import struct
import time
from typing import Callable, Iterator, List, Optional, Tuple

from ..faults import require, trouble_text
from ..system.poller import FilePoller, write_ready

# In bytes: the most that is read at once, and the longest packet. A longer one ends the connection.
READ_BYTES, LONGEST_PACKET = 262_144, 4_194_304
# In seconds: the pause before a lost server is tried again, and the time between two questions for a sign of life.
RETRY, ECHO_EVERY = 1.0, 10.0
# The longest time from one turn to the next, in milliseconds: while something waits until there is room for it, and otherwise.
BUSY, IDLE = 20, 500
HEADER = struct.Struct(">4sII")
REQUEST, RESPONSE = b"\0REQ", b"\0RES"


class Code(enum.IntEnum):
    # CONNECTED comes from no server: it begins each connection.
    CONNECTED, CAN_DO, PRE_SLEEP, NOOP, SUBMIT_JOB, JOB_CREATED, GRAB_JOB, NO_JOB, JOB_ASSIGN = 0, 1, 4, 6, 7, 8, 9, 10, 11
    WORK_STATUS, WORK_COMPLETE, WORK_FAIL, ECHO_REQ, ECHO_RES, ERROR = 12, 13, 14, 16, 17, 19


# The number of parts of each packet that comes from a server.
PARTS = {Code.JOB_CREATED: 1, Code.JOB_ASSIGN: 3, Code.WORK_STATUS: 3, Code.WORK_COMPLETE: 2, Code.WORK_FAIL: 1, Code.ERROR: 2}
Packet = Tuple[int, List[bytes]]  # the code of a packet, and its parts


class Server:
    """A server, over one connection after another. The log says when it isn't reached, and when it is reached again."""

    def __init__(self, connect: Callable[[], socket.socket], poller: FilePoller, log: Callable[[str], None]) -> None:
        self._connect, self._poller, self._log = connect, poller, log
        self.is_lost, self._not_before = False, 0.0
        # The current connection, if there is one, when the server was asked for a sign of life, and whether something came since then.
        self.connection: Optional[socket.socket] = None
        self._asked_at, self._is_alive = 0.0, True
        self._unread, self.unsent = bytearray(), bytearray()

    def send(self, code: Code, *parts: bytes) -> None:
        """Sends a packet after the next turn. It is dropped if there is no connection."""
        body = b"\0".join(parts)
        if self.connection is not None:
            self.unsent += HEADER.pack(REQUEST, code, len(body)) + body

    def turn(self) -> Iterator[Packet]:
        """The packets that have come; CONNECTED begins each connection. After them, packets are sent, as far as there is room for them."""
        try:
            if self.connection is None:
                if time.monotonic() < self._not_before:
                    return
                self.connection = self._connect()
                self._poller.watch(self.connection.fileno(), lambda: None)
                self._unread, self.unsent, self._asked_at, self._is_alive = bytearray(), bytearray(), 0.0, True
                yield Code.CONNECTED, []
            for packet in self._receive(self.connection):
                if self.is_lost:
                    self._log("the server is reached again")
                self.is_lost, self._is_alive = False, True
                yield packet
            if time.monotonic() - self._asked_at >= ECHO_EVERY:
                require(self._is_alive, "it gives no answer", ConnectionError)
                self.send(Code.ECHO_REQ, b"?")
                self._asked_at, self._is_alive = time.monotonic(), False
            write_ready(self.connection.fileno(), self.unsent)
        except OSError as fault:  # there may be no room for a socket
            if not self.is_lost:
                self._log(f"the server isn't reached: {trouble_text(fault)}")
            self.is_lost, self._not_before = True, time.monotonic() + RETRY
            self.disconnect()

    def _receive(self, connection: socket.socket) -> Iterator[Packet]:
        try:
            data = connection.recv(READ_BYTES)
        except BlockingIOError:
            return
        require(data, "lost connection", ConnectionError)
        self._unread += data
        while len(self._unread) >= HEADER.size:
            magic, code, size = HEADER.unpack_from(self._unread)
            require(magic == RESPONSE and size <= LONGEST_PACKET, "it isn't a Gearman server", ConnectionError)
            if len(self._unread) < HEADER.size + size:
                return
            body = bytes(self._unread[HEADER.size : HEADER.size + size])
            del self._unread[: HEADER.size + size]
            parts = body.split(b"\0", PARTS.get(code, 1) - 1)
            if code == Code.ERROR or len(parts) != PARTS.get(code, 1):
                raise ConnectionError(body.replace(b"\0", b" ").decode(errors="replace"))
            yield code, parts

    def disconnect(self) -> None:
        """Ends the connection. The next turn makes another one, unless the server is lost."""
        if self.connection is not None:
            self._poller.unwatch(self.connection.fileno())
            self.connection.close()
        self.connection = None


def connect(place: Tuple[str, int]) -> socket.socket:
    """A connection to a server. It may not be made yet."""
    connection = socket.socket(socket.AF_INET6 if ":" in place[0] else socket.AF_INET)
    connection.setblocking(False)
    connection.setsockopt(socket.IPPROTO_TCP, socket.TCP_NODELAY, 1)
    with contextlib.suppress(BlockingIOError):
        connection.connect(place)
    return connection
