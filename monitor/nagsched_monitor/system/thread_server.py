"""A server with a thread for each client, and with limits: the number of clients, and the time that each may take."""
import contextlib
import socket
import socketserver
import sys
import time
import traceback
from typing import Any, Callable, Dict, Type

from .processes import ParentMonitor

MOST_CLIENTS = 64
LONGEST_REQUEST = 60.0  # how long a request may take in all, in seconds
SILENT = 1.0  # while there are too many clients, the one that has been silent the longest, and for this time, makes room for another
LOOK_EVERY = 0.5  # the longest wait for a client before the next look at late ones and at the monitor, in seconds


class ThreadServer(socketserver.ThreadingTCPServer):
    """A server for the loop of a process next to the monitor. A client for which there is no room is closed at once, and logged once a minute."""

    allow_reuse_address = daemon_threads = True
    request_queue_size = MOST_CLIENTS
    timeout = LOOK_EVERY
    longest_request = LONGEST_REQUEST

    def __init__(self, place: Any, handler: Type[socketserver.BaseRequestHandler], name: str, log: Callable[[str], None] = print) -> None:
        self._name, self.log, self._full_until = name, log, 0.0
        # When each open connection is closed at the latest. Only the server's own thread adds some, and each thread changes and removes its own.
        self.ends_at: Dict[Any, float] = {}
        self.silent_since: Dict[Any, float] = {}  # the connections that wait for another request
        super().__init__(place, handler)

    def run(self, monitor: ParentMonitor) -> int:
        """Serves clients until the monitor ends."""
        while not monitor.is_ended(0):
            self.handle_request()
            self.service_actions()
        self.server_close()
        return 0

    def process_request(self, request: Any, client_address: Any) -> None:
        now, silent = time.monotonic(), sorted(self.silent_since.items(), key=lambda each: each[1])
        if len(self.ends_at) >= MOST_CLIENTS and silent and now - silent[0][1] > SILENT:
            self._shut_down(silent[0][0])
        elif len(self.ends_at) >= MOST_CLIENTS:
            if now >= self._full_until:
                self.log(f"{self._name}: a client is turned away, since {MOST_CLIENTS} are connected")
                self._full_until = now + 60
            return self.shutdown_request(request)
        self.ends_at[request] = now + self.longest_request
        super().process_request(request, client_address)

    def shutdown_request(self, request: Any) -> None:
        self.ends_at.pop(request, None)
        self.silent_since.pop(request, None)
        super().shutdown_request(request)

    def service_actions(self) -> None:
        for request, end in list(self.ends_at.items()):
            if time.monotonic() > end:
                self._shut_down(request)

    def _shut_down(self, request: Any) -> None:
        self.silent_since.pop(request, None)
        with contextlib.suppress(OSError):  # it has just ended
            request.shutdown(socket.SHUT_RDWR)

    def handle_error(self, request: Any, client_address: Any) -> None:
        """A failed request is logged with its place, unless its client has gone or sends nothing."""
        fault = sys.exc_info()[1]
        if fault is not None and not isinstance(fault, OSError):
            place = traceback.extract_tb(fault.__traceback__)[-1]
            self.log(f"{self._name}: {type(fault).__name__}: {fault} ({place.filename.rpartition('/')[2]}:{place.lineno})")
