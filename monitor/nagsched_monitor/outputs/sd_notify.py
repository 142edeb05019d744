"""Messages to a service manager such as systemd: the monitor is ready, is alive, or ends. Each is a datagram to its socket."""
import contextlib
import os
import socket
import time
from typing import Callable, MutableMapping, Optional


class ServiceManager:
    """The service manager that started the monitor; without a manager nothing is sent."""

    def __init__(self, environment: MutableMapping[str, str] = os.environ, clock: Callable[[], float] = time.monotonic) -> None:
        """Takes the names of the socket out of the environment, so that no plugin gets them."""
        self._clock = clock
        self._address = environment.pop("NOTIFY_SOCKET", None)
        watched, of = environment.pop("WATCHDOG_USEC", ""), environment.pop("WATCHDOG_PID", str(os.getpid()))
        is_mine = watched.isdigit() and of == str(os.getpid())
        # Half of the time after which the monitor counts as stuck, in seconds. The variable has it in microseconds.
        self._interval: Optional[float] = int(watched) / 1e6 / 2 if is_mine else None
        self._last_sent = clock()

    def notify_alive(self) -> None:
        """The loop runs; the message is sent twice within the time that the manager waits."""
        if self._interval is not None and self._clock() - self._last_sent >= self._interval:
            self._last_sent = self._clock()
            self.notify("WATCHDOG=1")

    def notify(self, lines: str) -> None:
        if not self._address:
            return
        # A name that begins with @ isn't the name of a file.
        address = f"\0{self._address[1:]}" if self._address.startswith("@") else self._address
        with socket.socket(socket.AF_UNIX, socket.SOCK_DGRAM) as there, contextlib.suppress(OSError):
            # The manager may be gone, or not read: monitoring continues without it.
            there.sendto(lines.encode(), socket.MSG_DONTWAIT, address)
