"""Waits for the effects of other processes, for the time that these need on a busy machine."""
import socket
import time
from typing import Callable

# The longest wait, in seconds.
LONG = 90.0


def exchange(connection: socket.socket, sent: bytes, is_all: bool = True) -> bytes:
    """The answer to these bytes, after which the client ends, or sends nothing more."""
    connection.sendall(sent)
    if is_all:
        connection.shutdown(socket.SHUT_WR)
    came = b""
    while data := connection.recv(65_536):
        came += data
    return came


def becomes_true(what: Callable[[], bool], seconds: float = LONG) -> bool:
    """Whether it holds within this many seconds. It is tested every 50 milliseconds."""
    end = time.monotonic() + seconds
    while not what():
        if time.monotonic() >= end:
            return False
        time.sleep(0.05)
    return True
