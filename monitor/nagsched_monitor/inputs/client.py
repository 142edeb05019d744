"""A client of a monitor's socket."""
import os
import pathlib
import socket
from typing import List, Sequence

from ..faults import MonitorFault, trouble_text
from ..system.poller import keep_trying

NAME = "monitor.socket"


def short_path(path: pathlib.Path) -> str:
    """The path of a socket, whose length is limited: relative to the current folder if that is shorter."""
    return min(str(path), os.path.relpath(path), key=len)


def send_request(folder: pathlib.Path, request: bytes, seconds: float = 30) -> bytes:
    """The answer of the monitor of a folder; nothing if it ended meanwhile."""
    return b"".join(send_requests(folder, [request], seconds))


def send_requests(folder: pathlib.Path, requests: Sequence[bytes], seconds: float = 30) -> List[bytes]:
    """The answers to requests that are made together. If the monitor ends meanwhile, only those that came before, whose requests were obeyed."""
    answers: List[bytes] = []
    try:
        with socket.socket(socket.AF_UNIX, socket.SOCK_STREAM) as connection, connection.makefile("rb") as lines:
            connection.settimeout(seconds)
            keep_trying(lambda: connection.connect(short_path(folder / NAME)), seconds)  # too many clients may wait
            connection.sendall(b"".join(request + b"\n" for request in requests))
            while len(answers) < len(requests) and (line := lines.readline()).endswith(b"\n"):
                answers.append(line)
    except (FileNotFoundError, ConnectionRefusedError):
        raise MonitorFault(f"no monitor runs on {folder}: start it, or name the folder of a site whose monitor runs") from None
    except OSError as error:
        if not answers:
            raise MonitorFault(f"the monitor of {folder} doesn't answer: {trouble_text(error, folder / NAME)}") from None
    return answers
