"""A stand-in for a server of one queue, and workers that a test controls. It has no process and no time of its own: it works when a test lets it."""
import contextlib
import socket
from dataclasses import dataclass, field
from typing import Any, Dict, List, Optional, Tuple

from nagsched_monitor.run.gearman import HEADER, REQUEST, RESPONSE, Code
from nagsched_monitor.run.gearman_signing import JOB, RESULT, Signer
from nagsched_monitor.system.poller import write_ready


def response(code: int, *parts: bytes) -> bytes:
    body = b"\0".join(parts)
    return HEADER.pack(RESPONSE, code, len(body)) + body


class FarEnd:
    """The server's end of a connection."""

    def __init__(self) -> None:
        self.near, self._socket = socket.socketpair()
        self.near.setblocking(False)
        self._socket.setblocking(False)
        self._unread, self._unsent = b"", bytearray()
        self.is_closed = False

    def send(self, code: int, *parts: bytes) -> None:
        self._unsent += response(code, *parts)
        self._flush()

    def _flush(self) -> None:
        with contextlib.suppress(OSError):  # the other end may be closed
            write_ready(self._socket.fileno(), self._unsent)

    def requests(self) -> List[Tuple[int, bytes]]:
        """The packets that have come."""
        found: List[Tuple[int, bytes]] = []
        self._flush()
        with contextlib.suppress(BlockingIOError):
            while data := self._socket.recv(1 << 20):
                self._unread += data
            self.close()
        while len(self._unread) >= HEADER.size:
            magic, code, size = HEADER.unpack_from(self._unread)
            assert magic == REQUEST
            if len(self._unread) < HEADER.size + size:
                break
            found.append((code, self._unread[HEADER.size : HEADER.size + size]))
            self._unread = self._unread[HEADER.size + size :]
        return found

    def close(self) -> None:
        self._socket.close()
        self.is_closed = True


@dataclass
class ServedJob:
    """A job at the server, for the client that submitted it."""

    client: FarEnd
    handle: bytes
    workload: Dict[str, Any]


@dataclass
class StandInServer:
    """A server: it gives jobs to workers in the order in which they came. When a client leaves, its waiting jobs are forgotten, as gearmand does."""

    waiting: List[ServedJob] = field(default_factory=list)
    clients: List[FarEnd] = field(default_factory=list)
    connections: int = 0
    is_there: bool = True
    # It accepts all requests, and answers nothing.
    is_silent: bool = False
    signer: Signer = Signer(b"the key of the test's site")
    jobs: int = 0

    def connect(self) -> socket.socket:
        if not self.is_there:
            raise ConnectionRefusedError("it isn't there")
        self.connections += 1
        self.clients.append(FarEnd())
        return self.clients[-1].near

    def turn(self) -> None:
        """Handles the requests that have come."""
        if self.is_silent:
            return
        for client in self.clients:
            for code, body in client.requests():
                if code == Code.ECHO_REQ:
                    client.send(Code.ECHO_RES, body)
                    continue
                self.jobs += 1
                _, _, workload = body.split(b"\0", 2)
                job = ServedJob(client, b"H:%d" % self.jobs, self.signer.verified_document(JOB, workload))
                self.waiting.append(job)
                client.send(Code.JOB_CREATED, job.handle)
        self.waiting = [job for job in self.waiting if not job.client.is_closed]
        self.clients = [client for client in self.clients if not client.is_closed]

    def take(self) -> Optional[ServedJob]:
        """A worker takes a job, and reports that."""
        if not self.waiting or self.is_silent:
            return None
        job = self.waiting.pop(0)
        job.client.send(Code.WORK_STATUS, job.handle, b"0", b"1")
        return job

    def answer(self, job: ServedJob, /, **members: Any) -> None:
        """A worker answers a job."""
        result = {"job": job.workload["job"], "code": 0, "end": "exited", "output": "fine", **members}
        job.client.send(Code.WORK_COMPLETE, job.handle, self.signer.sign(RESULT, result))

    def lose_worker(self, job: ServedJob) -> None:
        """A worker leaves with a job, which waits again, as the first one."""
        if not job.client.is_closed:
            self.waiting.insert(0, job)

    def restart(self) -> None:
        """Another server in its place, which knows no job, and gives the same names to others."""
        self.jobs = 0
        self.waiting.clear()
        for client in self.clients:
            client.close()
        self.clients.clear()
