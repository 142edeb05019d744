"""Signed messages between the monitor and its workers, and which jobs a worker accepts.

A message is a document, preceded by its HMAC-SHA256 with a key from a file that both have."""
import hashlib
import hmac
import json
import os
import pathlib
import time
from typing import Any, Callable, Dict, Optional, Sequence

from ..faults import MonitorFault, raising, require
from ..model.jobs import Job

# The purpose of a message: a result can't be used as a job.
JOB, RESULT = b"nagsched job\0", b"nagsched result\0"
LEAST_KEY, MOST_BYTES = 16, 1 << 20
SIZE = hashlib.sha256().digest_size * 2
# In seconds: the longest limit of a job, and the largest difference between the clocks of the two machines.
LONGEST, SKEW = 86_400.0, 60.0


class Refusal(ValueError):
    """Why a message isn't accepted."""


class Signer:
    """Signs documents and opens signed ones, with a key; without a key they stay unchanged."""

    def __init__(self, key: Optional[bytes]) -> None:
        self._key, self.is_signing = key, key is not None

    def sign(self, purpose: bytes, document: Dict[str, Any]) -> bytes:
        body = json.dumps(document).encode()
        return body if self._key is None else self._signature(self._key, purpose, body) + b" " + body

    def verified_document(self, purpose: bytes, data: bytes) -> Dict[str, Any]:
        """The document of a message, which names a job. Raises `Refusal` if it isn't signed for this purpose. Nothing in it is used before that."""
        body = data if self._key is None else data[SIZE + 1 :]
        if len(data) > MOST_BYTES or self._key is not None and not hmac.compare_digest(data[:SIZE], self._signature(self._key, purpose, body)):
            raise Refusal("it is too long, or isn't signed with this site's key")
        try:
            document: Dict[str, Any] = json.loads(body)
            if isinstance(document["job"], str):
                return document
        except (ValueError, TypeError, KeyError, RecursionError):
            pass
        raise Refusal("it names no job")

    @staticmethod
    def _signature(key: bytes, purpose: bytes, body: bytes) -> bytes:
        return hmac.new(key, purpose + body, hashlib.sha256).hexdigest().encode()


def read_signer(path: Optional[pathlib.Path], unsigned: bool) -> Signer:
    """The signer with the key in a file, which is its bytes without the space around them, or no signatures if the site says so.

    Raises `MonitorFault` unless it says one of the two, and if others may read the key or it is too short."""
    require((path is None) == unsigned, "say --key FILE, or --unsigned: one of the two", MonitorFault)
    if path is None:
        return Signer(None)
    with raising(MonitorFault, f"the key {path}"), path.open("rb") as file:
        mode, key = os.fstat(file.fileno()).st_mode, file.read(MOST_BYTES).strip()
    require(not mode & 0o077, f"the key {path}: others may read it; chmod 600 makes it its owner's alone", MonitorFault)
    require(len(key) >= LEAST_KEY, f"the key {path}: it has to have {LEAST_KEY} bytes or more", MonitorFault)
    return Signer(key)


class JobPolicy:
    """Which jobs a worker accepts. If it has a key: those of its queues that are signed with the key, in their time, and each once."""

    def __init__(self, signer: Signer, queues: Sequence[str], clock: Callable[[], float] = time.time) -> None:
        self._signer, self._queues, self._clock = signer, queues, clock
        # The accepted jobs, each with the time from which it is refused anyway.
        self._accepted: Dict[str, float] = {}
        self._last_sweep = clock()

    def job_of(self, document: Dict[str, Any]) -> Job:
        """The job that a document describes. Raises `Refusal` if it isn't accepted."""
        arguments, limit = document.get("words"), number_in(document, "limit")
        if not isinstance(arguments, list) or not arguments or not all(isinstance(word, str) and "\0" not in word for word in arguments):
            raise Refusal("it has no command")
        require(0 < limit <= LONGEST, "it has no limit", Refusal)
        if self._signer.is_signing:
            self._accept_once(document)
        return Job(document["job"], 0, arguments, limit)

    def _accept_once(self, document: Dict[str, Any]) -> None:
        number, begin, end, now = document["job"], number_in(document, "time"), number_in(document, "until"), self._clock()
        require(begin <= end <= begin + LONGEST, "it has no time", Refusal)
        require(document.get("queue") in self._queues, "it is of another queue", Refusal)
        if not begin - SKEW <= now <= end + SKEW:
            raise Refusal(f"its time is {now - begin:.0f} seconds from this machine's")
        if now - self._last_sweep >= SKEW:
            self._accepted = {each: until for each, until in self._accepted.items() if until >= now}
            self._last_sweep = now
        require(number not in self._accepted, "it was taken before", Refusal)
        self._accepted[number] = end + SKEW


def number_in(document: Dict[str, Any], member: str) -> float:
    """A number in a document. Raises `Refusal` if it isn't a number of reasonable size."""
    value = document.get(member)
    if isinstance(value, bool) or not isinstance(value, (int, float)) or not abs(value) < 1e12:
        raise Refusal(f"its {member} is no number")
    return float(value)
