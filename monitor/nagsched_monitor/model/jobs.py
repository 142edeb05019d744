"""Jobs for runners, and their answers. `docs/scaling.md` describes the lines between the two."""
import functools
import json
from typing import Any, Dict, NamedTuple, Optional, Sequence, Tuple, Union

from ..faults import require
from .text import plain_text

ENDS = ("exited", "signal", "limit", "failed")


class Job(NamedTuple):
    """A check that was taken, and the command that makes it."""

    name: str
    run: int
    arguments: Sequence[str]
    limit: float
    runner: Optional[str] = None  # the runner elsewhere that runs it; None for a runner of this machine


class JobFinished(NamedTuple):
    """A plugin's end: how it ended, with which exit code or signal, and its output."""

    job: Job
    end: str
    code: int
    output: str
    stderr: str = ""
    is_stuck: bool = False  # whether it was killed and hasn't ended: a `StuckJobEnded` comes when it has


class JobLost(NamedTuple):
    """A job whose runner ended or didn't accept it, that no worker answered, or that this machine couldn't start."""

    job: Job
    why: str = "its runner ended"
    is_local: bool = False  # whether this machine lacks what the job needs: files, processes or memory


class StuckJobEnded(NamedTuple):
    """A plugin that couldn't be killed has ended, or its runner has."""

    job: Job


Event = Union[JobFinished, JobLost, StuckJobEnded]


@functools.lru_cache(maxsize=50_000)
def job_members(arguments: Tuple[str, ...], limit: float) -> bytes:
    """The members of a job after its number."""
    return json.dumps({"words": arguments, "limit": limit})[1:].encode()


def event_members(event: Union[JobFinished, JobLost]) -> Dict[str, Any]:
    if isinstance(event, JobLost):
        return {"lost": event.why}
    return {"end": event.end, "code": event.code, "output": event.output, "stderr": event.stderr}


def read_event(job: Job, members: Dict[str, Any]) -> Union[JobFinished, JobLost]:
    """The event in a runner's line. `ValueError` says why it isn't one."""
    if "lost" in members:
        return JobLost(job, plain_text(read_text(members, "lost")), job.runner is None)
    end, code, is_stuck = members.get("end"), members.get("code"), members.get("stuck", False)
    require(end in ENDS, f"end has to be one of {', '.join(ENDS)}", ValueError)
    if isinstance(code, bool) or not isinstance(code, int) or not 0 <= code <= 255:
        raise ValueError("code has to be a number from 0 to 255")
    return JobFinished(job, str(end), code, read_text(members, "output"), read_text(members, "stderr"), is_stuck is True)


def read_text(members: Dict[str, Any], name: str) -> str:
    value = members.get(name, "")
    if not isinstance(value, str):
        raise ValueError(f"{name} has to be a text")
    return value.encode(errors="replace").decode()  # half a character, which a worker may have sent, can't be stored


def read_line(line: bytes) -> Tuple[int, Dict[str, Any]]:
    """The number of the job in a runner's line, -1 if it says an error, and its members. Raises `ValueError` or `RecursionError` if it can't be read."""
    members = json.loads(line.decode())
    require(isinstance(members, dict), "it has to be an object", ValueError)
    number = -1 if "error" in members else members.get("job")
    require(not isinstance(number, bool) and isinstance(number, int), "it has no number of a job", ValueError)
    return number, members
