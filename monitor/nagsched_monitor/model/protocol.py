"""The calls to the scheduler, each a line of JSON, and its answers, each a line of words."""
import json
from typing import Callable, Dict, NamedTuple, Optional, Union

from ..faults import ConversationEnded

# The greatest moment and run number of a scheduler, and the greatest code of a plugin.
GREATEST = 2**60
GREATEST_CODE = 3
NO_PROBLEM = ("PENDING", "OK", "UP")  # the states that aren't problems

Take = NamedTuple("Take", [("now", int)])
Report = NamedTuple("Report", [("name", str), ("run", int), ("code", int)])
Abandon = NamedTuple("Abandon", [("name", str), ("run", int), ("now", int)])
Reschedule = NamedTuple("Reschedule", [("name", str), ("time", int), ("forced", bool)])
Enable = NamedTuple("Enable", [("name", str), ("on", bool)])
Status = NamedTuple("Status", [("name", str)])
Call = Union[Take, Report, Abandon, Reschedule, Enable, Status]
KINDS = {"take": Take, "report": Report, "abandon": Abandon, "reschedule": Reschedule, "enable": Enable, "status": Status}
WORDS = {kind: word for word, kind in KINDS.items()}
ENCODER = json.JSONEncoder(ensure_ascii=False, separators=(",", ":"))


def call_line(call: Call) -> str:
    # Nearly all calls are of these kinds, and the encoder would take most of the time for them.
    if isinstance(call, Take):
        return f'["take",{call.now}]'
    if isinstance(call, Report):
        return f'["report",{ENCODER.encode(call.name)},{call.run},{call.code}]'
    if isinstance(call, Reschedule):
        return f'["reschedule",{ENCODER.encode(call.name)},{call.time},{"true" if call.forced else "false"}]'
    return f'["status",{ENCODER.encode(call.name)}]' if isinstance(call, Status) else ENCODER.encode((WORDS[type(call)], *call))


def read_call(line: str) -> Call:
    word, *members = json.loads(line)
    call: Call = KINDS[word](*members)
    return call


Taken = NamedTuple("Taken", [("run", int), ("name", str)])
PutOff = NamedTuple("PutOff", [("next", Optional[int]), ("name", str)])
Freed = NamedTuple("Freed", [("next", int), ("name", str)])
Done = NamedTuple("Done", [("name", str)])
Idle = NamedTuple("Idle", [])  # no check begins: none is due, or as many run as may
Refused = NamedTuple("Refused", [("why", str)])  # it changed nothing: for example, its result comes too late, or the scheduler couldn't read it


class Standing(NamedTuple):
    state: str
    kind: str
    attempt: int
    changed: bool
    flapping: bool
    next: Optional[int]
    name: str

    def is_problem(self) -> bool:
        return self.state not in NO_PROBLEM

    def is_change(self, before: Optional["Standing"]) -> bool:
        """Whether something is printed: another state, a problem that became hard, flapping that begins or ends."""
        if before is None or before.state == "PENDING":
            return self.is_problem() or self.flapping
        became_hard = before.kind == "SOFT" and self.kind == "HARD" and self.is_problem()
        return before.state != self.state or before.flapping != self.flapping or became_hard

    def is_important(self, before: Optional["Standing"]) -> bool:
        """Whether the command is run for it: hard changes and flapping. A recovery counts if the problem was hard."""
        was_hard = before is None or before.kind == "HARD"
        flapping_changed = (before is not None and before.flapping) != self.flapping
        return self.kind == "HARD" and (self.is_problem() or was_hard) or flapping_changed


Answer = Union[Taken, PutOff, Idle, Standing, Freed, Done, Refused]


def read_time(word: str) -> Optional[int]:
    return None if word == "none" else int(word)


def read_standing(rest: str) -> Standing:
    state, kind, attempt, changed, flapping, time, name = rest.split(" ", 6)
    return Standing(state, kind, int(attempt), changed == "yes", flapping == "FLAPPING", read_time(time), name)


# An answer by its first word, from the rest of its line, the first word of this rest, and the name after that.
READERS: Dict[str, Callable[[str, str, str], Answer]] = {
    "taken": lambda rest, first, name: Taken(int(first), name),
    "putoff": lambda rest, first, name: PutOff(read_time(first), name),
    "idle": lambda rest, first, name: Idle(),
    "atlimit": lambda rest, first, name: Idle(),
    "standing": lambda rest, first, name: read_standing(rest),
    "freed": lambda rest, first, name: Freed(int(first), name),
    "done": lambda rest, first, name: Done(rest),
    "refused": lambda rest, first, name: Refused(rest),
}


def read_answer(reply: str, line: str) -> Answer:
    """The answer to a line. Raises `ConversationEnded` if it isn't one."""
    word, _, rest = reply.partition(" ")
    if word not in READERS:
        raise ConversationEnded(f"the scheduler answered {reply!r} to {line}")
    first, _, name = rest.partition(" ")
    return READERS[word](rest, first, name)


def object_name(call: Call, answer: Answer) -> str:
    """The name of the object that an answer is about; empty if it is about none."""
    name: str = getattr(answer, "name", "") or getattr(call, "name", "")
    return name
