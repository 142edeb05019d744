"""The rows of a site's database: its tables, the content of a row, and its checksum."""
import hashlib
import json
from typing import AbstractSet, Any, Dict, Iterable, List, NamedTuple, Optional, Sequence, Union

from ..model.protocol import NO_PROBLEM, Call, Standing
from ..model.remarks import Remark

Cell = Union[int, float, str, bytes, None]

TABLES: Dict[str, str] = {
    "generations": "part INTEGER, setup BLOB, start INTEGER, saved BLOB, last_call INTEGER",
    "mirrors": "part INTEGER UNIQUE, names TEXT",
    "calls": "part INTEGER, line TEXT, words TEXT",
    "switches": "name TEXT UNIQUE, is_on INTEGER",
    "passive": "name TEXT, code INTEGER, words TEXT",
    "changes": "time REAL, name TEXT, state TEXT, kind TEXT, attempt INTEGER, flapping INTEGER, words TEXT",
    "outbox": "document TEXT, moment INTEGER",
    "not_taken": "document TEXT",
    "figures": "name TEXT UNIQUE, value REAL",
    "standings": "name TEXT UNIQUE, state TEXT, kind TEXT, attempt INTEGER, flapping INTEGER, since REAL, hard_since REAL, last_check REAL, "
    "next_check REAL, is_on INTEGER, out_since REAL, took REAL, late REAL, words TEXT, phase INTEGER, known INTEGER",
    "requests": "number TEXT UNIQUE, answer TEXT",
    "settings": "name TEXT UNIQUE, value TEXT",
    "aside": "part INTEGER, line TEXT",
    "remarks": "kind TEXT, name TEXT, author TEXT, text TEXT, made_at REAL, starts_at REAL, ends_at REAL, sticky INTEGER, persistent INTEGER, "
    "duration REAL, began_at REAL, state TEXT",
    "damaged": "source TEXT, was TEXT",
}
INDEXES = ("changes_by_name ON changes (name, id)", "changes_by_time ON changes (time)")
# What the loss of a row means. A damaged row of these tables is set aside, and the monitor continues; one of the others stops a start.
LOSSES: Dict[str, str] = {
    "switches": "the switch of the setup counts for its object",
    "passive": "a passive result isn't reported",
    "changes": "the history lacks it",
    "outbox": "the command for changes isn't told of a change",
    "not_taken": "a change that the command for changes didn't take is gone",
    "figures": "a figure begins again",
    "standings": "since when an object is in its state isn't known",
    "requests": "a numbered request may be carried out twice",
    "settings": "the command for changes is told again what is wrong, or remarks.json is taken over again",
    "aside": "the scheduler may end after a call again, which is then set aside again",
    "remarks": "an acknowledgement, a downtime or a comment is gone, and people may be notified of its object",
}
ONLY_STORED = ("changes", "outbox", "not_taken", "settings")  # the tables whose rows a monitor hasn't in memory
# The version of these tables. Those that have grown since a version got the last member.
VERSION = 3
GROWN = ((2, "standings"), (3, "standings"), (3, "outbox"))
REMARKS = f"SELECT {', '.join(Remark._fields)} FROM remarks ORDER BY id"
INSERTS: Dict[str, str] = {
    table: f"INSERT OR REPLACE INTO {table} VALUES ({','.join('?' * (len(members.split(',')) + 2))})" for table, members in TABLES.items()
}
# A row of an object keeps its number and its name, so that the index of names isn't written again.
INSERTS["standings"] += " ON CONFLICT (id) DO UPDATE SET " + ", ".join(
    f"{name} = excluded.{name}" for name in [member.split()[0] for member in TABLES["standings"].split(", ")][1:] + ["checksum"])


class Generation(NamedTuple):
    """How the scheduler of a part was opened last."""

    part: int
    setup: bytes
    start: int
    saved: Optional[bytes]
    last_call: int  # the number of the last call that is part of the saved state
    mirrors: AbstractSet[str] = frozenset()  # the objects of the setup that are mirrors


class StoredCall(NamedTuple):
    """A stored call: its number, part and line, and the output of the plugin that it reports."""

    id: int
    part: int
    line: str
    words: Optional[str]
    call: Optional[Call] = None  # the call in the line, if this monitor made it


StoredResult = NamedTuple("StoredResult", [("id", int), ("name", str), ("code", int), ("words", str)])


class StoredChange(NamedTuple):
    """A change of state: the number of its call, and the object's state since then."""

    id: int
    time: float
    name: str
    state: str
    kind: str
    attempt: int
    flapping: bool
    words: str

    def document(self, before: Optional[Standing], id: Optional[str] = None, **others: bool) -> str:
        """The line of JSON that the command reads. Its `id` is the number of the call, if it has no other."""
        members = {name: getattr(self, name) for name in ("time", "name", "state", "kind", "attempt", "flapping")}
        members["was"], members["was_flapping"] = (None, False) if before is None else (before.state, before.flapping)
        members["output"], _, members["long_output"] = self.words.partition("\n")
        return json.dumps({"id": str(self.id) if id is None else id, **members, **others}, ensure_ascii=False)


class StoredStanding(NamedTuple):
    """The state of an object. Times are seconds since 1970 of the wall clock; a missing time is None."""

    name: str
    state: Optional[str]
    kind: Optional[str]
    attempt: Optional[int]
    flapping: bool
    # The last change of its state, and of its hard one.
    since: Optional[float]
    hard_since: Optional[float]
    last_check: Optional[float]  # when the last check that gave a result began
    next_check: Optional[float]
    is_on: bool
    out_since: Optional[float]  # since when a check of it runs
    # How long the last check took, and how late the last one began, in seconds.
    took: Optional[float]
    late: Optional[float]
    words: str
    phase: Optional[int] = None  # a moment of its own phase
    known: Optional[int] = None  # the moment of its last result, or since which one is promised

    def is_host(self) -> bool:
        return ";" not in self.name

    def is_problem(self) -> bool:
        return self.state not in (None, *NO_PROBLEM)

    def is_hard_problem(self) -> bool:
        return self.is_problem() and self.kind == "HARD"

    def problem_since(self) -> Optional[float]:
        """When a problem got its current kind, soft or hard."""
        return self.hard_since if self.is_hard_problem() and self.hard_since is not None else self.since


def read_remarks(rows: Iterable[Sequence[Any]]) -> List[Remark]:
    found = (Remark(*row) for row in rows)
    return [each._replace(sticky=bool(each.sticky), persistent=bool(each.persistent)) for each in found]


def plain_cells(cells: Sequence[Cell]) -> List[Cell]:
    """The cells of a row as the database gives them back: what is true or false is a number."""
    return [int(cell) if isinstance(cell, bool) else cell for cell in cells]


def checksum_of(table: str, number: int, cells: Sequence[Cell]) -> str:
    return hashlib.blake2b(ascii((table, number, *cells)).encode(), digest_size=8).hexdigest()
