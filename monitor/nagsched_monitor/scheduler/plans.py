"""The plan of a turn, and what its calls were answered."""
from dataclasses import dataclass, field
from typing import Callable, List, NamedTuple, Optional, Set

from ..model.objects import ObjectState
from ..model.protocol import Answer, Call, Standing
from ..store.store import Write
from .mirroring import PlannedCall


@dataclass
class Plan:
    """The plan of a turn: one list of calls, with everything that is written with them. Then the actions after all of it is stored, and after the calls were
    answered."""

    calls: List[PlannedCall] = field(default_factory=list)
    writes: List[Write] = field(default_factory=list)
    then: List[Callable[[], None]] = field(default_factory=list)
    last: List[Callable[[], None]] = field(default_factory=list)
    # Plugins that end with this plan, and the objects whose next checks it sets to now, and to later.
    freed: int = 0
    at_once: Set[str] = field(default_factory=set)
    later: Set[str] = field(default_factory=set)
    # The objects whose next checks are set by requests: nothing else sets them in this turn.
    requested: Set[str] = field(default_factory=set)


class ObjectAnswer(NamedTuple):
    """An answer with the object that it is about, and the standing that the object had before."""

    call: Call
    answer: Answer
    object: Optional[ObjectState]
    before: Optional[Standing]
