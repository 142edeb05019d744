"""Remarks: what people say about the states of objects. Some hold an object: people aren't notified of it meanwhile."""
from typing import Dict, Iterable, List, Literal, Mapping, NamedTuple, Optional, Sequence

# A mute is the switch of an object's notifications: it holds until somebody removes it.
Kind = Literal["acknowledgement", "downtime", "comment", "mute"]
REMARK_KINDS: Sequence[Kind] = ("acknowledgement", "downtime", "comment", "mute")
WELL = ("OK", "UP")


class Remark(NamedTuple):
    """A remark about one object. Times are seconds since 1970 of the wall clock."""

    id: int  # no later remark of a site has the same
    kind: Kind
    name: str  # the full name of its object; empty for a mute of the whole site
    author: str
    text: str
    made_at: float
    starts_at: float
    # When it ends; None if no time ends it. A flexible downtime has to begin before that.
    ends_at: Optional[float] = None
    sticky: bool = False  # whether an acknowledgement holds until the object is well; without it, until the state changes
    persistent: bool = False  # whether a comment stays at a restart, and an acknowledgement stays as a comment after its end
    # How long a flexible downtime lasts, in seconds, and when it began; a fixed one has neither.
    duration: Optional[float] = None
    began_at: Optional[float] = None
    state: Optional[str] = None  # the state that was acknowledged

    def end(self) -> Optional[float]:
        return self.ends_at if self.duration is None or self.began_at is None else self.began_at + self.duration

    def is_over(self, now: float) -> bool:
        end = self.end()
        return end is not None and now >= end

    def holds(self, now: float) -> bool:
        begins = self.starts_at if self.duration is None else self.began_at
        return self.kind != "comment" and begins is not None and begins <= now and not self.is_over(now)

    def at(self, now: float, state: Optional[str]) -> Optional["Remark"]:
        """What is left of it at a time at which its object is in a state, None if that isn't known; None for nothing."""
        is_well, is_other = state in WELL, state not in (None, self.state)
        if self.kind == "acknowledgement" and (is_well if self.sticky else is_other) or self.is_over(now):
            return self.ended()
        is_awaited = self.duration is not None and self.began_at is None and self.starts_at <= now
        return self._replace(began_at=now) if is_awaited and state is not None and not is_well else self

    def ended(self) -> Optional["Remark"]:
        """What stays when it ends: a comment if it is a persistent acknowledgement."""
        return self._replace(kind="comment", ends_at=None) if self.kind == "acknowledgement" and self.persistent else None


def holding_remarks(remarks: Iterable[Remark], now: float) -> Dict[str, List[Remark]]:
    found: Dict[str, List[Remark]] = {}
    for each in remarks:
        if each.holds(now):
            found.setdefault(each.name, []).append(each)
    return found


def remarks_for(name: str, holding: Mapping[str, Sequence[Remark]]) -> List[Remark]:
    """The remarks that hold an object: its own, downtimes of its host, and the mute of the site."""
    host, is_service, _ = name.partition(";")
    of_host = [each for each in holding.get(host, ()) if each.kind == "downtime"] if is_service else []
    return [*holding.get(name, ()), *of_host, *holding.get("", ())]
