"""The remarks that requests make, and those that they remove. `OTHERS` has the members of each request.

An acknowledgement holds until the state changes, with `sticky` until the object is well, and with `until` at most until then. A downtime with `duration` is
flexible: it begins with a problem between the two times, and lasts so many seconds. A comment with `"persistent":false` stays until the next start. A mute
without a name is one of the whole site. `remove` removes the remarks that agree with all of its members."""
import math
from typing import Any, Iterable, List, Mapping, Optional

from ..faults import RequestFault, require
from ..model.clock import LAST_TIME
from ..model.objects import ObjectState
from ..model.remarks import Kind, Remark
from ..model.text import plain_text
from ..site.json_files import ANY, FLAG, Form, Forms

# In bytes of UTF-8, in seconds, and in number.
LONGEST_AUTHOR, LONGEST_TEXT = 256, 4_096
LONGEST_DURATION = 10 * 365 * 86_400
MOST_REMARKS = 100_000
KINDS: Mapping[str, Kind] = {"ack": "acknowledgement", "downtime": "downtime", "comment": "comment", "mute": "mute"}  # by the request's word
Members = Mapping[str, Any]


def number_up_to(most: int) -> Form:
    """A number of seconds, which no NaN is."""
    return Form(f"a number of seconds from 0 to {most}", lambda value: value is None or type(value) in (int, float) and 0 <= value <= most)


TIME = number_up_to(LAST_TIME)
# The other members of each request, and those by which remarks are chosen.
SAID: Forms = {"name": ANY, "author": ANY, "text": ANY, "until": TIME}
OTHERS: Mapping[str, Forms] = {
    "ack": {**SAID, "sticky": FLAG, "persistent": FLAG}, "downtime": {**SAID, "from": TIME, "duration": number_up_to(LONGEST_DURATION)},
    "comment": {**SAID, "persistent": FLAG}, "mute": SAID,
}
CHOICES: Forms = {"id": ANY, "kind": ANY, "name": ANY, "host": ANY, "from": TIME, "text": ANY}


def new_remark(members: Members, id: int, obj: Optional[ObjectState], now: float) -> Remark:
    kind, name, standing = KINDS[members["do"]], "" if obj is None else obj.name, None if obj is None else obj.standing
    times = {member: float(members[member]) for member in ("from", "until", "duration") if members.get(member) is not None}
    starts_at, ends_at, duration, state = times.get("from") or now, times.get("until"), times.get("duration"), None
    require(ends_at is None or max(now, starts_at) < ends_at, "until has to be after now, and after from", RequestFault)
    require(kind != "downtime" or ends_at is not None, "a downtime needs until, the time of its end", RequestFault)
    require(duration is None or duration > 0, "duration has to be more than 0 seconds", RequestFault)
    if kind == "acknowledgement":
        state = "PENDING" if standing is None else standing.state
        require(standing is not None and standing.is_problem(), f"{name} is {state}: there is no problem to acknowledge", RequestFault)
    author, text = read_text(members, "author", LONGEST_AUTHOR), read_text(members, "text", LONGEST_TEXT)
    sticky, persistent = members.get("sticky", False), members.get("persistent", kind == "comment")
    return Remark(id, kind, name, author, text, now, starts_at, ends_at, sticky, persistent, duration, None, state)


def chosen_remarks(members: Members, remarks: Iterable[Remark]) -> List[Remark]:
    """The remarks that a request removes: those that agree with all of its members. An object may have no mute."""
    number, kind, name, host, starts_at, text = map(members.get, CHOICES)
    require(any(each is not None for each in (number, name, host, starts_at, text)), f"one of {', '.join(CHOICES)} has to be given", RequestFault)
    found = [
        each for each in remarks
        if number in (None, each.id) and kind in (None, each.kind) and name in (None, each.name) and host in (None, each.name.partition(";")[0])
        and starts_at in (None, math.floor(each.starts_at)) and text in (None, each.text)
    ]
    require(found or kind == "mute", f"there is no such {kind if isinstance(kind, str) else 'remark'}", RequestFault)
    return found


def read_text(members: Members, member: str, most: int) -> str:
    text = members.get(member)
    if not isinstance(text, str) or not text.strip():
        raise RequestFault(f"{member} has to be a text that isn't empty")
    plain = plain_text(text, 2 * most).strip()
    require(len(plain.encode()) <= most, f"{member} has more than {most} bytes", RequestFault)
    return plain
