"""What people said in Nagios Core 4, from its `retention.dat`: acknowledgements, downtimes, comments, and notifications that were switched off. For
from_nagios.py --site."""
import pathlib
import re
import time
from typing import Any, Container, Dict, Iterator, List, Tuple

from nagios_values import CannotConvert, LeftOut

Block = Dict[str, str]
Remark = Dict[str, Any]
STATES = {"host": ("UP", "DOWN", "UNREACHABLE"), "service": ("OK", "WARNING", "CRITICAL", "UNKNOWN")}
# Nagios's numbers: the sorts of comments that people and acknowledgements make, a sticky acknowledgement, and the attribute of notifications.
OF_PEOPLE, OF_ACKNOWLEDGEMENT, STICKY, NOTIFICATIONS = "1", "4", "2", 1


def blocks_of(path: pathlib.Path) -> Iterator[Tuple[str, Block]]:
    """The blocks of the file, with their kinds."""
    kind = ""
    members: Block = {}
    for number, line in enumerate(path.read_text(encoding="utf-8", errors="replace").split("\n"), 1):
        text = line.strip()
        name, sign, value = text.partition("=")
        if re.fullmatch(r"\w+ \{", text) and not kind:
            kind, members = text[:-2], {}
        elif text == "}" and kind:
            yield kind, members
            kind = ""
        elif kind and sign:
            members[name] = value
        elif text and not text.startswith("#"):
            raise CannotConvert(f"{path}: line {number} isn't one of Nagios's retention file: {text[:80]!r}")
    if kind:
        raise CannotConvert(f"{path}: it ends within a block: copy it while Nagios doesn't write it")


def remarks_of(path: pathlib.Path, objects: Container[str], left_out: LeftOut) -> List[Remark]:
    """The remarks about objects of the site. Downtimes that are over are left out, and so is what Nagios drops at its next start."""
    found: List[Remark] = []
    said: Dict[str, Block] = {}  # the last comment of an acknowledgement of each object
    blocks = list(blocks_of(path))
    for kind, block in blocks:
        if kind in ("hostcomment", "servicecomment") and block.get("entry_type") == OF_ACKNOWLEDGEMENT:
            said[name_of(block)] = block
    for kind, block in blocks:
        name = name_of(block)
        made = []
        try:
            if kind in ("hostcomment", "servicecomment"):
                made = comment_of(block)
            elif kind in ("hostdowntime", "servicedowntime"):
                made = downtime_of(block, name, left_out)
            elif kind in STATES:
                made = [*acknowledgement_of(kind, block, said.get(name, {})), *mute_of(block)]
        except (KeyError, ValueError, IndexError) as error:
            raise CannotConvert(f"{path}: {kind} of {name}: {error}") from None
        if made and name not in objects:
            left_out.add("remarks about objects that aren't in the configuration", "they are about nothing here", name)
        found += [{"name": name, **each} for each in made if name in objects]
    return found


def name_of(block: Block) -> str:
    host, service = block.get("host_name", ""), block.get("service_description")
    return host if service is None else f"{host};{service}"


def comment_of(block: Block) -> List[Remark]:
    """A comment that people made, unless it goes with Nagios's next start."""
    if block["entry_type"] != OF_PEOPLE or block.get("persistent") != "1":
        return []
    end = int(block.get("expire_time", "0")) if block.get("expires") == "1" else 0
    made_at = int(block["entry_time"])
    return [{"kind": "comment", "author": block["author"] or "nagios", "text": block["comment_data"] or "-", "made_at": made_at, "starts_at": made_at,
             **({"ends_at": end} if end else {}), "persistent": True}]


def downtime_of(block: Block, name: str, left_out: LeftOut) -> List[Remark]:
    begun, fixed, duration = int(block.get("flex_downtime_start", "0")), block["fixed"] == "1", int(block["duration"])
    start, end = int(block["start_time"]), int(block["end_time"])
    if int(block.get("triggered_by", "0")):
        left_out.add("triggered downtimes", "a downtime doesn't begin with another one: make it with the command `downtime`", name)
        return []
    if (end if fixed or not begun else begun + duration) <= time.time() or end <= start:
        return []
    flexible = {} if fixed else {"duration": duration, **({"began_at": begun} if begun else {})}
    return [{"kind": "downtime", "author": block["author"] or "nagios", "text": block["comment"] or "-", "made_at": int(block["entry_time"]),
             "starts_at": start, "ends_at": end, **flexible}]


def acknowledgement_of(kind: str, block: Block, comment: Block) -> List[Remark]:
    """The acknowledgement of an object, with its comment if there is one."""
    if block.get("problem_has_been_acknowledged") != "1" or block["current_state"] == "0":
        return []
    made_at = int(comment.get("entry_time", block.get("last_state_change", "0")))
    return [{"kind": "acknowledgement", "author": comment.get("author") or "nagios", "text": comment.get("comment_data") or "acknowledged in Nagios",
             "made_at": made_at, "starts_at": made_at, "sticky": block.get("acknowledgement_type") == STICKY, "persistent": comment.get("persistent") == "1",
             "state": STATES[kind][int(block["current_state"])]}]


def mute_of(block: Block) -> List[Remark]:
    """Whether somebody switched off the notifications of an object."""
    if block.get("notifications_enabled") != "0" or not int(block.get("modified_attributes", "0")) & NOTIFICATIONS:
        return []
    now = int(time.time())
    return [{"kind": "mute", "author": "nagios", "text": "notifications are disabled", "made_at": now, "starts_at": now}]
