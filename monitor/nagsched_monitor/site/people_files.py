"""The files of a site for people, which change no check: groups.json, inventory.json, directory.json, and remarks.json with remarks that were made before the
site had a monitor, which takes them over once. `docs/monitor.md` and `docs/alerting.md` describe their members."""
import contextlib
import pathlib
from typing import Any, Callable, Container, Dict, Generic, List, Mapping, NamedTuple, Optional, Tuple, TypeVar

from ..faults import SiteFault, require
from ..model.clock import LAST_TIME
from ..model.remarks import REMARK_KINDS, Remark
from ..model.text import plain_text
from ..system.log import Trouble
from .json_files import ANY, FLAG, LIST, NAMES, TEXT, YEAR, Form, members_of, one_of, read_by_name, read_object, whole

GROUPS, INVENTORY, REMARKS, DIRECTORY = "groups.json", "inventory.json", "remarks.json", "directory.json"
KINDS = ("host_groups", "service_groups", "contact_groups", "contacts")
# What an object can be notified of: the severities of alerts, recoveries and flapping.
OPTIONS = ("warning", "critical", "unknown", "unreachable", "recovery", "flapping")
TEXTS = ("display_name", "alias", "address", "notes", "notes_url", "action_url", "icon_image", "icon_image_alt", "vrml_image", "statusmap_image", "2d_coords",
         "3d_coords")
# The facts that an alert has: those of the host, also in alerts of its services, and those of the object.
OF_THE_HOST, OF_THE_OBJECT = ("alias", "address"), ("notes", "notes_url", "action_url")
OF_A_NAME = ("alias", "notes", "notes_url", "action_url", "email", "pager")  # the texts of a group or a contact
NOTIFICATIONS = {
    "enabled": FLAG, "period": TEXT, "delay": whole(0, YEAR), "interval": whole(0, YEAR),
    "options": Form(f"a list of {', '.join(OPTIONS)}", lambda value: isinstance(value, list) and all(each in OPTIONS for each in value)),
}
# The members of a remark; all before `sticky` are needed, and also `ends_at` of a downtime.
TIME, WORDS = whole(0, LAST_TIME), Form("a text that isn't empty", lambda value: isinstance(value, str) and value != "")
REMARK = {
    "kind": one_of(REMARK_KINDS), "name": TEXT, "author": WORDS, "text": WORDS, "made_at": TIME, "starts_at": TIME,
    "sticky": FLAG, "persistent": FLAG, "ends_at": TIME, "duration": TIME, "began_at": TIME, "state": TEXT,
}
Facts = Mapping[str, str]  # the texts of an object by their names; the name of a custom variable begins with `_`
Directory = Mapping[str, Mapping[str, Mapping[str, Any]]]  # the members of each group and each contact, by their kind and name


class Groups(NamedTuple):
    """The names of each kind that an object has, and what it wants of notifications, as labels."""

    names: Mapping[str, List[str]] = {}
    notifications: Mapping[str, str] = {}


NO_GROUPS = Groups()


def read_groups(folder: pathlib.Path, objects: Optional[Container[str]] = None) -> Dict[str, Groups]:
    """The groups of each object that has some. With `objects`, a name that isn't one of them is a fault."""
    groups: Dict[str, Groups] = {}
    names = Form("a list of names without commas", lambda value: NAMES.fits(value) and not any("," in each for each in value))
    for name, place, members in read_by_name(folder, GROUPS, {**dict.fromkeys(KINDS, names), "notifications": ANY}, objects):
        notifications = read_notifications(members.pop("notifications", {}), f"{place}: notifications")
        groups[name] = Groups(members, notifications)
    return groups


def read_notifications(value: object, place: str) -> Dict[str, str]:
    """The labels for what differs from an object that is notified of everything, at any time and at once."""
    members = members_of(value, place, NOTIFICATIONS)
    is_enabled, period = members.get("enabled", True), members.get("period", "")
    labels = {"notification_period": period} if period else {}
    if not is_enabled or "options" in members:
        labels["notification_options"] = between_commas(is_enabled and members["options"] or ["none"])
    return {**labels, **{f"notification_{member}": f"{members[member]}s" for member in ("delay", "interval") if member in members}}


def between_commas(names: List[str]) -> str:
    """A list as a label, such as `,linux,web,`, in which an expression finds one name."""
    return f",{','.join(names)},"


def labels_of(name: str, groups: Mapping[str, Groups]) -> Dict[str, str]:
    """An object as labels of an alert or a series: its host and service, its groups, and what it wants of notifications."""
    host, _, service = name.partition(";")
    of_object = groups.get(name, NO_GROUPS)
    lists = {kind: between_commas(names) for kind, names in of_object.names.items() if names}
    return {"host": host, **({"service": service} if service else {}), **lists, **of_object.notifications}


def read_inventory(folder: pathlib.Path, objects: Optional[Container[str]] = None) -> Dict[str, Facts]:
    """The facts of each object that has some. With `objects`, a name that isn't one of them is a fault."""
    inventory: Dict[str, Facts] = {}
    for name, place, members in read_by_name(folder, INVENTORY, {**dict.fromkeys(TEXTS, TEXT), "custom": ANY}, objects):
        custom = members_of(members.pop("custom", {}), f"{place}: custom")
        members_of(custom, f"{place}: custom", dict.fromkeys(custom, TEXT))
        inventory[name] = {**members, **{f"_{variable}": text for variable, text in custom.items()}}
    return inventory


def read_remarks(folder: pathlib.Path, objects: Container[str]) -> List[Remark]:
    """The remarks in the file of a site. Their numbers are their places in it."""
    found = []
    for number, value in enumerate(read_object(folder, REMARKS, {"remarks": LIST}).get("remarks", []), 1):
        place = f"{REMARKS}: remark {number}"
        its = members_of(value, place, REMARK)
        for member in (*list(REMARK)[:6], *(["ends_at"] if its.get("kind") == "downtime" else [])):
            require(member in its, f"{place}: it needs {member}")
        require(its["name"] in objects, f"{place}: there is no object {its['name']!r}")
        read = {member: float(it) if REMARK[member] is TIME else plain_text(it) if REMARK[member] is WORDS else it for member, it in its.items()}
        found.append(Remark(id=number, **read))
    return found


def read_directory(folder: pathlib.Path) -> Dict[str, Mapping[str, Mapping[str, Any]]]:
    """The members of groups and contacts, by their kind and name."""
    directory = read_object(folder, DIRECTORY, dict.fromkeys(KINDS, ANY))
    for kind, names in directory.items():
        for name, members in members_of(names, f"{DIRECTORY}: {kind}").items():
            members_of(members, f"{DIRECTORY}: {kind}: {name}", {**dict.fromkeys(OF_A_NAME, TEXT), "members": NAMES})
    return directory


def facts_of(name: str, inventory: Mapping[str, Facts]) -> Dict[str, str]:
    host, its = inventory.get(name.partition(";")[0], {}), inventory.get(name, {})
    return {fact: of[fact] for facts, of in ((OF_THE_HOST, host), (OF_THE_OBJECT, its)) for fact in facts if of.get(fact)}


Content = TypeVar("Content")


class WatchedFile(Generic[Content]):
    """A file of a site for a process next to the monitor: read again when it changes. A faulty file is logged, and changes nothing."""

    def __init__(self, path: pathlib.Path, read: Callable[[pathlib.Path], Dict[str, Content]], log: Callable[[str], None] = lambda line: None) -> None:
        self._path, self._read = path, read
        self._trouble = Trouble(log, f"what {path.name} had before still counts")
        # The state of the file when it was read; empty if it didn't exist.
        self._file_state: Optional[Tuple[int, ...]] = None
        self._content: Dict[str, Content] = {}

    def read(self) -> Dict[str, Content]:
        file_state: Tuple[int, ...] = ()
        with contextlib.suppress(OSError):
            stat = self._path.stat()
            file_state = stat.st_mtime_ns, stat.st_size, stat.st_ino
        if file_state != self._file_state:
            with self._trouble.noted(SiteFault):
                self._content, self._file_state = self._read(self._path.parent), file_state
        return self._content
