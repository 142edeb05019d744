"""Nagios's commands: the pipe through which its pages and daemons give them, the requests that obey them, and their way to the monitor.

    [1795766400] SCHEDULE_FORCED_SVC_CHECK;web;http;1795766400
    [1795766400] PROCESS_SERVICE_CHECK_RESULT;backup;nightly;2;no space left
"""
import itertools
import json
import os
import pathlib
import re
import time
from typing import Any, Dict, Iterable, List, Mapping, Sequence, Tuple

from ..faults import MonitorFault, RequestFault, raising, require
from ..site.people_files import Groups
from .client import send_requests

NAME = "nagios.cmd"
MODE = 0o660
LONGEST_LINE = 65_536
READ_BYTES = 65_536
AT_ONCE = 64  # requests that are made together
SHOWN = 80  # the number of characters that are shown of a line that isn't a command

LINE = re.compile(r"\[\d{1,20}\] ([A-Z][A-Z0-9_]*)(?:;(.*))?")
Request = Dict[str, Any]
Services = Mapping[str, Sequence[str]]  # the descriptions of the services of each host
GroupsByName = Mapping[str, Groups]

# The objects that commands are about, as their names say it: one object, or several.
ONE = ("HOST", "SVC")
SEVERAL = ("HOST_SVC", "HOSTGROUP_HOST", "HOSTGROUP_SVC", "SERVICEGROUP_HOST", "SERVICEGROUP_SVC")
# The forms of commands: their objects, the members of their request that are always the same, and the words after the object. Each word is a member, as its
# reader has it. A word with a question mark may be left out; the last one may have semicolons in it.
MUTE = {"do": "mute", "author": "nagios.cmd", "text": "notifications are disabled"}
FORMS: Sequence[Tuple[str, Sequence[str], Request, str]] = (
    ("SCHEDULE_{}_CHECK", ONE, {"do": "reschedule", "force": False}, "at"),
    ("SCHEDULE_FORCED_{}_CHECK", ONE, {"do": "reschedule", "force": True}, "at"),
    ("SCHEDULE_{}_CHECKS", SEVERAL[:1], {"do": "reschedule", "force": False}, "at"),
    ("SCHEDULE_FORCED_{}_CHECKS", SEVERAL[:1], {"do": "reschedule", "force": True}, "at"),
    ("ENABLE_{}_CHECK", ONE, {"do": "enable"}, ""),
    ("DISABLE_{}_CHECK", ONE, {"do": "disable"}, ""),
    ("ENABLE_{}_CHECKS", SEVERAL, {"do": "enable"}, ""),
    ("DISABLE_{}_CHECKS", SEVERAL, {"do": "disable"}, ""),
    ("PROCESS_{}_CHECK_RESULT", ("HOST", "SERVICE"), {"do": "result"}, "code output?"),
    ("ACKNOWLEDGE_{}_PROBLEM", ONE, {"do": "ack"}, "sticky notify persistent author text"),
    ("REMOVE_{}_ACKNOWLEDGEMENT", ONE, {"do": "remove", "kind": "acknowledgement"}, ""),
    ("SCHEDULE_{}_DOWNTIME", (*ONE, *SEVERAL), {"do": "downtime"}, "from until fixed trigger duration author text"),
    ("DEL_{}_DOWNTIME", ONE, {"do": "remove", "kind": "downtime"}, "id"),
    ("DEL_DOWNTIME_BY_HOST_NAME{}", ("",), {"do": "remove", "kind": "downtime"}, "host service? from? text?"),
    ("DEL_DOWNTIME_BY_START_TIME_COMMENT{}", ("",), {"do": "remove", "kind": "downtime"}, "from? text?"),
    ("ADD_{}_COMMENT", ONE, {"do": "comment"}, "persistent author text"),
    ("DEL_{}_COMMENT", ONE, {"do": "remove", "kind": "comment"}, "id"),
    ("DEL_ALL_{}_COMMENTS", ONE, {"do": "remove", "kind": "comment"}, ""),
    ("DISABLE_{}_NOTIFICATIONS", (*ONE, *SEVERAL), MUTE, ""),
    ("ENABLE_{}_NOTIFICATIONS", (*ONE, *SEVERAL), {"do": "remove", "kind": "mute"}, ""),
    ("DISABLE_NOTIFICATIONS{}", ("",), {**MUTE, "name": ""}, ""),
    ("ENABLE_NOTIFICATIONS{}", ("",), {"do": "remove", "kind": "mute", "name": ""}, ""),
)
COMMANDS = {form.format(of): (of, request, words.split()) for form, kinds, request, words in FORMS for of in kinds}
NUMBERS = ("at", "code", "sticky", "notify", "persistent", "from", "until", "fixed", "trigger", "duration", "id")


class Pipe:
    """The pipe in a folder. The caller waits for its file to be readable, and then calls `read`."""

    def __init__(self, folder: pathlib.Path) -> None:
        """Makes the pipe, or takes an existing one. A file, which a writer made while there was no pipe, is replaced, and its lines are taken over."""
        self._path = folder / NAME
        self.taken_over: List[bytes] = []
        with raising(MonitorFault, self._path):
            if self._path.is_file():
                old = self._path.replace(self._path.with_suffix(".old"))
                os.mkfifo(self._path, MODE)
                self.taken_over = old.read_bytes().splitlines()
                old.unlink()
            elif not self._path.exists():
                os.mkfifo(self._path, MODE)
            require(self._path.is_fifo(), f"{self._path} is no pipe: move it away", MonitorFault)
            os.chmod(self._path, MODE)
            # It is open for writing too, so that it has no end when a writer closes it.
            self.file = os.open(self._path, os.O_RDWR | os.O_NONBLOCK | os.O_CLOEXEC)
        self._unread = b""

    def read(self) -> List[bytes]:
        """The complete lines. A line that is too long is cut one byte after the longest length."""
        try:
            data = os.read(self.file, READ_BYTES)
        except BlockingIOError:
            return []
        *lines, rest = (self._unread + data).split(b"\n")
        self._unread = rest[: LONGEST_LINE + 1]
        return [line[: LONGEST_LINE + 1] for line in lines]

    def close(self) -> None:
        """Closes the pipe and removes it, so that no writer waits for a reader that doesn't come."""
        os.close(self.file)
        self._path.unlink(missing_ok=True)


def requests_of(line: bytes, services: Services, groups: GroupsByName = {}) -> Tuple[str, List[Request]]:
    """The name of the command of a line, and the requests that obey it. `RequestFault` if it isn't obeyed here, or is no command."""
    text = line.decode(errors="replace")
    require(len(line) <= LONGEST_LINE, f"a line is longer than {LONGEST_LINE} bytes: {text[:SHOWN]!r}..", RequestFault)
    found = LINE.fullmatch(text.rstrip("\r"))
    if found is None:
        raise RequestFault(f"a line has to be [TIME] COMMAND;ARGUMENT.., not {text[:SHOWN]!r}")
    command, rest = found.group(1), found.group(2) or ""
    require(command in COMMANDS, f"{command} isn't obeyed here", RequestFault)
    of, request, words = COMMANDS[command]
    with raising(RequestFault, command, ValueError):
        count = 0 if words == ["id"] else {"": 0, "SVC": 2, "SERVICE": 2}.get(of, 1)
        total = count + len(words)
        given = rest.split(";", max(0, total - 1)) if rest else []
        is_complete = len(given) >= total - sum(word.endswith("?") for word in words)
        require(is_complete, f"it needs {total} arguments, and has {len(given)}", ValueError)
        read = {word.rstrip("?"): text for word, text in zip(words, given[count:]) if text or not word.endswith("?")}
        members = {**request, **adjusted(request["do"], of, {word: read_number(text) if word in NUMBERS else text for word, text in read.items()})}
        names = names_of(of, ";".join(rest.split(";")[:count]), services, groups) if count else []
        return command, [{**members, "name": name} for name in names] if count else [members]


def names_of(of: str, name: str, services: Services, groups: GroupsByName) -> Sequence[str]:
    """The objects that a command is about: a host group also has the services of its hosts, and a service group the hosts of its services."""
    group, _, what = of.rpartition("_")
    hosts: Iterable[str] = [name]
    if group == "HOST":
        require(name in services, f"there is no host {name[:SHOWN]!r}", ValueError)
    elif group:
        members = [each for each, its in groups.items() if name in its.names.get(f"{group[:-5].lower()}_groups", ())]
        require(members, f"there is no {group[:-5].lower()} group {name[:SHOWN]!r}", ValueError)
        hosts = dict.fromkeys(each.partition(";")[0] for each in members)
        if of == "SERVICEGROUP_SVC":
            return [each for each in members if ";" in each]
    return [f"{host};{each}" for host in hosts for each in services.get(host, ())] if group and what == "SVC" else list(hosts)


def adjusted(do: str, of: str, members: Request) -> Request:
    """The members of a command as a request has them."""
    if do == "result":
        # A host's code is a state here, which the scheduler turns into DOWN or UNREACHABLE. The pipe has two letters for each line feed of the output.
        code = members["code"]
        require(of != "HOST" or code <= 2, f"the code of a host has to be 0, 1 or 2, not {code}", ValueError)
        return {"code": 2 if of == "HOST" and code else code, "output": members.get("output", "").replace("\\n", "\n")}
    if do == "ack":
        members["sticky"] = members["sticky"] == 2
        del members["notify"]
    if do == "downtime":
        require(members.pop("trigger") == 0, "a downtime that begins with another one can't be made here", ValueError)
        if members.pop("fixed"):
            del members["duration"]
    if "persistent" in members:
        members["persistent"] = members["persistent"] > 0
    if "service" in members:
        members["name"] = f"{members.pop('host')};{members.pop('service')}"
    return members


def read_number(word: str) -> int:
    require(re.fullmatch("[0-9]{1,15}", word.strip()), f"it needs a number, not {word[:SHOWN]!r}", ValueError)
    return int(word)


class CommandQueue:
    """Requests that wait for the monitor. It logs and counts the commands that aren't obeyed, with the word for where they came from."""

    def __init__(self, site: pathlib.Path, source: str) -> None:
        self._site, self._source = site, source
        self.waiting: List[Tuple[str, Request]] = []
        self.refused: List[str] = []  # why commands aren't obeyed, since it was cleared
        # Each request has a number of its own, so that it isn't obeyed twice when it is sent twice.
        self._numbers = map(f"pipe-{os.getpid()}-{time.time_ns()}-{{}}".format, itertools.count(1))

    def add(self, line: bytes, services: Services, groups: GroupsByName) -> None:
        try:
            name, requests = requests_of(line, services, groups)
            self.waiting.extend((name, {**request, "number": next(self._numbers)}) for request in requests)
        except RequestFault as fault:
            self._refuse(str(fault))

    def _refuse(self, why: str) -> None:
        self.refused.append(why)
        self.waiting.append(("", {"do": "refused", "text": f"{self._source}: {why}"}))

    def send(self) -> None:
        """Has the monitor obey the waiting requests. Requests that it doesn't answer, or can't obey now, still wait."""
        while self.waiting:
            some = self.waiting[:AT_ONCE]
            try:
                answers = send_requests(self._site, [json.dumps(request, ensure_ascii=False).encode(errors="replace") for _, request in some])
            except MonitorFault:
                return  # it begins, ends or reads its site
            again, refused = [], []
            for (name, request), answer in zip(some, map(json.loads, answers)):
                if answer.get("again", False):
                    again.append((name, request))
                elif "error" in answer:
                    refused.append(f"{name}: {request.get('name', '')}: {answer['error']}")
            self.waiting[: len(answers)] = again
            for why in refused:
                self._refuse(why)
            if again or len(answers) < len(some):
                return

    def drop(self) -> List[str]:
        """Drops what still waits, and returns lines that say so."""
        left = [f"{name or request['text']}: the monitor didn't answer in time" for name, request in self.waiting]
        self.waiting.clear()
        return left
