"""The values of Nagios's files, read and tested; an error names its file and line. For from_nagios.py."""
import collections
import errno
import fractions
import functools
import math
import pathlib
import sys
from typing import Any, Callable, Collection, Counter, Dict, Iterator, List, NoReturn, Optional, Sequence, Set, Tuple, Union

import nagios_parts

MOST_UNITS = 525_600
MINUTES, MILLISECONDS = 525_600, 86_400_000
# The number of objects that are named for each kind that is left out.
FEW = 5


class CannotConvert(Exception):
    """A setting that a setup can't express."""


class Value(str):
    """The text of a member, with its place in the file."""

    place: str

    def __new__(cls, text: str, place: str) -> "Value":
        value = super().__new__(cls, text)
        value.place = place
        return value

    def refuse(self, why: str) -> NoReturn:
        raise CannotConvert(f"{self.place}: {why}")


Members = Dict[str, Value]
# An object of a file: its kind, its place and its members.
Definition = Tuple[str, str, Members]
Setup = Dict[str, Any]


class LeftOut:
    """The report: settings without a counterpart here, or that need a route of Alertmanager, by kind. How often each occurred, its effect, and for which
    objects."""

    # How the kinds begin, by harm: first those that change which checks are made and what counts as a problem, then those that change who is notified.
    # The others follow by name.
    WORST = (
        "quotes around values", "times ", "retry_interval 0", "parents of services", "passive_checks_enabled 0", "is_volatile", "passive results of hosts",
        "dependency_period", "flap thresholds of an object", "flap_detection_enabled 0", "flap_detection_options", "initial_state", "enable_notifications",
        "notifications_enabled 0", "notification_options", "notification_period", "first_notification_delay", "dependencies of notifications",
        "hostescalation definitions", "serviceescalation definitions", "contact definitions", "contactgroup definitions", "notification_interval",
        "event_handler",
    )

    def __init__(self) -> None:
        self.kinds: Counter[str] = collections.Counter()
        self.meanings: Dict[str, str] = {}
        self.verdicts: Dict[str, str] = {}
        self.names: Dict[str, List[str]] = collections.defaultdict(list)
        # The time periods that include each time: an object with one of these loses nothing.
        self.always: Set[str] = set()

    def add(self, kind: str, meaning: str, name: Optional[str] = None, verdict: str = "left out") -> None:
        self.kinds[kind] += 1
        self.meanings[kind], self.verdicts[kind] = meaning, verdict
        if name is not None:
            self.names[kind].append(name)

    def of_verdict(self, verdict: str) -> Set[str]:
        """The kinds with this verdict."""
        return {kind for kind, its in self.verdicts.items() if its == verdict}

    def rank(self, kind: str) -> Tuple[int, str]:
        return next((rank for rank, worst in enumerate(self.WORST) if kind.startswith(worst)), len(self.WORST)), kind

    def report(self, without: Collection[str] = (), named: int = 0) -> None:
        """Names each kind that isn't one of these, the worst first, with some of its objects."""
        for kind in sorted(self.kinds.keys() - set(without), key=self.rank):
            count = len(set(self.names[kind])) or self.kinds[kind]
            print(f"{self.verdicts[kind]}: {kind} ({count}): {self.meanings[kind]}{self.example_names(kind, named)}", file=sys.stderr)

    def example_names(self, kind: str, named: int) -> str:
        names = list(dict.fromkeys(self.names[kind]))
        more = f" and {len(names) - named} more" if len(names) > named else ""
        return f": {', '.join(names[:named])}{more}" if named and names else ""


# ---- reading


def reason(error: OSError) -> str:
    """Why a file can't be read or written, without its path, and what to do about it."""
    advice = {errno.EACCES: ": run this as a user that may, such as `sudo -u nagios`"}
    return f"{error.strerror}{advice.get(error.errno or 0, '')}"


def lines_of(path: pathlib.Path, missing: str = "") -> Iterator[Tuple[str, str]]:
    """The lines of a file except comments and empty ones, each with its place. The advice is for a file that doesn't exist."""
    try:
        lines = path.read_bytes().split(b"\n")
    except FileNotFoundError:
        raise CannotConvert(f"{path}: there is no such file{missing}") from None
    except OSError as error:
        raise CannotConvert(f"{path}: {reason(error)}") from None
    for number, line in enumerate(lines, 1):
        try:
            text = line.decode("utf-8").strip()
        except UnicodeDecodeError:
            raise CannotConvert(f"{path}:{number}: this line isn't UTF-8: convert the file, for example with `iconv -f latin1 -t utf-8`") from None
        if text and text[0] not in "#;":
            yield f"{path}:{number}", text


def read_options(path: pathlib.Path) -> Members:
    """The options of nagios.cfg; if one occurs twice, the last counts."""
    options = {}
    for place, line in lines_of(path, ": the first file has to be nagios.cfg, on Debian /etc/nagios4/nagios.cfg"):
        name, equals, value = line.partition("=")
        if line.startswith("define "):
            raise CannotConvert(f"{place}: this file has objects: name nagios.cfg first, and then objects.precache")
        if not equals:
            raise CannotConvert(f"{place}: an option has to be like name=value, not {line!r}")
        options[name.strip()] = Value(value.strip(), place)
    return options


def read_objects(path: pathlib.Path) -> List[Definition]:
    """The definitions of an object file: the kind of each, its place and its members."""
    objects: List[Definition] = []
    members: Optional[Members] = None
    for place, line in lines_of(path, ": Nagios writes it as its precached_object_file, with `nagios4 -vp nagios.cfg`"):
        if members is None:
            words = line.replace("{", " { ").split()
            if len(words) != 3 or words[0] != "define" or words[2] != "{":
                is_option = not objects and "=" in line
                raise CannotConvert(f"{place}: " + ("this file has options: name nagios.cfg first, and then objects.precache" if is_option
                                                    else f"a definition has to begin like `define host {{`, not {line!r}"))
            members = {}
            objects.append((words[1], place, members))
        elif line == "}":
            members = None
        else:
            name, _, value = line.partition("\t") if "\t" in line else line.partition(" ")
            members[name] = Value(value.strip(), place)
    if members is not None:
        raise CannotConvert(f"{path}: its last definition has no `}}`: let Nagios write the file again")
    return objects


def required(members: Members, name: str, place: str) -> Value:
    if name not in members:
        raise CannotConvert(f"{place}: the definition has no {name}")
    return members[name]


def split_list(text: str) -> List[str]:
    """The names of a list with commas."""
    return [name.strip() for name in text.split(",") if name.strip()]


def full_name(members: Members, before: str = "") -> str:
    """The full name of a host or a service; with `dependent_` before its members, that of a dependent."""
    host, description = members[f"{before}host_name"], members.get(f"{before}service_description")
    return str(host) if description is None else f"{host};{description}"


def checked_objects(objects: Sequence[Definition]) -> List[Tuple[str, str, Members]]:
    """Each host and service: its full name, its kind and its members."""
    return [(full_name(members), kind, members) for kind, _, members in objects if kind in ("host", "service")]


exactly = functools.lru_cache(maxsize=1_024)(fractions.Fraction)


def number(value: Value) -> fractions.Fraction:
    """A number that is written with or without a point, exactly. Many objects share few different numbers."""
    try:
        return exactly(str(value))
    except (ValueError, ZeroDivisionError):
        value.refuse(f"this has to be a number, not {value!r}")


def whole_number(value: Value, of: fractions.Fraction, least: int, most: int) -> int:
    """The number of a value, which has to be whole and within its limits."""
    if of.denominator != 1 or not least <= of <= most:
        value.refuse(f"{value} is {float(of):g} here; it can be a whole number from {least} to {most}")
    return int(of)


def switch(value: Value) -> bool:
    if value not in ("0", "1"):
        value.refuse(f"this has to be 0 or 1, not {value!r}")
    return value == "1"


# ---- options


def delay(value: Value) -> Union[str, int]:
    """A delay method: a letter, or seconds there and milliseconds here."""
    return str(value) if value in ("n", "d", "s") else whole_number(value, number(value) * 1000, 0, MILLISECONDS)


def factor(value: Value) -> Union[str, int]:
    return "s" if value == "s" else whole_number(value, number(value), 1, nagios_parts.MOST_OBJECTS)


def percent(value: Value) -> int:
    """A percent, rounded up: percents are whole here."""
    return whole_number(value, fractions.Fraction(math.ceil(number(value))), 0, 100)


def number_between(least: int, most: int) -> Callable[[Value], int]:
    return lambda value: whole_number(value, number(value), least, most)
