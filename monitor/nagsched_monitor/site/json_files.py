"""Reading the JSON files of a site: an error in one is a `SiteFault` that names the place. nagsched-from-nagios replaces them together.

The members that an object may have are given with the form of each."""
import contextlib
import fcntl
import json
import os
import pathlib
from typing import Any, Callable, Collection, Container, Dict, Iterator, Mapping, NamedTuple, Optional, Tuple, Type

from ..faults import SiteFault, raising, require, trouble_text
from ..system.poller import keep_trying

MOST_SECONDS = 86_400
YEAR = 31_536_000  # the longest freshness of a result, and the longest delay of a notification, in seconds
PATIENCE = 10.0  # the longest wait for files that are being written, in seconds


class Form(NamedTuple):
    """What a value can be: in words, and as a test."""

    words: str
    fits: Callable[[Any], bool]


ANY = Form("anything", lambda value: True)  # it is tested elsewhere
TEXT = Form("a text", lambda value: isinstance(value, str))
FLAG = Form("true or false", lambda value: isinstance(value, bool))
LIST = Form("a list", lambda value: isinstance(value, list))
NAMES = Form("a list of names", lambda value: isinstance(value, list) and all(isinstance(each, str) and each for each in value))


def whole(least: int, most: int) -> Form:
    return Form(f"a whole number from {least} to {most}", lambda value: type(value) is int and least <= value <= most)


def seconds(most: int = MOST_SECONDS) -> Form:
    return Form(f"a number of seconds up to {most}", lambda value: type(value) in (int, float) and 0 < value <= most)


def one_of(words: Collection[str]) -> Form:
    return Form(f"one of {', '.join(words)}", lambda value: isinstance(value, str) and value in words)


Forms = Mapping[str, Form]


def test_members(members: Mapping[str, Any], forms: Forms, before: str = "", fault: Type[Exception] = SiteFault) -> None:
    """Raises a fault unless each member is one of these and has its form."""
    for member, value in members.items():
        require(member in forms, f"{before}a member {member!r} isn't known here", fault)
        if not forms[member].fits(value):  # the text of a long value takes time
            raise fault(f"{before}{member} has to be {forms[member].words}, not {value!r}")


@contextlib.contextmanager
def lock_for_reading(folder: pathlib.Path) -> Iterator[None]:
    """While no file of the site is replaced. Raises `SiteFault` if the wait is too long."""
    with contextlib.ExitStack() as opened:
        try:
            lock = os.open(folder, os.O_RDONLY)
            opened.callback(os.close, lock)
            keep_trying(lambda: fcntl.flock(lock, fcntl.LOCK_SH | fcntl.LOCK_NB), PATIENCE)
        except BlockingIOError:
            raise SiteFault(f"{folder}: its files are being replaced") from None
        except OSError as error:
            raise SiteFault(f"{folder}: {trouble_text(error)}") from None
        yield


def read_object(folder: pathlib.Path, name: str, forms: Optional[Forms] = None, required: bool = False) -> Dict[str, Any]:
    """The members of a file that is a JSON object. An optional file that doesn't exist has none."""
    path = folder / name
    if not required and not path.exists():
        return {}
    with raising(SiteFault, path):
        data = path.read_bytes()
    with raising(SiteFault, name, ValueError, RecursionError):
        return members_of(json.loads(data), name, forms)


def members_of(value: object, place: str, forms: Optional[Forms] = None) -> Dict[str, Any]:
    """The members of an object; without `forms` they can be any."""
    if not isinstance(value, dict):
        raise SiteFault(f"{place}: it has to be an object")
    if forms is not None:
        test_members(value, forms, f"{place}: ")
    return value


def read_by_name(folder: pathlib.Path, file: str, forms: Optional[Forms], objects: Optional[Container[str]],
                 required: bool = False) -> Iterator[Tuple[str, str, Dict[str, Any]]]:
    """Each name in a file, its place in messages, and its members. With `objects`, a name that isn't one of them is a fault."""
    for name, members in read_object(folder, file, required=required).items():
        place = f"{file}: {name}"
        require(objects is None or name in objects, f"{place}: there is no such object")
        yield name, place, members_of(members, place, forms)


def members_by_name(setup: Mapping[str, Any]) -> Dict[str, Mapping[str, Any]]:
    """The hosts and services of a good setup by their full names."""
    return {host["name"]: host for host in setup.get("hosts", ())} | {f"{it['host']};{it['description']}": it for it in setup.get("services", ())}
