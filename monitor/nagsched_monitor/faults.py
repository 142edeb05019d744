"""Reasons why the monitor can't begin or continue, or refuses a request. The text of each is one line, and says what to do about errors of the machine."""
import contextlib
import errno
import os
import pathlib
import pwd
import shlex
import sys
from typing import Iterator, Optional, Tuple, Type

PERMISSION = "give the user {} the right to it"
ROOM = "make room on its disk"
ADVICE = {
    errno.EACCES: PERMISSION, errno.EPERM: PERMISSION, errno.ENOSPC: ROOM, errno.EDQUOT: ROOM, errno.EROFS: "have its file system take writes",
    errno.ENOENT: "correct its name, or make it", errno.ENOTDIR: "correct its name", errno.EISDIR: "name a file", errno.ENOEXEC: "name a program",
    errno.EMFILE: "raise the limit of open files", errno.ENFILE: "raise the machine's limit of open files", errno.EIO: "look at its disk",
    errno.EAGAIN: "raise the limit of processes, or end some", errno.ENOMEM: "end what takes memory", errno.E2BIG: "make the command line shorter",
    errno.EADDRINUSE: "end the program that has this address, or choose another", errno.EADDRNOTAVAIL: "choose an address of this machine",
    errno.ECONNREFUSED: "start its server, or correct the address", errno.ETIMEDOUT: "look at its machine and the network",
    errno.EHOSTUNREACH: "look at the network", errno.ENETUNREACH: "look at the network",
}


class MonitorFault(Exception):
    """The monitor can't begin, or can't continue."""


class SiteFault(MonitorFault):
    """A file of the site is wrong. The text names the file, the place and the reason."""


class ConversationEnded(MonitorFault):
    """The scheduler's process can't be started, has ended, gave no answer in time, or gave an answer that no scheduler gives."""


class NotStored(Exception):
    """The database can't be written or read now: the disk is full, for example. It is as it was."""


class RequestFault(Exception):
    """A request that is refused. Nothing was changed."""


class AskAgain(RequestFault):
    """A request that can't be obeyed now and may be later. Nothing was changed."""


def require(holds: object, text: str, fault: Type[Exception] = SiteFault) -> None:
    """Raises a fault with this text unless something holds."""
    if not holds:
        raise fault(text)


@contextlib.contextmanager
def raising(fault: Type[BaseException], place: object, *others: Type[Exception]) -> Iterator[None]:
    """Raises a fault, whose text names this place, instead of an `OSError` or one of the other errors. `SystemExit` ends the process with the text."""
    errors: Tuple[Type[Exception], ...] = (OSError, *others)
    try:
        yield
    except errors as error:
        raise fault(f"{place}: {trouble_text(error)}") from None


def user_name(number: int) -> str:
    """A user's name; the number as `sudo` reads it if the user has no name."""
    try:
        return pwd.getpwuid(number).pw_name
    except KeyError:
        return f"#{number}"


def owner_advice(path: pathlib.Path) -> str:
    """The command to use if a file of another user can't be reached, as the end of a message; nothing if the file isn't another user's.

    Root is never another user, and a helper has no command. If the file can't be seen, its folder counts."""
    for place in (path, path.parent):
        try:
            owner = place.stat().st_uid
        except OSError:
            continue  # it doesn't exist, or a folder above it is closed
        own = os.geteuid()
        if own in (0, owner) or sys.argv[0] == "-c":
            return ""
        return f": you are {user_name(own)}, and it belongs to {user_name(owner)}; try: {shlex.join(['sudo', '-u', user_name(owner), *sys.argv])}"
    return ""


def system_words(error: OSError) -> str:
    """What the system says of an error, without its number."""
    return error.strerror or type(error).__name__


def trouble_text(error: BaseException, path: Optional[pathlib.Path] = None) -> str:
    """What is wrong, and what to do about it. If a file may not be used, that is the command of its owner."""
    if not isinstance(error, OSError) or error.strerror is None:
        return str(error) or type(error).__name__
    file = path or (pathlib.Path(error.filename) if isinstance(error.filename, str) else None)
    advice = owner_advice(file) if file is not None and isinstance(error, PermissionError) else ""
    general = ADVICE.get(error.errno or 0, "").format(user_name(os.geteuid()))
    return error.strerror + (advice or (general and f": {general}"))
