"""Files: those that don't block, with readers for what comes, and those that are written as a whole."""
import contextlib
import os
import pathlib
import selectors
import time
from typing import Callable

RETRY = 0.02  # the pause before an action that would block is tried again, in seconds
MODE = 0o644  # anybody may read a file that is written as a whole


def write_ready(file: int, unsent: bytearray) -> None:
    """Writes as much as there is room for; the rest stays unsent."""
    with contextlib.suppress(BlockingIOError):
        while unsent:
            del unsent[: os.write(file, unsent)]


def keep_trying(action: Callable[[], object], seconds: float) -> None:
    """Carries out an action again while it would block. After a number of seconds `BlockingIOError` is raised."""
    end = time.monotonic() + seconds
    while True:
        try:
            action()
            return
        except BlockingIOError:
            if time.monotonic() >= end:
                raise
            time.sleep(RETRY)


def replace_file(path: pathlib.Path, data: bytes) -> None:
    """Writes a file as a whole: a reader gets the old one or this."""
    new = path.with_name(f"{path.name}.new")
    new.unlink(missing_ok=True)
    try:
        with open(new, "xb", opener=lambda name, flags: os.open(name, flags, MODE)) as there:
            os.fchmod(there.fileno(), MODE)
            there.write(data)
        new.replace(path)
    finally:
        new.unlink(missing_ok=True)


class FilePoller(selectors.EpollSelector):
    """The files of a process, each with its reader."""

    def watch(self, file: int, read: Callable[[], object]) -> None:
        self.register(file, selectors.EVENT_READ, read)

    def unwatch(self, file: int) -> None:
        """Does nothing if the file isn't watched any more, or is closed."""
        with contextlib.suppress(KeyError, ValueError):
            self.unregister(file)

    def wait(self, milliseconds: float) -> bool:
        """Waits until something comes, which is read. Returns False if nothing came in this time."""
        ready = self.select(max(0.0, milliseconds) / 1_000)
        for key, _ in ready:
            if key.fd in self.get_map():  # an earlier reader may have ended it
                with contextlib.suppress(BlockingIOError):
                    key.data()
        return bool(ready)

    def sleep(self, milliseconds: float) -> None:
        time.sleep(max(0.0, milliseconds) / 1_000)
