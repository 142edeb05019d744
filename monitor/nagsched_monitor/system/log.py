"""The log: lines on standard output, written by a separate thread, so that the monitor never waits for a reader that doesn't read them."""
import contextlib
import os
import queue
import threading
from typing import Callable, Dict, Iterator, Optional, Tuple, Type

from ..faults import trouble_text
from ..model.text import plain_text

# The greatest number of lines that wait; further lines are dropped, and counted. The longest line, in bytes.
MOST_LINES = 10_000
LONGEST = 16_384
MINUTE = 60.0  # the time between two lines about one cause, in seconds


class Log:
    def __init__(self, file: int = 1) -> None:
        self._file, self._dropped = file, 0
        self._lines: "queue.Queue[Optional[str]]" = queue.Queue(MOST_LINES)
        self._thread = threading.Thread(target=self._write, name="log", daemon=True)
        self._thread.start()

    def __call__(self, line: str) -> None:
        try:
            self._lines.put_nowait(plain_text(line, LONGEST).replace("\n", " "))
        except queue.Full:
            self._dropped += 1

    def _write(self) -> None:
        for line in iter(self._lines.get, None):
            self._print(line)
            if self._dropped and self._lines.empty():
                dropped, self._dropped = self._dropped, 0
                self._print(f"{dropped} lines of this log are missing here: nobody read it")

    def _print(self, line: str) -> None:
        data = line.encode(errors="replace") + b"\n"
        with contextlib.suppress(OSError):  # the disk is full, or nobody reads any more
            while data:
                data = data[os.write(self._file, data) :]

    def close(self, seconds: float = 2.0) -> None:
        """Writes the remaining lines, within a number of seconds."""
        with contextlib.suppress(queue.Full):
            self._lines.put(None, timeout=seconds)
            self._thread.join(seconds)


class Trouble:
    """Work that is tried again and again: why it fails is logged when that changes, and with `working` that it doesn't any more."""

    def __init__(self, log: Callable[[str], None], failing: str, working: str = "") -> None:
        self._log, self._failing, self._working, self._why = log, failing, working, ""

    @contextlib.contextmanager
    def noted(self, *faults: Type[Exception]) -> Iterator[None]:
        why = ""
        try:
            yield
        except faults as fault:
            why = trouble_text(fault)
        if why != self._why and (why or self._working):
            self._log(f"{self._failing}: {why}" if why else self._working)
        self._why = why


class RepeatedLines:
    """Lines about many objects that have one cause: the first is logged at once, and then once a minute how many others there were."""

    def __init__(self, log: Callable[[str], None], clock: Callable[[], float]) -> None:
        self._log, self._clock = log, clock
        # For each cause: when it was logged last, and the number of lines since then.
        self._causes: Dict[str, Tuple[float, int]] = {}

    def add(self, name: str, cause: str) -> None:
        if cause in self._causes:
            since, count = self._causes[cause]
            self._causes[cause] = since, count + 1
        else:
            self._log(f"{name}: {cause}")
            self._causes[cause] = self._clock(), 0

    def flush(self) -> None:
        now = self._clock()
        for cause, (since, count) in [each for each in self._causes.items() if now - each[1][0] >= MINUTE]:
            del self._causes[cause]
            if count:
                self._log(f"{count} times more in {now - since:.0f} seconds: {cause}")
                self._causes[cause] = now, 0
