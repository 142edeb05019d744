"""Changes of state: the line that is printed for each, and the command that is run for it."""
import contextlib
import datetime
import json
import os
import signal
import subprocess
import tempfile
from typing import Callable, Dict, Iterable, List, NamedTuple, Optional, Set, Tuple

from ..faults import NotStored, trouble_text
from ..model.clock import Clock
from ..model.objects import ObjectState
from ..model.text import first_line, plain_text
from ..store.counters import Counters
from ..store.rows import StoredChange
from ..store.store import Store, delete, insert, store_document

# In milliseconds: the command's limit, the same when the monitor ends, the pause between two tries (it doubles up to the longest), and the age at which a
# change is dropped.
LIMIT, LIMIT_AT_END = 30_000, 5_000
PAUSE, LONGEST_PAUSE = 5_000, 60_000
MOST_AGE = 86_400_000
# The most changes that the command gets together, how often it may refuse one of them alone while it takes others, and the most of its lines that are logged.
AT_ONCE = 100
MOST_REFUSALS = 10
MOST_LINES = 20
TOLD = "on_change"  # the setting with the command that was told what is wrong


def change_line(change: StoredChange, zone: Optional[datetime.tzinfo]) -> str:
    when = datetime.datetime.fromtimestamp(change.time, zone).astimezone(zone).isoformat(sep=" ", timespec="seconds")
    flapping = " FLAPPING" if change.flapping else ""
    return f"{when} {change.name} is {change.state} {change.kind} {change.attempt}{flapping}: {first_line(change.words)}"


class Waiting(NamedTuple):
    """A change that the command has to take: its row, its `id`, its object and its document."""

    row: int
    id: str
    object: str
    document: str


class Notifier:
    """Runs the command for changes, and passes it waiting changes until it takes them.

    It takes all of them by the exit status 0, and single ones by printing the `id` of each. If it takes none, it gets half as many, down to one. An object
    whose first change it refuses then waits until it has taken others. If it takes others and refuses that one again and again, that one is set aside."""

    def __init__(self, command: Optional[str], store: Store, log: Callable[[str], None], clock: Clock, counters: Counters) -> None:
        self.command, self._store, self._log, self._clock, self._counters = command, store, log, clock, counters
        self._process: Optional["subprocess.Popen[bytes]"] = None
        # The changes that the command got, its output, and when it is killed.
        self._passed: List[Waiting] = []
        self._output = tempfile.TemporaryFile()
        self._deadline = 0
        self._size, self._pause, self._not_before = AT_ONCE, PAUSE, 0
        # The objects whose first change was refused alone; for each such change how often, and how many others were taken before.
        self._held: List[str] = []
        self._refusals: Dict[str, Tuple[int, int]] = {}
        self._taken_count = 0
        # Why the last try failed: the command couldn't be run, or the database couldn't be read or written.
        self._trouble: Optional[str] = None
        # The rows that were taken, as long as that can't be stored: they aren't passed again.
        self._taken: Set[int] = set()
        # When this began, and for how long no monitor ran before: changes don't age in that time.
        self._begun_at = clock.moment()
        self._away = self._begun_at - (store.last_moment() or self._begun_at)

    def tell_new_command(self, objects: Iterable[ObjectState]) -> None:
        if self.command is None or self._store.setting(TOLD) == self.command:
            return
        moment, writes = self._clock.moment(), [insert("settings", None, TOLD, self.command)]
        for obj in objects:
            its = obj.standing
            if its is not None and (its.is_problem() and its.kind == "HARD" or its.flapping):
                since = obj.history.hard_since or obj.history.since or self._clock.wall()
                change = StoredChange(0, since, obj.name, its.state, its.kind, its.attempt, its.flapping, obj.output)
                writes.append(store_document(change.document(None, f"now-{moment}-{len(writes)}"), moment))
        self._store.write(*writes)

    def work(self) -> bool:
        """Looks after the running command, and starts it for waiting changes. Returns whether it runs."""
        if self._process is not None:
            self._check_command(self._process)
        if self.command is not None and self._process is None and self._clock.moment() >= self._not_before:
            try:
                self._start_command(self.command)
            except (OSError, NotStored) as error:  # there is no room for a file or a process now, or the database can't be read or written
                self._retry_later(f"the command for changes waits: {trouble_text(error)}")
        return self._process is not None

    def _start_command(self, command: str) -> None:
        self._drop_taken()
        self._passed = self._choose(self._waiting())
        if self._passed:
            self._output.seek(0)
            self._output.truncate()
            with tempfile.TemporaryFile() as given:
                given.write("".join(f"{each.document}\n" for each in self._passed).encode())
                given.seek(0)
                self._process = subprocess.Popen(["/bin/sh", "-c", command], stdin=given, stdout=self._output, start_new_session=True)
            self._deadline = self._clock.moment() + LIMIT

    def _waiting(self) -> List[Waiting]:
        """The changes that wait, without those that are too old, which are dropped."""
        now = self._clock.moment()
        waiting: List[Waiting] = []
        old: List[Waiting] = []
        for row, document, moment in self._store.outbox():
            members, since = json.loads(document), now if moment is None else moment
            age = now - since - (self._away if since < self._begun_at else 0)
            (old if age > MOST_AGE else waiting).append(Waiting(row, members.get("id", ""), members["name"], document))
        for each in old:
            self._log(f"a change is dropped, since the command didn't take it within {MOST_AGE / 3_600_000:g} hours: {each.document}")
        if old:
            self._taken |= {each.row for each in old}
            self._drop_taken()
        return waiting

    def _choose(self, waiting: List[Waiting]) -> List[Waiting]:
        """The changes that the command gets now: those of objects that aren't held, or else the first one of the object that is held longest."""
        names = {each.object for each in waiting}
        self._held = [name for name in self._held if name in names]
        free = [each for each in waiting if each.object not in self._held]
        return free[: self._size] if free else [each for each in waiting if each.object in self._held[:1]][:1]

    def _retry_later(self, why: str, is_longer: bool = True) -> None:
        """Tries again after a pause; the log says why, once."""
        self._not_before = self._clock.moment() + self._pause
        self._pause = min(LONGEST_PAUSE, 2 * self._pause) if is_longer else self._pause
        if why != self._trouble:
            self._log(f"{why}; it is tried again")
        self._trouble = why

    def _check_command(self, process: "subprocess.Popen[bytes]") -> None:
        status = process.poll()
        if status is None and self._clock.moment() < self._deadline:
            return
        if status is None:
            with contextlib.suppress(ProcessLookupError, PermissionError, subprocess.TimeoutExpired):
                # It has just ended, runs as another user, or hangs: nobody waits for it.
                os.killpg(process.pid, signal.SIGKILL)
                process.wait(timeout=5)
        self._process = None
        printed = self._printed_lines()
        taken = [each for each in self._passed if status == 0 or each.id in printed]
        try:
            if taken:
                self._note_taken(taken)
            if status != 0:
                self._note_failure(status, bool(taken))
            self._drop_taken()
        except NotStored as error:
            self._retry_later(str(error))

    def _printed_lines(self) -> Set[str]:
        """The lines that the command printed. Those that name no change are logged."""
        self._output.seek(0)
        lines = [line.strip() for line in self._output.read(1 << 20).decode(errors="replace").splitlines()]
        ids = {each.id for each in self._passed}
        for line in [line for line in lines if line and line not in ids][:MOST_LINES]:
            self._log(f"the command for changes: {plain_text(line)}")
        return set(lines)

    def _note_taken(self, taken: List[Waiting]) -> None:
        self._size, self._pause, self._trouble = min(AT_ONCE, self._size + 1), PAUSE, None
        self._taken_count += len(taken)
        for each in taken:
            self._taken.add(each.row)
            self._refusals.pop(each.id, None)
        self._held = [name for name in self._held if all(each.object != name for each in taken)]

    def _note_failure(self, status: Optional[int], has_taken: bool) -> None:
        is_alone = len(self._passed) == 1
        why = f"took longer than {LIMIT / 1000:g} seconds" if status is None else f"ended with {status}"
        self._retry_later(f"the command for changes {why}", is_alone)
        if not has_taken:
            self._size = max(1, len(self._passed) // 2)
        if not has_taken and is_alone:
            self._hold(self._passed[0])

    def _hold(self, refused: Waiting) -> None:
        """The changes of an object wait, since its first one was refused alone. It is set aside if others were taken meanwhile."""
        self._held = [name for name in self._held if name != refused.object] + [refused.object]
        count, before = self._refusals.get(refused.id, (0, self._taken_count))
        self._refusals[refused.id] = count + 1, before
        if count + 1 >= MOST_REFUSALS and self._taken_count > before:
            self._store.write(insert("not_taken", None, refused.document), delete("outbox", "id = ?", refused.row))
            self._log(f"a change is set aside, since the command refused it {MOST_REFUSALS} times and took others: {refused.document}")
            self._counters.count("changes_aside")
            self._held.remove(refused.object)
            del self._refusals[refused.id]

    def _drop_taken(self) -> None:
        """Drops the changes that were taken or are too old."""
        if self._taken:
            self._store.write(*(delete("outbox", "id = ?", row) for row in self._taken))
            self._taken.clear()

    def close(self) -> None:
        """Waits for the running command; the changes that it doesn't take stay."""
        if self._process is not None:
            with contextlib.suppress(subprocess.TimeoutExpired):
                self._process.wait(timeout=LIMIT_AT_END / 1000)
            self._deadline = self._clock.moment()
            self._check_command(self._process)
        self._output.close()
