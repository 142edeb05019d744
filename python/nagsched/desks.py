"""Setups, desks with their passes, books and histories: each of these objects has a handle of the library."""
from __future__ import annotations

import ctypes
import operator
import threading
import time
import typing

from .errors import Missing, Wrong
from .library import (LIBRARY, U32, U64, EntryStruct, HandleStruct, RefusalStruct, ReplyStruct, StandingStruct, check_status, entry_of, refusal_error,
                      reply_of, standing_of, struct_of_call, struct_of_reply, u32, u64, written_bytes, written_text)
from .kinds import Code, ReplyKind, Result
from .records import Call, Entry, Reply, Run, Standing

_Self = typing.TypeVar("_Self", bound="_HandleOwner")

# A number that no kind of reply has.
_NO_KIND = max(ReplyKind) + 1


class _HandleOwner:
    """An object with a handle of the library, which it frees at the end of a `with`, or when Python deletes the object."""

    def __init__(self, handle: HandleStruct):
        self._handle, self._call_lock = handle, threading.Lock()

    def __enter__(self: _Self) -> _Self:
        return self

    def __exit__(self, *_raised: object) -> None:
        self.free()

    def __del__(self, free: typing.Callable[..., int] = LIBRARY.free) -> None:
        if hasattr(self, "_handle"):
            free(self._handle)

    def free(self) -> None:
        """Frees what this refers to. A second call does nothing."""
        self._call(LIBRARY.free, "it can't be freed now")

    def _call(self, function: typing.Callable[..., int], what: str, *given: object) -> None:
        """One call with the handle, whose status has to be OK."""
        with _ExclusiveCall(self._call_lock):
            check_status(function(self._handle, *given), what)

    def _result(self, out: typing.Any, function: typing.Callable[..., int], what: str, *given: object) -> typing.Any:
        """The result of one call with the handle."""
        self._call(function, what, *given, ctypes.byref(out))
        return out


class _ExclusiveCall:
    """Reserves an object for one call of one thread. It is wrong use if another thread is in a call with it."""

    def __init__(self, lock: threading.Lock):
        self._lock = lock

    def __enter__(self) -> None:
        if not self._lock.acquire(blocking=False):
            raise Wrong("another thread is in a call with it")

    def __exit__(self, *_raised: object) -> None:
        self._lock.release()


class _ObjectNames(_HandleOwner):
    """The objects of a setup: hosts first, then services, each in the order of their names."""

    @property
    def objects(self) -> int:
        """The number of objects."""
        return self._counts()[0]

    @property
    def hosts(self) -> int:
        """The number of hosts, which are the first objects."""
        return self._counts()[1]

    def _counts(self) -> tuple[int, int]:
        objects, hosts = U32(), U32()
        self._call(LIBRARY.count, "it has no objects now", ctypes.byref(objects), ctypes.byref(hosts))
        return objects.value, hosts.value

    def number(self, name: str) -> int:
        """The number of the object with a full name, HOST or HOST;DESCRIPTION. Raises Missing if there is no such object."""
        written = name.encode()
        return int(self._result(U32(), LIBRARY.number, f"no object {name!r}", written, len(written)).value)

    def name(self, number: int) -> str:
        """The full name of an object."""
        with _ExclusiveCall(self._call_lock):
            return written_text(LIBRARY.name, self._handle, u32(number))

    def host_of(self, number: int) -> int | None:
        """The number of a service's host; None for a host."""
        try:
            return int(self._result(U32(), LIBRARY.host_of, f"no object {number}", u32(number)).value)
        except Missing:
            return None

    def text(self, told: Entry | tuple[Call, Reply]) -> str:
        """An entry as `nagsched drill` writes it, or the reply to a call as `nagsched run` writes it, with the line feed."""
        with _ExclusiveCall(self._call_lock):
            if isinstance(told, Entry):
                return written_text(LIBRARY.entry_text, self._handle, EntryStruct(u64(told.pass_number), struct_of_call(told.call), struct_of_reply(told.reply)))
            call, reply = told
            return written_text(LIBRARY.reply_text, self._handle, struct_of_call(call), struct_of_reply(reply))

    def _open_desk(self, start: int, room: int, passes: int, calls: int | None) -> Desk:
        """A desk on this object, which is empty afterwards."""
        if not 1 <= passes <= 1024:
            raise Wrong(f"a desk has 1 to 1,024 passes, not {passes}")
        handles = (HandleStruct * passes)()
        if calls is None:
            self._call(LIBRARY.open, "no desk", u64(start), u64(room), handles, passes)
        else:
            self._call(LIBRARY.open_with, "no desk", u64(start), u64(room), u64(calls), handles, passes)
        return Desk([Pass(handle) for handle in handles])


class Setup(_ObjectNames):
    """A setup, read from a JSON document (docs/setup.md). Raises Refused, with the refusal, if the document breaks a rule."""

    def __init__(self, document: str | bytes):
        written = document.encode() if isinstance(document, str) else bytes(memoryview(document))
        handle, refusal = HandleStruct(), RefusalStruct()
        status = LIBRARY.read(written, len(written), handle, refusal)
        if status == Result.REFUSED:
            raise refusal_error(refusal)
        check_status(status, "the setup wasn't read")
        super().__init__(handle)

    def open(self, passes: int = 1, *, start: int = 0, room: int = 1000, calls: int | None = None) -> Desk:
        """Opens a desk with this number of passes. The desk takes over the setup. Scheduling starts at the moment `start`, in
        milliseconds. The desk has memory for `room` entries, and takes more when it needs it. Each pass has `calls` calls; the default is
        2**32 - 1."""
        return self._open_desk(start, room, passes, calls)

    def resume(self, saved: str | bytes, start: int, room: int = 1000) -> Book:
        """A book that resumes the text from `Book.save`, over this setup, which may differ from the setup of the saved book. The book
        takes over the setup. `start`, in milliseconds, is the present moment: an object that wasn't saved is first checked from then on.
        The book has memory for `room` entries, and takes more when it needs it. A check that was running is still running, under its
        run's number.

        Raises Refused, with the refusal, if `saved` is no saved state, NoMemory, and Wrong if `start` is above 2**60 or the setup is in
        use or was used up. In each case the setup stays as it is. Other threads of Python continue meanwhile."""
        written = saved.encode() if isinstance(saved, str) else bytes(memoryview(saved))
        handle, refusal = HandleStruct(), RefusalStruct()
        with _ExclusiveCall(self._call_lock):
            status = LIBRARY.resume(self._handle, written, len(written), u64(start), u64(room), handle, refusal)
        if status == Result.REFUSED:
            raise refusal_error(refusal)
        check_status(status, "no book was resumed")
        return Book(handle)


class Pass(_ObjectNames):
    """A thread's access to a desk, used by one thread at a time: it makes the six calls, and glances."""

    def take(self, now: int) -> Reply:
        """Asks which object is to be checked at this moment. The kind of the reply:

        TAKEN       the check of object begins: run it, and report or abandon it under run
        PUT_OFF     object was due, but a dependency forbids its check, and the next is at time; take again
        IDLE        nothing is due before time, or ever if time is None
        AT_LIMIT    a service is due, but the limit of running checks is reached: take again after a report
        TIME_RANGE, RUNS_SPENT    the call is refused, and changes nothing
        """
        return self._make_call(LIBRARY.try_take, u64(now))

    def report(self, object: int, run: int, code: Code | int) -> Reply:
        """Reports that the check of an object under this run returned a code. STANDING: the object's standing, whether its state changed, and
        its next check. NOT_RUNNING and WRONG_RUN: the result comes too late, and changes nothing."""
        return self._make_call(LIBRARY.try_report, u32(object), u64(run), u32(code))

    def abandon(self, object: int, run: int, now: int) -> Reply:
        """Abandons the check of an object under this run: no result will come. FREED, with its next check. With NOT_RUNNING, WRONG_RUN or
        TIME_RANGE nothing changes."""
        return self._make_call(LIBRARY.try_abandon, u32(object), u64(run), u64(now))

    def reschedule(self, object: int, time: int, forced: bool = False) -> Reply:
        """Sets the next check of an object; forced: even if its checks are off or a dependency forbids it. DONE, or TIME_RANGE."""
        return self._make_call(LIBRARY.try_reschedule, u32(object), u64(time), int(bool(forced)))

    def enable(self, object: int, on: bool) -> Reply:
        """Switches the active checks of an object on or off. DONE."""
        return self._make_call(LIBRARY.try_enable, u32(object), int(bool(on)))

    def status(self, object: int) -> Reply:
        """Asks for an object's standing, and when it is checked next. STANDING, and nothing changes."""
        return self._make_call(LIBRARY.try_status, u32(object))

    def glance(self, object: int) -> Standing:
        """Reads an object's standing without a call: it never waits for another call. The standing is at least as new as all that this pass
        has seen, including its own reports."""
        return standing_of(self._result(StandingStruct(), LIBRARY.glance, f"no object {object}", u32(object)))

    def _make_call(self, attempt: typing.Callable[..., int], *given: int) -> Reply:
        """Makes one of the six calls. An interrupt that comes meanwhile is raised when the call has its reply: if the call stopped before,
        its turn would stop every other pass."""
        with _ExclusiveCall(self._call_lock):
            reply, unanswered, status, interrupt = ReplyStruct(kind=_NO_KIND), _NO_KIND, None, None
            while status is None:
                try:
                    while (status := attempt(self._handle, *given, ctypes.byref(reply))) == Result.WAIT:
                        time.sleep(0)
                except BaseException as raised:
                    status, interrupt = None if reply.kind == unanswered else Result.OK, raised
            if interrupt is not None:
                raise interrupt
            check_status(status, "the call wasn't made")
            return reply_of(reply)


class _Entries(_HandleOwner):
    """An object with entries: their number by len, one by its index, all of them in a loop."""

    def __len__(self) -> int:
        return int(self._result(U64(), LIBRARY.entries, "it has no entries now").value)

    def __getitem__(self, index: int) -> Entry:
        count, at = len(self), operator.index(index)
        if not -count <= at < count:
            raise IndexError(f"no entry {at}")
        return entry_of(self._result(EntryStruct(), LIBRARY.entry, f"no entry {at}", at % count))

    def __iter__(self) -> typing.Iterator[Entry]:
        return (self[at] for at in range(len(self)))


class History(_Entries):
    """The entries of a generation that has ended."""


class Book(_ObjectNames, _Entries):
    """A closed desk's scheduler with its history."""

    @property
    def refused(self) -> int:
        """The number of calls that weren't made because the book was out of memory."""
        return int(self._result(U64(), LIBRARY.refused, "it is no book now").value)

    def renew(self, room: int = 1000) -> History:
        """Hands the entries out, and continues without entries: a new generation, for which `open` opens a desk."""
        handle = HandleStruct()
        self._call(LIBRARY.renew, "the book can't be renewed", u64(room), handle)
        return History(handle)

    def save(self) -> bytes:
        """The saved state of the scheduler, for `Setup.resume`: one line of JSON, without a line feed, of at most 16 MiB. It has all that
        the scheduler knows, without the setup and the entries. The book stays as it is, and can be renewed or opened.

        Raises NoMemory, and Wrong if the book is in use or was used up. Other threads of Python continue meanwhile."""
        room = 512 * (self.objects + 1)
        with _ExclusiveCall(self._call_lock):
            return written_bytes(room, LIBRARY.save, self._handle)

    def running(self, object: int) -> Run | None:
        """The running check of this object, or None. It is read from the book's present state, not from its entries."""
        number, start = U64(), U64()
        try:
            self._call(LIBRARY.running, f"no object {object}", u32(object), ctypes.byref(number), ctypes.byref(start))
        except Missing:
            return None
        return Run(number.value, start.value)

    def all_running(self) -> dict[int, Run]:
        """All running checks, by the numbers of their objects."""
        runs = ((object, self.running(object)) for object in range(self.objects))
        return {object: run for object, run in runs if run is not None}

    def open(self, passes: int = 1, *, calls: int | None = None) -> Desk:
        """Opens a desk on a book without entries."""
        return self._open_desk(0, 0, passes, calls)


class Desk:
    """A scheduler that many threads share, each by a pass of its own; `passes` has them by their numbers."""

    def __init__(self, passes: list[Pass]):
        self.passes = tuple(passes)
        self._open_passes = passes[1:]

    def __enter__(self) -> Desk:
        return self

    def __exit__(self, *_raised: object) -> None:
        for each in self.passes:
            each.free()

    def close(self) -> Book:
        """Gathers all passes, when their threads have ended, and returns the book with the history."""
        first = self.passes[0]
        while self._open_passes:
            other = self._open_passes[-1]
            with _ExclusiveCall(other._call_lock):
                first._call(LIBRARY.gather, "a pass can't be gathered now", other._handle)
            self._open_passes.pop()
        handle = HandleStruct()
        first._call(LIBRARY.close, "the desk can't be closed now", handle)
        return Book(handle)
