"""The C library, loaded: its structs with their sizes, its functions, and records as structs and back."""
from __future__ import annotations

import ctypes
import operator
import os
import pathlib
import typing

from .errors import ERRORS, Refused, Wrong
from .kinds import VERSION, CallKind, Code, Kind, Part, RefusalKind, ReplyKind, Result, State
from .records import Call, Entry, Refusal, Reply, Standing


class HandleStruct(ctypes.Structure):
    _fields_ = [("at", ctypes.c_void_p), ("full", ctypes.c_uint64)]


class StandingStruct(ctypes.Structure):
    _fields_ = [(name, ctypes.c_uint32) for name in Standing._fields]


class CallStruct(ctypes.Structure):
    _fields_ = [("kind", ctypes.c_uint32), ("object", ctypes.c_uint32), ("run", ctypes.c_uint64), ("moment", ctypes.c_uint64),
                ("code", ctypes.c_uint32), ("flag", ctypes.c_uint32)]


class ReplyStruct(ctypes.Structure):
    _fields_ = [("kind", ctypes.c_uint32), ("object", ctypes.c_uint32), ("run", ctypes.c_uint64), ("time", ctypes.c_uint64),
                ("has_time", ctypes.c_uint32), ("changed", ctypes.c_uint32), ("standing", StandingStruct)]


class EntryStruct(ctypes.Structure):
    _fields_ = [("pass", ctypes.c_uint64), ("call", CallStruct), ("reply", ReplyStruct)]


class RefusalStruct(ctypes.Structure):
    _fields_ = [("kind", ctypes.c_uint32), ("part", ctypes.c_uint32), ("has_index", ctypes.c_uint64), ("index", ctypes.c_uint64)]


# The sizes and offsets in nagsched.h.
LAYOUT = {
    HandleStruct: (16, [0, 8]),
    StandingStruct: (24, [0, 4, 8, 12, 16, 20]),
    CallStruct: (32, [0, 4, 8, 16, 24, 28]),
    ReplyStruct: (56, [0, 4, 8, 16, 24, 28, 32]),
    EntryStruct: (96, [0, 8, 40]),
    RefusalStruct: (24, [0, 4, 8, 16]),
}


def _check_layout() -> None:
    """Stops if this Python has another layout of the structs than the header."""
    for struct, wanted in LAYOUT.items():
        offsets = [getattr(struct, name).offset for name, *_ in struct._fields_]
        if (ctypes.sizeof(struct), offsets) != wanted:
            raise ImportError(f"nagsched: {struct.__name__} has another layout than in nagsched.h")


def u32(value: int) -> int:
    """A number for a uint32_t, which ctypes alone would truncate."""
    value = operator.index(value)
    if not 0 <= value < 1 << 32:
        raise Wrong(f"{value} is no number of 32 bits")
    return value


def u64(value: int) -> int:
    """A number for a uint64_t."""
    value = operator.index(value)
    if not 0 <= value < 1 << 64:
        raise Wrong(f"{value} is no number of 64 bits")
    return value


_check_layout()
_HANDLE, _TEXT, _SIZE = ctypes.POINTER(HandleStruct), ctypes.c_char_p, ctypes.c_size_t
U32, U64 = ctypes.c_uint32, ctypes.c_uint64
_OUT32, _OUT64, _OUT_SIZE = ctypes.POINTER(U32), ctypes.POINTER(U64), ctypes.POINTER(_SIZE)
_ROOM = [_TEXT, _SIZE, _OUT_SIZE]
_OUT_REPLY = ctypes.POINTER(ReplyStruct)
FUNCTIONS = {
    "version": [],
    "read": [_TEXT, _SIZE, _HANDLE, ctypes.POINTER(RefusalStruct)],
    "refusal_text": [ctypes.POINTER(RefusalStruct), *_ROOM],
    "reply_text": [_HANDLE, ctypes.POINTER(CallStruct), _OUT_REPLY, *_ROOM],
    "entry_text": [_HANDLE, ctypes.POINTER(EntryStruct), *_ROOM],
    "count": [_HANDLE, _OUT32, _OUT32],
    "number": [_HANDLE, _TEXT, _SIZE, _OUT32],
    "name": [_HANDLE, U32, *_ROOM],
    "host_of": [_HANDLE, U32, _OUT32],
    "open": [_HANDLE, U64, _SIZE, _HANDLE, _SIZE],
    "open_with": [_HANDLE, U64, _SIZE, U64, _HANDLE, _SIZE],
    "try_take": [_HANDLE, U64, _OUT_REPLY],
    "try_report": [_HANDLE, U32, U64, U32, _OUT_REPLY],
    "try_abandon": [_HANDLE, U32, U64, U64, _OUT_REPLY],
    "try_reschedule": [_HANDLE, U32, U64, U32, _OUT_REPLY],
    "try_enable": [_HANDLE, U32, U32, _OUT_REPLY],
    "try_status": [_HANDLE, U32, _OUT_REPLY],
    "glance": [_HANDLE, U32, ctypes.POINTER(StandingStruct)],
    "gather": [_HANDLE, _HANDLE],
    "close": [_HANDLE, _HANDLE],
    "entries": [_HANDLE, _OUT64],
    "entry": [_HANDLE, U64, ctypes.POINTER(EntryStruct)],
    "refused": [_HANDLE, _OUT64],
    "renew": [_HANDLE, _SIZE, _HANDLE],
    "save": [_HANDLE, *_ROOM],
    "resume": [_HANDLE, _TEXT, _SIZE, U64, _SIZE, _HANDLE, ctypes.POINTER(RefusalStruct)],
    "running": [_HANDLE, U32, _OUT64, _OUT64],
    "free": [_HANDLE],
}


# The functions whose time depends on the size of their arguments: other threads of Python continue meanwhile.
WITHOUT_GIL = ("read", "save", "resume")


class Library:
    """The functions of the library. All but the long ones hold the interpreter's lock, since none of them waits."""

    if typing.TYPE_CHECKING:
        def __getattr__(self, name: str) -> typing.Callable[..., int]: ...

    def __init__(self) -> None:
        beside = pathlib.Path(__file__).resolve().with_name("libnagsched.so")
        path = os.environ.get("NAGSCHED_LIBRARY") or (str(beside) if beside.exists() else f"libnagsched.so.{VERSION}")
        try:
            self._with_gil, self._without_gil = ctypes.PyDLL(path), ctypes.CDLL(path)
            for name, arguments in FUNCTIONS.items():
                function = getattr(self._without_gil if name in WITHOUT_GIL else self._with_gil, f"nagsched_{name}")
                function.argtypes, function.restype = arguments, ctypes.c_uint32
                setattr(self, name, function)
        except (OSError, AttributeError) as why:
            raise ImportError(f"nagsched: {path} can't be loaded: set NAGSCHED_LIBRARY to libnagsched.so, which tools/build_c.sh builds ({why})") from None
        version = self.version()
        if version != VERSION:
            raise ImportError(f"nagsched: {path} has version {version} of the surface; this package is for {VERSION}")


LIBRARY = Library()


def check_status(status: int, what: str) -> None:
    """Raises the error of a status, unless it is OK."""
    if status != Result.OK:
        raise ERRORS[Result(status)](what)


def written_bytes(room: int, function: typing.Callable[..., int], *given: object) -> bytes:
    """The bytes that the library writes into a buffer of `room` bytes, which grows to the length that the library reports."""
    length = _SIZE(0)
    while True:
        buffer = ctypes.create_string_buffer(room)
        status = function(*given, buffer, room, ctypes.byref(length))
        if status == Result.WRONG and length.value > room:
            room = length.value
            continue
        check_status(status, "no such text")
        return buffer.raw[: length.value]


def written_text(function: typing.Callable[..., int], *given: object) -> str:
    """A text that the library writes into a buffer."""
    return written_bytes(1024, function, *given).decode()


def refusal_error(refusal: RefusalStruct) -> Refused:
    """The error of a refusal, with its line."""
    index = refusal.index if refusal.has_index else None
    line = written_text(LIBRARY.refusal_text, refusal).rstrip("\n")
    return Refused(line, Refusal(RefusalKind(refusal.kind), Part(refusal.part), index))


def standing_of(struct: StandingStruct) -> Standing:
    """The standing in a struct."""
    return Standing(bool(struct.checked), State(struct.state), Kind(struct.kind), struct.attempt, State(struct.last_hard), bool(struct.flapping))


def reply_of(struct: ReplyStruct) -> Reply:
    """The reply in a struct."""
    kind = ReplyKind(struct.kind)
    standing = standing_of(struct.standing) if kind == ReplyKind.STANDING else None
    return Reply(kind, struct.object, struct.run, struct.time if struct.has_time else None, bool(struct.changed), standing)


def entry_of(struct: EntryStruct) -> Entry:
    """The entry in a struct."""
    made = struct.call
    call = Call(CallKind(made.kind), made.object, made.run, made.moment, Code(made.code), bool(made.flag))
    return Entry(getattr(struct, "pass"), call, reply_of(struct.reply))


def struct_of_call(call: Call) -> CallStruct:
    """The struct of a call."""
    return CallStruct(u32(call.kind), u32(call.object), u64(call.run), u64(call.moment), u32(call.code), u32(call.flag))


def struct_of_reply(reply: Reply) -> ReplyStruct:
    """The struct of a reply."""
    standing = StandingStruct(*map(u32, reply.standing or ()))
    has_time = reply.time is not None
    return ReplyStruct(u32(reply.kind), u32(reply.object), u64(reply.run), u64(reply.time or 0), has_time, u32(reply.changed), standing)
