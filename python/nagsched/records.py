"""The arguments and results of the calls, as named tuples."""
from __future__ import annotations

import typing

from .kinds import CallKind, Code, Kind, Part, RefusalKind, ReplyKind, State


class Standing(typing.NamedTuple):
    """The standing of an object. If no result has come in yet, `checked` is False and the state is OK or UP."""

    checked: bool
    state: State
    kind: Kind
    attempt: int
    last_hard: State
    flapping: bool


class Call(typing.NamedTuple):
    """A call, as the history stores it. A field that its kind doesn't use is 0 or False."""

    kind: CallKind
    object: int = 0
    run: int = 0
    moment: int = 0
    code: Code = Code.OK
    flag: bool = False


class Reply(typing.NamedTuple):
    """The reply to a call. `object` and `run` are 0 if the kind doesn't use them; `time` is None for never."""

    kind: ReplyKind
    object: int = 0
    run: int = 0
    time: typing.Optional[int] = None
    changed: bool = False
    standing: typing.Optional[Standing] = None


class Entry(typing.NamedTuple):
    """An entry of a history: the number of the pass that made the call, the call, and the reply."""

    pass_number: int
    call: Call
    reply: Reply


class Run(typing.NamedTuple):
    """A running check: the number of its run, and the moment at which it was taken, in milliseconds."""

    number: int
    start: int


class Refusal(typing.NamedTuple):
    """Why a document is no setup, and which part of it is at fault, with the index in its list, if there is one. For a saved state the part
    is `NONE`, and the index is that of an object in the state's list."""

    kind: RefusalKind
    part: Part
    index: typing.Optional[int]  # type: ignore[assignment]  # it hides the method of tuples that has this name
