"""The scheduler of a part: a process of `nagsched live`, which answers each line. Every wait for it has a limit. A scheduler that ends is started again
from the stored calls, so that its callers don't notice.

A call is made once: it waits until its scheduler has answered it. A scheduler that is started again makes the stored calls before it again, which gives the
same runs. A call after which a scheduler ends twice, if it is the only one that was sent, is set aside."""
import collections
import os
import select
import subprocess
import time
from typing import Callable, Deque, List, Optional, Sequence, Tuple, TypeVar

from ..faults import ConversationEnded, NotStored, require
from ..model.clock import Clock
from ..model.protocol import Answer, Call, Refused, call_line, read_answer
from ..store.rows import Generation, StoredCall
from ..store.store import Store, insert
from ..system.poller import write_ready
from ..system.processes import end_process
from ..system.programs import SCHEDULER

READ_BYTES = 65_536
# How long a scheduler may be silent while an answer is due, in seconds: for the first, which follows the setup and the saved state, and for any other.
OPENING, SILENCE = 30.0, 15.0
AT_ONCE = 4_096  # the most lines that are sent together
# How often a scheduler is restarted in one exchange, and the pause before the next exchange does so, in milliseconds.
TRIES = 3
PAUSE = 1_000
# The time between two messages that a scheduler can't be started, in milliseconds, and how often one may end after a call.
LOG_AGAIN = 60_000
MOST_ENDS = 2
# A line that a scheduler refuses, and that changes nothing: its answer shows that the scheduler works.
PING = '["ping"]'

Value = TypeVar("Value")
AnsweredCall = Tuple[StoredCall, Answer]


class Conversation:
    def __init__(self, program: str, setup: bytes, start: int, saved: Optional[bytes] = None) -> None:
        words = [program, "live", *([] if saved is None else ["--resume"]), "--start", str(start)]
        with SCHEDULER.starting(program, ConversationEnded):
            # In a session of its own: a Ctrl-C in the terminal is for the monitor, which saves the state before it ends.
            self._process = subprocess.Popen(words, stdin=subprocess.PIPE, stdout=subprocess.PIPE, bufsize=0, start_new_session=True)
        assert self._process.stdin is not None and self._process.stdout is not None
        self._input, self._output = self._process.stdin.fileno(), self._process.stdout.fileno()
        os.set_blocking(self._input, False)
        os.set_blocking(self._output, False)
        self._unsent = bytearray(setup + b"\n" + (b"" if saved is None else saved + b"\n"))
        self._unanswered = 0
        self._program, self._patience = program, OPENING

    def ask_lines(self, lines: Sequence[str]) -> List[str]:
        """Sends these lines, a number of them together, and returns the lines that answer them."""
        answers: List[str] = []
        for first in range(0, len(lines), AT_ONCE):
            self.begin(lines[first : first + AT_ONCE])
            answers += self.finish()
        return answers

    def begin(self, lines: Sequence[str]) -> None:
        """Sends as much of these lines as there is room for now."""
        self._unsent += "\n".join(lines).encode() + b"\n"
        self._unanswered += len(lines)
        self._write()

    def finish(self) -> List[str]:
        """The answers to all lines whose sending has begun. There can't be more answers, since each answers a line that was sent."""
        parts: List[bytes] = []
        deadline = time.monotonic() + self._patience
        while self._unanswered > 0:
            waited = select.poll()
            waited.register(self._output, select.POLLIN)
            if self._unsent:
                waited.register(self._input, select.POLLOUT)
            ready = dict(waited.poll(max(0.0, deadline - time.monotonic()) * 1000))
            require(ready, f"the scheduler gave no answer for {self._patience:g} seconds", ConversationEnded)
            if self._input in ready:
                self._write()
            if self._output in ready:
                parts.append(self._read(parts))
                self._patience = SILENCE
                deadline = time.monotonic() + SILENCE
        lines = b"".join(parts)
        if self._unanswered < 0 or lines and not lines.endswith(b"\n"):
            raise ConversationEnded(f"the scheduler answered more than it was asked: {lines[-READ_BYTES:].decode(errors='replace')!r}")
        return lines.decode(errors="replace").split("\n")[:-1]

    def save(self) -> bytes:
        word, _, state = self.ask_lines(['["save"]'])[0].partition(" ")
        require(word == "saved", f"the scheduler answered {word} {state} to a save", ConversationEnded)
        return state.encode()

    def close(self, is_killed: bool = False) -> None:
        """Ends the scheduler's process: it is killed at once, or if it doesn't end with its input."""
        if is_killed:
            self._process.kill()
        end_process(self._process)

    def _write(self) -> None:
        try:
            write_ready(self._input, self._unsent)
        except BrokenPipeError:
            self._unsent.clear()  # it has ended, and its last lines say why

    def _read(self, before: Sequence[bytes]) -> bytes:
        part = os.read(self._output, READ_BYTES)
        if not part:
            status, words = end_process(self._process), b"".join(before).decode(errors="replace").rstrip("\n")
            is_first = not words and self._patience == OPENING and isinstance(status, int) and status >= 0
            why = f"{self._program} answered nothing, and ended with status {status}: {SCHEDULER.advice()}"
            raise ConversationEnded(why if is_first else f"the scheduler ended with status {status}: {words}")
        self._unanswered -= part.count(b"\n")
        return part


ConversationFactory = Callable[[str, bytes, int, Optional[bytes]], Conversation]


class PartScheduler:
    """The scheduler of a part: its process, and the calls that it hasn't answered."""

    def __init__(self, generation: Generation, store: Store, clock: Clock, log: Callable[[str], None], start: Callable[[Generation], Conversation]) -> None:
        self.generation, self._store, self._clock, self._log, self._start = generation, store, clock, log, start
        # The number of the last call that was answered, and the calls after it.
        self.last_answered = generation.last_call
        self.pending: Deque[StoredCall] = collections.deque()
        self.conversation: Optional[Conversation] = None
        # Its fault, when the fault was last logged, and the moment before which it isn't started again.
        self.trouble: Optional[str] = None
        self._logged_at = self._not_before = 0
        self._sent: List[str] = []  # the lines of the pending calls that were sent
        # The last of the calls that were sent when the scheduler ended: up to this one each is sent alone. How often it ended after which call alone.
        self._alone_until = self._suspect = self._end_count = 0
        self.replayed = 0  # the number of calls that were made again when it was started last

    def open(self) -> None:
        """Starts the scheduler for the first time, and waits until it has read its setup and its state. If it can't, the first question starts it again."""
        try:
            self.conversation = self._start(self.generation)
            self.conversation.ask_lines([PING])
        except ConversationEnded:
            self.close_conversation()

    def begin(self) -> None:
        """Sends pending calls, if the scheduler runs and may get several of them together."""
        if self.conversation is not None and self.pending[0].id > self._alone_until:
            self._send(self.conversation)

    def _send(self, conversation: Conversation) -> None:
        is_alone = self.pending[0].id <= self._alone_until
        if is_alone:
            conversation.ask_lines([PING])
        self._sent = [self.pending[place].line for place in range(1 if is_alone else min(len(self.pending), AT_ONCE))]
        conversation.begin(self._sent)

    def finish(self) -> List[AnsweredCall]:
        answered: List[AnsweredCall] = []
        if self.conversation is None and self._clock.moment() < self._not_before:
            return answered
        for _ in range(TRIES):
            try:
                while self.pending:
                    answered += self._read_answers(self._open_conversation())
                if self.trouble is not None:
                    self._log(f"the scheduler of part {self.generation.part + 1} answers again")
                self.trouble = None
                return answered
            except ConversationEnded as error:
                answered += self._handle_end(str(error))
            except NotStored as error:
                self._handle_end(str(error))
                break
        self._not_before = self._clock.moment() + PAUSE
        return answered

    def _read_answers(self, conversation: Conversation) -> List[AnsweredCall]:
        if not self._sent:
            self._send(conversation)
        answers = [read_answer(reply, line) for reply, line in zip(conversation.finish(), self._sent)]
        answered = [(self.pending.popleft(), answer) for answer in answers]
        self.last_answered, self._sent = answered[-1][0].id, []
        return answered

    def _open_conversation(self) -> Conversation:
        """The scheduler. If it doesn't run, it is started, and makes the answered calls again."""
        if self.conversation is None:
            calls = self._store.calls_since(self.generation.part, self.generation.last_call, self.last_answered)
            self.replayed = max(self.replayed, len(calls))
            self.conversation, self._sent = self._start(self.generation), []
            self.conversation.ask_lines([each.line for each in calls])
        return self.conversation

    def _handle_end(self, why: str) -> List[AnsweredCall]:
        """Removes a scheduler that ended. Returns the call that is set aside, if the scheduler ended after that call too often."""
        now, sent = self._clock.moment(), len(self._sent)
        if self.trouble is None or now - self._logged_at >= LOG_AGAIN:
            self._log(f"{why}; it is started again")
            self._logged_at = now
        self.trouble = why
        self.close_conversation()
        if not sent or not self.pending:
            return []
        first = self.pending[0]
        if sent > 1 or first.id > self._alone_until:
            self._alone_until = self.pending[sent - 1].id
            return []
        self._suspect, self._end_count = first.id, 1 + (self._end_count if first.id == self._suspect else 0)
        return self._set_aside(first) if self._end_count >= MOST_ENDS else []

    def _set_aside(self, stored: StoredCall) -> List[AnsweredCall]:
        try:
            self._store.write(insert("aside", stored.id, stored.part, stored.line))
        except NotStored:
            return []
        self.pending.popleft()
        self.last_answered = stored.id
        self._log(f"call {stored.id} is set aside, since the scheduler of part {stored.part + 1} ends after it: {stored.line}")
        return [(stored, Refused("it was set aside"))]

    def _run_query(self, what: Callable[[Conversation], Value], tries: int = TRIES) -> Value:
        """Carries out an action that changes nothing and isn't stored. Raises `ConversationEnded` if no scheduler can be started for it."""
        try:
            return what(self._open_conversation())
        except ConversationEnded as error:
            self.close_conversation()
            if tries == 1:
                raise
            self._log(f"{error}; it is started again")
        return self._run_query(what, tries - 1)

    def query(self, calls: Sequence[Call]) -> List[Answer]:
        """The answers to calls that change nothing, and aren't stored."""
        lines = [call_line(call) for call in calls]
        return self._run_query(lambda conversation: [read_answer(*each) for each in zip(conversation.ask_lines(lines), lines)])

    def state(self) -> bytes:
        """The scheduler's state. Raises `ConversationEnded` if it hasn't answered all calls, or can't be started."""
        if self.pending:
            raise ConversationEnded(self.trouble or f"the scheduler of part {self.generation.part + 1} hasn't answered all calls")
        return self._run_query(lambda conversation: conversation.save())

    def close_conversation(self, is_killed: bool = True) -> None:
        if self.conversation is not None:
            self.conversation.close(is_killed)
        self.conversation, self._sent = None, []
