#!/usr/bin/env python3
"""Runs the built program on an input and an output that fail, or that give and take few bytes at a time.

    .ci/program/devices.py PROGRAM     needs a C compiler, cc

The answers, the exit status and the calls don't depend on the pieces. An input is read to its end, and the text is written by one call. A
conversation writes its answers before it reads more. A failed read ends in status 3 with nothing written; in a conversation, with the answers
to the lines that came. It isn't repeated. A write that fails, or takes no byte, ends in status 3 with the bytes that were taken, and nothing
is read after it. Only an interrupted write is made again. Standard error says which stream failed, and why.
"""
from __future__ import annotations

import errno
import os
import subprocess
import tempfile
from concurrent.futures import ThreadPoolExecutor
from typing import Iterator, NamedTuple

from harness import TOP, Harness
import needs
from cases import cases

SECONDS = 60
WHOLE = 1 << 20
PIECE = 7
FAILED = 3
READ_ERRORS = (errno.EIO, errno.EINTR, errno.ENOMEM, errno.EAGAIN, errno.EPIPE)
NO_BYTE = 0
WRITE_ERRORS = (errno.EIO, errno.ENOMEM, errno.EAGAIN, errno.EPIPE, NO_BYTE)
# What standard error says of each.
REASONS = {
    errno.EIO: b"it is closed, or the device failed",
    errno.EINTR: b"a signal came",
    errno.ENOMEM: b"memory ran out",
    errno.EAGAIN: b"it doesn't wait",
    errno.EPIPE: b"nothing reads it any more",
    # std reports it as an error of the kind WriteZero, for which there are no words of its own.
    NO_BYTE: b"it is closed, or the device failed",
}
# The most places at which an input or an output fails, and the number of bytes from which on it is three places.
PLACES = 60
LONG = 8_000

# Every kind of line after the setup, the last without a line feed, and the answer to each.
HOST = b'{"options":{"host_inter_check_delay_method":"n"},"hosts":[{"name":"h","max_check_attempts":3}]}\n'
CONVERSATION = {
    b'["take",0]\n': b"taken 1 h\n",
    b'["report","h",1,2]\n': b"standing DOWN SOFT 1 yes STEADY 60000 h\n",
    b" \t\r\n": b"",
    b'["take"]\n': b"refused S3 Shape 5\n",
    b'["status","x"]\n': b"refused S5 UnknownName 6\n",
    b'["report","h",1,9]\n': b"refused S4 Code 7\n",
    b"[\n": b"refused S2 NotJson 8\n",
    b'["take",1]': b"idle 60000\n",
}


class Job(NamedTuple):
    """A run of the program: its arguments, its input, its output, and its exit status."""

    name: str
    arguments: list[str]
    given: bytes
    text: bytes
    status: int
    reads: bool = True
    # The lines of a conversation, each with its answer; empty for another job, which reads its whole input first.
    answers: dict[bytes, bytes] = {}
    # What standard error says of a refused input.
    note: bytes = b""

    def answers_after(self, count: int) -> bytes:
        """The answers that are written after this number of bytes of the input, before its end is known."""
        answers, rest = b"", count
        for line, answer in self.answers.items():
            rest -= len(line)
            answers += answer if rest >= 0 and line.endswith(b"\n") else b""
        return answers

    def call_log(self, most: int) -> str:
        """The reads and writes, if a read gives at most this number of bytes, and a write takes all of them."""
        calls, written = "", b""
        for count in range(most, len(self.given) + most, most) if self.reads else ():
            calls += "r"
            answers = self.answers_after(min(count, len(self.given)))
            calls += "w" if answers != written else ""
            written = answers
            if self.answers and self.status and written == self.text:
                return calls
        return calls + ("r" if self.reads else "") + ("w" if written != self.text else "")


class Device(NamedTuple):
    """How the input and the output behave."""

    read_most: int = WHOLE
    write_most: int = WHOLE
    read_at: int = 0
    write_at: int = 0
    fault: int = 0
    stays: bool = False


class Outcome(NamedTuple):
    """The outcome of a run: its output, its exit status, its calls, and what it says on standard error."""

    text: bytes
    status: int
    call_log: str
    explanation: bytes


class Shim:
    """Runs the program over such devices."""

    def __init__(self, program: str, folder: str) -> None:
        self.program, self.folder = program, folder
        self.library = f"{folder}/devices.so"
        subprocess.run(["cc", "-O2", "-shared", "-fPIC", "-o", self.library, TOP / ".ci/program/devices.c", "-ldl"], check=True)

    def run(self, job: Job, device: Device) -> Outcome:
        """Runs a job over a device."""
        with tempfile.TemporaryFile(dir=self.folder) as given, tempfile.NamedTemporaryFile(dir=self.folder) as calls:
            given.write(job.given)
            given.seek(0)
            own = {name.upper(): str(int(value)) for name, value in device._asdict().items()}
            own |= {"LD_PRELOAD": self.library, "CALLS": calls.name}
            ran = subprocess.run([self.program, *job.arguments], stdin=given, capture_output=True, env=os.environ | own, timeout=SECONDS, check=False)
            return Outcome(ran.stdout, ran.returncode, calls.read().decode(), ran.stderr)


def case_job(name: str, reads: bool = True) -> Job:
    """A case of conformance/."""
    found = next(each for each in cases() if each.name == name)
    return Job(name, found.arguments, found.given, found.wanted, found.status, reads)


def conversation_job(name: str, setup: bytes, answers: dict[bytes, bytes], status: int) -> Job:
    """A conversation over a setup."""
    answers = {setup: b"", **answers} if status == 0 else answers
    return Job(name, ["live"], b"".join(answers), b"".join(answers.values()), status, answers=answers)


def jobs() -> Iterator[Job]:
    """Each kind of run, good ones and refused ones."""
    yield case_job("rows/results/eleven-results-of-a-service")
    code = b'nagsched: line 2: value 3 of "report" is 4; it has to be a whole number from 0 to 3\n'
    yield case_job("rows/results/code-four")._replace(note=code)
    setup = b'nagsched: line 1: the setup is refused; give this line to "nagsched check" to see why\n'
    yield case_job("rows/first-path/duplicate-host")._replace(note=setup)
    yield case_job("rows/drill/one-worker")
    codes = b'nagsched: line 2: the number of values of "plugin" is 1; it has to be at least 2\n'
    yield case_job("rows/drill/plugin-without-codes")._replace(note=codes)
    yield case_job("checks/a-line")
    yield case_job("checks/a-refused-setup")
    yield case_job("changes/the-same-setup")
    yield case_job("words/help-of-live", reads=False)
    yield case_job("words/another-subcommand", reads=False)
    yield conversation_job("a conversation", HOST, CONVERSATION, 0)
    yield conversation_job("a conversation that is refused", b"", {b"{\n": b"refused L1 NotJson\n", b'["take",0]\n': b""}, 1)


def long_run() -> Job:
    """A run that writes more than the program holds back."""
    return Job("a long run", ["run"], HOST + b'["take",0]\n' * 1_000, b"taken 1 h\n" + b"idle none\n" * 999, 0)


def tried_places(count: int) -> range:
    """The numbers from 1 to this one, or as many of them as are tried."""
    return range(1, count + 1, -(-count // PLACES))


def sample(count: int) -> list[int]:
    """The first, one in the middle and the last of the numbers from 1 to this one."""
    return [1, (count + 1) // 2, count]


class Trial(NamedTuple):
    """A run over a device, and the outcome that it must have."""

    what: str
    job: Job
    device: Device
    text: bytes
    status: int
    # The calls, the number of reads and the number of writes, if they are fixed.
    call_log: str = ""
    reads: int = 0
    writes: int = 0
    # The program may have written the rest of the text after the failure.
    more: bool = False

    def differences(self, ran: Outcome) -> Iterator[tuple[str, bool]]:
        """Each part of the outcome, and whether it differs."""
        is_front = ran.text.startswith(self.text) and self.job.text.startswith(ran.text)
        yield "the text", not is_front if self.more else ran.text != self.text
        yield "the status", ran.status != self.status
        yield "the calls", self.call_log not in ("", ran.call_log)
        yield "the number of reads", self.reads not in (0, ran.call_log.count("r"))
        yield "the number of writes", self.writes not in (0, ran.call_log.count("w"))
        behind = ran.call_log.split("w", self.device.write_at)[self.device.write_at :] if self.device.write_at else []
        yield "a read after the write", self.status == FAILED and "r" in "".join(behind)
        yield "the explanation", (self.status == FAILED or self.job.note != b"") and ran.explanation != self.explanation()

    def explanation(self) -> bytes:
        """What standard error says of the refusal and of the failure."""
        if self.status != FAILED:
            return self.job.note
        reason = REASONS[self.device.fault]
        if self.device.read_at:
            return b"nagsched: standard input can't be read: %b\n" % reason
        return self.job.note + b"nagsched: standard output can't be written: %b\n" % reason

    def fault(self, ran: Outcome) -> str:
        """How the outcome differs, or nothing."""
        wrong = [what for what, differs in self.differences(ran) if differs]
        return f"{self.what}, {self.job.name}, {self.device}: {', '.join(wrong)}; came {ran}" if wrong else ""


def piece_trials(job: Job) -> Iterator[Trial]:
    """An input in pieces, and an output that takes pieces."""
    for most in (1, PIECE, WHOLE):
        yield Trial("an input in pieces", job, Device(read_most=most), job.text, job.status, call_log=job.call_log(most))
        yield Trial("an output in pieces", job, Device(write_most=most), job.text, job.status)


def read_failures(job: Job) -> Iterator[Trial]:
    """Each read fails."""
    count = job.call_log(PIECE).count("r")
    for at in tried_places(count):
        text = job.answers_after((at - 1) * PIECE)
        for error in READ_ERRORS if at in sample(count) else READ_ERRORS[:1]:
            yield Trial("a read fails", job, Device(read_most=PIECE, read_at=at, fault=error), text, FAILED, reads=at)


def write_failures(job: Job) -> Iterator[Trial]:
    """Each write of a byte fails: once, so that a later one would be taken, or for good; and each is interrupted."""
    count = len(job.text)
    for at in tried_places(count) if count < LONG else sample(count):
        for error in WRITE_ERRORS if at in sample(count) else WRITE_ERRORS[:1]:
            device = Device(write_most=1, write_at=at, fault=error)
            yield Trial("a write fails once", job, device, job.text[: at - 1], FAILED, more=True)
            yield Trial("a write fails", job, device._replace(stays=True), job.text[: at - 1], FAILED)
        device = Device(write_most=1, write_at=at, fault=errno.EINTR)
        yield Trial("a write is interrupted", job, device, job.text, job.status, writes=count + 1)


def trials() -> Iterator[Trial]:
    """Every run."""
    for job in jobs():
        for sweep in (piece_trials, read_failures, write_failures) if job.reads else (piece_trials, write_failures):
            yield from sweep(job)
    yield from write_failures(long_run())


def main() -> None:
    """Makes all runs, and counts the outcomes."""
    needs.require("devices", "cc")
    harness = Harness("devices")
    with tempfile.TemporaryDirectory() as folder, ThreadPoolExecutor(os.cpu_count()) as threads:
        shim = Shim(harness.program, folder)
        for fault in threads.map(lambda trial: trial.fault(shim.run(trial.job, trial.device)), trials()):
            harness.compare("a run", "", fault)
    harness.end()


main()
