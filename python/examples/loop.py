#!/usr/bin/env python3
"""A small monitor over the Python module, built like one that runs for years.

    tools/build_c.sh && NAGSCHED_LIBRARY=out/c/lib/libnagsched.so PYTHONPATH=python python/examples/loop.py SETUP STATE SECONDS COMMAND

It is c/examples/loop.c in Python. Workers take due checks by the clock, run a plugin with a time limit, and report. The state is saved every few seconds and at
the end. The next start resumes it, over the same setup or over a changed one. SETUP is a file with a setup, STATE the file for the state, and COMMAND a line
for /bin/sh that checks the object $1 and exits with 0 to 3. It prints the answer to each report, and at the end the standing of each object.
"""
from __future__ import annotations

import os
import pathlib
import subprocess
import sys
import threading
import time
from typing import Callable, Optional

import nagsched
from nagsched import Call, CallKind, Code, Reply, ReplyKind

WORKERS = 4
# Entries for which a generation has memory at once. In seconds: the limit of a plugin, the length of a generation, and the longest wait of a worker.
ROOM = 10_000
PLUGIN_LIMIT = 5.0
GENERATION = 2.0
AT_LIMIT_WAIT = 1.0
LONGEST_WAIT = 3_600.0
# The clock: milliseconds since 1970 at the start, and from then on by a clock that nobody sets.
FIRST, BEGAN = time.time_ns() // 1_000_000, time.monotonic_ns() // 1_000_000


def now() -> int:
    return FIRST + time.monotonic_ns() // 1_000_000 - BEGAN


def run_plugin(command: str, name: str) -> Optional[Code]:
    """The code of a plugin; CRITICAL if it is killed after the limit or exits with no code, None if it couldn't be started."""
    try:
        code = subprocess.run(["/bin/sh", "-c", command, "plugin", name], timeout=PLUGIN_LIMIT, check=False).returncode
    except subprocess.TimeoutExpired:
        return Code.CRITICAL
    except OSError:
        return None
    return Code(code) if 0 <= code <= Code.UNKNOWN else Code.CRITICAL


class Monitor:
    """Workers at a desk, which is closed now and then so that its state is saved."""

    def __init__(self, desk: nagsched.Desk, state: pathlib.Path, command: str) -> None:
        self._desk, self._state, self._command = desk, state, command
        # Held for each call, and while the desk is closed. `news` reports a result, or the end.
        self._gate = threading.Lock()
        self._news = threading.Condition()
        self._results = 0
        self._is_ended = False

    def _call(self, place: int, made: Callable[[nagsched.Pass], Reply]) -> Reply:
        """Makes a call by a worker's pass, when the desk is open."""
        with self._gate:
            return made(self._desk.passes[place])

    def _check(self, place: int, taken: Reply) -> None:
        """Runs a check that was taken and reports it; abandons it if it couldn't be run. Nothing is held while the plugin runs."""
        number, run = taken.object, taken.run
        with self._gate:
            name = self._desk.passes[place].name(number)
        code = run_plugin(self._command, name)
        if code is None:
            self._call(place, lambda mine: mine.abandon(number, run, now()))
            return
        with self._gate:
            mine = self._desk.passes[place]
            reply = mine.report(number, run, code)
            print(mine.text((Call(CallKind.REPORT, number, run, code=code), reply)), end="", flush=True)

    def _wait_for_news(self, seen: int, seconds: float) -> None:
        """Waits until a result has come after the first `seen`, for this number of seconds, or until the end."""
        with self._news:
            self._news.wait_for(lambda: self._is_ended or self._results != seen, max(0.0, seconds))

    def work(self, place: int) -> None:
        """A worker: takes due checks until the end."""
        while True:
            with self._news:
                seen = self._results
                if self._is_ended:
                    return
            moment = now()
            reply = self._call(place, lambda mine: mine.take(moment))
            if reply.kind == ReplyKind.TAKEN:
                self._check(place, reply)
                with self._news:
                    self._results += 1
                    self._news.notify_all()
            elif reply.kind == ReplyKind.IDLE:
                self._wait_for_news(seen, LONGEST_WAIT if reply.time is None else (reply.time - now()) / 1000)
            elif reply.kind == ReplyKind.AT_LIMIT:
                self._wait_for_news(seen, AT_LIMIT_WAIT)

    def begin_generation(self) -> None:
        """Closes the desk, saves, frees the entries, and opens it again. Calls wait meanwhile, plugins don't."""
        with self._gate:
            book = self._desk.close()
            save(book, self._state)
            book.renew(ROOM).free()
            self._desk = book.open(passes=WORKERS)

    def work_for(self, seconds: float) -> None:
        """Works with all workers, and saves each generation."""
        threads = [threading.Thread(target=self.work, args=(place,)) for place in range(WORKERS)]
        end = time.monotonic() + seconds
        for thread in threads:
            thread.start()
        while (left := end - time.monotonic()) > 0:
            time.sleep(min(left, GENERATION))
            self.begin_generation()
        with self._news:
            self._is_ended = True
            self._news.notify_all()
        for thread in threads:
            thread.join()

    def print_standings(self) -> None:
        """Prints the standing of each object."""
        mine = self._desk.passes[0]
        for number in range(mine.objects):
            reply = mine.status(number)
            print("at the end", mine.text((Call(CallKind.STATUS, number), reply)), end="")


def save(book: nagsched.Book, path: pathlib.Path) -> None:
    """Writes the state of the book: a new file replaces the old one, so that one of the two is always whole."""
    fresh = path.with_name(path.name + ".new")
    with fresh.open("wb") as file:
        file.write(book.save())
        file.flush()
        os.fsync(file.fileno())
    fresh.replace(path)


def opened(setup: nagsched.Setup, state: pathlib.Path) -> nagsched.Desk:
    """Opens the desk: from the saved state, if there is one. Checks that were running then are abandoned: nobody runs their plugins any more."""
    if not state.exists():
        return setup.open(passes=WORKERS, start=now(), room=ROOM)
    book = setup.resume(state.read_bytes(), now(), ROOM)
    out = book.all_running()
    desk = book.open(passes=WORKERS)
    for number, run in out.items():
        desk.passes[0].abandon(number, run.number, now())
    return desk


def main() -> int:
    setup, state, seconds, command = sys.argv[1:]
    try:
        desk = opened(nagsched.Setup(pathlib.Path(setup).read_bytes()), pathlib.Path(state))
    except nagsched.Refused as refused:
        print(f"loop: {refused}", file=sys.stderr)
        return 1
    monitor = Monitor(desk, pathlib.Path(state), command)
    monitor.work_for(float(seconds))
    monitor.print_standings()
    monitor.begin_generation()
    return 0


if __name__ == "__main__":
    sys.exit(main())
