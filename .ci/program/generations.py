#!/usr/bin/env python3
"""Runs `nagsched_loop`, whose loop watches a room for months, and replays its generations with the built program.

    .ci/program/generations.py [PROGRAM [ROOM]]     crates/nagsched/out/nagsched and crates/nagsched_loop/out/nagsched_loop if they aren't named

The loop runs for four days, and takes over another setup on the way. Each generation is resumed from the state that was saved before it. `nagsched run`
answers it in the same way, and leaves the state that was saved after it. Each check ends as it has to. It is reported, or abandoned after five minutes.
If its plugin couldn't be started, or another setup was taken over, it is abandoned at once. Each moment is that of the simulated clock.
"""
import dataclasses
import json
import pathlib
import re
import subprocess
import sys

from harness import SECONDS, TOP, Harness, input_lines

ROOM = pathlib.Path(sys.argv[2] if len(sys.argv) > 2 else TOP / "crates/nagsched_loop/out/nagsched_loop").resolve()
DAYS, DAY, HOUR = 4, 86_400_000, 3_600_000
ENTRY = re.compile(r"(\[.*\])\t0 (.*)")
# In milliseconds: how long a plugin may run, and how long the loop sleeps at the limit of checks and when none is due.
PLUGIN_LIMIT, AT_LIMIT, WITHOUT_WORK = 300_000, 1_000, 3_600_000
# A check whose number can be divided by the first can't be started. If the number of another check can be divided by the second, its plugin hangs.
NOT_STARTED, HANGS = 31, 17
# How long the fastest machine takes to answer.
ANSWER = 5_500

# A command and its reply; a setup, the state that was saved, and the entries of the generation before it.
Entry = tuple[str, str]
Generation = tuple[str, str, list[Entry]]


def watched_run(*arguments: str | bytes) -> tuple[bytes, int]:
    """The output and the status of the room's program with these arguments."""
    ran = subprocess.run([ROOM, *arguments], stdin=subprocess.DEVNULL, stdout=subprocess.PIPE, timeout=SECONDS)
    return ran.stdout, ran.returncode


def read_generations(text: bytes) -> list[Generation]:
    """The generations of the loop: each with its setup, the state that was saved after it, and its commands with their replies."""
    setup, generations = "", list[Generation]()
    for line in text.decode().splitlines():
        entry = ENTRY.fullmatch(line)
        if entry:
            generations[-1][2].append((entry[1], entry[2]))
        elif line.startswith('{"format"'):
            generations.append((setup, line, []))
        else:
            setup = line
    return generations


def check_replay(harness: Harness, generations: list[Generation]) -> None:
    """The built program answers and saves each generation in the same way."""
    before: tuple[str, str] | None = None
    for number, (setup, state, entries) in enumerate(generations):
        commands = [command for command, _ in entries]
        arguments, head = ["run"], [setup]
        if before is not None:
            arguments, head = ["run", "--resume"], [setup, before[1]]
            if setup != before[0]:
                arguments += ["--start", str(json.loads(commands[0])[-1])]
        came, status = harness.run(arguments, input_lines(*head, *commands, '["save"]'))
        wanted = input_lines(*(reply for _, reply in entries), f"saved {state}")
        harness.compare(f"generation {number}", (wanted, 0), (came, status))
        before = setup, state


def limit_of(run: int, start: int) -> int | None:
    """When the check with this number, which was taken then, is abandoned, if it is."""
    if run % NOT_STARTED == 0:
        return start
    return start + PLUGIN_LIMIT if run % HANGS == 0 else None


def check_ends(harness: Harness, entries: list[Entry], change: int) -> None:
    """Each check that was taken ends as its number requires, or at the change of the setup."""
    taken, wrong = dict[int, int](), list[tuple[str, int]]()
    given_up = 0
    for command, reply in entries:
        word, *members = json.loads(command)
        if reply.startswith("taken "):
            taken[int(reply.split(" ")[1])] = members[0]
        elif word in ("report", "abandon"):
            start = taken.pop(members[1], -PLUGIN_LIMIT)
            limit = limit_of(members[1], start)
            given_up += word == "abandon" and members[2] == limit
            if start < 0 or word == "report" and limit is not None or word == "abandon" and members[2] not in (limit, change):
                wrong.append((command, start))
    harness.compare("checks that ended otherwise", [], wrong)
    harness.compare("some checks were given up", True, given_up > 5)
    harness.compare("checks that are out at the end", [], [run for run, start in taken.items() if start + PLUGIN_LIMIT < DAYS * DAY])


def noon_after(moment: int) -> int:
    """The noon of the day after this moment."""
    return moment // DAY * DAY + DAY + 12 * HOUR


@dataclasses.dataclass
class Clock:
    """The simulated clock. It advances only as the loop sleeps: until the next check, the limit of a run, or an event, whichever comes first."""

    now: int = 0
    noon: int = noon_after(0)
    change: int = DAYS * DAY // 2
    # When the plugin of an object reports, and when each run is past its limit.
    reports: dict[str, int] = dataclasses.field(default_factory=dict)
    limits: dict[int, int] = dataclasses.field(default_factory=dict)

    def change_setup(self) -> None:
        """After the change of the setup no report comes in, and each run is past its limit."""
        self.change = DAYS * DAY
        self.reports, self.limits = {}, dict.fromkeys(self.limits, self.now)

    def is_right(self, command: str) -> bool:
        """Whether a call comes at this moment, and has it."""
        word, *members = json.loads(command)
        if word == "take":
            return members == [self.now]
        if word == "reschedule":
            due, self.noon = self.noon, noon_after(self.noon)
            return due <= self.now and members[1] == due + HOUR
        limit = self.limits.pop(members[1])
        if word == "abandon":
            return limit <= self.now == members[2]
        return self.reports.pop(members[0]) <= self.now

    def reply(self, reply: str, numbers: dict[str, int]) -> None:
        """The reply to a take: a plugin is started, or the loop sleeps."""
        word, _, rest = reply.partition(" ")
        if word == "taken":
            number, _, name = rest.partition(" ")
            run = int(number)
            self.limits[run] = self.now if run % NOT_STARTED == 0 else self.now + PLUGIN_LIMIT
            if run % NOT_STARTED and run % HANGS:
                self.reports[name] = self.now + (1 + numbers[name] % 4) * ANSWER
        elif word != "putoff":
            until = self.now + AT_LIMIT if word == "atlimit" else self.now + WITHOUT_WORK if rest == "none" else int(rest)
            self.now = max(self.now, min(until, *self.limits.values(), self.noon, self.change, DAYS * DAY, *self.reports.values()))


def numbers_of(setup: str) -> dict[str, int]:
    """The number of each object: hosts by name, then services by host and description."""
    document = json.loads(setup)
    services = sorted((it["host"], it["description"]) for it in document["services"])
    names = [*sorted(it["name"] for it in document["hosts"]), *(";".join(service) for service in services)]
    return {name: number for number, name in enumerate(names)}


def check_moments(harness: Harness, generations: list[Generation]) -> None:
    """Each call comes at its moment of the clock, and some moments are no whole seconds."""
    clock, wrong, moments, before = Clock(), list[tuple[str, int]](), set[int](), generations[0][0]
    for setup, _, entries in generations:
        if setup != before:
            clock.change_setup()
        before, numbers = setup, numbers_of(setup)
        for command, reply in entries:
            moments.add(clock.now)
            if not clock.is_right(command):
                wrong.append((command, clock.now))
            if command.startswith('["take"'):
                clock.reply(reply, numbers)
    harness.compare("calls at another moment", [], wrong)
    harness.compare("the last moment", DAYS * DAY, clock.now)
    harness.compare("moments of half a second", True, sum(1 for moment in moments if moment % 1_000) > 50)


def check_months(harness: Harness) -> None:
    """Four days of the loop."""
    written, status = watched_run(f"{DAYS}")
    harness.compare("status", 0, status)
    generations = read_generations(written)
    harness.compare("its setups", 2, len({setup for setup, _, _ in generations}))
    check_replay(harness, generations)
    entries = [entry for _, _, generation in generations for entry in generation]
    check_ends(harness, entries, DAYS * DAY // 2)
    check_moments(harness, generations)


def check_faults(harness: Harness) -> None:
    """Wrong arguments, and an output that nobody reads."""
    wrong: list[list[str | bytes]] = [[], ["0"], ["10001"], ["x"], ["1", "1"], [b"\xff"]]
    for arguments in wrong:
        harness.compare(f"{arguments}", (b"", 2), watched_run(*arguments))
    with subprocess.Popen([ROOM, "100"], stdin=subprocess.DEVNULL, stdout=subprocess.PIPE) as torn:
        if torn.stdout:
            torn.stdout.close()
    harness.compare("a torn pipe", 3, torn.returncode)


harness = Harness("generations")
if not ROOM.is_file():
    harness.compare("the room's program", "there", "not there")
    harness.end()
check_months(harness)
check_faults(harness)
harness.end()
