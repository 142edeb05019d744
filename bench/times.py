#!/usr/bin/env python3
"""Measures the gate's time: the processor minutes of each crate's proofs, of its tests and of each must-fail edit.

    bench/times.py [COMMAND..]     runs `tools/test.sh` if no command is named

It writes the table to bench/results/gate.md, also if it is stopped by a signal. Run it manually, in a fresh clone; it is no part of the gate.
It looks at the command's processes twice a second, and adds up what each check used, with everything that the check started. The rest, which no
check used, is programs and tests that run, links, and processes that ended between two looks.
"""
import collections
import contextlib
import os
import pathlib
import re
import resource
import signal
import subprocess
import sys
import time

TOP = pathlib.Path(__file__).resolve().parent.parent
CRATES = TOP / "crates"
RESULT = TOP / "bench" / "results" / "gate.md"
EVERY = 0.5
TICKS = os.sysconf("SC_CLK_TCK")
# A try of an edit runs in a folder of this name, on a copy of the crate.
EDIT_FOLDER = re.compile(r"/rt-edit-[^/]*$")


def processes():
    """Each process: its number and start, its parent, and the ticks that it and the children that it waited for used."""
    for number in filter(str.isdecimal, os.listdir("/proc")):
        try:
            with open(f"/proc/{number}/stat", encoding="utf-8", errors="replace") as file:
                fields = file.read().rpartition(")")[2].split()
        except OSError:
            continue
        yield int(number), int(fields[19]), int(fields[1]), sum(map(int, fields[11:15]))


def edit_pairs(edit):
    """The file that an edit changes, and its old and new texts."""
    lines = [line.partition(": ") for line in edit.read_text(encoding="utf-8").splitlines()]
    texts = {word: [text for at, _, text in lines if at == word] for word in ("file", "old", "new")}
    return texts["file"][0], list(zip(texts["old"], texts["new"]))


def edit_in(crate, folder):
    """The edit that was made in a copy of the crate, or the unchanged copy, which its edits begin with."""
    for edit in sorted((CRATES / crate).glob("*/*.edit")):
        file, pairs = edit_pairs(edit)
        text = (CRATES / crate / file).read_text(encoding="utf-8")
        for old, new in pairs:
            text = text.replace(old, new, 1)
        if (folder / file).read_text(encoding="utf-8") == text:
            return edit.stem
    return "(what they begin with)"


def process_work(number):
    """The work of a process, as a crate and a kind of work, or nothing if it is no check."""
    folder = pathlib.Path(f"/proc/{number}")
    try:
        words = (folder / "cmdline").read_text(errors="replace").split("\0")
        if "--crate-name" not in words or not words[0].endswith("rattle"):
            return None
        crate, here = words[words.index("--crate-name") + 1], pathlib.Path(os.readlink(folder / "cwd"))
        if EDIT_FOLDER.search(str(here)):
            return crate, "(several at once)" if any(word.startswith("--only") for word in words) else edit_in(crate, here)
    except OSError:
        return None
    return crate, "tests" if "--test" in words else "proofs"


class Times:
    """The time that each check has used so far. A check is a process with all its descendants."""

    def __init__(self, root):
        self.root = root
        self.works, self.used = {}, {}

    def look(self):
        """Looks at all processes once."""
        seen = {number: (start, parent, ticks) for number, start, parent, ticks in processes()}
        sums = collections.Counter()
        for number in seen:
            checks = [name for name in self.line(number, seen) if self.is_check(name)]
            if checks:
                sums[checks[-1]] += seen[number][2]
        for check, ticks in sums.items():
            self.used[check] = max(self.used.get(check, 0), ticks)

    def line(self, number, seen):
        """A process and its ancestors, up to the command and without it; nothing if it isn't a descendant of the command."""
        found = []
        while number in seen and number != self.root:
            found.append((number, seen[number][0]))
            number = seen[number][1]
        return found if number == self.root else []

    def is_check(self, name):
        """Whether a process is a check. One that isn't may still become one."""
        if self.works.get(name) is None:
            self.works[name] = process_work(name[0])
        return self.works[name] is not None

    def minutes(self):
        """The minutes of each crate and kind of work."""
        sums = collections.Counter()
        for check, ticks in self.used.items():
            sums[self.works[check]] += ticks / TICKS / 60
        return sums


def report(minutes, whole, by_clock):
    """The page: the sums, the table of crates, and each edit."""
    yield "# Where the gate's time goes\n\nThis page is written by `bench/times.py`. All figures are processor minutes, user and system.\n"
    of_edits = {work: used for work, used in minutes.items() if work[1] not in ("proofs", "tests")}
    sums = {crate: [minutes[crate, "proofs"], minutes[crate, "tests"], 0.0] for crate, _ in minutes}
    for (crate, _), used in of_edits.items():
        sums[crate][2] += used
    every = [sum(column) for column in zip(*sums.values())] or [0.0] * 3
    yield (f"The run took {whole:.1f} processor minutes, {whole - sum(every):.1f} of them outside every crate's checks, and {by_clock:.1f} minutes "
           f"by the clock on {len(os.sched_getaffinity(0))} processors.\n")
    yield "Each row is a crate.\n\n| Crate | Proofs | Tests | Edits | All |\n|---|---|---|---|---|"
    for crate, parts in sorted(sums.items(), key=lambda row: -sum(row[1])):
        yield f"| {crate} |" + "".join(f" {part:.1f} |" for part in (*parts, sum(parts)))
    yield "| all |" + "".join(f" {part:.1f} |" for part in (*every, sum(every)))
    yield "\nEach row is a must-fail edit.\n\n| Edit | Minutes |\n|---|---|"
    for (crate, edit), used in sorted(of_edits.items(), key=lambda row: -row[1]):
        yield f"| {crate}/{edit} | {used:.2f} |"


def main():
    command = sys.argv[1:] or ["tools/test.sh"]
    began = time.monotonic()
    with subprocess.Popen(command, start_new_session=True) as running:
        times = Times(running.pid)

        def stop(*_):
            with contextlib.suppress(ProcessLookupError):
                os.killpg(running.pid, signal.SIGTERM)

        for number in (signal.SIGINT, signal.SIGTERM):
            signal.signal(number, stop)
        while running.poll() is None:
            times.look()
            time.sleep(EVERY)
    children = resource.getrusage(resource.RUSAGE_CHILDREN)
    whole, by_clock = (children.ru_utime + children.ru_stime) / 60, (time.monotonic() - began) / 60
    RESULT.parent.mkdir(exist_ok=True)
    RESULT.write_text("\n".join(report(times.minutes(), whole, by_clock)) + "\n", encoding="utf-8")
    print(f"{whole:.1f} processor minutes, {by_clock:.1f} minutes by the clock: {RESULT.relative_to(TOP)}")
    return running.returncode


if __name__ == "__main__":
    sys.exit(main())
