"""Checks on many machines with Debian's packages: a monitor, one gearmand, and workers.

    tests/packages_gearman.py PROGRAM [WHAT..]

PROGRAM is `nagsched`. WHAT is one or more of the following, by default all. `rate`: 500 checks per second through four workers. `kills`: 20 kills of a worker
and 3 of the server, as jobs and as a site. `wall`: a worker in a network namespace of its own; needs root and iproute2. `remote`: NRPE and check_by_ssh, a
line each. Figures are printed. A missing requirement is named, and its trial is skipped. `packages.sh` runs this.
"""
import collections
import json
import os
import pathlib
import random
import re
import sqlite3
import subprocess
import sys
import tempfile
import threading
import time
from typing import Any, Callable, Counter, Dict, List, Tuple

HERE = pathlib.Path(__file__).resolve().parent.parent
sys.path.insert(0, str(HERE))

from tests.gearman_trial import GearmanTrial, SubmittedJobs, missing_program, runner_command  # noqa: E402
from tests.gearman_walls import remote, wall  # noqa: E402

MONITOR = HERE / "nagsched-monitor"
RATE, INTERVAL, WORKERS, SLOTS = 500, 10, 4, 32
KILLS, SERVER_KILLS = 20, 3
# In seconds: how long a site of that rate runs before it is measured, and while it is, and the length of its kills.
BEFORE, SECONDS, KILLING = 20, 40, 60


def processes_below(process: int) -> List[int]:
    """A process and all that it started."""
    found, left = [], [process]
    while left:
        each = left.pop()
        try:
            left += map(int, pathlib.Path(f"/proc/{each}/task/{each}/children").read_text().split())
        except OSError:
            continue
        found.append(each)
    return found


def usage(*processes: int) -> Tuple[float, float]:
    """Processor seconds and resident megabytes of processes and all their descendants; those of plugins that have ended are in neither."""
    ticks = pages = 0
    for each in {each for process in processes for each in processes_below(process)}:
        try:
            fields = pathlib.Path(f"/proc/{each}/stat").read_text().rpartition(")")[2].split()
        except OSError:
            continue
        ticks += int(fields[11]) + int(fields[12])
        pages += int(fields[21])
    return ticks / os.sysconf("SC_CLK_TCK"), pages * os.sysconf("SC_PAGE_SIZE") / 1e6


def write_site(folder: pathlib.Path, trial: GearmanTrial) -> None:
    """A site of this many checks per second, in two parts, whose checks all go to one queue."""
    commands: Dict[str, Any] = {}
    count = RATE * INTERVAL // 2
    for part in (1, 2):
        host = {"name": f"h{part}", "check_interval": 0, "max_check_attempts": 3}
        services = [{"host": f"h{part}", "description": f"s{number:05}", "check_interval": INTERVAL, "max_check_attempts": 3} for number in range(count)]
        document = {"options": {"interval_length": 1, "max_service_check_spread": 1}, "hosts": [host], "services": services}
        (folder / f"part-{part}.json").write_text(json.dumps(document))
        commands.update({f"h{part}": {"line": "/bin/true"}, **{f"h{part};{it['description']}": {"line": "/bin/true"} for it in services}})
    (folder / "commands.json").write_text(json.dumps(commands))
    (folder / "runners.json").write_text(json.dumps(
        {"runners": {"checks": runner_command(trial, "checks")}, "objects": {"checks": ["*"]}, "slots": {"checks": 500}}))


class RunningSite:
    """A monitor over such a site, the server and its workers."""

    def __init__(self, folder: pathlib.Path, program: str, trial: GearmanTrial) -> None:
        self.folder, self.trial, self.log = folder, trial, folder / "log"
        write_site(folder, trial)
        trial.begin_server()
        for _ in range(WORKERS):
            trial.begin_worker("checks", slots=SLOTS)
        with self.log.open("wb") as log:
            self.running = subprocess.Popen([sys.executable, str(MONITOR), "--program", program, str(folder)], stdout=log, stderr=log)

    def figures(self) -> Dict[str, float]:
        with sqlite3.connect(self.folder / "monitor.db") as database:
            return dict(database.execute("SELECT name, value FROM figures"))

    def checks(self) -> float:
        return sum(value for name, value in self.figures().items() if re.fullmatch(r"checks\.[A-Z]+", name))

    def late(self) -> List[float]:
        with sqlite3.connect(self.folder / "monitor.db") as database:
            return sorted(late for (late,) in database.execute("SELECT late FROM standings WHERE late IS NOT NULL")) or [0.0]

    def ended(self) -> Counter[Tuple[str, int]]:
        """How often each run was reported or abandoned, from the stored calls."""
        with sqlite3.connect(self.folder / "monitor.db") as database:
            calls = [json.loads(line) for (line,) in database.execute("SELECT line FROM calls")]
        return collections.Counter((call[1], call[2]) for call in calls if call[0] in ("report", "abandon"))

    def close(self) -> None:
        self.running.terminate()
        self.running.wait(timeout=60)
        self.trial.close()


def rate(program: str) -> List[str]:
    """The rate that goes through one server and four workers, and its cost."""
    trial = GearmanTrial()
    with tempfile.TemporaryDirectory() as holder:
        site = RunningSite(pathlib.Path(holder), program, trial)
        try:
            time.sleep(BEFORE)
            parts = {"monitor": [site.running.pid], "gearmand": [trial.server_id()], "workers": [worker.pid for worker in trial.workers]}
            before, checks, begin = {name: usage(*ids)[0] for name, ids in parts.items()}, site.checks(), time.monotonic()
            time.sleep(SECONDS)
            after, made, seconds = {name: usage(*ids) for name, ids in parts.items()}, site.checks() - checks, time.monotonic() - begin
            late, figures = site.late(), site.figures()
        finally:
            site.close()
    print(f"rate: {made / seconds:.1f} checks a second through one gearmand and {WORKERS} workers; median {late[len(late) // 2] * 1000:.0f} ms late, "
          f"95th percentile {late[len(late) * 95 // 100] * 1000:.0f} ms; abandoned {figures.get('checks.given_up', 0):.0f}")
    for name, (processor, memory) in after.items():
        print(f"rate: {name}: {(processor - before[name]) * 1000 / max(made, 1):.2f} processor ms a check, {memory:.0f} MB")
    wrong = [] if made / seconds >= RATE * 0.97 else [f"rate: {made / seconds:.1f} checks a second, and {RATE} were due"]
    return wrong + [f"rate: {name} is {figures[name]:.0f}" for name in ("checks.given_up", "checks.refused") if figures.get(name)]


def mishaps(trial: GearmanTrial, queue: str, seconds: float) -> None:
    """Kills a worker 20 times and the server three times, over this many seconds, and starts each again."""
    chance = random.Random(3)
    moments = ["server" if number % 7 == 5 else "worker" for number in range(KILLS + SERVER_KILLS)]
    for what in moments:
        time.sleep(seconds / len(moments))
        if what == "server":
            trial.kill_server()
            trial.begin_server()
        else:
            trial.kill_worker(chance.randrange(len(trial.workers)))
            trial.begin_worker(queue, slots=SLOTS)
    print(f"kills: {moments.count('worker')} of a worker, {moments.count('server')} of the server")


def kills_of_jobs() -> List[str]:
    """Each of 500 jobs per second has one answer, the plugin's, while workers and servers are killed."""
    trial = GearmanTrial()
    trial.begin_server()
    for _ in range(WORKERS):
        trial.begin_worker("checks", slots=SLOTS)
    jobs = SubmittedJobs(trial, 60)
    try:
        killing = threading.Thread(target=mishaps, args=(trial, "checks", KILLING))
        killing.start()
        jobs.submit_steadily(RATE, KILLING + 3, "checks", ["sleep", "0.02"])
        killing.join()
        is_answered = jobs.wait(90)
    finally:
        jobs.close()
        trial.close()
    ends = jobs.ends()
    print(f"kills: of {jobs.sent} jobs {ends}, {jobs.sent - sum(ends.values())} without an answer")
    reasons = collections.Counter(str(answers[0]["lost"]) for answers in jobs.answers.values() if "lost" in answers[0])
    print("".join(f"kills: {count} lost: {why}\n" for why, count in reasons.items()), end="")
    return [] if is_answered and ends == {"exited": jobs.sent} else [f"kills: of {jobs.sent} jobs came {ends}"]


def kills_of_a_site(program: str) -> List[str]:
    """A site of that rate: each run that was taken is reported once, or abandoned by name."""
    trial = GearmanTrial()
    with tempfile.TemporaryDirectory() as holder:
        site = RunningSite(pathlib.Path(holder), program, trial)
        try:
            time.sleep(BEFORE)
            before, begin = site.checks(), time.monotonic()
            mishaps(trial, "checks", KILLING)
            time.sleep(BEFORE)
            made, seconds, figures = site.checks() - before, time.monotonic() - begin, site.figures()
            log = site.log.read_text()
            ended = site.ended()
        finally:
            site.close()
    twice = [run for run, count in ended.items() if count > 1]
    named = len(re.findall(": its check is abandoned: ", log))
    print(f"kills: a site made {made / seconds:.1f} checks a second meanwhile; {len(ended)} runs ended in its journal, {len(twice)} twice; "
          f"{figures.get('checks.given_up', 0):.0f} were abandoned, in {named} lines by name")
    wrong = [f"kills: runs that ended twice: {twice[:3]}"] if twice else []
    wrong += [f"kills: {figures['checks.refused']:.0f} results came too late"] if figures.get("checks.refused") else []
    wrong += ["kills: what was abandoned isn't named"] if figures.get("checks.given_up") and not named else []
    return wrong + ([] if made / seconds >= RATE * 0.95 else [f"kills: {made / seconds:.1f} checks a second, and {RATE} were due"])


def main(program: str, *wanted: str) -> int:
    lacking = missing_program()
    parts: Dict[str, Callable[[], List[str]]] = {
        "rate": lambda: rate(program),
        "kills": lambda: kills_of_jobs() + kills_of_a_site(program),
        "wall": lambda: wall(program),
        "remote": lambda: remote(program),
    }
    wrong: List[str] = []
    for name, part in parts.items():
        if wanted and name not in wanted:
            continue
        if lacking is not None and name != "remote":
            print(f"packages: passed over {name}: {lacking} isn't here")
        else:
            wrong += part()
    for line in wrong:
        print(line)
    print(f"packages of Gearman: {'failed' if wrong else 'passed'}")
    return 1 if wrong else 0


if __name__ == "__main__":
    sys.exit(main(*sys.argv[1:]))
