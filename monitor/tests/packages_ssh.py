"""A site whose checks are made by a runner over SSH, with Debian's openssh-server on this machine, while its connection is cut again and again.

    tests/packages_ssh.py PROGRAM [CUTS]

PROGRAM is `nagsched`; CUTS is how often the connection is cut, by default 20. `packages.sh` runs this. Each run of 100 checks per second has to be reported
once, or abandoned by name and made again. No run is reported twice, and checks of this machine continue.
"""
import collections
import json
import os
import pathlib
import re
import signal
import sqlite3
import subprocess
import sys
import tempfile
import time
from typing import Any, Counter, Dict, List, Tuple

HERE = pathlib.Path(__file__).resolve().parent.parent
sys.path.insert(0, str(HERE))

from nagsched_monitor.system.programs import runner_command  # noqa: E402
from tests.ssh_server import SshServer, missing_program  # noqa: E402
from tests.waiting import becomes_true  # noqa: E402

MONITOR = HERE / "nagsched-monitor"
RATE, BETWEEN, AFTER = 100, 3.0, 40.0


def write_site(folder: pathlib.Path, server: SshServer) -> None:
    """A host with as many services as checks per second, and one whose services are checked here."""
    hosts = [{"name": name, "check_interval": 0, "max_check_attempts": 3, "enabled": False} for name in ("far", "here")]
    services = [{"host": "far", "description": f"s{number:03}", "check_interval": 1, "max_check_attempts": 3} for number in range(RATE)]
    services += [{"host": "here", "description": f"s{number}", "check_interval": 1, "max_check_attempts": 3} for number in range(5)]
    names = [f"{it['host']};{it['description']}" for it in services]
    command = ["ssh", *server.options(), "-o", "BatchMode=yes", "127.0.0.1", "nagsched-runner"]
    documents: Dict[str, Any] = {
        "setup": {"options": {"interval_length": 1}, "hosts": hosts, "services": services},
        "commands": {name: {"line": "/bin/true"} for name in [*names, "far", "here"]},
        "runners": {"runners": {"dmz": command}, "objects": {"dmz": ["far"]}, "slots": {"dmz": 50}, "wait": 20},
    }
    for name, document in documents.items():
        (folder / f"{name}.json").write_text(json.dumps(document))


def connections(process: int) -> List[int]:
    """The processes of ssh below the monitor."""
    children = pathlib.Path(f"/proc/{process}/task/{process}/children").read_text().split()
    return [int(each) for each in children if pathlib.Path(f"/proc/{each}/comm").read_text() == "ssh\n"]


def ended(folder: pathlib.Path) -> Tuple[Counter[Tuple[str, int]], Counter[str]]:
    """How often each run was reported or abandoned, from the stored calls, and the number of reports."""
    with sqlite3.connect(folder / "monitor.db") as database:
        calls = [json.loads(line) for (line,) in database.execute("SELECT line FROM calls")]
    of_runs = [call for call in calls if call[0] in ("report", "abandon")]
    return collections.Counter((call[1], call[2]) for call in of_runs), collections.Counter(f"{call[0]} {call[1].partition(';')[0]}" for call in of_runs)


def main(program: str, cuts: str = "20") -> int:
    lacking = missing_program()
    if lacking is not None:
        print(f"packages: passed over SSH: {lacking} isn't here")
        return 0
    server = SshServer()
    with tempfile.TemporaryDirectory() as holder:
        folder = pathlib.Path(holder)
        (server.folder / "allowed").write_text("/bin/true\n")
        server.allow(f"{runner_command()[0]} --only {server.folder / 'allowed'}")
        write_site(folder, server)
        with (folder / "log").open("wb") as log:
            running = subprocess.Popen([sys.executable, str(MONITOR), "--program", program, str(folder)], stdout=log, stderr=log)
        try:
            becomes_true(lambda: (folder / "monitor.socket").exists())
            time.sleep(5)
            done = 0
            for _ in range(int(cuts)):
                for process in connections(running.pid):
                    os.kill(process, signal.SIGKILL)
                    done += 1
                time.sleep(BETWEEN)
            time.sleep(AFTER)
            runs, kinds = ended(folder)
            log_lines = (folder / "log").read_text()
        finally:
            running.terminate()
            running.wait(timeout=60)
            server.close()
    twice = [run for run, count in runs.items() if count > 1]
    named = len(re.findall(r"abandoned: run \d+ of far;", log_lines)) + len(re.findall(r"with it; another is started", log_lines))
    late = len(re.findall(r"came too late|is dropped", log_lines))
    print(f"ssh: {done} cuts; {dict(kinds)}; {len(twice)} runs ended twice; {late} results came too late or were dropped")
    print(f"ssh: {len(re.findall('the runner dmz ended', log_lines))} lines name the runner's ends")
    wrong = [what for what, is_so in (
        ("runs ended twice", twice), ("results came too late", late), ("no connection was cut", not done), ("nothing is named in the log", not named)) if is_so]
    wrong += ["checks of this machine stood still"] * (kinds["report here"] < 4 * (int(cuts) * BETWEEN + AFTER))
    for line in wrong:
        print(f"ssh: {line}")
    print(f"packages of SSH: {'failed' if wrong else 'passed'}")
    return 1 if wrong else 0


if __name__ == "__main__":
    sys.exit(main(*sys.argv[1:]))
