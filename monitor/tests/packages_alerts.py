"""The monitor's alerts with Debian's Alertmanager: the messages at a receiver, while the monitor is restarted and Alertmanager is away.

    tests/packages_alerts.py PROGRAM [SECONDS]

PROGRAM is `nagsched`; SECONDS is how long Alertmanager is away, by default 60. `packages.sh` runs this.
"""
import collections
import http.server
import json
import pathlib
import re
import shutil
import subprocess
import sys
import tempfile
import threading
import time
from typing import Any, Callable, Counter, Dict, List, Mapping, Tuple

HERE = pathlib.Path(__file__).resolve().parent.parent
sys.path.insert(0, str(HERE))

from tests.ssh_server import free_port  # noqa: E402
from tests.waiting import becomes_true  # noqa: E402

MONITOR = HERE / "nagsched-monitor"
# In seconds: the limit for a message, the time in which no other message may follow, and a time after which an alert would end that isn't posted again.
TOLD, QUIET, KEPT = 60, 15, 330
CONFIG = """
route: {{receiver: all, group_by: [host, service], group_wait: 1s, group_interval: 2s, repeat_interval: 4h}}
receivers: [{{name: all, webhook_configs: [{{url: 'http://127.0.0.1:{port}/', send_resolved: true}}]}}]
inhibit_rules:
  - source_matchers: ['alertname = NagschedHeld']
    target_matchers: ['alertname = NagschedProblem']
    equal: [site, host, service]
  - source_matchers: ['alertname = NagschedProblem', 'service = ""']
    target_matchers: ['alertname = NagschedProblem', 'service != ""']
    equal: [site, host]
"""
SERVICES = ("db;disk", "db;load", "db;old", "web;http", "quiet;disk")
REMARKED = ("a;disk", "b;load", "web;http", "quiet;disk")  # each on a host of its own: a message of the example has all problems of a host
EXAMPLE = HERE / "examples/alertmanager.yml"
# What services want of notifications, by the example.
WISHES: Dict[str, Dict[str, Any]] = {"a;all": {}, "b;off": {"enabled": False}, "c;none": {"options": []}, "d;critical": {"options": ["critical", "recovery"]},
                                     "e;ends": {"options": ["warning", "critical", "unknown"]}, "f;warning": {"options": ["warning", "recovery"]}}
Heard = Counter[Tuple[str, str]]


def example_config(port: int) -> str:
    """The example's configuration with short waits, at any time of the day, whose receivers are all one."""
    text, receivers = EXAMPLE.read_text().split("receivers:\n")
    for wait, short in (("group_wait: 1m", "group_wait: 1s"), ("group_interval: 2m", "group_interval: 2s"), ("mute_time_intervals: [nights-and-weekends]", "")):
        text = text.replace(wait, short)
    lines = []
    for name, settings in re.findall(r"^  - name: (\S+)\n((?:    .*\n)*)", receivers, re.MULTILINE):
        resolved = "false" if "send_resolved: false" in settings else "true"
        hook = f", webhook_configs: [{{url: 'http://127.0.0.1:{port}/', send_resolved: {resolved}}}]" if settings else ""
        lines.append(f"  - {{name: {name}{hook}}}\n")
    return f"{text}receivers:\n{''.join(lines)}"


class Receiver:
    """The messages of Alertmanager: how often each object was reported as firing and as resolved."""

    def __init__(self) -> None:
        self.heard: Heard = collections.Counter()
        receiver = self

        class Taking(http.server.BaseHTTPRequestHandler):
            def do_POST(self) -> None:
                told = json.loads(self.rfile.read(int(self.headers["Content-Length"])))
                for alert in told["alerts"]:
                    labels = alert["labels"]
                    if labels["alertname"] == "NagschedProblem":
                        receiver.heard[";".join(filter(None, (labels["host"], labels.get("service")))), alert["status"]] += 1
                self.send_response(200)
                self.end_headers()

            def log_message(self, *_: Any) -> None:
                pass

        self.server = http.server.HTTPServer(("127.0.0.1", 0), Taking)
        threading.Thread(target=self.server.serve_forever, daemon=True).start()


class Trial:
    """A monitor, Alertmanager and a receiver."""

    def __init__(self, folder: pathlib.Path, program: str, config: Callable[[int], str], wishes: Mapping[str, Dict[str, Any]]) -> None:
        self.folder, self.program, self.site = folder, program, folder / "site"
        self.receiver = Receiver()
        self.port = free_port()
        self.wrong: List[str] = []
        (folder / "alertmanager.yml").write_text(config(self.receiver.server.server_port))
        self.site.mkdir()
        hosts = sorted({name.partition(";")[0] for name in wishes})
        members: Dict[str, Any] = {"check_interval": 0, "max_check_attempts": 1, "enabled": False}
        services = [dict(zip(("host", "description"), name.split(";")), **members) for name in wishes]
        setup = {"options": {"interval_length": 1}, "hosts": [{"name": host, **members} for host in hosts], "services": services}
        for name, document in (("setup", setup), ("commands", {}), ("passive", {name: {"only": True} for name in (*hosts, *wishes)}),
                               ("groups", {name: {"notifications": wish} for name, wish in wishes.items()})):
            (self.site / f"{name}.json").write_text(json.dumps(document))
        self.begin_alertmanager()
        self.begin_monitor()

    def begin_alertmanager(self) -> None:
        words = ["prometheus-alertmanager", f"--config.file={self.folder}/alertmanager.yml", f"--storage.path={self.folder}/storage",
                 f"--web.listen-address=127.0.0.1:{self.port}", "--cluster.listen-address="]
        with (self.folder / "alertmanager.log").open("ab") as log:
            self.alertmanager = subprocess.Popen(words, stdout=log, stderr=log)

    def begin_monitor(self) -> None:
        words = [sys.executable, str(MONITOR), "--program", self.program, "--alertmanager", f"http://127.0.0.1:{self.port}", str(self.site)]
        with (self.folder / "log").open("ab") as log:
            self.monitor = subprocess.Popen(words, stdout=log, stderr=log)
        becomes_true(lambda: subprocess.run([sys.executable, str(MONITOR), str(self.site), "save"], capture_output=True, check=False).returncode == 0)

    def end(self, process: "subprocess.Popen[bytes]") -> None:
        process.terminate()
        process.wait(timeout=60)

    def give(self, *results: Tuple[str, int]) -> None:
        for name, code in results:
            subprocess.run([sys.executable, str(MONITOR), str(self.site), "result", name, str(code), f"code {code}"], stdout=subprocess.DEVNULL, check=True)

    def ask(self, *words: str) -> None:
        subprocess.run([sys.executable, str(MONITOR), str(self.site), *words], stdout=subprocess.DEVNULL, check=True)

    def amtool(self, *words: str) -> str:
        return subprocess.run(["amtool", f"--alertmanager.url=http://127.0.0.1:{self.port}", *words], stdout=subprocess.PIPE, text=True,
                              check=True).stdout.strip()

    def hears(self, what: str, quiet: float, **wanted: Dict[str, int]) -> None:
        """Whether the receiver comes to have exactly these messages, and gets no other for this time."""
        expected = collections.Counter({(name.replace("_", ";"), status): count for name, counts in wanted.items() for status, count in counts.items()})
        begun = time.monotonic()
        becomes_true(lambda: self.receiver.heard == expected, TOLD)
        time.sleep(quiet)
        is_right = self.receiver.heard == expected
        print(f"alerts: {what}: {'as wanted' if is_right else f'wanted {dict(expected)}, came {dict(self.receiver.heard)}'}, {time.monotonic() - begun:.0f} s")
        self.wrong += [] if is_right else [what]

    def close(self) -> None:
        for process in (self.monitor, self.alertmanager):
            self.end(process)
        self.receiver.server.shutdown()


def tried(trial: Trial, away: float) -> List[str]:
    once, over = {"firing": 1}, {"firing": 1, "resolved": 1}
    trial.give(("db;disk", 2), ("db;old", 1))
    trial.hears("a problem is told once, and kept while it stands", KEPT, db_disk=once, db_old=once)
    trial.end(trial.monitor)
    trial.begin_monitor()
    trial.hears("the monitor is restarted", 2 * QUIET, db_disk=once, db_old=once)
    trial.end(trial.alertmanager)
    trial.give(("db;load", 2), ("db;old", 0))
    time.sleep(away)
    trial.begin_alertmanager()
    trial.hears(f"Alertmanager was away for {away:g} seconds, in which a problem began and one ended", 2 * QUIET, db_disk=once, db_old=over, db_load=once)
    trial.give(("web", 2))
    trial.hears("a host is down", QUIET, db_disk=once, db_old=over, db_load=once, web=once)
    trial.give(("web;http", 2))
    trial.hears("a service of it is held back", 2 * QUIET, db_disk=once, db_old=over, db_load=once, web=once)
    silence = trial.amtool("silence", "add", "--duration=1h", "--author=test", "--comment=ordered", "host=quiet")
    trial.give(("quiet;disk", 2))
    trial.hears("a silence holds", 2 * QUIET, db_disk=once, db_old=over, db_load=once, web=once)
    trial.amtool("silence", "expire", silence)
    trial.hears("it is ended", QUIET, db_disk=once, db_old=over, db_load=once, web=once, quiet_disk=once)
    trial.give(("db;disk", 0), ("db;load", 0), ("quiet;disk", 0), ("web;http", 0), ("web", 0))
    trial.hears("all is well, told once each", QUIET, db_disk=over, db_old=over, db_load=over, web=over, quiet_disk=over)
    return trial.wrong


def tried_remarks(trial: Trial) -> List[str]:
    """With the example's configuration, people hear of what no remark holds, and nothing ends because a remark begins."""
    once, over = {"firing": 1}, {"firing": 1, "resolved": 1}
    trial.give(("a;disk", 2), ("b;load", 1))
    trial.hears("problems that nothing holds", QUIET, a_disk=once, b_load=once)
    trial.ask("downtime", "a;disk", "40", "move")
    trial.ask("ack", "b;load", "known")
    trial.ask("downtime", "web", "1h", "new disk")
    trial.hears("nothing ends when a downtime or an acknowledgement begins", QUIET, a_disk=once, b_load=once)
    trial.give(("web;http", 2), ("web", 2))
    trial.hears("problems of a host in downtime", QUIET, a_disk=once, b_load=once)
    trial.give(("b;load", 2))
    trial.hears("an acknowledgement ends with its state", QUIET, a_disk=once, b_load={"firing": 2, "resolved": 1})
    trial.give(("web", 0))
    trial.hears("a recovery in downtime isn't told", QUIET, a_disk=once, b_load={"firing": 2, "resolved": 1})
    trial.ask("remarks", "--remove", "3")
    trial.hears("a downtime is removed, and the problem that is left is told", QUIET, a_disk=once, b_load={"firing": 2, "resolved": 1}, web_http=once)
    trial.ask("downtime", "quiet;disk", "20", "--within", "1h", "reboot")
    trial.give(("quiet;disk", 2))
    trial.hears("a flexible downtime begins with the problem", 12, a_disk=once, b_load={"firing": 2, "resolved": 1}, web_http=once)
    trial.hears("and the problem is told when it ends", QUIET, a_disk=once, b_load={"firing": 2, "resolved": 1}, web_http=once, quiet_disk=once)
    trial.give(*((name, 0) for name in REMARKED))
    trial.hears("all is well", QUIET, a_disk=over, b_load={"firing": 2, "resolved": 2}, web_http=over, quiet_disk=over)
    return trial.wrong


def tried_wishes(trial: Trial) -> List[str]:
    """With the example's routes, people hear of what objects want, and of nothing else."""
    once, over = {"firing": 1}, {"firing": 1, "resolved": 1}
    trial.give(*((name, 1) for name in WISHES))
    trial.hears("warnings of those who want them", QUIET, a_all=once, e_ends=once, f_warning=once)
    trial.give(*((name, 2) for name in WISHES))
    trial.hears("they become critical", QUIET, a_all={"firing": 2, "resolved": 1}, d_critical=once, e_ends={"firing": 2}, f_warning=over)
    trial.give(*((name, 0) for name in WISHES))
    trial.hears("they end", QUIET, a_all={"firing": 2, "resolved": 2}, d_critical=over, e_ends={"firing": 2}, f_warning=over)
    return trial.wrong


def run_trial(program: str, config: Callable[[int], str], wishes: Mapping[str, Dict[str, Any]], trying: Callable[[Trial], List[str]]) -> List[str]:
    with tempfile.TemporaryDirectory() as holder:
        trial = Trial(pathlib.Path(holder), program, config, wishes)
        try:
            return trying(trial)
        finally:
            trial.close()


def main(program: str, away: str = "60") -> int:
    for needed in ("prometheus-alertmanager", "amtool"):
        if shutil.which(needed) is None:
            print(f"packages: passed over the alerts: {needed} isn't here")
            return 0
    wrong = run_trial(program, example_config, {name: {} for name in REMARKED}, tried_remarks)
    wrong += run_trial(program, example_config, WISHES, tried_wishes)
    wrong += run_trial(program, lambda port: CONFIG.format(port=port), {name: {} for name in SERVICES}, lambda trial: tried(trial, float(away)))
    print(f"packages of Alertmanager: {'failed' if wrong else 'passed'}")
    return 1 if wrong else 0


if __name__ == "__main__":
    sys.exit(main(*sys.argv[1:]))
