"""The files of the examples for alerting: Prometheus's and Alertmanager's own tools accept them, and give what they are for."""
import json
import pathlib
import re
import shutil
import subprocess
import tempfile
import unittest
from typing import Dict

from nagsched_monitor.outputs.alertmanager import FLAPPING, HEARTBEAT, PROBLEM, SEVERITIES
from nagsched_monitor.outputs.object_columns import HOST_STATES, SERVICE_STATES

EXAMPLES = pathlib.Path(__file__).resolve().parents[1] / "examples"


class Examples(unittest.TestCase):
    def check(self, *words: str) -> None:
        if shutil.which(words[0]) is None:
            self.skipTest(f"{words[0]} isn't here")
        ran = subprocess.run([*words[:-1], str(EXAMPLES / words[-1])], stdout=subprocess.PIPE, stderr=subprocess.STDOUT, text=True, check=False)
        self.assertEqual(ran.returncode, 0, ran.stdout)

    def test_the_configuration_of_alertmanager(self) -> None:
        self.check("amtool", "check-config", "alertmanager.yml")

    def test_both_ways_give_the_same_severity(self) -> None:
        """The rules for those who let Prometheus make alerts of problems, and the monitor's own alerts."""
        rules = re.findall(r"- alert: NagschedProblem\n +expr: (.*) unless .*\n +labels: {severity: (\w+)}", (EXAMPLES / "alert_rules.yml").read_text())
        severities: Dict[str, str] = {}
        for expression, severity in rules:
            for sign, number in re.findall(r'service(!?=)""} == (\d)', expression):
                states = SERVICE_STATES if sign == "!=" else HOST_STATES
                severities |= {state: severity for state, its in states.items() if its == int(number)}
        self.assertEqual(severities, SEVERITIES)

    def test_the_rules(self) -> None:
        self.check("promtool", "check", "rules", "--lint-fatal", "alert_rules.yml")

    def test_the_configuration_of_prometheus(self) -> None:
        self.check("promtool", "check", "config", "prometheus.yml")

    def test_what_the_rules_tell(self) -> None:
        """With promtool: each rule's alert after some minutes of these figures, and no alert while all is well."""
        if shutil.which("promtool") is None:
            self.skipTest("promtool isn't here")
        well = {"up": "1+0x60", "last_turn_timestamp_seconds": "0+60x60", "stuck": "0+0x60", "overdue": "0+0x60",
                "passive_waiting": "0+0x60", "oldest_change_seconds": "0+0x60", "changes_aside_total": "3+0x60", "left_processes": "2+0x60",
                "spool_written_timestamp_seconds": "0+60x60",
                "runners_stuck": "0+0x60", "runners": "4+0x60", "runners_wanted": "4+0x60", "faults_total": "0+0x60", "state": "0+0x60"}
        for figure, values, alert in (
            ("up", "0+0x60", "NagschedNoAnswer"), ("last_turn_timestamp_seconds", "0+0x60", "NagschedStandsStill"), ("stuck", "1+0x60", "NagschedStuck"),
            ("overdue", "3+0x60", "NagschedNotChecked"), ("spool_written_timestamp_seconds", "0+0x60", "NagschedSpoolNotWritten"),
            ("passive_waiting", "2000+0x60", "NagschedPassiveResultsWait"), ("oldest_change_seconds", "700+0x60", "NagschedChangesWait"),
            ("changes_aside_total", "3+1x60", "NagschedChangesRefused"), ("left_processes", "200+0x60", "NagschedProcessesLeft"),
            ("runners_stuck", "1+0x60", "NagschedRunnersStuck"), ("runners", "3+0x60", "NagschedRunnersMissing"), ("faults_total", "0+1x60", "NagschedFaults"),
            ("state", "2+0x60", "NagschedProblem"),
        ):
            for is_wrong in (True, False):
                series = [{"series": f'nagsched_{name}{{site="a",host="h"}}', "values": values if name == figure and is_wrong else usual}
                          for name, usual in well.items()]
                expected = [{"eval_time": "30m", "alertname": alert, "exp_alerts": []}]
                test = {"rule_files": [str(EXAMPLES / "alert_rules.yml")], "evaluation_interval": "1m",
                        "tests": [{"interval": "1m", "input_series": series, "alert_rule_test": expected}]}
                with tempfile.NamedTemporaryFile("w", suffix=".yml") as file:
                    json.dump(test, file)  # which YAML reads too
                    file.flush()
                    ran = subprocess.run(["promtool", "test", "rules", file.name], stdout=subprocess.PIPE, stderr=subprocess.STDOUT, text=True, check=False)
                self.assertEqual((ran.returncode == 0, "got:[" in ran.stdout.replace(" ", "").replace("\n", "")), (not is_wrong, is_wrong), (alert, ran.stdout))

    def test_each_figure_of_a_rule_is_there(self) -> None:
        told = (EXAMPLES.parent / "nagsched_monitor/outputs/metrics.py").read_text()
        for line in (EXAMPLES / "alert_rules.yml").read_text().splitlines():
            for word in line.replace("_bucket", "").replace("(", " ").replace("{", " ").replace("[", " ").split() if "expr:" in line else ():
                if word.startswith("nagsched_"):
                    self.assertIn(f'"{word.rstrip(")")}"', told)

    def test_routes(self) -> None:
        """The receivers, by the labels of an alert."""
        if shutil.which("amtool") is None:
            self.skipTest("amtool isn't here")
        for labels, wanted in (
            (f"alertname={PROBLEM} host=web severity=critical", "operators"), (f"alertname={PROBLEM} host=far severity=unreachable", "nobody"),
            (f"alertname={HEARTBEAT} severity=none", "dead-mans-switch"),
            (f"alertname={PROBLEM} host=web service=http severity=critical contact_groups=,ops,web-team,", "pager,web-team"),
            (f"alertname={PROBLEM} host=web service=http severity=unknown contact_groups=,web-team,", "web-team"),
            (f"alertname={PROBLEM} host=web service=http severity=critical contact_groups=,web-team-2,", "operators"),
            *((f"alertname={PROBLEM} host=web service=http severity={severity} contact_groups=,web-team, notification_options=,none,", "nobody")
              for severity in ("warning", "critical", "unknown")),
            (f"alertname={FLAPPING} host=web severity=warning notification_options=,critical,recovery,", "nobody"),
            (f"alertname={FLAPPING} host=web severity=warning notification_options=,flapping,recovery,", "operators"),
            (f"alertname={PROBLEM} host=web service=http severity=warning notification_options=,critical,recovery,", "nobody"),
            (f"alertname={PROBLEM} host=web service=http severity=critical notification_options=,critical,recovery,", "operators"),
            (f"alertname={PROBLEM} host=web service=http severity=critical notification_options=,critical,", "operators-without-recoveries"),
            (f"alertname={PROBLEM} host=web service=http severity=critical contact_groups=,web-team, notification_options=,critical,", "pager,web-team"),
        ):
            words = ["amtool", "config", "routes", "test", f"--config.file={EXAMPLES / 'alertmanager.yml'}", *labels.split()]
            ran = subprocess.run(words, stdout=subprocess.PIPE, stderr=subprocess.DEVNULL, text=True, check=False)
            self.assertEqual(ran.stdout.strip(), wanted, labels)
