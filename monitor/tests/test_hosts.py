"""The hosts that a result asks for: those that Nagios 4.4.6 checks in the same case."""
import unittest
from typing import Dict, List, Optional

from nagsched_monitor.core.checks import hosts_to_check
from nagsched_monitor.model.objects import ObjectDefinition, ObjectState, RunTable
from nagsched_monitor.model.protocol import Standing

from .simulated import BEGIN, SiteTest, host, service


def standing(state: Optional[str]) -> Optional[Standing]:
    return None if state is None else Standing(state, "HARD", 1, False, False, None, "")


class Asked(unittest.TestCase):
    def setUp(self) -> None:
        parents = {"web": ("gate", "other"), "child": ("web",), "far": ("web",)}
        hosts = [ObjectDefinition(name, 0, None, parents.get(name, ()), 60_000, True) for name in ("gate", "other", "web", "child", "far")]
        service = ObjectDefinition("web;http", 0, "web", (), 60_000, True)
        self.objects: Dict[str, ObjectState] = {it.name: ObjectState(it, RunTable(), True) for it in [*hosts, service]}

    def asked(self, name: str, before: Optional[str], now: str, **states: str) -> List[str]:
        for other, state in states.items():
            self.objects[other].standing = standing(state)
        result = standing(now)
        assert result is not None
        return [it.name for it in hosts_to_check(self.objects[name], standing(before), result, self.objects, ["child", "far"] if name == "web" else [])]

    def test_a_service(self) -> None:
        """A new or other problem asks if the host is up or was never checked; an OK asks if it isn't up."""
        for before, now, host_is, wanted in (
            ("OK", "CRITICAL", "UP", True), (None, "WARNING", "UP", True), ("PENDING", "UNKNOWN", "PENDING", True), ("WARNING", "CRITICAL", "UP", True),
            ("CRITICAL", "CRITICAL", "UP", False), ("OK", "CRITICAL", "DOWN", False), ("WARNING", "CRITICAL", "UNREACHABLE", False),
            ("OK", "OK", "UP", False), ("CRITICAL", "OK", "UP", False), ("CRITICAL", "OK", "DOWN", True), ("OK", "OK", "UNREACHABLE", True),
            ("OK", "OK", "PENDING", True),
        ):
            self.assertEqual(self.asked("web;http", before, now, web=host_is), ["web"] if wanted else [], (before, now, host_is))

    def test_a_host_that_fails(self) -> None:
        """It asks for parents that aren't up, and for children that aren't unreachable."""
        self.assertEqual(self.asked("web", "UP", "DOWN", gate="UP", other="DOWN", child="UP", far="UNREACHABLE"), ["other", "child"])
        self.assertEqual(self.asked("web", None, "UNREACHABLE", gate="UNREACHABLE", other="UP", child="DOWN", far="DOWN"), ["gate", "child", "far"])

    def test_a_host_that_recovers(self) -> None:
        """It asks for parents that are up, and for children that aren't."""
        self.assertEqual(self.asked("web", "DOWN", "UP", gate="UP", other="DOWN", child="UP", far="UNREACHABLE"), ["gate", "far"])

    def test_a_host_that_stays(self) -> None:
        for before, now in (("UP", "UP"), (None, "UP"), ("PENDING", "UP"), ("DOWN", "DOWN"), ("DOWN", "UNREACHABLE"), ("UNREACHABLE", "DOWN")):
            self.assertEqual(self.asked("web", before, now, gate="DOWN", other="UP", child="UP", far="DOWN"), [], (before, now))


class InTime(SiteTest):
    def test_a_problem_asks_once(self) -> None:
        """A service that stays CRITICAL asks for its host at first, and not again; one that is OK while its host is down does."""
        self.write_site([host("web", check_interval=3600, max_check_attempts=1)], [service("web", "http", check_interval=60, max_check_attempts=1)],
                        monitor={"cached_host_check_horizon": 5})
        seconds = {"web": range(450, 550), "web;http": range(100, 550)}
        monitor = self.monitor(lambda name, moment: (10, 2 if (moment - BEGIN) // 1000 in seconds[name] else 0, ""))
        monitor.run(440)
        self.assertEqual([start // 1000 for start in monitor.starts()["web"]], [0, 120])
        monitor.ask(do="reschedule", name="web", at=monitor.clock.wall() + 20)
        monitor.run(200)
        self.assertEqual([start // 1000 for start in monitor.starts()["web"]], [0, 120, 460, 600])

    def test_a_host_that_is_off(self) -> None:
        self.write_site([host("web", enabled=False)], [service("web", "http", check_interval=20, max_check_attempts=1)])
        monitor = self.monitor(lambda name, moment: (10, 2 if (moment // 20_000) % 2 else 0, ""))
        monitor.run(200)
        self.assertNotIn("web", monitor.starts())
        self.assertFalse([call for call in monitor.store.calls_since(0, 0) if '"reschedule","web",' in call.line])
