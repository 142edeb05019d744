"""Requests to a monitor: each word, and each faulty line, which gets an error and changes nothing."""
import json
from typing import Any, Dict, List, Mapping
from unittest import mock

from nagsched_monitor.core import passive, requests
from nagsched_monitor.core.requests import Request
from nagsched_monitor.faults import NotStored
from nagsched_monitor.store import store

from .simulated import SimulatedMonitor, SiteTest, fine

HOST = {"name": "web", "check_interval": 60, "max_check_attempts": 3}
TRAP = {"host": "web", "description": "trap", "max_check_attempts": 1, "enabled": False}


class Words(SiteTest):
    def setUp(self) -> None:
        super().setUp()
        self.write_site([HOST], [TRAP], commands={"web": {"line": "true"}}, passive={"web;trap": {"only": True}})
        self.monitored: SimulatedMonitor = self.monitor(fine)
        self.monitored.run(30)
        self.asked: List[str] = []

    def ask(self, **members: Any) -> Dict[str, Any]:
        return self.monitored.ask(**members)

    def test_signs(self) -> None:
        """The signs of life of the monitor, which are returned although nothing can be stored."""
        signs = self.ask(do="signs")
        self.assertEqual({name: signs[name] for name in ("is_stuck", "passive_waiting", "changes_waiting", "oldest_change", "made", "out")}, {
            "is_stuck": False, "passive_waiting": 0, "changes_waiting": 0, "oldest_change": 0.0, "made": 1, "out": 0})
        self.assertLess(self.monitored.clock.wall() - signs["turn"], 2)
        self.ask(do="result", name="web;trap", code=2, output="bad")
        self.monitored.run(1)
        began = self.monitored.clock.wall()
        self.monitored.run(9)
        with mock.patch.object(self.monitored.store, "write", side_effect=NotStored("the disk is full")):
            self.ask(do="save")
            self.monitored.run(60)
            signs = self.ask(do="signs")
        self.assertTrue(signs["is_stuck"])
        self.assertEqual(signs["changes_waiting"], 1)
        self.assertAlmostEqual(signs["oldest_change"], self.monitored.clock.wall() - began, delta=2)
        self.assertGreater(self.monitored.clock.wall() - signs["turn"], 30)

    def test_reschedule(self) -> None:
        at = self.monitored.clock.wall() + 5
        self.assertEqual(self.ask(do="reschedule", name="web", at=at), {"done": "reschedule", "name": "web", "at": at, "on": True})
        self.monitored.run(40)
        self.assertEqual(self.monitored.starts()["web"], [0, 35_000, 60_000])
        self.assertEqual(self.ask(do="reschedule", name="web", at=at - 1000)["at"], self.monitored.clock.wall())
        self.assertEqual(self.monitored.starts()["web"][-1], 70_000)

    def test_an_operators_time_outlives_a_passive_result(self) -> None:
        self.ask(do="reschedule", name="web", at=self.monitored.clock.wall() + 5, force=True)
        self.ask(do="result", name="web", code=0, output="by hand")
        self.monitored.run(20)
        self.assertEqual(self.monitored.starts()["web"], [0, 35_000])

    def test_an_operators_time_that_is_set_while_a_check_runs(self) -> None:
        """The check is made once more, at that time."""
        self.monitored.close()
        monitor = self.monitor(lambda name, moment: (3_000, 0, "fine"), self.monitored.clock)
        monitor.run(31)
        self.assertEqual(monitor.objects_with_plugins(), {"web"})
        monitor.ask(do="reschedule", name="web", force=True)
        monitor.run(20)
        self.assertEqual([start // 1000 for start in monitor.starts()["web"]], [60, 63])

    def test_an_operators_time_in_the_turn_of_a_planned_one(self) -> None:
        """The operator's counts, and not the one at which the check would have been in phase again."""
        self.ask(do="reschedule", name="web")
        for _ in range(100):
            if not self.monitored.engine.checks.planned_checks:
                self.monitored.run(0.001)
        self.assertEqual(list(self.monitored.engine.checks.planned_checks), ["web"])
        self.ask(do="reschedule", name="web", at=self.monitored.clock.wall() + 5)
        self.monitored.run(10)
        self.assertEqual([start // 1000 for start in self.monitored.starts()["web"]], [0, 30, 35])

    def test_switches(self) -> None:
        self.assertFalse(self.ask(do="disable", name="web")["on"])
        self.monitored.run(100)
        self.assertEqual(self.monitored.starts()["web"], [0])
        self.assertTrue(self.ask(do="enable", name="web")["on"])
        self.assertEqual(self.monitored.store.switches(), {"web": True})
        self.monitored.run(1)
        self.assertEqual(len(self.monitored.starts()["web"]), 2)

    def test_a_switch_that_is_taken_away(self) -> None:
        """The setup's switch counts again, also after a restart."""
        self.ask(do="disable", name="web")
        self.monitored.run(100)
        self.assertTrue(self.ask(do="default", name="web")["on"])
        self.assertEqual(self.monitored.store.switches(), {})
        self.monitored.run(1)
        self.assertEqual(len(self.monitored.starts()["web"]), 2)
        self.assertFalse(self.ask(do="default", name="web;trap")["on"])
        self.assertEqual([line for line in self.monitored.lines if line.startswith("asked: ")], [
            "asked: disable web", "asked: default web", "asked: default web;trap"])

    def test_an_object_that_never_was_on(self) -> None:
        """It has no next check until it is switched on; then it has one, and a phase."""
        self.monitored.close()
        self.write_site([HOST, {**HOST, "name": "new", "enabled": False}], [], passive={})
        monitor = self.monitor(fine, self.monitored.clock)
        monitor.run(100)
        self.assertNotIn("new", monitor.starts())
        monitor.ask(do="enable", name="new")
        monitor.run(125)
        self.assertEqual(len(monitor.starts()["new"]), 3)

    def test_a_passive_result(self) -> None:
        self.ask(do="result", name="web;trap", code=2, output="door\topen\nand \x1b[2Kmore")
        self.monitored.run(1)
        (change,) = self.monitored.changes
        self.assertEqual((change[1].state, change[1].words), ("CRITICAL", "door open\nand  [2Kmore"))
        self.assertEqual(self.monitored.ask_line(b'{"do":"result","name":"web;trap","code":1,"output":"half \\ud800 a letter"}')["done"], "result")
        self.monitored.run(1)
        self.assertEqual(self.monitored.changes[-1][1].words, "half ? a letter")

    def test_more_results_than_can_wait(self) -> None:
        """The sender's answer says that it may send again, and nothing that was accepted is lost."""
        with mock.patch.object(requests, "MOST_WAITING", 3):
            engine = self.monitored.engine
            answers: List[Mapping[str, Any]] = []
            for number in range(5):
                line = json.dumps({"do": "result", "name": "web;trap", "code": 2 * (number % 2), "output": f"number {number}"})
                engine.add_request(Request(line.encode(), answers.append))
            self.monitored.run(0.5)
        self.assertEqual([answer.get("again", False) for answer in answers], [False, False, False, True, True])
        self.assertEqual([change.words for _, change in self.monitored.changes], ["number 1", "number 2"])
        self.assertEqual(passive.MOST_WAITING, 10_000)

    def test_a_number_is_obeyed_once(self) -> None:
        """Also after a restart; another number is another request."""
        asked = {"do": "result", "name": "web;trap", "code": 2, "output": "door open"}
        first = self.ask(**asked, number="a-1")
        self.monitored.run(1)
        kept = self.monitored.store.calls_since(0, 0)
        self.assertEqual(self.ask(**asked, number="a-1"), first)
        self.monitored.run(1)
        self.assertEqual(self.monitored.store.calls_since(0, 0), kept)
        self.monitored.close()
        self.monitored = self.monitor(fine, self.monitored.clock)
        self.assertEqual(self.ask(**asked, number="a-1"), first)
        self.assertEqual(self.monitored.store.waiting_results(), [])
        self.ask(**asked, number="a-2")
        self.assertEqual(len(self.monitored.store.waiting_results()), 1)

    def test_old_answers_are_dropped(self) -> None:
        """Those to the last numbers stay, in memory and in the database."""
        with mock.patch.object(requests, "MOST_REQUESTS", 5), mock.patch.object(store, "MOST_REQUESTS", 5):
            for number in range(20):
                self.ask(do="result", name="web;trap", code=0, number=f"n{number}")
        last = [f"n{number}" for number in range(15, 20)]
        self.assertEqual(list(self.monitored.engine.requests._numbers), last)
        self.assertEqual(list(self.monitored.store.requests()), last)

    def test_a_line_of_the_log_for_what_changes_something(self) -> None:
        self.monitored.lines.clear()
        for word in ("disable", "enable", "reschedule"):
            self.ask(do=word, name="web")
        self.ask(do="result", name="web;trap", code=1)
        self.ask(do="signs")
        self.ask(do="disable", name="nobody")
        told = [line for line in self.monitored.lines if line.startswith("asked: ")]
        self.assertEqual([line.split()[1:3] for line in told], [["disable", "web"], ["enable", "web"], ["reschedule", "web"], ["result", "web;trap"]])

    def test_nothing_can_be_stored(self) -> None:
        """The answer says that the request may be sent again, and nothing has changed."""
        before = self.monitored.store.last_call
        with mock.patch.object(self.monitored.store, "write", side_effect=NotStored("the disk is full")):
            several: List[Dict[str, Any]] = [{"do": "disable", "name": "web"}, {"do": "result", "name": "web;trap", "code": 2},
                                             {"do": "reschedule", "name": "web"}]
            for asked in several:
                self.assertEqual(self.ask(**asked), {"error": "the disk is full", "again": True})
            self.assertNotIn("again", self.ask(do="enable", name="nobody"))
        self.monitored.run(1)
        self.assertEqual((self.monitored.store.switches(), self.monitored.store.waiting_results(), self.monitored.starts()["web"]), ({}, [], [0]))
        self.assertEqual(self.monitored.store.last_call, before)

    def test_others(self) -> None:
        self.assertEqual(self.ask(do="reload"), {"done": "reload"})
        self.assertEqual(self.ask(do="stop"), {"done": "stop"})
        self.assertEqual(self.monitored.loop.status, 0)
        self.assertGreater(len(self.monitored.store.calls_since(0, 0)), 0)
        self.assertEqual(self.ask(do="save"), {"done": "save"})
        self.assertEqual(self.monitored.store.calls_since(0, 0), [])

    def test_bad_lines(self) -> None:
        before = self.monitored.store.last_call
        for line, word in (
            (b"", "isn't JSON"), (b"\xff", "isn't JSON"), (b"[" * 100_000, "isn't JSON"), (b"[]", "object"), (b"{}", "None"), (b'{"do":7}', "7"),
            (b'{"do":"fly"}', "'fly'"), (b'{"do":"disable","name":"web","number":"\\ud800"}', "half a character"),
            (b'{"do":"signs","pattern":1}', "'pattern'"), (b'{"do":"status"}', "'status'"),
            (b'{"do":"reschedule"}', "name"), (b'{"do":"reschedule","name":"x"}', "no object 'x'"),
            (b'{"do":"reschedule","name":"web","at":"now"}', "at has to be a number"), (b'{"do":"reschedule","name":"web","at":-1e30}', "at has to be a time"),
            (b'{"do":"reschedule","name":"web","at":1e400}', "at has to be a time"), (b'{"do":"reschedule","name":"web","force":1}', "force"),
            (b'{"do":"reschedule","name":"web","at":1795766400000}', "at has to be a time"),
            (b'{"do":"reschedule","name":"web;trap","force":true}', "no command"),
            (b'{"do":"enable","name":"web;trap"}', "no command"), (b'{"do":"enable","name":["web"]}', "name"),
            (b'{"do":"result","name":"web","code":4}', "4"), (b'{"do":"result","name":"web","code":true}', "True"),
            (b'{"do":"result","name":"web"}', "None"), (b'{"do":"result","name":"web","code":0,"output":7}', "output"),
            (b'{"do":"disable","name":"web","number":7}', "number"), (b'{"do":"disable","name":"web","number":""}', "number"),
            (b'{"do":"stop","now":true}', "'now'"),
        ):
            with self.subTest(line):
                self.assertIn(word, self.monitored.ask_line(line)["error"])
        self.assertEqual((self.monitored.store.last_call, self.monitored.store.waiting_results(), self.monitored.loop.status), (before, [], None))
