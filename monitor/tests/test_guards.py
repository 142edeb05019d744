"""Counts over time, the second halves of pairs, and guards against clocks: what a single example seldom reaches."""
import json
import os
import signal
import time
import types
from typing import Any, List, Mapping
from unittest import mock

from nagsched_monitor.core.requests import Request
from nagsched_monitor.faults import ConversationEnded, SiteFault
from nagsched_monitor.model.clock import Clock
from nagsched_monitor.model.jobs import Job, JobLost
from nagsched_monitor.program import main as main_module
from nagsched_monitor.program import monitor as monitor_module
from nagsched_monitor.program.monitor import DAY, Monitor
from nagsched_monitor.run.runners import LONGEST_LINE, RunnerPool
from nagsched_monitor.scheduler import schedulers
from nagsched_monitor.scheduler.schedulers import TRIES, Conversation
from nagsched_monitor.site.site import Options
from nagsched_monitor.system.poller import FilePoller

from .simulated import BEGIN, SimulatedMonitor, SiteTest, fine, host, service
from .waiting import becomes_true


def lose(monitor: SimulatedMonitor, count: int, is_local: bool = False) -> None:
    """The next plugins are lost, this number of them."""
    start, left = monitor.runners.start, [count]

    def lost(job: Job) -> None:
        start(job)
        if left[0] > 0:
            left[0] -= 1
            monitor.runners._ends = [(end, number, JobLost(job, is_local=is_local) if event.job is job else event)
                                     for end, number, event in monitor.runners._ends]

    setattr(monitor.runners, "start", lost)


class OverTime(SiteTest):
    def test_a_long_lack_of_processes(self) -> None:
        """A check that can't be started is tried again after a minute at most, for any time, and at once a second later the next time."""
        self.write_site([host("web", check_interval=30)], [])
        monitor = self.monitor(fine)
        monitor.run(10)
        lose(monitor, 100, is_local=True)
        monitor.run(2_400)
        starts = [start for start in monitor.starts()["web"] if start > 0]
        self.assertLessEqual(max(later - earlier for earlier, later in zip(starts, starts[1:])), 62_000)

    def test_losses_far_apart(self) -> None:
        """Two runners that end, a good result, and two more: each time the check is made again."""
        self.write_site([host("web")], [service("web", "http")])
        monitor = self.monitor(fine)
        monitor.run(10)
        for _ in range(3):
            lose(monitor, 4)  # of the host and of the service
            monitor.run(180)
        self.assertEqual({change.state for _, change in monitor.changes}, set())
        self.assertEqual(monitor.store.figures().get("checks.UNKNOWN", 0), 0)

    def test_passive_results_without_number(self) -> None:
        """Results that were reported make room for others."""
        self.write_site([host("web")], [service("web", "trap", enabled=False)], passive={"web;trap": {"only": True}})
        monitor = self.monitor(fine)
        with mock.patch("nagsched_monitor.core.requests.MOST_WAITING", 5):
            for number in range(30):
                self.assertIn("done", monitor.ask(do="result", name="web;trap", code=0, output=str(number)))
                monitor.run(1)

    def test_a_scheduler_that_cant_be_started(self) -> None:
        """It is tried a few times together, and then after a pause of a second."""
        self.write_site([host("web")], [])
        tries: List[int] = []
        monitor = self.monitor(fine)
        monitor.run(5)

        def refused(*_: Any) -> Conversation:
            tries.append(monitor.clock.now)
            raise ConversationEnded("no room")

        monitor.kill_schedulers()
        monitor.scheduling._converse = refused
        monitor.engine.add_request(Request(b'{"do":"disable","name":"web"}', lambda _: None))
        for _ in range(200):
            monitor.engine.requests.begin_turn()
            monitor.engine.turn()
            monitor.clock.now += 50
        self.assertLessEqual(len(tries), 12 * TRIES)
        self.assertGreater(len(tries), 5)

    def test_a_scheduler_that_stands_still_in_the_middle(self) -> None:
        """An answer of which a part has come has a limit too."""
        script = self.folder / "program"
        script.write_text("#!/bin/sh\nread setup; read one; read two; printf 'idle\\nidl'; exec sleep 60\n")
        script.chmod(0o755)
        with mock.patch.multiple(schedulers, SILENCE=0.3, OPENING=5.0):
            conversation = Conversation(str(script), b"{}", 0)
            self.addCleanup(conversation.close, True)
            begun = time.monotonic()
            with self.assertRaisesRegex(ConversationEnded, "no answer for 0.3 seconds"):
                conversation.ask_lines(["one", "two"])
            self.assertLess(time.monotonic() - begun, 20)

    def test_a_runner_that_sends_no_line_feed(self) -> None:
        """It is killed, and fills no memory."""
        lines: List[str] = []
        poller = FilePoller()
        pool = RunnerPool("far", ["/bin/sh", "-c", "exec tr '\\0' x < /dev/zero"], 1, 5, 5.0, lines.append, poller, time.monotonic)
        self.addCleanup(pool.close)

        def is_killed() -> bool:
            pool.flush()
            poller.wait(20)
            return bool(lines)

        self.assertTrue(becomes_true(is_killed))
        self.assertIn(f"wrote a line of more than {LONGEST_LINE} bytes", lines[0])
        self.assertTrue(all(len(process.unread) <= LONGEST_LINE + 300_000 for process in pool.processes))

    def test_a_runner_that_cant_be_started(self) -> None:
        """A job that waits for it is lost when it is given up."""
        pool = RunnerPool("far", ["/nowhere/runner"], 1, None, 5.0, lambda line: None, FilePoller(), time.monotonic)
        self.addCleanup(pool.close)
        job = Job("web", 1, ["true"], 10.0, "far")
        pool.start(job)
        pool.flush()
        pool.kill(job)
        self.assertEqual(([type(event) for event in pool.events()], pool.jobs()), ([JobLost], []))


class Pairs(SiteTest):
    def test_a_result_while_the_scheduler_is_away(self) -> None:
        """It is reported when the scheduler is back, and its plugin isn't started again."""
        self.write_site([host("web"), host("other")], [])
        monitor = self.monitor(lambda name, moment: (5_000, 0, f"begun at {moment - BEGIN}"))
        monitor.run(60)
        converse = monitor.scheduling._converse

        def refused(*_: Any) -> Conversation:
            raise ConversationEnded("no room")

        monitor.run(2)
        monitor.kill_schedulers()
        monitor.scheduling._converse = refused
        monitor.engine.add_request(Request(b'{"do":"disable","name":"other"}', lambda _: None))
        monitor.run(20)
        self.assertFalse(monitor.scheduling.is_open(0))
        monitor.scheduling._converse = converse
        monitor.run(20)
        self.assertEqual(len(monitor.starts()["web"]), 2)
        self.assertEqual(monitor.engine.objects["web"].output, f"begun at {monitor.starts()['web'][1]}")

    def test_a_forced_check_whose_runner_ends(self) -> None:
        """It is made again, although its object is off."""
        self.write_site([host("web"), host("off", enabled=False)], [])
        monitor = self.monitor(fine)
        monitor.run(5)
        lose(monitor, 1)
        monitor.ask(do="reschedule", name="off", force=True)
        monitor.run(30)
        self.assertEqual(len(monitor.starts()["off"]), 2)
        self.assertEqual(monitor.engine.objects["off"].standing and monitor.engine.objects["off"].standing.state, "UP")

    def test_freshness_outside_of_a_period(self) -> None:
        """No result is missed while its period is closed."""
        closed = {"periods": {"never": {"weekdays": {}}}, "objects": {"web;trap": "never"}}
        self.write_site([host("web")], [service("web", "trap", enabled=False)], passive={"web;trap": {"only": True, "freshness": 60}}, periods=closed)
        monitor = self.monitor(fine)
        monitor.run(600)
        self.assertNotIn("web;trap", monitor.starts())

    def test_hard_problems_stay_in_phase(self) -> None:
        """A check that an operator moved returns to its phase, also while its problem is hard."""
        self.write_site([host("web", max_check_attempts=1)], [])
        monitor = self.monitor(lambda name, moment: (10, 2, "no answer"))
        monitor.work(130)
        monitor.ask(do="reschedule", name="web")
        monitor.work(200)
        phase = (monitor.engine.objects["web"].phase or 0) - BEGIN
        self.assertTrue(all(min((start - phase) % 60_000, (phase - start) % 60_000) <= 1_000 for start in monitor.starts()["web"][-2:]), monitor.starts())

    def test_slots_of_several_parts(self) -> None:
        """All parts together run as many plugins as there are slots."""
        for part in (1, 2):
            hosts = [host(f"h{part}{number}") for number in range(6)]
            self.write(f"part-{part}.json", {"options": {"interval_length": 1, "host_inter_check_delay_method": "n"}, "hosts": hosts})
        self.write("commands.json", {f"h{part}{number}": {"line": "true"} for part in (1, 2) for number in range(6)})
        self.write("monitor.json", {"slots": 3})
        monitor = self.monitor(lambda name, moment: (5_000, 0, "slow"))
        monitor.run(120)  # the invariants see how many run
        self.assertEqual(len(monitor.starts()), 12)

    def test_a_runner_elsewhere_takes_no_slots(self) -> None:
        """Checks at a runner that gives no answer leave the slots of this machine free."""
        self.write_site([host(f"far{number}") for number in range(6)] + [host("near")], [], runners={
            "runners": {"dmz": ["true"]}, "objects": {"dmz": ["far*"]}, "slots": {"dmz": 10}}, monitor={"slots": 2})
        monitor = self.monitor(lambda name, moment: (10 if name == "near" else 50_000, 0, "fine"))
        monitor.run(180)
        self.assertGreaterEqual(len(monitor.starts()["near"]), 3)

    def test_one_number_twice_in_a_turn(self) -> None:
        """The second request isn't obeyed, and may come again."""
        self.write_site([host("web")], [service("web", "trap", enabled=False)], passive={"web;trap": {"only": True}})
        monitor = self.monitor(fine)
        monitor.run(5)
        answers: List[Mapping[str, Any]] = []
        line = json.dumps({"do": "result", "name": "web;trap", "code": 1, "output": "x", "number": "n"}).encode()
        for _ in range(2):
            monitor.engine.add_request(Request(line, answers.append))
        monitor.engine.requests.begin_turn()
        monitor.engine.turn()
        self.assertEqual([("done" in answer, answer.get("again", False)) for answer in answers], [(True, False), (False, True)])
        self.assertEqual(monitor.engine.passive.count, 1)


class Starts(SiteTest):
    def test_a_long_replay_is_saved(self) -> None:
        """After a start that made many calls again, the state is saved at once: the next start makes few."""
        self.write_site([host("web", check_interval=1)], [])
        monitor = self.monitor(fine)
        monitor.run(60)
        calls = len(monitor.store.calls_since(0, 0))
        monitor.kill_schedulers()
        monitor.close()
        with mock.patch("nagsched_monitor.scheduler.scheduling.LONG_REPLAY", 50):
            again = self.monitor(fine, monitor.clock)
            again.run(3)
            self.assertLess(len(again.store.calls_since(0, 0)), calls / 2)
            again.run(60)
            self.assertGreater(len(again.store.calls_since(0, 0)), 50)
            again.kill_schedulers()
            again.run(5)
            self.assertLess(len(again.store.calls_since(0, 0)), 50)

    def test_a_reload_before_the_site_was_read(self) -> None:
        """A SIGHUP that early is a request for a reload, and ends nothing."""
        before = signal.getsignal(signal.SIGHUP)
        self.addCleanup(signal.signal, signal.SIGHUP, before)
        signal.signal(signal.SIGHUP, signal.SIG_DFL)
        asked: List[object] = []

        def read(*_: object) -> None:
            os.kill(os.getpid(), signal.SIGHUP)
            asked.append(signal.getsignal(signal.SIGHUP))
            raise SiteFault("enough")

        with mock.patch.object(monitor_module, "read_site", read), self.assertRaisesRegex(SiteFault, "enough"):
            Monitor(main_module.parse_arguments([str(self.folder)]), lambda line: None)
        self.assertNotEqual(asked, [signal.SIG_DFL])


class Clocks(SiteTest):
    def test_moments_after_a_restart(self) -> None:
        """They continue from the last stored one if the clock is earlier now."""
        later = time.time_ns() // 1_000_000 + 7_200_000
        self.assertGreaterEqual(Clock(later).moment(), later)

    def test_history_and_a_wrong_clock(self) -> None:
        """A clock that jumps drops nothing; the hours after that do."""
        wall, writes = [1_000_000.0], []
        its: Any = types.SimpleNamespace(
            clock=types.SimpleNamespace(wall=lambda: wall[0]), _dropped_at=wall[0], log=lambda line: None,
            store=types.SimpleNamespace(write=lambda *each: writes.append(wall[0])),
            scheduling=types.SimpleNamespace(site=types.SimpleNamespace(options=Options())))
        for wall[0] in (1_000_010.0, 1_000_000.0 + 12 * 365 * DAY, 1_000_020.0, 1_000_000.0 + 1.5 * DAY):
            Monitor._drop_old_changes(its)
        self.assertEqual(writes, [])
        its._dropped_at = wall[0]
        wall[0] += DAY / 12
        Monitor._drop_old_changes(its)
        self.assertEqual(writes, [wall[0]])

    def test_the_minute_of_a_period(self) -> None:
        """An object is on from the first minute of its period to its last, which the invariants see too."""
        day = {name: ["08:03-08:06"] for name in ("monday", "tuesday", "wednesday", "thursday", "friday", "saturday", "sunday")}
        self.write_site([host("web", check_interval=15)], [], periods={"periods": {"p": {"weekdays": day}}, "objects": {"web": "p"}}, monitor={"zone": "UTC"})
        monitor = self.monitor(fine)
        monitor.work(600)
        starts = monitor.starts()["web"]
        self.assertTrue(180_000 <= starts[0] <= 200_000 and 340_000 <= starts[-1] <= 360_000, starts)
