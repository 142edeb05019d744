"""Faults around a monitor, simulated: a full disk, schedulers and runners that end, machines that lack something. And the facts that survive a restart."""
from typing import Any, List, Sequence, Set
from unittest import mock

from nagsched_monitor.faults import ConversationEnded, NotStored
from nagsched_monitor.model.jobs import Job, JobFinished, JobLost, StuckJobEnded
from nagsched_monitor.scheduler.schedulers import Conversation
from nagsched_monitor.site.site import read_site

from .simulated import BEGIN, PROGRAM, SiteTest, fine, host, service


class Faults(SiteTest):
    def test_a_full_disk(self) -> None:
        """No call is made while nothing can be stored. The monitor waits for running plugins, and then all continues."""
        self.write_site([host("web"), host("db")], [])
        monitor = self.monitor(lambda name, moment: (5_000, 0, "fine"))
        monitor.run(1)
        full = monitor.store.write

        def refuse(*writes: Any) -> None:
            raise NotStored("database or disk is full")

        setattr(monitor.store, "write", refuse)
        monitor.run(300)
        self.assertEqual(len(monitor.runners.started), 2)
        self.assertEqual([line for line in monitor.lines if "full" in line], ["no call is made until it can be stored: database or disk is full"])
        setattr(monitor.store, "write", full)
        monitor.run(200)
        self.assertEqual((monitor.engine.is_stuck, monitor.lines.count("the database takes writes again")), (False, 1))
        self.assertEqual({name: len(starts) for name, starts in monitor.starts().items()}, {"web": 5, "db": 5})
        self.assertFalse([line for line in monitor.lines if "too late" in line])

    def test_a_scheduler_that_ends(self) -> None:
        """A running check continues under the same run: no plugin is started a second time, and its result counts."""
        self.write_site([host("web")], [service("web", "http")])
        monitor = self.monitor(lambda name, moment: (20_000, 0, "fine"))
        monitor.run(70)
        self.assertEqual(monitor.objects_with_plugins(), {"web", "web;http"})
        monitor.kill_schedulers()
        monitor.run(5)
        monitor.ask(do="reschedule", name="web", at=monitor.clock.wall() + 100)
        monitor.run(5)
        self.assertEqual((monitor.objects_with_plugins(), len(monitor.runners.started)), ({"web", "web;http"}, 4))
        monitor.run(10)
        self.assertEqual((monitor.engine.counters.result_count, monitor.objects_with_plugins()), (4, set()))
        self.assertEqual(len([line for line in monitor.lines if "it is started again" in line]), 1)

    def test_a_scheduler_that_cant_be_had_for_a_while(self) -> None:
        """Results wait, each client's answer says that it may send its request again, and then all continues."""
        self.write_site([host("web")], [service("web", "http")])
        monitor = self.monitor(fine)
        monitor.run(70)
        with mock.patch.object(monitor.scheduling, "_converse", side_effect=ConversationEnded("no room for a process")):
            monitor.kill_schedulers()
            monitor.run(120)
            self.assertTrue(monitor.ask(do="disable", name="web")["again"])
            self.assertLessEqual(len(monitor.starts()["web"]), 3)
        monitor.run(200)
        self.assertGreaterEqual(len(monitor.starts()["web"]), 5)
        self.assertEqual(monitor.engine.counters.result_count, len(monitor.runners.started))

    def test_a_scheduler_that_cant_be_had_at_a_reload(self) -> None:
        """The site is taken over as a whole, and new objects are checked as soon as their scheduler runs."""
        self.write_site([host("web")], [])
        monitor = self.monitor(fine)
        monitor.run(70)
        self.write_site([host("web"), host("new")], [])
        with mock.patch.object(monitor.scheduling, "_converse", side_effect=ConversationEnded("no room for a process")):
            monitor.engine.reload(read_site(self.folder, PROGRAM))
            self.assertEqual((set(monitor.engine.objects), set(monitor.site.objects)), ({"web", "new"}, {"web", "new"}))
            monitor.run(20)
        monitor.run(120)
        self.assertEqual([len(monitor.starts()[name]) for name in ("web", "new")], [4, 3])
        self.assertIsNotNone(monitor.engine.objects["new"].phase)

    def test_a_database_that_cant_be_read_at_a_reload(self) -> None:
        """The site is taken over as a whole, and the waiting result of an object that is gone is dropped."""
        self.write_site([host("web"), host("old")], [])
        monitor = self.monitor(fine)
        monitor.run(70)
        monitor.add_result("old", 0, "fine")
        self.write_site([host("web")], [])
        unreadable = NotStored("disk I/O error")
        with mock.patch.multiple(monitor.store, standings=mock.Mock(side_effect=unreadable), calls_since=mock.Mock(side_effect=unreadable)):
            monitor.engine.reload(read_site(self.folder, PROGRAM))
        self.assertEqual((set(monitor.engine.objects), monitor.engine.passive.count, monitor.store.waiting_results()), ({"web"}, 0, []))
        monitor.run(60)
        self.assertEqual(len(monitor.starts()["web"]), 3)

    def test_a_reschedule_that_isn_t_stored(self) -> None:
        """It changes nothing: the next check that waits to be set is set with the next turn that is stored."""
        self.write_site([host("web")], [])
        monitor = self.monitor(fine)
        monitor.run(70)
        web, moment = monitor.engine.objects["web"], monitor.clock.now + 20_000
        monitor.engine.checks.plan_check(web, moment, False)
        with mock.patch.object(monitor.store, "write", side_effect=NotStored("disk full")):
            self.assertTrue(monitor.ask(do="reschedule", name="web", at=monitor.clock.wall() + 5)["again"])
        monitor.run(1)
        self.assertEqual(web.next, moment)

    def test_a_call_after_which_the_scheduler_ends(self) -> None:
        """It is set aside with its number, the others continue, and it doesn't hold up a start."""
        self.write_site([host("web", max_check_attempts=5), host("db")], [])

        class Poisoned(Conversation):
            def begin(self, lines: Sequence[str]) -> None:
                if any(line.startswith('["report","web",') and line.endswith(",2]") for line in lines):
                    self._process.kill()
                    self._process.wait()
                super().begin(lines)

        monitor = self.monitor(lambda name, moment: (10, 2 if name == "web" and moment > BEGIN + 50_000 else 0, ""), converse=Poisoned)
        monitor.run(300)
        aside = [line for line in monitor.lines if "is set aside" in line]
        self.assertRegex(aside[0], r'call \d+ is set aside, .*\["report","web",\d+,2\]')
        self.assertGreaterEqual(len(monitor.starts()["db"]), 5)
        self.assertTrue(4 <= len(monitor.starts()["web"]) <= 6, monitor.starts())
        monitor.close()
        after = self.monitor(fine, monitor.clock, converse=Poisoned)
        after.run(100)
        self.assertFalse([line for line in after.lines if "started again" in line])
        self.assertGreaterEqual(after.engine.counters.result_count, 2)

    def test_runners_that_end(self) -> None:
        """A check whose runner ended is abandoned and made again; the third time it is UNKNOWN."""
        self.write_site([host("web")], [service("web", "http", max_check_attempts=1)])
        monitor = self.monitor(fine)
        lost: Set[int] = set()
        events = monitor.runners.events

        def losing() -> List[Any]:
            told = events()
            lost.update(event.job.run for event in told if event.job.name == "web;http")
            return [JobLost(event.job) if event.job.name == "web;http" else event for event in told]

        setattr(monitor.runners, "events", losing)
        monitor.run(5)
        self.assertEqual(len(monitor.starts()["web;http"]), 3)
        self.assertEqual([(change.state, change.words) for _, change in monitor.changes], [("UNKNOWN", "its runner ended 3 times")])

    def test_a_runner_that_gives_no_result(self) -> None:
        """After its limit and a margin it is killed, and the check is made again."""
        self.write_site([host("web", check_interval=600)], [])
        monitor = self.monitor(lambda name, moment: (10**9 if moment < BEGIN + 10_000 else 10, 0, "fine"))
        monitor.run(70)
        self.assertEqual((len(monitor.runners.started), monitor.objects_with_plugins()), (1, {"web"}))
        monitor.run(20)
        self.assertEqual((monitor.engine.counters.result_count, monitor.objects_with_plugins(), len(monitor.runners.started)), (1, set(), 2))
        self.assertIn("web: run 1 gave no result in time", monitor.lines)

    def test_a_job_that_no_runner_has(self) -> None:
        self.write_site([host("web", check_interval=600)], [])
        monitor = self.monitor(lambda name, moment: (5_000, 0, "fine"))
        monitor.run(2)
        monitor.runners._ends.clear()
        monitor.run(10)
        self.assertEqual((monitor.engine.counters.result_count, len(monitor.runners.started)), (1, 2))
        self.assertIn("web: no runner has run 1", monitor.lines)

    def test_what_this_machine_lacks(self) -> None:
        """A check that can't be started here says nothing about its object: it is tried again after pauses that grow, and stays forced."""
        self.write_site([host("web", check_interval=600), host("off", enabled=False)], [])
        monitor = self.monitor(fine)
        events = monitor.runners.events
        setattr(monitor.runners, "events", lambda: [JobLost(event.job, "too many open files", True) for event in events()])
        monitor.ask(do="reschedule", name="off", force=True)
        monitor.run(100)
        self.assertEqual((monitor.changes, monitor.engine.counters.result_count), ([], 0))
        self.assertTrue(all(6 <= len(starts) <= 8 for starts in monitor.starts().values()), monitor.starts())
        setattr(monitor.runners, "events", events)
        monitor.run(70)
        self.assertEqual(monitor.engine.counters.result_count, 2)
        monitor.engine.close()
        self.assertEqual(monitor.store.figures()["checks.not_started"], len(monitor.runners.started) - 2)

    def test_a_plugin_that_cant_be_killed(self) -> None:
        """No second one is started next to it until it has ended; its object counts as timed out."""
        self.write_site([host("web", check_interval=20)], [])
        monitor = self.monitor(fine)
        events = monitor.runners.events
        stuck: List[Job] = []

        def told() -> List[Any]:
            came = [JobFinished(event.job, "limit", 0, "", "", True) for event in events()]
            stuck.extend(event.job for event in came)
            return came

        setattr(monitor.runners, "events", told)
        monitor.run(70)
        self.assertEqual((len(monitor.runners.started), len(stuck)), (1, 1))
        self.assertGreaterEqual(monitor.engine.counters.result_count, 4)
        setattr(monitor.runners, "events", lambda: [StuckJobEnded(stuck.pop())] if stuck else events())
        monitor.run(35)
        self.assertEqual(len(monitor.runners.started), 3)

    def test_the_state_is_saved_while_it_runs(self) -> None:
        """Every five minutes. The calls before it are dropped, and it contains what the monitor knows."""
        self.write_site([host("web", check_interval=10)], [])
        monitor = self.monitor(fine)
        monitor.run(290)
        self.assertGreater(len(monitor.store.calls_since(0, 0)), 50)
        monitor.run(20)
        self.assertLess(len(monitor.store.calls_since(0, 0)), 10)
        self.assertIsNotNone(monitor.store.generations()[0].saved)
        self.assertFalse([line for line in monitor.lines if "otherwise" in line])
        monitor.engine.objects["web"].next = 7
        monitor.engine.save()
        said = "web: its scheduler has it otherwise than the monitor had; the scheduler counts"
        self.assertEqual([line for line in monitor.lines if "otherwise" in line], [said])
        self.assertGreater(monitor.engine.objects["web"].next, BEGIN)

    def test_many_calls_are_saved_sooner(self) -> None:
        self.write_site([host("web", check_interval=10)], [])
        monitor = self.monitor(fine)
        with mock.patch("nagsched_monitor.core.engine.SAVE_CALLS", 10):
            monitor.run(100)
        self.assertIsNotNone(monitor.store.generations()[0].saved)
        self.assertLess(len(monitor.store.calls_since(0, 0)), 12)

    def test_a_state_that_cant_be_saved(self) -> None:
        """It is tried again after ten seconds, and not with each turn."""
        self.write_site([host("web", check_interval=1)], [])
        monitor = self.monitor(fine)
        monitor.run(295)
        with mock.patch.object(monitor.engine, "save", side_effect=NotStored("the disk is full")) as tried:
            monitor.run(30)
        self.assertEqual(tried.call_count, 3)
        self.assertIn("the state isn't saved: the disk is full", monitor.lines)
        monitor.run(10)
        self.assertIsNotNone(monitor.store.generations()[0].saved)

    def test_one_part_is_saved_at_a_time(self) -> None:
        """Each within five minutes. A call is dropped when both saved states contain it, and a restart misses none."""
        for part in (1, 2):
            self.write(f"part-{part}.json", {"options": {"interval_length": 1}, "hosts": [host(f"h{part}", check_interval=10, max_check_attempts=100)]})
        self.write("commands.json", {"h1": {"line": "true"}, "h2": {"line": "true"}})
        monitor = self.monitor(lambda name, moment: (10, 2, "bad"))
        monitor.run(155)
        generations = monitor.store.generations()
        self.assertEqual([generations[part].saved is None for part in (0, 1)], [False, True])
        self.assertEqual(monitor.store.calls_since(0, 0)[0].id, 1)
        monitor.run(150)
        generations = monitor.store.generations()
        self.assertLess(generations[0].last_call, generations[1].last_call)
        left = [call.id for part in (0, 1) for call in monitor.store.calls_since(part, 0)]
        self.assertEqual(sorted(left), list(range(generations[0].last_call + 1, monitor.store.last_call + 1)))
        before = [obj.standing for obj in monitor.scheduling.states.objects.values()]
        monitor.close()
        after = self.monitor(fine, monitor.clock)
        self.assertEqual([obj.standing for obj in after.scheduling.states.objects.values()], before)
        self.assertEqual(after.scheduling.longest_unsaved(), 0)
        after.scheduling.parts[0].pending.append(after.store.calls_since(0, 0)[0])
        self.assertEqual(after.scheduling.longest_unsaved(), 1)

    def test_a_runner_that_nobody_reaches(self) -> None:
        """The fate of its jobs is logged, and they use no slot of this machine."""
        self.write_site([host("web")], [service("web", "http", max_check_attempts=1)], monitor={"slots": 1},
                        runners={"runners": {"dmz": ["true"]}, "objects": {"dmz": ["web"]}})
        monitor = self.monitor(fine)
        events = monitor.runners.events
        setattr(monitor.runners, "events", lambda: [JobLost(event.job, f"the runner {event.job.runner} didn't take it") for event in events()])
        monitor.run(5)
        self.assertEqual([(change.name, change.words) for _, change in monitor.changes], [("web;http", "the runner dmz didn't take it 3 times")])

    def test_a_restart_makes_the_calls_again(self) -> None:
        self.write_site([host("web", max_check_attempts=5)], [service("web", "http")])
        monitor = self.monitor(lambda name, moment: (10, 2, "bad"))
        monitor.run(35)
        before = [obj.standing for obj in monitor.scheduling.states.objects.values()]
        monitor.close()
        after = self.monitor(fine, monitor.clock)
        self.assertEqual([obj.standing for obj in after.scheduling.states.objects.values()], before)
        self.assertEqual(after.changes, [])
        after.run(60)
        self.assertEqual({change.state for _, change in after.changes}, {"UP", "OK"})

    def test_a_restart_tells_no_problem_again(self) -> None:
        """A result after the saved state that equals the one before it is no change."""
        self.write_site([host("web", max_check_attempts=1)], [])
        monitor = self.monitor(lambda name, moment: (10, 2, "bad"))
        monitor.run(70)
        monitor.engine.save()
        monitor.run(120)
        monitor.close()
        after = self.monitor(lambda name, moment: (10, 2, "bad"), monitor.clock)
        after.run(1)
        self.assertEqual(after.changes, [])

    def test_another_setup_is_taken_over(self) -> None:
        self.write_site([host("web", max_check_attempts=5)], [])
        monitor = self.monitor(lambda name, moment: (10, 2, "bad"))
        monitor.run(35)
        monitor.close()
        self.write_site([host("web", max_check_attempts=5), host("db")], [])
        after = self.monitor(fine, monitor.clock)
        standings = {name: obj.standing for name, obj in after.scheduling.states.objects.items()}
        self.assertEqual({name: it and (it.state, it.attempt) for name, it in standings.items()}, {"web": ("DOWN", 4), "db": ("PENDING", 1)})
