"""Runners elsewhere: which object goes to which, each way in which the file can be wrong, and that an absent runner holds up no other."""
import pathlib
import sys
import time
import unittest
from typing import Any, Dict, List, Tuple

from nagsched_monitor.faults import SiteFault
from nagsched_monitor.model.jobs import Job, JobFinished, JobLost
from nagsched_monitor.run.runners import RunnerPools
from nagsched_monitor.site.people_files import Groups
from nagsched_monitor.site.runner_file import Remote, read_runners
from nagsched_monitor.site.site import read_site
from nagsched_monitor.system.poller import FilePoller

from .one_runner import processes_of
from .simulated import PROGRAM, SiteTest

NAMES = ["gate", "dmz-1", "dmz-1;http", "dmz-2", "dmz-2;http", "dmz-2;local", "paris", "paris;disk"]
STAND_IN = (sys.executable, str(pathlib.Path(__file__).with_name("runner_stand_in.py")))


class Reading(SiteTest):
    def read(self, **members: Any) -> Tuple[Dict[str, Remote], Dict[str, str]]:
        self.write("runners.json", {"runners": {name: ["true", name] for name in ("here", "dmz", "branches")}, **members})
        return read_runners(self.folder, NAMES, {"paris": Groups({"host_groups": ["eu", "far"]}), "dmz-2;http": Groups({"service_groups": ["shop"]})})

    def test_none(self) -> None:
        self.assertEqual(read_runners(self.folder, NAMES, {}), ({}, {}))

    def test_patterns(self) -> None:
        """Hosts with everything on them, and full names; the first runner that fits counts."""
        remotes, runner_of = self.read(objects={"here": ["*;local"], "dmz": ["dmz-*"], "branches": ["paris", "gat?"]}, slots={"dmz": 3})
        self.assertEqual(runner_of, {
            "gate": "branches", "dmz-1": "dmz", "dmz-1;http": "dmz", "dmz-2": "dmz", "dmz-2;http": "dmz", "dmz-2;local": "here",
            "paris": "branches", "paris;disk": "branches"})
        self.assertEqual({name: (remote.arguments[1:], remote.slots, remote.wait) for name, remote in remotes.items()}, {
            "here": (("here",), 32, 30), "dmz": (("dmz",), 3, 30), "branches": (("branches",), 32, 30)})

    def test_groups(self) -> None:
        """A host group is that of its hosts with everything on them."""
        _, runner_of = self.read(objects={"dmz": ["servicegroup:sh*"], "branches": ["hostgroup:eu"]}, wait=5)
        self.assertEqual(runner_of, {"dmz-2;http": "dmz", "paris": "branches", "paris;disk": "branches"})

    def test_one_name(self) -> None:
        self.assertEqual(self.read(objects={"dmz": ["dmz-2;http", "dmz-1"]})[1], {"dmz-2;http": "dmz", "dmz-1": "dmz", "dmz-1;http": "dmz"})

    def test_faults(self) -> None:
        several: List[Tuple[Dict[str, Any], str]] = [
            ({"runners": []}, "object"), ({"runners": {"d m z": ["true"]}}, "d m z"), ({"runners": {"": ["true"]}}, "name"),
            ({"runners": {"local": ["true"]}}, "local"),
            ({"runners": {"dmz": "true"}}, "list"), ({"runners": {"dmz": []}}, "list"), ({"runners": {"dmz": [""]}}, "list"),
            ({"runners": {"dmz": ["a\0"]}}, "list"),
            ({"runners": {"dmz": ["/no/such/program"]}}, "/no/such/program"), ({"wait": 0}, "wait"), ({"slots": {"dmz": 0}}, "slots"),
            ({"slots": {"dmz": True}}, "slots"),
            ({"slots": {"lyon": 1}}, "lyon"), ({"objects": {"lyon": ["*"]}}, "lyon"), ({"objects": {"dmz": "*"}}, "list"), ({"objects": {"dmz": []}}, "list"),
            ({"objects": {"dmz": [""]}}, "list"), ({"objects": {"dmz": ["lyon*"]}}, "lyon*"), ({"objects": {"dmz": ["lyon"]}}, "lyon"),
            ({"objects": {"dmz": ["paris;no*"]}}, "no*"), ({"objects": {"dmz": ["hostgroup:no"]}}, "hostgroup:no"), ({"runers": {}}, "runers"),
        ]
        for members, word in several:
            with self.assertRaises(SiteFault, msg=members) as caught:
                self.read(**members)
            self.assertIn("runners.json", str(caught.exception))
            self.assertIn(word, str(caught.exception))

    def test_a_site(self) -> None:
        """A program that a runner elsewhere runs needn't exist here."""
        self.write_site([{"name": "web", "max_check_attempts": 1}, {"name": "dmz-1", "max_check_attempts": 1}], [])
        self.write("commands.json", {"web": {"line": "true"}, "dmz-1": {"line": "/only/there -H dmz-1"}})
        with self.assertRaises(SiteFault):
            read_site(self.folder, PROGRAM)
        self.write("runners.json", {"runners": {"dmz": ["ssh", "dmz", "nagsched-runner"]}, "objects": {"dmz": ["dmz-*"]}})
        site = read_site(self.folder, PROGRAM)
        self.assertEqual({name: definition.runner for name, definition in site.objects.items()}, {"web": None, "dmz-1": "dmz"})
        self.write("groups.json", {"paris": {"host_groups": ["eu"]}})
        with self.assertRaisesRegex(SiteFault, "groups.json: paris: there is no such object"):
            read_site(self.folder, PROGRAM)
        notifications = [{"on": True}, {"enabled": 1}, {"options": "n"}, {"options": ["down"]}, {"options": [["down"]]}, {"period": 8}, {"delay": -1},
                         {"interval": 1.5}, {"delay": True}, []]
        for wrong in ({"web": []}, {"web": {"host_groups": "eu"}}, {"web": {"host_groups": ["a,b"]}}, {"web": {"groups": []}},
                      *({"web": {"notifications": each}} for each in notifications)):
            self.write("groups.json", wrong)
            with self.assertRaisesRegex(SiteFault, "groups.json: web"):
                read_site(self.folder, PROGRAM)
        self.write("groups.json", {})
        for wrong in ({"web": []}, {"web": {"alias": 1}}, {"web": {"adress": "a"}}, {"web": {"custom": {"A": 1}}}, {"web": {"custom": "A"}}, {"x": {}}):
            self.write("inventory.json", wrong)
            with self.assertRaisesRegex(SiteFault, "inventory.json: (web|x)"):
                read_site(self.folder, PROGRAM)


class Handing(unittest.TestCase):
    """The runner processes of a monitor with a runner elsewhere."""

    def setUp(self) -> None:
        self.lines: List[str] = []
        self.poller = FilePoller()
        self.passed = 0.0
        self.runners = RunnerPools(1, self.lines.append, self.poller, lambda: time.monotonic() + self.passed)
        self.addCleanup(self.runners.close)

    def events(self, count: int) -> List[Any]:
        events: List[Any] = []
        for _ in range(900):
            self.runners.flush()
            self.poller.wait(100)
            events += self.runners.events()
            if len(events) >= count:
                break
        return events

    def process_ids(self) -> List[int]:
        return [process.pid for process in processes_of(self.runners)]

    def start(self, run: int, word: str, runner: str = "dmz") -> None:
        self.runners.start(Job(f"{runner}-1", run, [word], 10, runner or None))

    def test_a_job_goes_to_its_runner(self) -> None:
        self.runners.set_remotes({"dmz": Remote("dmz", STAND_IN)})
        self.start(1, "true", "")
        self.start(2, "there")
        self.start(3, "true", "lyon")
        events = {event.job.run: event for event in self.events(3)}
        self.assertEqual([type(events[run]) for run in (1, 2, 3)], [JobFinished, JobFinished, JobLost])
        self.assertEqual((events[1].output, events[2].output, events[3].why), ("", "there", "there is no runner lyon"))

    def test_one_that_gives_no_answer_holds_up_no_other(self) -> None:
        """It has as many jobs as it has slots. The others wait for it, and are lost in time; those of other runners continue."""
        self.runners.set_remotes({"dmz": Remote("dmz", STAND_IN, 2, 5.0), "lan": Remote("lan", STAND_IN)})
        for run in range(4):
            self.start(run, "wait")
        self.start(9, "there", "lan")
        self.start(10, "true", "")
        self.assertEqual(sorted(event.job.run for event in self.events(2)), [9, 10])
        self.assertEqual(self.runners.process_counts()["dmz"], {"running": 1, "wanted": 1, "stuck": 0, "waiting": 2, "left": 0})
        self.passed = 5
        self.assertEqual([(event.job.run, event.why) for event in self.events(2)], [(2, "the runner dmz didn't take it"), (3, "the runner dmz didn't take it")])
        self.assertEqual(self.lines, ["dmz-1: its check is abandoned: the runner dmz didn't take it"])
        self.assertEqual(self.runners.process_counts()["dmz"]["stuck"], 0)
        self.passed = 10 + 10 + 5
        self.assertEqual(self.runners.process_counts()["dmz"]["stuck"], 1)

    def test_it_ends(self) -> None:
        self.runners.set_remotes({"dmz": Remote("dmz", STAND_IN)})
        self.start(1, "end")
        self.assertEqual([event.why for event in self.events(1)], ["its runner ended"])
        # On a slow machine the pause is over before the end is seen.
        self.assertRegex("\n".join(self.lines), r"\Athe runner dmz ended with status 3, and 1 checks with it; another is started( in 1 seconds)?\Z")
        self.start(2, "there")
        self.passed = 2
        self.assertEqual([event.output for event in self.events(1)], ["there"])

    def test_other_runners(self) -> None:
        """The same runner again changes nothing. Another command, or no runner, ends it, and its jobs are lost."""
        self.runners.set_remotes({"dmz": Remote("dmz", STAND_IN, 1)})
        before = self.process_ids()
        self.runners.set_remotes({"dmz": Remote("dmz", STAND_IN, 1)})
        self.assertEqual(self.process_ids(), before)
        self.start(1, "wait")
        self.start(2, "wait")
        self.runners.flush()
        self.runners.set_remotes({"dmz": Remote("dmz", (*STAND_IN, "other"), 1)})
        self.assertEqual(sorted(event.job.run for event in self.runners.events()), [1, 2])
        self.assertEqual((len(self.process_ids()), self.process_ids()[0]), (2, before[0]))
        self.assertNotEqual(self.process_ids(), before)
        self.runners.set_remotes({})
        self.assertEqual((self.process_ids(), self.lines), (before[:1], []))
