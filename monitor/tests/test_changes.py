"""The printed line of a change, and the command that is run for it."""
import datetime
import json
import os
import subprocess
import tempfile
import time
import warnings
from typing import List, Optional
from unittest import mock

from nagsched_monitor.core.requests import test_document
from nagsched_monitor.faults import MonitorFault, NotStored
from nagsched_monitor.model.clock import Clock
from nagsched_monitor.model.objects import ObjectDefinition, ObjectState, RunTable, StateHistory
from nagsched_monitor.model.protocol import Standing
from nagsched_monitor.outputs import changes
from nagsched_monitor.outputs.changes import AT_ONCE, MOST_AGE, PAUSE, Notifier, change_line
from nagsched_monitor.site.command_lines import test_shell_line
from nagsched_monitor.store.counters import Counters
from nagsched_monitor.store.rows import StoredChange
from nagsched_monitor.store.store import Store, store_change, store_figures

from .simulated import SiteTest
from .waiting import LONG, becomes_true


def standing(state: str, kind: str = "HARD", attempt: int = 1, flapping: bool = False) -> Standing:
    return Standing(state, kind, attempt, False, flapping, None, "web")


class Changes(SiteTest):
    def test_which_are_printed_and_which_count(self) -> None:
        rows = (
            (standing("PENDING"), standing("UP"), False, False),
            (standing("PENDING"), standing("DOWN", "SOFT"), True, False),
            (standing("UP"), standing("UP"), False, False),
            (standing("UP"), standing("DOWN", "SOFT"), True, False),
            (standing("DOWN", "SOFT"), standing("DOWN", "SOFT", 2), False, False),
            (standing("DOWN", "SOFT", 2), standing("DOWN", "HARD", 3), True, True),
            (standing("DOWN", "HARD", 3), standing("UNREACHABLE", "HARD", 3), True, True),
            (standing("DOWN", "HARD", 3), standing("UP"), True, True),
            (standing("DOWN", "SOFT", 2), standing("UP", "SOFT", 3), True, False),
            (standing("UP"), standing("UP", flapping=True), True, True),
            (standing("UP", flapping=True), standing("UP"), True, True),
        )
        for before, now, printed, counts in rows:
            self.assertEqual((now.is_change(before), now.is_change(before) and now.is_important(before)), (printed, counts), (before, now))

    def test_the_line(self) -> None:
        change = StoredChange(1, 1_795_766_400.0, "web;http", "CRITICAL", "HARD", 3, True, "no answer")
        self.assertEqual(change_line(change, datetime.timezone.utc), "2026-11-27 08:00:00+00:00 web;http is CRITICAL HARD 3 FLAPPING: no answer")


class Command(SiteTest, Clock):
    def setUp(self) -> None:
        super().setUp()
        self.store = Store(self.folder)
        self.addCleanup(self.store.close)
        self.lines: List[str] = []
        self.passed = 0
        self.counters = Counters({}, self)

    def moment(self) -> int:
        return 1_000_000 + round(time.monotonic() * 1000) + self.passed

    def wall(self) -> float:
        return 1_000.0

    def keep(self, count: int, age: int = 0, prefix: str = "h") -> None:
        for _ in range(count):
            self.store.last_call += 1
            number = self.store.last_call
            change = StoredChange(number, 1000.0 * number, f"{prefix}{number}", "DOWN", "HARD", 3, False, 'a "word"')
            self.store.write(store_change(change, change.document(None), self.moment() - age))

    def notifier(self, command: Optional[str]) -> Notifier:
        made = Notifier(command, self.store, self.lines.append, self, self.counters)
        self.addCleanup(made.close)
        return made

    def worked(self, command: Optional[str], seconds: float = LONG) -> None:
        """Works until nothing waits, on a clock that continues alone between two tries."""
        notifier = self.notifier(command)
        end = time.monotonic() + seconds
        while self.store.outbox() and time.monotonic() < end:
            self.passed += 0 if notifier.work() else 2 * PAUSE
            time.sleep(0.002)

    def taken(self) -> List[str]:
        return [json.loads(line)["name"] for line in (self.folder / "taken").read_text().splitlines()]

    def test_all_that_wait_at_once_and_in_order(self) -> None:
        self.keep(5)
        self.worked(f"echo run >> {self.folder}/runs; cat >> {self.folder}/taken")
        self.assertEqual((self.folder / "runs").read_text(), "run\n")
        taken = [json.loads(line) for line in (self.folder / "taken").read_text().splitlines()]
        self.assertEqual([(it["id"], it["name"]) for it in taken], [(str(number), f"h{number}") for number in range(1, 6)])
        self.assertEqual((taken[0]["output"], taken[0]["was"], taken[0]["state"]), ('a "word"', None, "DOWN"))

    def test_many_come_in_batches(self) -> None:
        self.keep(2 * AT_ONCE + 5)
        self.worked(f"tee -a {self.folder}/taken | wc -l >> {self.folder}/counts")
        self.assertEqual([int(count) for count in (self.folder / "counts").read_text().split()], [AT_ONCE, AT_ONCE, 5])

    def test_one_that_fails_is_tried_again(self) -> None:
        self.keep(2)
        self.worked(f"cat >> {self.folder}/taken; test -e {self.folder}/ok || {{ touch {self.folder}/ok; exit 1; }}")
        self.assertEqual(self.taken(), ["h1", "h2", "h1", "h2"])

    def test_what_it_acknowledges(self) -> None:
        """The lines whose id it prints aren't passed again, whatever its end; its other lines are logged."""
        self.keep(4)
        acknowledging = f"""while read -r line; do case $line in *h3*) test -e {self.folder}/ok || {{ touch {self.folder}/ok; echo broken; exit 1; }};; esac
            echo "$line" >> {self.folder}/taken; echo "$line" | sed 's/.*"id": "\\([0-9]*\\)".*/\\1/'; done; exit 3"""
        self.worked(acknowledging)
        self.assertEqual(self.taken(), ["h1", "h2", "h3", "h4"])
        self.assertIn("the command for changes: broken", self.lines)

    def test_one_line_that_is_refused(self) -> None:
        """The others are told, and the one is set aside, and the changes of its object after it are told."""
        self.keep(3, prefix="a")
        self.keep(1, prefix="bad")
        change = StoredChange(99, 1.0, "bad4", "UP", "HARD", 1, False, "")
        self.store.last_call = 99
        self.store.write(store_change(change, change.document(None), self.moment()))
        self.keep(3, prefix="z")
        self.worked(f"while read -r line; do case $line in *bad4*DOWN*) exit 1;; esac; echo \"$line\" >> {self.folder}/taken; done")
        self.assertEqual(sorted(set(self.taken())), ["a1", "a2", "a3", "bad4", "z100", "z101", "z102"])
        self.assertLessEqual(max(self.taken().count(name) for name in self.taken()), 4)
        self.assertEqual((self.counters.changed_figures(0, {})["changes_aside"], self.store.outbox()), (1, []))
        self.assertEqual([json.loads(document)["state"] for (document,) in self.store._database.execute("SELECT document FROM not_taken")], ["DOWN"])

    def test_a_relay_that_is_away_for_hours(self) -> None:
        """Nothing is lost or set aside, for any number of failures of the command."""
        self.keep(3)
        notifier = self.notifier(f"test -e {self.folder}/up && cat >> {self.folder}/taken")

        def is_done() -> bool:
            self.passed += 0 if notifier.work() else 30_000
            if self.passed > 3_600_000:
                (self.folder / "up").touch()
            return not self.store.outbox()

        self.assertTrue(becomes_true(is_done))
        self.assertEqual((sorted(self.taken()), self.counters.changed_figures(0, {}).get("changes_aside")), (sorted(f"h{number}" for number in range(1, 4)), None))
        self.assertEqual(self.lines, ["the command for changes ended with 1; it is tried again"])

    def test_one_that_is_too_old_is_given_up_by_name(self) -> None:
        """By its age, and never by the number of tries. Time in which no monitor ran doesn't count, nor does the wall clock."""
        self.keep(1, MOST_AGE + 1_000)
        self.keep(1, MOST_AGE - 1_000_000)
        self.worked(f"cat >> {self.folder}/taken")
        self.assertEqual((self.taken(), len(self.lines)), (["h2"], 1))
        self.assertIn('"h1"', self.lines[0])
        self.keep(1)
        self.store.write(store_figures({"moment": self.moment()}))
        self.passed += 2 * MOST_AGE
        self.worked(f"cat >> {self.folder}/taken")
        self.assertEqual((self.taken(), len(self.lines)), (["h2", "h3"], 1))

    def test_a_command_that_is_new(self) -> None:
        """It is given what is hard now, once."""
        def state(name: str, standing: Optional[Standing]) -> ObjectState:
            definition = ObjectDefinition(name, 0, None, (), 60_000, True)
            return ObjectState(definition, RunTable(), True, standing=standing, output="it burns", history=StateHistory("DOWN", 5.0, "DOWN", 7.0))

        objects = [state("a", standing("DOWN")), state("b", standing("DOWN", "SOFT")), state("c", None), state("d", standing("UP", flapping=True)),
                   state("e", standing("UP"))]
        command = f"cat >> {self.folder}/taken"
        for _ in range(2):
            self.notifier(command).tell_new_command(objects)
        self.worked(command)
        found = [json.loads(line) for line in (self.folder / "taken").read_text().splitlines()]
        self.assertEqual([(it["name"], it["state"], it["time"], it["output"]) for it in found], [("a", "DOWN", 7.0, "it burns"), ("d", "UP", 7.0, "it burns")])
        self.assertEqual(len({it["id"] for it in found}), 2)

    def test_a_test(self) -> None:
        document = json.loads(test_document(5.0, 7))
        self.assertEqual((document["id"], document["test"], document["name"]), ("test-7", True, "nagsched;notify-test"))
        with self.assertRaisesRegex(MonitorFault, "the command for changes: .*"):
            test_shell_line("if", "the command for changes")
        test_shell_line("cat > /dev/null", "the command for changes")

    def test_one_that_was_taken_while_nothing_can_be_stored(self) -> None:
        """The command isn't run again for it, and one line says why it waits."""
        self.keep(1)
        notifier = self.notifier(f"cat >> {self.folder}/taken")

        def is_said() -> bool:
            self.passed += 0 if notifier.work() else 10_000
            return bool(self.lines)

        with mock.patch.object(self.store, "write", side_effect=NotStored("the disk is full")):
            self.assertTrue(becomes_true(is_said))
            for _ in range(100):
                is_said()
                time.sleep(0.002)
        self.assertEqual(len(self.taken()), 1)
        said = ["the disk is full; it is tried again", "the command for changes waits: the disk is full; it is tried again"]
        self.assertEqual((self.lines, len(self.store.outbox())), (said, 1))
        self.passed += 100_000
        notifier.work()
        notifier.close()
        self.assertEqual((len(self.taken()), self.store.outbox()), (1, []))

    def test_one_that_may_not_be_killed(self) -> None:
        """It runs as another user, and longer than its limit: nobody waits for it."""
        self.keep(1)
        notifier = self.notifier("exec sleep 3")
        with mock.patch.object(os, "killpg", side_effect=PermissionError), mock.patch.multiple(changes, LIMIT=100, LIMIT_AT_END=100), \
                warnings.catch_warnings():
            warnings.simplefilter("ignore", ResourceWarning)  # of the processes that nobody waits for
            notifier.work()
            self.passed += 1_000
            self.assertFalse(notifier.work())
            self.passed += 10_000
            self.assertTrue(notifier.work())
            notifier.close()
        self.assertEqual(self.lines, ["the command for changes took longer than 0.1 seconds; it is tried again"])
        self.assertEqual(len(self.store.outbox()), 1)

    def test_no_room_for_it(self) -> None:
        """One line says why it isn't started, and it is started when there is room."""
        self.keep(1)
        notifier = self.notifier(f"cat >> {self.folder}/taken")
        for what, fault in ((subprocess, "Popen"), (tempfile, "TemporaryFile")):
            with mock.patch.object(what, fault, side_effect=OSError(28, "no room")):
                for _ in range(3):
                    notifier.work()
                    self.passed += 100_000
        self.assertEqual(self.lines, ["the command for changes waits: no room: make room on its disk; it is tried again"])
        self.passed += 100_000
        notifier.work()
        notifier.close()
        self.assertEqual((len(self.taken()), self.store.outbox()), (1, []))

    def test_no_command(self) -> None:
        self.keep(1)
        self.worked(None, 0.2)
        self.assertEqual(len(self.store.outbox()), 1)
