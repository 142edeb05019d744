"""Remarks: acknowledgements, downtimes, comments and mutes, from the request that makes them to their end."""
import json
import re
from typing import Any, Dict, List, Set, Tuple

from nagsched_monitor.core.requests import Request
from nagsched_monitor.model.remarks import Remark, holding_remarks, remarks_for

from .running import ProcessTest
from .simulated import SiteTest, host, service

SAID = {"author": "ada", "text": "the disk is ordered"}


class RemarksTest(SiteTest):
    """A host and a service on it, whose codes a test sets."""

    def setUp(self) -> None:
        super().setUp()
        service = {"host": "web", "description": "http", "check_interval": 60, "retry_interval": 10, "max_check_attempts": 3}
        self.write_site([host("web")], [service])
        self.codes: Dict[str, int] = {}
        self.begin()

    def plugin(self, name: str, moment: int) -> Tuple[int, int, str]:
        return 10, self.codes.get(name, 0), "words"

    def begin(self, clock: Any = None) -> None:
        self.now = self.monitor(self.plugin, clock)

    def restart(self) -> None:
        """A monitor that was killed, and another."""
        self.now.close()
        self.begin(self.now.clock)

    def wall(self) -> float:
        return self.now.clock.wall()

    def remarks(self) -> List[Remark]:
        return sorted(self.now.scheduling.remarks.remarks.values())

    def stored(self) -> List[Remark]:
        self.now.run(1.5)
        return self.now.store.remarks()

    def held(self) -> Set[str]:
        holding = holding_remarks(self.stored(), self.wall())
        return {name for name in ("web", "web;http") if remarks_for(name, holding)}

    def ask(self, do: str, name: str = "web;http", **members: Any) -> Dict[str, Any]:
        return self.now.ask(do=do, **{"name": name, **SAID, **members})

    def give(self, code: int = 2) -> None:
        self.codes["web;http"] = code
        self.now.run(70)

    def test_acknowledgement_ends_when_the_state_changes(self) -> None:
        self.give(1)
        self.assertEqual(self.ask("ack"), {"done": "ack", "name": "web;http", "id": 1})
        self.now.run(120)
        self.assertEqual(self.held(), {"web;http"})
        self.restart()
        self.assertEqual(self.held(), {"web;http"})
        self.give(2)
        self.assertEqual(self.stored(), [])
        self.assertIn("web;http: the acknowledgement 1 ends", self.now.lines)

    def test_sticky_acknowledgement_ends_when_all_is_well_and_stays_as_a_comment_if_it_is_persistent(self) -> None:
        self.give(1)
        self.ask("ack", sticky=True, persistent=True)
        self.give(2)
        self.assertEqual(self.held(), {"web;http"})
        self.give(0)
        (left,) = self.stored()
        self.assertEqual((left.kind, left.text, self.held()), ("comment", SAID["text"], set()))
        self.restart()
        self.assertEqual(self.stored(), [left])

    def test_later_acknowledgement_replaces_one_before(self) -> None:
        self.give()
        self.ask("ack")
        self.ask("ack", sticky=True)
        self.assertEqual([each.id for each in self.stored()], [2])

    def test_state_that_changes_while_no_monitor_runs_ends_an_acknowledgement(self) -> None:
        self.give(1)
        self.ask("ack")
        self.codes["web;http"] = 2
        while self.remarks():
            self.now.run(0.05)
        self.restart()
        self.assertEqual(self.stored(), [])

    def test_the_command_for_changes_is_told_what_is_held(self) -> None:
        """An acknowledgement ends before the change that ends it is passed on, and a flexible downtime begins before the change that begins it."""
        def held() -> List[Tuple[str, bool]]:
            documents = [json.loads(document) for _, document, _ in self.now.store.outbox()]
            return [(each["state"], each.get("held", False)) for each in documents]

        self.give(1)
        self.ask("ack")
        self.give(2)
        self.give(0)
        self.ask("downtime", until=self.wall() + 600, duration=60)
        self.give(2)
        self.now.run(120)
        self.give(0)
        self.ask("mute", "")
        self.give(2)
        self.assertEqual(held(), [("WARNING", False), ("CRITICAL", False), ("OK", False), ("CRITICAL", True), ("OK", False), ("CRITICAL", True)])

    def test_fixed_downtime_holds_a_host_and_its_services(self) -> None:
        self.ask("downtime", "web", **{"from": self.wall() + 60, "until": self.wall() + 120})
        self.assertEqual(self.held(), set())
        self.now.run(60)
        self.assertEqual(self.held(), {"web", "web;http"})
        self.now.run(60)
        self.assertEqual((self.held(), self.stored()), (set(), []))

    def test_flexible_downtime_begins_with_a_problem_and_lasts_its_time(self) -> None:
        self.ask("downtime", until=self.wall() + 600, duration=900)
        self.now.run(120)
        self.assertEqual(self.held(), set())
        self.give()
        self.assertEqual(self.held(), {"web;http"})
        (begun,) = self.stored()
        self.restart()
        self.give(0)
        self.assertEqual((self.stored(), self.held()), ([begun], {"web;http"}))
        assert begun.began_at is not None
        self.now.run(begun.began_at + 899 - self.wall())
        self.assertEqual(len(self.remarks()), 1)
        self.now.run(3)
        self.assertEqual(self.stored(), [])

    def test_flexible_downtime_without_a_problem_ends_unused(self) -> None:
        self.ask("downtime", until=self.wall() + 600, duration=900)
        self.now.run(602)
        self.assertEqual(self.stored(), [])

    def test_comment_that_is_not_persistent_goes_with_a_restart(self) -> None:
        self.ask("comment")
        self.ask("comment", persistent=False)
        self.assertEqual([each.id for each in self.stored()], [1, 2])
        self.restart()
        self.assertEqual([each.id for each in self.stored()], [1])

    def test_numbers_are_not_given_again(self) -> None:
        self.ask("comment")
        self.assertEqual(self.now.ask(do="remove", id=1), {"done": "remove", "ids": [1]})
        self.restart()
        self.assertEqual(self.ask("comment")["id"], 2)

    def test_request_is_obeyed_as_a_whole_or_not_at_all(self) -> None:
        wall = self.wall()
        refused: List[Tuple[Dict[str, Any], str]] = [
            ({"do": "ack", **SAID}, "web;http is PENDING: there is no problem to acknowledge"),
            ({"do": "comment", "author": "ada"}, "text has to be a text that isn't empty"),
            ({"do": "comment", **SAID, "text": "x" * 4_097}, "text has more than 4096 bytes"),
            ({"do": "downtime", **SAID}, "a downtime needs until, the time of its end"),
            ({"do": "downtime", **SAID, "until": wall - 1}, "until has to be after now, and after from"),
            ({"do": "downtime", **SAID, "until": wall + 60, "from": wall + 60}, "until has to be after now, and after from"),
            ({"do": "downtime", **SAID, "until": wall + 60, "duration": 0}, "duration has to be more than 0 seconds"),
            ({"do": "downtime", **SAID, "until": "soon"}, "until has to be a number of seconds from 0 to 253370764800, not 'soon'"),
            ({"do": "remove"}, "there is no such remark"),
        ]
        for members, why in refused:
            self.assertEqual(self.now.ask(name="web;http", **members), {"error": why})
        self.assertEqual(self.now.ask(do="remove", kind="comment")["error"], "one of id, kind, name, host, from, text has to be given")
        self.assertEqual(self.stored(), [])

    def test_requests_of_one_turn_follow_each_other(self) -> None:
        answers: List[Any] = []
        for members in ({"do": "mute", "name": "web", **SAID}, {"do": "remove", "kind": "mute", "name": "web"}, {"do": "comment", "name": "web", **SAID},
                        {"do": "remove", "kind": "comment", "name": "web"}, {"do": "remove", "kind": "comment", "name": "web"}):
            self.now.engine.add_request(Request(json.dumps(members).encode(), answers.append))
        self.now.engine.requests.begin_turn()
        self.now.engine.turn()
        self.assertEqual(answers, [{"done": "mute", "name": "web", "id": 1}, {"done": "remove", "ids": [1]}, {"done": "comment", "name": "web", "id": 2},
                                   {"done": "remove", "ids": [2]}, {"error": "there is no such comment"}])
        self.assertEqual(self.stored(), [])

    def test_new_database_has_all_remarks(self) -> None:
        self.ask("comment")
        self.ask("mute")
        before = self.stored()
        self.now.engine._renew_database()
        self.assertEqual((self.stored(), self.held()), (before, {"web;http"}))

    def test_damaged_row_is_set_aside(self) -> None:
        self.ask("comment")
        self.ask("comment")
        self.now.store._database.execute("UPDATE remarks SET author = 'eve' WHERE id = 1")
        self.now.store.file.note_state()
        self.restart()
        self.assertEqual([each.id for each in self.stored()], [2])


class Commands(ProcessTest):
    def test_commands(self) -> None:
        self.write_site([host("web", check_interval=3600)], [service("web", "http", check_interval=0, max_check_attempts=1)],
                        passive={"web;http": {"only": True}})
        running = self.start_monitor()

        def said(*words: str) -> str:
            ran = self.run_command(*words)
            return re.sub(r"\d{4}-\S+ [\d:+-]+", "TIME", ran.stdout + ran.stderr)

        said("result", "web;http", "CRITICAL", "broken")
        self.await_states(["UP HARD 1 web:", "CRITICAL HARD 1 off web;http: broken"])
        self.assertEqual(said("ack", "web;http", "known", "--author", "ada", "--sticky", "--until", "2039-01-01T00:00"), "ack 1: web;http\n")
        self.assertEqual(said("downtime", "web", "2h", "new disk", "--author", "bob"), "downtime 2: web\n")
        flexible = said("downtime", "web;http", "1.5m", "boot", "--author", "bob", "--from", "2038-01-01T00:00", "--within", "8h")
        self.assertEqual(flexible, "downtime 3: web;http\n")
        self.assertEqual(said("comment", "web", "it is; old", "--author", "ada"), "comment 4: web\n")
        lines = ["2 downtime web: TIME to TIME bob: new disk", "4 comment persistent web: TIME ada: it is; old",
                 "1 acknowledgement sticky web;http: TIME to TIME ada: known", "3 downtime flexible web;http: TIME to TIME bob: boot"]
        self.assertEqual(said("remarks").splitlines(), lines)
        self.assertEqual(said("remarks", "web;*").splitlines(), lines[2:])
        self.await_states(["UP HARD 1 downtime web:", "CRITICAL HARD 1 off ack downtime web;http: broken"])
        self.assertEqual(said("remarks", "--remove", "2"), "remove: done\n")
        self.assertEqual(said("remarks", "--remove", "2"), "nagsched-monitor: there is no such remark\n")
        self.assertEqual(said("ack", "web", "x"), "nagsched-monitor: web is UP: there is no problem to acknowledge\n")
        self.assertIn("it has to be a number of seconds, or a number with m, h or d, such as 2h, not '2w'", said("downtime", "web", "2w", "x"))
        output = self.stop_monitor(running)
        for line in ("asked: ack web;http (1) by ada: known", "web: the downtime 2 begins", "asked: remove downtime 2 of web"):
            self.assertIn(f"{line}\n", output)
