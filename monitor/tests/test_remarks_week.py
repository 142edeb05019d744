"""A week of random remarks, results, restarts and reloads, compared with what each remark has to be at each moment; and mutated commands."""
import json
import random
from dataclasses import dataclass
from typing import Any, Dict, List, Optional, Set, Tuple

from nagsched_monitor.faults import RequestFault
from nagsched_monitor.inputs.nagios_pipe import COMMANDS, requests_of
from nagsched_monitor.model.remarks import Remark
from nagsched_monitor.outputs.alertmanager import HELD, PROBLEM, alerts_of
from nagsched_monitor.outputs.status_query import CUT, SiteStatus, open_database, read_standings
from nagsched_monitor.site.people_files import Groups
from nagsched_monitor.site.site import read_site

from .simulated import BEGIN, PROGRAM, SimulatedMonitor, SiteTest, host, service

WEEK = 7 * 86_400
MINUTE = 60.0
HOSTS = ("gate", "web", "db")
NAMES = [name for each in HOSTS for name in (each, f"{each};http", f"{each};disk")]
SAID = {"author": "ada", "text": "known"}


@dataclass
class Said:
    """A remark as it was asked for, and when something else than its time ended it, or began it."""

    kind: str
    name: str
    made_at: float
    start: float
    end: Optional[float]
    sticky: bool
    persistent: bool
    duration: Optional[float]
    state: str
    removed_at: Optional[float] = None
    began_at: Optional[float] = None


class Week(SiteTest):
    def setUp(self) -> None:
        super().setUp()
        self.chance = random.Random(110)
        members = {"check_interval": 600, "retry_interval": 120, "max_check_attempts": 2}
        self.write_site([host(name, **members) for name in HOSTS], [service(name, word, **members) for name in HOSTS for word in ("http", "disk")])
        self.codes: Dict[str, int] = {}
        self.said: Dict[int, Said] = {}
        # The states of each object, with the times since which it had them.
        self.states: Dict[str, List[Tuple[float, str]]] = {name: [(0.0, "OK" if ";" in name else "UP")] for name in NAMES}
        self.now = self.monitor(lambda name, moment: (10, self.codes.get(name, 0), "words"))
        self.counts: Dict[str, int] = {}

    def wall(self) -> float:
        return self.now.clock.wall()

    def live(self, seconds: float) -> None:
        """Continues, with a turn a minute."""
        self.now.between = 60_000
        self.now.run(seconds)
        self.now.between = 1
        self.now.run(2.5)
        for _, change in self.now.changes:
            if change.state != self.states[change.name][-1][1]:
                self.states[change.name].append((change.time, change.state))
        self.now.changes.clear()

    def state(self, name: str) -> str:
        return self.states[name][-1][1]

    def restart(self) -> None:
        """The monitor is killed, and another one begins a while later."""
        monitor, clock = self.now, self.now.clock
        monitor.close()
        clock.now += self.chance.choice((0, 1_000, 300_000))
        self.now = self.monitor(monitor.runners.plugin, clock)
        for its in self.said.values():
            if its.kind == "comment" and not its.persistent and its.removed_at is None:
                its.removed_at = self.wall()

    def say(self) -> None:
        chance, wall = self.chance, self.wall()
        kind, name = chance.choice(("ack", "ack", "ack", "downtime", "downtime", "comment", "mute")), chance.choice(NAMES)
        members: Dict[str, Any] = {}
        if kind == "downtime":
            members["from"] = wall + chance.choice((0, 0, 10, 60)) * MINUTE
            members["until"] = members["from"] + chance.randint(5, 240) * MINUTE
            members |= {"duration": chance.randint(5, 120) * MINUTE} if chance.random() < 0.5 else {}
        elif kind == "ack":
            members = {"sticky": chance.random() < 0.5, "persistent": chance.random() < 0.3}
            members |= {"until": wall + chance.randint(5, 240) * MINUTE} if chance.random() < 0.3 else {}
        elif kind == "comment":
            members["persistent"] = chance.random() < 0.5
        answer = self.now.ask(do=kind, name=name, **SAID, **members)
        state = self.state(name)
        if kind == "ack" and state in ("OK", "UP"):
            self.assertIn(": there is no problem to acknowledge", answer["error"])
            return
        self.assertEqual((answer["done"], answer["id"] > max(self.said, default=0)), (kind, True))
        long_kind = {"ack": "acknowledgement"}.get(kind, kind)
        for its in self.said.values():
            if kind in ("ack", "mute") and its.kind == long_kind and its.name == name and its.removed_at is None and self.alive(its, wall):
                its.removed_at = wall
        self.said[answer["id"]] = Said(long_kind, name, wall, members.get("from", wall), members.get("until"), members.get("sticky", False),
                                       members.get("persistent", kind == "comment"), members.get("duration"), state)

    def remove(self) -> None:
        wall = self.wall()
        left = [number for number, its in self.said.items() if self.alive(its, wall)]
        if left:
            number = self.chance.choice(left)
            self.assertEqual(self.now.ask(do="remove", id=number)["ids"], [number])
            self.said[number].removed_at = wall

    def ended_at(self, its: Said) -> Optional[float]:
        """When it ended or will end, as far as that is known."""
        own_end = its.end if its.duration is None or its.began_at is None else its.began_at + its.duration
        ends = [time for time in (its.removed_at, own_end) if time is not None]
        if its.kind == "acknowledgement":
            later = [(since, state) for since, state in self.states[its.name] if since > its.made_at]
            ends += [since for since, state in later if (state in ("OK", "UP") if its.sticky else state != its.state)][:1]
        return min(ends, default=None)

    def alive(self, its: Said, wall: float) -> bool:
        end = self.ended_at(its)
        return end is None or wall < end

    def begin_flexible(self, number: int, its: Said, stored: Optional[Remark]) -> None:
        """A flexible downtime begins with the problem, or within a turn and a pause if that was there before."""
        problems = [max(since, its.start) for (since, state), (until, _) in zip(self.states[its.name], [*self.states[its.name][1:], (1e12, "")])
                    if state not in ("OK", "UP") and until > its.start]
        first = min(problems, default=1e12)
        if its.duration is None or its.began_at is not None or stored is not None and stored.began_at is None:
            return
        if stored is None:
            # It began and ended since the last look.
            its.began_at = first if first < (its.end or 0) and first + its.duration <= self.wall() else None
            return
        began_at = stored.began_at or 0
        self.assertTrue(its.start <= began_at < (its.end or 0), (its, stored))
        self.assertTrue(first - 1 <= began_at <= max(first, its.made_at) + 400, (first, its, stored))
        its.began_at = began_at

    def held(self, wall: float) -> Set[str]:
        """The objects that something holds."""
        holding = [its for its in self.said.values() if its.kind != "comment" and self.alive(its, wall)
                   and (its.start <= wall if its.duration is None else its.began_at is not None)]
        return {name for name in NAMES for its in holding if its.name == name or its.kind == "downtime" and its.name == name.partition(";")[0]}

    def compare(self) -> None:
        self.now.scheduling.remarks._looked_at = 0.0
        self.now.ask(do="signs")
        wall, stored = self.wall(), {each.id: each for each in self.now.store.remarks()}
        for number, its in self.said.items():
            self.begin_flexible(number, its, stored.get(number))
        expected = {number: its.kind for number, its in self.said.items() if self.alive(its, wall)}
        # A persistent acknowledgement that ended is a comment.
        expected |= {number: "comment" for number, its in self.said.items()
                     if its.kind == "acknowledgement" and its.persistent and not self.alive(its, wall)}
        found = {number: each.kind for number, each in stored.items()}
        wrong = [(number, self.said[number], stored.get(number)) for number in self.said if found.get(number) != expected.get(number)]
        self.assertEqual(wrong, [], wall)
        with open_database(self.folder) as database:
            status = SiteStatus(wall, read_standings(database, CUT), {}, list(stored.values()))
        labels = [dict(each) for each in alerts_of(status, "site", {}, {})]
        of = [(each["alertname"], each["host"], each.get("service", "")) for each in labels if "host" in each]
        told = {";".join(filter(None, names)) for alert, *names in of if alert == PROBLEM and (HELD, *names) not in of}
        hard = {it.name for it in status.objects if it.is_hard_problem()}
        held = self.held(wall)
        self.assertEqual(told, hard - held)
        self.counts = {"told": self.counts.get("told", 0) + len(told), "held": self.counts.get("held", 0) + len(hard & held)}

    def test_a_week(self) -> None:
        while self.wall() < BEGIN / 1000 + WEEK:
            for name in self.chance.sample(NAMES, 2):
                self.codes[name] = self.chance.choice((0, 0, 1, 2, 2, 3)) if ";" in name else self.chance.choice((0, 0, 2))
            self.live(self.chance.choice((5, 20, 40)) * MINUTE)
            self.compare()
            for _ in range(self.chance.randint(0, 3)):
                self.say()
            self.compare()
            what = self.chance.random()
            if what < 0.1:
                self.restart()
            elif what < 0.2:
                self.now.engine.reload(read_site(self.folder, PROGRAM))
            elif what < 0.4:
                self.remove()
            self.compare()
        kinds = [its.kind for its in self.said.values()]
        self.assertTrue(all(kinds.count(kind) > 20 for kind in ("acknowledgement", "downtime", "comment", "mute")), kinds)
        self.assertTrue(self.counts["told"] > 200 and self.counts["held"] > 200, self.counts)
        self.assertFalse([line for line in self.now.lines if "fault" in line])


class Mutated(SiteTest):
    GROUPS = {"web": Groups({"host_groups": ["linux"]}), "web;http": Groups({"service_groups": ["shop"]})}

    def mutated(self, chance: random.Random, text: str) -> str:
        """A text with some characters or words of it gone, doubled or replaced."""
        for _ in range(chance.randint(1, 4)):
            place = chance.randrange(len(text) + 1)
            end = min(len(text), place + chance.choice((0, 1, 1, 5)))
            other = chance.choice(("", "", text[place:end] * 2, ";", "\x00", "é\ud800", "-1", "9" * 20, "null", "[]", "{}", '"', "\n"))
            text = text[:place] + other + text[end:]
        return text

    def test_no_command_is_a_fault(self) -> None:
        chance = random.Random(11)
        self.write_site([host("web")], [service("web", "http")])
        monitor: SimulatedMonitor = self.monitor(lambda name, moment: (10, 2, "broken"))
        monitor.run(200)
        wall = monitor.clock.wall()
        requests = [{"do": "ack", "name": "web;http", **SAID, "sticky": True, "persistent": True, "until": wall + 60},
                    {"do": "downtime", "name": "web", **SAID, "from": wall, "until": wall + 60, "duration": 5}, {"do": "comment", "name": "web", **SAID},
                    {"do": "mute", "name": "", **SAID}, {"do": "remove", "kind": "comment", "id": 1, "name": "web", "host": "web", "from": wall, "text": "x"},
                    {"do": "refused", "text": "x"}]
        words = f"web;http;{wall:.0f};{wall + 60:.0f};0;0;60;ada;known"
        lines = [f"[1] {command};{words}" for command in sorted(COMMANDS)]
        seen = set()
        for number in range(400):
            if number % 2:
                line = self.mutated(chance, chance.choice(lines)).encode(errors="replace")
                try:
                    asked = [json.dumps(each).encode() for each in requests_of(line, {"web": ["http"]}, self.GROUPS)[1]]
                except RequestFault:
                    asked = []
                    seen.add("refused by the pipe")
            else:
                asked = [self.mutated(chance, json.dumps(chance.choice(requests))).encode(errors="replace")]
            for request in asked:
                answer = monitor.ask_line(request)
                self.assertTrue("done" in answer or "error" in answer and "has a fault" not in answer["error"], (request, answer))
                seen.add("done" if "done" in answer else "refused")
            monitor.run(0.1)
        self.assertEqual(seen, {"done", "refused", "refused by the pipe"})
        self.assertFalse([line for line in monitor.lines if "fault" in line.partition(" ")[0]])
        monitor.run(2)
        remarks = list(monitor.scheduling.remarks.remarks.values())
        self.assertEqual(monitor.store.remarks(), sorted(remarks))
