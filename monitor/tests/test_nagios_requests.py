"""The hosts that a result asks for, compared with the requests of Nagios Core 4.4.6's own code.

conformance/nagios/requests.py has written nagios_requests.json. A row has the kind of the result's object, its state before and after the result, and
the other object's relation to it. Then that object's state, and whether Nagios asks for a check of it.
"""
import json
import pathlib
import random
from typing import Any, Dict, List, Mapping, Optional, Sequence, Set, Tuple
from unittest import mock

from nagsched_monitor.core import checks
from nagsched_monitor.core.checks import hosts_to_check
from nagsched_monitor.model.objects import ObjectDefinition, ObjectState, RunTable
from nagsched_monitor.model.protocol import Standing

from .simulated import SiteTest, host, service

Situation = Tuple[str, str, str, str, str]
REQUESTS: Dict[Situation, bool] = {
    (sort, before, after, relation, other): is_asked
    for sort, before, after, relation, other, is_asked in json.loads((pathlib.Path(__file__).parent / "nagios_requests.json").read_text())
}


def state_of(standing: Optional[Standing]) -> str:
    return "PENDING" if standing is None else standing.state


def standing(state: str) -> Optional[Standing]:
    return None if state == "PENDING" else Standing(state, "HARD", 1, False, False, None, "")


class AsNagios(SiteTest):
    def test_every_row(self) -> None:
        for (sort, before, after, relation, other), is_asked in REQUESTS.items():
            objects = {name: ObjectState(ObjectDefinition(name, 0, None, ("parent",) if name == "own" else (), 60_000, True), RunTable(), True)
                       for name in ("own", "parent", "child")}
            objects["own;s"] = ObjectState(ObjectDefinition("own;s", 0, "own", (), 60_000, True), RunTable(), True)
            name = {"host": "own", "parent": "parent", "child": "child"}[relation]
            # A parent or child in this state is asked for or not, in any state of the other one.
            objects[name].standing = standing(other)
            result = standing(after)
            assert result is not None
            asked = hosts_to_check(objects["own" if sort == "host" else "own;s"], standing(before), result, objects, ["child"])
            with self.subTest(sort=sort, before=before, after=after, relation=relation, other=other):
                self.assertEqual(objects[name] in asked, is_asked)

    def test_a_simulated_day(self) -> None:
        """Every result of a day with many problems asks for the hosts that Nagios asks for in the same situation."""
        chance = random.Random(83)
        hosts = [host("gate", max_check_attempts=1), *(host(f"h{n}", parents=["gate"], max_check_attempts=1 + n) for n in range(3)),
                 host("far", parents=["h0", "h1"], max_check_attempts=2)]
        self.write_site(hosts, [service(on, f"s{n}", max_check_attempts=1 + n) for on in ("gate", "h0", "far") for n in range(2)])
        seen: Set[Situation] = set()
        wrong: List[Tuple[Situation, bool]] = []

        def compare(obj: ObjectState, before: Optional[Standing], now: Standing, objects: Mapping[str, ObjectState],
                    children: Sequence[str]) -> List[ObjectState]:
            asked = hosts_to_check(obj, before, now, objects, children)
            own = obj.definition.host
            others = [("host", own)] if own is not None else [("parent", it) for it in obj.definition.parents] + [("child", it) for it in children]
            for relation, name in others:
                row = ("host" if own is None else "service", state_of(before), now.state, relation, state_of(objects[name].standing))
                seen.add(row)
                if REQUESTS.get(row) != (objects[name] in asked):
                    wrong.append((row, objects[name] in asked))
            return asked

        def plugin(name: str, moment: int) -> Tuple[int, int, str]:
            mood = random.Random(f"{name} {moment // 900_000}").random()
            return chance.randint(5, 3000), chance.choice((0, 0, 0, 0, 1, 2, 3)) if mood < 0.5 else chance.choice((2, 2, 2, 3)), ""

        with mock.patch.object(checks, "hosts_to_check", compare):
            monitor: Any = self.monitor(plugin)
            monitor.run(24 * 3600)
        self.assertEqual(wrong, [])
        self.assertGreater(len(seen), 80)
