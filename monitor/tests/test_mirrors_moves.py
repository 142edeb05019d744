"""Objects that move between the parts of a site, and parts that are added and removed: the standings survive."""
from typing import Any, Dict, List, Tuple

from nagsched_monitor.faults import NotStored

from .parted import PartedSiteTest, host, mirror, setup
from .simulated import SimulatedMonitor, fine


class Reloads(PartedSiteTest):
    """Objects that move between parts."""

    def write_two(self, first: List[str], second: List[str], extra: List[str]) -> None:
        """Hosts below the gateway in two parts, the gateway in the first; `extra` are new ones in the second."""
        gateway = host("gateway")
        parts = [[gateway, *(host(name, "gateway") for name in first)], [mirror(gateway), *(host(name, "gateway") for name in second + extra)]]
        self.write_parts([setup(hosts, []) for hosts in parts], {"part-2": {"gateway": "part-1"}})

    def states(self, monitor: SimulatedMonitor) -> Dict[str, Tuple[str, str, int]]:
        standings = {name: obj.standing for name, obj in monitor.scheduling.states.objects.items()}
        return {name: (it.state, it.kind, it.attempt) for name, it in standings.items() if it is not None}

    def test_objects_that_move(self) -> None:
        """They keep their standings. A running plugin ends the next check of its object, and no second one runs next to it."""
        slow = {"b"}
        self.write_two(["a", "b"], ["c"], [])
        monitor = self.monitor(lambda name, moment: (5_000 if name in slow else 10, 2 if name in "bc" else 0, "said"))
        monitor.run(100)
        before = self.states(monitor)
        self.assertEqual((before["b"], before["c"][0]), (("DOWN", "HARD", 3), "DOWN"))
        monitor.ask(do="reschedule", name="b")
        monitor.run(1)
        self.assertEqual(monitor.objects_with_plugins(), {"b"})
        self.write_two(["a", "c"], ["b"], ["d"])
        self.assertEqual(self.reload(monitor), [])
        self.assertEqual({name: state for name, state in self.states(monitor).items() if name != "d"}, before)
        started, made = len(monitor.runners.started), monitor.engine.counters.result_count
        monitor.run(3.5)
        self.assertEqual((monitor.objects_with_plugins(), monitor.runners.running()), ({"b"}, ["b"]))
        monitor.run(1)
        self.assertEqual(monitor.objects_with_plugins(), set())
        names = [job.name for _, job in monitor.runners.started[started:]]
        self.assertEqual((names.count("b"), monitor.engine.counters.result_count - made), (0, len(names) + 1))
        self.assertFalse([line for line in monitor.lines if "late" in line or "dropped" in line])

    def test_runs_that_are_out_stay_where_nothing_moves(self) -> None:
        self.write_two(["a"], ["c"], [])
        monitor = self.monitor(lambda name, moment: (5_000, 0, "said"))
        monitor.run(1)
        self.write_two(["a"], ["c"], ["d"])
        self.reload(monitor)
        monitor.run(6)
        self.assertFalse([line for line in monitor.lines if "late" in line or "dropped" in line])
        self.assertEqual(len(monitor.starts()["c"]), 1)

    def test_one_setup_becomes_parts_and_parts_become_one(self) -> None:
        gateway, others = host("gateway"), [host(name, "gateway") for name in "abcd"]
        self.write_site([gateway, *others], [])
        monitor = self.monitor(lambda name, moment: (10, 2, "bad"))
        monitor.run(50)
        before = self.states(monitor)
        self.assertEqual({state for state, _, _ in before.values()}, {"DOWN", "UNREACHABLE"})
        (self.folder / "setup.json").unlink()
        self.write_two(["a"], ["b", "c"], ["d"])
        self.assertEqual(self.reload(monitor), [])
        self.assertEqual(self.states(monitor), before)
        monitor.run(100)
        before = self.states(monitor)
        monitor.close()
        for path in [*self.folder.glob("part-*"), self.folder / "mirrors.json"]:
            path.unlink()
        self.write_site([gateway, *others], [])
        after = self.monitor(lambda name, moment: (10, 2, "bad"), monitor.clock)
        self.assertEqual(self.states(after), before)
        self.assertEqual(sorted(after.store.generations()), [0])

    def test_other_attempts(self) -> None:
        """A change of an object by the setup is named once, and changes its mirrors in the same way."""
        self.write_two(["a"], ["c"], [])
        monitor = self.monitor(lambda name, moment: (10, 2 if name == "gateway" else 0, "bad"))
        monitor.run(100)
        gateway = host("gateway", max_check_attempts=7)
        self.write_parts([setup([gateway, host("a", "gateway")], []), setup([mirror(gateway), host("c", "gateway")], [])], {"part-2": {"gateway": "part-1"}})
        self.assertEqual(self.reload(monitor), ["changed attempts gateway"])
        self.assertEqual(self.states(monitor)["gateway"], ("DOWN", "HARD", 7))

    def test_a_bad_site_changes_nothing(self) -> None:
        self.write_two(["a"], ["c"], [])
        monitor = self.monitor(fine)
        monitor.run(50)
        before, write = monitor.store.generations(), monitor.store.write

        def refuse(*writes: Any) -> None:
            raise NotStored("database or disk is full")

        self.write_two(["a", "c"], [], ["d"])
        setattr(monitor.store, "write", refuse)
        with self.assertRaises(NotStored):
            self.reload(monitor)
        setattr(monitor.store, "write", write)
        self.assertEqual(monitor.store.generations(), before)
        monitor.run(100)
        self.assertEqual(len(monitor.starts()["c"]), 3)

    def test_a_crash_behind_a_reload(self) -> None:
        """Calls of all parts are dropped together: no call is missing between two in a part that didn't change."""
        self.write_two(["a"], ["c"], [])
        monitor = self.monitor(fine)
        monitor.run(130)
        self.write_two(["a"], ["c"], ["d"])
        self.reload(monitor)
        monitor.run(70)
        before = self.states(monitor)
        monitor.store.close()
        monitor.scheduling.close()
        after = self.monitor(fine, monitor.clock)
        self.assertEqual(self.states(after), before)
        after.run(70)
        self.assertEqual(after.changes, [])
