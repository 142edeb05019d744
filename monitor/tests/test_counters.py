"""The monitor's own figures: by result, late starts of checks, saves. They continue after a restart."""
from typing import Dict, Tuple

from nagsched_monitor.store.counters import BOUNDS, BUCKETS, Counters
from nagsched_monitor.store.store import Store, store_figures

from .simulated import SimulatedClock, SimulatedMonitor, SiteTest, fine


def figures_of(monitor: SimulatedMonitor) -> Dict[str, float]:
    return monitor.store.figures()


def late_of(figures: Dict[str, float]) -> float:
    """The number of starts in the histogram."""
    return sum(figures.get(bucket, 0) for bucket in BUCKETS)


class Figures(SiteTest):
    def test_each_result_is_counted(self) -> None:
        """Ten hosts per second for a minute, one of them down: as many results as plugins ended, and each start is in the histogram."""
        self.write_site([{"name": f"h{number}", "check_interval": 1, "max_check_attempts": 2} for number in range(10)], [])
        monitor = self.monitor(lambda name, moment: (10, 2 if name == "h0" else 0, "some words"))
        monitor.run(60)
        monitor.engine.close()
        figures = figures_of(monitor)
        self.assertEqual(figures["checks.UP"] + figures["checks.DOWN"], monitor.engine.counters.result_count)
        self.assertGreater(figures["checks.DOWN"], 50)
        self.assertAlmostEqual(late_of(figures), len(monitor.runners.started), delta=10)
        self.assertEqual((figures["calls"], figures["saves"]), (monitor.store.last_call, 1))
        self.assertAlmostEqual(figures["checks_a_second"], 10, delta=1)
        self.assertEqual(figures["latest_start"], monitor.engine.counters.latest_start / 1000)

    def test_they_are_written_every_five_seconds(self) -> None:
        """A site with nothing to do writes only them, and never sooner."""
        self.write_site([{"name": "h0", "check_interval": 3600, "max_check_attempts": 2}], [])
        monitor = self.monitor(fine)
        written = []
        for _ in range(120):
            monitor.run(0.5)
            written.append(figures_of(monitor)["written_at"])
        times = sorted(set(written))
        self.assertGreaterEqual(min(after - before for before, after in zip(times, times[1:])), 5)
        self.assertLessEqual(max(after - before for before, after in zip(times, times[1:])), 6.5)

    def test_they_go_on_over_a_restart(self) -> None:
        self.write_site([{"name": "h0", "check_interval": 1, "max_check_attempts": 2}], [])
        monitor = SimulatedMonitor(self.folder, fine)
        monitor.run(30)
        monitor.engine.close()
        before, now = figures_of(monitor), monitor.clock.now
        monitor.close()
        monitor = self.monitor(fine, SimulatedClock(now))
        monitor.run(30)
        monitor.engine.close()
        after = figures_of(monitor)
        self.assertAlmostEqual(after["checks.UP"] - before["checks.UP"], monitor.engine.counters.result_count)
        self.assertGreater(monitor.engine.counters.result_count, 25)
        self.assertEqual((before["saves"], after["saves"]), (1, 2))
        self.assertGreater(after["calls"], before["calls"] + 50)
        self.assertGreater(after["begun_at"], before["begun_at"])
        self.assertGreater(late_of(after), late_of(before) + 25)

    def test_what_is_given_up(self) -> None:
        """A count that couldn't be written is written later."""
        self.write_site([{"name": "h0", "check_interval": 1, "max_check_attempts": 2}], [])
        monitor = self.monitor(fine)
        monitor.run(10)
        (pages,) = monitor.store._database.execute("PRAGMA page_count").fetchone()
        monitor.store._database.execute(f"PRAGMA max_page_count = {pages}")
        monitor.run(60)
        monitor.store._database.execute("PRAGMA max_page_count = 1000000")
        monitor.run(10)
        monitor.engine.close()
        self.assertEqual(figures_of(monitor)["checks.UP"], monitor.engine.counters.result_count)


class Histogram(SiteTest):
    def counted(self, *late: int) -> Tuple[Counters, Dict[str, float]]:
        clock = SimulatedClock()
        counters = Counters({}, clock)
        for each in late:
            counters.count_start(each)
        store = Store(self.folder)
        self.addCleanup(store.close)
        store.write(store_figures(counters.changed_figures(0, {})))
        return counters, store.figures()

    def test_bounds(self) -> None:
        """A start at a bound is within it; one later than all bounds is counted too."""
        for bound, bucket in zip(BOUNDS, BUCKETS):
            _, figures = self.counted(round(bound * 1000), round(bound * 1000) + 1)
            self.assertEqual(figures[bucket], 1, bucket)
            self.assertEqual((late_of(figures), round(figures["late.sum"], 3)), (2, round(2 * bound + 0.001, 3)))
            self.doCleanups()
            self.setUp()
        _, figures = self.counted(-5, 3_600_000)
        self.assertEqual((figures["late.0.05"], figures["late.more"], figures["late.sum"]), (1, 1, 3600))

    def test_the_latest_start_of_late(self) -> None:
        clock = SimulatedClock()
        counters = Counters({}, clock)
        counters.count_start(700)
        lately = []
        for _ in range(20):
            clock.now += 10_000
            values = counters.changed_figures(0, {})
            lately.append((values["latest_start_lately"], values["latest_start"]))
        self.assertEqual(lately[0], (0.7, 0.7))
        self.assertEqual(lately[-1], (0.0, 0.7))
