"""The load of a site stays even: after a pause, stalls, too few slots, an outage that hits many at once, and a restart. All with the monitor's own loop."""
import collections
from typing import List, Tuple

from nagsched_monitor.core.checks import next_in_phase, time_back_in_phase
from nagsched_monitor.model.objects import phase_of
from nagsched_monitor.site.site import read_site

from .simulated import BEGIN, PROGRAM, SimulatedMonitor, SiteTest, fine, host, service

COUNT = 600


class Even(SiteTest):
    """600 services, each every minute: 10 per second."""

    def site(self, slots: int = 500) -> None:
        services = [service("h", f"s{number:03}", retry_interval=15) for number in range(COUNT)]
        self.write_site([host("h", check_interval=3600)], services, {"service_inter_check_delay_method": "s", "max_service_check_spread": 1},
                        monitor={"slots": slots})

    def assert_even(self, monitor: SimulatedMonitor) -> None:
        """The checks of the last minute: about 10 in each second."""
        counts = monitor.checks_a_second()[-62:-2]
        self.assertTrue(6 <= min(counts) and max(counts) <= 14, counts)

    def test_a_pause_of_nine_seconds(self) -> None:
        self.site()
        monitor = self.monitor(fine)
        monitor.work(130)
        self.assert_even(monitor)
        monitor.pause(9)
        monitor.work(130)
        self.assert_even(monitor)

    def test_a_stall_every_minute(self) -> None:
        self.site()
        monitor = self.monitor(fine)
        for _ in range(12):
            monitor.work(61)
            monitor.pause(1.5)
        monitor.work(125)
        self.assert_even(monitor)

    def test_too_few_slots(self) -> None:
        """For three minutes plugins take 30 seconds, and there are 64 slots: never more run at once, and the load is even a round later."""
        self.site(64)
        bad = range(BEGIN + 120_000, BEGIN + 300_000)
        monitor = self.monitor(lambda name, moment: (30_000, 2, "timed out") if moment in bad else (10, 0, "fine"))
        most = 0
        while monitor.clock.now < BEGIN + 300_000:
            monitor.work(1)
            most = max(most, len(monitor.runners.running()))
        self.assertEqual(most, 64)
        monitor.work(240)
        self.assert_even(monitor)

    def test_a_restart(self) -> None:
        """The phases are those of before, also if it was killed and its table of standings is older than the calls."""
        self.site()
        monitor = self.monitor(fine)
        monitor.work(130)
        before = {obj.name: obj.phase for obj in monitor.engine.objects.values()}
        monitor.close()
        monitor.clock.now += 20_000
        after = self.monitor(fine, monitor.clock)
        self.assertEqual({obj.name: obj.phase for obj in after.engine.objects.values()}, before)
        after.work(150)
        self.assert_even(after)

    def test_an_outage_behind_one_gateway(self) -> None:
        """300 hosts fail and come back together; an hour later no more of them are checked at once than before."""
        options = {"host_inter_check_delay_method": "s", "max_host_check_spread": 5}
        hosts = [host("gateway", max_check_attempts=1), *(host(f"h{number:03}", check_interval=300, parents=["gateway"]) for number in range(300))]
        self.write_site(hosts, [], options, monitor={"slots": 500})
        bad = range(BEGIN + 600_000, BEGIN + 900_000)
        monitor = self.monitor(lambda name, moment: (10_000, 2, "no answer") if moment in bad else (10, 0, "fine"))
        monitor.work(1800)
        starts: List[Tuple[int, str]] = [(moment // 1000, job.name) for moment, job in monitor.runners.started if moment > monitor.clock.now - 300_000]
        counts = collections.Counter(second for second, name in starts if name != "gateway")
        self.assertLessEqual(max(counts.values()), 3)
        self.assertGreaterEqual(len(counts), 250)


class Phases(SiteTest):
    def test_the_next_moment(self) -> None:
        self.assertEqual([next_in_phase(7, 10, now) for now in (0, 6, 7, 16, 17, 100)], [7, 7, 17, 17, 27, 107])

    def test_what_is_moved_back(self) -> None:
        for next_check, wanted in ((10_000, None), (10_450, None), (9_550, None), (10_451, 20_000), (9_549, 20_000), (15_000, 20_000), (None, None)):
            self.assertEqual(time_back_in_phase(0, 10_000, next_check, 12_000), wanted, next_check)
        self.assertEqual((time_back_in_phase(None, 10_000, 15_000, 0), time_back_in_phase(0, 0, 15_000, 0)), (None, None))

    def test_another_interval_is_filled_evenly(self) -> None:
        """Whole multiple of the old one or not: the number of checks is about the same in each of its tenths."""
        for interval in (45_000, 60_000, 80_000, 90_000, 600_000):
            counts = collections.Counter(10 * phase_of(f"h{number}", interval) // interval for number in range(1_000))
            self.assertEqual(len(counts), 10)
            self.assertTrue(70 <= min(counts.values()) and max(counts.values()) <= 130, counts)

    def test_a_reload_with_another_interval(self) -> None:
        """Objects that fill a minute fill a minute and a half."""
        hosts = [host(f"h{number:02}") for number in range(60)]
        self.write_site(hosts, [], {"host_inter_check_delay_method": 1_000})
        monitor = self.monitor(fine)
        monitor.run(70)
        self.write_site([{**each, "check_interval": 90} for each in hosts], [], {"host_inter_check_delay_method": 1_000})
        monitor.engine.reload(read_site(self.folder, PROGRAM))
        monitor.run(360)
        starts = [start for start, _ in monitor.runners.started if start > monitor.clock.now - 180_000]
        self.assertLess(max(later - earlier for earlier, later in zip(starts, starts[1:])), 15_000)

    def test_a_reload_keeps_an_object_in_phase(self) -> None:
        self.write_site([host("web")], [service("web", "http", check_interval=120)], {"service_inter_check_delay_method": 7_000})
        monitor = self.monitor(fine)
        monitor.work(100)
        phase = monitor.engine.objects["web;http"].phase
        self.write_site([host("web")], [service("web", "http", check_interval=120), service("web", "new")], {"service_inter_check_delay_method": 7_000})
        monitor.engine.reload(read_site(self.folder, PROGRAM))
        monitor.work(200)
        self.assertEqual(monitor.engine.objects["web;http"].phase, phase)
        self.assertIsNotNone(monitor.engine.objects["web;new"].phase)
