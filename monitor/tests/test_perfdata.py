"""The spool of performance data: each result is in it once, whatever happens, and its lines have the form that PNP4Nagios reads."""
import contextlib
import json
import pathlib
import random
from typing import Any, Callable, Dict, List, Optional, Sequence, Tuple
from unittest import mock

from nagsched_monitor.faults import MonitorFault
from nagsched_monitor.model.protocol import Report
from nagsched_monitor.model.text import performance_data, plain_text
from nagsched_monitor.outputs import perfdata
from nagsched_monitor.outputs.perfdata import Spool
from nagsched_monitor.scheduler.mirroring import PlannedCall
from nagsched_monitor.store import generations, store

from .running import ProcessTest
from .simulated import BEGIN, SimulatedClock, SimulatedMonitor, SiteTest, host, service
from .waiting import becomes_true

Line = Dict[str, str]


def lines_of(folder: pathlib.Path) -> List[Line]:
    """The lines of a spool, in the order of its files."""
    paths = sorted(folder.glob("perfdata.*"), key=lambda path: int(path.name.rpartition(".")[2]))
    return [dict(word.split("::", 1) for word in line.split("\t")) for path in paths for line in path.read_text().splitlines()]


def result_of(line: Line) -> Tuple[str, str]:
    """The object of a line, and its performance data."""
    what = line["DATATYPE"][: -len("PERFDATA")]
    return f"{line['HOSTNAME']}{';' if what == 'SERVICE' else ''}{line.get('SERVICEDESC', '')}", line[f"{what}PERFDATA"]


class SpoolTest(SiteTest):
    """A test with a simulated monitor that has a spool."""

    def setUp(self) -> None:
        super().setUp()
        self.there = self.folder / "spool"
        self.there.mkdir()
        self.lines: List[str] = []
        self.stored: List[Tuple[str, str]] = []  # the results that the monitor has stored
        self.count = 0
        self.spool = Spool(self.folder, self.there, self.lines.append)
        # The monitor's answer to a request; None if it is asked.
        self.answer: Callable[[bytes], Optional[bytes]] = lambda line: None
        entered = contextlib.ExitStack()
        self.addCleanup(entered.close)
        entered.enter_context(mock.patch.object(perfdata, "send_request", lambda folder, line, seconds: self.answer(line) or self.ask(line)))
        entered.enter_context(mock.patch("os.fsync"))

    def ask(self, line: bytes) -> bytes:
        return json.dumps(self.its.ask_line(line)).encode()

    def plugin(self, name: str, moment: int) -> Tuple[int, int, str]:
        """Each result has a number of its own."""
        self.count += 1
        return 10, self.count % 7 % 3, f"some words | n={self.count}"

    def start(self, clock: Optional[SimulatedClock] = None) -> SimulatedMonitor:
        """A monitor with a spool, as its program starts one."""
        opened = store.Store(self.folder)
        opened.open_spool()
        self.its = SimulatedMonitor(self.folder, self.plugin, clock, store=opened)
        self.addCleanup(self.its.close)
        make = self.its.scheduling.store_calls

        def note(planned: Sequence[PlannedCall], writes: Sequence[Any] = ()) -> None:
            make(planned, writes)
            self.stored += [(call.name, performance_data(words)) for _, call, words in planned if isinstance(call, Report) and words is not None]

        setattr(self.its.scheduling, "store_calls", note)
        return self.its

    def restart(self, is_saved: bool) -> None:
        if is_saved:
            self.its.engine.close()
        self.its.close()
        self.start(SimulatedClock(self.its.clock.now))


class EachOnce(SpoolTest):
    def site(self, *others: str) -> None:
        services = [service("web", "http", check_interval=3, retry_interval=2), *(service("db", each, check_interval=5) for each in others)]
        self.write_site([host("web", check_interval=7), host("db", check_interval=11)], services)

    def random_answer(self, chance: random.Random) -> Callable[[bytes], Optional[bytes]]:
        """The monitor doesn't answer, before or after it has obeyed."""
        def answer(line: bytes) -> Optional[bytes]:
            if chance.random() < 0.5:
                return None
            if chance.random() < 0.5:
                self.ask(line)
            raise MonitorFault("the monitor doesn't answer")

        return answer

    def test_through_saves_restarts_and_faults(self) -> None:
        """The state is saved, the monitor is killed, ended and gets another site, and the process of the spool is killed, or its files can't be moved."""
        chance = random.Random(5)
        at_once = mock.patch.object(perfdata, "AT_ONCE", 40)
        at_once.start()
        self.addCleanup(at_once.stop)
        self.site()
        self.start()
        for number in range(400):
            self.its.run(chance.choice((1, 3, 9)))
            self.answer = self.random_answer(chance)
            what = chance.randrange(8)
            if what < 5:
                with contextlib.ExitStack() as entered:
                    if chance.random() < 0.2:
                        entered.enter_context(mock.patch.object(pathlib.Path, "replace", side_effect=OSError("no")))
                    self.spool.work()
            elif what == 5:
                self.its.engine.save()
            elif what == 6:
                self.restart(chance.random() < 0.5)
            else:
                self.spool = Spool(self.folder, self.there, self.lines.append)
            if number % 40 == 39:
                self.site(f"s{number}")
                self.restart(True)
        self.answer = lambda line: None
        self.its.run(20)
        self.its.engine.close()
        self.spool.work()
        self.assertGreater(len(self.stored), 1_000)
        self.assertEqual(sorted(map(result_of, lines_of(self.there))), sorted(self.stored))
        self.assertEqual([path for path in self.there.iterdir() if not path.name.startswith("perfdata.")], [])
        self.assertEqual(self.its.store.figures()["unspooled"], 0)

    def test_a_folder_that_cant_be_written(self) -> None:
        """Checks continue. The log says so once, the figures since when, and what waited is written afterwards; beyond the limit it is counted as missed."""
        self.site()
        self.start()
        self.there.rmdir()
        with mock.patch.object(generations, "MOST_UNSPOOLED", 200):
            for _ in range(20):
                self.its.run(10)
                self.its.engine.save()
                self.spool.work()
        self.assertEqual(len(self.lines), 1)
        self.assertRegex(self.lines[0], "/spool isn't written, and is tried again: No such file or directory: correct its name, or make it$")
        self.assertLess(self.its.store.figures()["spooled_at"], BEGIN / 1000 + 10)
        self.there.mkdir()
        self.its.run(10)
        first = min(call.id for call in self.its.store.calls_since(0, 0))
        self.spool.work()
        came = [result_of(line) for line in lines_of(self.there)]
        begin = self.stored.index(came[0])
        self.assertEqual((came, begin > 20, len(came) > 50), (self.stored[begin : begin + len(came)], True, True))
        self.assertEqual([self.its.store.figures()["unspooled"], *self.lines[1:]], [
            first - 1, f"{first - 1} calls were dropped before their results could be written to {self.there}", f"{self.there} is written again"])
        self.assertLess(self.its.clock.wall() - self.its.store.figures()["spooled_at"], 1)

    def test_a_spool_that_nothing_reads(self) -> None:
        """Nothing is written beyond its limit; other files are counted, and stay."""
        self.site()
        self.start()
        (self.there / "_nagsched.other.17").write_text("x" * 3_000)
        (self.there / f"_nagsched.{self.folder.name}.x").write_text("")
        with mock.patch.object(perfdata, "MOST_BYTES", 2_000):
            self.its.run(30)
            self.spool.work()
        self.assertRegex(self.lines[0], "it has 0 MiB that nothing has read: start what reads it, or remove old files$")
        self.assertEqual((len(list(self.there.iterdir())), lines_of(self.there)), (2, []))
        self.its.run(10)
        self.spool.work()
        self.assertEqual((self.lines[1:], len(lines_of(self.there)) > 10, len(list(self.there.iterdir()))), ([f"{self.there} is written again"], True, 3))

    def test_a_spool_that_is_switched_off_for_a_while(self) -> None:
        """The results of that time aren't wanted, and aren't missed."""
        self.site()
        self.start()
        self.its.run(30)
        self.spool.work()
        before, stored = len(lines_of(self.there)), len(self.stored)
        self.assertEqual(before, len([result for result in self.stored if result in map(result_of, lines_of(self.there))]))
        now = self.its.clock.now
        self.its.close()
        other = SimulatedMonitor(self.folder, self.plugin, SimulatedClock(now))
        other.run(30)
        self.assertEqual(other.ask(do="spooled", call=other.store.last_call, missed=0)["error"][:4], "call")
        other.engine.close()
        other.close()
        self.start(SimulatedClock(other.clock.now))
        self.its.run(30)
        self.spool.work()
        self.assertEqual(self.its.store.figures()["unspooled"], 0)
        self.assertGreater(len(lines_of(self.there)), before + 5)
        self.assertEqual(stored > 0, True)

    def test_refused_requests(self) -> None:
        self.site()
        self.start()
        self.its.run(20)
        last = self.its.store.last_call
        wrong: List[Dict[str, Any]] = [{}, {"call": "1", "missed": 0}, {"call": last + 1, "missed": 0}, {"call": -1, "missed": 0}, {"call": last},
                                       {"call": 1.5, "missed": 0}]
        for members in wrong:
            self.assertIn("error", self.its.ask(do="spooled", **members), members)
        self.assertEqual(self.its.ask(do="spooled", call=last, missed=2), {"done": "spooled"})
        self.assertEqual([self.its.store.figures()[name] for name in ("spooled", "unspooled")], [last, 2])


class Form(SpoolTest):
    def test_states_and_times(self) -> None:
        """The state that each result left its object in: soft and hard, a host that is DOWN, and one behind it."""
        def plugin(name: str, moment: int) -> Tuple[int, int, str]:
            seconds = (moment - BEGIN) // 1000
            is_bad = 60 <= seconds < 300 if name != "web;ssh" else 440 <= seconds < 490
            return 2_000, 2 if is_bad else 0, f"it is so | t={seconds}s 'a b'=1;@1:2;~:5;0;U"

        setattr(self, "plugin", plugin)
        self.write_site([host("gate"), host("web", parents=["gate"])], [service("web", "http", max_check_attempts=2), service("web", "ssh", retry_interval=60)],
                        commands={**{name: {"line": "/bin/true -x secret"} for name in ("gate", "web", "web;http")}, "web;ssh": {"line": "true 'a  b'"}})
        self.start().run(620)
        self.its.engine.close()
        self.spool.work()
        lines = lines_of(self.there)
        self.assertEqual([list(line) for line in lines if line["DATATYPE"] == "SERVICEPERFDATA"][0], [
            "DATATYPE", "TIMET", "HOSTNAME", "SERVICEDESC", "SERVICEPERFDATA", "SERVICECHECKCOMMAND", "SERVICESTATE", "SERVICESTATETYPE"])
        self.assertEqual([list(line) for line in lines if line["DATATYPE"] == "HOSTPERFDATA"][0], [
            "DATATYPE", "TIMET", "HOSTNAME", "HOSTPERFDATA", "HOSTCHECKCOMMAND", "HOSTSTATE", "HOSTSTATETYPE"])
        came: Dict[str, List[str]] = {}
        for line in lines:
            name, data = result_of(line)
            what = "SERVICE" if ";" in name else "HOST"
            came.setdefault(name, []).append(f"{line[f'{what}STATE']} {line[f'{what}STATETYPE']}")
            self.assertRegex(data, r"^t=\d+s 'a b'=1;@1:2;~:5;0;U$")
            seconds = int(data[2 : data.index("s")])
            self.assertIn(int(line["TIMET"]) - BEGIN // 1000 - seconds, range(3), line)
            self.assertEqual(line[f"{what}CHECKCOMMAND"], "true")
        self.assertEqual({name: list(dict.fromkeys(states)) for name, states in came.items()}, {
            "gate": ["UP HARD", "DOWN SOFT", "DOWN HARD"], "web": ["UP HARD", "UNREACHABLE SOFT", "UNREACHABLE HARD"],
            "web;http": ["OK HARD", "CRITICAL HARD"], "web;ssh": ["OK HARD", "CRITICAL SOFT", "OK SOFT"]})
        self.assertEqual([came[name][-1] for name in came], ["UP HARD", "UP HARD", "OK HARD", "OK HARD"])

    def test_data(self) -> None:
        """On one line, without tabs; the last value of an output that is cut isn't whole."""
        self.assertEqual(performance_data("fine | a=1\nmore\nlines | b=2\nc=3"), "a=1 b=2 c=3")
        self.assertEqual([performance_data(words) for words in ("fine", "fine |", "|a=1", "a\n|b=1")], ["", "", "a=1", "b=1"])
        cut = performance_data(plain_text("x | " + " ".join(f"n{number}=1" for number in range(2_000))))
        self.assertRegex(cut, r"^(n\d+=1 )*n\d+=1$")


class Process(ProcessTest):
    def test_a_monitor_with_a_spool(self) -> None:
        """Also over a kill: each number that a plugin printed is in the spool once, until the last."""
        there = self.folder / "spool"
        there.mkdir()
        self.write_site(self.objects(1), [])
        self.write("commands.json", {"h00": {"line": f"echo x >> '{self.folder}/runs'; echo \"fine | n=$(wc -l < '{self.folder}/runs')\"", "shell": True}})
        for _ in range(2):
            running = self.start_monitor("--perfdata", str(there))
            before = len(lines_of(there))
            self.assertTrue(becomes_true(lambda: len(lines_of(there)) > before + 3))
            running.kill()
            running.communicate()
        came = [int(line["HOSTPERFDATA"][2:]) for line in lines_of(there)]
        self.assertEqual(sorted(set(came)), came)
        self.assertLessEqual(came[-1] - len(came), 2)
