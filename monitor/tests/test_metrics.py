"""The figures for Prometheus: each line by the rules of the text format, the sums of the histogram, and the file for node_exporter."""
import json
import re
import time
from typing import Dict, List, Tuple
from unittest import mock

from nagsched_monitor.model.text import performance_values, plain_text
from nagsched_monitor.outputs import metrics
from nagsched_monitor.outputs.metrics import family, label_value
from nagsched_monitor.store.counters import BOUNDS, RESULTS

from .shown_site import PageTest, fill_database, standing
from .simulated import SiteTest

NAME = r"[a-zA-Z_:][a-zA-Z0-9_:]*"
LABEL = r'[a-zA-Z_][a-zA-Z0-9_]*="(?:[^"\\\n]|\\["\\n])*"'
SAMPLE = re.compile(rf"({NAME})(?:\{{({LABEL}(?:,{LABEL})*)\}})? (-?\d+(?:\.\d+)?(?:e-?\d+)?)")
SUFFIXES = ("_bucket", "_sum", "_count")
Labels = Tuple[Tuple[str, str], ...]


def unescaped(text: str) -> str:
    return re.sub(r"\\(.)", lambda found: "\n" if found.group(1) == "n" else found.group(1), text)


class Families:
    """A text in the format, read line by line. Each family begins with its help and its type, and occurs once."""

    def __init__(self, text: str, site: str = "") -> None:
        self.site = site
        self.kinds: Dict[str, str] = {}
        self.helps: Dict[str, str] = {}
        self.samples: Dict[Tuple[str, Labels], float] = {}
        self.wrong: List[str] = []
        self._now = ""
        if not text.endswith("\n"):
            self.wrong.append("the last line has no end")
        for line in text.split("\n")[:-1]:
            self._line(line)

    def _line(self, line: str) -> None:
        words = line.split(" ", 3)
        if words[:2] == ["#", "HELP"] and words[2] not in self.helps and len(words) == 4:
            self._now, self.helps[words[2]] = words[2], words[3]
        elif words[:2] == ["#", "TYPE"] and words[2] == self._now and words[2] not in self.kinds and words[3] in ("counter", "gauge", "histogram"):
            self.kinds[words[2]] = words[3]
        else:
            self._sample(line)

    def _sample(self, line: str) -> None:
        found = SAMPLE.fullmatch(line)
        if found is None:
            self.wrong.append(line)
            return
        name, inner, value = found.groups()
        names = [name] if self.kinds.get(self._now) != "histogram" else [name[: -len(each)] for each in SUFFIXES if name.endswith(each)]
        labels = tuple((label, unescaped(text)) for label, text in re.findall(r'(\w+)="((?:[^"\\]|\\.)*)"', inner or ""))
        if self._now not in names or (name, labels) in self.samples or len({label for label, _ in labels}) != len(labels):
            self.wrong.append(line)
        self.samples[name, labels] = float(value)

    def of(self, name: str, **labels: str) -> float:
        return self.samples[name, (("site", self.site), *labels.items())]


class Metrics(PageTest):
    def families(self) -> Families:
        status, headers, text = self.request("/metrics")
        self.assertEqual((status, headers["content-type"]), (200, "text/plain; version=0.0.4; charset=utf-8"))
        families = Families(text, self.folder.name)
        self.assertEqual(families.wrong, [])
        self.assertEqual(sorted(families.kinds), sorted(families.helps))
        return families

    def test_a_site(self) -> None:
        now = time.time()
        objects = [standing("a"), standing("b", out_since=now), standing("c", "DOWN", "SOFT", next_check=now - 1)]
        objects += [standing("d", "PENDING", None, next_check=None), standing("e", 'a "state"\\\n', "HARD"), standing("f", is_on=False, next_check=now - 1)]
        figures = {"checks.OK": 7.0, "checks.given_up": 1.0, "calls": 3e9, "saves": 2.0, "saved_at": now - 30}
        figures |= {"late.0.05": 5.0, "late.0.25": 2.0, "late.more": 1.0, "late.sum": 61.5}
        fill_database(self.folder, objects, figures)
        self.serve()
        families = self.families()
        self.assertEqual({name: kind for name, kind in families.kinds.items() if kind != "gauge"}, {
            "nagsched_checks_total": "counter", "nagsched_calls_total": "counter", "nagsched_saves_total": "counter",
            "nagsched_check_latency_seconds": "histogram", "nagsched_faults_total": "counter", "nagsched_changes_aside_total": "counter",
            "nagsched_spool_missed_total": "counter", "nagsched_commands_refused_total": "counter",
        })
        self.assertEqual((families.of("nagsched_due"), families.of("nagsched_out")), (1, 1))
        self.assertEqual([families.of("nagsched_checks_total", result=result) for result in RESULTS], [7, 0, 0, 0, 0, 0, 0, 1, 0, 0])
        self.assertEqual((families.of("nagsched_calls_total"), families.of("nagsched_saves_total")), (3e9, 2))
        self.assertAlmostEqual(families.of("nagsched_seconds_since_save"), 30, delta=10)
        self.assertEqual(families.of("nagsched_objects", state="UP", kind="HARD"), 3)
        self.assertEqual(families.of("nagsched_objects", state="DOWN", kind="SOFT"), 1)
        self.assertEqual(families.of("nagsched_objects", state="PENDING", kind="NONE"), 1)
        self.assertEqual(families.of("nagsched_objects", state='a "state"\\\n', kind="HARD"), 1)
        self.assertEqual(sum(value for (name, _), value in families.samples.items() if name == "nagsched_objects"), len(objects))

    def test_the_histogram(self) -> None:
        """Each bucket includes the one before; the last is the count."""
        fill_database(self.folder, [], {"late.0.05": 5.0, "late.0.25": 2.0, "late.60": 4.0, "late.more": 1.0, "late.sum": 161.5})
        self.serve()
        families = self.families()
        name = "nagsched_check_latency_seconds"
        buckets = [families.of(f"{name}_bucket", le=bound) for bound in (*(f"{bound:g}" for bound in BOUNDS), "+Inf")]
        self.assertEqual(buckets, [5, 5, 7, 7, 7, 7, 7, 7, 7, 11, 12])
        self.assertEqual((families.of(f"{name}_count"), families.of(f"{name}_sum")), (12, 161.5))
        bounds = [dict(labels)["le"] for (sample, labels), _ in families.samples.items() if sample == f"{name}_bucket"]
        self.assertEqual(bounds, [*(f"{bound:g}" for bound in BOUNDS), "+Inf"])

    def test_each_object(self) -> None:
        """Its state with its groups. An unchecked object has none, and a soft or flapping one has one more series."""
        self.write("groups.json", {"web;http": {"host_groups": ["linux", "dmz"], "contacts": ["ada"]}})
        fill_database(self.folder, [
            standing("web"), standing("web;http", "UNKNOWN"), standing("web;disk", "WARNING", "SOFT"), standing("db", "UNREACHABLE", flapping=True),
            standing("new", "PENDING", None)])
        self.serve()
        families = self.families()
        states = {labels: value for (name, labels), value in families.samples.items() if name == "nagsched_state"}
        self.assertEqual(len(states), 4)
        self.assertEqual(families.of("nagsched_state", host="web", service="http", host_groups=",linux,dmz,", contacts=",ada,"), 3)
        self.assertEqual((families.of("nagsched_state", host="db"), families.of("nagsched_state", host="web")), (2, 0))
        self.assertEqual((families.of("nagsched_soft", host="web", service="disk"), families.of("nagsched_flapping", host="db")), (1, 1))
        self.assertEqual(sum(name in ("nagsched_soft", "nagsched_flapping") for name, _ in families.samples), 2)

    def test_performance_data(self) -> None:
        """The values of each object's last output, also of one that a list would cut. A scrape has each series once."""
        fill_database(self.folder, [
            standing("web", words="fine | rta=0.5ms;100;500;0 pl=0%;20;60"),
            standing("web;disk", "OK", words=f"{'x' * 600} | '/ \"a\\b'=-23,5%\nlong | more=2 more=3"),
            standing("web;odd", "OK", words="a | u=U 'it''s'=1e3c;;; big=1e999 version=1.2.3 no =4 x=5;@1:2 =6 'y=7"), standing("db", words="no values=1")])
        self.serve()
        found = {labels[1:]: value for (name, labels), value in self.families().samples.items() if name == "nagsched_perfdata"}
        self.assertEqual({tuple(text for _, text in labels): value for labels, value in found.items()}, {
            ("web", "", "rta", "ms"): 0.5, ("web", "", "pl", "%"): 0, ("web", "disk", '/ "a\\b', "%"): -23.5, ("web", "disk", "more", ""): 3,
            ("web", "odd", "it's", "c"): 1000, ("web", "odd", "x", ""): 5})
        self.assertEqual({tuple(label for label, _ in labels) for labels in found}, {("host", "service", "label", "unit")})

    def test_the_forms_of_performance_data(self) -> None:
        """Each form of the plugin guidelines: all units, quoted labels, thresholds as ranges, empty ones, no number; and outputs of usual plugins."""
        rows: List[Tuple[str, Dict[Tuple[str, str], float]]] = [
            ("a=1 b=2s c=3us d=4ms e=5% f=6B g=7KB h=8MB i=9TB j=10GB k=11c l=12GiB m=13\u00b0C", {
                ("a", ""): 1, ("b", "s"): 2, ("c", "us"): 3, ("d", "ms"): 4, ("e", "%"): 5, ("f", "B"): 6, ("g", "KB"): 7, ("h", "MB"): 8, ("i", "TB"): 9,
                ("j", "GB"): 10, ("k", "c"): 11, ("l", "GiB"): 12, ("m", "\u00b0C"): 13}),
            ("a=1;10;20;0;100 b=1;10:;~:20 c=1;@10:20;5:6;; d=1;;;0 e=1; f=-1;-5:-1;;-9;9", {(name, ""): -1 if name == "f" else 1 for name in "abcdef"}),
            ("'a b'=1 'it''s'=2ms;1 'C:\\ %'=3% '/=x'=4 ''=5 'open=6", {("a b", ""): 1, ("it's", "ms"): 2, ("C:\\ %", "%"): 3, ("/=x", ""): 4}),
            ("a=U b=U;1;2 c= d e=. f=1.2.3 g=1..2 h=1-2 i=nan j=inf k=.5 l=5. m=0,5s n=1e-3s", {
                ("k", ""): 0.5, ("l", ""): 5, ("m", "s"): 0.5, ("n", "s"): 0.001}),
            ("time=0.002722s;0.000000;0.000000;0.000000 size=1212B;;;0", {("time", "s"): 0.002722, ("size", "B"): 1212}),
            ("/=2643MB;5948;5958;0;5968 /boot=68MB;88;93;0;98", {("/", "MB"): 2643, ("/boot", "MB"): 68}),
            ("rta=0.080000ms;3000.000000;5000.000000;0.000000 pl=0%;80;100;0", {("rta", "ms"): 0.08, ("pl", "%"): 0}),
            ("load1=0.000;5.000;10.000;0; users=4;20;50;0", {("load1", ""): 0, ("users", ""): 4})]
        for data, values in rows:
            self.assertEqual(performance_values(f"fine | {data}"), values, data)

    def test_performance_data_that_is_cut(self) -> None:
        """The last value of an output that was cut isn't whole."""
        words = plain_text("a | " + " ".join(f"n{number}={number}12345678" for number in range(1_000)))
        fill_database(self.folder, [standing("web", words=words)])
        self.serve()
        values = [value for (name, _), value in self.families().samples.items() if name == "nagsched_perfdata"]
        self.assertEqual(values, [float(f"{number}12345678") for number in range(len(values))])
        self.assertGreater(len(values), 200)

    def test_signs_of_life(self) -> None:
        """While the monitor gives no answer, only the facts in the database."""
        now = time.time()
        fill_database(self.folder, [], {"written_at": now - 100, "faults": 2.0, "overdue": 4.0, "overdue_by": 1.5})
        self.serve()
        families = self.families()
        self.assertEqual((families.of("nagsched_up"), families.of("nagsched_last_turn_timestamp_seconds")), (0, now - 100))
        self.assertEqual([families.of(f"nagsched_{name}") for name in ("faults_total", "overdue", "overdue_seconds")], [2, 4, 1.5])
        self.assertFalse([name for name, _ in families.samples if "stuck" in name or "waiting" in name])
        runners = {"local": {"running": 3, "wanted": 4, "stuck": 1, "waiting": 0, "left": 2}}
        signs = {"turn": now - 7, "is_stuck": True, "passive_waiting": 5, "changes_waiting": 6, "oldest_change": 7.5, "runners": runners,
                 "overdue": 5, "overdue_by": 2.5}
        with mock.patch.object(metrics, "send_request", return_value=json.dumps(signs).encode()):
            families = self.families()
        self.assertEqual([families.of(f"nagsched_{name}") for name in ("up", "stuck", "passive_waiting", "changes_waiting", "oldest_change_seconds", "overdue",
                                                                   "overdue_seconds")], [1, 1, 5, 6, 7.5, 5, 2.5])
        self.assertEqual(families.of("nagsched_last_turn_timestamp_seconds"), now - 7)
        self.assertEqual([families.of(f"nagsched_{name}", runner="local") for name in ("runners", "runners_wanted", "runners_stuck", "runner_waiting",
                                                                                       "left_processes")], [3, 4, 1, 0, 2])

    def test_nothing_yet(self) -> None:
        """A site whose monitor has counted nothing has all families; if no state was saved, there are no seconds since."""
        fill_database(self.folder, [])
        self.serve()
        families = self.families()
        self.assertEqual(len(families.kinds), 31)
        self.assertEqual([name for name, _ in families.samples if "since_save" in name], [])


class Format(SiteTest):
    def test_escaping(self) -> None:
        for text in ("plain", '"', "\\", "\n", '\\n"\n\\', "ä", "{}=,"):
            families = Families("\n".join(family("x", "gauge", "Some help.", [("", {"a": text, "b": text}, 1.5)], text)) + "\n")
            self.assertEqual((families.wrong, families.samples), ([], {("x", (("site", text), ("a", text), ("b", text))): 1.5}))
            self.assertEqual(unescaped(label_value(text)), text)


class Textfile(SiteTest):
    def test_a_file(self) -> None:
        """It exists while its process works, as a whole; if the database can't be read, it stays as it was."""
        fill_database(self.folder, [standing("web")])
        file = self.folder / "nagsched.prom"
        seen: List[List[str]] = []

        def is_ended(seconds: float) -> bool:
            seen.append(Families(file.read_text()).wrong)
            (self.folder / "monitor.db").write_text("this is no database")
            return len(seen) == 3

        with mock.patch.object(metrics, "ParentMonitor") as made:
            made().is_ended, made().arguments = is_ended, [str(self.folder), str(file)]
            self.assertEqual(metrics.main(), 0)
            self.assertEqual((seen, file.exists(), made().log.call_count), ([[]] * 3, False, 1))
