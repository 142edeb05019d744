"""The pages of a site: problems and single objects. No text of a site becomes a tag, and the monitor's own state comes first."""
import contextlib
import io
import json
import time
import urllib.parse
from typing import Any, Dict, List, Tuple

from nagsched_monitor.model.remarks import Remark
from nagsched_monitor.outputs import html_parts
from nagsched_monitor.outputs.html_parts import LONGEST_TEXT
from nagsched_monitor.outputs.status_query import LONGEST_WORDS, SiteStatus
from nagsched_monitor.program import main
from nagsched_monitor.store.rows import StoredChange

from .shown_site import PageTest, Reader, fill_database, standing

EVIL = '"><script>alert(1)</script><img src=x onerror=\'alert(2)\'>&amp;'
UNHANDLED = "Unhandled problems"


def names_of(rows: List[List[str]]) -> List[str]:
    """The full names of the objects in rows."""
    return [";".join(filter(None, row[1:3])) for row in rows]


class Problems(PageTest):
    def test_the_order(self) -> None:
        """Hard before soft, by severity, and then the newest first. Each problem has its attempt, last check, and the time since which it is in its state."""
        now = time.time()
        fill_database(self.folder, [
            standing("soft", "DOWN", "SOFT", since=now - 9000, attempt=2, hard_since=now - 99999),
            standing("young", "DOWN", since=now - 500, hard_since=now - 60),
            standing("old", "DOWN", since=now - 7200, attempt=3, last_check=None), standing("far", "UNREACHABLE", since=now - 5),
            standing("fine", is_on=False), standing("fine;w", "WARNING", since=now - 1), standing("fine;c", "CRITICAL"), standing("fine;u", "UNKNOWN"),
            standing("fine;soft", "WARNING", "SOFT", since=now - 30, flapping=True, words="why | a=1\nmore"), standing("fine;waits", "PENDING", None),
        ], setup={"hosts": [{"name": "soft", "max_check_attempts": 4}, {"name": "old", "max_check_attempts": 3}]})
        self.serve()
        reader = self.read()
        rows = reader.rows(UNHANDLED)
        self.assertEqual(names_of(rows), ["young", "old", "fine;c", "far", "fine;u", "fine;w", "soft", "fine;soft"])
        self.assertEqual([row[0] for row in rows], ["DOWN", "DOWN", "CRITICAL", "UNREACHABLE", "UNKNOWN", "WARNING", "DOWN soft", "WARNING soft flapping"])
        self.assertEqual([row[4] for row in rows], ["1", "3/3", "1", "1", "1", "1", "2/4", "1"])
        self.assertTrue(rows[0][3].endswith(" 8 min"), rows[0][3])
        self.assertRegex(rows[0][5], r"^\d\d:\d\d:\d\d$|^\d\d \w{3} ")
        self.assertEqual((rows[1][5], rows[-1][6]), ("never", "why"))
        self.assertEqual(reader.headings[0], f"Problems of {self.folder.name}")
        self.assertTrue(any(text.startswith("8 problems: ") for text in reader.texts))

    def test_what_somebody_takes_care_of(self) -> None:
        """Acknowledged problems, and those in downtime, also by their host's, are apart; muted ones aren't. A remark that doesn't hold changes nothing."""
        now = time.time()
        objects = [standing(name, "DOWN") for name in ("ack", "down", "mute", "both", "nobody", "ended", "commented")] + [standing("down;http", "CRITICAL")]
        kinds: List[Tuple[Any, str, Any]] = [("acknowledgement", "ack", None), ("downtime", "down", now + 60), ("mute", "mute", None),
                                             ("acknowledgement", "both", None), ("downtime", "both", now + 60), ("downtime", "ended", now - 1),
                                             ("comment", "commented", None)]
        remarks = [Remark(number, kind, name, "ada", "so", now - 100, now - 100, end) for number, (kind, name, end) in enumerate(kinds, 1)]
        fill_database(self.folder, objects, remarks=remarks)
        self.serve()
        reader = self.read()
        for heading, names in ((UNHANDLED, ["commented", "ended", "mute", "nobody"]), ("Acknowledged", ["ack"]), ("In downtime", ["both", "down", "down;http"])):
            self.assertEqual(sorted(names_of(reader.rows(heading))), names)
            self.assertIn(f"{heading}: {len(names)}", reader.headings)
        self.assertEqual([row[0] for row in reader.rows(UNHANDLED) if row[1] == "mute"], ["DOWN muted"])

    def test_the_monitor_comes_first(self) -> None:
        """Its complaints, then how it keeps pace, then counts with links."""
        now = time.time()
        fill_database(self.folder, [standing("a", out_since=now), standing("b", next_check=now - 9), standing("b;s", "OK")], {
            "written_at": now - 600, "overdue": 3, "promised": 4, "overdue_by": 90, "spooled_at": now - 300, "checks_a_second": 2.5,
            "latest_start_lately": 0.25, "latest_start": 1.5})
        self.serve()
        reader = self.read()
        self.assertEqual(reader.headings, [f"Problems of {self.folder.name}", "Monitor", "Hosts and services", f"{UNHANDLED}: 0"])
        alarms = [text for text in reader.texts if text.endswith(("then.", "1 min.", "says why."))]
        self.assertEqual(alarms, ["The monitor has written nothing for 10 min: what is shown is how things stood then.",
                                  "3 of 4 objects have no result in time; the latest is overdue by 1 min.",
                                  "Performance data was last written 5 min ago: the monitor's log says why."])
        shown = "".join(reader.texts)
        self.assertIn("Checks per second2.50Check latency0.25 s 1.50 s at mostRunning checks1Waiting checks1", shown)
        self.assertIn("OK1UP2", shown)
        self.assertEqual([link for link in reader.links() if "show" in link], ["/all?show=running", "/all?show=OK", "/all?show=UP"])
        fill_database(self.folder, [standing("h")], {"overdue": 0, "spooled_at": now - 20})
        self.assertNotIn("alarm", self.request("/")[2].partition("</style>")[2])

    def test_no_problem(self) -> None:
        """The page never says that all is well: it may not know."""
        fill_database(self.folder, [standing("a"), standing("new", "PENDING", None)], {"overdue": 1, "promised": 2})
        self.serve()
        reader = self.read()
        self.assertEqual(([text for text in reader.texts if "problem" in text and text.endswith(".")], reader.rows(UNHANDLED)), (["No problem is known."], []))

    def test_silence_and_a_wrong_clock(self) -> None:
        """A monitor is silent by the time since the machine was started, wherever the clock is; by the clock if the machine was started again since."""
        for written, uptime, wanted in ((3_600, 0, False), (-3_600, 0, False), (3_600, -60, True), (-60, 1_000_000_000, True), (0, 1_000_000_000, False)):
            now = time.clock_gettime(time.CLOCK_BOOTTIME)
            status = SiteStatus(time.time(), [], {"written_at": time.time() + written, "uptime": now + uptime})
            self.assertEqual(status.silent_seconds() is not None, wanted, (written, uptime))

    def test_what_status_says(self) -> None:
        """The command `status` says too that results are missing."""
        fill_database(self.folder, [standing("a")], {"overdue": 3, "promised": 4})
        with contextlib.redirect_stdout(io.StringIO()), contextlib.redirect_stderr(io.StringIO()) as said:
            self.assertEqual(main.main([str(self.folder), "status"]), 0)
        self.assertEqual(said.getvalue(), "nagsched-monitor: 3 of 4 objects have no result in time: their states are old\n")

    def test_groups(self) -> None:
        """Each group with its number of problems; a page shows one group alone; an object's page names its own."""
        web = {"host_groups": ["x & y"], "service_groups": ["shop"], "contacts": ["ada"], "notifications": {"enabled": False, "period": "workhours"}}
        self.write("groups.json", {"a": {"host_groups": ["x & y"]}, "a;web": web})
        fill_database(self.folder, [standing("a"), standing("a;web", "CRITICAL"), standing("b", "DOWN")])
        self.serve()
        reader = self.read()
        groups = [["shop", "1", "1"], ["x & y", "1", "2"]]
        self.assertEqual(reader.rows("Groups: 2"), groups)
        link = next(link for link in reader.links() if link.startswith("/?group=x"))
        reader = self.read(link)
        self.assertEqual((names_of(reader.rows(UNHANDLED)), reader.headings[0]), (["a;web"], "Problems of x & y"))
        self.assertIn("/all?show=UP&group=x%20%26%20y", reader.links())
        self.assertEqual(len(self.read("/?group=none").tables), 0)
        texts = self.read("/object?name=a%3Bweb").texts
        self.assertEqual([word for word in ("ada", "none", "workhours", "x & y") if word in texts], ["ada", "none", "workhours", "x & y"])
        self.write("groups.json", "{")
        self.assertEqual(self.read().rows("Groups: 2"), groups)

    def test_the_zone(self) -> None:
        """Times are those of the site's zone; while its file is faulty, those of the zone before."""
        self.write("monitor.json", {"zone": "Asia/Kathmandu"})
        fill_database(self.folder, [standing("h")])
        self.serve()
        for document in ({"zone": "Asia/Kathmandu"}, "{"):
            self.write("monitor.json", document)
            self.assertTrue(any("+05:45" in text for text in self.read().texts))


class Texts(PageTest):
    def test_names_and_words_are_escaped(self) -> None:
        """No text of a site becomes a tag or an attribute, on any page; forbidden characters are replaced."""
        name, now = "h;" + EVIL, time.time()
        change = StoredChange(1, now - 3600, name, "CRITICAL", "HARD", 3, False, EVIL)
        self.write("inventory.json", {name: {"alias": EVIL, "notes": EVIL, "notes_url": "javascript:alert(3)", "action_url": f"https://x/{EVIL}"}})
        self.write("groups.json", {name: {"service_groups": [EVIL], "contacts": [EVIL]}})
        fill_database(self.folder, [standing(name, "CRITICAL", words=EVIL + "\x1b[31m\u202e\x00"), standing(EVIL, out_since=now)], {}, (change,),
                      [Remark(1, "comment", name, EVIL, EVIL, now, now)])
        self.serve()
        queries = urllib.parse.urlencode({"text": EVIL, "show": EVIL, "group": EVIL, "page": EVIL})
        for path in ("/", "/all", f"/all?{queries}", f"/?{queries}", "/object?name=" + urllib.parse.quote(name)):
            reader = self.read(path)
            self.assertFalse([tag for tag, _ in reader.tags if tag in ("script", "img")])
            self.assertFalse([attributes for _, attributes in reader.tags if any(each.startswith("on") for each in attributes)])
            self.assertFalse([link for link in reader.links() if not link.startswith(("/", "https://x/", "http://alerts"))])
            self.assertIn(EVIL, "".join(reader.texts) + "".join(str(attributes.get("value")) for _, attributes in reader.tags))
            self.assertFalse([text for text in reader.texts if "\x1b" in text or "\u202e" in text or "\x00" in text])
        link = next(link for link in self.read().links() if link.startswith("/object?name=h%3B"))
        self.assertEqual((urllib.parse.unquote(link), self.request(link)[0]), (f"/object?name={name}", 200))
        self.assertEqual({it["name"] for it in json.loads(self.request("/status.json")[2])["objects"]}, {name, EVIL})

    def test_nothing_from_elsewhere(self) -> None:
        fill_database(self.folder, [standing("h")])
        self.serve()
        for path, is_renewed in (("/", True), ("/object?name=h", True), ("/all", False)):  # a form that is filled in isn't renewed
            _, headers, text = self.request(path)
            reader = Reader(text)
            self.assertFalse([tag for tag, its in reader.tags if tag in ("link", "script", "img", "iframe") or "src" in its or "style" in its])
            self.assertTrue(all(link.startswith("/") for link in reader.links()), reader.links())
            self.assertTrue(headers["content-security-policy"].startswith("default-src 'none'; style-src 'sha256-"))
            self.assertEqual(headers["cache-control"], "no-store")
            self.assertIn(f"<style>{html_parts.STYLE}</style>", text)
            self.assertEqual(("meta", {"http-equiv": "refresh", "content": "15"}) in reader.tags, is_renewed)

    def test_long_words(self) -> None:
        """In lists they are cut; on the page of the object they are whole."""
        fill_database(self.folder, [standing("h", "DOWN", words="x" * 60_000)])
        self.serve()
        self.assertEqual(self.read().rows(UNHANDLED)[0][6], "x" * LONGEST_TEXT + "…")
        self.assertIn("x" * 60_000, self.read("/object?name=h").texts)
        self.assertEqual(json.loads(self.request("/status.json")[2])["objects"][0]["words"], "x" * LONGEST_WORDS + "…")


class Data(PageTest):
    def test_status(self) -> None:
        objects = [standing("h", out_since=5.0, next_check=None), standing("h;a", "CRITICAL", "SOFT", "bad", attempt=2, flapping=True, next_check=1.0)]
        fill_database(self.folder, objects, {"checks_a_second": 2.5, "latest_start": 0.75, "calls": 8})
        self.serve()
        status, headers, text = self.request("/status.json")
        came = json.loads(text)
        self.assertEqual((status, headers["content-type"], headers["content-length"]), (200, "application/json", str(len(text.encode()))))
        self.assertEqual(came["objects"], [{**it, "phase": None, "known": None} for it in objects])
        self.assertEqual((came["wrong"], came["out"], came["due"], came["is_silent"]), (["h;a"], 1, 1, False))
        self.assertEqual((came["checks_a_second"], came["latest_start"], came["calls"], came["saved_at"]), (2.5, 0.75, 8, None))
