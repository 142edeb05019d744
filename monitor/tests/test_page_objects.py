"""The page of a host or a service, and that of all objects: filters, pages of it, its size, and what a screen reader reads."""
import re
import time
import urllib.parse
from typing import Any, Counter, Dict, List, Tuple
from unittest import mock

from nagsched_monitor.model.remarks import Remark
from nagsched_monitor.outputs import page
from nagsched_monitor.outputs.html_pages import CHOICES, MOST_ROWS
from nagsched_monitor.outputs.html_parts import STYLE
from nagsched_monitor.outputs.status_query import SiteStatus, read_site_status
from nagsched_monitor.store.rows import StoredChange

from .page_pictures import fill, outage
from .shown_site import PageTest, fill_database, standing
from .test_page import names_of
from .work_count import CountedName, check_growth, work_of

HEADING = "All hosts and services"


class AnObject(PageTest):
    def test_its_day(self) -> None:
        """From the last change before it; each stretch is as long as its state lasted."""
        now = time.time()
        changes = (
            StoredChange(1, now - 90_000, "h", "DOWN", "HARD", 3, False, "no answer"),
            StoredChange(2, now - 43_200, "h", "UP", "HARD", 1, False, "there again"),
            StoredChange(3, now - 7_200, "other", "DOWN", "HARD", 1, False, "of another"),
            StoredChange(4, now - 3_600, "h", "DOWN", "SOFT", 1, True, "again"),
        )
        fill_database(self.folder, [standing("h", "DOWN", "SOFT", words="gone | rta=0.5ms used=8123456512B\nsince noon")], {}, changes)
        self.serve()
        reader = self.read("/object?name=h")
        self.assertEqual(reader.rows("Performance data"), [["rta", "0.5 ms"], ["used", "8123456512 B"]])
        self.assertEqual(("gone\nsince noon" in reader.texts, "|" in "".join(reader.texts)), (True, False))
        widths = [(attributes["class"], round(float(str(attributes["width"])[:-1]), 1)) for tag, attributes in reader.tags if tag == "rect"]
        self.assertEqual(widths, [("down", 50.0), ("up", 45.8), ("down", 4.2)])
        self.assertEqual([row[1:] for row in reader.rows("The last day")], [["DOWN soft flapping", "1", "again"], ["UP", "1", "there again"]])
        self.assertNotIn("of another", "".join(reader.texts))
        titles = [text for text in reader.texts if " to " in text and ": " in text]
        self.assertEqual([text.partition(": ")[2] for text in titles], ["DOWN no answer", "UP there again", "DOWN soft again"])

    def test_a_day_of_which_nothing_is_known(self) -> None:
        fill_database(self.folder, [standing("h", since=time.time() - 21_600), standing("new", "PENDING", None, since=None, next_check=None)])
        self.serve()
        for name, wanted in (("h", [("none thin", "75.000%"), ("up", "25.000%")]), ("new", [("none thin", "100.000%")])):
            reader = self.read(f"/object?name={name}")
            came = [(attributes["class"], attributes["width"]) for tag, attributes in reader.tags if tag == "rect"]
            self.assertEqual([each for each, _ in came], [each for each, _ in wanted])
            for (_, width), (_, its) in zip(came, wanted):
                self.assertAlmostEqual(float(str(width)[:-1]), float(its[:-1]), delta=0.01)

    def pairs(self, path: str) -> Dict[str, str]:
        """The terms of a page with their texts."""
        found = re.findall("<dt>(.*?)</dt><dd>(.*?)</dd>", self.request(path)[2])
        return {name: re.sub("<.*?>", "", text) for name, text in found}

    def test_what_belongs_to_it(self) -> None:
        """Its host and services, attempt, facts and remarks. Only addresses of the web are links."""
        now = time.time()
        self.write("inventory.json", {"h": {"alias": "the shop", "address": "192.0.2.7", "notes": "rack 7", "notes_url": "https://wiki/h",
                                             "action_url": "/x"}})
        remarks = [Remark(1, "acknowledgement", "h;a", "ada", "a disk is ordered", now, now), Remark(3, "comment", "h;b", "eve", "not here", now, now),
                   Remark(2, "downtime", "h", "ben", "new kernel", now, now, now + 600)]
        objects = [standing("h", "DOWN", attempt=3), standing("h;a", "CRITICAL", "SOFT", attempt=2), *(standing(name, "OK") for name in ("h;b", "hh;c", "g;a"))]
        fill_database(self.folder, objects, remarks=remarks, setup={
            "hosts": [{"name": "h", "max_check_attempts": 3}], "services": [{"host": "h", "description": "a", "max_check_attempts": 4}]})
        self.serve()
        host, service = self.read("/object?name=h"), self.read("/object?name=h%3Ba")
        self.assertEqual((names_of(host.rows("Services: 2")), host.headings[0], service.headings[0]), (["h;a", "h;b"], "h DOWN", "a on h CRITICAL soft"))
        pairs = self.pairs("/object?name=h")
        self.assertEqual([pairs.get(name) for name in ("Attempt", "Alias", "Address", "Notes", "More notes", "Actions", "Host")],
                         ["3/3", "the shop", "192.0.2.7", "rack 7", "https://wiki/h", "/x", None])
        self.assertEqual([link for link in host.links() if not link.startswith("/")], ["https://wiki/h", *[each for each in host.links() if "silence" in each]])
        pairs = self.pairs("/object?name=h%3Ba")
        self.assertEqual([pairs[name] for name in ("Host", "Attempt", "Check duration", "Check latency")], ["h DOWN", "2/4", "0.250 s", "0.125 s"])
        texts = "".join(service.texts)
        self.assertRegex(texts, r"Acknowledgement since \S+( \S+ \S+)? by ada: a disk is ordered")
        self.assertRegex(texts, r"Downtime since .* until .* by ben: new kernel")
        self.assertNotIn("not here", texts)

    def test_when_it_is_checked(self) -> None:
        now = time.time()
        date = r"^\d\d \w{3} (\d{4} )?\d\d:\d\d$"
        rows: List[Tuple[Dict[str, Any], str]] = [
            ({"out_since": now - 4, "next_check": None}, "^runs since .* [4-9] s$"), ({"is_on": False}, "^off$"), ({"next_check": now - 10}, "^due since "),
            ({"next_check": None}, "^none$"), ({"next_check": now + 86400 * 40}, date), ({"next_check": 1e15}, "^never$"),
            ({"next_check": -1e300}, "long ago$")]
        fill_database(self.folder, [standing(f"h{number}", **members) for number, (members, _) in enumerate(rows)])
        self.serve()
        for number, (_, wanted) in enumerate(rows):
            self.assertRegex(self.pairs(f"/object?name=h{number}")["Next check"], wanted)
        checked = [row[5].partition(" ")[2] if row[5][2] == ":" else row[5][13:] for row in self.read("/all").rows(HEADING)]
        self.assertEqual(checked[:3], ["running", "checks off", ""])

    def test_a_silence(self) -> None:
        """The page of a problem leads to the form for a silence, with the labels that stay while it lasts."""
        fill_database(self.folder, [standing("web;load 5", "WARNING"), standing("web")])
        self.serve()
        matchers = f'{{site="{self.folder.name}",host="web",service="load 5"}}'
        link = f'<a href="http://alerts.example.org/#/silences/new?filter={urllib.parse.quote(matchers, safe="")}">Silence it</a>'
        self.assertIn(link, self.request("/object?name=web%3Bload%205")[2])
        self.assertNotIn("silence", self.request("/object?name=web")[2])


class AllObjects(PageTest):
    def names(self, **query: str) -> List[str]:
        return names_of(self.read(f"/all?{urllib.parse.urlencode(query)}").rows(HEADING))

    def test_filters(self) -> None:
        now = time.time()
        self.write("groups.json", {"web": {"host_groups": ["linux"]}, "db;sql": {"service_groups": ["linux"]}})
        self.write("inventory.json", {"db": {"alias": "Big Store", "address": "192.0.2.7"}})
        objects = [standing("web", out_since=now), standing("web;http", "CRITICAL", flapping=True), standing("db", "DOWN"), standing("db;sql", "CRITICAL"),
                   standing("db;new", "PENDING", None, is_on=False)]
        fill_database(self.folder, objects, remarks=[
            Remark(1, "downtime", "db", "ada", "so", now, now - 1, now + 60), Remark(2, "acknowledgement", "web;http", "ada", "so", now, now)])
        self.serve()
        rows = {"all": ["db", "db;new", "db;sql", "web", "web;http"], "problems": ["db", "db;sql", "web;http"], "unhandled problems": [],
                "acknowledged": ["web;http"], "in downtime": ["db", "db;sql"], "flapping": ["web;http"], "running": ["web"], "checks off": ["db;new"]}
        self.assertEqual([*rows], [*CHOICES[: len(rows)]])
        for show, names in {**rows, "": rows["all"], "CRITICAL": ["db;sql", "web;http"], "PENDING": ["db;new"], "nonsense": []}.items():
            self.assertEqual(self.names(show=show), names, show)
        for text, names in {"WEB": ["web", "web;http"], "192.0": ["db"], "big": ["db"], ";": ["db;new", "db;sql", "web;http"], "x": []}.items():
            self.assertEqual(self.names(text=text), names, text)
        self.assertEqual((self.names(group="linux"), self.names(group="linux", show="problems", text="s")), (["db;sql", "web"], ["db;sql"]))
        self.assertEqual([row[0] for row in self.read("/all").rows(HEADING)], [
            "DOWN downtime", "PENDING downtime", "CRITICAL downtime", "UP", "CRITICAL flapping ack"])

    def test_pages(self) -> None:
        """Each object is on one page, and each page leads to the next with its filter."""
        fill_database(self.folder, [standing(f"h{number:04}") for number in range(2 * MOST_ROWS + 5)] + [standing("x")])
        self.serve()
        path, found = "/all?text=h", []
        for _ in range(3):
            reader = self.read(path)
            found += names_of(reader.rows(HEADING))
            path = next((link for link in reader.links() if link == f"/all?text=h&page={len(found) // MOST_ROWS + 1}"), "")
        self.assertEqual(found, [f"h{number:04}" for number in range(2 * MOST_ROWS + 5)])
        self.assertIn(f"{2 * MOST_ROWS + 1} to {2 * MOST_ROWS + 5} of {2 * MOST_ROWS + 5}", reader.texts)
        for number, first in (("0", 0), ("-1", 0), ("x", 0), ("9" * 5_000, 0), ("99", 200), ("2", 100)):
            self.assertEqual(self.names(page=number, text="h")[0], f"h{first:04}", number)

    def test_its_size(self) -> None:
        """With 20,000 objects no page has 100 kB, also while a third of them are problems with long texts; and it is made without all texts."""
        words = "CRITICAL - connect to address 192.0.2.7 and port 443: No route to host " * 9 + "| time=0.1s;1;2 size=10975B"
        states = ("OK", "CRITICAL", "WARNING", "OK", "OK", "UNKNOWN")
        names = [f"host-{number:04}.example.org" for number in range(1_000)]
        self.write("groups.json", {name: {"host_groups": [f"group {number % 400}", "all"]} for number, name in enumerate(names)})
        fill_database(self.folder, [standing(name) for name in names] + [
            standing(f"{name};service number {number}", states[(place + number) % 6], words=words) for place, name in enumerate(names) for number in range(19)])
        self.serve()
        for path in ("/", "/all", "/all?show=problems&page=70", "/?group=all", f"/object?name={names[7]}"):
            size = len(self.request(path)[2].encode())
            self.assertTrue(2_000 < size < 100_000, (path, size))


class Accessible(PageTest):
    def test_structure(self) -> None:
        """One first heading, which comes before the others; a language, a title, landmarks, and tables whose heads have a scope. Fields have labels."""
        objects, changes = outage()
        fill(self.folder, objects, changes)
        self.serve()
        for path in ("/", "/all", "/object?name=web-00", "/object?name=web-00%3Bhttp"):
            reader = self.read(path)
            tags = [tag for tag, _ in reader.tags]
            self.assertEqual([tag for tag in tags if tag in ("h1", "h2", "h3")][0], "h1")
            self.assertEqual([tags.count(tag) for tag in ("h1", "header", "main", "h3")], [1, 1, 1, 0])
            self.assertIn(("html", {"lang": "en"}), reader.tags)
            self.assertTrue(all(attributes.get("scope") == "col" for tag, attributes in reader.tags if tag == "th"))
            self.assertEqual(tags.count("nav"), sum(tag == "nav" and bool(attributes.get("aria-label")) for tag, attributes in reader.tags))
            self.assertEqual(tags.count("label"), tags.count("input") + tags.count("select"))
            self.assertTrue(all(attributes.get("aria-label") for tag, attributes in reader.tags if tag == "svg"))
            self.assertFalse([text for text in reader.texts if text.strip() in ("here", "more")])

    def test_contrast(self) -> None:
        """At least 4.5 to 1, in both colour schemes and in each badge."""
        def light(colour: str) -> float:
            digits = colour[1:] if len(colour) == 7 else "".join(2 * digit for digit in colour[1:])
            parts = [int(digits[place : place + 2], 16) / 255 for place in (0, 2, 4)]
            red, green, blue = (part / 12.92 if part <= 0.04045 else float(((part + 0.055) / 1.055) ** 2.4) for part in parts)
            return 0.2126 * red + 0.7152 * green + 0.0722 * blue

        def contrast(one: str, other: str) -> float:
            return (max(light(one), light(other)) + 0.05) / (min(light(one), light(other)) + 0.05)

        schemes = [dict(re.findall(r"--(\w+):(#\w+)", inner)) for inner in re.findall(r":root\{([^}]*)\}", STYLE)]
        badges = re.findall(r"\.(\w+)\{--c:(#\w+)\}", STYLE)
        self.assertEqual((len(schemes), len(badges)), (2, 6))
        pairs = [(its[text], its[back]) for its in schemes for text in ("text", "faint", "link") for back in ("back", "card")]
        pairs += [("#fff" if name == "down" else "#111", colour) for name, colour in badges]
        self.assertGreaterEqual(min(contrast(*pair) for pair in pairs), 4.5)


def with_counted_names(status: SiteStatus) -> SiteStatus:
    """The status of a site, with names that count their comparisons."""
    return status._replace(objects=[it._replace(name=CountedName(it.name)) for it in status.objects])


class Measured(PageTest):
    def work(self, count: int) -> Counter[str]:
        """What is done to make the pages of this many objects, of which a quarter are problems."""
        words = "PING OK - Packet loss = 0%, RTA = 0.80 ms | rta=0.8ms;100;500 pl=0%;20;60"
        fill_database(self.folder, [standing(f"host-{number:04};disk <root>", "OK" if number % 4 else "CRITICAL", words=words) for number in range(count)])
        site = page.SiteFolder(self.folder)
        with mock.patch.object(page, "read_site_status", lambda folder: with_counted_names(read_site_status(folder))):
            return work_of(lambda: (site.document("/", ""), site.document("/all", "show=problems")))

    def test_4096_objects(self) -> None:
        check_growth(self, self.work, 39)
