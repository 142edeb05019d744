"""A site's database as a page reads it, filled by the test."""
import html.parser
import http.client
import json
import pathlib
import threading
import time
from typing import Any, Dict, List, Optional, Sequence, Tuple

from nagsched_monitor.model.remarks import Remark
from nagsched_monitor.outputs.page import Server, SiteFolder
from nagsched_monitor.store.generations import begin_generations
from nagsched_monitor.store.remark_table import store_remark
from nagsched_monitor.store.rows import Generation, StoredChange, StoredStanding
from nagsched_monitor.store.store import Store, delete, store_change, store_figures, store_standings

from .simulated import SiteTest


def standing(name: str, state: str = "UP", kind: Optional[str] = "HARD", words: str = "fine", **others: Any) -> Dict[str, Any]:
    """An object that has had this standing for an hour, and is checked again in five minutes."""
    now = time.time()
    usual: Dict[str, Any] = {
        "name": name, "state": state, "kind": kind, "attempt": 1, "flapping": False, "since": now - 3600, "hard_since": now - 3600, "last_check": now - 5.0,
        "next_check": now + 300, "is_on": True, "out_since": None, "took": 0.25, "late": 0.125, "words": words,
    }
    return {**usual, **others}


def fill_database(folder: pathlib.Path, standings: List[Dict[str, Any]], figures: Optional[Dict[str, float]] = None,
                  changes: Tuple[StoredChange, ...] = (), remarks: Sequence[Remark] = (), setup: Optional[Dict[str, Any]] = None) -> None:
    """A database with these objects, and what belongs to them."""
    store = Store(folder)
    store.write(
        delete("standings", "TRUE"),
        store_standings([StoredStanding(**it) for it in standings]),
        store_figures({"written_at": time.time(), **(figures or {})}),
        *(store_change(change, None) for change in changes),
        *(store_remark(remark) for remark in remarks),
        *([] if setup is None else [begin_generations([Generation(0, json.dumps(setup).encode(), round(time.time() * 1000), None, 0)])]),
    )
    store.close()


VOID = ("meta", "input")


class Reader(html.parser.HTMLParser):
    """Reads a page: its tables row by row, its texts, and each tag with its attributes. Tags have to be closed in reverse order."""

    def __init__(self, text: str) -> None:
        super().__init__()
        self.open: List[str] = []
        self.tags: List[Tuple[str, Dict[str, Optional[str]]]] = []
        self.tables: List[List[List[str]]] = []
        self.headings: List[str] = []
        self.sections: Dict[str, List[List[str]]] = {}
        self.texts: List[str] = []
        self.wrong: List[str] = []
        self.feed(text)
        self.close()

    def handle_starttag(self, tag: str, attrs: List[Tuple[str, Optional[str]]]) -> None:
        self.tags.append((tag, dict(attrs)))
        if tag not in VOID:
            self.open.append(tag)
        if tag == "table":
            self.tables.append([])
            self.sections.setdefault(self.headings[-1], self.tables[-1])
        elif tag == "tr" and "tbody" in self.open:
            self.tables[-1].append([])
        elif tag == "td":
            self.tables[-1][-1].append("")
        elif tag in ("h1", "h2"):
            self.headings.append("")

    def handle_endtag(self, tag: str) -> None:
        if not self.open or self.open.pop() != tag:
            self.wrong.append(tag)

    def handle_data(self, data: str) -> None:
        self.texts.append(data)
        if "td" in self.open:
            self.tables[-1][-1][-1] += data
        if {"h1", "h2"} & {*self.open}:
            self.headings[-1] += data

    def rows(self, heading: str) -> List[List[str]]:
        """The rows of the first table after a heading that begins like this."""
        return self.sections.get(next((each for each in self.headings if each.startswith(heading)), ""), [])

    def links(self) -> List[str]:
        return [str(attributes["href"]) for tag, attributes in self.tags if tag == "a"]


def store_site(folder: pathlib.Path, setup: Dict[str, Any], standings: List[StoredStanding], *changes: StoredChange,
               remarks: Sequence[Remark] = ()) -> None:
    """The database of a monitor with this setup and these standings."""
    store = Store(folder)
    store.write(begin_generations([Generation(1, json.dumps(setup).encode(), 0, None, 0)]), store_standings(standings), *map(store_change, changes),
                delete("remarks", "TRUE"), *map(store_remark, remarks))
    store.close()


class PageTest(SiteTest):
    """A test with a server over the folder of a site."""

    def serve(self) -> None:
        self.server = Server(("127.0.0.1", 0), SiteFolder(self.folder, "http://alerts.example.org/"))
        self.port = int(self.server.server_address[1])
        thread = threading.Thread(target=self.server.serve_forever, args=(0.05,), daemon=True)
        thread.start()
        self.addCleanup(self.server.server_close)
        self.addCleanup(self.server.shutdown)

    def request(self, path: str, method: str = "GET", **headers: str) -> Tuple[int, Dict[str, str], str]:
        """Status, headers by their names in small letters, and text of an answer."""
        connection = http.client.HTTPConnection("127.0.0.1", self.port, timeout=30)
        try:
            connection.request(method, path, headers=headers)
            answer = connection.getresponse()
            return answer.status, {name.lower(): value for name, value in answer.getheaders()}, answer.read().decode()
        finally:
            connection.close()

    def read(self, path: str = "/") -> Reader:
        status, headers, text = self.request(path)
        self.assertEqual((status, headers["content-type"]), (200, "text/html; charset=utf-8"))
        reader = Reader(text)
        self.assertEqual((reader.wrong, reader.open), ([], []))
        return reader
