"""A site with each kind of object, group and remark, whose database the test fills, and a client of its Livestatus."""
import json
import pathlib
import socket
import threading
import time
from typing import Any, Dict, List, Sequence

from nagsched_monitor.model.remarks import Remark
from nagsched_monitor.outputs.livestatus import Server
from nagsched_monitor.store.rows import StoredChange, StoredStanding

from .shown_site import standing, store_site
from .simulated import SiteTest
from .waiting import exchange

NOW = 1_795_766_400
HOSTS = {"gate": [], "web": ["gate"], "db": ["gate"]}
SERVICES = ("web;http", "web;load", "db;disk", "db;backup job")
ALWAYS = {"weekdays": {"monday": ["00:00-24:00"], "tuesday": ["00:00-24:00"], "wednesday": ["00:00-24:00"], "thursday": ["00:00-24:00"],
                       "friday": ["00:00-24:00"], "saturday": ["00:00-24:00"], "sunday": ["00:00-24:00"]}}


def ask(path: pathlib.Path, text: str, is_all: bool = True) -> str:
    """The answer to these lines, after which the client sends nothing more, or waits."""
    with socket.socket(socket.AF_UNIX) as connection:
        connection.settimeout(30)
        connection.connect(str(path))
        return exchange(connection, text.encode(errors="surrogateescape"), is_all).decode()


class LivestatusTest(SiteTest):
    """A test with the server over the folder of a site. What the server logs is in `lines`."""

    def setUp(self) -> None:
        super().setUp()
        self.lines: List[str] = []
        self.path = self.folder / "live"
        self.write_files()
        self.fill()

    def write_files(self) -> None:
        self.write("commands.json", {name: {"line": f"/usr/lib/plugins/check_{name[:2]} -p secret"} for name in (*HOSTS, *SERVICES)})
        self.write("periods.json", {"periods": {"always": ALWAYS, "never": {}}, "objects": {"web": "always", "web;http": "never"}})
        self.write("passive.json", {"db;backup job": {"only": True}})
        self.write("groups.json", {
            "web": {"host_groups": ["linux"], "contacts": ["ada"], "contact_groups": ["web-team"]}, "db": {"host_groups": ["dbs", "linux"]},
            "web;http": {"service_groups": ["shop"], "contact_groups": ["web-team"], "notifications": {"period": "always", "interval": 3600}},
            "db;disk": {"service_groups": ["shop"], "contacts": ["cem"], "notifications": {"enabled": False}},
        })
        self.write("inventory.json", {
            "web": {"alias": "Web server", "address": "192.0.2.7", "notes": "room 3", "notes_url": "https://wiki/web", "icon_image": "linux.png",
                    "custom": {"RACK": "7", "LAT": "52.1"}},
            "web;http": {"display_name": "Web site", "action_url": "https://graphs/web"},
        })
        self.write("directory.json", {
            "host_groups": {"linux": {"alias": "Linux servers", "notes": "all"}, "empty": {}},
            "contact_groups": {"web-team": {"alias": "Web team", "members": ["ada", "bob"]}},
            "contacts": {"ada": {"alias": "Ada L", "email": "ada@example.org"}},
        })

    def fill(self, *remarks: Remark, changes: Sequence[StoredChange] = (), **others: Any) -> None:
        """Writes the database. Of `others`, each replaces members of the object `db;disk`."""
        setup = {"options": {"interval_length": 10},
                 "hosts": [{"name": name, "parents": parents, "check_interval": 6, "max_check_attempts": 3} for name, parents in HOSTS.items()],
                 "services": [{"host": host, "description": description, "check_interval": 6, "max_check_attempts": 3}
                              for host, _, description in (name.partition(";") for name in SERVICES)]}
        of_disk: Dict[str, Any] = {"words": "CRITICAL - 99% \u00fcber|/=99%;80;90\nmore\nlines", "attempt": 3, "flapping": True, "took": 0.5, "late": 0.25,
                                   "state": "CRITICAL", **others}
        standings = [standing(name) for name in HOSTS]
        standings += [standing("web;http", "OK", words="HTTP OK|time=0.1s"), standing("web;load", "WARNING", "SOFT", words="load 7", attempt=2),
                      standing("db;disk", **of_disk), standing("db;backup job", "PENDING", words="", is_on=False, last_check=None, next_check=None)]
        store_site(self.folder, setup, [StoredStanding(**it) for it in standings], *changes, remarks=remarks)

    def serve(self) -> None:
        self.server = Server(self.path, self.folder, True, self.lines.append)
        thread = threading.Thread(target=self.server.serve_forever, args=(0.05,), daemon=True)
        thread.start()
        self.addCleanup(self.server.server_close)
        self.addCleanup(self.server.shutdown)

    def ask(self, *lines: str) -> str:
        return ask(self.path, "".join(f"{line}\n" for line in (*lines, "")))

    def rows(self, *lines: str) -> List[List[Any]]:
        """The answer as data."""
        found: List[List[Any]] = json.loads(self.ask(*lines, "OutputFormat: json"))
        return found

    def refused(self, code: int, *lines: str) -> str:
        """Why these lines are refused, with this code, also in the fixed form."""
        framed = self.ask(*lines, "ResponseHeader: fixed16")
        self.assertEqual((framed[:4], int(framed[4:15]), framed[15]), (f"{code} ", len(framed[16:].encode()), "\n"), lines)
        return framed[16:]


def remark(number: int, kind: Any, name: str, **others: Any) -> Remark:
    now = time.time()
    usual: Dict[str, Any] = {"author": "ann", "text": "known", "made_at": now - 60, "starts_at": now - 60, "ends_at": None}
    return Remark(number, kind, name, **{**usual, **others})
