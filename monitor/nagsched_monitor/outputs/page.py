"""The pages of a site for a browser, its status as data, and its figures for Prometheus: a separate process, which reads the database and writes nothing.

Its arguments are its address, the site's folder, Alertmanager's address or nothing, and the names by which it is reached. It asks nobody for a password, so
use an address that others reach only in a trusted network. A request whose `Host` is neither an address nor one of the names is refused: another site's
page can make a browser send one."""
import collections
import contextlib
import datetime
import functools
import http.server
import ipaddress
import json
import pathlib
import socket
import threading
import urllib.parse
from http import HTTPStatus
from typing import Any, Callable, Dict, Optional, Sequence, Tuple, Union

from ..faults import MonitorFault, SiteFault, raising
from ..site.json_files import members_by_name
from ..site.people_files import GROUPS, INVENTORY, WatchedFile, read_groups, read_inventory
from ..site.site import read_options
from ..system.addresses import parse_address
from ..system.processes import ParentMonitor
from ..system.thread_server import LONGEST_REQUEST, ThreadServer
from . import metrics
from .html_pages import all_page, object_page, problems_page
from .html_parts import HEADERS, View
from .status_query import MEMBERS, ObjectStatus, SiteStatus, StatusUnavailable, open_database, read_object, read_site_status

PATIENCE = 5  # how long a client may send nothing, in seconds
AT_ONCE = 2  # the documents that are made at once: each takes a processor for up to a second in a large site
HTML, JSON, METRICS, PLAIN = "text/html; charset=utf-8", "application/json", "text/plain; version=0.0.4; charset=utf-8", "text/plain; charset=utf-8"


def is_allowed_host(given: str, names: Sequence[str]) -> bool:
    """Whether a `Host` is an address, localhost, or one of these names; the port doesn't matter."""
    name = given.strip().lower()
    name = name[1:].partition("]")[0] if name.startswith("[") else name.partition(":")[0]
    with contextlib.suppress(ValueError):
        ipaddress.ip_address(name)
        return True
    return name.rstrip(".") in ("localhost", *names)


class Handler(http.server.BaseHTTPRequestHandler):
    """One request. The connection is closed after its answer."""

    timeout = PATIENCE
    server: "Server"

    def do_GET(self) -> None:
        if not is_allowed_host(self.headers.get("Host", "localhost"), self.server.names):  # older clients send none
            return self.send_error(HTTPStatus.MISDIRECTED_REQUEST)
        path, _, query = self.path.partition("?")
        try:
            with self.server.free:
                document = self.server.site.document(path, query)
        except StatusUnavailable as fault:
            return self._send(HTTPStatus.SERVICE_UNAVAILABLE, PLAIN, f"{fault}\n")
        if document is None:
            return self.send_error(HTTPStatus.NOT_FOUND)
        self._send(HTTPStatus.OK, *document)

    do_HEAD = do_GET

    def _send(self, status: HTTPStatus, kind: str, body: str) -> None:
        data = body.encode(errors="replace")
        self.send_response(status)
        for name, value in {**HEADERS, "Content-Type": kind, "Content-Length": str(len(data)), "Connection": "close"}.items():
            self.send_header(name, value)
        if status == HTTPStatus.METHOD_NOT_ALLOWED:
            self.send_header("Allow", "GET, HEAD")
        self.end_headers()
        if self.command != "HEAD":
            self.connection.settimeout(LONGEST_REQUEST)
            self.wfile.write(data)

    def send_error(self, code: int, message: Optional[str] = None, explain: Optional[str] = None) -> None:
        """A refusal: one line, which contains nothing that came with the request."""
        self.close_connection = True
        status = HTTPStatus.METHOD_NOT_ALLOWED if code == HTTPStatus.NOT_IMPLEMENTED else HTTPStatus(code)
        self._send(status, PLAIN, f"{status.value} {status.phrase}\n")

    def version_string(self) -> str:
        return "nagsched-monitor"

    def log_message(self, format: str, *args: Any) -> None:
        """Requests aren't logged."""


@functools.lru_cache(maxsize=64)
def attempts_of(setup: bytes) -> Dict[str, int]:
    """The attempts after which a problem is hard, by the setup of a part."""
    return {name: its["max_check_attempts"] for name, its in members_by_name(json.loads(setup)).items()}


class SiteFolder:
    def __init__(self, folder: pathlib.Path, alertmanager: str = "") -> None:
        self._folder, self._name, self._alertmanager = folder, folder.resolve().name, alertmanager
        self._groups, self._inventory = WatchedFile(folder / GROUPS, read_groups), WatchedFile(folder / INVENTORY, read_inventory)
        self._zone: Optional[datetime.tzinfo] = None

    def document(self, path: str, query: str) -> Optional[Tuple[str, str]]:
        """The kind and the text of the resource at a path; None if there is nothing. Raises `StatusUnavailable` if the database can't be read."""
        groups, given = self._groups.read(), urllib.parse.parse_qs(query)
        if path == "/":
            return HTML, problems_page(self._view(status := read_site_status(self._folder)), status, given.get("group", [""])[0])
        if path == "/all":
            return HTML, all_page(self._view(status := read_site_status(self._folder)), status, {name: values[0] for name, values in given.items()})
        if path == "/status.json":
            return JSON, json.dumps(metrics.status_document(read_site_status(self._folder), groups, self._name), ensure_ascii=False) + "\n"
        if path == "/metrics":
            return METRICS, metrics.metrics(read_site_status(self._folder, members=MEMBERS), groups, metrics.read_signs(self._folder), self._name)
        if path == "/object" and len(given.get("name", ())) == 1 and (found := read_object(self._folder, given["name"][0])) is not None:
            return HTML, object_page(self._view(found), found, self._alertmanager)
        return None

    def _view(self, status: Union[SiteStatus, ObjectStatus]) -> View:
        with contextlib.suppress(SiteFault):  # while the file is faulty, the zone stays
            self._zone = read_options(self._folder).zone
        with open_database(self._folder) as database:
            attempts = collections.ChainMap(*(attempts_of(setup) for (setup,) in database.execute("SELECT setup FROM generations")))
        return View(self._name, status.now, self._zone, attempts, self._groups.read(), self._inventory.read())


class Server(ThreadServer):
    def __init__(self, place: Tuple[str, int], site: SiteFolder, names: Sequence[str] = (), log: Callable[[str], None] = print) -> None:
        self.address_family = socket.AF_INET6 if ":" in place[0] else socket.AF_INET
        self.site, self.names = site, [name.lower() for name in names]
        self.free = threading.BoundedSemaphore(AT_ONCE)
        super().__init__(place, Handler, "the page", log)

    def url(self) -> str:
        host, port = str(self.server_address[0]), self.server_address[1]
        return f"http://{f'[{host}]' if ':' in host else host}:{port}/"


def main() -> int:
    monitor = ParentMonitor()
    place, folder, alertmanager, *names = monitor.arguments
    with raising(SystemExit, f"the page on {place}", MonitorFault):
        server = Server(parse_address(place), SiteFolder(pathlib.Path(folder), alertmanager), names, monitor.log)
    monitor.log(f"the page is at {server.url()}")
    return server.run(monitor)
