"""Pictures of the page in a browser, for people to look at, and promtool's report about the figures.

    cd monitor; python3 -m tests.page_pictures FOLDER

Quiet, an outage, a site of 500 services, all objects, a host and a service, each on a wall, a desk and a phone, light and dark. page.png is the picture of
README, which belongs in docs. It has the checksum of the page that it shows, so test_page_picture tells when it has to be drawn again. Missing programs are
named.
"""
import hashlib
import itertools
import json
import pathlib
import random
import re
import shutil
import struct
import subprocess
import sys
import tempfile
import threading
import time
import unittest.mock
import urllib.request
import zlib
from typing import Any, Dict, List, Optional, Sequence, Tuple

from nagsched_monitor.model.remarks import Remark
from nagsched_monitor.outputs.page import Server, SiteFolder
from nagsched_monitor.store.rows import StoredChange

from .shown_site import fill_database, standing

BROWSERS = ("chromium-headless-shell", "chrome-headless-shell", "chromium", "google-chrome")
SERVICES = {
    "http": "HTTP OK: HTTP/1.1 200 OK - 10975 bytes in 0.042 second response time |time=0.042s;;;0 size=10975B",
    "disk /": "DISK OK - free space: / 21034 MiB (63% inode=91%)|/=12010MiB;28000;31000;0;34000",
    "load": "OK - load average: 0.12, 0.20, 0.18",
    "certificate": "OK - Certificate 'example.org' will expire on 2027-02-11 09:13 +0000/UTC.",
}
PING = "PING OK - Packet loss = 0%, RTA = 0.80 ms|rta=0.8ms;100;500;0 pl=0%;20;60"
UNREACHABLE = "CRITICAL - Host Unreachable (10.0.3.17)"
Objects = Dict[str, Dict[str, Any]]
SIZES = {"wall": (1920, 1080), "desk": (1280, 900), "phone": (390, 1400)}
COLOURS = {"light": "--blink-settings=preferredColorScheme=1", "dark": "--blink-settings=preferredColorScheme=0"}
FACTS = {"web-00": {"alias": "the shop", "address": "10.0.3.17", "notes": "rack 7", "notes_url": "https://wiki.example.org/web-00"}}
GROUPS = {"web-00": {"host_groups": ["web"], "contacts": ["ada"]}, "web-00;http": {"service_groups": ["shop"], "contact_groups": ["web-team"]}}
# The moment that README's picture shows, and what comes before the checksum in the picture.
SHOWN_AT = 1_796_115_600.0
MARK = b"tEXtpage\0"


def quiet(hosts: int) -> Objects:
    """A site on which all is well, with four services per host."""
    chance, now = random.Random(3), time.time()
    objects: Objects = {}
    for number in range(hosts):
        host = f"{('web', 'db')[number % 2]}-{number // 2:02}"
        for name, state, words in ((host, "UP", PING), *((f"{host};{service}", "OK", words) for service, words in SERVICES.items())):
            objects[name] = standing(name, state, words=words, since=now - chance.uniform(1e4, 9e5), next_check=now + chance.uniform(1, 300))
    return objects


def outage() -> Tuple[Objects, List[StoredChange]]:
    """A host and its services are down, one below it can't be reached, and there are a few problems elsewhere. The host was down before on this day."""
    now, objects = time.time(), quiet(24)
    wrong = [("web-00", "DOWN", "HARD", 2400, UNREACHABLE), ("web-01", "UNREACHABLE", "HARD", 2300, UNREACHABLE)]
    wrong += [(f"web-00;{service}", "CRITICAL", "HARD", 2350 + len(service), "connect to address 10.0.3.17: No route to host") for service in SERVICES]
    wrong += [
        ("db-01;disk /", "WARNING", "HARD", 90_000, "DISK WARNING - free space: / 3034 MiB (9% inode=91%)|/=31010MiB;28000;31000;0;34000"),
        ("db-00;load", "UNKNOWN", "HARD", 700, "NRPE: Unable to read output"),
        ("db-02;http", "CRITICAL", "SOFT", 45, "CRITICAL - Socket timeout after 10 seconds"),
        ("db-03;http", "WARNING", "SOFT", 12, "HTTP WARNING: HTTP/1.1 403 Forbidden - 291 bytes in 0.002 second response time"),
    ]
    for name, state, kind, ago, words in wrong:
        hard = now - ago + 60 if kind == "HARD" else now - 9e5
        objects[name].update(state=state, kind=kind, attempt=3 if kind == "HARD" else 1, since=now - ago, hard_since=hard, words=words)
    objects["db-02;http"].update(flapping=True)
    objects["web-02;http"].update(out_since=now - 3, next_check=None)
    objects["db-04"].update(out_since=now - 1, next_check=None)
    objects["db-04;disk /"].update(is_on=False)
    objects["db-05;load"].update(state="PENDING", since=None, hard_since=None, last_check=None, words="")
    day = [(80_000, "DOWN", "SOFT"), (79_000, "DOWN", "HARD"), (70_000, "UP", "HARD"), (52_000, "UNREACHABLE", "HARD"), (49_000, "UP", "HARD")]
    day += [(20_000, "DOWN", "SOFT"), (17_000, "UP", "SOFT"), (2_400, "DOWN", "SOFT"), (2_340, "DOWN", "HARD")]
    changes: List[StoredChange] = []
    for ago, state, kind in day:
        words = PING if state == "UP" else UNREACHABLE
        changes.append(StoredChange(len(changes) + 1, now - ago, "web-00", state, kind, 3 if kind == "HARD" and state != "UP" else 1, False, words))
    return objects, changes


def said() -> List[Remark]:
    """An acknowledgement, and a downtime of a host with its services."""
    now = time.time()
    return [
        Remark(1, "acknowledgement", "db-01;disk /", "ada", "a disk is ordered", now - 80_000, now - 80_000, state="WARNING"),
        Remark(2, "downtime", "db-00", "ben", "new kernel", now - 4_000, now - 1_000, now + 2_600),
    ]


def fill(site: pathlib.Path, objects: Objects, kept: Sequence[StoredChange]) -> None:
    hosts = [{"name": name, "max_check_attempts": 3} for name in objects if ";" not in name]
    services = [{"host": name.partition(";")[0], "description": name.partition(";")[2], "max_check_attempts": 3} for name in objects if ";" in name]
    (site / "inventory.json").write_text(json.dumps(FACTS))
    (site / "groups.json").write_text(json.dumps(GROUPS))
    fill_database(site, list(objects.values()), figures(len(objects)), tuple(kept), said() if kept else (), {"hosts": hosts, "services": services})


def figures(count: int) -> Dict[str, float]:
    """Figures of a monitor that keeps pace with this many objects."""
    return {
        "checks_a_second": count / 300, "latest_start": 0.81, "latest_start_lately": 0.06, "calls": 81234, "saves": 12, "saved_at": time.time() - 77,
        "checks.OK": 70000, "checks.UP": 9000, "checks.DOWN": 31, "late.0.05": 60000, "late.0.1": 19000, "late.1": 31, "late.sum": 3011.5,
    }


def drawn(browser: str, url: str, size: Tuple[int, int], picture: pathlib.Path, colours: str = COLOURS["light"]) -> None:
    """A picture of a page. Each browser has a home of its own."""
    with tempfile.TemporaryDirectory() as home:
        words = [browser, "--headless", "--no-sandbox", "--disable-gpu", "--hide-scrollbars", f"--user-data-dir={home}", f"--window-size={size[0]},{size[1]}"]
        subprocess.run([*words, colours, f"--screenshot={picture}", url], stdout=subprocess.DEVNULL, stderr=subprocess.DEVNULL, timeout=120, check=True)


def readme_page(folder: pathlib.Path) -> str:
    """The page of an outage at a fixed moment, over a site that is written to this folder."""
    site = folder / "office"
    site.mkdir()
    (site / "monitor.json").write_text('{"zone": "UTC"}')
    with unittest.mock.patch("time.time", return_value=SHOWN_AT):
        objects, kept = outage()
        fill(site, objects, kept)
        found = SiteFolder(site).document("/", "")
    assert found is not None
    return found[1]


def checksum(page: str) -> bytes:
    return hashlib.sha256(page.encode()).hexdigest().encode()


def checksum_in(picture: bytes) -> Optional[bytes]:
    """The checksum of the page that a picture shows."""
    found = re.search(re.escape(MARK) + b"([0-9a-f]{64})", picture)
    return found[1] if found else None


def with_checksum(picture: bytes, of: bytes) -> bytes:
    """A PNG with a checksum as a text before its last chunk."""
    text = MARK + of
    chunk = struct.pack(">I", len(text) - 4) + text + struct.pack(">I", zlib.crc32(text))
    return picture[:-12] + chunk + picture[-12:]


def draw_readme(browser: str, picture: pathlib.Path) -> None:
    """README's picture, in 32 colours."""
    with tempfile.TemporaryDirectory() as folder:
        page = readme_page(pathlib.Path(folder))
        shown = pathlib.Path(folder) / "page.html"
        shown.write_text(page)
        drawn(browser, shown.as_uri(), (1280, 880), picture)
    small = subprocess.run(["pngquant", "32", "-"], input=picture.read_bytes(), stdout=subprocess.PIPE, timeout=60, check=True).stdout
    picture.write_bytes(with_checksum(small, checksum(page)))


def complaints(url: str) -> None:
    """promtool's report about the figures: nothing, if they are right."""
    with urllib.request.urlopen(f"{url}metrics", timeout=30) as answer:
        checked = subprocess.run(["promtool", "check", "metrics"], input=answer.read(), stdout=subprocess.PIPE, stderr=subprocess.STDOUT, check=False)
    print(f"promtool ended with {checked.returncode}: {checked.stdout.decode() or 'no complaint'}")


def main() -> int:
    folder = pathlib.Path(sys.argv[1]).resolve()
    found = [browser for browser in BROWSERS if shutil.which(browser)]
    moments: List[Tuple[str, Tuple[Objects, List[StoredChange]]]] = [("quiet", (quiet(6), [])), ("outage", outage()), ("campus", (quiet(125), []))]
    for name, (objects, kept) in moments:
        site = folder / name
        site.mkdir(parents=True, exist_ok=True)
        fill(site, objects, kept)
        server = Server(("127.0.0.1", 0), SiteFolder(site))
        threading.Thread(target=server.serve_forever, daemon=True).start()
        others = {"all": "all", "host": "object?name=web-00", "service": "object?name=web-00%3Bhttp"}
        for place, colours, (page, path) in itertools.product(SIZES, COLOURS, {name: "", **(others if kept else {})}.items()):
            if found:
                drawn(found[0], server.url() + path, SIZES[place], folder / f"{page}-{place}-{colours}.png", COLOURS[colours])
        if kept and shutil.which("promtool"):
            complaints(server.url())
        server.shutdown()
        server.server_close()
    if found and shutil.which("pngquant"):
        draw_readme(found[0], folder / "page.png")
    for what, there in (("a browser", bool(found)), ("pngquant", shutil.which("pngquant") is not None), ("promtool", shutil.which("promtool") is not None)):
        if not there:
            print(f"passed over: {what} isn't here")
    return 0


if __name__ == "__main__":
    sys.exit(main())
