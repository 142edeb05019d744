"""The second opinion beside a real Nagios, on a site with outages, passive results, reloads, restarts and rotated files.

    cd monitor; python3 -m tests.packages_hour PROGRAM FOLDER [SECONDS]

For Debian's package nagios4; root runs it, and Nagios runs as its own user. FOLDER has Nagios's files and the reports afterwards. SECONDS is 3,600
by default. Two runs of the tool follow Nagios, one for each way in which Nagios can write its results. At the end both files are read once more.
"""
import argparse
import os
import pathlib
import random
import re
import shutil
import signal
import subprocess
import sys
import time
from typing import Callable, Iterator, List, Optional, Tuple

from .packages_hour_site import LIMIT, ROUTERS, TOOL, WAYS, Outages, Site


class Nagios:
    """The daemon, in the foreground."""

    def __init__(self, site: Site) -> None:
        self.site = site
        self.running: Optional["subprocess.Popen[bytes]"] = None

    def start(self) -> None:
        with (self.site.folder / "output").open("ab") as output:
            self.running = subprocess.Popen(["/usr/sbin/nagios4", str(self.site.folder / "nagios.cfg")], stdin=subprocess.DEVNULL, stdout=output,
                                            stderr=output, user="nagios", group="nagios", extra_groups=[], start_new_session=True)

    def send(self, number: int) -> None:
        if self.running is not None:
            self.running.send_signal(number)

    def stop(self, number: int = signal.SIGTERM) -> None:
        """Ends it, and those of its workers that it leaves."""
        if self.running is not None:
            self.running.send_signal(number)
            self.running.wait(timeout=LIMIT)
            try:
                os.killpg(self.running.pid, signal.SIGKILL)
            except ProcessLookupError:
                pass

    def command(self, *words: object) -> None:
        """Sends an external command, if Nagios listens."""
        try:
            pipe = os.open(self.site.folder / "nagios.cmd", os.O_WRONLY | os.O_NONBLOCK)
        except OSError:
            return
        try:
            os.write(pipe, f"[{int(time.time())}] {';'.join(map(str, words))}\n".encode())
        finally:
            os.close(pipe)


def send_commands(nagios: Nagios, site: Site, now: int) -> None:
    """What operators and other programs send: passive results, forced checks, switches."""
    chance = site.chance
    if now % 7 == 0:
        name = chance.choice(site.passive if chance.random() < 0.8 else site.services)
        nagios.command("PROCESS_SERVICE_CHECK_RESULT", name, chance.choice((0, 0, 1, 2, 3)), "passive|x=1")
    if now % 45 == 0:
        nagios.command("PROCESS_HOST_CHECK_RESULT", chance.choice(site.hosts[ROUTERS:]), chance.choice((0, 0, 1, 2)), "passive|x=1")
    if now % 11 == 0:
        nagios.command("SCHEDULE_FORCED_SVC_CHECK", chance.choice(site.services), now)
    if now % 13 == 0:
        nagios.command("SCHEDULE_SVC_CHECK", chance.choice(site.services), now + chance.randint(-5, 20))
    if now % 37 == 0:
        nagios.command("SCHEDULE_FORCED_HOST_CHECK", chance.choice(site.hosts), now)
    if now % 120 == 0:
        nagios.command("DISABLE_SVC_CHECK", site.services[now // 120 % 100])
    if now % 120 == 100:
        nagios.command("ENABLE_SVC_CHECK", site.services[now // 120 % 100])


# ---- what happens to Nagios and its files


def truncate(site: Site, nagios: Nagios) -> None:
    """Rotates the results as logrotate does by copytruncate."""
    for way in WAYS:
        shutil.copy(site.results(way), site.folder / f"results-{way}.1")
        os.truncate(site.results(way), 0)


def reload(site: Site, nagios: Nagios) -> None:
    nagios.send(signal.SIGHUP)


def change(site: Site, nagios: Nagios) -> None:
    """Renames the results as logrotate does, and reloads a changed configuration."""
    shutil.copy(site.folder / "objects.cache", site.folder / "objects.before")
    for way in WAYS:
        site.results(way).rename(site.folder / f"results-{way}.2")
    site.write_objects(is_changed=True)
    nagios.send(signal.SIGHUP)


def restart(site: Site, nagios: Nagios) -> None:
    nagios.stop()
    time.sleep(5)
    nagios.start()


def kill(site: Site, nagios: Nagios) -> None:
    nagios.stop(signal.SIGKILL)
    nagios.start()


def freeze(site: Site, nagios: Nagios) -> None:
    nagios.send(signal.SIGSTOP)
    time.sleep(100)
    nagios.send(signal.SIGCONT)


# When each happens, as a part of the whole time.
EVENTS: Tuple[Tuple[float, Callable[[Site, Nagios], None]], ...] = (
    (0.1, truncate), (0.25, reload), (0.4, change), (0.55, restart), (0.7, kill), (0.85, freeze))


# ---- the tool


def words_of(program: str, site: Site, *words: object) -> List[str]:
    return [sys.executable, str(TOOL), "--program", program, "--late", "20", "--all", *map(str, words)]


def followers(program: str, site: Site) -> Iterator["subprocess.Popen[bytes]"]:
    """A run of the tool for each way. It begins as soon as Nagios has written its files."""
    for way in WAYS:
        end = time.time() + LIMIT
        while not (site.results(way).exists() and (site.folder / "objects.cache").exists()) and time.time() < end:
            time.sleep(1)
        with (site.folder / f"followed-{way}").open("wb") as output:
            yield subprocess.Popen(words_of(program, site, "--follow", "--page", site.folder / f"followed-{way}.html", site.folder / "nagios.cfg", site.results(way)),
                                   stdout=output, stderr=output)


def play(program: str, site: Site, seconds: int) -> None:
    """Lets Nagios run with all that happens to it, and the tool beside it."""
    nagios, outages, events, beside = Nagios(site), Outages(site), list(EVENTS), []
    nagios.start()
    try:
        beside = list(followers(program, site))
        begun = time.time()
        while (now := time.time()) < begun + seconds:
            outages.turn(now)
            send_commands(nagios, site, int(now))
            if events and now > begun + events[0][0] * seconds:
                print(f"{time.strftime('%H:%M:%S')} {events[0][1].__name__}", flush=True)
                events.pop(0)[1](site, nagios)
            time.sleep(max(0.0, int(now) + 1.2 - time.time()))
    finally:
        nagios.stop()
        time.sleep(2)
        for run in beside:
            run.terminate()
        for run in beside:
            run.wait(timeout=LIMIT)


def replay(program: str, site: Site) -> None:
    """Reads the files of each way once more: those before the changed configuration, and those after it."""
    for way in WAYS:
        for part, objects, ends in (("earlier", "objects.before", (".1", ".2")), ("later", "objects.cache", ("",))):
            files = [path for path in (site.folder / f"results-{way}{end}" for end in ends) if path.exists()]
            with (site.folder / f"{part}-{way}").open("wb") as output:
                subprocess.run(words_of(program, site, "--objects", site.folder / objects, "--page", site.folder / f"{part}-{way}.html",
                                        site.folder / "nagios.cfg", *files), stdout=output, stderr=output, timeout=600, check=False)


def main() -> int:
    parser = argparse.ArgumentParser(description="Runs the second opinion beside a real Nagios.")
    parser.add_argument("program")
    parser.add_argument("folder", type=pathlib.Path)
    parser.add_argument("seconds", nargs="?", type=int, default=3600)
    options = parser.parse_args()
    signal.signal(signal.SIGTERM, signal.default_int_handler)  # so that Nagios is ended, too
    site = Site(options.folder.resolve(), random.Random(options.seconds))
    play(options.program, site, options.seconds)
    replay(options.program, site)
    status = 0
    for name in (f"{kind}-{way}" for kind in ("followed", "earlier", "later") for way in WAYS):
        told = (site.folder / name).read_text(errors="replace")
        found = re.search(r"^ +(\d+)  unexplained$", told, re.M)
        status = status if found and found[1] == "0" else 1
        print(f"{name}: {found[1] if found else 'no'} unexplained")
    return status


if __name__ == "__main__":
    sys.exit(main())
