"""The second opinion as README and its page have it: their lines, one after another, by a normal user, on Debian's Nagios.

    cd monitor; python3 -m tests.packages_opinion PROGRAM

For a machine that can be thrown away, with Debian's packages nagios4 and sudo; root runs it. The user and the clone are those of packages_trial.py. Nagios
runs with the packaged configuration; without systemd as the first process it is started as its unit does. The line that follows Nagios runs for some
minutes, and its report must have results and no unexplained one.
"""
import pathlib
import re
import shutil
import signal
import subprocess
import sys
import tempfile
import time
from typing import List, Optional

from .packages_trial import END, IS_BOOTED, START, TOP, USER, Trial, lines_of, prepare, refuse, remove

CONFIG, RESULTS, PAGE = pathlib.Path("/etc/nagios4/nagios.cfg"), pathlib.Path("/var/log/nagios4/results"), pathlib.Path("/tmp/day.html")
OBJECTS, RUN = pathlib.Path("/var/lib/nagios4/objects.cache"), pathlib.Path("/run/nagios4")
FOLLOWED = 300  # seconds in which the first objects of the packaged configuration are checked


def opinion_lines() -> List[str]:
    """README's lines that install, and those of the page."""
    installing = re.search("<!-- repository: install -->(.*?)<!-- end -->", (TOP / "README.md").read_text(encoding="utf-8"), re.S)
    if installing is None:
        sys.exit("packages_opinion: README has no part about the repository that is called install: name the part here")
    return [*lines_of(installing[1]), *lines_of((TOP / "docs/second-opinion.md").read_text(encoding="utf-8"))]


class Opinion(Trial):
    """The lines, and the Nagios that they are about."""

    nagios: "Optional[subprocess.Popen[bytes]]" = None

    def start_nagios(self) -> None:
        """Starts Nagios as its unit does."""
        if IS_BOOTED:
            subprocess.run(["systemctl", "start", "nagios4"], check=True, timeout=END)
            return
        RUN.mkdir(exist_ok=True)
        shutil.chown(RUN, "nagios", "nagios")
        self.nagios = self.start(["/usr/sbin/nagios4", str(CONFIG)], "nagios", self.work / "nagios")
        end = time.monotonic() + START
        while not OBJECTS.exists() and time.monotonic() < end:
            time.sleep(0.2)

    def follow(self, line: str) -> None:
        """Runs a line of a page."""
        print(f"$ {line}", flush=True)
        if "systemctl" in line and not IS_BOOTED and self.nagios is not None:
            self.nagios.send_signal(signal.SIGHUP)
            time.sleep(5)
        elif "--follow" in line:
            self.watch(line)
        else:
            self.run(line, ["bash", "-c", line], USER)
            if "--page" in line and not re.search(r" [1-9]\d*  results compared", PAGE.read_text(encoding="utf-8")):
                self.fail(line, "the page has no results")

    def watch(self, line: str) -> None:
        """Lets the tool follow Nagios for a while, ends it as Ctrl-C does, and reads its report."""
        output = self.work / "followed"
        running = self.start(["bash", "-c", f"exec {line}"], USER, output)
        time.sleep(FOLLOWED)
        self.stop(running, signal.SIGINT)
        told = output.read_text(encoding="utf-8")
        print("".join(f"  {each}\n" for each in told.splitlines()), end="", flush=True)
        found = re.findall(r"^ +(\d+)  (results compared|unexplained)", told, re.M)
        if running.returncode != 0 or [what for count, what in found if (count == "0") == (what == "unexplained")] != ["results compared", "unexplained"]:
            self.fail(line, f"status {running.returncode}, and not some results without an unexplained one")


def main(program: str) -> int:
    refuse()
    if RESULTS.exists():
        sys.exit(f"packages_opinion: {RESULTS} is there: this needs a machine without a second opinion")
    config = CONFIG.read_bytes()
    with tempfile.TemporaryDirectory() as holder:
        opinion = Opinion(pathlib.Path(holder))
        try:
            prepare(program)
            opinion.start_nagios()
            for line in opinion_lines():
                opinion.follow(line)
        finally:
            opinion.stop(opinion.nagios, signal.SIGTERM)
            CONFIG.write_bytes(config)
            RESULTS.unlink(missing_ok=True)
            PAGE.unlink(missing_ok=True)
            remove(opinion.work)
    print("".join(f"{line}\n" for line in opinion.wrong) + f"opinion: {len(opinion_lines()) - len(opinion.wrong)} lines passed, {len(opinion.wrong)} failed")
    return 1 if opinion.wrong else 0


if __name__ == "__main__":
    sys.exit(main(sys.argv[1]))
