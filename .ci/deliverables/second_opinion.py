#!/usr/bin/env python3
"""Tests the second opinion on a running Nagios, without Nagios: on results that Nagios 4.4.6 wrote, on wrong ones planted there, and on written ones.

    .ci/deliverables/second_opinion.py PROGRAM
"""
import gzip
import os
import pathlib
import random
import re
import signal
import subprocess
import sys
import tempfile
import time
import xml.dom.minidom

sys.path.append(str(pathlib.Path(__file__).resolve().parents[1] / "program"))
from harness import TOP, Harness

RECORDED = TOP / "conformance/nagios/recorded"
RELOAD, START = 1796084877, 1_800_000_000  # when the recorded Nagios was reloaded, and when written results begin
LIMIT = 300  # seconds for any run to end
HOST = "define host {{\n\thost_name\t{}\n\tmax_check_attempts\t3\n\tcheck_interval\t1\n\tretry_interval\t1\n\tactive_checks_enabled\t1\n\t}}\n"
SERVICE = HOST.replace("define host", "define service").replace("\tmax", "\tservice_description\t{}\n\tmax", 1)
STATUS = ("servicestatus {{\n\thost_name=h\n\tservice_description=s\n\tactive_checks_enabled=1\n\tlast_check={}\n\tnext_check={}\n\tis_flapping=0\n"
          "\tshould_be_scheduled=1\n\t}}\n")


class Folder:
    """A folder with Nagios's files."""

    def __init__(self, program: str, path: pathlib.Path, objects: str, unit: int) -> None:
        path.mkdir()
        self.program, self.path, self.config, self.results = program, path, path / "nagios.cfg", path / "results"
        (path / "objects.cache").write_text(objects)
        self.config.write_text(f"interval_length={unit}\n" + "".join(f"{option}={path / name}\n" for option, name in (
            ("object_cache_file", "objects.cache"), ("log_file", "nagios.log"), ("status_file", "status.dat"))))

    def command(self, *words: object) -> list[str]:
        return [sys.executable, str(TOP / "tools/second_opinion.py"), "--program", self.program, *map(str, words), str(self.config), str(self.results)]

    def report(self, text: str, *words: object) -> str:
        """The report about these results."""
        self.results.write_text(text)
        return subprocess.run(self.command("--all", *words), capture_output=True, text=True, timeout=LIMIT).stdout

    def follow(self) -> "subprocess.Popen[str]":
        """A run that follows the results, and has opened them."""
        run = subprocess.Popen(self.command("--follow", "--late", 30), stdout=subprocess.PIPE, text=True)
        end = time.monotonic() + LIMIT
        while run.poll() is None and time.monotonic() < end and str(self.results) not in open_files(run.pid):
            time.sleep(0.1)
        return run


def open_files(process: int) -> list[str]:
    """The files that a process has open."""
    links = pathlib.Path(f"/proc/{process}/fd")
    try:
        return [os.readlink(link) for link in links.iterdir()]
    except OSError:
        return []  # one was closed, or the process has ended


def counts(report: str) -> dict[str, int]:
    return {what: int(count) for count, what in re.findall(r"^ *(\d+)  (.+?)(?:, .*)?$", report, re.M)}


def harms(report: str, kind: str) -> set[tuple[str, str]]:
    """The objects of this kind of harm, and when their results were handled."""
    return set(re.findall(rf"^ +\S+ \S+  {kind}: (.+?), until (\S+):", report, re.M))


def line(name: str, at: int, standing: str, before: int, state: int, host: int = 0, took: float = 0.1, how: str = "stored", started: int = 0,
         change: int = 0) -> str:
    """A result that is handled at this second, by a Nagios that was started at that one. The change is the last one of states."""
    kind, attempt = standing.split()
    times = how, name, START + at, START + at - int(took), "0.000", f"{took:.3f}"
    words = *times, "ACTIVE", before, state, kind, attempt, "0.00", host if ";" in name else state, START + started, change, change
    return "\t".join(map(str, words)) + "\n"


def planted(text: str, seed: int) -> tuple[str, set[tuple[str, str]]]:
    """The results with 40 wrong verdicts, each of another object, and where they are."""
    chance, lines, wrong = random.Random(seed), text.splitlines(), {}
    while len(wrong) < 40:
        number = chance.randrange(len(lines) // 2, len(lines))
        words, how = lines[number].split("\t"), chance.choice(("kind", "attempt", "both", "state"))
        if words[1] in wrong or how == "state" and (";" in words[1] or words[8] == "0" or words[6] == "PASSIVE"):
            continue
        words[9] = {"SOFT": "HARD", "HARD": "SOFT"}[words[9]] if how in ("kind", "both") else words[9]
        words[10] = str(chance.choice([attempt for attempt in range(1, 6) if attempt != int(words[10])])) if how in ("attempt", "both") else words[10]
        if how == "state":
            words[8] = words[12] = {"1": "2", "2": "1"}[words[8]]
        lines[number] = "\t".join(words)
        wrong[words[1]] = time.strftime("%H:%M:%S", time.localtime(int(words[2])))
    return "\n".join(lines) + "\n", set(wrong.items())


def check_recorded(program: str, work: pathlib.Path):
    """Eight minutes of a Nagios with 225 objects, outages, passive results, forced checks and a reload.

    The last three fields of each line were added afterwards: when Nagios was started, as its log says, and no changes of states.
    """
    folder = Folder(program, work / "recorded", gzip.decompress((RECORDED / "objects.cache.gz").read_bytes()).decode(), 1)
    (folder.path / "nagios.log").write_text(f"[{RELOAD - 1}] Caught SIGHUP, restarting...\n[{RELOAD}] Nagios 4.4.6 starting... (PID=1)\n")
    text = gzip.decompress((RECORDED / "results.gz").read_bytes()).decode()
    page = folder.path / "page.html"
    report = folder.report(text, "--late", 20, "--page", page)
    found = counts(report)
    yield "recorded results", (found["unexplained"], found["results compared"] > 3900, found["told late"], found["ran twice at once"]) == (0, True, 1, 12)
    yield "a recorded problem that Nagios didn't tell", "h11;s011" in report and "Nagios WARNING SOFT 1, nagsched WARNING HARD 4" in report
    yield "rows of recorded results", all(found.get(row, 0) > 0 for row in ("soft recovery", "after a problem while the host was down", "passive result of a host"))
    picture = xml.dom.minidom.parseString(re.findall(r"<svg.*</svg>", page.read_text(), re.S)[0])
    moments = [int(line.split("\t")[2]) for line in text.splitlines()]
    minutes = len({(moment - moments[0]) // 60 for moment in moments})
    yield "the picture of the day", len(picture.getElementsByTagName("rect")) == minutes + sum(found[kind] for kind in (
        "unexplained", "told late", "told twice", "ran twice at once", "never ran", "overdue", "flapping unseen", "stood still"))
    wrong, where = planted(text, 1)
    yield "40 wrong verdicts", harms(folder.report(wrong, "--late", 20), "unexplained") == where


def check_written(program: str, work: pathlib.Path):
    """Each kind of harm, in written results."""
    folder = Folder(program, work / "written", HOST.format("h") + SERVICE.format("h", "s") + SERVICE.format("h", "t"), 60)
    down = (line("h;s", 0, "HARD 1", 0, 0) + line("h", 1, "SOFT 1", 0, 1) + line("h;s", 60, "HARD 1", 0, 1, host=1) + line("h", 61, "SOFT 1", 1, 0)
            + line("h;s", 90, "HARD 1", 1, 1))
    told = folder.report(down + line("h;s", 120, "SOFT 1", 1, 2) + line("h;s", 180, "SOFT 2", 2, 2) + line("h;s", 240, "HARD 3", 2, 2))
    yield "told late", counts(told)["told late"] == 1 and "120 s later: Nagios CRITICAL SOFT 1, nagsched CRITICAL HARD 3 (after a problem while" in told
    yield "never ran", harms(told, "never ran") == {("h;t", time.strftime("%H:%M:%S", time.localtime(START + 240)))}
    told = folder.report(down + line("h;s", 120, "SOFT 1", 1, 2) + line("h;s", 180, "SOFT 2", 2, 1) + line("h;s", 240, "HARD 3", 1, 1))
    yield "told twice", counts(told)["told twice"] == 1 and "told again without a recovery: Nagios WARNING HARD 3" in told
    told = folder.report(line("h;s", 9, "HARD 1", 0, 0, took=9) + line("h;s", 14, "HARD 1", 0, 0, took=9) + line("h;s", 200, "HARD 1", 0, 0))
    yield "ran twice at once and overdue", (counts(told)["ran twice at once"], counts(told)["overdue"]) == (1, 1) and "begun 135 s late" in told
    told = folder.report("".join(line(name, at, "HARD 1", 0, 0) for at in (0, 50, 600) for name in ("h;s", "h;t", "h")))
    yield "stood still", (counts(told)["stood still"], counts(told)["overdue"]) == (1, 0) and "no result for 550 s, while 3 checks were due" in told
    mixed = [line("h", 10, "SOFT 1", 0, 1, how="logged", change=2), line("h;s", 10, "HARD 3", 0, 2, host=1, how="logged", change=3),
             line("h;t", 10, "SOFT 1", 0, 2, how="logged", change=1)]
    told = [folder.report(line("h", 0, "HARD 1", 0, 0, how="logged") + "".join(order)) for order in (mixed, mixed[::-1])]
    yield "results of obsessing commands in any order", told[0] == told[1] and "1  unexplained" in told[0] and "by Nagios's own rules CRITICAL HARD 1" in told[0]
    family = Folder(program, work / "family", HOST.format("g") + HOST.format("c").replace("\tmax", "\tparents\tg\n\tmax"), 60)
    begun = line("g", 0, "HARD 1", 0, 0, how="logged") + line("c", 0, "HARD 1", 0, 0, how="logged")
    mixed = [line("c", 10, "SOFT 1", 0, 1, how="logged", change=1), line("g", 10, "SOFT 1", 0, 1, how="logged", change=2)]
    told = [counts(family.report(begun + "".join(order) + line("c", 70, "SOFT 2", 1, 2, how="logged", change=3))) for order in (mixed, mixed[::-1])]
    yield "a host that goes down in the second before its parent does", [(each["results compared"], each["unexplained"]) for each in told] == [(5, 0), (5, 0)]
    killed = line("h;s", 0, "HARD 1", 0, 0) + line("h;s", 60, "SOFT 1", 0, 2) + line("h;s", 120, "SOFT 1", 2, 2, started=100)
    told = [folder.report(killed)]
    for words in ("Caught SIGHUP, restarting...", "PROGRAM_SHUTDOWN event encountered, shutting down..."):
        (folder.path / "nagios.log").write_text(f"[{START + 99}] {words}\n[{START + 100}] Nagios 4.4.6 starting... (PID=1)\n")
        os.utime(folder.path / "nagios.log", (START + 100, START + 100))
        told.append(folder.report(killed))
    yield "a killed Nagios has an older state, one that was asked to end hasn't", [counts(each)["unexplained"] for each in told] == [0, 1, 1]
    yield "lines of another form", counts(folder.report("nothing\n" + line("h;u", 0, "HARD 1", 0, 0)))["lines of another form"] == 1
    (work / "bad.cfg").write_text("interval_length=60\n")
    bad = subprocess.run([*folder.command()[:-2], work / "bad.cfg", folder.results], capture_output=True, text=True, timeout=LIMIT)
    yield "a configuration without objects", (bad.returncode, "name the file by --objects" in bad.stderr) == (1, True)
    lines = subprocess.run([sys.executable, TOP / "tools/second_opinion.py", "--lines", "/f"], capture_output=True, text=True).stdout
    yield "the lines of nagios.cfg", [text.count("\\t") for text in re.findall(r"_template=(.*)", lines)] == [15, 15] and lines.count("\\073") == 1


def check_followed(program: str, work: pathlib.Path):
    """A file that is rotated, and a configuration that changes, while they are followed; and a pipe."""
    folder = Folder(program, work / "followed", HOST.format("h") + SERVICE.format("h", "s"), 60)
    folder.results.write_text(line("h;s", 0, "HARD 1", 0, 0))
    (folder.path / "status.dat").write_text(STATUS.format(START + 180, START + 240))
    run = folder.follow()
    folder.results.rename(folder.path / "results.1")
    time.sleep(1)
    with (folder.path / "results.1").open("a") as results:
        results.write(line("h;s", 60, "SOFT 1", 0, 2))
    folder.results.write_text(line("h;s", 120, "SOFT 2", 2, 2))
    time.sleep(2)
    (folder.path / "objects.cache").write_text(HOST.format("h") + SERVICE.format("h", "s") + SERVICE.format("h", "new"))
    with folder.results.open("a") as results:
        results.write(line("h;new", 130, "HARD 1", 0, 0, started=125) + line("h;s", 180, "SOFT 1", 0, 2, started=125))
    time.sleep(13)
    run.send_signal(signal.SIGTERM)
    found = counts(run.communicate(timeout=LIMIT)[0])
    yield "a followed file", (found["results compared"], found["unexplained"], found.get("equal next checks"), found["changes of the configuration"]) == (5, 0, 1, 1)
    folder.results.unlink()
    os.mkfifo(folder.results)
    run = folder.follow()
    with folder.results.open("w") as pipe:
        pipe.write(line("h;s", 0, "HARD 1", 0, 0))
        pipe.flush()
        time.sleep(1)
        pipe.write(line("h;s", 60, "HARD 1", 0, 2))
    time.sleep(2)
    run.send_signal(signal.SIGTERM)
    told = run.communicate(timeout=LIMIT)[0]
    yield "a pipe", counts(told)["results compared"] == 2 and "Nagios CRITICAL HARD 1, nagsched CRITICAL SOFT 1; by Nagios's own rules CRITICAL SOFT 1" in told


def check_parts(program: str, work: pathlib.Path):
    """A site of 5,001 objects below one gateway: two parts, and a mirror."""
    hosts = HOST.format("gateway") + "".join(HOST.format(f"h{number:03}").replace("\tmax", "\tparents\tgateway\n\tmax") for number in range(250))
    services = "".join(SERVICE.format(f"h{number % 250:03}", number // 250) for number in range(4_750))
    folder = Folder(program, work / "parts", hosts + services, 60)
    text = "".join(line(f"h{number:03};{service}", number, "HARD 1", 0, 0) for number in range(250) for service in range(2)) + line("gateway", 300, "SOFT 1", 0, 1)
    told = folder.report(text + "".join(line(f"h{number:03}", 301, "SOFT 1", 0, 2) for number in range(250)), "--late", 1000)
    yield "a site in parts", (counts(told)["unexplained"], "751  results compared, 751 with equal verdicts" in told) == (0, True)


def main() -> None:
    harness = Harness("second_opinion")
    with tempfile.TemporaryDirectory() as name:
        for check in (check_recorded, check_written, check_followed, check_parts):
            for what, is_so in check(harness.program, pathlib.Path(name)):
                harness.compare(what, True, is_so)
    harness.end()


main()
