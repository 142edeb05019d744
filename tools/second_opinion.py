#!/usr/bin/env python3
"""A second opinion on a running Nagios: nagsched judges each of its results, too.

    nagsched-second-opinion --lines FILE
    nagsched-second-opinion [--page PAGE] nagios.cfg RESULTS..
    nagsched-second-opinion --follow [--page PAGE] nagios.cfg RESULTS

The first command prints what makes Nagios append each result to FILE. The second reads such files, the oldest first, also compressed ones. The third
follows one file or named pipe until it is ended. It takes over a changed configuration, and compares next checks and flapping with the status file.
The report names harm first. No plugin is run, and nothing of Nagios's is written.
"""
import argparse
import contextlib
import gzip
import html
import io
import os
import pathlib
import shutil
import signal
import sys
import time
from typing import Iterator

from second_opinion_records import COLOURS, HERE, Findings, clock, line_of, read_site
from second_opinion_verdicts import HELD, Opinion
from nagios_values import CannotConvert, reason
from nagsched_monitor.faults import ConversationEnded

IDLE, SAMPLED = 0.5, 10  # seconds between two looks at a file without new lines, and at the status file
FEW, MOST = 20, 200  # lines of each kind in a short report, and on the page
WIDTH, LEFT, WIDE, LANE = 1100, 170, 900, 26  # of the picture, in pixels: its width, the place and width of the day, the height of a lane
DAY = 86_400


def follow(path: pathlib.Path) -> Iterator[list[str]]:
    """The lines of a file, or of a pipe, as they come. A file that replaces it is read from its start."""
    while True:
        with open(path, "rb", buffering=0, opener=lambda name, flags: os.open(name, flags | os.O_NONBLOCK)) as file:
            yield from lines_of_one(path, file)


def lines_of_one(path: pathlib.Path, file: io.FileIO) -> Iterator[list[str]]:
    """The lines of a file until another has replaced it and this one has no more."""
    rest, is_replaced = b"", False
    while (more := file.read(1 << 16)) or not is_replaced:
        *lines, rest = (rest + (more or b"")).split(b"\n")
        yield [line.decode("utf-8", "replace") for line in lines]
        if not more:
            time.sleep(IDLE)
            with contextlib.suppress(FileNotFoundError):
                there = path.stat()
                is_replaced = not os.path.samestat(there, os.fstat(file.fileno()))
                if not is_replaced and file.seekable() and there.st_size < file.tell():
                    file.seek(0)


class Run:
    """A run over all its files and configurations."""

    def __init__(self, arguments: argparse.Namespace) -> None:
        self.arguments = arguments
        self.found = Findings(arguments.follow)
        self.started, self.sampled = 0, 0.0
        self.site = read_site(arguments.config, arguments.objects)
        self.opinion = Opinion(self.site, arguments.program, arguments.late, self.found)

    def add(self, text: str) -> None:
        try:
            line = line_of(text.rstrip("\n"))
        except ValueError:
            self.found.counts["lines of another form"] += 1
            return
        if 0 < self.started < line.started:
            self.restart(line.started)
        self.started = max(self.started, line.started)
        self.opinion.add(line)

    def restart(self, started: int) -> None:
        """Nagios was restarted or reloaded before the next line, perhaps with another configuration."""
        self.opinion.restart(self.site.is_planned(self.found.last - HELD, started))
        site = self.site
        if self.arguments.follow:
            with contextlib.suppress(CannotConvert):  # Nagios restarts once more, and the file isn't whole yet
                site = read_site(self.arguments.config, self.arguments.objects)
        if site.setup != self.site.setup:
            self.opinion.finish()
            self.opinion = Opinion(site, self.arguments.program, self.arguments.late, self.found)
            self.found.counts["changes of the configuration"] += 1
        self.site = site

    def replay(self) -> None:
        for path in self.arguments.results:
            with gzip.open(path, "rt", errors="replace") if path.suffix == ".gz" else path.open(errors="replace") as lines:
                for text in lines:
                    self.add(text)

    def follow(self) -> None:
        for lines in follow(self.arguments.results[0]):
            for text in lines:
                self.add(text)
            if time.time() - self.sampled > SAMPLED:
                self.sampled = time.time()
                if self.site.status.is_file():
                    self.opinion.sample(self.site.status.read_text(encoding="utf-8", errors="replace"))
                self.write_page()

    def judge(self) -> None:
        """Compares all results, and prints the report. A signal ends a run that follows."""
        def stop(*_signal: object) -> None:  # a second Ctrl-C, or one that sudo passes on, doesn't cost the report
            signal.signal(signal.SIGINT, signal.SIG_IGN)
            raise KeyboardInterrupt

        signal.signal(signal.SIGINT, stop)
        signal.signal(signal.SIGTERM, stop)
        with contextlib.suppress(KeyboardInterrupt):
            (self.follow if self.arguments.follow else self.replay)()
        self.opinion.finish()
        self.write_page()
        print(report(self.found, len(self.found.harms) if self.arguments.all else FEW), end="")

    def write_page(self) -> None:
        if self.arguments.page is not None:
            parts = {"picture": "\n".join(picture(self.found)), "report": html.escape(report(self.found, MOST))}
            text = (HERE / "second_opinion.html").read_text(encoding="utf-8") % parts
            self.arguments.page.write_text(text, encoding="utf-8")


def report(found: Findings, most: int) -> str:
    """The report, with at most this many lines of each kind of harm."""
    counts = found.counts.copy()
    compared, equal = counts.pop("results compared", 0), counts.pop("equal verdicts", 0)
    lines = [f"{clock(found.first, '%F %T')} to {clock(found.last, '%F %T')}: {found.objects} objects",
             f"{compared:8}  results compared, {equal} with equal verdicts"]
    for kind in COLOURS:
        harms = [harm for harm in found.harms if harm.kind == kind]
        lines += [f"{len(harms):8}  {kind}", *(f"          {harm}" for harm in harms[:most])]
        lines += [f"          and {len(harms) - most} more: --all shows them"] if len(harms) > most else []
    lines += ["Choices of design, by their row in docs/NAGIOS.md:", *(f"{count:8}  {row}" for row, count in found.rows.most_common())]
    lines += ["Other counts:", *(f"{count:8}  {what}" for what, count in sorted(counts.items()) if count)]
    return "\n".join(lines) + "\n"


def picture(found: Findings) -> Iterator[str]:
    """The last day from left to right: a lane for the results, minute by minute, and one for each kind of harm."""
    first, height = max(found.first, found.last - DAY), LANE * (len(COLOURS) + 2)
    length = max(1, found.last - first)
    minutes = [(found.first + 60 * minute, f"{count} results") for minute, count in found.minutes.items()]
    lanes = {"minutes with results": [(begun, begun + 60, "#bcd", title) for begun, title in minutes if begun >= first]}
    for kind, colour in COLOURS.items():
        lanes[kind] = [(max(first, harm.begun), harm.ended, colour, str(harm)) for harm in found.harms if harm.kind == kind and harm.ended >= first]
    yield f'<svg viewBox="0 0 {WIDTH} {height}" role="img" aria-label="the day">'
    for y, (name, boxes) in zip(range(0, height, LANE), lanes.items()):
        yield f'<text x="0" y="{y + 14}">{name} ({len(boxes)})</text><path d="M{LEFT} {y + LANE - 4}H{WIDTH}" stroke="#ddd"/>'
        for begun, ended, colour, title in boxes:
            x, width = LEFT + WIDE * (begun - first) / length, max(2.0, WIDE * (ended - begun) / length)
            yield f'<rect x="{x:.1f}" y="{y}" width="{width:.1f}" height="{LANE - 8}" fill="{colour}"><title>{html.escape(title)}</title></rect>'
    for part in range(9):
        yield f'<text x="{LEFT + WIDE * part / 8:.1f}" y="{height - 6}" text-anchor="middle">{clock(first + part * length / 8)[:5]}</text>'
    yield "</svg>"


def parsed() -> argparse.Namespace:
    parser = argparse.ArgumentParser(description=__doc__, formatter_class=argparse.RawDescriptionHelpFormatter)
    program = shutil.which("nagsched") or shutil.which("nagsched", path=f"{HERE.parent}/crates/nagsched/out:{HERE.parents[1]}/bin") or "nagsched"
    parser.add_argument("--lines", metavar="FILE", help="print what makes Nagios write its results to this file")
    parser.add_argument("--follow", action="store_true", help="continue as Nagios writes")
    parser.add_argument("--late", metavar="SECONDS", type=int, default=60, help="the time after which a check is overdue; 60 by default")
    parser.add_argument("--page", metavar="PAGE", type=pathlib.Path, help="also write an HTML page with a picture of the day")
    parser.add_argument("--all", action="store_true", help=f"show everything; otherwise {FEW} lines of each kind")
    parser.add_argument("--objects", metavar="FILE", type=pathlib.Path, help="the object cache, if not the one that nagios.cfg names")
    parser.add_argument("--program", metavar="PATH", default=program, help="nagsched, if not the one in PATH")
    parser.add_argument("config", metavar="nagios.cfg", nargs="?", type=pathlib.Path)
    parser.add_argument("results", metavar="RESULTS", nargs="*", type=pathlib.Path)
    arguments = parser.parse_args()
    if arguments.lines is None and (not arguments.results or (arguments.follow and len(arguments.results) > 1)):
        parser.error("name nagios.cfg and the file of results; with --follow one file")
    return arguments


def main() -> int:
    arguments = parsed()
    try:
        if arguments.lines is None:
            Run(arguments).judge()
        else:
            print((HERE / "second_opinion.cfg").read_text(encoding="utf-8").replace("RESULTS", arguments.lines), end="")
        return 0
    except (CannotConvert, ConversationEnded, OSError) as error:
        text = f"{error.filename or 'standard output'}: {reason(error)}" if isinstance(error, OSError) else str(error)
        print(f"second_opinion: {text}", file=sys.stderr)
    return 1


if __name__ == "__main__":
    sys.exit(main())
