#!/usr/bin/env python3
"""Draws the picture of README: how Nagios's files, converter, site, monitor, scheduler, runners and plugins hang together.

    tools/overview.py > docs/parts.svg
"""
import sys
from typing import Iterator, NamedTuple, Tuple

WIDTH, HEIGHT = 960, 470
# The kinds of boxes: fill, border and dashes.
KINDS = {"proved": ("#dcefd8", "#3f8a36", ""), "tested": ("#e3ecf7", "#4a76ad", ""), "files": ("#f4f4f4", "#999", ""),
         "other programs": ("white", "#999", "5 4")}
LEGEND = {"proved": 600, "tested": 690, "files": 780, "other programs": 850}


class Box(NamedTuple):
    """A program or a file: its place and size, its kind, its name, and what it does in one or two lines."""

    x: int
    y: int
    width: int
    height: int
    kind: str
    name: str
    lines: Tuple[str, ...]


class Arrow(NamedTuple):
    """Who starts or writes what, as an SVG path. An arrow may lead both ways."""

    path: str
    both: bool = False


BOXES = (
    Box(20, 30, 190, 56, "other programs", "Nagios's files", ("nagios.cfg, objects.precache",)),
    Box(290, 30, 210, 56, "tested", "converter", ("nagsched-from-nagios",)),
    Box(580, 30, 170, 56, "files", "site", ("a folder of JSON files",)),
    Box(20, 146, 190, 76, "proved", "nagsched live", ("decides what is due,", "and what a result means")),
    Box(290, 146, 260, 76, "tested", "nagsched-monitor", ("asks, starts plugins, stores every call", "before it is made")),
    Box(620, 146, 160, 76, "tested", "runners", ("start plugins, here", "or over SSH, Gearman")),
    Box(840, 146, 100, 76, "other programs", "plugins", ("check_http ..",)),
    Box(290, 276, 260, 50, "files", "monitor.db", ("states, changes, calls since a save",)),
    Box(20, 276, 190, 50, "other programs", "Alertmanager", ("notifies people",)),
    Box(20, 374, 190, 60, "tested", "poster", ("posts problems",)),
    Box(240, 374, 190, 60, "tested", "page and metrics", ("for browsers and Prometheus",)),
    Box(460, 374, 190, 60, "tested", "--on-change", ("a command of yours",)),
    Box(680, 374, 180, 60, "tested", "Nagios's files", ("status.dat, nagios.cmd",)),
)
ARROWS = (
    Arrow("M210 58H288"), Arrow("M500 58H578"), Arrow("M600 86V110H470V142"),
    Arrow("M210 184H288", both=True), Arrow("M550 184H618", both=True), Arrow("M780 184H838", both=True), Arrow("M420 222V274", both=True),
    Arrow("M420 326V350H115V372"), Arrow("M420 326V350H335V372"), Arrow("M420 326V350H555V372"), Arrow("M420 326V350H770V372"),
    Arrow("M60 374V328"),
)
# What goes over the two arrows next to the monitor.
NOTES = ((249, 176, "lines"), (585, 176, "lines"))


def text(x: int, y: int, size: int, words: str, fill: str = "#444", more: str = ' text-anchor="middle"') -> str:
    return f'<text x="{x}" y="{y}" font-size="{size}" fill="{fill}"{more}>{words}</text>'


def rectangle(x: int, y: int, width: int, height: int, kind: str, more: str = "") -> str:
    fill, border, dashes = KINDS[kind]
    dashed = f' stroke-dasharray="{dashes}"' if dashes else ""
    return f'<rect x="{x}" y="{y}" width="{width}" height="{height}" fill="{fill}" stroke="{border}"{dashed}{more}/>'


def box(it: Box) -> Iterator[str]:
    yield rectangle(it.x, it.y, it.width, it.height, it.kind, ' rx="5" stroke-width="1.5"')
    middle = it.x + it.width // 2
    top = it.y + it.height // 2 - 8 * len(it.lines) + 5
    yield text(middle, top, 14, it.name, "#222", ' font-weight="bold" text-anchor="middle"')
    for number, line in enumerate(it.lines, 1):
        yield text(middle, top + 17 * number, 12, line)


def arrow(it: Arrow) -> str:
    start = ' marker-start="url(#head)"' if it.both else ""
    return f'<path d="{it.path}" fill="none" stroke="#555" stroke-width="1.5" marker-end="url(#head)"{start}/>'


def legend() -> Iterator[str]:
    for kind, x in LEGEND.items():
        yield rectangle(x, 446, 12, 12, kind)
        yield text(x + 17, 456, 12, kind, "#555", "")


def picture() -> Iterator[str]:
    yield f'<svg xmlns="http://www.w3.org/2000/svg" width="{WIDTH}" height="{HEIGHT}" viewBox="0 0 {WIDTH} {HEIGHT}" font-family="sans-serif">'
    yield '<defs><marker id="head" viewBox="0 0 10 10" refX="9" refY="5" markerWidth="7" markerHeight="7" orient="auto-start-reverse">'
    yield '<path d="M0 0L10 5L0 10z" fill="#555"/></marker></defs>'
    yield f'<rect width="{WIDTH}" height="{HEIGHT}" fill="white"/>'
    for it in BOXES:
        yield from box(it)
    yield from map(arrow, ARROWS)
    for x, y, words in NOTES:
        yield text(x, y, 12, words, "#555")
    yield from legend()
    yield "</svg>"


def main() -> None:
    sys.stdout.write("".join(f"{part}\n" for part in picture()))


if __name__ == "__main__":
    main()
