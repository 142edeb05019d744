#!/usr/bin/env python3
"""Writes the manual pages: nagsched(1), nagsched(5), nagsched-monitor(1), nagsched-from-nagios(1), nagsched-second-opinion(1), and those of section 3.

    tools/manual.py DIRECTORY

Each is made from sections of the pages in docs/, under the usual headings of manual pages, so that nothing is written twice. Those of section 3 are
made from the comments of the C header.
"""
import os
import pathlib
import re
import subprocess
import sys
from typing import Dict, Iterator, List, Tuple, Union

import manual_c
from manual_roff import body, roff_inline, roff_line, roff_text, tidy_lines

TOP = pathlib.Path(__file__).resolve().parent.parent
DATE = "2026-11-28"
VERSION = (TOP / "VERSION").read_text(encoding="utf-8").strip()
HEADER = (TOP / "c/nagsched.h").read_text(encoding="utf-8")
SUMMARY = {
    ("nagsched", 1): "decide which host or service is checked next, and what each result means",
    ("nagsched", 5): "setup, saved states and refusals of nagsched",
    ("nagsched-monitor", 1): "run the checks of a site",
    ("nagsched-from-nagios", 1): "convert a Nagios configuration",
    ("nagsched-second-opinion", 1): "judge each result of a running Nagios, too",
}
# The sections of each manual page: a text, a script whose help has them, or the parts of each, as a page and a title there. The title "" is the text before
# the first section.
PARTS: Dict[Tuple[str, int], Dict[str, Union[str, pathlib.Path, List[Tuple[str, str]]]]] = {
    ("nagsched", 1): {
        "Synopsis": [("program", "Synopsis")],
        "Description": [("program", ""), ("program", "Input"), ("program", "Answers"), ("program", "JSON"), ("program", "run"), ("program", "live"), ("program", "check"), ("program", "drill")],
        "Options": [("program", "Options")],
        "Files": "nagsched opens no files. It reads standard input, writes standard output, and explains failures on standard error.",
        "Exit status": [("program", "Exit statuses")],
        "Examples": [("program", "Examples")],
    },
    ("nagsched", 5): {
        "Description": [("setup", ""), ("setup", "Options"), ("setup", "Hosts"), ("setup", "Services"), ("setup", "Dependencies"), ("setup", "Limits")],
        "Saved states": [("saved-states", "The format")],
        "Refusals": [("errors", "A refused setup"), ("errors", "A refused line"), ("errors", "A refused call"), ("errors", "A refused saved state")],
        "Files": "share/doc/nagsched/setup.schema.json is the JSON Schema of a setup, as `nagsched schema` writes it.",
        "Examples": [("setup", "A whole setup")],
    },
    ("nagsched-monitor", 1): {
        "Synopsis": [("monitor", "Synopsis")],
        "Description": [("monitor", ""), ("monitor", "Commands"), ("monitor", "When checks run"), ("monitor", "What a plugin's end means"), ("monitor", "Changes"),
                        ("monitor", "Web page"), ("monitor", "Nagios's own files"), ("monitor", "Requests")],
        "Options": [("monitor", "Options")],
        "Files": [("monitor", "Files of a site"), ("monitor", "The database")],
        "Exit status": [("monitor", "Exit statuses")],
        "Examples": [("monitor", "Examples")],
    },
    ("nagsched-from-nagios", 1): {
        "Synopsis": [("from-nagios", "Synopsis")],
        "Description": [("from-nagios", ""), ("from-nagios", "What it reports"), ("from-nagios", "What becomes of what")],
        "Options": [("from-nagios", "Options")],
        "Files": [("from-nagios", "The files of a site")],
        "Exit status": [("from-nagios", "Exit statuses")],
        "Examples": [("from-nagios", "Compare the schedule")],
    },
    ("nagsched-second-opinion", 1): {
        "Synopsis": "`nagsched-second-opinion --lines FILE`, or `nagsched-second-opinion [--follow] [OPTIONS] nagios.cfg RESULTS..`",
        "Description": [("second-opinion", ""), ("second-opinion", "Read the report"), ("second-opinion", "Limits")],
        "Options": TOP / "tools/second_opinion.py",
        "Files": "It reads the files that `nagios.cfg` names as `object_cache_file`, `status_file`, `log_file` and `log_archive_path`.",
        "Exit status": "0: the report is printed. 1: a file can't be read, or `nagsched` gives no verdict. 2: the arguments are wrong.",
        "Examples": [("second-opinion", "Let Nagios write its results"), ("second-opinion", "Compare")],
    },
}
SEE = {
    ("nagsched", 1): "nagsched(5), nagsched(3), nagsched-monitor(1), nagsched-from-nagios(1)",
    ("nagsched", 5): "nagsched(1), nagsched-monitor(1)",
    ("nagsched-monitor", 1): "nagsched(1), nagsched(5), nagsched-from-nagios(1), systemd(1)",
    ("nagsched-from-nagios", 1): "nagsched-monitor(1), nagsched(1), nagsched(5)",
    ("nagsched-second-opinion", 1): "nagsched-from-nagios(1), nagsched-monitor(1), nagsched(1)",
}


# ---- reading a page


def sections_of(page: pathlib.Path) -> Dict[str, List[str]]:
    """The lines of each section of the second level by its title, those before the first under \"\"; comments are left out."""
    sections: Dict[str, List[str]] = {"": []}
    lines, in_code = sections[""], False
    text = re.sub(r"^<!--.*?-->\n+|<!--.*?-->", "", page.read_text(encoding="utf-8"), flags=re.DOTALL | re.MULTILINE)
    for line in text.splitlines():
        in_code ^= line.startswith("```")
        if line.startswith("## ") and not in_code:
            lines = sections.setdefault(line[3:], [])
        elif not (line.startswith("# ") and not in_code):
            lines.append(line)
    return sections


# ---- writing


def head_of(name: str, number: int, names: List[str], summary: str) -> Iterator[str]:
    """The title of a manual page, and the line of its names."""
    yield f'.TH {name.upper()} {number} "{DATE}" "nagsched {VERSION}" "nagsched"'
    yield ".ad l"
    yield ".SH NAME"
    yield f"{roff_text(', '.join(names))} \\- {roff_text(summary)}"


def see_also(others: List[str], last: str) -> Iterator[str]:
    """The last section: other manual pages, and a sentence."""
    yield ".SH SEE ALSO"
    yield ".PP"
    yield ", ".join(f"\\fB{roff_text(other.split('(')[0])}\\fR({other.split('(')[1]}" for other in others)
    yield from [".PP", last]


def options_of(script: pathlib.Path) -> Iterator[str]:
    """The options of a script with their meanings, from its help."""
    told = subprocess.run([sys.executable, script, "--help"], env={**os.environ, "COLUMNS": "1000"}, stdout=subprocess.PIPE, text=True, check=True).stdout
    for option, meaning in re.findall(r"^  (?:-h, )?(--\S+(?: [A-Z]+)?) +(.*)$", told, re.MULTILINE):
        yield from [f'.IP "\\fB{roff_text(option)}\\fR" 4', roff_line(roff_inline(meaning))]


def page_of(name: str, number: int) -> Iterator[str]:
    """A page made from sections of pages."""
    yield from head_of(name, number, [name], SUMMARY[name, number])
    for heading, parts in PARTS[name, number].items():
        yield f".SH {heading.upper()}"
        if isinstance(parts, (str, pathlib.Path)):
            yield from [".PP", roff_line(roff_inline(parts))] if isinstance(parts, str) else options_of(parts)
            continue
        for page, title in parts:
            if title and len(parts) > 1 or title.lower() not in (heading.lower(), "exit statuses", "examples", ""):
                yield f".SS {roff_inline(title)}"
            yield from body(sections_of(TOP / f"docs/{page}.md")[title])
    yield from see_also(SEE[name, number].split(", "), "Pages with more, and examples: share/doc/nagsched.")


def code_block(lines: List[str]) -> Iterator[str]:
    """Lines of code, as they are."""
    yield from [".PP", ".nf", *(roff_line(roff_text(line)) for line in lines), ".fi"]


def page_of_header() -> Iterator[str]:
    """nagsched(3): the first comment of the header, and the types."""
    first, _ = next(iter(manual_c.COMMENT.findall(HEADER)))
    yield from head_of("nagsched", 3, ["nagsched"], "the scheduler of active checks, for C")
    yield from [".SH SYNOPSIS", *code_block(["#include <nagsched.h>", "", "cc program.c $(pkg-config --cflags --libs nagsched) -lpthread"])]
    yield ".SH DESCRIPTION"
    yield from body(list(manual_c.page_lines(manual_c.lines_of(first))))
    yield from [".SH TYPES", *code_block(manual_c.types_of(HEADER))]
    yield from see_also([f"{group.names[0]}(3)" for group in manual_c.groups(HEADER)], "Pages with more, and examples: share/doc/nagsched.")


def page_of_functions(group: manual_c.Functions) -> Iterator[str]:
    """The page of the functions that one comment of the header describes."""
    yield from head_of(group.names[0], 3, group.names, manual_c.summary_of(group.comment))
    yield from [".SH SYNOPSIS", *code_block(["#include <nagsched.h>", "", *group.prototypes])]
    yield ".SH DESCRIPTION"
    yield from body(list(manual_c.page_lines(group.comment)))
    yield from see_also(["nagsched(3)"], "That page explains handles, statuses, and which calls may run at the same time.")


def pages_of_c() -> Iterator[Tuple[str, Iterator[str]]]:
    """The pages of section 3 by their names. A name that shares a page leads to it."""
    yield "nagsched.3", page_of_header()
    for group in manual_c.groups(HEADER):
        first, *others = group.names
        yield f"{first}.3", page_of_functions(group)
        for name in others:
            yield f"{name}.3", iter([f".so man3/{first}.3"])


def pages() -> Dict[str, str]:
    """The text of each manual page by the name of its file."""
    made = [*((f"{name}.{number}", page_of(name, number)) for name, number in PARTS), *pages_of_c()]
    return {name: "\n".join(tidy_lines(list(lines))) + "\n" for name, lines in made}


def main(folder: pathlib.Path) -> None:
    folder.mkdir(parents=True, exist_ok=True)
    for name, text in pages().items():
        (folder / name).write_text(text, encoding="utf-8")


if __name__ == "__main__":
    main(pathlib.Path(sys.argv[1]))
