"""The manual pages of section 3, made from the comments of c/nagsched.h.

nagsched(3) has the first comment and the types. Each later comment with the functions after it is a page under the name of the first of them, and the
names of the others lead there.
"""
import itertools
import re
import textwrap
from typing import Iterator, List, NamedTuple

# A comment, and what follows it up to the next comment at the beginning of a line, or an empty line before a line of the preprocessor.
COMMENT = re.compile(r"^/\* ?(.*?)\*/\n(.*?)(?=^/\*|^#|\Z)", re.M | re.S)
FUNCTION = re.compile(r"^(?:static inline )?\w[\w ]*[ *]+(nagsched_\w+)\([^;{]*?\)(?= ?[;{])", re.M)
# A line of a list in a comment: a term and, after two spaces or more, its text; or a hyphen and its text.
TERM = re.compile(r"^( {4,})(\S.*?) {2,}(\S.*)$")
HYPHEN = re.compile(r"^ {2,}- (.*)$")
SUMMARY = 100


class Functions(NamedTuple):
    """A comment and the functions that it describes."""

    comment: List[str]
    names: List[str]
    prototypes: List[str]


def lines_of(comment: str) -> List[str]:
    """The lines of a comment without its stars."""
    return [re.sub(r"^ \* ?", "", line).rstrip() for line in comment.strip().splitlines()]


def groups(header: str) -> Iterator[Functions]:
    """Each comment with the functions after it."""
    for comment, code in COMMENT.findall(header):
        found = list(FUNCTION.finditer(code))
        if found:
            prototypes = [re.sub(r"\s+", " ", match[0]).replace("static inline ", "") + ";" for match in found]
            yield Functions(lines_of(comment), [match[1] for match in found], prototypes)


def types_of(header: str) -> List[str]:
    """The types and constants, as the header has them."""
    begin = header.index("#define NAGSCHED_VERSION")
    first = next(match for match in COMMENT.finditer(header) if FUNCTION.search(match[2]))
    kept = header[header.rindex("/*", 0, begin) : first.start()]
    return kept.strip().splitlines()


def summary_of(comment: List[str]) -> str:
    """The beginning of a comment, for the line of names."""
    text = re.split(r"[.:;(]", " ".join(comment))[0].strip()
    if len(text) > SUMMARY:
        text = text[: text.rindex(",", 0, SUMMARY)]
    return text[0].lower() + text[1:]


def kind_of(line: str, before: str) -> str:
    """What a line of a comment belongs to: a list, indented text, plain text, or nothing if it is empty."""
    if HYPHEN.match(line) or before == "list" and line.startswith("    "):
        return "list"
    return "indented" if line.startswith("    ") else "text" if line else ""


def table_of(lines: List[str]) -> Iterator[str]:
    """Terms and their texts, as a table of a page."""
    depth = len(lines[0]) - len(lines[0].lstrip())
    rows: List[str] = []
    for line in lines:
        match = TERM.match(line)
        if match and len(match[1]) == depth:
            rows.append(f"{match[2]} | {match[3]}")
        else:
            rows[-1] += " " + line.strip()
    yield from ["| | |", "|---|---|", *(f"| {row} |" for row in rows)]


def page_lines(comment: List[str]) -> Iterator[str]:
    """A comment as lines of a page in docs/."""
    kinds: List[str] = []
    for line in comment:
        kinds.append(kind_of(line, kinds[-1] if kinds else ""))
    for kind, group in itertools.groupby(zip(kinds, comment), key=lambda it: it[0]):
        lines = [line for _, line in group]
        if kind == "indented" and TERM.match(lines[0]):
            yield from table_of(lines)
        elif kind == "indented":
            yield from ["```", *textwrap.dedent("\n".join(lines)).splitlines(), "```"]
        elif kind == "list":
            yield from (f"- {match[1]}" if (match := HYPHEN.match(line)) else f" {line.strip()}" for line in lines)
        else:
            yield from lines
