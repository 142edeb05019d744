"""Text and blocks of a page in roff, the language of manual pages. For manual.py."""
import re
import textwrap
from typing import Iterator, List, Optional, Tuple

WIDTH = 110
# Names that differ in an installation.
INSTALLED = {
    "monitor/nagsched-monitor": "nagsched-monitor",
    "crates/nagsched/out/nagsched": "nagsched",
    "tools/timeline.py": "timeline.py",
    "examples/": "share/doc/nagsched/examples/",
    "docs/": "share/doc/nagsched/",
}


def roff_text(text: str) -> str:
    """A text whose characters mean nothing to roff."""
    return text.replace("\\", "\\e").replace("-", "\\-").replace("'", "\\(aq").replace("`", "\\(ga").replace("^", "\\(ha").replace("~", "\\(ti")


def roff_inline(text: str) -> str:
    """A text with its links as words, and texts between backticks in bold."""
    text = re.sub(r"!\[[^]]*\]\([^)]*\)", "", text)
    text = re.sub(r"\[([^]]*)\]\([^)]*\)", r"\1", text)
    text = with_installed_names(text)
    parts = re.split(r"`([^`]*)`", text)
    return "".join(f"\\fB{roff_text(part)}\\fR" if place % 2 else roff_text(part.replace("**", "")) for place, part in enumerate(parts))


def with_installed_names(text: str) -> str:
    """A text with the names under which files are installed."""
    for path, name in INSTALLED.items():
        text = text.replace(path, name)
    return text


def roff_line(text: str) -> str:
    """A line of roff that begins with no dot."""
    return "\\&" + text if text.startswith(".") else text


def cells_of(row: str) -> List[str]:
    return [cell.strip().replace("\\|", "|") for cell in re.split(r"(?<!\\)\|", row.strip().strip("|"))]


def table(rows: List[str]) -> Iterator[str]:
    """A table as a list: the first cell of each row, and then the others, each after its heading if there are more than one."""
    head, *body = [cells_of(row) for row in [rows[0], *rows[2:]]]
    if len(head) > 2:
        yield from [".PP", roff_line("\\fI" + "\\fR, \\fI".join(roff_text(name) for name in head) + "\\fR:")]
    yield ".PD 0"
    for first, *others in body:
        tag = roff_inline(first).replace('"', "\\(dq")
        yield f'.IP "{tag}" 4'
        said = [cell if len(others) == 1 else f"{name}: {cell}" for name, cell in zip(head[1:], others) if cell]
        yield roff_line(roff_inline(". ".join(text.rstrip(".") for text in said)) if said else "\\&")
    yield ".PD"


def blocks_of(lines: List[str]) -> Iterator[Tuple[str, List[str]]]:
    """The blocks of a section: their kind and their lines."""
    kind: Optional[str] = None
    block: List[str] = []
    for text in lines:
        if kind == "code":
            if text.startswith("```"):
                yield kind, block
                kind, block = None, []
            else:
                block.append(text)
            continue
        now = "code" if text.startswith("```") else "table" if text.startswith("|") else "list" if re.match(r"(- |\d+\. )", text) \
            else "heading" if text.startswith("#") else "text" if text.strip() else None
        if now == "text" and kind == "list" and text.startswith(" "):
            now = "list"
        if now != kind or now == "heading":
            if kind is not None and block:
                yield kind, block
            kind, block = now, []
        if now not in (None, "code"):
            block.append(text)
    if kind is not None and block:
        yield kind, block


def items_of(lines: List[str]) -> List[List[str]]:
    """The items of a list, each on one line."""
    items: List[List[str]] = []
    for text in lines:
        match = re.match(r"(- |\d+\. )(.*)", text)
        if match:
            items.append([match[1].strip(), match[2]])
        else:
            items[-1][1] += " " + text.strip()
    return items


def body(lines: List[str]) -> Iterator[str]:
    """A section without its heading."""
    for kind, block in blocks_of(lines):
        if kind == "code":
            yield from [".PP", ".nf", ".RS 4", *(roff_line(roff_text(with_installed_names(text))) for text in block), ".RE", ".fi"]
        elif kind == "table":
            yield from table(block)
            yield ".PP"
        elif kind == "list":
            for mark, text in items_of(block):
                bullet = "\\(bu" if mark == "-" else mark
                yield from [f'.IP "{bullet}" 3', roff_line(roff_inline(text))]
            yield ".PP"
        elif kind == "heading":
            yield f".SS {roff_inline(block[0].lstrip('# '))}"
        else:
            yield from [".PP", roff_line(roff_inline(" ".join(text.strip() for text in block)))]


def tidy_lines(lines: List[str]) -> List[str]:
    """The lines without empty paragraphs, with long lines of text broken at spaces."""
    kept: List[str] = []
    in_code = False
    for text in lines:
        in_code = text == ".nf" or in_code and text != ".fi"
        if text.startswith((".SH", ".SS", ".PP", ".IP")) and kept and kept[-1] == ".PP":
            kept.pop()
        if text == ".PP" and kept and kept[-1].startswith((".SH", ".SS")):
            continue
        if text.startswith(".") or in_code:
            kept.append(text)
        else:
            kept += [roff_line(part) for part in textwrap.wrap(text, WIDTH, break_long_words=False, break_on_hyphens=False)]
    while kept and kept[-1] == ".PP":
        kept.pop()
    return kept
