"""The anchors of the pages: comments that a reader doesn't see, by which scripts find examples, code and generated text.

    <!-- example: NAME -->      the next code block is the example NAME, which .ci/pages/pages.py runs
    <!-- from: FILE -->         the next code block is a part of the file
    <!-- generated: NAME -->    the text up to <!-- end --> is written by .ci/pages/generated.py
    <!-- repository: NAME -->   the text up to <!-- end --> is left out or replaced when the pages are installed (tools/pages.py)
"""
import pathlib
import re

TOP = pathlib.Path(__file__).resolve().parents[2]
PAGES = [TOP / "README.md", TOP / "CHANGELOG.md", TOP / "conformance/README.md", TOP / "crates/README.md", *sorted((TOP / "docs").rglob("*.md"))]
BLOCK = r"```[^\n]*\n(.*?)^```"
GENERATED = re.compile(r"(<!-- generated: ([^\n]*?) -->)(.*?)(<!-- end -->)", re.S)
COMMENT = re.compile(r"<!--.*?-->", re.S)


def text_of(page: pathlib.Path) -> str:
    return page.read_text(encoding="utf-8")


def name_of(page: pathlib.Path) -> str:
    return str(page.relative_to(TOP))


def without_code(text: str) -> str:
    """A page without its code blocks."""
    return re.sub(r"^```.*?^```", "", text, flags=re.S | re.M)


def anchored_blocks(kind: str) -> list[tuple[str, str, str]]:
    """The page, the name and the code block of each anchor of a kind; the block is empty if none follows at once."""
    found = []
    for page in PAGES:
        for match in re.finditer(rf"<!-- {kind}: (.*?) -->\n+", text_of(page)):
            block = re.compile(BLOCK, re.S | re.M).match(text_of(page), match.end())
            found.append((name_of(page), match[1], block[1] if block else ""))
    return found


def examples() -> dict[str, str]:
    """The code block of each example by its name."""
    return {name: block for _, name, block in anchored_blocks("example")}


def without_anchors(text: str) -> str:
    """A page without its comments, and without the lines that they leave empty."""
    return COMMENT.sub("", re.sub(r"^<!--.*?-->\n+", "", text, flags=re.S | re.M))
