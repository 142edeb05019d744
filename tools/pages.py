#!/usr/bin/env python3
"""Writes the pages as they are installed: with the installed names of the programs, and with links only to installed pages.

    tools/pages.py DIRECTORY
"""
import pathlib
import re
import sys

TOP = pathlib.Path(__file__).resolve().parent.parent
# Pages for people who work on nagsched or audit it, who read them in the repository.
NOT_INSTALLED = {"DECISIONS", "embedding-rattle", "lock", "proofs"}
FILES = ("README.md", "CHANGELOG.md", *(f"docs/{page.name}" for page in sorted((TOP / "docs").glob("*.md")) if page.stem not in NOT_INSTALLED))
PICTURES = ("docs/office.svg", "docs/page.png", "docs/parts.svg", "docs/sequence.svg", "docs/setup.schema.json")
NAMES = (
    (r"crates/nagsched/out/nagsched\b", "nagsched"),
    (r"(?<![\w/])monitor/nagsched-(monitor|gearman-worker)\b(?!@)", r"nagsched-\1"),
    (r"(?<![\w/])tools/second_opinion\.py", "nagsched-second-opinion"),
    # A command that is run from a checkout keeps the path of the repository.
    (r"(?<!python3 )\b(?:c|python|monitor)/examples/", "examples/"),
    (r"\[docs/(\w+\.md)\]", r"[\1]"),
    (r"\]\((?:docs|\.\.)/", "]("),
)
NOTE = """> These pages are installed with the programs `nagsched`, `nagsched-monitor` and `nagsched-from-nagios`. The folder `examples` is next to them. Files under
> `crates/`, `c/`, `python/`, `monitor/`, `tools/`, `bench/` and `.ci/`, and pages without a link, are in the repository.

"""
# Texts about the repository, between these comments, and their replacements in an installation.
OF_THE_REPOSITORY = re.compile(r"<!-- repository: (\w+) -->\n(.*?)<!-- end -->\n*", re.DOTALL)
INSTEAD = {
    "build": """## An example

nagsched is installed with this page. This runs an example that is installed, too:

```
nagsched < examples/office.txt
```

""",
}
COMMENT = re.compile(r"^<!--.*?-->\n+|<!--.*?-->", re.DOTALL | re.MULTILINE)
LINK = re.compile(r"\[([^\]\[]*)\]\(([\w./-]+)(#[\w-]*)?\)")


def installed_page(text: str) -> str:
    """A page with the names of an installation, and with the commands that work there."""
    text = COMMENT.sub("", OF_THE_REPOSITORY.sub(lambda part: INSTEAD.get(part.group(1), ""), text))
    for old, new in NAMES:
        text = re.sub(old, new, text)
    there = {pathlib.PurePath(file).name for file in (*FILES, *PICTURES)}
    text = LINK.sub(lambda link: link.group(0) if link.group(2) in there or link.group(2).startswith("examples/") else link.group(1), text)
    head, _, rest = text.partition("\n\n")
    return f"{head}\n\n{NOTE}{rest}"


def main(directory: pathlib.Path) -> None:
    directory.mkdir(parents=True, exist_ok=True)
    for file in FILES:
        text = (TOP / file).read_text(encoding="utf-8")
        (directory / pathlib.PurePath(file).name).write_text(installed_page(text), encoding="utf-8")
    for file in PICTURES:
        (directory / pathlib.PurePath(file).name).write_bytes((TOP / file).read_bytes())


if __name__ == "__main__":
    main(pathlib.Path(sys.argv[1]))
