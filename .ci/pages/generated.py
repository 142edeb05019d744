#!/usr/bin/env python3
"""Writes the generated text of the pages, between <!-- generated: NAME --> and <!-- end -->.

    .ci/pages/generated.py

Tables of members come from docs/setup.schema.json, which `nagsched schema` writes. Counts of cases come from conformance/STATUS.tsv, counts of edits from their
folders, measured figures from bench/results/ (.ci/pages/figures.py), and promises with their clauses from .ci/pages/promises.py. The gate compares the pages with the output of this script.
"""
import collections
import json
import re
import sys

import figures
import promises
from anchors import GENERATED, PAGES, TOP, text_of

sys.path.append(str(TOP / "conformance"))
from cases import FOLDER, cases, wrong_rules

SCHEMA = json.loads((TOP / "docs/setup.schema.json").read_text(encoding="utf-8"))
# The part of the schema that each table of members describes.
OBJECTS = {
    "options": SCHEMA["properties"]["options"],
    "hosts": SCHEMA["properties"]["hosts"]["items"],
    "services": SCHEMA["properties"]["services"]["items"],
    "dependencies": SCHEMA["properties"]["service_dependencies"]["items"],
}


def value_of(part: dict[str, object]) -> str:
    """The possible values of a member, in words."""
    if "anyOf" in part:
        return ", ".join(value_of(one) for one in part["anyOf"])
    if "enum" in part or "const" in part:
        return ", ".join(f'`"{word}"`' for word in part.get("enum", [part.get("const")]))
    if part["type"] == "integer":
        return f"{part['minimum']:,} to {part['maximum']:,}"
    if part["type"] == "array":
        return "list of texts"
    if "maxLength" in part:
        return f"text, {part['minLength']} to {part['maxLength']} bytes"
    return {"boolean": "`true` or `false`", "string": "text"}[part["type"]]


def member_table(what: str) -> str:
    """The table of the members of an object of the setup. Members that a service shares with a host are left out, and so is what follows a colon."""
    rows = ["| Member | Value | Default | Meaning |", "|---|---|---|---|"]
    of_hosts = OBJECTS["hosts"]["properties"] if what == "services" else {}
    for name, part in OBJECTS[what]["properties"].items():
        if of_hosts.get(name) == part:
            continue
        default = "required" if name in OBJECTS[what].get("required", ()) else f"`{json.dumps(part['default'])}`"
        rows.append(f"| `{name}` | {value_of(part)} | {default} | {part['description'].partition(': ')[0]} |")
    return "\n" + "\n".join(rows) + "\n"


def case_counts() -> collections.Counter[str]:
    """The number of cases in each folder."""
    found = collections.Counter(str(case.file.parent.relative_to(FOLDER)) for case in cases())
    found["resumed"] = sum(1 for folder in (FOLDER / "resumed").iterdir() if folder.is_dir())
    return found


def generated_text(name: str) -> str:
    """The generated text of a name."""
    kind, _, of = name.partition(" of ")
    if kind == "members":
        return member_table(of)
    if kind == "cases":
        return f"{case_counts()[of] if of else sum(case_counts().values()):,}"
    if name == "wrong rules":
        return str(len(wrong_rules()))
    if kind == "edits":
        return str(sum(1 for _ in TOP.glob(f"crates/*/{of or '*'}/*.edit")))
    if kind == "promises":
        return promises.listed(of)
    if kind in figures.KINDS:
        return figures.generated(kind, of)
    raise KeyError(name)


def page_with_generated_text(page: str) -> str:
    """A page with its generated text."""
    return GENERATED.sub(lambda match: match[1] + generated_text(match[2]) + match[4], page)


def main() -> None:
    for page in PAGES:
        page.write_text(page_with_generated_text(text_of(page)), encoding="utf-8")


if __name__ == "__main__":
    main()
