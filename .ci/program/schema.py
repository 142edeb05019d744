#!/usr/bin/env python3
"""Compares the schema of a setup, the program and the tools: what one of them accepts, the others accept.

    .ci/program/schema.py [PROGRAM]     crates/nagsched/out/nagsched if no program is named

A part of the gate. `nagsched schema` writes docs/setup.schema.json. A document that names each member once is changed in one place at a time: each
number to its limits and one past them, each member to values of other kinds. Each required member is left out, and each object is given an unknown
member. Each name is changed to texts at and past its limits, and each criteria to all short texts of its letters. The program's first refusals of
kinds, ranges, counts and names have to come exactly when the schema refuses. The explanation of `check` has to name a member that the schema refuses
too. The setups that monitor/from_nagios/from_nagios.py writes follow the schema. .ci/pages/generated.py makes the tables of the pages from it.
"""
import copy
import itertools
import json
import re
import subprocess
import sys
from concurrent.futures import ThreadPoolExecutor

from harness import TOP, Harness

SCHEMA = json.loads((TOP / "docs/setup.schema.json").read_text(encoding="utf-8"))
MISSING = object()


def defaults(part):
    """The members of a part's objects that have a default. The thresholds of flapping are as far apart as they can be, so that each may have all its values."""
    known = SCHEMA["properties"][part]
    members = known.get("items", known)["properties"]
    ends = {name: {"low": "minimum", "high": "maximum"}.get(name.partition("_")[0], "default") for name in members}
    return {name: member[ends[name]] for name, member in members.items() if ends[name] in member}


# Each member once; the spare host and service are named by no other object.
DOCUMENT = {
    "options": defaults("options") | {"host_inter_check_delay_method": 250},
    "hosts": [
        {"name": "a", "max_check_attempts": 3},
        defaults("hosts") | {"name": "b", "parents": ["a"], "max_check_attempts": 3},
        {"name": "spare", "max_check_attempts": 3},
    ],
    "services": [
        {"host": "a", "description": "s", "max_check_attempts": 3},
        defaults("services") | {"host": "b", "description": "t", "max_check_attempts": 3},
        {"host": "b", "description": "spare", "max_check_attempts": 3},
    ],
    "service_dependencies": [defaults("service_dependencies") | {"dependent": "b;t", "master": "a;s", "criteria": "c"}],
    "host_dependencies": [defaults("host_dependencies") | {"dependent": "b", "master": "a", "criteria": "d"}],
}
NAMES = [("hosts", 2, "name"), ("services", 2, "description")]
KINDS = [None, True, -1, 1.5, "", "x", [], {}, ["x"], {"x": 1}]
TEXTS = ["n" * 255, "n" * 256, "n;", ";", "n\n", "\n", "n\u001f", "n\u0020", "n\u007f", "\u00e9", ""]


# The beginning of an explanation: a part of the document, an index in it, and the names there.
PLACE = re.compile(r'(\w+)(?: (\d+))?(?: "(?:[^"\\]|\\.)*"\.*(?: on "(?:[^"\\]|\\.)*"\.*)?)?: (.*)', re.S)
# The rest of an explanation if one member is at fault: its name, and an index if it is an item of a list.
MEMBER = re.compile(r'(?:a member |the member |)"(\w+)"(?: (\d+)(?= is))?')


# The kinds of JSON by their names in a schema.
KINDS_BY_NAME = {"object": dict, "array": list, "string": str, "boolean": bool, "integer": int}


def is_of_type(name, value):
    """Whether a value is of a kind of JSON. True and false aren't numbers."""
    return isinstance(value, KINDS_BY_NAME[name]) and (name == "boolean" or not isinstance(value, bool))


def value_faults(schema, value, path):
    """The faults of a value itself: its kind, its limits, its spelling."""
    tests = {
        "type": lambda name: is_of_type(name, value),
        "enum": lambda values: value in values,
        "const": lambda one: value == one,
        "minimum": lambda least: not is_of_type("integer", value) or value >= least,
        "maximum": lambda most: not is_of_type("integer", value) or value <= most,
        "minLength": lambda least: not isinstance(value, str) or len(value) >= least,
        "maxLength": lambda most: not isinstance(value, str) or len(value) <= most,
        "maxItems": lambda most: not isinstance(value, list) or len(value) <= most,
        "pattern": lambda pattern: not isinstance(value, str) or re.search(pattern, value) is not None,
        "not": lambda other: any(True for _ in faults(other, value)),
        "anyOf": lambda ways: any(not any(True for _ in faults(way, value)) for way in ways),
    }
    for word, test in tests.items():
        if word in schema and not test(schema[word]):
            yield path


def faults(schema, value, path=()):
    """The places at which a schema refuses a value, as the steps that lead there."""
    yield from value_faults(schema, value, path)
    if isinstance(value, dict):
        known = schema.get("properties", {})
        yield from ((*path, name) for name in schema.get("required", ()) if name not in value)
        for name, inner in value.items():
            if name in known:
                yield from faults(known[name], inner, (*path, name))
            elif schema.get("additionalProperties") is False:
                yield (*path, name)
    if isinstance(value, list) and "items" in schema:
        for index, inner in enumerate(value):
            yield from faults(schema["items"], inner, (*path, index))


def is_accepted(harness, document):
    """Whether the program takes the document."""
    line = json.dumps(document, ensure_ascii=False).encode() + b"\n"
    return not harness.run([], line)[0].startswith(b"refused L")


def explained_place(harness, document):
    """The place of the document's fault by `check`, as the steps that lead there; None if it only reports a count."""
    line = json.dumps(document, ensure_ascii=False).encode()
    told = harness.run(["check"], line)[0].decode().splitlines()[1]
    if told.startswith("there are "):
        return None
    part, index, rest = PLACE.fullmatch(told).groups()
    member = MEMBER.match(rest)
    named = () if part == "document" else (part,)
    inner = [step for step in (member.groups() if member else ()) if step is not None]
    return named + tuple(int(step) if step.isdigit() else step for step in ([index] if index else []) + inner)


def changed_document(path, value):
    """The document with another value at this place, or without it."""
    document = copy.deepcopy(DOCUMENT)
    inner = document
    for step in path[:-1]:
        inner = inner[step]
    if value is MISSING:
        del inner[path[-1]]
    else:
        inner[path[-1]] = value
    return document


def places(value, path=()):
    """Each place of a value, with the value there."""
    if path:
        yield path, value
    inner = value.items() if isinstance(value, dict) else enumerate(value) if isinstance(value, list) else ()
    for step, item in inner:
        yield from places(item, (*path, step))


def schema_at(path):
    """The part of the schema for a place."""
    part = SCHEMA
    for step in path:
        part = part["items"] if isinstance(step, int) else part["properties"][step]
    return part


def limits(part):
    """The numbers at the limits of a part of the schema, and one past them."""
    for one in [part, *part.get("anyOf", [])]:
        if one.get("type") == "integer":
            yield from (one["minimum"] - 1, one["minimum"], one["maximum"], one["maximum"] + 1)


def probes():
    """Documents, each with its change. No name that others use is lost, and no missing name is used."""
    yield "nothing", DOCUMENT
    for path, value in places(DOCUMENT):
        told = ".".join(map(str, path))
        named = path[-1] in ("name", "host", "description", "dependent", "master") or path[-2:-1] == ("parents",)
        for other in [*KINDS, *limits(schema_at(path))]:
            lost = named and isinstance(other, str) or path[-1] in ("hosts", "services") and other == []
            if not lost and not (path[-1] == "parents" and other == ["x"]):
                yield f"{told} = {other!r}", changed_document(path, other)
        if not isinstance(path[-1], int) and path[-1] not in ("hosts", "services"):
            yield f"without {told}", changed_document(path, MISSING)
        if isinstance(value, dict):
            yield f"{told} with an unknown member", changed_document(path, {**value, "unknown": 1})
    for path in NAMES:
        for text in TEXTS:
            yield f"{path} = {text!r}", changed_document(path, text)
    for which in ("service_dependencies", "host_dependencies"):
        for length in range(4):
            for letters in itertools.product("owucdpn, C", repeat=length):
                yield f"{which} criteria {''.join(letters)!r}", changed_document((which, 0, "criteria"), "".join(letters))
    for count in (4096, 4097):
        yield f"{count} hosts", {"hosts": [{"name": f"h{i}", "max_check_attempts": 1} for i in range(count)]}


def compare_document(harness, told, document):
    """Compares the program and its explanation with the schema, on one document."""
    refused = set(faults(SCHEMA, document))
    if is_accepted(harness, document) == bool(refused):
        return f"{told}: the schema {'refuses' if refused else 'takes'} it, the program doesn't"
    place = explained_place(harness, document) if refused else None
    if place is not None and place not in refused:
        return f"{told}: the schema refuses {refused}, the explanation is of {place}"
    return None


def compare_documents(harness):
    """Each changed document, by the schema and by the program."""
    with ThreadPoolExecutor() as threads:
        for wrong in threads.map(lambda probe: compare_document(harness, *probe), probes()):
            harness.compare("a document", None, wrong)


def check_from_nagios(harness):
    """The setup that monitor/from_nagios/from_nagios.py makes of Nagios's own files follows the schema."""
    office = TOP / "conformance/nagios"
    words = [sys.executable, str(TOP / "monitor/from_nagios/from_nagios.py"), str(office / "nagios.cfg"), str(office / "objects.precache")]
    made = subprocess.run(words, stdout=subprocess.PIPE, check=True).stdout
    harness.compare("what from_nagios.py writes", [], list(faults(SCHEMA, json.loads(made))))


def main():
    harness = Harness("schema")
    schema = (TOP / "docs/setup.schema.json").read_bytes()
    harness.compare("what `nagsched schema` writes", (schema, 0), harness.run(["schema"], b""))
    compare_documents(harness)
    check_from_nagios(harness)
    harness.end()


if __name__ == "__main__":
    main()
