#!/usr/bin/env python3
"""Two faults in one input: the program must report the one that is tested first.

    .ci/program/pairs.py [PROGRAM]     crates/nagsched/out/nagsched if no program is named

There is a smallest document for each fault at each place: of a setup, a line, a saved state and the arguments. Each two are merged. The order of the tests
is that of the tables of docs/errors.md, and inside an object that of the members in docs/setup.schema.json. Nothing is taken from the program.
"""
from __future__ import annotations

import itertools
import json
import os
import re
from concurrent.futures import ThreadPoolExecutor
from typing import Any, Callable, Iterable, Iterator, NamedTuple, Optional

from harness import TOP, Harness

PAGE = (TOP / "docs/errors.md").read_text(encoding="utf-8")
SCHEMA = json.loads((TOP / "docs/setup.schema.json").read_text(encoding="utf-8"))["properties"]
LIST_PARTS = ("hosts", "services", "service_dependencies", "host_dependencies")
LIMIT = 16_777_216
PAD = "\0"  # stands for more spaces than a document can have
LINE_LIMIT = 4_096
DROPPED = object()
Item = dict[str, Any]


def codes_of(heading: str) -> list[str]:
    """The refusals of a section's table, in its order, each once."""
    section = PAGE.partition(f"\n## {heading}\n")[2].partition("\n## ")[0]
    return list(dict.fromkeys(re.findall(r"^\| `refused (\w+ \w+)", section, re.M)))


def places() -> list[str]:
    """The parts of a document in the order in which each test visits them."""
    found = re.search(r"in the order (document,[a-z,\s]+)\.", PAGE)
    return ["_".join(word.split()) for word in found[1].split(",")] if found else []


SETUP_CODES, LINE_CODES, STATE_CODES = map(codes_of, ("A refused setup", "A refused line", "A refused saved state"))
PARTS = places()
# The rows of one refusal, in the order of the table.
UNKNOWN, MISSING, WRONG_KIND = range(3)


class Fault(NamedTuple):
    """A fault: its refusal, its place, and what it adds to a document. `at` is the place of the faulty item among those that it adds to the part."""

    code: str
    part: str
    adds: dict[str, Any]
    at: Optional[int] = None
    row: int = 0  # of two faults of one object: the row of the table, and the member
    member: str = ""
    change: Callable[[str], str] = lambda text: text

    def order(self, before: int) -> tuple[int, int, int, int, int]:
        """What decides which of two is reported, if there are this many items of the part before it."""
        member = list(properties(self.part)).index(self.member) if self.member in properties(self.part) else -1
        return (SETUP_CODES.index(self.code), PARTS.index(self.part) if self.part else -1, -1 if self.at is None else self.at + before, self.row, member)

    def line(self, before: int) -> str:
        place = f" {self.part}" if self.part else ""
        return f"refused {self.code}{place}{'' if self.at is None else f' {self.at + before}'}"


def properties(part: str) -> Item:
    schema = SCHEMA.get(part, {})
    return dict(schema.get("items", schema).get("properties", {}))


# ---- faults of a setup


def good_item(part: str, name: str) -> Item:
    """An item of a part, and the objects that it needs have names that begin with this one."""
    if part == "hosts":
        return {"name": name, "max_check_attempts": 1}
    if part == "services":
        return {"host": name, "description": "s", "max_check_attempts": 1}
    suffixes = (";s", ";t") if part == "service_dependencies" else ("", "2")
    return {"dependent": name + suffixes[0], "master": name + suffixes[1], "criteria": "o"}


def needed(part: str, name: str) -> dict[str, list[Item]]:
    """The objects that a good item of a part needs."""
    host = good_item("hosts", name)
    if part == "services":
        return {"hosts": [host]}
    if part == "service_dependencies":
        return {"hosts": [host], "services": [{**good_item("services", name), "description": letter} for letter in "st"]}
    return {"hosts": [host, {**host, "name": name + "2"}]} if part == "host_dependencies" else {}


def with_item(part: str, name: str, change: Item, drop: str = "") -> dict[str, Any]:
    item = {member: value for member, value in {**good_item(part, name), **change}.items() if member != drop}
    return {**needed(part, name), part: [item]}


def past_limits(part: Item) -> list[Any]:
    """Numbers next to the limits of a member."""
    for one in part.get("anyOf", [part]):
        if one.get("type") == "integer":
            return [one["maximum"] + 1] + ([one["minimum"] - 1] if one["minimum"] else [])
    return []


def shape_faults(name: str) -> Iterator[Fault]:
    yield Fault("L2 Shape", "document", {"hots": []})
    yield Fault("L2 Shape", "options", {"options": {"unknown": 1}}, row=UNKNOWN)
    for option in properties("options"):
        yield Fault("L2 Shape", "options", {"options": {option: None}}, row=WRONG_KIND, member=option)
    for part in LIST_PARTS:
        yield Fault("L2 Shape", part, {part: 5})
        yield Fault("L2 Shape", part, {part: [5]}, 0)
        yield Fault("L2 Shape", part, with_item(part, name, {"unknown": 1}), 0, UNKNOWN)
        for member, schema in properties(part).items():
            if "default" not in schema:
                yield Fault("L2 Shape", part, with_item(part, name, {}, member), 0, MISSING, member)
            yield Fault("L2 Shape", part, with_item(part, name, {member: None}), 0, WRONG_KIND, member)
    for part, letter in (("service_dependencies", "d"), ("host_dependencies", "w")):
        yield Fault("L2 Shape", part, with_item(part, name, {"criteria": letter}), 0, WRONG_KIND, "criteria")


def count_faults(name: str) -> Iterator[Fault]:
    hosts = [good_item("hosts", f"{name}{number}") for number in range(4_097)]
    yield Fault("L3 TooMany", "", {"hosts": hosts})
    yield Fault("L3 TooMany", "", {"hosts": [{**hosts[0], "parents": [f"{name}1"] * 16_385}, hosts[1]]})
    yield Fault("L3 TooMany", "", {**needed("host_dependencies", name), "host_dependencies": [good_item("host_dependencies", name)] * 16_385})


def name_faults(name: str) -> Iterator[Fault]:
    for bad in ("", f"{name};", f"{name}\t", name * 256):
        yield Fault("L4 BadName", "hosts", with_item("hosts", name, {"name": bad}), 0)
        yield Fault("L4 BadName", "services", with_item("services", name, {"description": bad}), 0)
    yield Fault("L5 Duplicate", "hosts", {"hosts": [good_item("hosts", name)] * 2}, 1)
    yield Fault("L5 Duplicate", "services", {**needed("services", name), "services": [good_item("services", name)] * 2}, 1)
    yield Fault("L6 UnknownHost", "hosts", with_item("hosts", name, {"parents": ["nobody"]}), 0)
    yield Fault("L6 UnknownHost", "services", with_item("services", name, {"host": f"nobody-{name}"}), 0, 0, "host")
    for part, others in (("service_dependencies", ("nobody;s", name)), ("host_dependencies", ("nobody", f"{name};s"))):
        for member in ("dependent", "master"):
            for other in others:
                service = {"services": [good_item("services", name)]} if other.endswith(";s") and other != "nobody;s" else {}
                yield Fault("L7 UnknownMaster", part, {**with_item(part, name, {member: other}), **service}, 0, 0, member)


def range_faults(name: str) -> Iterator[Fault]:
    for part in ("options", "hosts", "services"):
        for member, schema in properties(part).items():
            for number in past_limits(schema):
                adds = {"options": {member: number}} if part == "options" else with_item(part, name, {member: number})
                yield Fault("L8 Range", part, adds, None if part == "options" else 0, 0, member)
    yield Fault("L8 Range", "options", {"options": {"low_service_flap_threshold": 31}}, row=1, member="low_service_flap_threshold")


def cycle_faults(name: str) -> Iterator[Fault]:
    for part in ("service_dependencies", "host_dependencies"):
        yield Fault("L9 DependencyCycle", "", with_item(part, name, {"master": good_item(part, name)["dependent"]}))
    yield Fault("L10 ParentCycle", "", with_item("hosts", name, {"parents": [name]}))


def setup_faults(name: str) -> Iterator[Fault]:
    yield Fault("L12 TooLong", "", {}, change=lambda text: PAD + text)
    yield Fault("L1 NotJson", "", {}, change=lambda text: text[:-1])
    for faults in (shape_faults, count_faults, name_faults, range_faults, cycle_faults):
        yield from faults(name)


def merged(one: Fault, other: Fault) -> Optional[Item]:
    """The document with what both add; None if one part can't have both."""
    document: Item = {}
    for part in {**one.adds, **other.adds}:
        values = [fault.adds[part] for fault in (one, other) if part in fault.adds]
        if len(values) == 1:
            document[part] = values[0]
        elif all(isinstance(value, list) for value in values):
            document[part] = values[0] + values[1]
        elif all(isinstance(value, dict) for value in values) and not set(values[0]) & set(values[1]):
            document[part] = {**values[0], **values[1]}
        else:
            return None
    return document


def setup_pairs() -> Iterator[tuple[str, str, str]]:
    """Inputs with two faults, each with the line that refuses it, and a member that the explanation has to name."""
    for one, other in itertools.product(setup_faults("a"), setup_faults("b")):
        document = merged(one, other)
        if document is None or (one.part != other.part and one.order(0) > other.order(0)):
            continue
        before = len(one.adds.get(other.part, ())) if other.part in LIST_PARTS and isinstance(one.adds.get(other.part), list) else 0
        first, offset = (other, before) if other.order(before) < one.order(0) else (one, 0)
        text = other.change(one.change(json.dumps(document, separators=(",", ":"))))
        is_named = one.part == other.part == "options" and one.code == other.code
        yield text, first.line(offset), first.member if is_named else ""


def changes_of(fault: Fault) -> Item:
    """The members of the faulty item that a good one has otherwise."""
    item, usual = fault.adds[fault.part][0], good_item(fault.part, "a")
    return {member: item.get(member, DROPPED) for member in {**usual, **item} if item.get(member, DROPPED) != usual.get(member, DROPPED)}


def same_object_pairs() -> Iterator[tuple[str, str, str]]:
    """Two faults of one object."""
    faults = [fault for fault in setup_faults("a") if fault.at == 0 and isinstance(fault.adds[fault.part][0], dict)]
    for one, other in itertools.combinations(faults, 2):
        changes = {**changes_of(one), **changes_of(other)}
        if one.part != other.part or len(changes) < len(changes_of(one)) + len(changes_of(other)):
            continue
        item = {member: value for member, value in {**good_item(one.part, "a"), **changes}.items() if value is not DROPPED}
        adds = max(one.adds, other.adds, key=len)
        first = min(one, other, key=lambda fault: fault.order(0))
        yield json.dumps({**adds, one.part: [item]}), first.line(0), first.member if one.code == other.code else ""


# ---- faults of a line

GOOD_SETUP = '{"hosts":[{"name":"h","max_check_attempts":1}]}'
GOOD_CALL = ["report", "h", 1, 0]


def with_fault(code: str, call: list[Any]) -> list[Any]:
    """The call with a fault that is one of its members."""
    changes: dict[str, Callable[[], list[Any]]] = {"S3 Shape": lambda: call + [5], "S4 Code": lambda: [*call[:3], 4, *call[4:]],
                                                   "S5 UnknownName": lambda: [call[0], "nobody", *call[2:]]}
    return changes[code]() if code in changes else call


def faulty_line(codes: Iterable[str]) -> str:
    call = GOOD_CALL
    for code in codes:
        call = with_fault(code, call)
    text = json.dumps(call)
    text = text[:-1] if "S2 NotJson" in codes else text
    return text.ljust(LINE_LIMIT + 1) if "S1 TooLong" in codes else text


def line_pairs() -> Iterator[tuple[str, str, str]]:
    for one, other in itertools.product(LINE_CODES, repeat=2):
        both = faulty_line((one, other))
        yield f"{GOOD_SETUP}\n{both}\n", f"refused {min(one, other, key=LINE_CODES.index)} 2", ""
        yield f"{GOOD_SETUP}\n{faulty_line((one,))}\n{faulty_line((other,))}\n", f"refused {one} 2", ""
    for one in LINE_CODES:
        for fault in (fault for fault in setup_faults("a") if fault.code not in ("L3 TooMany", "L12 TooLong")):
            yield f"{fault.change(json.dumps(fault.adds))}\n{faulty_line((one,))}\n", fault.line(0), ""


# ---- faults of a saved state


class StateFault(NamedTuple):
    """A fault of the whole state (`whole`), or of the last of the objects that it adds."""

    code: str
    whole: Item
    objects: list[Item]
    change: Callable[[str], str] = lambda text: text

    def order(self, before: int) -> tuple[int, int]:
        return STATE_CODES.index(self.code), before + len(self.objects) - 1 if self.objects else -1

    def line(self, before: int) -> str:
        return f"refused {self.code}" + (f" {before + len(self.objects) - 1}" if self.objects else "")


def saved_object(name: str, **changes: Any) -> Item:
    return {"attempt": 1, "check_interval": 300_000, "checked": False, "enabled": True, "enabled_in_setup": True, "flapping": "STEADY", "forced": False,
            "kind": "HARD", "last_hard_state": "UP", "max_check_attempts": 3, "name": name, "next_check": 0, "results": "", "run": None, "state": "UP", **changes}


def state_faults(name: str) -> Iterator[StateFault]:
    good = saved_object(name)
    yield StateFault("K1 TooLong", {}, [], lambda text: PAD + text)
    yield StateFault("K2 NotJson", {}, [], lambda text: text[:-1])
    for version in (0, 2):
        yield StateFault("K3 Version", {"format": version}, [])
    for member in ("start", "runs"):
        yield StateFault("K4 Shape", {member: None}, [])
        yield StateFault("K8 Range", {member: 2**60 + 1}, [])
    yield StateFault("K4 Shape", {"unknown": 1}, [])
    for member in good:
        yield StateFault("K4 Shape", {}, [{**good, member: {}}])
        yield StateFault("K4 Shape", {}, [{other: value for other, value in good.items() if other != member}])
    yield StateFault("K5 TooMany", {"objects": [saved_object(f"{name}{number}") for number in range(4_097)]}, [])
    for bad in ("", f"{name};", f"{name}\t", name * 256):
        yield StateFault("K6 BadName", {}, [saved_object(bad)])
    yield StateFault("K7 Duplicate", {}, [good, good])
    out_of_range: list[Item] = [{"attempt": 0}, {"attempt": 256}, {"max_check_attempts": 0}, {"next_check": 2**61 + 1},
                                {"run": {"number": 1, "start": 2**60 + 1}}]
    for changes in out_of_range:
        yield StateFault("K8 Range", {}, [saved_object(name, **changes)])
    soft: Item = {"checked": True, "state": "DOWN", "kind": "SOFT", "attempt": 1, "results": "d"}
    unlawful: list[Item] = [{"state": "OK"}, {"attempt": 2}, {"flapping": "FLAPPING"}, {"forced": True, "next_check": None},
                            {"run": {"number": 0, "start": 0}}, {"run": {"number": 9, "start": 0}}, {**soft, "attempt": 3},
                            {**soft, "last_hard_state": "DOWN"}]
    for changes in unlawful:
        yield StateFault("K9 Unlawful", {}, [saved_object(name, **changes)])
    running: Item = {"run": {"number": 1, "start": 0}, "next_check": None}
    yield StateFault("K9 Unlawful", {}, [saved_object(name, **running), saved_object(f"{name}2", **running)])


def state_pairs() -> Iterator[tuple[str, str, str]]:
    for one, other in itertools.product(state_faults("a"), state_faults("b")):
        if set(one.whole) & set(other.whole) or ("objects" in {**one.whole, **other.whole} and one.objects + other.objects and "K5 TooMany" != one.code):
            continue
        state: Item = {"format": 1, "start": 0, "runs": 1, **one.whole, **other.whole}
        state["objects"] = [*state.get("objects", ()), *one.objects, *other.objects]
        before = len(state["objects"]) - len(other.objects)
        own = before - len(one.objects)
        is_later = other.order(before) < one.order(own)
        first, offset = (other, before) if is_later else (one, own)
        text = other.change(one.change(json.dumps(state, separators=(",", ":"))))
        yield f"{GOOD_SETUP}\n{text}\n", first.line(offset), ""
    for fault in state_faults("a"):
        bad = fault.change(json.dumps({"format": 1, "start": 0, "runs": 1, "objects": fault.objects, **fault.whole}))
        yield f'{{"hots":[]}}\n{bad}\n', "refused L2 Shape document", ""
        yield f"{GOOD_SETUP}\n{bad}\n{faulty_line(('S2 NotJson',))}\n", fault.line(0), ""


# ---- arguments

ARGUMENTS = ("runn", "run --start", "run --start x", f"run --start {2**60 + 1}", "run --unknown 1", "run --workers 2", "live --room 1", "check --line --resume",
             "drill --workers 0", "drill --workers 65", "drill --room 1000001", "schema --start 1", "run --start 1 --start 2", "run more")


def argument_pairs() -> Iterator[tuple[list[str], str]]:
    """Two faults of arguments, and a fault of the input after one."""
    for one, other in itertools.product(ARGUMENTS, repeat=2):
        yield [*one.split(), *other.split()[1:]], GOOD_SETUP
    for one in ARGUMENTS:
        for given in ("", '{"hots":[]}', f"{GOOD_SETUP}\n[", GOOD_SETUP):
            yield one.split(), given


# ---- all of them


def with_spaces(given: str) -> bytes:
    return given.replace(PAD, " " * (LIMIT + 1)).encode()


def compare_first_lines(harness: Harness, what: str, ways: list[list[str]], pairs: Iterable[tuple[str, str, str]]) -> None:
    """The first line of each input's answer, for each way to give it, and the member that the second line names."""
    jobs = [(words, *pair) for pair in pairs for words in ways]
    with ThreadPoolExecutor(os.cpu_count()) as threads:
        for (words, given, line, member), (came, status) in zip(jobs, threads.map(lambda job: harness.run(job[0], with_spaces(job[1])), jobs)):
            told = came.decode(errors="replace") if isinstance(came, bytes) else came
            first, _, rest = told.partition("\n")
            harness.compare(f"{what} {' '.join(words)}: {given[:400]}", (line, 1), (first, status))
            if member and words[0] == "check":
                harness.compare(f"{what}, explained: {given[:400]}", True, re.search(rf'\b{member}\b', rest.partition(": ")[2]) is not None or rest)


def main() -> None:
    harness = Harness("pairs")
    compare_first_lines(harness, "setup", [["check"]], setup_pairs())
    compare_first_lines(harness, "one object", [["check"]], same_object_pairs())
    compare_first_lines(harness, "lines", [["run"]], line_pairs())
    compare_first_lines(harness, "saved state", [["run", "--resume"]], state_pairs())
    for words, given in argument_pairs():
        harness.compare(f"arguments {words}", (b"refused words\n", 2), harness.run(words, given.encode()))
    harness.end()


if __name__ == "__main__":
    main()
