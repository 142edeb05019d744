#!/usr/bin/env python3
"""Tests the refusals of saved states, their limits, and the effects of damage to them.

    .ci/program/saved.py PROGRAM

Each refusal names its fault and the index of its object, and comes in its order. Each number is accepted at its limits and refused one past them. A state
of 16 MiB is read, and one byte more is refused. 4,096 objects are saved and resumed. A state of three objects is damaged at each of its bytes, and each of
its members is dropped. The result is a named refusal, or a scheduler whose later answers are lawful. `live` answers each refusal as `run` does.
"""
from __future__ import annotations

import copy
import json
import os
import re
from concurrent.futures import ThreadPoolExecutor
from typing import Any, Callable, Iterator, NamedTuple

from harness import Harness

MOST_BYTES = 16_777_216
MOST_OBJECTS = 4_096
LAST_MOMENT, LAST_TIME = 2**60, 2**61
LONGEST_INTERVAL = 525_600 * 86_400 * 1_000
SETUP = {"hosts": [{"name": "h", "max_check_attempts": 3}],
         "services": [{"host": "h", "description": "s", "max_check_attempts": 4}, {"host": "h", "description": "t", "max_check_attempts": 1}]}
# After the first takes: `h` is a soft problem, `h;s` is running and forced, `h;t` was never checked and is off.
BEFORE = ['["take",0]', '["report","h",1,2]', '["take",0]', '["reschedule","h;s",5,true]', '["enable","h;t",false]', '["save"]']
BEHIND = ['["status","h"]', '["status","h;s"]', '["status","h;t"]', '["report","h;s",2,2]', '["take",99999999]', '["report","h",3,0]', '["take",99999999]',
          '["report","h;s",4,1]', '["save"]']
MAXIMA = {"h": 3, "h;s": 4, "h;t": 1}
STATES = {True: {"PENDING", "UP", "DOWN", "UNREACHABLE"}, False: {"PENDING", "OK", "WARNING", "CRITICAL", "UNKNOWN"}}
REFUSAL = re.compile(r"refused K(?:1 TooLong|2 NotJson|3 Version|4 Shape(?: \d+)?|5 TooMany|6 BadName \d+|7 Duplicate \d+|8 Range(?: \d+)?|9 Unlawful \d+)\n")
State = dict[str, Any]


class Answer(NamedTuple):
    """The program's output, and its status."""

    text: str
    status: int


def answer_after(harness: Harness, state: str, behind: list[str], word: str = "run", setup: State = SETUP) -> Answer:
    """The program's answers after a state."""
    given = "\n".join([json.dumps(setup), state, *behind, ""]).encode(errors="surrogateescape")
    written, status = harness.run([word, "--resume"], given)
    return Answer(written.decode(errors="replace"), status)


def saved_state(harness: Harness, setup: State, commands: list[str]) -> str:
    """The state after these commands."""
    given = "\n".join([json.dumps(setup), *commands, ""]).encode()
    return harness.run(["run"], given)[0].decode().splitlines()[-1].removeprefix("saved ")


# ---- refusals


class Fault(NamedTuple):
    """A change of the state, and the line that refuses it, which is empty if it is accepted."""

    change: Callable[[State], Any]
    line: str


def with_members(**members: Any) -> Callable[[State], Any]:
    """Sets members of the whole."""
    return lambda state: state.update(members)


def with_object_members(index: int, **members: Any) -> Callable[[State], Any]:
    """Sets members of an object."""
    return lambda state: state["objects"][index].update(members)


def without_member(index: int, member: str) -> Callable[[State], Any]:
    """Drops a member of an object."""
    return lambda state: state["objects"][index].pop(member)


def with_all(*changes: Callable[[State], Any]) -> Callable[[State], Any]:
    """Makes several changes."""
    return lambda state: [change(state) for change in changes]


def limit_faults() -> Iterator[Fault]:
    """Each number at its limits, and one past them."""
    for member, most in (("start", LAST_MOMENT), ("runs", LAST_MOMENT)):
        yield Fault(with_members(**{member: most}), "")
        yield Fault(with_members(**{member: most + 1}), "refused K8 Range")
    yield Fault(with_object_members(0, next_check=LAST_TIME), "")
    yield Fault(with_object_members(0, next_check=LAST_TIME + 1), "refused K8 Range 0")
    yield Fault(with_object_members(1, run={"number": 2, "start": LAST_MOMENT}), "")
    yield Fault(with_object_members(1, run={"number": 2, "start": LAST_MOMENT + 1}), "refused K8 Range 1")
    for member in ("attempt", "max_check_attempts"):
        yield Fault(with_object_members(2, **{member: 0}), "refused K8 Range 2")
        yield Fault(with_object_members(2, **{member: 256}), "refused K8 Range 2")
    yield Fault(with_object_members(2, max_check_attempts=255), "")
    yield Fault(with_object_members(0, check_interval=LONGEST_INTERVAL), "")
    yield Fault(with_object_members(0, check_interval=LONGEST_INTERVAL + 1), "refused K8 Range 0")
    yield Fault(with_object_members(0, results="d" * 21), "")
    yield Fault(with_object_members(0, results="d" * 22), "refused K9 Unlawful 0")
    for name, line in (("n" * 255, ""), ("n" * 256, "refused K6 BadName 0"), ("n" * 255 + ";" + "d" * 255, "refused K9 Unlawful 0"),
                       ("n" * 255 + ";" + "d" * 256, "refused K6 BadName 0"), ("", "refused K6 BadName 0"), (";d", "refused K6 BadName 0"),
                       ("n;", "refused K6 BadName 0"), ("n;d;e", "refused K6 BadName 0"), ("a\tb", "refused K6 BadName 0"), ("a\x7fb", "refused K6 BadName 0")):
        yield Fault(with_object_members(0, name=name), line)


def shape_faults(state: State) -> Iterator[Fault]:
    """Each member without its value, with one of another kind, and one more."""
    for member in state:
        yield Fault(lambda state, member=member: state.pop(member), "refused K4 Shape")
        yield Fault(with_members(**{member: True}), "refused K4 Shape")
    for member in state["objects"][1]:
        yield Fault(without_member(1, member), "refused K4 Shape 1")
        yield Fault(with_object_members(1, **{member: []}), "refused K4 Shape 1")
    for member in ("number", "start"):
        yield Fault(lambda state, member=member: state["objects"][1]["run"].pop(member), "refused K4 Shape 1")
    yield Fault(with_members(more=1), "refused K4 Shape")
    yield Fault(with_object_members(0, more=1), "refused K4 Shape 0")
    yield Fault(with_object_members(0, state="PENDING"), "refused K4 Shape 0")
    yield Fault(with_object_members(0, results="dx"), "refused K4 Shape 0")
    yield Fault(with_object_members(0, kind="soft"), "refused K4 Shape 0")
    yield Fault(with_object_members(0, attempt=1.0), "refused K4 Shape 0")
    yield Fault(lambda state: state["objects"].__setitem__(2, 5), "refused K4 Shape 2")


def unlawful_states() -> Iterator[Fault]:
    """States that no scheduler can have."""
    changes = {
        0: [{"state": "OK"}, {"last_hard_state": "OK"}, {"results": "w"}, {"attempt": 3}, {"kind": "HARD"}, {"checked": False},
            {"forced": True, "next_check": None}],
        1: [{"state": "UP"}, {"run": {"number": 0, "start": 0}}, {"run": {"number": 3, "start": 0}}, {"flapping": "FLAPPING"}],
        2: [{"attempt": 2, "max_check_attempts": 1}, {"state": "CRITICAL"}, {"run": {"number": 2, "start": 0}}],
    }
    for index, each in changes.items():
        for members in each:
            yield Fault(with_object_members(index, **members), f"refused K9 Unlawful {index}")


def standing_faults() -> Iterator[Fault]:
    """Facts of a host with a maximum of 3 attempts that are possible, and ones that aren't."""
    for state, kind, attempt, last, is_lawful_one in [
        ("DOWN", "SOFT", 2, "UP", True), ("DOWN", "SOFT", 3, "UP", False), ("DOWN", "SOFT", 1, "DOWN", False), ("DOWN", "HARD", 3, "DOWN", True),
        ("DOWN", "HARD", 3, "UP", True), ("DOWN", "HARD", 2, "DOWN", False), ("UP", "SOFT", 3, "UP", True), ("UP", "SOFT", 4, "UP", False),
        ("UP", "HARD", 1, "UP", True), ("UP", "HARD", 1, "DOWN", False),
    ]:
        line = "" if is_lawful_one else "refused K9 Unlawful 0"
        yield Fault(with_object_members(0, state=state, kind=kind, attempt=attempt, last_hard_state=last), line)


def order_faults() -> Iterator[Fault]:
    """Two faults: the one that is tested first is reported, and of one test the first object."""
    faults = [(with_members(format=2), "refused K3 Version"), (with_object_members(2, state=1), "refused K4 Shape 2"), (with_object_members(2, name=""), "refused K6 BadName 2"),
              (with_object_members(1, name="h"), "refused K7 Duplicate 1"), (with_object_members(0, attempt=0), "refused K8 Range 0"), (with_object_members(0, state="OK"), "refused K9 Unlawful 0")]
    for place, (first, line) in enumerate(faults):
        for later, _ in faults[place + 1 :]:
            yield Fault(with_all(later, first) if line != "refused K7 Duplicate 1" else with_all(first, later), line)
    yield Fault(with_all(with_object_members(0, name=""), with_object_members(1, name="")), "refused K6 BadName 0")
    yield Fault(with_members(format=0), "refused K3 Version")
    yield Fault(with_members(format=1.0), "refused K4 Shape")
    yield Fault(with_members(format="1"), "refused K4 Shape")


def refusal_results(harness: Harness, text: str) -> Iterator[tuple[str, bool]]:
    """Each refusal, by `run` and by `live`."""
    state = json.loads(text)
    for number, fault in enumerate([*limit_faults(), *shape_faults(state), *unlawful_states(), *standing_faults(), *order_faults()]):
        changed = copy.deepcopy(state)
        fault.change(changed)
        line = json.dumps(changed, ensure_ascii=False)
        wanted = Answer(fault.line + "\n", 1) if fault.line else Answer("", 0)
        for word in ("run", "live"):
            answer = answer_after(harness, line, [], word)
            yield f"{word}, change {number} of a state: wanted {wanted}, came {answer}", answer == wanted


# ---- sizes


def size_results(harness: Harness, text: str) -> Iterator[tuple[str, bool]]:
    """States at the limit of bytes and of objects."""
    padded = text + " " * (MOST_BYTES - len(text.encode()))
    yield "16 MiB", answer_after(harness, padded, []) == Answer("", 0)
    yield "16 MiB and a byte", answer_after(harness, padded + " ", []) == Answer("refused K1 TooLong\n", 1)
    yield "nothing", answer_after(harness, "", ['["take",0]']) == Answer("refused K2 NotJson\n", 1)
    yield "a refused setup comes first", answer_after(harness, "", [], setup={"hots": []}) == Answer("refused L2 Shape document\n", 1)
    hosts = [{"name": f"host-{number:024}", "max_check_attempts": 1 + number % 5} for number in range(MOST_OBJECTS)]
    results = [line for number in range(200) for line in ('["take",0]', f'["report","host-{number:024}",{number + 1},{number % 3}]')]
    setup = {"options": {"host_inter_check_delay_method": "n"}, "hosts": hosts}
    many = saved_state(harness, setup, [*results, '["save"]'])
    again = answer_after(harness, many, ['["save"]'], setup=setup)
    yield "4,096 objects come back", again == Answer(f"saved {many}\n", 0)
    state = json.loads(many)
    state["objects"].append({**state["objects"][0], "name": "one more"})
    yield "4,097 objects", answer_after(harness, json.dumps(state), [], setup=setup) == Answer("refused K5 TooMany\n", 1)


# ---- damage


def is_lawful(answer: Answer) -> bool:
    """Whether this is a named refusal, or the answers of a scheduler that can be."""
    if answer.status == 1:
        return REFUSAL.fullmatch(answer.text) is not None
    return answer.status == 0 and all(is_lawful_line(line) for line in answer.text.splitlines())


def is_lawful_line(line: str) -> bool:
    """Whether a line is one that a lawful scheduler answers."""
    word, *rest = line.split(" ")
    if word != "standing":
        return word in ("taken", "putoff", "idle", "freed", "done", "saved", "refused")
    state, kind, attempt, _, _, _, name = rest
    most = MAXIMA[name]
    is_problem = state not in ("PENDING", "OK", "UP")
    is_fit = not is_problem or (int(attempt) == most if kind == "HARD" else int(attempt) < most)
    return state in STATES[";" not in name] and 1 <= int(attempt) <= most and is_fit


def damaged_texts(text: str) -> Iterator[str]:
    """The text with each of its bytes changed in turn, and with each member dropped."""
    for place, letter in enumerate(text):
        for other in {chr(ord(letter) ^ 1), "0" if letter != "0" else "9", "x"} - {"\n", letter}:
            yield text[:place] + other + text[place + 1 :]
        yield text[:place] + text[place + 1 :]
    state = json.loads(text)
    for index, each in enumerate(state["objects"]):
        for member in each:
            without_it = copy.deepcopy(state)
            del without_it["objects"][index][member]
            yield json.dumps(without_it)


def damage_results(harness: Harness, text: str) -> Iterator[tuple[str, bool]]:
    """The result of each damaged state."""
    states = list(damaged_texts(text))
    with ThreadPoolExecutor(os.cpu_count()) as threads:
        for state, answer in zip(states, threads.map(lambda state: answer_after(harness, state, BEHIND), states)):
            yield f"a damaged state: {state[:80]}..: {answer}", is_lawful(answer)


def main() -> None:
    """Makes all comparisons, and counts the results."""
    harness = Harness("saved")
    text = saved_state(harness, SETUP, BEFORE)
    for results in (refusal_results, size_results, damage_results):
        for what, is_right in results(harness, text):
            harness.compare(what, True, is_right)
    harness.end()


main()
