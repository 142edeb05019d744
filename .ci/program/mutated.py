#!/usr/bin/env python3
"""Mutated lines of a conversation on the built program: each is answered as a reading in Python says.

    .ci/program/mutated.py [PROGRAM [OTHER]]     crates/nagsched/out/nagsched if no program is named

A line is refused with the fault that the reading in Python names, and otherwise it is the same command as the line that Python writes of what it
read. With OTHER, a second program, 100,000 lines go through both, and their outputs are compared to the byte. The lines follow from one seed.
"""
from __future__ import annotations

import json
import random
import re
import subprocess
import sys
from typing import Any, Dict, List, Union

from harness import SECONDS, SERVICE, Harness

SEED, COUNT, COUNT_OF_TWO = 11, 20_000, 100_000
MOST_BYTES, DEEPEST, PAST_64_BITS = 4096, 127, 1 << 64
NAMES = ("h", "h;s")
LINES = [
    b'["take",0]', b'["take",300000]', b'[ "take" ,\t60000 ]', b'["report","h",1,0]', b'["report","h;s",1,2]', b'["report","h;s",2,3]',
    b'["abandon","h;s",1,60000]', b'["reschedule","h;s",90000,true]', b'["enable","h",false]', b'["status","h;s"]', b'["save"]',
]
NUMBERS = [
    b"1", b"7", b"18446744073709551615", b"18446744073709551616", b"99999999999999999999", b"01", b"-0", b"-1", b"+1", b"1.0", b"1e2", b"1E400", b"1e-400",
    b"1.", b".5", b"0x1", b"00", b"4", b"9007199254740993", b"1e", b"NaN", b"Infinity", b"true", b"null", b'"1"', b"9" * 400, b"0" * 20,
]
TEXTS = [
    b'"take"', b'"\\u0074ake"', b'"tak\\u0065"', b'"report"', b'"re\\u0070ort"', b'"h"', b'"\\u0068"', b'"h\\u003bs"', b'"h;s"', b'"H"', b'"\\ud800"',
    b'"\\ud83d\\ude00"', b'"\xc3\xa9"', b'"\xc3"', b'"\xff"', b'"\t"', b'"\\x"', b'"', b'""', b"'h'", b'"take":1', b'"\\/"', b'"h\\u0000"',
]
PIECES = [b"[", b"]", b"{", b"}", b",", b":", b'"', b"\\", b" ", b"\t", b"\r", b"\0", b"\x0b", b"\xa0", b"\xef\xbb\xbf", b"/", b"0", b"e", b"-", b"[]", b"{}"]
NUMBER, TEXT = re.compile(rb"\d+"), re.compile(rb'"[^"]*"')


class NotJson(Exception):
    """A line that `serde_json` doesn't read."""


class Fraction:
    """A number that isn't a whole number from 0 to 2^64 - 1."""


class Fault(str):
    """Why a line is refused."""


def replace(line: bytes, what: "re.Pattern[bytes]", by: bytes, chance: random.Random) -> bytes:
    """The line with one of the matches replaced."""
    found = list(what.finditer(line))
    if not found:
        return line
    begin, end = chance.choice(found).span()
    return line[:begin] + by + line[end:]


def mutated(chance: random.Random) -> bytes:
    """A line with up to three changes; most of them keep what the line says."""
    line = chance.choice(LINES)
    for _ in range(chance.randrange(4)):
        at, kind = chance.randrange(len(line) + 1), chance.randrange(8)
        if kind == 0:
            line = replace(line, NUMBER, chance.choice(NUMBERS), chance)
        elif kind == 1:
            line = replace(line, NUMBER, str(chance.randrange(10 ** chance.randrange(1, 21))).encode(), chance)
        elif kind == 2:
            line = replace(line, TEXT, chance.choice(TEXTS), chance)
        elif kind == 3:
            line = line[:at] + chance.choice(PIECES) + line[at:]
        elif kind == 4:
            line = line[:at] + line[at + 1 :]
        elif kind == 5:
            line = line[:at] + bytes([chance.randrange(256)]) + line[at + 1 :]
        elif kind == 6:
            line = line[:at] + b" " * (MOST_BYTES - len(line) + chance.randrange(-1, 2)) + line[at:] if chance.randrange(20) == 0 else line + b" "
        else:
            depth = chance.choice([1, 2, 126, 127, 128])
            line = replace(line, NUMBER, b"[" * depth + b"]" * depth, chance)
    return line.replace(b"\n", b"")


def number(text: str) -> Union[int, Fraction]:
    """A number as `serde_json` reads it."""
    if float(text) in (float("inf"), float("-inf")):
        raise NotJson
    whole = text.isdecimal() and int(text)
    return whole if whole is not False and whole < PAST_64_BITS else Fraction()


def no_constant(text: str) -> None:
    raise NotJson


def depth(value: Any) -> int:
    """How deep a value nests. A text with half of a pair of surrogates isn't read."""
    if isinstance(value, dict):
        value = [*value.keys(), *value.values()]
    if isinstance(value, str) and any("\ud800" <= letter <= "\udfff" for letter in value):
        raise NotJson
    return 1 + max(map(depth, value), default=0) if isinstance(value, list) else 0


def read(line: bytes) -> Any:
    """The value of a line, or `NotJson`."""
    try:
        value = json.loads(line.decode("utf-8"), parse_int=number, parse_float=number, parse_constant=no_constant)
        deep = depth(value) > DEEPEST
    except (ValueError, RecursionError):
        raise NotJson from None
    if deep:
        raise NotJson
    return value


def is_number(value: Any) -> bool:
    return isinstance(value, int) and not isinstance(value, bool)


KINDS: Dict[str, List[Any]] = {
    "take": [is_number], "report": [None, is_number, is_number], "abandon": [None, is_number, is_number], "reschedule": [None, is_number, bool],
    "enable": [None, bool], "status": [None], "save": [],
}


def is_of(kind: Any, value: Any) -> bool:
    """Whether a member is of its kind: None is a name."""
    return isinstance(value, str) if kind is None else isinstance(value, bool) if kind is bool else is_number(value)


def meaning(line: bytes) -> Union[bytes, Fault]:
    """The command of a line as Python writes it, or the first fault."""
    if len(line) > MOST_BYTES:
        return Fault("S1 TooLong")
    try:
        value = read(line)
    except NotJson:
        return Fault("S2 NotJson")
    kinds = KINDS.get(value[0]) if isinstance(value, list) and value and isinstance(value[0], str) else None
    if kinds is None or len(kinds) != len(value) - 1 or not all(map(is_of, kinds, value[1:])):
        return Fault("S3 Shape")
    if value[0] == "report" and value[3] > 3:
        return Fault("S4 Code")
    if kinds and kinds[0] is None and value[1] not in NAMES:
        return Fault("S5 UnknownName")
    return json.dumps(value, separators=(",", ":")).encode()


def answers(program: str, lines: List[bytes]) -> List[bytes]:
    """The lines that `live` answers."""
    given = SERVICE + b"".join(line + b"\n" for line in lines)
    return subprocess.run([program, "live"], input=given, stdout=subprocess.PIPE, timeout=SECONDS, check=True).stdout.splitlines()


def main() -> None:
    harness = Harness("mutated")
    chance = random.Random(SEED)
    lines = [line for line in (mutated(chance) for _ in range(COUNT)) if line.strip(b" \t\r")]
    said = [meaning(line) for line in lines]
    came = answers(harness.program, lines)
    harness.compare("an answer for each line", len(lines), len(came))
    for number_, (line, what, answer) in enumerate(zip(lines, said, came), 2):
        if isinstance(what, Fault) or answer.startswith(b"refused S"):
            harness.compare(f"line {line!r}", f"refused {what} {number_}".encode() if isinstance(what, Fault) else "a command", answer)
    commands = [what for what in said if isinstance(what, bytes)]
    wanted = [answer for what, answer in zip(said, came) if isinstance(what, bytes)]
    harness.compare("the commands as Python writes them", wanted, answers(harness.program, commands))
    if len(sys.argv) > 2:
        many = [mutated(chance) for _ in range(COUNT_OF_TWO)]
        harness.compare("two programs", answers(sys.argv[2], many), answers(harness.program, many))
    harness.end()


if __name__ == "__main__":
    main()
