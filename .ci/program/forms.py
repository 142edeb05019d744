#!/usr/bin/env python3
"""Bad input on the built program in each form of answers: words, words with explanations, JSON.

    .ci/program/forms.py [PROGRAM]     crates/nagsched/out/nagsched if no program is named

The inputs are those of the cases of conformance/ that a run or a conversation refuses, as a whole or in one of their lines, others at limits of length, and
mutated lines. With --json each answer is one object on one line that says what the words say, and --explain leaves the words as they are. Each refusal has
one sentence, which is the same in both and on the standard error of a run. Exit statuses are those of the words.
"""
from __future__ import annotations

import contextlib
import json
import os
import random
import re
import subprocess
from concurrent.futures import ThreadPoolExecutor
from typing import Dict, Iterator, List, NamedTuple, Optional, Set, Tuple

from answers import Members, text_in_words
from harness import SECONDS, SERVICE, TOP, Harness, input_lines
from mutated import NotJson, is_number, mutated, read
from cases import cases

DOCUMENT, LINE = 16_777_216, 4_096
SEED, TOGETHER, ALONE = 23, 5_000, 300
# A refusal of a call that only the library makes.
OF_THE_LIBRARY = {"C1"}
MEMBERS = {"line", "answer", "code", "reason"}
OF_PLACES = {"id", "part", "index"}
# What is compared, the wanted and the actual value.
Row = Tuple[str, object, object]


def line_without_id(line: bytes) -> bytes:
    """A line without its id, which only --json reads: an object at its end with no other member."""
    begin = line.rfind(b"{") if len(line) <= LINE else -1
    while begin > 0:
        before = line[:begin].rstrip()
        with contextlib.suppress(NotJson):
            value = read(b"[" + line[begin:])
            members = value[0] if len(value) == 1 else None
            is_id = isinstance(members, dict) and list(members) == ["id"] and (isinstance(members["id"], str) or is_number(members["id"]))
            return before[:-1] + b"]" if is_id and before.endswith(b",") else line
        begin = line.rfind(b"{", 0, begin)
    return line


class Input(NamedTuple):
    """A standard input, and the options next to those of the form."""

    name: str
    options: Tuple[str, ...]
    given: bytes

    def without_ids(self) -> "Input":
        """The same requests as the forms in words have them."""
        return self._replace(given=b"\n".join(map(line_without_id, self.given.split(b"\n"))))


class Output(NamedTuple):
    text: str
    errors: str
    status: int


def options_of(arguments: List[str]) -> Optional[Tuple[str, ...]]:
    """The options of a case that `run` and `live` have too; none for a case that reads no input."""
    words, kept = iter(arguments), list[str]()
    for word in words:
        if word in ("--help", "-h", "--version", "-V", "schema", "help"):
            return None
        if word == "--start":
            kept += [word, next(words, "")]
        elif word == "--resume" or word.startswith("--start="):
            kept.append(word)
    return tuple(kept)


def at_limits() -> Iterator[Input]:
    """Inputs that are longer than a case's file should be."""
    saved: Members = {
        "attempt": 1, "check_interval": 300_000, "checked": False, "enabled": True, "enabled_in_setup": True, "flapping": "STEADY", "forced": False,
        "kind": "HARD", "last_hard_state": "UP", "max_check_attempts": 1, "next_check": 0, "results": "", "run": None, "state": "UP"}
    state = {"format": 1, "objects": [{**saved, "name": f"h{number}"} for number in range(4_097)], "runs": 0, "start": 0}
    yield Input("a long setup", (), b"{}" + b" " * DOCUMENT)
    yield Input("a long saved state", ("--resume",), SERVICE + b" " * (DOCUMENT + 1))
    yield Input("a saved state of many objects", ("--resume",), SERVICE + input_lines(json.dumps(state)))
    yield Input("long lines", (), SERVICE + b"5" * (LINE + 1) + b"\n" + b" " * LINE + b"5\n")


def inputs() -> Iterator[Input]:
    """Each input once."""
    found: Dict[Tuple[Tuple[str, ...], bytes], str] = {}
    for case in cases():
        options = options_of(case.arguments) if case.status in (0, 1) else None
        if options is not None:
            found.setdefault((options, case.given), case.name)
    yield from (Input(name, options, given) for (options, given), name in found.items())
    yield from at_limits()
    chance = random.Random(SEED)
    lines = [mutated(chance) + b"\n" for _ in range(TOGETHER)]
    yield Input("mutated lines", (), SERVICE + b"".join(lines))
    yield from (Input(f"mutated line {number}", (), SERVICE + b'["take",0]\n' + line) for number, line in enumerate(lines[:ALONE]))


def output_of(program: str, input_: Input, *words: str) -> Output:
    try:
        ran = subprocess.run([program, *words, *input_.options], input=input_.given, capture_output=True, timeout=SECONDS, check=False)
    except subprocess.TimeoutExpired:
        return Output("", f"it doesn't end within {SECONDS} seconds", -1)
    return Output(ran.stdout.decode(errors="replace"), ran.stderr.decode(errors="replace"), ran.returncode)


def answers_of(text: str) -> List[Members]:
    """The objects of an output, one on each line. Another output is a fault."""
    answers = [json.loads(line) for line in text.removesuffix("\n").split("\n") if text]
    if not all(isinstance(answer, dict) for answer in answers) or text and not text.endswith("\n"):
        raise ValueError("an answer isn't an object on a line")
    return answers


def with_sentences(text: str) -> List[Tuple[str, Optional[str]]]:
    """The lines of an output with explanations, each with the explanation that follows it."""
    lines: List[Tuple[str, Optional[str]]] = []
    for line in text.removesuffix("\n").split("\n") if text else []:
        if line.startswith("explained ") and lines and lines[-1][1] is None:
            lines[-1] = lines[-1][0], line.removeprefix("explained ")
        else:
            lines.append((line, None))
    return lines


def is_refusal(answer: Members) -> bool:
    return bool(answer["answer"] == "refused")


def silent_or_wrong(answers: List[Members]) -> List[Members]:
    """The answers whose explanation or members aren't as they should be: those that aren't refusals have no explanation."""
    wrong = []
    for answer in answers:
        is_refused = is_refusal(answer)
        sentence = answer.get("explanation")
        has_members = not is_refused or set(answer) - OF_PLACES - {"explanation"} == MEMBERS and type(answer["line"]) is int
        if not has_members or is_refused != isinstance(sentence, str) or is_refused and (not sentence or "\n" in sentence):
            wrong.append(answer)
    return wrong


def run_rows(run: Output, as_json: Output, conversation: List[Members]) -> Iterator[Row]:
    """A run that is refused says why on standard error, and says what a conversation says of the same line."""
    answers = answers_of(as_json.text)
    yield "run --json in words", (run.text, run.status), (text_in_words(answers), as_json.status)
    yield "run --json: refusals", [], silent_or_wrong(answers)
    sentence = answers[0].get("explanation") if run.status == 1 and answers else None
    wanted = "" if run.status == 0 else f"nagsched: {sentence}\n"
    yield "run: standard error", (wanted, wanted), (run.errors, as_json.errors)
    if run.status == 1:
        yield "run --json: one answer", 1, len(answers)
        yield "run --json: the answer of live --json", True, answers[0] in conversation


def rows_of(program: str, input_: Input) -> Tuple[List[Row], Set[str]]:
    """The rows of an input in all forms, and the codes of its refusals."""
    run_json, as_json = (output_of(program, input_, word, "--json") for word in ("run", "live"))
    run, live, explained = (output_of(program, input_.without_ids(), *words) for words in (("run",), ("live",), ("live", "--explain")))
    codes = set(re.findall(r"^refused ([LKSC]\d+)\b", live.text, re.M))
    try:
        answers = answers_of(as_json.text)
        codes |= {str(answer["code"]) for answer in answers if is_refusal(answer)}
        lines = with_sentences(explained.text)
        rows: List[Row] = [
            ("live --json in words", live.text, text_in_words(answers)),
            ("live --explain without its explanations", live.text, "".join(f"{line}\n" for line, _ in lines)),
            ("statuses", (live.status,) * 2, (as_json.status, explained.status)),
            ("standard error of conversations", ("",) * 3, (live.errors, as_json.errors, explained.errors)),
            ("live --json: refusals", [], silent_or_wrong(answers)),
            ("explanations", [answer.get("explanation") for answer in answers], [why for line, why in lines if not line.startswith("object ")]),
            *run_rows(run, run_json, answers)]
    except (ValueError, KeyError) as error:
        return [("the answers as JSON", None, f"{type(error).__name__}: {error}")], codes
    return rows, codes


def main() -> None:
    harness = Harness("forms")
    wanted = set(re.findall(r"`refused ([LKSC]\d+)\b", (TOP / "docs/errors.md").read_text(encoding="utf-8"))) - OF_THE_LIBRARY
    refused, seen = 0, set[str]()
    all_inputs = list(inputs())
    with ThreadPoolExecutor(os.cpu_count()) as threads:
        for input_, (rows, codes) in zip(all_inputs, threads.map(lambda each: rows_of(harness.program, each), all_inputs)):
            refused += bool(codes)
            seen |= codes
            # An input that isn't refused says nothing here.
            for what, right, came in rows if codes else []:
                harness.compare(f"{input_.name}: {what}", right, came)
    harness.compare("the refusals of docs/errors.md that no input has", set(), wanted - seen)
    print(f"forms: {refused} of {len(all_inputs)} inputs are refused somewhere")
    harness.end()


if __name__ == "__main__":
    main()
