#!/usr/bin/env python3
"""Inputs that are cut after each of their bytes, and inputs with a byte flipped, doubled or dropped, on the built program.

    .ci/program/damage.py [PROGRAM]     crates/nagsched/out/nagsched if no program is named

A cut inside a line is refused with that line's number. After a cut at a line's end the lines so far count, and are answered as in the whole
input. A damaged input runs or is refused: status 0 or 1, with whole lines. The damaged bytes follow from one seed.
"""
import os
import random
import re
from concurrent.futures import ThreadPoolExecutor

from harness import EXAMPLES, TOP, Harness

SEED, EACH = 7, 400
CASES = TOP / "conformance"
DRILL = ["drill", "--workers", "1"]
# Name, arguments, input and output of the whole.
RUNS = [
    ("each word", [], CASES / "worked/each-word", CASES / "worked/each-word.stdout"),
    ("the office", [], CASES / "worked/office-and-operators", CASES / "worked/office-and-operators.stdout"),
]
DRILLS = [
    ("a drill", DRILL, CASES / "rows/drill/one-worker", CASES / "rows/drill/one-worker.stdout"),
    ("the office's drill", DRILL, EXAMPLES / "drill.txt", EXAMPLES / "drill.out"),
]
DAMAGES = {
    "flipped": lambda byte, bit: bytes([byte ^ 1 << bit]),
    "doubled": lambda byte, bit: bytes([byte, byte]),
    "dropped": lambda byte, bit: b"",
}
ANSWER = re.compile(rb"(taken|putoff|idle|atlimit|standing|freed|done|refused C\d)( [^\n]*)?\n")
REFUSED = re.compile(rb"refused [LS]\d+ [^\n]*\n")


def run_output(answers, commands):
    """The output of a run that has got only this number of its commands."""
    return b"".join(answers[: len(commands)])


def drill_output(answers, commands):
    """The output of one worker that has got only this number of lines: two lines for a moment at which it took a check, otherwise one."""
    history = []
    for _ in (command for command in commands if command.startswith(b'["moment"')):
        at = len(history)
        history += answers[at : at + 2] if b" taken " in answers[at] else answers[at : at + 1]
    return b"".join([*history, b"total %d 0\n" % len(history)])


def expected_after_cut(given, count, answers, written):
    """The wanted output and status for an input that is cut after this number of bytes."""
    front = given[:count]
    if count and (given[count : count + 1] in (b"", b"\n") or front.endswith(b"\n")):
        return written(answers, [line for line in front.splitlines()[1:] if line]), 0
    number = front.count(b"\n") + 1
    return (b"refused L1 NotJson\n" if number == 1 else b"refused S2 NotJson %d\n" % number), 1


def check_cuts(harness, several, name, arguments, given, answers, written):
    """An input that is cut after each of its bytes."""
    came = several(lambda count: harness.run(arguments, given[:count]), range(len(given) + 1))
    otherwise = [at for at, it in enumerate(came) if it != expected_after_cut(given, at, answers, written)]
    harness.compare(f"{name}, cut after so many bytes", [], otherwise)


def is_refused_or_run(copy, written, status):
    """Whether a damaged input was refused by one line, or run: a line for each of its commands, or a history and its total."""
    if status == 1:
        return REFUSED.fullmatch(written) is not None
    answers = written.splitlines(keepends=True)
    if answers and answers[-1].startswith(b"total "):
        history = [answer.removeprefix(b"0 ") for answer in answers[:-1]]
        return status == 0 and answers[-1] == b"total %d 0\n" % len(history) and all(map(ANSWER.fullmatch, history))
    commands = [line for line in copy.split(b"\n")[1:] if line.strip(b" \t\r")]
    return status == 0 and len(answers) == len(commands) and all(map(ANSWER.fullmatch, answers))


def check_damages(harness, several, name, arguments, given, chance):
    """Copies of an input with one of its bytes damaged."""
    for kind, damage in DAMAGES.items():
        places = [(chance.randrange(len(given)), chance.randrange(8)) for _ in range(EACH)]
        copies = [given[:at] + damage(given[at], bit) + given[at + 1 :] for at, bit in places]
        came = several(lambda copy: harness.run(arguments, copy), copies)
        otherwise = [place for place, copy, it in zip(places, copies, came) if not is_refused_or_run(copy, *it)]
        harness.compare(f"{name}, a byte {kind}", [], otherwise)


def main():
    harness = Harness("damage")
    chance = random.Random(SEED)
    with ThreadPoolExecutor(os.cpu_count()) as threads:
        for rows, written in ((RUNS, run_output), (DRILLS, drill_output)):
            for name, arguments, given, answers in rows:
                given, answers = given.read_bytes(), answers.read_bytes().splitlines(keepends=True)
                check_cuts(harness, threads.map, name, arguments, given, answers, written)
                check_damages(harness, threads.map, name, arguments, given, chance)
    harness.end()


main()
