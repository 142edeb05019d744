#!/usr/bin/env python3
"""Draws the picture of docs/lock.md: callers at the lock, step by step, with the lock's words after each step.

    tools/lanes.py > docs/lanes.svg

The steps are a list here. What each step finds and changes is worked out by the lock's rule, so the picture can't show a word that the rule doesn't lead to.
"""
import dataclasses
import sys
from typing import Iterator, List, NamedTuple, Optional

FIRST, STEP = 123, 62
LANES = {"P": (72, "calls 5, 0"), "Q": (142, "calls 7"), "R": (212, "glances")}
WORDS = ("next ticket", "G0", "G1", "G2", "G3", "B", "entries")
# Who does what: a call is posted with the number that it adds.
STEPS = (("P", "draw"), ("Q", "draw"), ("Q", "look"), ("P", "look"), ("P", "post 5"), ("R", "glance"), ("P", "leave"),
         ("P", "draw"), ("P", "look"), ("Q", "look"), ("Q", "post 7"), ("Q", "leave"), ("P", "look"), ("P", "leave"))
LEGEND = ("Purple: a caller waits (pale), then has the book (strong). Yellow: the step changed this word. "
          "P's second call adds nothing to the sum, so it isn't posted.")


class Phase(NamedTuple):
    """A time in which a caller waits or has the book."""

    caller: str
    words: str
    begin: int
    end: int
    holds: bool


@dataclasses.dataclass
class Caller:
    """A caller: its ticket, since which step it waits or holds, and whether its call is posted."""

    ticket: Optional[int] = None
    since: int = 0
    holds: bool = False
    posted: bool = False


class Lock:
    """The lock's words, the book's entries and the callers. Every step gives the words that stand above it in the picture."""

    def __init__(self) -> None:
        self.next_ticket, self.grants, self.board, self.entries = 0, [0, 0, 0, 0], 0, 0
        self.callers = {name: Caller() for name in LANES}
        self.phases: List[Phase] = []

    def words(self) -> List[int]:
        return [self.next_ticket, *self.grants, self.board, self.entries]

    def step(self, number: int, name: str, step: str) -> str:
        what, _, value = step.partition(" ")
        steps = {"draw": self.draw, "look": self.look, "post": self.post, "leave": self.leave, "glance": self.glance}
        return steps[what](number, name, self.callers[name], value)

    def draw(self, number: int, _name: str, caller: Caller, _value: str) -> str:
        caller.ticket, caller.since = self.next_ticket, number
        self.next_ticket += 1
        return "draws"

    def look(self, number: int, name: str, caller: Caller, _value: str) -> str:
        assert caller.ticket is not None
        word = caller.ticket % len(self.grants)
        if self.grants[word] == caller.ticket:
            self.phases.append(Phase(name, f"waits with ticket {caller.ticket}", caller.since, number, False))
            caller.holds, caller.since = True, number
        return f"sees G{word}"

    def post(self, _number: int, _name: str, caller: Caller, value: str) -> str:
        assert caller.holds
        self.board, self.entries, caller.posted = self.board + int(value), self.entries + 1, True
        return f"posts {value}"

    def leave(self, number: int, name: str, caller: Caller, _value: str) -> str:
        assert caller.holds and caller.ticket is not None
        self.phases.append(Phase(name, "has the book" if number - caller.since > 1 else "has it", caller.since, number, True))
        self.entries += not caller.posted
        self.grants[(caller.ticket + 1) % len(self.grants)] = caller.ticket + 1
        self.callers[name] = Caller()
        return "leaves"

    def glance(self, _number: int, _name: str, _caller: Caller, _value: str) -> str:
        return "sees B"


def text(x: int, y: int, size: int, fill: str, anchor: str, words: object, bold: bool = False) -> str:
    weight = ' font-weight="bold"' if bold else ""
    return f'<text x="{x}" y="{y}" font-size="{size}" fill="{fill}" text-anchor="{anchor}"{weight}>{words}</text>'


def line(x1: int, y1: int, x2: int, y2: int, color: str) -> str:
    return f'<line x1="{x1}" y1="{y1}" x2="{x2}" y2="{y2}" stroke="{color}"/>'


def column(number: int) -> int:
    return FIRST + STEP * number


def backdrop() -> Iterator[str]:
    """The numbers of the steps above, and a lane for each caller."""
    for number in range(len(STEPS) + 1):
        yield line(column(number), 26, column(number), 396, "#eee")
        yield text(column(number), 18, 11, "#888", "middle", number or "opening")
    for name, (y, _) in LANES.items():
        yield text(12, y + 4, 15, "#333", "start", name, True)
        yield line(88, y, column(len(STEPS)) + 31, y, "#bbb")
    for _, (y, note) in LANES.items():
        yield text(32, y + 4, 11, "#777", "start", note)


def phase_bar(phase: Phase) -> Iterator[str]:
    y = LANES[phase.caller][0]
    fill, ink = ("#7d4fa3", "white") if phase.holds else ("#d5c3e6", "#222")
    begin, end = column(phase.begin), column(phase.end)
    yield f'<rect x="{begin}" y="{y - 10}" width="{end - begin}" height="20" fill="{fill}" stroke="#666" stroke-width="0.5"/>'
    yield text((begin + end) // 2, y + 4, 11, ink, "middle", phase.words)


def word_row(number: int, name: str, values: List[int]) -> Iterator[str]:
    """A word of the lock after each step; a step that changed it is marked."""
    y = 270 + 20 * number
    yield text(12, y, 12, "#333", "start", name, True)
    for step, value in enumerate(values):
        changed = step > 0 and values[step - 1] != value
        if changed:
            yield f'<rect x="{column(step) - 14}" y="{y - 13}" width="28" height="17" rx="3" fill="#f6e3a1"/>'
        yield text(column(step), y, 12, "#222" if changed else "#999", "middle", value, changed)


def picture() -> Iterator[str]:
    lock = Lock()
    told, words = [], [lock.words()]
    for number, (name, step) in enumerate(STEPS, 1):
        told.append(lock.step(number, name, step))
        words.append(lock.words())
    width = column(len(STEPS)) + 45
    yield f'<svg xmlns="http://www.w3.org/2000/svg" width="{width}" height="440" viewBox="0 0 {width} 440" font-family="sans-serif">'
    yield f'<rect width="{width}" height="440" fill="white"/>'
    yield from backdrop()
    for phase in sorted(lock.phases, key=lambda it: (it.caller, it.begin)):
        yield from phase_bar(phase)
    for number, (name, step) in enumerate(STEPS, 1):
        if step == "glance":
            yield f'<circle cx="{column(number)}" cy="{LANES[name][0]}" r="6" fill="#1f5fa8"/>'
    for number, (name, _) in enumerate(STEPS, 1):
        yield text(column(number), LANES[name][0] - 16, 11, "#333", "middle", told[number - 1])
    yield text(12, 248, 11, "#777", "start", "The words after each step, and the entries of the book")
    for number, name in enumerate(WORDS):
        yield from word_row(number, name, [at[number] for at in words])
    yield text(12, 422, 11, "#777", "start", LEGEND)
    yield "</svg>"


def main() -> None:
    sys.stdout.write("".join(f"{part}\n" for part in picture()))


if __name__ == "__main__":
    main()
