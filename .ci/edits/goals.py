"""Reads the prover's output of a check: which goals of a function it left open, and what it says of each.

A goal's name says what has to be proved: `returns-in-Ok-clause-kept` is clause `kept` of what the function ensures, where it returns in that arm. A function's
proof can stop at a goal, or at a lemma of its own on which goals rest. An error that says only that a name is missing shows nothing about the function.
"""
import enum
import re
from typing import Dict, Iterator, List, NamedTuple, Set

# The words of the prover about a proof that names something that an edit took away, and about what rests on such a proof.
LACKS_A_NAME = re.compile(r"has no field|has no `|is not in scope|is no name|was not admitted|nearest: \.")
VALUES = re.compile(r"(?:the known facts allow|the goal fails,? at) (.*?)(?:, and others: .*|, and \d+ more.*|: help: .*|\. It read .*|…|$)")
TERMS = re.compile(r"the two types (?:first )?(?:differ|are)")
# The two terms in which types differ.
DIFFERENCE = re.compile(r"where one has `([^`]*)` \(expected\).*?the other has `([^`]*)` \(found\)")
# The result of a call, or of branches that join. An edit that adds a call, or leaves one out, changes which of them the proof has to cite.
OF_A_STEP = re.compile(r"\(?c\.(?!args\b|self\b|requires\b|ranges\b|loop-|in-|in_)[^\s.]+(?:\.|$)")
# The length of what is stored of the prover's words.
WORDS = 160
# The kinds of goals, by their names without `-clause-` and what follows.
KINDS = {"ensures": r"returns\b", "requires": r".+-requires\b", "invariant": r"invariant_of-", "loop": r".+-(?:init|preserved|smaller)\b",
         "arithmetic": r"overflow_|nonzero_", "bounds": r"(?:slice_|offset_)?bounds-"}


class Evidence(enum.IntEnum):
    """What the prover says of a goal that it left open, the strongest first."""

    VALUES = 0  # values at which the goal is false
    TERMS = 1  # two terms that the goal wants equal
    OPEN = 2  # it found no proof
    MOVED = 3  # it found no proof, but the function's proof names something that isn't there any more
    NAME = 4  # the proof names something that isn't there any more


class Goal(NamedTuple):
    """A goal that the prover left open."""

    name: str
    evidence: Evidence
    # The prover's words, or the values.
    words: str
    # The lemma of the proof at which it stopped, if it wasn't the goal itself.
    lemma: str = ""

    @property
    def kind(self) -> str:
        """What has to be proved: a word of KINDS, or nothing if it is none of them."""
        return next((kind for kind, pattern in KINDS.items() if re.match(pattern, self.name.partition("-clause-")[0])), "")

    @property
    def clause(self) -> str:
        """The name of the clause, or nothing if the goal's name has none."""
        return self.name.partition("-clause-")[2].removesuffix("-whole")


def joined_lines(said: str) -> List[str]:
    """The lines of the prover's output, each with the lines that continue it."""
    return re.sub(r"\n[ \t]+", " ", said).splitlines()


def evidence_of(words: str) -> Evidence:
    """What a message about a goal or a lemma shows."""
    if LACKS_A_NAME.search(words):
        return Evidence.NAME
    if VALUES.search(words) or "allow values at which this goal is false" in words:
        return Evidence.VALUES
    difference = DIFFERENCE.search(words)
    if difference and all(OF_A_STEP.match(term) for term in difference.groups()):
        return Evidence.MOVED
    return Evidence.TERMS if TERMS.search(words) else Evidence.OPEN


def plain(term: str) -> str:
    """A term without the modules of its names."""
    return re.sub(r"\b(?:Rattle|Prim|mathlib|lib|native)(?:\.\w+)*\.(?=\S)", "", term)


def short(words: str, goal: str = "") -> str:
    """What a message shows: values, two terms, or only that something isn't proved. Then the goal says what that is, if the prover printed it."""
    values, difference = VALUES.search(words), DIFFERENCE.search(words)
    found = re.findall(r"`[^`]+` = (?:`[^`]+`|[^`,\s]+)", values[1])[:4] if values else []
    if found:
        shown = f"false at {', '.join(found)}".replace("`", "")
    elif difference and len(difference[0]) < 3 * WORDS:
        shown = f"wanted {difference[1]}, found {difference[2]}"
    elif evidence_of(words) is Evidence.VALUES:
        shown = f"false at some values{': ' + goal if goal else ''}"
    else:
        shown = f"not proved: {goal or words}" if goal or words else "not proved"
    return plain(shown)[:WORDS]


def declarations(answers: str) -> Dict[str, str]:
    """The declarations of a file of proofs, by their names."""
    found = re.split(r"(?m)^(?:pub )?(?=[^\s:]+ :)", answers)[1:]
    return {text.split()[0].removesuffix("-whole"): text for text in found}


def resting_on(lemma: str, answers: str) -> Set[str]:
    """The goals whose answers cite a lemma of their file, directly or through other lemmas."""
    texts, found = declarations(answers), {lemma}
    seen: Set[str] = set()
    while more := found - seen:
        seen |= found
        for cited in more:
            found |= {name for name, text in texts.items() if re.search(rf"(?<![\w-]){re.escape(cited)}(?![\w-])", text)}
    return {name for name in found if f"goal.{name}" in texts.get(name, "")}


def errors_in_proof(function: str, lines: List[str], answers: str) -> Iterator[Goal]:
    """The goals at which the files of a function's proof stop. Lines that only list what rests on a lemma are covered by the lemma's own error."""
    at = rf"\./proofs/(?:\S+/)?{re.escape(function.replace('::', '/'))}/\w+\.antt:[\d:]+ error: `([^`]+)`: (.*)"
    for line in lines:
        if error := re.match(at, line):
            name, words = error[1].removesuffix("-whole"), error[2]
            goals = resting_on(name, answers) | ({name} if name not in declarations(answers) else set())
            for goal in sorted(goals):
                yield Goal(goal, evidence_of(words), short(words), "" if goal == name else name)


def notes_on_goals(function: str, what: str, lines: List[str]) -> Dict[str, str]:
    """The notes on the goals of a function for which the prover searched a proof in vain: `must prove` has the goal, `may be false` has values."""
    at = rf"note: `([^`]+)` of proofs/(?:\S+/)?{re.escape(function.replace('::', '/'))}/Answers\.antt {what}: (.*)"
    return {match[1]: match[2].partition(" names you can use")[0] for line in lines if (match := re.match(at, line))}


def searched_goals(crate: str, function: str, lines: List[str]) -> Iterator[Goal]:
    """The goals for which the prover searched a proof in vain. It prints them before the line of the function."""
    goals, values = notes_on_goals(function, "must prove", lines), notes_on_goals(function, "may be false", lines)
    notes: List[Goal] = []
    for line in lines:
        if note := re.match(r"note: src/\S+ it is not proved that .*?\(`([^`]+)`\)(?:; )?(.*)", line):
            notes.append(Goal(note[1], evidence_of(note[2]), short(values.get(note[1], note[2]), goals.get(note[1], ""))))
        elif line.startswith(("fn ", "struct ", "enum ", "impl ")):
            if re.match(rf"fn {crate}::(?:\S+::)?{re.escape(function)}: (?:not proved|no proof)", line):
                yield from notes
            notes = []


def open_goals(crate: str, function: str, said: str, answers: str) -> List[Goal]:
    """The goals of a function that a check left open, the clearest evidence first. `answers` is the text of the function's proof."""
    lines = joined_lines(said)
    goals = [*errors_in_proof(function, lines, answers), *searched_goals(crate, function, lines)]
    lacks = any(goal.evidence is Evidence.NAME for goal in goals)
    moved = [goal._replace(evidence=Evidence.MOVED) if lacks and goal.evidence is Evidence.OPEN else goal for goal in goals]
    return sorted(moved, key=lambda goal: goal.evidence)
