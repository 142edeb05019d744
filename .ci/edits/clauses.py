"""The clause that a wrong body breaks, which its file names, and whether the goals that the prover left open show it.

A line `clause: WHAT` of an edit says what the wrong body breaks:

    NAME                     that clause of what the function ensures
    ensures                  what the function ensures, if that has no name
    requires CALLEE [NAME]   a condition of a call
    invariant [NAME]         a type's invariant
    arithmetic, bounds       that a number fits its type, or an index its list
    loop NAME                that clause, which a loop's invariant carries

` of FUNCTION` follows if it isn't the function that the edit changes, or the edit changes several.

If an edit moves names of the proof, the prover finds no proof whether or not the clause still holds. Such an edit has a line `read: WHY`: somebody read it, and
says what makes the clause false.
"""
import re
from typing import List, NamedTuple, Optional, Tuple

from goals import Evidence, Goal

KINDS = ("ensures", "requires", "invariant", "arithmetic", "bounds", "loop")


class Clause(NamedTuple):
    """What a wrong body breaks."""

    # A word of KINDS.
    kind: str
    # The clause's name, or nothing.
    name: str
    # The function that is called, of a condition of a call.
    callee: str = ""
    # The function, if the edit names it.
    function: str = ""
    # What makes the clause false, if somebody read the edit.
    why: str = ""

    def is_left_open_by(self, goal: Goal) -> bool:
        """Whether a goal is one of this clause. A goal without a clause in its name is one of all clauses."""
        if goal.kind != self.kind or not re.match(rf"{re.escape(self.callee)}(?![a-z0-9_])" if self.callee else "", goal.name):
            return False
        return self.kind == "loop" or goal.clause in ("", self.name)


def read_clause(edit: str) -> Optional[Clause]:
    """The clause that an edit names. None if it names none, or in another form."""
    lines, why = re.findall(r"(?m)^clause: (.*)$", edit), "; ".join(re.findall(r"(?m)^read: (.*)$", edit))
    match = re.fullmatch(r"(.+?)(?: of (\S+))?", lines[0]) if len(lines) == 1 else None
    if not match:
        return None
    kind, *rest = match[1].split()
    if kind not in KINDS:
        return Clause("ensures", kind, "", match[2] or "", why) if not rest else None
    callee = rest.pop(0) if kind == "requires" and rest else ""
    if len(rest) > 1 or (kind == "requires") != bool(callee) or (kind == "loop" and not rest) or (kind in ("ensures", "arithmetic", "bounds") and rest):
        return None
    return Clause(kind, rest[0] if rest else "", callee, match[2] or "", why)


def judged(clause: Clause, goals: List[Goal]) -> Tuple[bool, str]:
    """Whether the goals that were left open show that the prover refuses an edit by the clause that it names, and what shows it, or what is to be read."""
    fitting = [goal for goal in goals if clause.is_left_open_by(goal)]
    if not goals:
        return False, "no goal is left open"
    if not fitting:
        return False, f"it leaves other goals open than one of its clause: {', '.join(dict.fromkeys(goal.name for goal in goals))}"
    best = fitting[0]
    by = f"{best.name}{' by ' + best.lemma if best.lemma else ''}: {best.words}"
    if best.evidence is Evidence.NAME:
        return False, f"a proof only names what the edit took away, so change a value and keep the names: {by}"
    if best.evidence is Evidence.MOVED and clause.why:
        return True, f"{best.name}: read: {clause.why}"
    if best.evidence is Evidence.MOVED:
        return False, f"names of the proof moved, so the proof may only be missing: {by}"
    return True, by
