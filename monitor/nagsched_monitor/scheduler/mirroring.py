"""Mirrors: each result of an object is reported to its mirrors too, in the same order in all parts.

Every mirror is running all the time: after each of its results it is taken again, by a check that is forced and comes before all others. So a result and
those of its mirrors are calls of one turn, which are stored together.

When a site gets other parts, the states of all its schedulers are combined, and each part continues from its share."""
import json
import subprocess
from typing import AbstractSet, Any, Dict, List, Mapping, Optional, Sequence, Set, Tuple

from ..faults import MonitorFault, raising, require
from ..model.objects import MIRROR_FIRST, ObjectKey, Owner, Run, RunTable
from ..model.protocol import ENCODER, Answer, Call, Report, Reschedule, Take, Taken, object_name
from ..site.site import Site
from ..system.programs import SCHEDULER

Member = Dict[str, Any]
PlannedCall = Tuple[int, Call, Optional[str]]  # a call, its part, and the output of the plugin that it reports
# The members of a mirror that differ from its original's.
NEVER_CHECKED = {
    "run": None, "forced": False, "next_check": None, "enabled": False, "enabled_in_setup": False, "check_interval": 0,
}
LIMIT = 60.0  # the limit for the program's test of a state, in seconds


class Mirrors:
    def __init__(self, names: Mapping[int, AbstractSet[str]], running: RunTable) -> None:
        self.names, self._running = {part: its for part, its in names.items() if its}, running
        self._expected: Set[ObjectKey] = set()

    def parts_of(self, name: str) -> Sequence[int]:
        return [part for part, names in self.names.items() if name in names]

    def apply_answer(self, part: int, call: Call, answer: Answer) -> bool:
        """Whether an answer is about a mirror, which is then updated."""
        names = self.names.get(part)
        if not names or (name := object_name(call, answer)) not in names:
            return False
        key = part, name
        if isinstance(answer, Taken):
            self._running[key] = Run(key, answer.run, Owner.ORIGINAL)
            self._expected.discard(key)
        elif isinstance(call, Reschedule):
            self._expected.add(key)
        elif isinstance(call, Report):
            self._running.pop(key, None)
        return True

    def apply_saved(self, part: int, members: Sequence[Mapping[str, Any]]) -> List[Mapping[str, Any]]:
        """Takes in the runs of mirrors among the objects of a part, from its scheduler's saved state; returns the other objects."""
        names = self.names.get(part, ())
        for it in members:
            if it["name"] in names and it["run"] is not None:
                self._running[part, it["name"]] = Run((part, it["name"]), it["run"]["number"], Owner.ORIGINAL)
        return [it for it in members if it["name"] not in names]

    def change_site(self, names: Mapping[int, AbstractSet[str]], others: AbstractSet[int]) -> "Mirrors":
        """The mirrors of another site, in which these parts are others."""
        for run in self._running.owned_by(Owner.ORIGINAL):
            part, name = run.key
            if part in others or name not in names.get(part, ()):
                self._running.pop(run.key, None)
        return Mirrors(names, self._running)

    def take_missing(self) -> List[ObjectKey]:
        """The mirrors that should have been taken since the last call, and weren't. The list is empty unless another object came before them."""
        left, self._expected = sorted(self._expected), set()
        return left

    def take_calls(self, moment: int) -> List[PlannedCall]:
        missing = [(part, name) for part, names in self.names.items() for name in sorted(each for each in names if (part, each) not in self._running)]
        return [call for part, name in missing for call in forced_take(part, name, MIRROR_FIRST, moment)]

    def report_calls(self, original: int, report: Report, words: str, moment: int) -> List[PlannedCall]:
        """The calls that report a result to an object, in its part, and to its mirrors, which are taken again after that."""
        whole: List[PlannedCall] = [(original, report, words)]
        for part in self.parts_of(report.name):
            run = self._running[part, report.name]
            whole += [(part, Report(report.name, run.number, report.code), None), *forced_take(part, report.name, MIRROR_FIRST, moment)]
        return whole


def forced_take(part: int, name: str, time: int, now: int) -> List[PlannedCall]:
    """The calls that take an object before all that are due; the time decides about the order of such objects."""
    return [(part, Reschedule(name, time, True), None), (part, Take(now), None)]


def merge_states(states: Mapping[int, bytes], mirrored: Mapping[int, AbstractSet[str]], site: Site, moment: int) -> Dict[int, bytes]:
    """The state from which each part of a site begins, from the states of the schedulers of the current parts, and the names of their mirrors.

    A mirror has the state of its original. Run numbers continue from the greatest number of all parts, so that no late result fits a run of another part."""
    saved = {part: json.loads(state) for part, state in states.items()}
    runs = max(document["runs"] for document in saved.values())
    found: Dict[str, Tuple[int, Member]] = {
        it["name"]: (part, it) for part, document in saved.items() for it in document["objects"] if it["name"] not in mirrored.get(part, ())
    }
    members: Dict[int, List[Member]] = {part: [] for part in range(len(site.setups))}
    for name, definition in site.objects.items():
        if name in found:
            part, member = found[name]
            members[definition.part].append(member if part == definition.part else without_run(member, moment))
    for part, names in site.mirrors.items():
        members[part].extend({**found[name][1], **NEVER_CHECKED} for name in sorted(names) if name in found)
    return {part: ENCODER.encode({"format": 1, "objects": of_part, "runs": runs, "start": moment}).encode() for part, of_part in members.items()}


def without_run(member: Member, moment: int) -> Member:
    """An object whose run, if there is one, is abandoned at a moment."""
    if member["run"] is None:
        return member
    return {**member, "run": None, "next_check": moment if member["next_check"] is None else member["next_check"]}


def carry_over(program: str, site: Site, part: int, state: bytes) -> List[str]:
    """The changes that the setup of a part makes to saved objects, a line each; mirrors change as their originals do.

    If the setup or the state is refused, it is a fault, and nothing has changed."""
    given = site.setups[part] + b"\n" + state + b"\n"
    with raising(MonitorFault, "the saved state can't be tested", subprocess.TimeoutExpired), SCHEDULER.starting(program):
        ran = subprocess.run([program, "check", "--resume"], input=given, stdout=subprocess.PIPE, check=False, timeout=LIMIT)
    lines = ran.stdout.decode(errors="replace").splitlines()
    why = "; ".join(lines) or f"{program} gives no answer, and ends with status {ran.returncode}"
    require(not ran.returncode, f"the saved state can't be taken over: {why}", MonitorFault)
    mirrors = site.mirrors.get(part, frozenset())
    return [line for line in lines if is_told_change(line, mirrors)]


def is_told_change(line: str, mirrors: AbstractSet[str]) -> bool:
    """Whether a line of a check names a change of an object that isn't a mirror, or abandoned runs."""
    word, _, rest = line.partition(" ")
    return word == "changed" and rest.partition(" ")[2] not in mirrors or word == "given_up" and rest != "0"
