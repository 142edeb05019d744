"""The schedulers of a site and their answers: calls are first stored together, then made together, and then their answers are applied."""
import json
import os
from concurrent.futures import ThreadPoolExecutor
from typing import AbstractSet, Callable, Dict, List, Mapping, Optional, Sequence

from ..faults import ConversationEnded, NotStored
from ..model.clock import Clock
from ..model.objects import FIRST_TIME, ObjectKey, ObjectState, ObjectStates
from ..model.protocol import Answer, Call, Report, Standing, Status, call_line, object_name, read_call
from ..site.json_files import members_by_name
from ..site.site import Site
from ..store.rows import Generation, StoredCall, StoredChange
from ..store.generations import begin_generations, save_generation
from ..store.remark_table import RemarkTable
from ..store.status_table import StandingTable
from ..store.store import Store, Write, store_calls, store_change
from .mirroring import Mirrors, PlannedCall, carry_over, merge_states
from .plans import ObjectAnswer
from .schedulers import Conversation, ConversationFactory, PartScheduler

LONG_REPLAY = 5_000  # the number of calls made again after which a part is saved at once
STANDINGS_IN_TURN = 1_000  # the most standings that are written with the calls of a turn


class Scheduling:
    def __init__(self, program: str, site: Site, store: Store, clock: Clock, log: Callable[[str], None], notified: bool,
                 converse: ConversationFactory = Conversation) -> None:
        self._program, self._store, self._clock, self._log, self.has_command, self._converse = program, store, clock, log, notified, converse
        self.site = site
        self.states = ObjectStates()
        self.mirrors = Mirrors({}, self.states.running)
        self.parts: Dict[int, PartScheduler] = {}
        self._pending_writes: List[Write] = []  # writes that wait for the next calls
        self._standings = StandingTable(store, clock)
        self.remarks = RemarkTable(store, clock, log)
        self._new_changes: List[StoredChange] = []
        self._changed: Mapping[str, ObjectState] = {}  # the objects that are new in the last site, or have another definition there
        self._has_unknown = False  # whether there are objects whose states aren't known yet
        # The changes that were stored before this monitor started: answers that come again are no changes.
        self._stored_changes: AbstractSet[int] = frozenset()

    def open(self) -> None:
        generations = self._store.generations()
        self.states.change_site(self.site.objects, self._clock.moment())
        self._standings.read(self.states.objects)
        self.remarks.read()
        self.mirrors = Mirrors({part: generation.mirrors for part, generation in generations.items()}, self.states.running)
        self._stored_changes = self._store.changes_after(min((generation.last_call for generation in generations.values()), default=0))
        self._open_parts(generations, generations.keys())
        with ThreadPoolExecutor(os.cpu_count()) as several:
            list(several.map(PartScheduler.open, self.parts.values()))
        self._resume()
        for line in self._change_site(self.site):
            self._log(line)
        self._query_unknown()
        self._standings.settle(self.states.objects, self.states.objects)

    def _start(self, generation: Generation) -> Conversation:
        return self._converse(self._program, generation.setup, generation.start, generation.saved)

    def _open_parts(self, generations: Mapping[int, Generation], others: AbstractSet[int]) -> None:
        """Continues with these generations. Parts that aren't others stay open."""
        before, self.parts = self.parts, {}
        for number, generation in generations.items():
            if number in others:
                self.parts[number] = PartScheduler(generation, self._store, self._clock, self._log, self._start)
            else:
                self.parts[number] = before.pop(number)
                self.parts[number].generation = generation
        for part in before.values():
            part.close_conversation()

    def _resume(self) -> None:
        for number, part in self.parts.items():
            part.pending.extend(self._store.calls_since(number, part.last_answered))
            part.replayed = len(part.pending)
            if part.generation.saved is not None:
                self._read_state(number, part.generation.saved)
                # The states of objects are known before calls are made again: a result with the same state isn't a change.
                own = [name for name in members_by_name(json.loads(part.generation.setup)) if name not in part.generation.mirrors]
                self._query_standings(number, own)
        self._exchange(is_again=True)
        for number, part in self.parts.items():
            if part.pending:
                raise ConversationEnded(f"the scheduler of part {number + 1} can't be opened: {part.trouble}")

    def _query_unknown(self) -> None:
        """Asks for the standing of each object whose standing isn't known yet, and takes its first time as its phase."""
        unknown: Dict[int, List[str]] = {part: [] for part in self.parts}
        for obj in self.states.objects.values():
            if obj.standing is None:
                unknown[obj.definition.part].append(obj.name)
        for part, names in unknown.items():
            self._query_standings(part, names)
        for obj in self.states.objects.values():
            if obj.phase is None and obj.next is not None and obj.next >= FIRST_TIME:
                obj.phase = obj.next

    def _query_standings(self, part: int, names: Sequence[str]) -> None:
        """Asks for the standings of these objects of a part that aren't known. The calls aren't stored, since they change nothing."""
        calls = [Status(name) for name in names if name in self.states.objects and self.states.objects[name].standing is None]
        if calls:
            for call, answer in zip(calls, self.parts[part].query(calls)):
                obj = self.states.objects[call.name]
                self.states.apply_answer(obj, call, answer)
                self._standings.apply_answer(obj, call, answer, None)

    def reload(self, site: Site) -> List[str]:
        """Takes over another site; if it is refused, nothing has changed. Returns the changes of objects that stay, a line each."""
        changed = self._change_site(site)
        self._has_unknown = True
        self._query_new()
        try:
            self._standings.settle(self.states.objects, self._changed)
        except NotStored as fault:
            self._log(f"since when objects are in their states isn't known: {fault}")
        return changed

    def _query_new(self) -> None:
        """Asks for the standings of new objects. If they can't be had now, they are asked for with the next calls."""
        try:
            self._query_unknown()
            self._has_unknown = False
        except (ConversationEnded, NotStored) as error:
            self._log(f"the states of new objects aren't known yet: {error}")

    def _change_site(self, site: Site) -> List[str]:
        """Takes over a site. Parts with another setup begin from the combined states of all parts."""
        opened = {part: (scheduler.generation.setup, scheduler.generation.mirrors) for part, scheduler in self.parts.items()}
        wanted = {part: (setup, site.mirrors.get(part, frozenset())) for part, setup in enumerate(site.setups)}
        others = {part for part, setup in wanted.items() if opened.get(part) != setup}
        changed = self._begin_parts(site, others) if opened != wanted else []
        self.remarks.take_over(site.remarks)
        if site is not self.site:
            self.site = site
            self._changed = self.states.change_site(site.objects, self._clock.moment())
        for part in sorted(others):
            self._read_state(part, self.parts[part].generation.saved)
        for obj in self.states.objects.values():
            if obj.definition.part in others:
                obj.standing = None
        return changed

    def _begin_parts(self, site: Site, others: AbstractSet[int]) -> List[str]:
        """Begins these parts of a site from scratch, from the combined states; the others continue from theirs. All earlier calls are dropped."""
        states = {part: scheduler.state() for part, scheduler in self.parts.items()}
        moment, last_call = self._clock.moment(), self._store.last_call
        begun = merge_states(states, self.mirrors.names, site, moment) if states and others else {}
        changed = [line for part in sorted(begun.keys() & others) for line in carry_over(self._program, site, part, begun[part])]
        generations = {
            part: Generation(part, setup, moment, begun.get(part), last_call, site.mirrors.get(part, frozenset()))
            if part in others else self.parts[part].generation._replace(saved=states[part], last_call=last_call)
            for part, setup in enumerate(site.setups)
        }
        self._write(begin_generations(generations.values()))
        self.mirrors = self.mirrors.change_site(site.mirrors, others)
        self._open_parts(generations, others)
        return changed

    def _write(self, *writes: Write, standings: Optional[int] = None) -> None:
        """Writes these, with all that waits to be written, or with this many standings of it."""
        self._store.write(*self._pending_writes, *self._standings.writes(standings), *self.remarks.writes(), *writes)
        self._pending_writes = []
        self._standings.clear_marks()
        self.remarks.clear_marks()

    def _read_state(self, part: int, state: Optional[bytes]) -> List[str]:
        """Reads a scheduler's state, which counts. Returns the names of the objects whose known switch, forced mark, next check or run was different."""
        members = [] if state is None else json.loads(state)["objects"]
        return self.states.apply_saved(self.mirrors.apply_saved(part, members))

    def is_open(self, part: int) -> bool:
        """Whether calls of a part can be made now: its scheduler has answered all earlier ones."""
        return not self.parts[part].pending

    def is_reportable(self, key: ObjectKey) -> bool:
        """Whether a result of an object can be reported now, to it and to its mirrors."""
        part, name = key
        return self.is_open(part) and all(self.is_open(other) and (other, name) in self.states.running for other in self.mirrors.parts_of(name))

    def store_calls(self, planned: Sequence[PlannedCall], writes: Sequence[Write] = ()) -> None:
        """Stores these calls with the other writes; the next `make_calls` makes them. If something can't be stored, nothing is, and `NotStored` is raised."""
        self.remarks.settle(self.states.objects)
        if not planned and not writes and not self.has_more():
            return self._store.file.test()
        first = self._store.last_call + 1
        calls = [StoredCall(number, part, call_line(call), words, call) for number, (part, call, words) in enumerate(planned, first)]
        self._write(*writes, store_calls([stored[1:4] for stored in calls]), standings=STANDINGS_IN_TURN)
        for stored in calls:
            self.parts[stored.part].pending.append(stored)

    def make_calls(self) -> List[ObjectAnswer]:
        """Makes the stored calls, and returns the answers. Calls of a scheduler that can't be started now are made later."""
        if self._has_unknown and all(map(self.is_open, self.parts)):
            self._query_new()
        return self._exchange()

    def _exchange(self, is_again: bool = False) -> List[ObjectAnswer]:
        """Makes the waiting calls, and returns all answers but those of mirrors. Answers that an earlier monitor got change no times."""
        waiting = [part for part in self.parts.values() if part.pending]
        for part in waiting:
            part.begin()
        answers: List[ObjectAnswer] = []
        for stored, answer in [answered for part in waiting for answered in part.finish()]:
            call = read_call(stored.line) if stored.call is None else stored.call
            if not self.mirrors.apply_answer(stored.part, call, answer):
                answers.append(self._apply_answer(stored, call, answer, is_again))
        for number, name in self.mirrors.take_missing():
            self._log(f"the scheduler of part {number + 1} took another object than the mirror of {name}; it is tried again")
        return answers

    def _apply_answer(self, stored: StoredCall, call: Call, answer: Answer, is_again: bool) -> ObjectAnswer:
        obj = self.states.objects.get(object_name(call, answer))
        if obj is None:
            return ObjectAnswer(call, answer, None, None)
        before, run = obj.standing, obj.run
        self.states.apply_answer(obj, call, answer)
        if isinstance(call, Report) and isinstance(answer, Standing):
            obj.output = stored.words or ""
            if not is_again:
                self.remarks.settle_object(obj.name, obj)
            self._note_change(stored.id, obj, before, answer)
        if not is_again:
            self._standings.apply_answer(obj, call, answer, run)
        return ObjectAnswer(call, answer, obj, before)

    def _note_change(self, number: int, obj: ObjectState, before: Optional[Standing], answer: Standing) -> None:
        if number in self._stored_changes or not answer.is_change(before):
            return
        change = StoredChange(number, self._clock.wall(), obj.name, answer.state, answer.kind, answer.attempt, answer.flapping, obj.output)
        held = {"held": True} if self.remarks.is_held(obj.name) else {}
        document = change.document(before, None, **held) if self.has_command and answer.is_important(before) else None
        self._pending_writes.append(store_change(change, document, self._clock.moment()))
        self._new_changes.append(change)

    def pop_changes(self) -> List[StoredChange]:
        printed, self._new_changes = self._new_changes, []
        return printed

    def has_more(self) -> bool:
        return bool(self._pending_writes) or self._standings.is_overdue() or self.remarks.has_changes()

    def save(self, number: int) -> None:
        """Saves the state of a part's scheduler, and drops the calls that are part of all saved states."""
        state = self.parts[number].state()
        for name in self._read_state(number, state):
            self._log(f"{name}: its scheduler has it otherwise than the monitor had; the scheduler counts")
        self._standings.write_soon({})
        part = self.parts[number]
        generation = part.generation._replace(saved=state, last_call=self._store.last_call)
        others = [each.generation.last_call for each in self.parts.values() if each is not part]
        self._write(save_generation(generation, min(others, default=generation.last_call)))
        part.generation = generation

    def renew_database(self, *writes: Write) -> None:
        """Has a new database written, with the states of all schedulers and objects, and with these writes. Raises `ConversationEnded` or `NotStored`."""
        last_call = self._store.last_call
        generations = {number: part.generation._replace(saved=part.state(), last_call=last_call) for number, part in self.parts.items()}
        self._standings.write_soon(self.states.objects)
        self._store.renew(begin_generations(generations.values()), *writes, *self._pending_writes, *self._standings.writes(), *self.remarks.rows())
        self._pending_writes = []
        self._standings.clear_marks()
        self.remarks.clear_marks()
        for number, generation in generations.items():
            self.parts[number].generation = generation

    def pop_long_replay(self) -> Optional[int]:
        """A part that made many calls again and can be saved, so that the next start doesn't make them again. Each such start is returned once."""
        for number, part in self.parts.items():
            if part.replayed >= LONG_REPLAY and self.is_open(number):
                part.replayed = 0
                return number
        return None

    def longest_unsaved(self) -> int:
        """The part whose saved state is the oldest, among those that can be saved now if there are any."""
        return min(self.parts, key=lambda number: (not self.is_open(number), self.parts[number].generation.last_call))

    def close(self) -> None:
        for part in self.parts.values():
            part.close_conversation(is_killed=False)
