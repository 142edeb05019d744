"""Requests to a running monitor: one JSON object in each direction. `Requests` has the words, with the members of each. These aren't commands of people:

    refused       a command that another program refused: it is logged and counted
    spooled       the results up to a call are in the spool of performance data, except those of missed calls

An answer with `error` is a refusal that changed nothing; with `"again":true` the same request may be obeyed later. A request may have a `number`, a text: the
same number isn't obeyed twice, and gets the answer of the first time."""
import contextlib
import json
import traceback
from dataclasses import dataclass
from functools import partial
from typing import Any, Callable, Dict, List, Mapping, NamedTuple, Optional, Sequence, Set, Tuple

from ..faults import AskAgain, ConversationEnded, MonitorFault, NotStored, RequestFault, raising, require
from ..model.clock import LAST_TIME, Clock
from ..model.objects import FIRST_TIME, ObjectState
from ..model.protocol import GREATEST, Enable, Reschedule
from ..model.remarks import Remark
from ..model.text import MOST_OUTPUT_BYTES, first_line, plain_text
from ..scheduler.mirroring import PlannedCall
from ..scheduler.plans import Plan
from ..scheduler.scheduling import Scheduling
from ..site.json_files import ANY, FLAG, TEXT, Form, Forms, test_members, whole
from ..store.rows import StoredChange, StoredResult
from ..store.remark_table import end_remark, store_new_remark
from ..store.store import MOST_REQUESTS, Store, Write, delete, insert, store_document, store_figures, store_request
from .checks import Checks
from .passive import MOST_WAITING, PassiveResults
from .remark_requests import CHOICES, MOST_REMARKS, OTHERS, chosen_remarks, new_remark

LONGEST_NUMBER = 128
CODE = whole(0, 3)
NAME: Forms = {"name": ANY}
Members = Mapping[str, Any]


@dataclass
class Request:
    line: bytes
    reply: Callable[[Mapping[str, Any]], None]
    # Its answer, once it is known; None if it comes later. An answer with the member `done` counts when the turn is stored.
    answer: Optional[Dict[str, Any]] = None


class Actions(NamedTuple):
    signs: Callable[[], Dict[str, Any]]
    save: Callable[[], None]
    note: Callable[[Mapping[str, float]], None]  # it takes over figures that are stored
    renew: Callable[[], None]  # it puts a new database in the place of a file that is gone or another's
    reload: Callable[[Request], None]  # it answers the request later
    stop: Callable[[], None]
    count_one: Callable[[str], None]  # one more of a figure


class Requests:
    """Plans the work of requests, and answers them when it is done."""

    def __init__(self, scheduling: Scheduling, store: Store, checks: Checks, passive: PassiveResults, clock: Clock, log: Callable[[str], None],
                 actions: Actions) -> None:
        self._scheduling, self._store, self._checks, self._passive, self._clock = scheduling, store, checks, passive, clock
        self._log, self._actions = log, actions
        self._numbers = store.requests()
        self._planned: Set[str] = set()
        self._results = 0
        self._remarks: Dict[int, Optional[Remark]] = {}  # what the requests of this turn make of remarks; None for nothing
        # The planner of each word, and the other members that its request may have.
        at = Form("a number of seconds since 1970", lambda value: type(value) in (int, float))
        self._planners: Dict[str, Tuple[Callable[[Members, Request], Plan], Forms]] = {
            "signs": (self._plan_signs, {}),
            "reschedule": (self._plan_reschedule, {**NAME, "at": at, "force": FLAG}),
            "enable": (partial(self._plan_switch, on=True), NAME),
            "disable": (partial(self._plan_switch, on=False), NAME),
            "default": (partial(self._plan_switch, on=None), NAME),
            "result": (self._plan_result, {**NAME, "code": CODE, "output": TEXT}),
            **{word: (self._plan_remark, others) for word, others in OTHERS.items()},
            "remove": (self._plan_remove, CHOICES),
            "refused": (self._plan_refused, {"text": ANY}),
            "notify-test": (self._plan_notify_test, {}),
            "reload": (lambda _, request: Plan(then=[partial(self._actions.reload, request)]), {}),
            "spooled": (self._plan_spooled, {"call": whole(0, GREATEST), "missed": ANY}),
            "save": (lambda _, request: Plan(last=[partial(self._save_now, request)]), {}),
            "new-database": (self._plan_new_database, {}),
            "stop": (self._plan_stop, {}),
        }

    def begin_turn(self) -> None:
        self._planned.clear()
        self._remarks.clear()
        self._results = 0

    def plan(self, request: Request) -> Plan:
        """The step of a request. A refused request has an empty step and its answer."""
        step, number = Plan(), None
        try:
            members = self._read_request(request.line)
            number = members.pop("number", None)
            request.answer = None if number is None else self._earlier_answer(number)
            if request.answer is None:
                step = self._planners[members["do"]][0](members, request)
        except RequestFault as fault:
            request.answer = {"error": str(fault), **({"again": True} if isinstance(fault, AskAgain) else {})}
        except Exception as error:  # any exception: one request doesn't hold up the others
            for line in traceback.format_exc().rstrip().split("\n"):
                self._log(f"fault: {line}")
            request.answer = {"error": f"the monitor has a fault: {type(error).__name__}: {error}"}
        if number is not None and request.answer is not None and (step.calls or step.writes):
            answer = json.dumps(request.answer, ensure_ascii=False)
            step.writes.append(store_request(number, answer))
            step.then.append(partial(self._remember, number, answer))
            self._planned.add(number)
        return step

    def _earlier_answer(self, number: object) -> Optional[Dict[str, Any]]:
        if not isinstance(number, str) or not 0 < len(number) <= LONGEST_NUMBER:
            raise RequestFault(f"number is a text of 1 to {LONGEST_NUMBER} characters")
        if number != plain_text(number, 4 * LONGEST_NUMBER):
            raise RequestFault("number has half a character or a control character")
        require(number not in self._planned, "a request with this number is being obeyed", AskAgain)
        answer: Optional[Dict[str, Any]] = json.loads(self._numbers.get(number, "null"))
        return answer

    def _remember(self, number: str, answer: str) -> None:
        self._numbers[number] = answer
        while len(self._numbers) > MOST_REQUESTS:
            del self._numbers[next(iter(self._numbers))]

    def answer(self, asked: Sequence[Request]) -> None:
        for request in asked:
            if request.answer is not None:
                request.reply(request.answer)

    def refuse(self, asked: Sequence[Request], why: str, is_later: bool = True) -> None:
        """Nothing of a turn was stored."""
        for request in asked:
            if request.answer is None or "done" in request.answer:
                request.answer = {"error": why, **({"again": True} if is_later else {})}
        self.answer(asked)

    def _read_request(self, line: bytes) -> Dict[str, Any]:
        """The members of a request that has a known word and no unknown member."""
        with raising(RequestFault, "the request isn't JSON", ValueError, RecursionError):
            members = json.loads(line)
        if not isinstance(members, dict):
            raise RequestFault("a request has to be a JSON object")
        word = members.get("do")
        if not isinstance(word, str) or word not in self._planners:
            raise RequestFault(f"\"do\" has to be one of {', '.join(self._planners)}, not {word!r}")
        test_members(members, {"do": ANY, "number": ANY, **self._planners[word][1]}, fault=RequestFault)
        return members

    def _find_object(self, members: Members, is_called: bool = True) -> ObjectState:
        """The object of a request. If its scheduler is called for the request, the scheduler has to be open."""
        name = members.get("name")
        if not isinstance(name, str):
            raise RequestFault("name has to be the full name of an object")
        obj = self._scheduling.states.objects.get(name)
        if obj is None:
            raise RequestFault(f"there is no object {name!r}; the command status lists the full names")
        if is_called and not self._scheduling.is_open(obj.definition.part):
            raise AskAgain("the scheduler of this object is being started again")
        return obj

    def _plan_signs(self, members: Members, request: Request) -> Plan:
        request.answer = self._actions.signs()
        return Plan()

    def _plan_reschedule(self, members: Members, request: Request) -> Plan:
        obj = self._find_object(members)
        now, wall = self._clock.moment(), self._clock.wall()
        at, forced = members.get("at", wall), members.get("force", False)
        time = now + round((at - wall) * 1000) if abs(at) < LAST_TIME else -1
        if time < FIRST_TIME:
            raise RequestFault(f"at has to be a time from 1970 to 9998, in seconds since 1970, not {at!r}")
        if obj.definition.command is None:
            raise RequestFault(f"{obj.name} has no command")
        time = max(time, now)  # a time that is past means now
        wall_time = round(wall + (time - now) / 1000, 3)
        request.answer = {"done": "reschedule", "name": obj.name, "at": wall_time, "on": obj.on or forced}
        calls: List[PlannedCall] = [(obj.definition.part, Reschedule(obj.name, time, forced), None)]
        log = partial(self._log, f"asked: reschedule {obj.name} at {wall_time:.0f}{' forced' * forced}")
        return Plan(calls, then=[partial(setattr, obj, "operator_check", (time, forced)), log], at_once={obj.name} if time <= now else set())

    def _plan_switch(self, members: Members, request: Request, on: Optional[bool]) -> Plan:
        obj, checks = self._find_object(members), self._checks
        require(not on or obj.definition.command is not None, f"{obj.name} has no command", RequestFault)
        word, wanted = members["do"], checks.is_to_be_enabled(obj.definition, obj.definition.enabled if on is None else on)
        request.answer = {"done": word, "name": obj.name, "on": wanted}
        calls: List[PlannedCall] = [(obj.definition.part, Enable(obj.name, wanted), None)] if obj.on != wanted else []
        write = delete("switches", "name = ?", obj.name) if on is None else insert("switches", None, obj.name, on)
        return Plan(calls, [write], [partial(checks.apply_switch, obj, on), partial(self._log, f"asked: {word} {obj.name}")])

    def _plan_result(self, members: Members, request: Request) -> Plan:
        obj = self._find_object(members, is_called=False)
        require("code" in members, f"code has to be {CODE.words}, not None", RequestFault)
        code, output = members["code"], members.get("output", "")
        if self._passive.count + self._results >= MOST_WAITING:
            raise AskAgain(f"{MOST_WAITING} results wait to be reported")
        self._results += 1
        result = StoredResult(self._store.last_result + self._results, obj.name, code, plain_text(output, MOST_OUTPUT_BYTES))
        request.answer = {"done": "result", "name": obj.name}
        note = partial(setattr, self._store, "last_result", result.id)
        log = [partial(self._log, f"asked: result {obj.name} {code}")] if self._scheduling.site.options.log_passive else []
        return Plan(writes=[insert("passive", *result)], then=[note, partial(self._passive.add, result), *log])

    def _plan_remark(self, members: Members, request: Request) -> Plan:
        """A remark, unless there are too many. Its number may be one that isn't used."""
        table, is_of_site = self._scheduling.remarks, members["do"] == "mute" and members.get("name") == ""
        obj = None if is_of_site else self._find_object(members, is_called=False)
        require(len(table.remarks) < MOST_REMARKS, f"there are {MOST_REMARKS} remarks: remove some", RequestFault)
        remark = new_remark(members, table.next_id(), obj, self._clock.wall())
        request.answer = {"done": members["do"], "name": remark.name, "id": remark.id}
        self._remarks[remark.id] = remark
        log = partial(self._log, f"asked: {members['do']} {remark.name or 'the site'} ({remark.id}) by {remark.author}: {first_line(remark.text)}")
        return Plan(writes=[store_new_remark(remark)], then=[log, partial(table.put, remark)])

    def _plan_remove(self, members: Members, request: Request) -> Plan:
        current: Dict[int, Optional[Remark]] = {**self._scheduling.remarks.remarks, **self._remarks}
        remarks = chosen_remarks(members, [each for each in current.values() if each is not None])
        if not remarks and members.get("name") != "":
            self._find_object(members, is_called=False)
        request.answer = {"done": "remove", "ids": [each.id for each in remarks]}
        self._remarks.update({each.id: each.ended() for each in remarks})
        log = [partial(self._log, f"asked: remove {each.kind} {each.id} of {each.name or 'the site'}") for each in remarks]
        return Plan(writes=[end_remark(each) for each in remarks], then=[*log, *(partial(self._scheduling.remarks.remove, each) for each in remarks)])

    def _plan_refused(self, members: Members, request: Request) -> Plan:
        text, request.answer = plain_text(str(members.get("text"))), {"done": "refused"}
        return Plan(then=[partial(self._actions.count_one, "commands_refused"), partial(self._log, f"refused: {text}")])

    def _plan_notify_test(self, members: Members, request: Request) -> Plan:
        if not self._scheduling.has_command:
            raise RequestFault("no command for changes is given: start the monitor with --on-change")
        request.answer = {"done": "notify-test"}
        document = test_document(self._clock.wall(), self._clock.moment())
        return Plan(writes=[store_document(document, self._clock.moment())], then=[partial(self._log, "asked: notify-test")])

    def _plan_spooled(self, members: Members, request: Request) -> Plan:
        call, missed, spooled = members.get("call", -1), members.get("missed"), self._store.spooled
        if not isinstance(missed, (int, float)) or spooled is None or not spooled <= call <= self._store.last_call:
            raise RequestFault("call has to be the number of a stored call, and the monitor has to have a spool of performance data")
        request.answer, figures = {"done": "spooled"}, {"spooled": float(call), "spooled_at": self._clock.wall(), "unspooled": float(missed)}
        return Plan(writes=[store_figures(figures)], then=[partial(self._actions.note, figures), partial(setattr, self._store, "spooled", call)])

    def _save_now(self, request: Request) -> None:
        try:
            self._actions.save()
            request.answer = {"done": "save"}
        except (NotStored, ConversationEnded, MonitorFault) as fault:
            request.answer = {"error": str(fault), "again": True}

    def _plan_new_database(self, members: Members, request: Request) -> Plan:
        """It is made at once, since nothing can be stored without it."""
        with contextlib.suppress(NotStored):
            self._store.file.test()
            require(self._actions.signs()["is_stuck"], f"{self._store.path} is as the monitor left it: nothing has to be done", RequestFault)
        try:
            self._actions.renew()
        except (NotStored, ConversationEnded) as fault:
            raise AskAgain(str(fault)) from None
        self._log("asked: new-database")
        request.answer = {"done": "new-database"}
        return Plan()

    def rows(self) -> List[Write]:
        """The rows of this and of those that requests change."""
        switches = [insert("switches", None, name, on) for name, on in self._checks.operator_switches.items()]
        return [*switches, *self._passive.rows(), *(store_request(*answered) for answered in self._numbers.items())]

    def _plan_stop(self, members: Members, request: Request) -> Plan:
        request.answer = {"done": "stop"}
        return Plan(then=[self._actions.stop, partial(self._log, "asked: stop")])


def test_document(wall: float, moment: int) -> str:
    """A change that nobody has to act on, with a mark."""
    change = StoredChange(0, wall, "nagsched;notify-test", "CRITICAL", "HARD", 1, False, "this is a test: nothing is wrong")
    return change.document(None, f"test-{moment}", test=True)
