"""A small history for each row of docs/NAGIOS.md, with the answers of both sides.

Most are judged like random ones (`Shown`): the row must explain a difference in the named answer, with these values. Times in answers count
from the start, in milliseconds. For the others (`Told`) the harness must write these lines about Nagios, and nagsched must give these answers.
"""
from __future__ import annotations

import dataclasses
from typing import Any, Optional

from histories import NO_THRESHOLD, START, Command, History, Plan
from model import Standing

ANY = object()  # a value that Nagios draws at random


@dataclasses.dataclass(frozen=True)
class Shown:
    """The result of a history: the row, the answer, and its value on both sides."""

    row: str
    history: History
    answer: str
    here: object
    there: object


@dataclasses.dataclass(frozen=True)
class Told:
    """Nagios's actions over a history (words of the harness's lines, times from the start), and nagsched's answers to calls."""

    row: str
    history: History
    nagios: tuple[str, ...]
    calls: tuple[str, ...]
    answers: tuple[str, ...]


def host(name: str = "h", attempts: int = 1, **members: Any) -> dict[str, Any]:
    return {"name": name, "max_check_attempts": attempts, **members}


def service(name: str = "s", attempts: int = 1, **members: Any) -> dict[str, Any]:
    return {"host": "h", "description": name, "max_check_attempts": attempts, **members}


def plan(text: str) -> Plan:
    """Checks, each as its code, or as SECONDS:CODE."""
    return [(int(takes or 0), int(code)) for takes, _, code in (word.rpartition(":") for word in text.split())]


def history(until: int, *objects: dict[str, Any], checks: dict[str, str], commands: tuple[tuple[int, str, str, int], ...] = (),
            links: tuple[dict[str, Any], ...] = (), options: Optional[dict[str, Any]] = None, keeps: bool = False, config: str = "", early: int = 0,
            threshold: int = NO_THRESHOLD) -> History:
    """A history of these hosts and services for this number of seconds. First checks aren't spread unless an option says so."""
    setup = {"options": {"host_inter_check_delay_method": "n", "service_inter_check_delay_method": "n", **(options or {})},
             "hosts": [item for item in objects if "name" in item], "services": [item for item in objects if "host" in item],
             "service_dependencies": [link for link in links if ";" in link["master"]],
             "host_dependencies": [link for link in links if ";" not in link["master"]]}
    called = tuple(Command(START + at, word, name, START + time) for at, word, name, time in commands)
    return History(setup, {name: plan(text) for name, text in checks.items()}, START + until, called, keeps, 15 if keeps else 0, early, config, threshold)


def spread(count: int, options: dict[str, Any], **members: Any) -> History:
    """The first checks of this number of services, next to each other."""
    return history(0, host(check_interval=0), *(service(f"s{number}", **members) for number in range(count)),
                   checks={"h": "0"}, options={"service_inter_check_delay_method": "s", **options})


def link(dependent: str, master: str, criteria: str) -> dict[str, Any]:
    return {"dependent": dependent, "master": master, "criteria": criteria}


QUIET = host(check_interval=0)  # a host that is up because it is never checked
FLAPS = {"low_host_flap_threshold": 10, "high_host_flap_threshold": 10}
FAST = {"interval_length": 1}
LIMIT = {"max_concurrent_checks": 1}

SHOWN = (
    Shown("soft recovery", history(60, host(attempts=2), checks={"h": "2 0"}), "standing",
          Standing("UP", "SOFT", 2, "UP"), Standing("UP", "SOFT", 1, "UP")),
    Shown("hard recovery in the log", history(360, QUIET, service(attempts=2), checks={"h;s": "2 2 0"}), "log", ("OK", "HARD", 1), ("OK", "HARD", 2)),
    Shown("problem while the host is down", history(300, host(), service(attempts=3), checks={"h": "2", "h;s": "0 1"}), "standing",
          Standing("WARNING", "HARD", 3, "WARNING"), Standing("WARNING", "HARD", 1, "WARNING")),
    Shown("after a problem while the host was down", history(600, host(), service(attempts=3), checks={"h": "2 2 0", "h;s": "0 1 1"}), "standing",
          Standing("WARNING", "HARD", 3, "WARNING"), Standing("WARNING", "HARD", 1, "WARNING")),
    Shown("after a problem while the host was down", history(1200, host(), service(attempts=3, check_interval=10), checks={"h": "2 2 2 0", "h;s": "0 1 0"}),
          "log", ("OK", "HARD", 1), ("OK", "SOFT", 1)),
    Shown("from the handling", history(1, host(), checks={"h": "1:3"}), "next check", 300_000, 301_000),
    Shown("retry after a soft recovery", history(60, QUIET, service(attempts=2), checks={"h;s": "2 0"}), "next check", 360_000, 120_000),
    Shown("no retry interval", history(0, host(attempts=2, retry_interval=0), checks={"h": "2"}), "next check", None, 0),
    Shown("result of a disabled object", history(20, host(enabled=False), checks={"h": "0"}, commands=((10, "force", "h", 10),)),
          "next check", 310_000, None),
    Shown("past times", history(10, host(check_interval=5), checks={"h": "10:0"}, options=FAST), "next check", 5_000, 10_000),
    Shown("equal times", history(0, host(), service(), checks={"h": "0", "h;s": "0"}), "which comes first", "h", "h;s"),
    Shown("empty first block", spread(1, {}), "first check", 0, 300_000),
    Shown("cut to the interval", spread(1, {**FAST, "service_inter_check_delay_method": 100_000}), "first check", 0, 5_000),
    Shown("scheduled places", history(0, QUIET, host("i", check_interval=0), service("s0", enabled=False), service("s1"), service("s2"), checks={},
                                      options={"service_inter_check_delay_method": "s"}), "first check", 150_000, 300_000),
    Shown("gaps in the ranks", spread(5, {"service_inter_check_delay_method": 1000, "service_interleave_factor": 4}), "first check", 3_000, 6_000),
    Shown("whole seconds", history(0, host(), host("i"), checks={"h": "0"}, options={"host_inter_check_delay_method": 250}), "first check", 250, 0),
    Shown("random first check", history(0, host(), host("i"), checks={"h": "0"}, options={**FAST, "host_inter_check_delay_method": 100_000}),
          "first check", 100_000, ANY),
    Shown("checked twice at once", history(12, QUIET, service(), checks={"h;s": "100:0"}, commands=((10, "force", "h;s", 12),)), "turn", "runs", "start"),
    Shown("host being checked", history(20, host(), checks={"h": "100:0"}, commands=((10, "reschedule", "h", 20),)), "turn", "runs", "putoff"),
    Shown("forced past the limit", history(10, QUIET, service("a"), service("b"), checks={"h;a": "100:0", "h;b": "100:0"}, options=LIMIT,
                                           commands=((2, "force", "h;a", 3), (2, "force", "h;b", 3))), "turn", "held", "start"),
    Shown("pushed back", history(0, QUIET, service("a"), service("b"), checks={"h;a": "100:0", "h;b": "100:0"}, options=LIMIT), "time after a turn", 0, ANY),
    Shown("master never checked", history(0, host(), host("i"), checks={"h": "0", "i": "0"}, links=(link("h", "i", "o"),)), "turn", "start", "putoff"),
    Shown("criteria with n", history(300, host(), host("i"), checks={"h": "0", "i": "2"}, links=(link("h", "i", "d,n"),)), "turn", "putoff", "start"),
    Shown("put off by the retry interval", history(60, host(attempts=3), host("i"), checks={"h": "2", "i": "2"}, links=(link("h", "i", "d"),)),
          "time after a turn", 360_000, 120_000),
    Shown("five minutes", history(0, host(attempts=2, check_interval=1, retry_interval=0), host("i"), checks={"h": "2", "i": "2"},
                                  links=(link("h", "i", "d"),)), "time after a turn", 60_000, 300_000),
    Shown("recent result", history(5, host(), checks={"h": "0"}, options=FAST, keeps=True), "turn", "start", "putoff"),
    Shown("dropped from the queue", history(600, host(), host("i", parents=["h"]), checks={"h": "2", "i": "0"}, options=FAST, keeps=True),
          "turn", "start", "putoff"),
    Shown("checks on demand", history(300, host(check_interval=10), service(attempts=2), checks={"h": "0", "h;s": "0 2"}), "check on demand", None, 300_000),
    Shown("fewer than 21 results", history(300, host(), checks={"h": "2 0"}, options=FLAPS), "flapping", False, True),
    Shown("soft problems", history(1300, QUIET, service(attempts=3), checks={"h;s": "2 0"}), "flapping", True, False),
    Shown("results of services", history(1500, host(check_interval=1), *(service(name, check_interval=1) for name in "abc"),
                                         checks={"h": "2 0", "h;a": "0", "h;b": "0", "h;c": "0"}), "flapping", True, False),
    Shown("stop", history(6900, host(), checks={"h": "0 2 0 2 2 2 2 2 2 2 0 2 2 2 2 2 0 2 2 2 2 2 2 2"}), "flapping", True, False),
    Shown("equal thresholds", history(6000, host(), checks={"h": "2" + " 0" * 19 + " 2"}, options=FLAPS), "flapping", True, False),
    Shown("reschedule", history(6, host(), checks={"h": "0"}, commands=((6, "reschedule", "h", 406),)),
          "time after a call", (406_000, False), (300_000, False)),
    Shown("switching on", history(82, host(), checks={"h": "0"}, commands=((80, "disable", "h", 0), (82, "enable", "h", 0))),
          "time after a call", (300_000, False), (82_000, False)),
    Shown("long interval", history(0, host("a", check_interval=525_600), host("b"), checks={"a": "0", "b": "0"}, links=(link("a", "b", "p,o"),),
                                   options={"interval_length": 5_938}), "time after a turn", 525_600 * 5_938_000, 300_000),
    Shown("pause", history(100, host(), checks={"h": "0"}, commands=((100, "PAUSE 900", "h", 0),), threshold=900),
          "time after a change of the clock", 300_000, 1_200_000),
    Shown("clock set back", history(100, host(), checks={"h": "0"}, commands=((100, "PAUSE -40", "h", 0),)),
          "time after a change of the clock", 300_000, 260_000),
    Shown("switching off", history(300, host(), checks={"h": "0"}, commands=((80, "disable", "h", 0),)), "time after a turn", 300_000, None),
)

NAGIOS_ONLY = "PROCESS_HOST_CHECK_RESULT;h;1;down"

# A host that is DOWN and UP in turn, after 60 checks, by the number of its services that are checked as often: its flag and percent in Nagios.
PERCENTS = ("1 100.000000000", "1 50.657894737", "1 35.460526316", "0 25.986842105", "0 21.052631579", "0 20.263157895", "0 15.986842105")


def to_and_fro(count: int, percent: str) -> Told:
    services = [service(f"s{number}", check_interval=1) for number in range(count)]
    checks = {"h": "2 0", **{f"h;s{number}": "0" for number in range(count)}}
    return Told("results of services", history(3540, host(check_interval=1), *services, checks=checks),
                (f"result h 3540 0 3540 0 1 1 0 1 {percent}",), (), ())


TOLD = (
    *(to_and_fro(count, percent) for count, percent in enumerate(PERCENTS)),
    Told("other codes", history(600, host(), service(), checks={"h": "4 255 1000", "h;s": "4 126 1001"}),
         ("result h;s 0 4 0 2", "result h 0 4 0 1", "result h;s 300 126 300 2", "result h 300 255 300 1", "result h;s 600 1001 600 2",
          "result h 600 1000 600 1"),
         ('["take",0]', '["report","h",1,4]'), ("taken 1 h", "refused S4 Code 3")),
    Told("lost result", history(800, host(), service(), checks={"h": "9000:0", "h;s": "9000:0"},
                                config="check_for_orphaned_services=1\ncheck_for_orphaned_hosts=1\n"),
         ("start h;s 0", "start h 0", "start h 660", "start h;s 720"),
         ('["take",0]', '["take",0]', '["take",800000]'), ("taken 1 h", "taken 2 h;s", "idle none")),
    Told("pause", history(2700, QUIET, service("a"), service("b"), checks={"h;a": "0", "h;b": "0"}, commands=((400, "PAUSE 2000", "h", 0),),
                          options={"service_inter_check_delay_method": "s"}, threshold=900),
         ("start h;a 150", "start h;b 300", "start h;a 2450", "start h;b 2600"),
         ('["take",0]', '["report","h;a",1,0]', '["take",150000]', '["report","h;b",2,0]', '["take",2400000]', '["take",2400000]'),
         ("taken 1 h;a", "standing OK HARD 1 no STEADY 300000 h;a", "taken 2 h;b", "standing OK HARD 1 no STEADY 450000 h;b", "taken 3 h;a",
          "taken 4 h;b")),
    Told("pause", history(1000, QUIET, service("a"), service("b"), checks={"h;a": "0", "h;b": "0"}, commands=((400, "PAUSE 600", "h", 0),),
                          options={"service_inter_check_delay_method": "s"}, threshold=900),
         ("start h;a 150", "start h;b 300", "start h;a 1000", "start h;b 1000"), (), ()),
    Told("passive result of a host", history(150, host(attempts=3), checks={"h": "0"}, commands=((100, NAGIOS_ONLY, "h", 0),)),
         ("command h 100 300 0 1 1 1 1",), ('["take",0]', '["report","h",1,2]'), ("taken 1 h", "standing DOWN SOFT 1 yes STEADY 60000 h")),
    Told("volatile service", history(300, QUIET, service(is_volatile=1), checks={"h;s": "2"}),
         ("result h;s 0 2 0 2 1 1 2 0 0 6.250000000 300 0 2,1,1", "result h;s 300 2 300 2 1 1 2 2 0 6.118421053 600 0 2,1,1"), (), ()),
    Told("thresholds of one object", history(0, host(low_flap_threshold=2, high_flap_threshold=5), checks={"h": "2"}),
         ("result h 0 2 0 1 1 1 1 0 1 6.250000000",), (), ()),
    Told("early start", history(600, host(), checks={"h": "0"}, early=4), ("start h 0", "start h 299"),
         ('["take",0]', '["report","h",1,0]', '["take",299999]'), ("taken 1 h", "standing UP HARD 1 no STEADY 300000 h", "idle 300000")),
)
