#!/usr/bin/env python3
"""Refuses the built program each request for memory in turn.

    .ci/program/refusals.py [PROGRAM]          crates/nagsched/out/nagsched if no program is named; needs a C compiler, cc
    .ci/program/refusals.py PROGRAM --long     not in the gate, since it takes ten minutes: a run over 4,096 hosts, and the tests of the lock

A run is made with its first request refused, then with its second and so on, until a run makes fewer requests. Each run has to end in one of three
ways: in the answer of ample memory; in status 4 with whole lines from the beginning of that answer; for a drill, in a total that counts the refusal.
The lines of several workers come in any order, so only their total is compared. In the tests of the lock, the call whose request was refused returns
its arguments, and succeeds when it is made again.
"""
import json
import os
import pathlib
import re
import struct
import subprocess
import sys
import tempfile
from concurrent.futures import ThreadPoolExecutor

from harness import EXAMPLES, SERVICE, TOP, Harness, input_lines
import needs

HERE = pathlib.Path(__file__).resolve().parent
ROWS = TOP / "conformance" / "rows"
DRILL = ["drill", "--workers", "1"]
OUT_OF_MEMORY = 4
# So many first requests are refused in turn, and every 61st after them.
EACH, STEP = 2_000, 61
COUNTER = struct.Struct("l")
TOTAL = re.compile(rb"(?:.*\n)*total \d+ (\d+)\n")


def chain_drill():
    """A drill over the chain of three services, whose first service fails and puts off the others: its input and its history."""
    setup = (ROWS / "dependencies" / "inherited-dependency").read_bytes().splitlines(keepends=True)[0]
    given = setup + input_lines('["plugin","h;a",2]', *['["moment",0]'] * 3)
    history = ["taken 1 h;a", "standing CRITICAL HARD 1 yes STEADY 300000 h;a", "putoff 300000 h;b", "putoff 300000 h;c"]
    return given, input_lines(*(f"0 {line}" for line in history), "total 4 0")


def check_runs(harness):
    """Checks of a setup with its figures, its line, and an explained refusal. The program's answer with ample memory counts as right."""
    office = (EXAMPLES / "office.txt").read_bytes().splitlines(keepends=True)[0]
    refused = input_lines('{"hosts":[{"name":"a","parents":["b"],"max_check_attempts":1},{"name":"b","parents":["a"],"max_check_attempts":1}]}')
    for name, arguments, given in (("its figures", ["check"], office), ("its line", ["check", "--line"], office), ("a refusal", ["check"], refused)):
        yield f"check, {name}", arguments, given, harness.run(arguments, given)[0]


def resume_runs(harness):
    """A run that saves. Then a run, a conversation and a check from its state, over a setup with one object less and another maximum of attempts."""
    office = (EXAMPLES / "office.txt").read_bytes()
    saving = office + b'["save"]\n'
    saved = harness.run([], saving)[0]
    yield "run, the office saved", [], saving, saved
    state = saved.splitlines()[-1].removeprefix(b"saved ")
    setup = json.loads(office.splitlines()[0])
    setup["services"].pop()
    setup["hosts"][0]["max_check_attempts"] += 1
    given = input_lines(json.dumps(setup), state.decode(), '["take",9000000]', '["list"]', '["save"]')
    for word in ("run", "live", "check"):
        arguments = [word, "--resume"]
        yield f"{word}, from a saved state", arguments, given, harness.run(arguments, given)[0]
    refused = input_lines(json.dumps(setup), state.decode().replace('"runs":', '"run":'))
    yield "check, a saved state that is refused", ["check", "--resume"], refused, harness.run(["check", "--resume"], refused)[0]


def form_runs(harness):
    """The office, and lines and calls that are refused, in the other forms of answers."""
    office = (EXAMPLES / "office.txt").read_bytes()
    lines = ('["take",0]', '["report","h",9,0]', '["take"]', "[", '["report","h",1,4]', '["status","x"]', '["list"]', '["save"]')
    for words in (["run", "--json"], ["live", "--json"], ["live", "--explain"]):
        for what, given in (("the office", office), ("refused lines", SERVICE + input_lines(*lines)), ("a refused setup", input_lines('{"hosts":5}'))):
            yield f"{' '.join(words)}, {what}", words, given, harness.run(words, given)[0]


def all_runs(harness):
    """Each run to test: its name, its arguments, its input, and its output with ample memory, or nothing if that varies."""
    yield from check_runs(harness)
    yield from resume_runs(harness)
    yield from form_runs(harness)
    yield "schema", ["schema"], b"", (TOP / "docs/setup.schema.json").read_bytes()
    office, drill = ((EXAMPLES / f"{name}.txt").read_bytes() for name in ("office", "drill"))
    for word in ("run", "live"):
        yield f"{word}, the office", [word], office, (EXAMPLES / "office.out").read_bytes()
    for room in ([], ["--room", "0"]):
        yield " ".join(["drill, 3 workers", *room]), ["drill", "--workers", "3", *room], drill, None
    for name in ("operators/status-soft-recovery", "dependencies/inherited-dependency"):
        yield f"run, {name}", [], (ROWS / name).read_bytes(), (ROWS / f"{name}.stdout").read_bytes()
    of_service = ROWS / "drill" / "one-worker"
    for name, (given, ample) in {
        "one service": (of_service.read_bytes(), of_service.with_suffix(".stdout").read_bytes()),
        "a chain": chain_drill(),
    }.items():
        for room in ([], ["--room", "0"]):
            yield " ".join([f"drill, {name}", *room]), [*DRILL, *room], given, ample


def long_runs():
    """A run that makes many requests."""
    hosts = [{"name": f"host{number:04}", "max_check_attempts": 3} for number in range(4_096)]
    setup = {"options": {"host_inter_check_delay_method": "n"}, "hosts": hosts}
    yield "run, 4,096 hosts", ["run"], input_lines(json.dumps(setup), '["take",0]'), b"taken 1 host0000\n"


class Refuser:
    """Runs the program with one of its requests for memory refused."""

    def __init__(self, harness, folder):
        self.harness, self.folder = harness, pathlib.Path(folder)
        self.library = self.folder / "refuse.so"
        subprocess.run(["cc", "-O2", "-shared", "-fPIC", "-o", self.library, HERE / "refuse.c", "-ldl"], check=True)

    def run(self, arguments, given, number):
        """The output, the status, and the number of requests."""
        with tempfile.NamedTemporaryFile(dir=self.folder) as counter:
            counter.write(bytes(COUNTER.size))
            counter.flush()
            own = {"LD_PRELOAD": str(self.library), "REFUSE_AT": str(number), "REQUESTS": counter.name}
            written, status = self.harness.run(arguments, given, env=os.environ | own)
            counter.seek(0)
            return written, status, COUNTER.unpack(counter.read())[0]


def kind_of(written, status, ample):
    """How a run ended with a request refused: ample, memory, counted, or nothing of these."""
    total = TOTAL.fullmatch(written)
    if status == OUT_OF_MEMORY:
        return "memory" if written[-1:] in (b"", b"\n") and (ample is None or ample.startswith(written)) else None
    if status not in (0, 1):
        return None
    if written == ample or ample is None and total and total[1] == b"0":
        return "ample"
    return "counted" if total and total[1] != b"0" else None


def sweep(harness, refuser, several, name, arguments, given, ample):
    """Refuses each request of one run, and returns how often it ended in which way."""
    written, status, requests = refuser.run(arguments, given, 0)
    harness.compare(f"{name}: with ample memory", "ample", kind_of(written, status, ample))
    harness.compare(f"{name}: some requests", True, requests > 50)
    # With several workers one run may make some requests more than another.
    numbers = [*range(1, min(EACH, requests + 10)), *range(EACH, requests + 10, STEP)]
    kinds = list(several(lambda number: kind_of(*refuser.run(arguments, given, number)[:2], ample), numbers))
    harness.compare(f"{name}: refused", [], [number for number, kind in zip(numbers, kinds) if kind is None])
    print(f"{name}: {requests} requests," + ",".join(f" {kinds.count(kind)} {kind}" for kind in ("ample", "memory", "counted")))


def main():
    needs.require("refusals", "cc")
    harness, is_long = Harness("refusals"), sys.argv[2:] == ["--long"]
    with tempfile.TemporaryDirectory() as folder, ThreadPoolExecutor(os.cpu_count()) as threads:
        refuser = Refuser(harness, folder)
        for run in long_runs() if is_long else all_runs(harness):
            sweep(harness, refuser, threads.map, *run)
    if is_long:
        ran = subprocess.run(["rt", "try", "--test", "--fail-alloc", "1.."], cwd=TOP / "crates/lock_tests", check=False)
        harness.compare("the tests of the lock", 0, ran.returncode)
    harness.end()


main()
