#!/usr/bin/env python3
"""Runs tools/test.sh with a kit that proves nothing and parts that test nothing, and tests what the script does with their outcomes.

    .ci/deliverables/gate.py

The last line adds up the counts, and the status is 0 only if nothing failed. The progress names each crate. Only a program that `rt ci` has proved is
recorded as proved. A part that ends without counts is a failure. The script also tests what .ci/edits/edits.py makes of the prover's output.
"""
import os
import pathlib
import re
import shutil
import subprocess
import sys
import tempfile
from typing import Iterator, Tuple

sys.path += [str(pathlib.Path(__file__).resolve().parents[1] / folder) for folder in ("program", "edits")]
from harness import TOP, Counts
import clauses
import goals
import tried

LIMIT = 120
COPIED = ("VERSION", "crates.txt", "tools/test.sh", "tools/build_file.py", "tools/unproved.py")
PART = "print('{name}: 2 passed, 0 failed')\n"
# A kit: what rt ci says of each crate, and how it ends.
KIT = """#!/bin/sh
[ "$1" = ci ] || { echo a kit; exit; }
for crate in $(sed -n 's/^\\([a-z_]*\\).*:.*/\\1/p' crates.txt); do
    echo "== $crate"
    if [ "$crate" = nagsched ]; then {program}; else echo "rt: $crate is kept: an earlier run"; fi
done
{end}
"""
PROVED = KIT.replace("{program}", "mkdir -p crates/nagsched/out; cp /bin/true crates/nagsched/out/nagsched; echo 'rt: nagsched proved'").replace("{end}", "echo '40 passed, 0 failed'")
NOT_PROVED = KIT.replace("{program}", "echo 'rt: nagsched NOT PROVED'").replace("{end}", "echo '39 passed, 1 failed'; exit 1")
# The prover's output for a function with a wrong body: one clause is false, and the proof of another names something that is gone.
TOLD = """./proofs/queue/put/Answers.antt:10:6: error: `returns-clause-kept`: record
  `Rattle.check_queue.After-push` has no
  field `push_back` (nearest: .push_front)
note: src/queue.rt:9:1: it is not proved that what the function ensures holds when it returns (`returns-then-a-clause-least`); the facts known there allow values at which this goal is false
help: a bound may be missing
fn check_queue::queue::put: not proved
note: `returns-then-a-clause-least` of proofs/queue/put/Answers.antt may be false: the known facts allow `c.args.n` = `0`, `c.len` = `1`, and 2 more: help: a fact may be missing
"""
# The same without values, as after an edit that only moved a name of the proof; and an open goal of a loop.
MOVED = TOLD.replace("the facts known there allow values at which this goal is false", "`search` gave up at one of its limits").replace("may be false", "is open")
LOOP = "note: src/queue.rt:9:1: it is not proved that the invariant of the loop holds (`loop-i-preserved`)\nfn check_queue::queue::put: no proof: see above\n"
PROOF = "pub returns-clause-kept : goal.returns-clause-kept\nreturns-clause-kept c = c.push_back.ensures\n"
# What is compared, what came, and what was wanted.
Row = Tuple[str, object, object]


def parts() -> list[str]:
    """The scripts that tools/test.sh runs as parts."""
    short = re.findall(r"^short=\((.*)\)$", (TOP / "tools/test.sh").read_text(encoding="utf-8"), re.M)
    return [*" ".join(short).split(), "names", "edits", "generations", "install", "monitor", "c_library"]


def make_tree(folder: pathlib.Path, kit: str) -> None:
    """A repository whose parts test nothing, and a kit."""
    for name in COPIED:
        (folder / name).parent.mkdir(parents=True, exist_ok=True)
        shutil.copy(TOP / name, folder / name)
    for script in (TOP / ".ci").glob("*/*.py"):
        if script.stem in parts():
            part = folder / script.relative_to(TOP)
            part.parent.mkdir(parents=True, exist_ok=True)
            part.write_text(PART.format(name=script.stem), encoding="utf-8")
    # Nothing is missing.
    (folder / ".ci/needs.py").touch()
    (folder / "conformance").mkdir()
    (folder / "conformance/check").write_text(PART.format(name="conformance"), encoding="utf-8")
    (folder / "kit").mkdir()
    (folder / "kit/rt").write_text(kit, encoding="utf-8")
    (folder / "kit/rt").chmod(0o755)


def run_gate(folder: pathlib.Path, *words: str) -> Tuple[int, str]:
    """The status and the output of tools/test.sh there."""
    env = os.environ | {"PATH": f"{folder}/kit{os.pathsep}{os.environ['PATH']}"}
    ran = subprocess.run(["bash", folder / "tools/test.sh", *words], env=env, stdin=subprocess.DEVNULL, stdout=subprocess.PIPE, stderr=subprocess.STDOUT, text=True,
                         timeout=LIMIT, check=False)
    return ran.returncode, ran.stdout


def record_of(folder: pathlib.Path) -> str:
    file = folder / "crates/nagsched/out/nagsched.build"
    return file.read_text(encoding="utf-8") if file.is_file() else ""


def rows(work: pathlib.Path) -> Iterator[Row]:
    """What the script does with each outcome."""
    good, bad = work / "good", work / "bad"
    make_tree(good, PROVED)
    count = 2 * (len(parts()) + 1)
    status, output = run_gate(good)
    yield "the gate", (status, output.splitlines()[-1]), (0, f"{40 + count} passed, 0 failed")
    crates = len(re.findall(r"^\w", (TOP / "crates.txt").read_text(encoding="utf-8"), re.M))
    yield "its progress", re.findall(r"crates left: (\d+)$", output, re.M), [str(left) for left in reversed(range(crates))]
    yield "its record", "proofs: proved\n" in record_of(good), True
    (good / ".ci/program/damage.py").write_text("raise SystemExit(3)\n", encoding="utf-8")
    status, output = run_gate(good)
    yield "a part that ends without counts", (status, output.splitlines()[-1]), (1, f"{40 + count - 2} passed, 1 failed")
    status, output = run_gate(good, "--quick")
    yield "the quick form", (status, "Not run, since they need proofs" in output, output.splitlines()[-1]), (1, True, f"{count - 8} passed, 1 failed")
    make_tree(bad, NOT_PROVED)
    (bad / "crates/nagsched/out").mkdir(parents=True)
    shutil.copy("/bin/true", bad / "crates/nagsched/out/nagsched")
    status, output = run_gate(bad)
    yield "proofs that fail", (status, output.splitlines()[-1], record_of(bad)), (1, f"{39 + count} passed, 1 failed", "")


def is_refused(line: str, told: str) -> object:
    """Whether this output shows that an edit with this line is refused, and the words about it. None if the line has another form."""
    clause = clauses.read_clause(f"{line}\nfile: src/queue.rt\n")
    return clause and clauses.judged(clause, goals.open_goals("check_queue", "queue::put", told, PROOF))


def rows_of_edits(work: pathlib.Path) -> Iterator[Row]:
    """What .ci/edits/edits.py makes of the prover's output, and of a file TRIED."""
    least = "returns-then-a-clause-least"
    yield "an edit of the clause that it names", is_refused("clause: least", TOLD), (True, f"{least}: false at c.args.n = 0, c.len = 1")
    yield "an edit of another clause", is_refused("clause: within", TOLD), (False, f"it leaves other goals open than one of its clause: {least}, returns-clause-kept")
    taken, moved, loop = (is_refused(f"clause: {name}", told) for name, told in [("kept", TOLD), ("least", MOVED), ("least", LOOP)])
    yield "an edit that took a name away", "(False, 'a proof only names what the edit took away" in str(taken), True
    yield "an edit that moved a name", "(False, 'names of the proof moved" in str(moved), True
    yield "the same, read by somebody", is_refused("clause: least\nread: n is 0", MOVED), (True, f"{least}: read: n is 0")
    yield "a name taken away, read by somebody", is_refused("clause: kept\nread: n is 0", TOLD), taken
    yield "a loop's invariant", loop, (False, "it leaves other goals open than one of its clause: loop-i-preserved")
    yield "a loop that the edit names", is_refused("clause: loop least", LOOP), (True, "loop-i-preserved: not proved")
    yield "a function that is proved", is_refused("clause: least", "fn check_queue::queue::put: proved\n"), (False, "no goal is left open")
    yield "a line in another form", [is_refused(line, TOLD) for line in ("clauses: least", "clause: loop", "clause: least of all numbers")], [None, None, None]
    file = work / "TRIED"
    yield "no TRIED", tried.read_tried(file), None
    file.write_text(tried.Tried("kit-1 logic cafe", "f00d", {"edits/one": "queue::put, returns: false at n = 0"}).text(), encoding="utf-8")
    known = tried.read_tried(file)
    yield "TRIED", known, tried.Tried("kit-1 logic cafe", "f00d", {"edits/one": "queue::put, returns: false at n = 0"})
    fits = [("kit-1 logic cafe", "f00d"), ("kit-2 logic cafe", "f00d"), ("kit-1 logic cafe", "beef"), ("kit-1 logic face", "f00d")]
    yield "a TRIED of another kit, of other sources, or of another logic", known and [known.fits(*it) for it in fits], [True, True, False, False]


def main() -> None:
    counts = Counts("gate")
    with tempfile.TemporaryDirectory() as folder:
        for what, came, wanted in [*rows(pathlib.Path(folder)), *rows_of_edits(pathlib.Path(folder))]:
            counts.compare(what, wanted, came)
    counts.end()


main()
