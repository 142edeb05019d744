#!/usr/bin/env python3
"""Prints which functions of a crate take longest to prove, from the files that a check of it left.

    bench/slowest.py CRATE [COUNT]     after `rt check --jobs 1` in the crate's folder, with no out/ there before

Run it manually; it is no part of the gate. A check with one job writes a file for each part of a function when it is done: the time between
two of them is the later one's. Files that came from another clone are listed with the times at which they were written there.
"""
import collections
import pathlib
import re
import sys

TOP = pathlib.Path(__file__).resolve().parent.parent
# The names of a proof's parts follow the path of its function.
PARTS = "Answers|AnswersTried|Carried|Code|Given|Goals|Invariants|Kinds|Layout|Lts|Met|Named|Proof|Reads|Statement|Symbol|TheLink|Tie"
FUNCTION = re.compile(rf"-proofs\.(.+?)\.(?:{PARTS})\b")
# A longer pause, in seconds, is another check.
PAUSE = 900


def main():
    crate, count = sys.argv[1], int(sys.argv[2]) if len(sys.argv) > 2 else 20
    kept = sorted((file.stat().st_mtime, file.stem) for file in (TOP / "crates" / crate / "out").rglob("*.oantt"))
    if not kept:
        sys.exit(f"slowest: no check has left anything in crates/{crate}/out")
    took = collections.Counter()
    for (before, _), (after, name) in zip(kept, kept[1:]):
        function = FUNCTION.search(name)
        took[function[1] if function else "(contracts, lemmas, libraries)"] += after - before if after - before < PAUSE else 0
    for name, seconds in took.most_common(count):
        print(f"{seconds:6.1f} {name}")
    print(f"{sum(took.values()):6.1f} in all")


if __name__ == "__main__":
    main()
