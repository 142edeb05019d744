#!/usr/bin/env python3
"""Histories with the harness's lines about them, stored so that the gate can judge without Nagios.

    conformance/nagios/stored.py BUILT     writes histories.xz beside this file; build.sh has left the harness in BUILT

The file has a line of JSON for each history: the directed ones in their order, then random ones, of which a third is from wide.py.
"""
from __future__ import annotations

import itertools
import json
import lzma
import pathlib
import sys
from typing import Iterator

import directed
import histories
import judge
from histories import Command, History, Told

FILE = pathlib.Path(__file__).resolve().parent / "histories.xz"
SEED = "stored"
PLAIN, WIDE = 200, 100
MOST = 2000  # results of a stored history
DIRECTED = [shown.history for shown in directed.SHOWN] + [case.history for case in directed.TOLD]


def line(history: History, told: Told) -> str:
    """A history as far as a comparison reads it, and what the harness wrote."""
    commands = [[command.at, command.word, command.name, command.time] for command in history.commands]
    return json.dumps({"setup": history.setup, "commands": commands, "keeps": history.keeps, "horizon": history.horizon, "threshold": history.threshold,
                       "told": [" ".join(words) for words in told]}, separators=(",", ":"))


def read() -> Iterator[tuple[History, Told]]:
    """The stored histories with the harness's lines. They have no plans, since the lines have the results."""
    with lzma.open(FILE, "rt", encoding="utf-8") as stored:
        for text in stored:
            item = json.loads(text)
            commands = tuple(Command(*command) for command in item["commands"])
            yield (History(item["setup"], {}, 0, commands, item["keeps"], item["horizon"], threshold=item["threshold"]),
                   [words.split() for words in item["told"]])


def random_ones(built: pathlib.Path, is_wide: bool, count: int) -> Iterator[str]:
    """The first histories of the seed that aren't too long."""
    for first in itertools.count(0, judge.BATCH):
        batch = [judge.random_history(SEED, number, is_wide) for number in range(first, first + judge.BATCH)]
        for history, told in zip(batch, histories.play(built, batch)):
            if sum(words[0] == "result" for words in told) <= MOST:
                yield line(history, told)
                count -= 1
                if count == 0:
                    return


def main() -> int:
    if len(sys.argv) != 2 or not (pathlib.Path(sys.argv[1]) / "harness").is_file():
        print("usage: conformance/nagios/stored.py BUILT, where build.sh has left the harness in the directory BUILT", file=sys.stderr)
        return 2
    built = pathlib.Path(sys.argv[1])
    lines = [line(history, told) for history, told in zip(DIRECTED, histories.play(built, DIRECTED))]
    lines += [*random_ones(built, False, PLAIN), *random_ones(built, True, WIDE)]
    with lzma.open(FILE, "wt", encoding="utf-8", preset=9) as stored:
        stored.writelines(text + "\n" for text in lines)
    print(f"{FILE.name}: {len(lines)} histories, {FILE.stat().st_size} bytes")
    return 0


if __name__ == "__main__":
    sys.exit(main())
