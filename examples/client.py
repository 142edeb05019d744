#!/usr/bin/env python3
"""Asks `nagsched live --json`: sends any number of requests, each with an id, and pairs the answers by their ids.

    examples/client.py [PROGRAM] < INPUT

INPUT is an input of `run`: a setup on line 1, and a command on each later line. It prints each request with the answer to it.
"""
import contextlib
import json
import subprocess
import sys
import threading
from typing import IO

Answer = dict[str, object]


def send(pipe: IO[str], lines: list[str]) -> None:
    """Sends these lines. If the setup is refused, nobody reads the others."""
    with contextlib.suppress(BrokenPipeError), pipe:
        pipe.writelines(lines)


def ask_all(program: str, setup: str, requests: list[list[object]]) -> list[Answer]:
    """The answers to these requests, in their order. A thread sends while this one reads, so neither waits for the other."""
    lines = [setup, *(json.dumps([*request, {"id": number}]) + "\n" for number, request in enumerate(requests))]
    with subprocess.Popen([program, "live", "--json"], stdin=subprocess.PIPE, stdout=subprocess.PIPE, text=True) as live:
        threading.Thread(target=send, args=(live.stdin, lines)).start()
        answers = {answer.get("id"): answer for answer in map(json.loads, live.stdout or ())}
    return [answers.get(number) or answers[None] for number, _ in enumerate(requests)]


def main(program: str = "nagsched") -> None:
    setup, *lines = sys.stdin
    requests = [json.loads(line) for line in lines if line.strip()]
    for request, answer in zip(requests, ask_all(program, setup, requests)):
        print(json.dumps(request), answer["answer"], answer.get("explanation") or answer.get("name", ""))


if __name__ == "__main__":
    main(*sys.argv[1:])
