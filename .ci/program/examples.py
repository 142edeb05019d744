#!/usr/bin/env python3
"""Runs the files of examples/ on the built program.

    .ci/program/examples.py [PROGRAM]     crates/nagsched/out/nagsched if no program is named

The expected output in office.out, sequence.out and drill.out was worked out manually from the rules. The clients ask `live`; that in JavaScript is run if
Node is installed, and the loop in Go if Go is.
"""
import json
import os
import pathlib
import subprocess
import sys
import tempfile
import threading
from harness import EXAMPLES, Harness
import needs

RUNS = {"office": ["run"], "sequence": ["run"], "drill": ["drill", "--workers", "1"]}

harness = Harness("examples")
for name, arguments in RUNS.items():
    wanted = (EXAMPLES / f"{name}.out").read_bytes()
    harness.compare(name, (wanted, 0), harness.run(arguments, (EXAMPLES / f"{name}.txt").read_bytes()))


def client_output(harness, command, given=b""):
    """What a client prints about this input, and its exit status."""
    ran = subprocess.run([*command, harness.program], input=given, stdout=subprocess.PIPE, timeout=60)
    return ran.stdout.decode().splitlines(), ran.returncode


office = (EXAMPLES / "office.txt").read_bytes()
requests = [line for line in office.decode().splitlines()[1:] if line]
answers = [line.split(" ") for line in (EXAMPLES / "office.out").read_text(encoding="utf-8").splitlines()]
printed, status = client_output(harness, [sys.executable, EXAMPLES / "client.py"], office)
harness.compare("client.py: the first word of each answer", ([words[0] for words in answers], 0), ([line.split("] ")[1].split(" ")[0] for line in printed], status))
WHY = 'line 1: the setup isn\'t JSON; give it to "nagsched check" to see why, or to "nagsched check --line" to have it on one line'
REFUSED = 'line 1: the setup is refused; give this line to "nagsched check" to see why'
harness.compare("client.py: a refused setup", ([f'["take", 0] refused {WHY}'] * 2, 0), client_output(harness, [sys.executable, EXAMPLES / "client.py"], b'{}}\n["take",0]\n["take",0]\n'))
if needs.is_here("examples", "node"):
    harness.compare("client.mjs", (["a UP 300000", "b UP 300000"], 0), client_output(harness, ["node", EXAMPLES / "client.mjs"]))


def go_output(folder, *words):
    """What Go's command writes, and its exit status. It needs no network, and its files are in this folder."""
    own = {"GOCACHE": f"{folder}/cache", "GOPATH": f"{folder}/path", "GOFLAGS": "", "GOPROXY": "off", "GO111MODULE": "off", "GOTOOLCHAIN": "local"}
    ran = subprocess.run([*words, EXAMPLES / "monitor.go"], env=os.environ | own, stdout=subprocess.PIPE, stderr=subprocess.STDOUT, text=True, timeout=300)
    return ran.stdout, ran.returncode


def loop_rows(harness, folder):
    """The loop in Go is formatted, vetted and built. It reports a plugin's code, ends with its input, and says why a setup or a program can't be used."""
    loop, setup, commands = (pathlib.Path(folder, name) for name in ("loop", "setup.json", "commands.json"))
    for words in (*([["gofmt", "-l"]] if needs.path_of("gofmt") else []), ["go", "vet"], ["go", "build", "-o", loop]):
        harness.compare(f"monitor.go: {' '.join(map(str, words))}", ("", 0), go_output(folder, *words))
    options = {"host_inter_check_delay_method": "n"}
    setup.write_text(json.dumps({"options": options, "hosts": [{"name": "a", "max_check_attempts": 3}, {"name": "b", "max_check_attempts": 3}]}, indent=1))
    commands.write_text(json.dumps({"a": "exit 2", "b": "true"}))
    with subprocess.Popen([loop, setup, commands, harness.program], stdin=subprocess.PIPE, stdout=subprocess.PIPE, stderr=subprocess.PIPE, text=True) as live:
        limit = threading.Timer(60, live.kill)
        limit.start()
        line = live.stdout.readline()
        harness.compare("monitor.go: a change", "a is DOWN SOFT 1\n", line.partition(" ")[2])
        harness.compare("monitor.go: the end of its input", (("", ""), 0), (live.communicate(), live.returncode))
        limit.cancel()
    setup.write_text('{"hosts":5}')
    for program, why in ((harness.program, REFUSED), ("/bin/true", "/bin/true gives no answer: EOF"),
                         ("/no/such", "fork/exec /no/such: no such file or directory: name the program nagsched as the third argument")):
        ran = subprocess.run([loop, setup, commands, program], stdin=subprocess.DEVNULL, stdout=subprocess.PIPE, stderr=subprocess.PIPE, text=True, timeout=60)
        harness.compare(f"monitor.go: {why}", ("", f"monitor: {why}\n", 1), (ran.stdout, ran.stderr, ran.returncode))


if needs.is_here("examples", "go"):
    with tempfile.TemporaryDirectory() as folder:
        loop_rows(harness, folder)
harness.end()
