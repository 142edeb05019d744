#!/usr/bin/env python3
"""The cost of saving a scheduler and resuming the saved state, compared with Rust's serde_json on the same bytes. Run it manually; no part of the gate.

    bench/saving.py [PROGRAM]     crates/nagsched/out/nagsched if no program is named; needs valgrind and Debian's librust-serde-json-dev

Callgrind counts instructions. A figure is the difference of a run with the command `save`, or with `--resume`, and the same run without it. The setups have
1,024, 2,048 and 4,096 services with names of 30 bytes and 21 results each. serde_json reads the saved state into a tree, and writes that tree. A save makes
a tree and writes it, so it is compared with both together and with the writing only. A restart is the time from the start of `live --resume` until its first
answer.
"""
import json
import os
import pathlib
import re
import subprocess
import sys
import tempfile
import time

TOP = pathlib.Path(__file__).resolve().parent.parent
REGISTRY = "/usr/share/cargo/registry"
COUNTS = (1_024, 2_048, 4_096)
RESULTS = 21
STEADY = {**os.environ, "GLIBC_TUNABLES": "glibc.cpu.x86_rep_stosb_threshold=100000000:glibc.cpu.x86_rep_movsb_threshold=100000000"}
TREE = """
use std::io::Read;
fn main() {
    let mut bytes = Vec::new();
    std::io::stdin().read_to_end(&mut bytes).unwrap();
    let word = std::env::args().nth(1).unwrap();
    if word == "nothing" { return; }
    let tree: serde_json::Value = serde_json::from_slice(&bytes).unwrap();
    if word == "write" { print!("{}", serde_json::to_string(&tree).unwrap()); }
}
"""


def instructions(arguments, given):
    """The number of instructions that a program takes on an input."""
    told = subprocess.run(["valgrind", "--tool=callgrind", "--callgrind-out-file=/dev/null", *arguments], input=given, env=STEADY, stdout=subprocess.DEVNULL,
                          stderr=subprocess.PIPE, check=True)
    return int(re.search(rb"Collected : (\d+)", told.stderr).group(1))


def build_tree(work):
    """The program that reads and writes a tree of serde_json."""
    (work / "src").mkdir()
    (work / ".cargo").mkdir()
    (work / "src/main.rs").write_text(TREE)
    (work / "Cargo.toml").write_text('[package]\nname = "tree"\nversion = "0.1.0"\nedition = "2021"\n[dependencies]\nserde_json = "1"\n')
    (work / ".cargo/config.toml").write_text(f'[source.crates-io]\nreplace-with = "debian"\n[source.debian]\ndirectory = "{REGISTRY}"\n')
    subprocess.run(["cargo", "build", "--release", "--offline", "--quiet"], cwd=work, check=True)
    return work / "target/release/tree"


def setup_of(count):
    """A host that is never checked, and services with names of 30 bytes."""
    services = [{"host": "h", "description": f"service-{number:020}", "max_check_attempts": 3} for number in range(count - 1)]
    return {"options": {"service_inter_check_delay_method": "n"}, "hosts": [{"name": "h", "check_interval": 0, "max_check_attempts": 3}], "services": services}


def results_of(count):
    """Calls that leave 21 results of each service; one result in seven is a problem."""
    run = 0
    for turn in range(RESULTS):
        for number in range(count - 1):
            run += 1
            yield f'["take",{turn * 600_000}]'
            yield f'["report","h;service-{number:020}",{run},{2 if (turn + number) % 7 == 0 else 0}]'


def restart(program, given):
    """Milliseconds until the first answer of a conversation that resumes."""
    times = []
    for _ in range(5):
        begin = time.perf_counter()
        with subprocess.Popen([program, "live", "--resume"], stdin=subprocess.PIPE, stdout=subprocess.PIPE) as live:
            live.stdin.write(given)
            live.stdin.flush()
            live.stdout.readline()
            times.append((time.perf_counter() - begin) * 1000)
            live.stdin.close()
    return sorted(times)[2]


def main():
    program = str(pathlib.Path(sys.argv[1] if len(sys.argv) > 1 else TOP / "crates/nagsched/out/nagsched").resolve())
    with tempfile.TemporaryDirectory() as folder:
        tree = str(build_tree(pathlib.Path(folder)))
        heads = ("Objects", "bytes", "save", "to a tree made and written", "to a tree written", "resume", "to a tree made", "restart, ms")
        print(f"| {' | '.join(heads)} |\n|{'---|' * len(heads)}")
        for count in COUNTS:
            setup = json.dumps(setup_of(count))
            calls = [*results_of(count)]
            whole = "\n".join([setup, *calls, '["save"]', ""]).encode()
            state = subprocess.run([program, "run"], input=whole, stdout=subprocess.PIPE, check=True).stdout.splitlines()[-1].removeprefix(b"saved ")
            over = f"{setup}\n".encode() + state + b"\n"
            opened = instructions([program, "run"], f"{setup}\n".encode())
            resume = instructions([program, "run", "--resume"], over) - opened
            save = instructions([program, "run", "--resume"], over + b'["save"]\n') - resume - opened
            nothing, read, write = (instructions([tree, word], state) for word in ("nothing", "read", "write"))
            began = restart(program, over + b'["take",0]\n')
            print(f"| {count:,} | {len(state):,} | {save:,} | {save / (write - nothing):.2f} | {save / (write - read):.2f} | {resume:,} "
                  f"| {resume / (read - nothing):.2f} | {began:.1f} |", flush=True)


if __name__ == "__main__":
    main()
