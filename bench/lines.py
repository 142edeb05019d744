#!/usr/bin/env python3
"""Counts the cache lines that a call over the C library writes and touches, and that another caller's call comes to as well. Run it manually; it
is no part of the gate.

    bench/lines.py [OBJECTS] [TAKES]     16 and 1,500 if no number is given; PREFIX=FOLDER where tools/build_c.sh has installed it
    bench/lines.py --pass [OBJECTS] [TAKES]     the same for the only pass of a desk, by the workload `ask` of nagsched_bench, which bench/build.sh has built

Valgrind's lackey traces the loads and stores of the workload `turns` of bench/c_asks.c: two passes in alternation take a check and report it.
The trace is cut when the program counts its calls. The distinct lines of 64 bytes between two cuts are counted, in the second half
of the run. The stack isn't counted. Lines that one caller's calls often come to, and the other's never, are that caller's own and aren't counted.
Constants of the program, which nobody writes, are counted separately: each core has its own copy. A pass's trace is cut when a call draws its
ticket. Needs cc, nm, objdump and valgrind.
"""
import collections
import os
import pathlib
import re
import subprocess
import sys
import tempfile

TOP = pathlib.Path(__file__).resolve().parent.parent
PREFIX = pathlib.Path(os.environ.get("PREFIX", TOP / "out/c"))
LINE = 64
# The count of calls in the first of the program's threads, by the order of its fields; an entry of that array is 128 bytes.
CALLS, THREADS = 16, 66 * 128
# The stack is above this, and valgrind puts a position-independent program below that.
STACK, PLACED = 0x1F00000000, 0x4000000
PLACED_AT = 0x108000
# A line that one caller comes to this often, and the other never, is that caller's own. A line of the history is written by only a call or two.
OFTEN = 8
ACCESS = re.compile(r"^(?: ([LSM])|I ) +([0-9a-f]+),(\d+)$")
DRAW = re.compile(r"^ *([0-9a-f]+):.*lock xadd", re.M)


def build_program(folder):
    """The program, the address of its threads, and the beginning of its writable memory: its constants are below."""
    program = folder / "c_asks"
    library = [f"-I{PREFIX}/include", TOP / "bench/c_asks.c", PREFIX / "lib/libnagsched.a", "-lpthread"]
    subprocess.run(["cc", "-std=c11", "-O2", "-no-pie", *library, "-o", program], check=True)
    names = subprocess.run(["nm", program], check=True, stdout=subprocess.PIPE, text=True).stdout
    at = lambda symbol: int(re.search(rf"^([0-9a-f]+) \w {symbol}", names, re.M)[1], 16)
    return program, at(r"threads\."), at("__data_start")


def build_with_rt():
    """The program of a desk's only pass, the address of the instruction that draws a ticket, and the beginning of other memory."""
    program = TOP / "bench/out/nagsched_bench"
    code = subprocess.run(["objdump", "-d", program], check=True, stdout=subprocess.PIPE, text=True).stdout
    return program, PLACED_AT + int(DRAW.search(code)[1], 16), PLACED


def call_windows(trace, threads, draw):
    """For each call the lines that it wrote and those that it touched, cut when threads count calls, or when a ticket is drawn."""
    written, touched = set(), set()
    for line in trace:
        found = ACCESS.match(line)
        if not found:
            continue
        kind, address, size = found[1], int(found[2], 16), int(found[3])
        if address == draw or (threads and address == threads + CALLS and kind in ("S", "M")):
            yield written, touched
            written, touched = set(), set()
        elif kind and not threads <= address < threads + THREADS and address < STACK:
            lines = range(address // LINE, (address + size - 1) // LINE + 1)
            touched.update(lines)
            if kind != "L":
                written.update(lines)


def owned_lines(calls):
    """The lines that are one caller's own. Each caller makes two calls, and then the other one does."""
    often = [collections.Counter(line for at in (0, 1) for call in calls[2 * caller + at::4] for line in call) for caller in (0, 1)]
    return {line for mine, others in (often, often[::-1]) for line, times in mine.items() if times >= OFTEN and line not in others}


def trace_lines(arguments):
    """lackey's output for a run, line by line."""
    arguments = ["valgrind", "--tool=lackey", "--trace-mem=yes", *arguments, "untimed"]
    return subprocess.Popen(arguments, stdout=subprocess.DEVNULL, stderr=subprocess.PIPE, text=True).stderr


def calls_of(by_pass, objects, takes):
    """For each call of the run's second half the lines that it wrote and those that it touched, and the beginning of writable memory."""
    with tempfile.TemporaryDirectory() as name:
        if by_pass:
            program, draw, writable = build_with_rt()
            calls = list(call_windows(trace_lines([program, "ask", objects, takes]), 0, draw))[1:]
        else:
            program, threads, writable = build_program(pathlib.Path(name))
            calls = list(call_windows(trace_lines([program, "turns", "1", objects, takes]), threads, None))
    return calls[len(calls) // 8 * 4:], writable


def main():
    given = [word for word in sys.argv[1:] if word != "--pass"]
    by_pass = len(given) < len(sys.argv) - 1
    half, writable = calls_of(by_pass, *(given + ["16", "1500"][len(given):])[:2])
    own = set() if by_pass else owned_lines([touched for _, touched in half])
    constants = range(writable // LINE)
    half = [(len(written - own), len(shared := touched - own), sum(line in constants for line in shared)) for written, touched in half]
    print(f"{'':10} {'written':>10} {'touched':>10} {'constants':>10}")
    for what, some in {"a take": half[0::2], "a report": half[1::2], "a call": half}.items():
        print(f"{what:10}", *(f"{sum(it[at] for it in some) / len(some):10.1f}" for at in range(3)))


main()
