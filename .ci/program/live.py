#!/usr/bin/env python3
"""Holds conversations with the program: `nagsched live` answers as `run` does, and answers each line before the next is sent.

    .ci/program/live.py PROGRAM

`live` answers each case of conformance/ that `run` accepts in the same way, and with --json each answer says what that in words says. A line is sent and
its answer read, again and again. 200,000 lines are sent at once, while a thread reads. Setups come byte by byte, and with the most bytes that are allowed.
A saved state is refused as soon as its fault shows, while its input continues. The reader of the answers goes away, or the device is full, which ends in
status 3. A conversation's memory doesn't grow with the number of its lines, in any form of answers. A line of 70 MB is answered in 64 MB, and memory after
a million lines is that after a thousand.
"""
import fcntl
import json
import pathlib
import re
import resource
import select
import struct
import subprocess
import termios
import threading
import time

from answers import text_in_words
from harness import Harness
from cases import runs

SECONDS = 20
SETUP = b'{"hosts":[{"name":"gateway","max_check_attempts":3}]}\n'
TAKE = b'["take",0]\n'
TAKEN, IDLE = b"taken 1 gateway\n", b"idle none\n"
DOCUMENT = 16_777_216
LONG_LINE = 70_000_000
MEGABYTE = 1 << 20
ADDRESSES = 64 * MEGABYTE
ID, NO_VALUE = b'["take",0,{"id":7}]\n', b'["take"]\n'


def json_answer(number):
    """The answer to the take with an id on this line, as JSON."""
    return b'{"line":%d,"id":7,"answer":%s}\n' % (number, b'"idle","next_check":null' if number > 2 else b'"taken","run":1,"name":"gateway"')


def explained_answer(number):
    """The answer to a take without a value on this line, and its explanation."""
    return b'refused S3 Shape %d\nexplained line %d: the number of values of "take" is 0; it has to be 1\n' % (number, number)


# The forms of answers: the option, the number of lines, the line that is sent again and again, and the answer to it by the number of its line.
FORMS = {
    "words": ((), 1_000_000, TAKE, lambda number: IDLE if number > 2 else TAKEN),
    "JSON": (("--json",), 200_000, ID, json_answer),
    "explanations": (("--explain",), 200_000, NO_VALUE, explained_answer),
}


def compare_cases(harness):
    """`live` writes what `run` writes, on each case."""
    for case in runs():
        harness.compare(case.name, (case.wanted, 0), harness.run(["live", *case.arguments[1:]], case.given))


def compare_json(harness):
    """`run` and `live` write the same JSON on each case. It says what the case's words say, and the numbers of the lines that aren't blank."""
    for case in runs():
        ran = harness.run(["run", "--json", *case.arguments[1:]], case.given)
        harness.compare(f"{case.name}: live --json", ran, harness.run(["live", "--json", *case.arguments[1:]], case.given))
        answers = [json.loads(line) for line in ran[0].splitlines()]
        harness.compare(f"{case.name}: --json", (case.wanted.decode(), 0), (text_in_words(answers), ran[1]))
        first = 2 if "--resume" in case.arguments else 1
        lines = [n for n, line in enumerate(case.given.split(b"\n"), 1) if n > first and line.strip(b" \t\r")]
        harness.compare(f"{case.name}: numbers of lines", lines, [answer["line"] for answer in answers])


def start_live(program, *words, **how):
    """A conversation: the program, over two pipes."""
    return subprocess.Popen([program, "live", *words], **{"stdin": subprocess.PIPE, "stdout": subprocess.PIPE, "bufsize": 0, **how})


def send_all(live, rest):
    """Sends all of it."""
    rest = memoryview(rest)
    while rest:
        rest = rest[live.stdin.write(rest):]


def answers_to(live, pieces):
    """The answers to these pieces, which are sent while a thread reads, and the end of the conversation."""
    answers = []
    reading = threading.Thread(target=lambda: answers.append(live.stdout.read()))
    reading.start()
    try:
        for piece in pieces:
            send_all(live, piece)
    except BrokenPipeError:
        pass
    live.stdin.close()
    reading.join(SECONDS)
    return b"".join(answers), live.wait(SECONDS)


def difference(what, wanted, came):
    """A line about a difference from the wanted output, shortened, or nothing."""
    return None if came == wanted else f"{what}: wanted {repr(wanted)[:200]}, came {repr(came)[:200]}"


def line_by_line(program):
    """Each answer comes before the next line is sent."""
    with start_live(program) as live:
        live.stdin.write(SETUP)
        for number in range(200):
            live.stdin.write(b"nope\n" if number % 3 == 2 else TAKE)
            if not select.select([live.stdout], [], [], SECONDS)[0]:
                live.kill()
                return f"no answer to line {number + 2}"
            answer = live.stdout.read(4096)
            wanted = b"taken 1 gateway\n" if number == 0 else b"refused S2 NotJson %d\n" % (number + 2) if number % 3 == 2 else b"idle none\n"
            if answer != wanted:
                live.kill()
                return f"line {number + 2} is answered by {answer!r}"
        live.stdin.close()
        return None if live.wait(SECONDS) == 0 else f"status {live.returncode}"


def all_at_once(program, count):
    """This many lines at once, while a thread reads."""
    with start_live(program) as live:
        return difference(f"{count} lines", (TAKEN + IDLE * (count - 1), 0), answers_to(live, [SETUP, TAKE * count]))


def unread_bytes(live):
    """The number of bytes that wait in the program's input."""
    return struct.unpack("i", fcntl.ioctl(live.stdin.fileno(), termios.FIONREAD, b"\0" * 4))[0]


def byte_by_byte(program):
    """A setup of 3,000 bytes, and then a line of 3,000, each byte sent when the one before was read."""
    with start_live(program) as live:
        spaces = b" " * (3_000 - len(SETUP))
        line = TAKE.replace(b",", b"," + b" " * (3_000 - len(TAKE)))
        deadline = time.monotonic() + SECONDS
        for byte in SETUP[:-1] + spaces + b"\n" + line:
            while unread_bytes(live) and time.monotonic() < deadline:
                time.sleep(0)
            send_all(live, bytes([byte]))
        return difference("bytes one at a time", (TAKEN, 0), answers_to(live, []))


def long_setup(program):
    """A setup of the most bytes that are allowed, and one of one byte more, which is refused before its line ends."""
    for size, wanted in {DOCUMENT: (TAKEN, 0), DOCUMENT + 1: (b"refused L12 TooLong\n", 1)}.items():
        with start_live(program) as live:
            behind = [b"\n", TAKE] if size == DOCUMENT else []
            wrong = difference(f"a setup of {size} bytes", wanted, answers_to(live, [SETUP[:-1].ljust(size), *behind]))
            if wrong:
                return wrong
    return None


def while_open(live, pieces):
    """The answers to these pieces, and the end of the conversation, while its input stays open."""
    try:
        for piece in pieces:
            send_all(live, piece)
    except BrokenPipeError:
        pass
    try:
        status = live.wait(SECONDS)
    except subprocess.TimeoutExpired:
        live.kill()
        status = None
    return live.stdout.read(), status


def refused_state(program):
    """A saved state is refused when its line has come, or as soon as it is too long. The program waits for nothing more."""
    for pieces, wanted in {
        (SETUP, b"{\n"): b"refused K2 NotJson\n",
        (SETUP + b"{\n", TAKE): b"refused K2 NotJson\n",
        (SETUP, b'{"format":2}\n'): b"refused K3 Version\n",
        (SETUP, b"x" * DOCUMENT, b"\n"): b"refused K2 NotJson\n",
        (SETUP, b"x" * DOCUMENT, b"x"): b"refused K1 TooLong\n",
    }.items():
        with start_live(program, "--resume") as live:
            wrong = difference(f"the saved state {pieces[1][:20]!r} ..", (wanted, 1), while_open(live, pieces))
            if wrong:
                return wrong
    return None


def limit_memory():
    """Limits the program's memory, used or not."""
    resource.setrlimit(resource.RLIMIT_AS, (ADDRESSES, ADDRESSES))


def long_line(program):
    """A line of 70 MB is refused, and the next one answered, by a program with 64 MB of address space."""
    with start_live(program, preexec_fn=limit_memory) as live:
        pieces = [SETUP, *[b"x" * MEGABYTE] * (LONG_LINE // MEGABYTE), b"x" * (LONG_LINE % MEGABYTE), b"\n", TAKE]
        return difference("a line of 70 MB", (b"refused S1 TooLong 2\n" + TAKEN, 0), answers_to(live, pieces))


def peak_memory(live):
    """The most bytes of memory that a program had."""
    text = pathlib.Path(f"/proc/{live.pid}/status").read_text(encoding="utf-8")
    return int(re.search(r"VmHWM:\s+(\d+) kB", text)[1]) * 1024


def are_answered(live, lines, wanted):
    """Sends lines while the wanted number of answers is read, and returns whether those came."""
    sending = threading.Thread(target=send_all, args=(live, lines))
    sending.start()
    came = bytearray()
    while len(came) < len(wanted):
        if not select.select([live.stdout], [], [], SECONDS)[0]:
            break
        came += live.stdout.read(1 << 16)
    sending.join(SECONDS)
    return came == wanted


def many_lines(program, form):
    """The fault of a conversation of many lines: an answer is wrong, or memory at its end is more than after a thousand lines."""
    words, count, line, answer = FORMS[form]
    with start_live(program, *words) as live:
        send_all(live, SETUP)
        came = are_answered(live, line * 1_000, b"".join(map(answer, range(2, 1_002))))
        before = peak_memory(live)
        came = came and are_answered(live, line * (count - 1_000), b"".join(map(answer, range(1_002, count + 2))))
        grown = peak_memory(live) - before
        live.stdin.close()
        if not came or live.wait(SECONDS):
            return f"{count} lines are answered otherwise"
        return None if grown < MEGABYTE else f"{count} lines leave {grown} bytes more"


def closed_reader(program):
    """The reader of the answers goes away."""
    with start_live(program) as live:
        live.stdin.write(SETUP)
        live.stdout.close()
        try:
            for _ in range(10):
                live.stdin.write(TAKE)
        except BrokenPipeError:
            pass
        live.stdin.close()
        return None if live.wait(SECONDS) == 3 else f"a torn pipe ends in status {live.returncode}"


def full_device(program):
    """Nothing can be written: the conversation ends while its input continues."""
    for given in (SETUP + TAKE, b"{\n"):
        with open("/dev/full", "wb") as device, start_live(program, stdout=device) as live:
            send_all(live, given)
            try:
                status = live.wait(SECONDS)
            except subprocess.TimeoutExpired:
                live.kill()
                status = None
            if status != 3:
                return f"a full device ends in status {status}"
    return None


def main():
    harness = Harness("live")
    compare_cases(harness)
    compare_json(harness)
    for form in FORMS:
        harness.compare(f"memory of a conversation in {form}", None, many_lines(harness.program, form))
    for count in (70_000, 200_000):
        harness.compare("all lines at once", None, all_at_once(harness.program, count))
    for part in (line_by_line, byte_by_byte, long_setup, refused_state, long_line, closed_reader, full_device):
        harness.compare(part.__doc__, None, part(harness.program))
    harness.end()


main()
