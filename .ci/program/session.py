#!/usr/bin/env python3
"""Tests the built program's arguments and streams, which no case of a text can test.

    .ci/program/session.py [PROGRAM]     crates/nagsched/out/nagsched if no program is named

Arguments that are no text, help, the version, an unreadable input, an output whose reader has gone away, and a full device. The sentences on standard
error about them, and about the input of a run. The number of bytes read of a long document, the number of writes, and an input from a terminal. A
folder serves as an unreadable input: a job that reads it ends in status 3. A job that doesn't read it never notices: arguments that ask for help or the
version, or that are refused.
"""
import json
import os
import pty
import random
import re
import socket
import subprocess
import tempfile
import termios

from harness import EXAMPLES, REFUSED_WORDS, SERVICE, TOP, Harness
from cases import cases

TAKE = b'["take",0]\n'
SAVE = b'["save"]\n'
NO_JSON = 'line 1: the setup isn\'t JSON; give it to "nagsched check" to see why, or to "nagsched check --line" to have it on one line'
DOCUMENT, WHOLE_INPUT = 16_777_216, 67_108_864
SECONDS = 20

# The arguments that ask for each help text, which is that of its case in conformance/words.
HELPS = {
    "help-of-the-program": (["--help"], ["-h"], ["help"]),
    "help-of-run": (["run", "--help"], ["run", "--start", "7", "--help"], ["run", "--start", "x", "--help"], ["help", "run"]),
    "help-of-live": (["live", "--help"], ["live", "-h"], ["help", "live"]),
    "help-of-check": (["check", "--help"], ["check", "--line", "-h"], ["check", "--line", "--resume", "-h"], ["help", "check"]),
    "help-of-drill": (["drill", "--help"], ["drill", "--workers", "0", "-h"], ["help", "drill"]),
    "help-of-schema": (["schema", "--help"], ["schema", "-h"], ["help", "schema"]),
}
COLUMNS = 80

# The arguments that ask for the version: the first of them that asks for a text decides. Then arguments that ask for no version.
VERSIONS = (["--version"], ["-V"], ["--version", "run"], ["--version", "walk"], ["-V", "--help"], ["--version", "--version"], ["-Vh"])
NO_VERSIONS = (["run", "--version"], ["check", "-V"], ["walk", "--version"], ["help", "--version"], ["--version=1"], ["-v"], ["version"])

# Arguments that belong to no job, and arguments that are no text.
NO_JOB = (["walk"], ["check", "--resume", "--line"], ["drill", "--resume"], ["schema", "--resume"], ["--resume"], ["run", "--resume=1"])
NO_TEXT = ([b"\xff"], [b"run", b"--start", b"\xff"], [b"drill", b"--workers", b"1", b"\xc3"], [b"--help", b"\xed\xa0\x80"])

# Refused arguments, and what explains them on standard error.
RUN, CHECK = "run takes only the options --start N, --resume, --json and --help", "check takes only the options --start N, --line, --resume and --help"
LIVE = "the options --start N, --resume, --json, --explain and --help"
DRILL = "the options --start N, --workers N, --room N and --help"
COMMANDS = "the command must be run, live, check, drill, schema or help, not "
STARTS, WORKERS, ROOM = (f"a whole number from {least} to {most}" for least, most in ((0, 2**60), (1, 64), (0, 1_000_000)))
EXPLAINED = {
    # A mistyped command is at most two characters away from the one that is named, and no other is nearer.
    "chekc": COMMANDS + '"chekc" (did you mean check?)',
    "shcema --resume": COMMANDS + '"shcema" (did you mean schema?)',
    "rn": COMMANDS + '"rn" (did you mean run?)',
    "runner": COMMANDS + '"runner"',
    "walk --version": COMMANDS + '"walk"',
    "help rum": COMMANDS + '"rum" (did you mean run?)',
    "help --version": COMMANDS + '"--version"',
    "-": COMMANDS + '"-"',
    "--strat 7": '"--strat" isn\'t an option of nagsched, which takes a command or the options --help and --version',
    "--hepl": '"--hepl" isn\'t an option of nagsched, which takes a command or the options --help and --version (did you mean --help?)',
    "-v": '"-v" isn\'t an option of nagsched, which takes a command or the options --help and --version',
    "live --strat=5": f'"--strat=5" isn\'t an option of live, which takes {LIVE} (did you mean --start?)',
    "drill --wrokers 1": f'"--wrokers" isn\'t an option of drill, which takes {DRILL} (did you mean --workers?)',
    "drill --foo": f'"--foo" isn\'t an option of drill, which takes {DRILL} (did you mean --room?)',
    "schema -x": '"-x" isn\'t an option of schema, which takes the option --help',
    "--resume": '"--resume" is an option of run, live and check, not of nagsched',
    "check --json": '"--json" is an option of run and live, not of check',
    "run --explain": '"--explain" is an option of live, not of run',
    "live --explian": f'"--explian" isn\'t an option of live, which takes {LIVE} (did you mean --explain?)',
    "run --json --json": "--json must be given only once",
    "live --explain=1": '--explain takes no value, so it can\'t be given as "--explain=1"',
    "run --workers 2": '"--workers" is an option of drill, not of run',
    "live --line": '"--line" is an option of check, not of live',
    "schema --start=5": '"--start=5" is an option of run, live, check and drill, not of schema',
    "check -V": '"-V" is an option of nagsched, not of check',
    "run --start": f"--start needs a value, {STARTS}",
    "live --start --resume": f"--start needs a value, {STARTS}",
    "run --start -5": f"--start needs a value, {STARTS}",
    "drill --room 5 --workers": f"--workers needs a value, {WORKERS}",
    "run --start x": f'the value of --start must be {STARTS}, not "x"',
    "run --start -": f'the value of --start must be {STARTS}, not "-"',
    "run --start=": f'the value of --start must be {STARTS}, not ""',
    f"check --resume --start {2**60 + 1}": f'the value of --start must be {STARTS}, not "{2**60 + 1}"',
    "drill --workers=65": f'the value of --workers must be {WORKERS}, not "65"',
    "drill --workers 0": f'the value of --workers must be {WORKERS}, not "0"',
    "drill --start 7 --room 1000001 --foo": f'the value of --room must be {ROOM}, not "1000001"',
    "run --resume=1": '--resume takes no value, so it can\'t be given as "--resume=1"',
    "--version=1": '--version takes no value, so it can\'t be given as "--version=1"',
    "run --start 7 --resume --start=8": "--start must be given only once",
    "check --line --line": "--line must be given only once",
    "check --resume --line": "--line and --resume can't be combined",
    "check --line --start 5 --resume": "--line and --resume can't be combined",
    "run here": f'"here" is one argument too many: {RUN}',
    "run --start 7 8": f'"8" is one argument too many: {RUN}',
    "run -- --start": f'"--start" is one argument too many: {RUN}',
    "check a\nfile\x01": f'"a\\nfile\\u0001" is one argument too many: {CHECK}',
    "schema x": '"x" is one argument too many: schema takes only the option --help',
    "help run x": '"x" is one argument too many: help takes only the name of one command',
    "-- run": '"run" is one argument too many: nagsched takes only a command or the options --help and --version',
}
# Words of random arguments, and what no explanation of arguments says, since the first wrong one is always found.
WORDS = ("run", "live", "check", "drill", "schema", "help", "--start", "--resume", "--line", "--workers", "--room", "--start=7", "--room=x", "--line=",
         "--help", "-h", "--version", "-V", "--", "-", "", "7", "70", "x", "rum", "--strat", "-x", "=", "--=5", "-h=1", "--help=1")
TRIES, NOT_FOUND = 600, b"can't be read as a command"


def run_without_input(harness, arguments):
    """The program's output on these arguments, and its status, if the input can't be read."""
    folder = os.open(EXAMPLES, os.O_RDONLY)
    try:
        return harness.run(arguments, folder)
    finally:
        os.close(folder)


def status_of_torn_pipe(harness, arguments, given):
    """The status when nobody reads the program's output."""
    reading, writing = os.pipe()
    os.close(reading)
    try:
        return subprocess.run([harness.program, *arguments], input=given, stdout=writing, stderr=subprocess.DEVNULL).returncode
    finally:
        os.close(writing)


def status_of_full_device(harness, arguments, given):
    """The status when no byte of the program's output finds room."""
    with open("/dev/full", "wb") as full:
        return subprocess.run([harness.program, *arguments], input=given, stdout=full, stderr=subprocess.DEVNULL).returncode


def status_with_open_input(harness, given, output):
    """The status of a conversation that can't write its answers to these lines, while more lines may come."""
    with subprocess.Popen([harness.program, "live"], stdin=subprocess.PIPE, stdout=output, stderr=subprocess.DEVNULL) as live:
        live.stdin.write(given)
        live.stdin.flush()
        try:
            return live.wait(SECONDS)
        except subprocess.TimeoutExpired:
            live.kill()
            return f"not ended after {SECONDS} seconds"


def run_on_file(harness, arguments, given):
    """The program's output on a file of these bytes, its status, and the number of bytes that it has read."""
    with tempfile.TemporaryFile() as file:
        file.write(given)
        file.seek(0)
        return *harness.run(arguments, file.fileno()), os.lseek(file.fileno(), 0, os.SEEK_CUR)


def output_pieces(harness, arguments, given):
    """The program's output on these arguments, a piece for each write, and its status. A socket that keeps records apart shows the writes."""
    here, there = socket.socketpair(socket.AF_UNIX, socket.SOCK_SEQPACKET)
    with here, subprocess.Popen([harness.program, *arguments], stdin=subprocess.PIPE, stdout=there) as ran:
        there.close()
        here.settimeout(SECONDS)
        ran.stdin.write(given)
        ran.stdin.close()
        pieces = []
        try:
            while piece := here.recv(1 << 20):
                pieces.append(piece)
            return pieces, ran.wait(SECONDS)
        except (TimeoutError, subprocess.TimeoutExpired):
            ran.kill()
            return pieces, f"not ended after {SECONDS} seconds"


def run_at_terminal(harness, arguments, given):
    """The program's output when these lines are typed at a terminal, followed by one Ctrl-D, its status, and what it says on standard error."""
    keyboard, terminal = pty.openpty()
    modes = termios.tcgetattr(terminal)
    modes[3] &= ~termios.ECHO
    termios.tcsetattr(terminal, termios.TCSANOW, modes)
    with subprocess.Popen([harness.program, *arguments], stdin=terminal, stdout=subprocess.PIPE, stderr=subprocess.PIPE) as ran:
        try:
            os.write(keyboard, given + b"\x04")
            written, said = ran.communicate(timeout=SECONDS)
            return written, ran.returncode, said
        except subprocess.TimeoutExpired:
            ran.kill()
            return f"not ended after {SECONDS} seconds", None, b""
        finally:
            os.close(keyboard)
            os.close(terminal)


def helps(harness):
    """Help has status 0, reads nothing, and is the same to the byte for all arguments that ask for it, in lines of 80 columns."""
    for case, forms in HELPS.items():
        text = (TOP / "conformance/words" / f"{case}.stdout").read_bytes()
        for arguments in forms:
            harness.compare(arguments, (text, 0), run_without_input(harness, arguments))
        harness.compare(f"{case}: lines that are too long", [], [line for line in text.decode().splitlines() if len(line) > COLUMNS])


def versions(harness):
    """The version is that of the repository's file, has status 0 and reads nothing. If help is asked for before it, help is written."""
    version = (TOP / "VERSION").read_text(encoding="utf-8").removesuffix("\n")
    harness.compare("the file VERSION is three numbers, with -dev before a release", True, bool(re.fullmatch(r"\d+\.\d+\.\d+(-dev)?", version)))
    for arguments in VERSIONS:
        harness.compare(arguments, (f"nagsched {version}\n".encode(), 0), run_without_input(harness, arguments))
    for arguments in NO_VERSIONS:
        harness.compare(arguments, (REFUSED_WORDS, 2), run_without_input(harness, arguments))
    help_text = (TOP / "conformance/words/help-of-the-program.stdout").read_bytes()
    harness.compare(["--help", "--version"], (help_text, 0), run_without_input(harness, ["--help", "--version"]))


def schema(harness):
    """The schema reads nothing. .ci/program/schema.py compares its output with docs/setup.schema.json."""
    harness.compare(["schema"], 0, run_without_input(harness, ["schema"])[1])


def refused_words(harness):
    """Arguments that are no text or belong to no job are refused, and nothing is read."""
    for arguments in (*NO_TEXT, *NO_JOB):
        harness.compare(arguments, (REFUSED_WORDS, 2), run_without_input(harness, arguments))


def refusal(sentence):
    """The line that explains refused arguments."""
    return f"nagsched: {sentence}; try: nagsched --help\n".encode()


def error_text(harness, arguments, **streams):
    """What the program writes on standard error, and its exit status."""
    streams = {"stdin": subprocess.DEVNULL, "stdout": subprocess.DEVNULL, **streams}
    ran = subprocess.run([harness.program, *arguments], stderr=subprocess.PIPE, timeout=SECONDS, **streams)
    return ran.stderr, ran.returncode


def explained_words(harness):
    """A sentence on standard error says which argument is refused and why. Other arguments leave standard error empty."""
    for words, sentence in EXPLAINED.items():
        arguments = words.split(" ")
        harness.compare(arguments, (refusal(sentence), 2), error_text(harness, arguments))
        harness.compare(arguments, (REFUSED_WORDS, 2), run_without_input(harness, arguments))
    for arguments in NO_TEXT:
        harness.compare(arguments, (refusal("the arguments must be UTF-8 text"), 2), error_text(harness, arguments))
    for arguments in (["live", "--start=7"], ["--help"], ["--version"], ["help", "drill"], ["schema"]):
        harness.compare(f"{arguments}: nothing to explain", b"", error_text(harness, arguments)[0])


def streams_of(harness, arguments, given):
    """What the program writes on standard output and on standard error, and its exit status."""
    ran = subprocess.run([harness.program, *arguments], input=given, capture_output=True, timeout=SECONDS)
    return ran.stdout, ran.stderr, ran.returncode


def explained_runs(harness):
    """A run says on standard error why its input is refused, and writes its refusal on standard output as ever. Nothing else is said there."""
    saved = saved_state(harness)
    for what, words, given, line, sentence in [
        ("a refused setup", [], b"{}}\n", "L1 NotJson", NO_JSON),
        ("no input", [], b"", "L1 NotJson", NO_JSON),
        ("a refused saved state", ["--resume"], SERVICE + b"[]\n", "K4 Shape",
         'line 2: the saved state is refused; give lines 1 and 2 to "nagsched check --resume" to see why'),
        ("a refused line", [], SERVICE + TAKE + b'\n["take",0.5]\n[]\n', "S3 Shape 4",
         'line 4: value 1 of "take" is 0.5; it has to be a whole number of milliseconds from 0 to 2^60'),
        ("a line after a saved state", ["--resume"], SERVICE + saved + b'["status","s"]\n', "S5 UnknownName 3",
         'line 3: value 1 of "status" is "s"; it has to be the full name of a host or a service of the setup'),
        ("a control character", [], SERVICE + b'["\\u001b[0m"]\n', "S3 Shape 2", 'line 2: the name of the command is "\\u001b[0m"; it has to be "take", '
         '"report", "abandon", "reschedule", "enable", "status", "save" or "list"'),
        ("a line that is too long", [], SERVICE + b"x" * 4_097, "S1 TooLong 2", "line 2 has more than 4096 bytes"),
        ("an input that is too long", [], SERVICE + b"\n" * WHOLE_INPUT, "S1 TooLong 0", "the input has more than 67108864 bytes"),
    ]:
        wanted = f"refused {line}\n".encode(), f"nagsched: {sentence}\n".encode(), 1
        harness.compare(f"run: {what}", wanted, streams_of(harness, ["run", *words], given))
        text, said, status = streams_of(harness, ["run", "--json", *words], given)
        members = json.loads(text)
        harness.compare(f"run --json: {what}", (line.split(" ")[:2], sentence, *wanted[1:]),
                        ([members["code"], members["reason"]], members["explanation"], said, status))
    silent = [(["live"], SERVICE + b"[]\n", 0), (["live"], b"{}}\n", 1), (["live", "--json"], b"{}}\n", 1), (["check"], b"{}}\n", 1)]
    silent.append((["drill"], SERVICE + b'["moment",0]\n', 0))
    for arguments, given, status in [*((arguments, SERVICE + TAKE, 0) for arguments in ([], ["run"], ["run", "--json"])), *silent]:
        harness.compare(f"{arguments}: nothing on standard error", (b"", status), streams_of(harness, arguments, given)[1:])


def explained_drills(harness):
    """A drill does the same."""
    for what, given, line, sentence in [
        ("a refused setup", b"{}}\n", "L1 NotJson", NO_JSON),
        ("a command of a run", SERVICE + TAKE, "S3 Shape 2", 'line 2: the name of the command is "take"; it has to be "plugin" or "moment"'),
        ("a code", SERVICE + b'\n["plugin","h",0,4]\n[]\n', "S4 Code 3", 'line 3: value 3 of "plugin" is 4; it has to be a whole number from 0 to 3'),
        ("no codes", SERVICE + b'["plugin","h"]\n', "S3 Shape 2", 'line 2: the number of values of "plugin" is 1; it has to be at least 2'),
        ("an input that is too long", SERVICE + b"\n" * WHOLE_INPUT, "S1 TooLong 0", "the input has more than 67108864 bytes"),
    ]:
        wanted = f"refused {line}\n".encode(), f"nagsched: {sentence}\n".encode(), 1
        harness.compare(f"drill: {what}", wanted, streams_of(harness, ["drill"], given))


def explained_cases(harness):
    """Each refused argument of a case, and of random arguments, is found."""
    chosen = random.Random(1)
    lists = [case.arguments for case in cases() if case.wanted == REFUSED_WORDS]
    lists += [chosen.choices(WORDS, k=chosen.randrange(1, 6)) for _ in range(TRIES)]
    for arguments in lists:
        text, status = error_text(harness, arguments)
        found = text.startswith(b"nagsched: ") and text.endswith(b"; try: nagsched --help\n") and text.count(b"\n") == 1 and NOT_FOUND not in text
        harness.compare(f"{arguments}: {text!r}", status == 2, found)


def explained_devices(harness):
    """A sentence on standard error says which stream failed, and what the system says about it."""
    folder, full = os.open(EXAMPLES, os.O_RDONLY), os.open("/dev/full", os.O_WRONLY)
    reading, torn = os.pipe()
    os.close(reading)
    try:
        for what, streams, sentence in [
            ("a folder", {"stdin": folder}, "standard input can't be read: it is a folder"),
            ("a closed input", {"preexec_fn": lambda: os.close(0)}, "standard input can't be read: it is closed, or the device failed"),
            ("a full device", {"stdout": full}, "standard output can't be written: the device is full"),
            ("a torn pipe", {"stdout": torn}, "standard output can't be written: nothing reads it any more"),
            ("a closed output", {"preexec_fn": lambda: os.close(1)}, "standard output can't be written: it is closed, or the device failed"),
        ]:
            for arguments in (["check"], ["drill"], ["live"]) if "input" in sentence else (["check"], ["--version"], ["walk"]):
                harness.compare(f"{arguments}: {what}", (f"nagsched: {sentence}\n".encode(), 3), error_text(harness, arguments, **streams))
    finally:
        for number in (folder, full, torn):
            os.close(number)


def faults(harness):
    """An input that can't be read, and an output that can't be written, have status 3, for any output."""
    resumed = ["run", "--resume"], ["live", "--resume"], ["check", "--resume"]
    answered = [], ["run", "--start", "7"], ["run", "--json"], ["live"], ["live", "--json"]
    for arguments in (*answered, ["check"], ["check", "--line"], ["drill", "--workers", "1"], *resumed):
        harness.compare(f"{arguments}: no input", (b"", 3), run_without_input(harness, arguments))
    office, drill = ((EXAMPLES / name).read_bytes() for name in ("office.txt", "drill.txt"))
    torn = [([], office), ([], b""), (["drill", "--workers", "1"], drill), (["drill", "--workers", "3"], drill)]
    torn += [(arguments, given) for arguments in (["live"], ["live", "--json"], ["live", "--explain"], ["run", "--json"]) for given in (SERVICE + TAKE, b"{}}")]
    torn += [(arguments, given) for arguments in (["check"], ["check", "--line"]) for given in (SERVICE, b"{}}")]
    torn += [(arguments, given) for arguments in resumed for given in (b"{}\n{}\n", b"{}}")]
    torn += [(arguments, SERVICE + saved_state(harness) + TAKE) for arguments in resumed]
    for arguments, given in [*torn, (["--help"], b""), (["--version"], b""), (["schema"], b""), (["walk"], b""), ([b"\xff"], b"")]:
        harness.compare(f"{arguments}: a torn pipe", 3, status_of_torn_pipe(harness, arguments, given))
        harness.compare(f"{arguments}: a full device", 3, status_of_full_device(harness, arguments, given))
    for arguments in ([], ["live"]):
        harness.compare(f"{arguments}: nothing to write into a torn pipe", 0, status_of_torn_pipe(harness, arguments, b"{}\n"))


def faults_of_conversations(harness):
    """A conversation whose answers can't be written ends in status 3 at the first of them, though its input is open."""
    for what, given in {"an answer": SERVICE + TAKE, "a refused line": SERVICE + b"[]\n", "a refused setup": b"{}}\n"}.items():
        with open("/dev/full", "wb") as full:
            harness.compare(f"{what} into a full device", 3, status_with_open_input(harness, given, full))
        reading, writing = os.pipe()
        os.close(reading)
        harness.compare(f"{what} into a torn pipe", 3, status_with_open_input(harness, given, writing))
        os.close(writing)


def three_workers(harness):
    """Each of three workers finds nothing to check; their lines come in any order, and the total after them."""
    text, status = harness.run(["drill", "--workers", "3"], b'{}\n["moment",5]\n')
    written = text.decode().splitlines()
    harness.compare("three workers", (["0 idle none", "1 idle none", "2 idle none"], ["total 3 0"], 0), (sorted(written[:3]), written[3:], status))


def long_documents(harness):
    """A check reads only enough of a document to see that it is too long: one byte past its limit, and after a line feed one more."""
    whole = b"{}" + b" " * (DOCUMENT - 2)
    harness.compare("the longest document and its line feed", (b"{}\n", 0, DOCUMENT + 1), run_on_file(harness, ["check", "--line"], whole + b"\n"))
    for what, given, read in [
        ("a byte past the limit", whole + b" ", DOCUMENT + 1),
        ("a long document", whole + b" " * 5_000_000, DOCUMENT + 1),
        ("a line feed past the limit, and a second one", whole + b"\n\n", DOCUMENT + 2),
        ("a line feed past the limit, and more behind it", whole + b"\n" + b"5" * 5_000_000, DOCUMENT + 2),
    ]:
        for arguments in (["check"], ["check", "--line"]):
            text, status, count = run_on_file(harness, arguments, given)
            harness.compare(f"{arguments}: {what}", (b"refused L12 TooLong", 1, read), (text.split(b"\n")[0], status, count))


def saved_state(harness):
    """The line of the saved state of a scheduler that was opened over the service, without its command."""
    return harness.run([], SERVICE + SAVE)[0].removeprefix(b"saved ")


def inputs(harness):
    """An input of each job that reads one."""
    calls = TAKE + SAVE + TAKE
    resumed = SERVICE + saved_state(harness) + calls
    yield from ((arguments, SERVICE + calls) for arguments in (["run"], ["run", "--json"], ["live"], ["live", "--json"], ["live", "--explain"]))
    yield from (([word, "--resume"], resumed) for word in ("run", "live", "check"))
    yield from ((arguments, SERVICE) for arguments in (["check"], ["check", "--line"]))
    yield ["drill", "--workers", "1"], SERVICE + b'["plugin","h;s",0]\n["moment",0]\n'


def writes(harness):
    """Output that fits the program's buffer is written at once, at the end. A conversation, whose lines come at once here, writes before it reads more."""
    for arguments, given in inputs(harness):
        text, status = harness.run(arguments, given)
        harness.compare(f"{arguments}: some text", (True, 0), (text.endswith(b"\n"), status))
        harness.compare(f"{arguments}: one write", ([text], 0), output_pieces(harness, arguments, given))


def terminals(harness):
    """The end of an input is read once: at a terminal Ctrl-D once ends it. There the program first says what it waits for."""
    waits = b"nagsched: it waits for a setup; Ctrl-D ends the input; try: nagsched --help\n"
    for arguments, given in inputs(harness):
        *written, said = run_at_terminal(harness, arguments, given)
        harness.compare(f"{arguments}: from a terminal", harness.run(arguments, given), tuple(written))
        harness.compare(f"{arguments}: what it waits for", waits, said[:len(waits)])
    for arguments in (["schema"], ["--help"], ["walk"]):
        harness.compare(f"{arguments}: it waits for nothing", False, run_at_terminal(harness, arguments, b"")[2].startswith(waits))


harness = Harness("session")
EXPLANATIONS = explained_words, explained_runs, explained_drills, explained_cases, explained_devices
for part in (helps, versions, schema, refused_words, *EXPLANATIONS, faults, faults_of_conversations, three_workers, long_documents, writes, terminals):
    part(harness)
harness.end()
