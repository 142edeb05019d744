"""The commands that the pages name, each with its output or with the part of the gate that runs it. .ci/pages/pages.py compares the two.

A command is a line of a plain code block, or a text in backticks, that begins with a program or script of this repository, a compiler, a shell or Nagios.
A synopsis, which has brackets, isn't one, and neither are the kit's own commands.
"""
import json
import pathlib
import re
import subprocess
import sys
import tempfile

from anchors import TOP, text_of, without_code

sys.path.append(str(TOP / "monitor"))
from tests.packages_opinion import opinion_lines  # noqa: E402
from tests.packages_trial import all_lines  # noqa: E402

FOLDER = r"(?:tools|bench|\.ci/\w+|c/tests|python/examples|monitor/examples|monitor/from_nagios|examples)"
SCRIPT = rf"(?:{FOLDER}/\w+\.(?:py|sh)|conformance/check|conformance/nagios/(?:build|judge|teeth)\.(?:py|sh)|monitor/nagsched-(?:monitor|gearman-worker)|monitor/build_runner\.sh)"
BEGINS = rf"(?:sudo|nagsched|crates/nagsched/out/nagsched|nagios4|bash|cc|\(cd|{SCRIPT})"
LINE = re.compile(rf"^(?: {{4}}|\$ )?({BEGINS}(?: .*)?)$", re.M)
SPAN = re.compile(rf"`({BEGINS} [^`\n]*|{SCRIPT})`")
SYNOPSIS = re.compile(r"nagsched(?: [\w.]+)?|.* \[.*|.* DIRECTORY|.* SETUP .*|nagsched-\S+.*")

# The commands that are run here, in a folder with these files: the file that each writes ("" for standard output), and how its output begins.
FILES = {"setup.json": "setup", "my.setup.json": "setup", "input": "office.txt", "INPUT": "office.txt", "OUTPUT": "office.out"}
OFFICE, PICTURE, SEQUENCE, LANES, OVERVIEW = (text_of(TOP / file) for file in (
    "examples/office.out", "docs/office.svg", "docs/sequence.svg", "docs/lanes.svg", "docs/parts.svg"))
SETUP = text_of(TOP / "examples/office.txt").split("\n", 1)[0]
LINE_OF_SETUP = json.dumps(json.loads(SETUP), sort_keys=True, separators=(",", ":"), ensure_ascii=False) + "\n"
VERSION = text_of(TOP / "VERSION").strip()
GOOD = f"setup ok\nhosts {len(json.loads(SETUP)['hosts'])}\n"
RUN = {
    "crates/nagsched/out/nagsched < examples/office.txt": ("", OFFICE),
    "nagsched check < my.setup.json": ("", GOOD),
    "nagsched check < setup.json": ("", GOOD),
    "nagsched check --line < my.setup.json > setup.line": ("setup.line", LINE_OF_SETUP),
    "nagsched run < input": ("", OFFICE),
    "nagsched --help": ("", "Schedules the active checks"),
    "nagsched run --help": ("", "Makes the calls"),
    "nagsched help run": ("", "Makes the calls"),
    "nagsched --version": ("", f"nagsched {VERSION}\n"),
    "tools/timeline.py INPUT OUTPUT > picture.svg": ("picture.svg", PICTURE[: PICTURE.index("office.txt")]),
    "tools/timeline.py examples/office.txt examples/office.out > docs/office.svg": ("docs/office.svg", PICTURE),
    "tools/timeline.py examples/sequence.txt examples/sequence.out --objects 'web;http' > docs/sequence.svg": ("docs/sequence.svg", SEQUENCE),
    "tools/lanes.py > docs/lanes.svg": ("docs/lanes.svg", LANES),
    "tools/overview.py > docs/parts.svg": ("docs/parts.svg", OVERVIEW),
}
# The part of the gate that runs a command.
IN_THE_GATE = {
    "crates/nagsched/out/nagsched live": "pages",
    "nagsched run --resume": "resume",
    "nagsched live --resume": "resume",
    "nagsched live --resume --start NOW": "resume",
    "nagsched live --json": "pages",
    "nagsched live --json --start NOW": "monitor",
    "nagsched check --resume": "resume",
    "nagsched check --line": "session",
    "conformance/check": "conformance",
    "conformance/check PROGRAM": "conformance",
    "cc -IPREFIX/include program.c PREFIX/lib/libnagsched.a -lpthread": "c_library",
    "cc program.c $(pkg-config --cflags --libs PREFIX/lib/pkgconfig/nagsched.pc) -lpthread": "c_library",
    "tools/build_c.sh": "c_library",
    "tools/install.sh": "install",
    "tools/map.py CRATE": "pages",
    "tools/map.py --crates": "pages",
    ".ci/pages/generated.py": "pages",
}
# Scripts that a part of the gate runs with many arguments. The options that a page names have to be in their help.
SCRIPTS = {
    "monitor/nagsched-monitor": "monitor",
    "monitor/nagsched-gearman-worker": "monitor",
    "monitor/build_runner.sh": "monitor",
    "monitor/from_nagios/from_nagios.py": "tools",
    "tools/timeline.py": "tools",
    "tools/second_opinion.py": "second_opinion",
    "examples/monitor.py": "monitor",
    "monitor/examples/mail_change.py": "monitor",
    "monitor/examples/spool_to_graphite.py": "monitor",
    "python/examples/embed.py": "c_library",
    "python/examples/first.py": "c_library",
    "python/examples/loop.py": "c_library",
}
# The names of scripts when they are installed.
INSTALLED = {"nagsched-monitor": "monitor/nagsched-monitor", "nagsched-from-nagios": "monitor/from_nagios/from_nagios.py", "nagsched-second-opinion": "tools/second_opinion.py"}
WITH_HELP = {"monitor/nagsched-monitor", "monitor/nagsched-gearman-worker", "monitor/from_nagios/from_nagios.py", "tools/timeline.py", "tools/second_opinion.py"}
# The commands of the trials, which monitor/tests/packages.sh runs on a machine with Nagios, one after another.
TRIAL = frozenset([*all_lines(), *opinion_lines()])
# Why the gate doesn't run a command.
NAGIOS = "needs Nagios"
MANUAL = {
    "tools/try.sh": "compiles again what the gate has built",
    "tools/test.sh": "is the gate",
    "tools/test.sh --quick": "is a part of the gate",
    "tools/package.sh": "needs dpkg-deb and the C library",
    ".ci/program/refusals.py PROGRAM --long": "takes ten minutes",
    "c/tests/memcheck.sh": "needs valgrind",
    "sudo -u nagios nagsched-monitor /var/tmp/office reload": "the trial reloads the service",
    "sudo install -d -m 2750 -o nagsched -g www-data /var/lib/nagsched/office/nagios": "needs the service's user",
    "nagios4 -vp /etc/nagios4/nagios.cfg": NAGIOS,
    "nagios4 -s /etc/nagios4/nagios.cfg": NAGIOS,
    "conformance/nagios/judge.py DIRECTORY 2000 --seed 1": NAGIOS,
    "conformance/nagios/judge.py DIRECTORY sequences": NAGIOS,
}


def is_manual(command):
    """Whether the gate leaves the command out: those of bench/ take minutes, on a machine with no other work."""
    return command in MANUAL or command in TRIAL or re.fullmatch(r"bench/\w+\.(?:sh|py)(?: .*)?", command) is not None


def is_in_the_gate(command):
    """Whether the gate runs it: the script of a part, or a command that such a script runs."""
    script = re.fullmatch(r"\.ci/\w+/(\w+)\.py", command)
    part = IN_THE_GATE.get(command, SCRIPTS.get(command.split()[0], script and script[1]))
    return part is not None and re.search(rf"\b{part}\b", text_of(TOP / "tools/test.sh")) is not None


def unknown_options(command):
    """The options of a command that the script's help doesn't have."""
    script, *arguments = re.sub(r"^sudo (?:-u \w+ )?", "", command).split()
    script = INSTALLED.get(script, script)
    if script not in WITH_HELP:
        return []
    told = subprocess.run([sys.executable, TOP / script, "--help"], stdout=subprocess.PIPE, text=True, check=False).stdout
    other = re.search(r" (?:status|reschedule)\b", command)
    return [option for option in arguments if re.fullmatch(r"--[a-z-]+", option) and not other and not re.search(rf"{option}\b", told)]


def commands_of(page):
    """The commands that a page names."""
    text = text_of(page)
    blocks = "\n".join(re.findall(r"^```\n(.*?)^```", text, re.M | re.S) + re.findall(r"^ {4}\S.*$", text, re.M))
    return [command for command in LINE.findall(blocks) + SPAN.findall(without_code(text)) if not SYNOPSIS.fullmatch(command)]


def write_files(folder, program):
    """The files that the commands name, and the program under its own name."""
    for directory in ("examples", "tools"):
        (folder / directory).symlink_to(TOP / directory)
    (folder / "docs").mkdir()
    (folder / "crates/nagsched/out").mkdir(parents=True)
    for link in (folder / "nagsched", folder / "crates/nagsched/out/nagsched"):
        link.symlink_to(program)
    for name, content in FILES.items():
        text = SETUP if content == "setup" else text_of(TOP / "examples" / content)
        (folder / name).write_text(text, encoding="utf-8")


def check(program, pages, compare):
    """Runs the commands of RUN. Names each command that isn't in a table, and each command in a table that no page names."""
    everywhere = {command: page.name for page in pages for command in commands_of(page)}
    for command, page in everywhere.items():
        compare(f"{page}: `{command}`: where it is run", True, command in RUN or is_in_the_gate(command) or is_manual(command))
        compare(f"{page}: `{command}`: unknown options", [], unknown_options(command))
    compare("commands that no page names", [], [command for command in [*RUN, *IN_THE_GATE, *MANUAL] if command not in everywhere])
    with tempfile.TemporaryDirectory() as name:
        folder = pathlib.Path(name)
        write_files(folder, pathlib.Path(program).resolve())
        for command, (file, begins) in RUN.items():
            ran = subprocess.run(["bash", "-c", f"PATH=.:$PATH; {command}"], cwd=folder, stdin=subprocess.DEVNULL, stdout=subprocess.PIPE)
            written = text_of(folder / file) if file else ran.stdout.decode()
            compare(command, begins, written[: len(begins)])
