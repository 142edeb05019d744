#!/usr/bin/env python3
"""Tests the monitor, and the loop of examples/monitor.py.

    .ci/deliverables/monitor.py PROGRAM

The tests of monitor/ run over the built program: simulated days, and processes that are killed, queried and reloaded. A site is made from Nagios's own
files, and the monitor accepts it. The loop prints the change of a small site. Packages import only those below them. mypy finds no fault in the types,
if it is installed.
"""
import json
import os
import pathlib
import re
import subprocess
import sys
import tempfile
from concurrent.futures import ThreadPoolExecutor

sys.path.append(str(pathlib.Path(__file__).resolve().parents[1] / "program"))
from harness import TOP, Harness
import needs

SETUP = {
    "options": {"interval_length": 1, "host_inter_check_delay_method": "n", "service_inter_check_delay_method": "n"},
    "hosts": [{"name": "gateway", "check_interval": 1, "max_check_attempts": 2}],
    "services": [{"host": "gateway", "description": "web page", "check_interval": 1, "max_check_attempts": 3}],
}
COMMANDS = {"gateway": "true", "gateway;web page": "exit 2"}
PLUGIN = "#!/bin/sh\nexit 0\n"
# The longest that a module's tests may take.
SECONDS = 1800


def loop_output(program):
    """The lines of the loop, over two seconds."""
    with tempfile.TemporaryDirectory() as folder:
        setup, commands = pathlib.Path(folder, "setup.json"), pathlib.Path(folder, "commands.json")
        setup.write_text(json.dumps(SETUP, indent=1))
        commands.write_text(json.dumps(COMMANDS))
        ran = subprocess.run([sys.executable, TOP / "examples/monitor.py", setup, commands, "2.5", program], stdout=subprocess.PIPE, text=True, timeout=60)
    return [line.split(" ", 1)[1] for line in ran.stdout.splitlines()]


def site_output(program):
    """The monitor's output about a site made from Nagios's own files, in which plugins replace those that the files name."""
    with tempfile.TemporaryDirectory() as folder:
        work = pathlib.Path(folder)
        text = (TOP / "conformance/nagios/objects.precache").read_text()
        for plugin in sorted(set(re.findall(r"command_line\t(?:\$USER1\$/)?([\w./-]+)", text))):
            path = work / pathlib.Path(plugin).name
            path.write_text(PLUGIN)
            path.chmod(0o755)
        (work / "resource.cfg").write_text(f"$USER1$={work}\n")
        (work / "objects").write_text(re.sub(r"command_line\t(?!\$USER1\$)[\w./-]*/", "command_line\t$USER1$/", text))
        made = subprocess.run([sys.executable, TOP / "monitor/from_nagios/from_nagios.py", "--site", work / "site", "--resource", work / "resource.cfg",
                               TOP / "conformance/nagios/nagios.cfg", work / "objects"], capture_output=True, text=True)
        tested = subprocess.run([sys.executable, TOP / "monitor/nagsched-monitor", "--program", program, work / "site", "test"], capture_output=True, text=True)
        return made.returncode, tested.stdout, tested.stderr


def mypy_report():
    """mypy's report about the monitor, other scripts, the Python module and its loop; nothing if mypy isn't installed."""
    if not needs.is_here("monitor", "mypy"):
        return ""
    checks = [
        (["nagsched_monitor", "tests"], TOP / "monitor", ""),
        (["from_nagios.py"], TOP / "monitor/from_nagios", ""),
        (["unproved.py", "manual.py", "lanes.py", "overview.py"], TOP / "tools", ""),
        (["needs.py", "deliverables/missing.py", "deliverables/gate.py", *(f"edits/{name}.py" for name in ("goals", "clauses", "tried")),
          "program/pairs.py", "program/forms.py"], TOP / ".ci", ".:edits:program:../conformance"),
        (["python/backend.py"], TOP, ""),
        (["python/nagsched", "python/examples/loop.py"], TOP, "python"),
        (["second_opinion.py"], TOP / "tools", ":".join(str(TOP / name) for name in ("conformance/nagios", "monitor", "monitor/from_nagios"))),
    ]
    told = ""
    with tempfile.TemporaryDirectory() as cache:
        for files, folder, path in checks:
            words = ["mypy", "--strict", "--no-error-summary", "--cache-dir", cache, *files]
            told += subprocess.run(words, cwd=folder, env=os.environ | {"MYPYPATH": path}, stdout=subprocess.PIPE, text=True).stdout
    return told


def upward_imports():
    """The imports of the monitor's packages that go up. Its first page lists the packages, and each may import only those below it."""
    package = TOP / "monitor/nagsched_monitor"
    order = re.findall(r"^    (\w+)  ", (package / "__init__.py").read_text(), re.MULTILINE)
    files = [file for file in package.glob("*/*.py") if file.stem != "__init__"]
    imports = [(file, name) for file in files for name in re.findall(r"^ *from \.\.(\w+)", file.read_text(), re.MULTILINE)]
    return [f"{file.relative_to(package)} imports {name}" for file, name in imports if order.index(name) <= order.index(file.parent.name)]


def run_tests(module):
    """The number of a module's tests that passed, and of those that failed, whose output is printed. Skipped tests are named, and count as neither."""
    words = [sys.executable, "-m", "unittest", "-v", f"tests.{module}"]
    try:
        ran = subprocess.run(words, cwd=TOP / "monitor", stdout=subprocess.PIPE, stderr=subprocess.STDOUT, text=True, timeout=SECONDS)
    except subprocess.TimeoutExpired:
        print(f"monitor: {module} didn't end within {SECONDS} seconds")
        return 0, 1
    count = int((re.search(r"^Ran (\d+) tests?", ran.stdout, re.MULTILINE) or [0, "0"])[1])
    if ran.returncode == 0 and count > 0:
        skipped = int((re.search(r"skipped=(\d+)", ran.stdout) or [0, "0"])[1])
        if skipped:
            why = "".join(sorted({f": {reason}" for reason in re.findall(r"skipped ['\"](.*)['\"]$", ran.stdout, re.MULTILINE)}))
            print(f"monitor: passed over {skipped} tests of {module}{why}")
        return count - skipped, 0
    print(ran.stdout)
    wrong = sum(int(number) for number in re.findall(r"(?:failures|errors)=(\d+)", ran.stdout)) or 1
    return max(count - wrong, 0), wrong


def main():
    needs.require("monitor", "cc")
    harness = Harness("monitor")
    os.environ["NAGSCHED"] = harness.program
    subprocess.run([TOP / "monitor/build_runner.sh"], check=True)
    os.environ["NAGSCHED_RUNNER"] = str(TOP / "monitor/out/nagsched-runner")
    modules = sorted(file.stem for file in (TOP / "monitor/tests").glob("test_*.py"))
    with ThreadPoolExecutor(os.cpu_count()) as several:
        counts = list(several.map(run_tests, modules))
    # The tests run processes against the clock, and the rest of the gate runs at the same time. What fails is tried once more, by itself.
    for place, module in enumerate(modules):
        if counts[place][1]:
            print(f"monitor: {module} failed next to other tests, and is tried again by itself")
            counts[place] = run_tests(module)
    harness.passed, harness.failed = map(sum, zip(*counts))
    harness.compare("the loop", ["gateway;web page is CRITICAL SOFT 1"], [line for line in loop_output(harness.program) if "SOFT 1" in line])
    harness.compare("types", [], mypy_report().splitlines())
    harness.compare("packages", [], upward_imports())
    harness.compare("a site of Nagios's files", (0, "15 objects, 1 parts\n", ""), site_output(harness.program))
    harness.end()


if __name__ == "__main__":
    main()
