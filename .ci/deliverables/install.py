#!/usr/bin/env python3
"""Installs the built files into a folder, and runs them from there.

    .ci/deliverables/install.py PROGRAM

The program answers, and the monitor reads a site. The manual pages are shown without a warning if `mandoc` or `groff` is there. The completions can be
read. The program's manual page has every word of its help, and section 3 has a page for every function of the C header. What isn't built is named:
without the C library all else is installed, without the program or the runner nothing is. pip installs the Python package.
"""
import hashlib
import json
import os
import pathlib
import re
import subprocess
import sys
import tempfile

sys.path.append(str(pathlib.Path(__file__).resolve().parents[1] / "program"))
from harness import TOP, Harness
import needs

SETUP = {"hosts": [{"name": "gateway", "max_check_attempts": 3}]}
SHOWN = {"mandoc": ["mandoc", "-Tlint", "-Wwarning"], "groff": ["groff", "-ww", "-man", "-Tutf8", "-z"]}


def command_output(*words, **how):
    ran = subprocess.run([str(word) for word in words], stdout=subprocess.PIPE, stderr=subprocess.STDOUT, text=True, check=False, **how)
    return ran.stdout, ran.returncode


def warnings_of(page):
    """The complaints of each program that shows manual pages, or the page that this one leads to, if it isn't there."""
    text = page.read_text()
    if text.startswith(".so "):
        return "" if (page.parent.parent / text.split()[1]).is_file() else text
    return "".join(command_output(*words, page)[0] for name, words in SHOWN.items() if needs.path_of(name))


def help_words(program):
    """Subcommands and options, from the help of the program and of its subcommands."""
    told = command_output(program, "--help")[0]
    commands = re.findall(r"^  ([a-z]+)  ", told[told.index("Commands:"):], re.MULTILINE) if "Commands:" in told else []
    helps = [command_output(program, command, "--help")[0].split("Options:")[-1] for command in commands if command != "help"]
    return sorted({*commands, *(option for text in helps for option in re.findall(r"--[a-z]+", text))})


def check_installed(program, prefix, work):
    manual = {page.name: page for page in (prefix / "share/man").rglob("nagsched*")}
    yield "the program", command_output(prefix / "bin/nagsched", "run", input=json.dumps(SETUP) + '\n["take",0]\n'), ("taken 1 gateway\n", 0)
    (work / "site").mkdir()
    (work / "site/setup.json").write_text(json.dumps(SETUP))
    (work / "site/commands.json").write_text(json.dumps({"gateway": {"line": "true"}}))
    tested = command_output(prefix / "bin/nagsched-monitor", "--program", prefix / "bin/nagsched", work / "site", "test")
    yield "the monitor", tested, ("1 objects, 1 parts\n", 0)
    version = (TOP / "VERSION").read_text()
    yield "the monitor's version", command_output(prefix / "bin/nagsched-monitor", "--version"), (f"nagsched-monitor {version}", 0)
    job = '{"job":1,"words":["echo","fine"],"limit":9}'
    ran = command_output("sh", "-c", f"(echo '{job}'; sleep 1) | {prefix}/bin/nagsched-runner")
    yield "the runner", ran, ('{"job":1,"code":0,"end":"exited","output":"fine\\u000a"}\n', 0)
    yield "the runner's version", command_output(prefix / "bin/nagsched-runner", "--version"), (f"nagsched-runner {version}", 0)
    yield "the worker", command_output(prefix / "bin/nagsched-gearman-worker", "--help")[1], 0
    own = {file.name for file in (TOP / "monitor/from_nagios").glob("*.py")}
    yield "the converter's modules that are missing", own - {file.name for file in (prefix / "lib/nagsched").iterdir()}, set()
    yield "from Nagios", command_output(prefix / "bin/nagsched-from-nagios", "--help")[1], 0
    told, status = command_output(prefix / "bin/nagsched-second-opinion", "--lines", "/var/log/nagios4/results")
    yield "the second opinion", (status, "host_perfdata_file=/var/log/nagios4/results\n" in told), (0, True)
    yield "the manual pages", [name for name in sorted(manual) if not name.endswith(".3")], [
        "nagsched-from-nagios.1", "nagsched-monitor.1", "nagsched-second-opinion.1", "nagsched.1", "nagsched.5"]
    functions = re.findall(r"\b(nagsched_\w+)\(", re.sub(r"/\*.*?\*/", "", (TOP / "c/nagsched.h").read_text(), flags=re.DOTALL))
    wanted = sorted(f"{name}.3" for name in {"nagsched", *functions}) if (prefix / "include/nagsched.h").is_file() else []
    yield "the manual pages of section 3", sorted(name for name in manual if name.endswith(".3")), wanted
    for name, page in sorted(manual.items()):
        yield f"warnings of {name}", warnings_of(page), ""
        yield f"lines of {name}, at most 400", len(page.read_text().splitlines()) <= 400, True
    page = manual["nagsched.1"].read_text().replace("\\-", "-")
    yield "words of the help that nagsched.1 lacks", [word for word in help_words(program) if not re.search(rf"{word}\b", page)], []
    page = manual["nagsched-second-opinion.1"].read_text().replace("\\-", "-")
    words = re.findall(r"^  .*?(--[a-z]+)", command_output(prefix / "bin/nagsched-second-opinion", "--help")[0], re.MULTILINE)
    yield "options of the help that nagsched-second-opinion.1 lacks", (len(words) > 5, [word for word in words if word not in page]), (True, [])
    first_page = (prefix / "share/doc/nagsched/README.md").read_text()
    yield "the installed first page", ("nagsched < examples/office.txt" in first_page, bool(re.search(r"\brt\b|<!--", first_page))), (True, False)
    yield "the completion for bash", command_output("bash", "-n", prefix / "share/bash-completion/completions/nagsched"), ("", 0)
    unit = prefix / "lib/systemd/system/nagsched-monitor@.service"
    yield "the unit", f"ExecStart={prefix}/bin/nagsched-monitor" in unit.read_text(), True
    if needs.is_here("install", "systemd-analyze"):
        site = unit.with_name("nagsched-monitor@office.service")
        site.write_text(re.sub("^(User|Group|Documentation)=.*\n", "", unit.read_text(), flags=re.MULTILINE))
        yield "what systemd says of the unit", command_output("systemd-analyze", "verify", site), ("", 0)
        yield "its exposure", command_output("systemd-analyze", "security", "--offline=true", "--threshold=40", unit)[1], 0
    if needs.is_here("install", "systemd-sysusers"):
        made = command_output("systemd-sysusers", f"--root={work}", "--dry-run", prefix / "lib/sysusers.d/nagsched-monitor.conf")[0]
        yield "the user", "Creating user 'nagsched'" in made, True


def record_rows(program, prefix, work):
    """The record of how the program was built counts for the program alone, and is installed with it."""
    copy, installed = work / "copy", prefix / "share/nagsched/nagsched.build"
    copy.write_bytes(pathlib.Path(program).read_bytes())
    record = f"version: {(TOP / 'VERSION').read_text().strip()}\n"
    command_output(sys.executable, TOP / "tools/build_file.py", "write", copy, "unproved")
    line = command_output(sys.executable, TOP / "tools/build_file.py", "show", copy)[0]
    yield "the record", (line.startswith("copy ") and line.endswith(", not proved\n"), copy.with_suffix(".build").read_text().startswith(record)), (True, True)
    copy.write_bytes(copy.read_bytes() + b"\n")
    other = command_output(sys.executable, TOP / "tools/build_file.py", "show", copy)[0]
    yield "the record of another program", other, "copy: no record says how it was built\n"
    checksum = hashlib.sha256((prefix / "bin/nagsched").read_bytes()).hexdigest()
    yield "the installed record", not installed.is_file() or f"sha256: {checksum}\n" in installed.read_text(), True


def pip_rows(work):
    """pip installs the Python package without a network. Its import without the library says what to do."""
    if not needs.is_here("install", "pip"):
        return
    told, status = command_output("pip", "install", "--no-index", "--no-cache-dir", "--disable-pip-version-check", "--target", work / "packages", TOP / "python")
    yield "pip", (status, status and told), (0, 0)
    files = {file.name for file in (TOP / "python/nagsched").iterdir() if file.is_file()}
    yield "the package's files", files - {file.name for file in (work / "packages/nagsched").glob("*")}, set()
    env = os.environ | {"PYTHONPATH": str(work / "packages"), "NAGSCHED_LIBRARY": "/nowhere/libnagsched.so"}
    last = command_output(sys.executable, "-c", "import nagsched", env=env)[0].splitlines()[-1]
    yield "an import without the library", [words in last for words in ("/nowhere/libnagsched.so", "set NAGSCHED_LIBRARY", "tools/build_c.sh")], [True] * 3


def built_parts(work):
    """Installs where the C library isn't built, and where nothing is: a checkout without crates and monitor."""
    told, status = command_output("bash", TOP / "tools/install.sh", work / "without", env=os.environ | {"NAGSCHED_BUILT": str(work / "nowhere")})
    kinds = [sorted(place.relative_to(work / "without").as_posix() for place in (work / "without").glob(pattern)) for pattern in ("bin/nagsched", "lib/libnagsched*", "share/man/man3")]
    yield "without a library", (status, "the library isn't built: tools/build_c.sh" in told, kinds), (0, True, [["bin/nagsched"], [], []])
    (work / "bare").mkdir()
    for name in ("tools", "VERSION"):
        (work / "bare" / name).symlink_to(TOP / name)
    told, status = command_output("bash", work / "bare/tools/install.sh", work / "nothing")
    named = [words in told for words in ("nagsched isn't built: tools/test.sh", "nagsched-runner isn't built: monitor/build_runner.sh")]
    yield "without anything", (status, named, (work / "nothing").exists()), (1, [True, True], False)


def main():
    needs.require("install", "cc")
    harness = Harness("install")
    with tempfile.TemporaryDirectory() as folder:
        work = pathlib.Path(folder)
        command_output(TOP / "monitor/build_runner.sh")
        told, status = command_output("bash", TOP / "tools/install.sh", work / "prefix")
        rows = [("installing", (told, status), ("", 0)), *built_parts(work), *pip_rows(work)]
        if status == 0:
            rows[0:1] = [*check_installed(harness.program, work / "prefix", work), *record_rows(harness.program, work / "prefix", work)]
        for what, came, wanted in rows:
            harness.compare(what, wanted, came)
    for name in SHOWN:
        needs.is_here("install", name)
    harness.end()


main()
