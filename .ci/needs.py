#!/usr/bin/env python3
"""Tests whether the programs are there that the scripts need, and names Debian's packages for those that aren't.

    .ci/needs.py (try | quick | test)

`try` is for tools/try.sh, `quick` for tools/test.sh --quick, and `test` for tools/test.sh. A needed program that is missing ends with status 1. An
optional one is listed, with what is passed over without it. The parts of the gate ask this module before they call any of these programs.
"""
import pathlib
import re
import shutil
import subprocess
import sys
from typing import Dict, List, NamedTuple, Optional

TOP = pathlib.Path(__file__).resolve().parent.parent
LIMIT = 60
OLDEST_PYTHON = (3, 9)


class Program(NamedTuple):
    """A program: Debian's package, the scripts that need it or none, and what it is for."""

    package: str
    needed_by: str
    use: str


# Each program that a script calls and that a base system may lack.
PROGRAMS = {
    "git": Program("git", "quick test", "the list of files"),
    "cc": Program("gcc", "quick test", "the runner, and devices that fail"),
    "c++": Program("g++", "test", "the C header in C++"),
    "ld": Program("binutils", "test", "the C library"),
    "ar": Program("binutils", "test", "the C library"),
    "objcopy": Program("binutils", "test", "the C library"),
    "nm": Program("binutils", "test", "the names in the C library"),
    "pkg-config": Program("pkg-config", "test", "the installed C library"),
    "node": Program("nodejs", "", "examples/client.mjs"),
    "go": Program("golang-go", "", "examples/monitor.go"),
    "mypy": Program("mypy", "", "the types of the Python files"),
    "mandoc": Program("mandoc", "", "what mandoc says of the manual pages"),
    "groff": Program("groff", "", "what groff says of the manual pages"),
    "systemd-analyze": Program("systemd", "", "what systemd says of the unit"),
    "systemd-sysusers": Program("systemd", "", "the user that systemd creates"),
    "gearmand": Program("gearman-job-server", "", "queues over gearmand"),
    "sshd": Program("openssh-server", "", "plugins over SSH"),
    "ssh": Program("openssh-client", "", "plugins over SSH"),
    "ssh-keygen": Program("openssh-client", "", "plugins over SSH"),
    "promtool": Program("prometheus", "", "the rules and figures for Prometheus"),
    "carbon-cache": Program("graphite-carbon", "", "Graphite, which gets performance data"),
    "amtool": Program("prometheus-alertmanager", "", "the settings for Alertmanager"),
    "pip": Program("python3-pip", "", "the installation of the Python package by pip"),
    "valgrind": Program("valgrind", "", "c/tests/memcheck.sh (not a part of the gate)"),
    "dpkg-deb": Program("dpkg", "", "tools/package.sh (not a part of the gate)"),
}
PARTS_FOR = {"try": "tools/try.sh", "quick": "tools/test.sh --quick", "test": "tools/test.sh"}


def path_of(program: str) -> Optional[str]:
    """Where a program is, also in the folders of administrators' programs."""
    return shutil.which(program) or shutil.which(program, path="/usr/local/sbin:/usr/sbin:/sbin")


def lacks(program: str) -> str:
    """A missing program, with its package."""
    return f"{program} (Debian's package {PROGRAMS[program].package})"


def is_here(part: str, program: str) -> bool:
    """Whether an optional program is there. If it isn't, a line names the part of the gate and what is passed over."""
    if path_of(program):
        return True
    print(f"{part}: passed over {PROGRAMS[program].use}: there is no {lacks(program)}")
    return False


def require(part: str, *programs: str) -> None:
    """Ends a part of the gate as failed if a program that it needs is missing."""
    missing = [program for program in programs if not path_of(program)]
    if missing:
        print(f"{part}: needs {', '.join(lacks(program) for program in missing)}\n{part}: 0 passed, 1 failed")
        sys.exit(1)


def wanted_kit() -> str:
    """The kit's version on README."""
    match = re.search(r"`(rattle-kit-[^`]+)`", (TOP / "README.md").read_text(encoding="utf-8"))
    return match[1] if match else ""


def kit_version() -> Optional[str]:
    """The version of the kit on the path, or nothing if there is none."""
    try:
        return subprocess.run(["rt", "version"], stdout=subprocess.PIPE, text=True, timeout=LIMIT, check=False).stdout.strip()
    except (OSError, subprocess.TimeoutExpired):
        return None


def logic_of(kit: str) -> str:
    """The checksum of a kit's logic, which decides what a proof shows. Kits with different names can have the same."""
    return kit.partition(" logic ")[2]


def kit_fault() -> str:
    """What is wrong with the kit, or nothing."""
    kit, wanted = kit_version(), wanted_kit()
    if kit is None:
        return f"the kit {wanted}: its command rt isn't on the path"
    return "" if logic_of(kit) == logic_of(wanted) != "" else f"the kit {wanted}, or another with this logic: rt on the path is {kit or 'of no kit'}"


def python_fault() -> str:
    """What is wrong with Python, or nothing."""
    if sys.version_info < OLDEST_PYTHON:
        return f"python3, {'.'.join(map(str, OLDEST_PYTHON))} or later: this is {sys.version.split()[0]}"
    try:
        import sqlite3  # noqa: F401
    except ImportError:
        return "python3 with its module sqlite3 (Debian's package python3)"
    return ""


def faults_of(script: str) -> List[str]:
    """What the script needs and doesn't have."""
    programs = [program for program, it in PROGRAMS.items() if script in it.needed_by.split() and not path_of(program)]
    # The program may be there already, and then the quick test needs no kit.
    kit = "" if script == "quick" and (TOP / "crates/nagsched/out/nagsched").is_file() else kit_fault()
    return [fault for fault in (python_fault(), kit, *map(lacks, programs)) if fault]


def optional_lines(script: str) -> List[str]:
    """A line for each program that is missing and that this script doesn't need."""
    rest: Dict[str, Program] = {program: it for program, it in PROGRAMS.items() if script not in it.needed_by.split()}
    if script == "quick":
        # What needs proofs is passed over as a whole.
        rest = {program: it for program, it in rest.items() if not it.needed_by}
    return [f"  {lacks(program)}: {it.use}" for program, it in rest.items() if not path_of(program)]


def main(script: str) -> int:
    faults = faults_of(script)
    for fault in faults:
        print(f"{PARTS_FOR[script]} needs {fault}", file=sys.stderr)
    if faults:
        packages = dict.fromkeys(it.package for program, it in PROGRAMS.items() if script in it.needed_by.split() and not path_of(program))
        if packages:
            print(f"Debian: apt-get install {' '.join(packages)}", file=sys.stderr)
        return 1
    lines = optional_lines(script) if script != "try" else []
    if lines:
        print("\n".join(["Optional programs that are missing, and what is passed over without them:", *lines]), flush=True)
    return 0


if __name__ == "__main__":
    if len(sys.argv) != 2 or sys.argv[1] not in PARTS_FOR:
        sys.exit(__doc__)
    sys.exit(main(sys.argv[1]))
