#!/usr/bin/env python3
"""Removes each program that a script needs from the path, and tests what the script says.

    .ci/deliverables/missing.py [PROGRAM]

tools/try.sh and tools/test.sh stop at once, and name Debian's package. A part of the gate that needs a C compiler fails with a line that names it. An
optional program is listed with what is passed over without it. With all programs tools/try.sh plays its example.
"""
import contextlib
import os
import pathlib
import shutil
import signal
import subprocess
import sys
import tempfile
from typing import Iterator, Tuple

sys.path.append(str(pathlib.Path(__file__).resolve().parents[1] / "program"))
from harness import TOP, Harness
import needs

LIMIT = 60
SCRIPTS = {"try": ["tools/try.sh"], "quick": ["tools/test.sh", "--quick"], "test": ["tools/test.sh"]}
WITH_COMPILER = ("devices", "refusals", "monitor", "c_library", "install")
# What is compared, what came, and what was wanted.
Row = Tuple[str, object, object]


def link_programs(folder: pathlib.Path) -> None:
    """Links to each program of the path, and to the Python that runs this."""
    for directory in os.environ["PATH"].split(os.pathsep):
        for file in pathlib.Path(directory).glob("*"):
            link = folder / file.name
            if not link.is_symlink():
                link.symlink_to(file)
    (folder / "python3").unlink(missing_ok=True)
    (folder / "python3").symlink_to(sys.executable)


@contextlib.contextmanager
def without(folder: pathlib.Path, program: str) -> Iterator[None]:
    """Removes a program's link for a while."""
    link = folder / program
    target = link.readlink() if link.is_symlink() else None
    link.unlink(missing_ok=True)
    yield
    if target:
        link.symlink_to(target)


def told(folder: pathlib.Path, *words: str) -> Tuple[int, str]:
    """The status and the output of a command that finds only the linked programs."""
    ran = subprocess.Popen([folder / words[0], *words[1:]], cwd=TOP, env=os.environ | {"PATH": str(folder)}, stdin=subprocess.DEVNULL,
                           stdout=subprocess.PIPE, stderr=subprocess.STDOUT, text=True, start_new_session=True)
    try:
        output, _ = ran.communicate(timeout=LIMIT)
    except subprocess.TimeoutExpired:
        # A script that doesn't stop has begun its work, which ends here.
        os.killpg(ran.pid, signal.SIGKILL)
        return -1, f"not ended after {LIMIT} seconds"
    return ran.returncode, output


def needed_rows(folder: pathlib.Path) -> Iterator[Row]:
    """The scripts without each needed program."""
    for script, words in SCRIPTS.items():
        names = ["python3", *(["rt"] if script != "quick" else []), *(name for name, it in needs.PROGRAMS.items() if script in it.needed_by.split())]
        for name in names:
            with without(folder, name):
                status, output = told(folder, "bash", *words)
            package = {"rt": needs.wanted_kit(), "python3": "package python3"}.get(name) or f"{name} (Debian's package {needs.PROGRAMS[name].package})"
            yield f"{' '.join(words)} without {name}", (status, package in output, "Traceback" in output), (1, True, False)
            if script != "try":
                yield f"the last line of {' '.join(words)} without {name}", output.splitlines()[-1], "0 passed, 1 failed"


def compiler_rows(folder: pathlib.Path, program: str) -> Iterator[Row]:
    """The parts of the gate without a C compiler."""
    with without(folder, "cc"):
        for part in WITH_COMPILER:
            status, output = told(folder, "python3", str(next((TOP / ".ci").glob(f"*/{part}.py"))), program)
            yield f"{part}.py without cc", (status, "cc (Debian's package gcc)" in output, "Traceback" in output), (1, True, False)


def optional_rows(folder: pathlib.Path) -> Iterator[Row]:
    """The list of what is missing, without each optional program and without all. A program in a folder of administrators' programs is found all the same."""
    names = [name for name, it in needs.PROGRAMS.items() if not it.needed_by and not shutil.which(name, path="/usr/local/sbin:/usr/sbin:/sbin")]
    for name in names:
        with without(folder, name):
            status, output = told(folder, "python3", ".ci/needs.py", "test")
        yield f"the list without {name}", (status, needs.lacks(name) in output, needs.PROGRAMS[name].use in output), (0, True, True)
    with contextlib.ExitStack() as removed:
        for name in names:
            removed.enter_context(without(folder, name))
        status, output = told(folder, "python3", ".ci/needs.py", "test")
    yield "the list without all", (status, [name for name in names if needs.lacks(name) not in output]), (0, [])


def try_rows() -> Iterator[Row]:
    """tools/try.sh, on the program that is in its place."""
    if needs.kit_fault():
        print(f"missing: passed over tools/try.sh, which needs {needs.kit_fault()}")
        return
    ran = subprocess.run([TOP / "tools/try.sh"], stdin=subprocess.DEVNULL, stdout=subprocess.PIPE, stderr=subprocess.STDOUT, text=True, timeout=LIMIT, check=False)
    is_unproved = ", not proved\n" in ran.stdout
    said = [words in ran.stdout for words in ("this is examples/office.out, to the byte", "This program isn't proved")]
    yield "tools/try.sh", (ran.returncode, said), (0, [True, is_unproved])


def stage_rows() -> Iterator[Row]:
    """tools/try.sh says which stage it is in for as long as the stage lasts, and one that doesn't end is ended."""
    code = "import pathlib, unproved\nunproved.NEWS, unproved.LIMIT = 0.2, {}\nprint(unproved.run('reading', ['sleep', '1'], pathlib.Path('.')).returncode)"
    for limit, status, wanted in ((60, 0, "s  still reading\n"), (0, 1, "unproved.Failure: reading: it didn't end within 0 minutes")):
        ran = subprocess.run([sys.executable, "-c", code.format(limit)], cwd=TOP / "tools", stdout=subprocess.PIPE, stderr=subprocess.STDOUT, text=True, timeout=LIMIT, check=False)
        yield f"a stage of at most {limit} seconds", (ran.returncode, wanted in ran.stdout), (status, True)


def main() -> None:
    harness = Harness("missing")
    with tempfile.TemporaryDirectory() as name:
        folder = pathlib.Path(name)
        link_programs(folder)
        for what, came, wanted in (*needed_rows(folder), *compiler_rows(folder, harness.program), *optional_rows(folder), *stage_rows(), *try_rows()):
            harness.compare(what, wanted, came)
    harness.end()


main()
