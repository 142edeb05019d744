"""The programs that a monitor starts, nagsched and its runner: where they are, and whether each can be run and is of the monitor's version."""
import contextlib
import errno
import os
import pathlib
import shutil
import subprocess
from typing import Iterator, List, NamedTuple, Optional, Type

from ..faults import MonitorFault, require, system_words, trouble_text, user_name

# The folder of the package: lib/nagsched of an installation, or monitor in a checkout. The runner is in it, or built in its folder out.
FOLDER = pathlib.Path(__file__).resolve().parent.parent.parent
PROGRAM_FOLDERS = (FOLDER, FOLDER / "out")
LIMIT = 30.0  # how long a program may take to print its version, in seconds
INSTALL = "install it again with tools/install.sh of a checkout, or from its package"
# The errors that say something about a program's file. Others are about the machine.
OF_FILES = (errno.ENOENT, errno.ENOTDIR, errno.EACCES, errno.EPERM, errno.ENOEXEC, errno.ELOOP, errno.ENAMETOOLONG, errno.ELIBBAD)


class Program(NamedTuple):
    """A program of this repository: the script that builds it in a checkout, and the setting that names another file."""

    name: str
    script: str
    setting: str

    def advice(self) -> str:
        script = FOLDER.parent / self.script
        return f"{f'build it with {script}' if script.is_file() else INSTALL}, or name another one {self.setting}"

    def trouble(self, path: str, error: OSError) -> str:
        """Why the path can't be run, in the system's words, and what to do."""
        is_of_file = error.errno in OF_FILES
        return f"{path}: " + (f"{system_words(error)}{file_trouble(path, error)}: {self.advice()}" if is_of_file else trouble_text(error))

    @contextlib.contextmanager
    def starting(self, path: str, fault: Type[Exception] = MonitorFault) -> Iterator[None]:
        """Raises this fault if the path can't be run."""
        try:
            yield
        except OSError as error:
            raise fault(f"{self.name} can't be run: {self.trouble(path, error)}") from None

    def test(self, path: str) -> None:
        """Raises a `MonitorFault` unless the path is this program in the monitor's version. Without a file VERSION, each version will do."""
        with self.starting(path):
            try:
                ran = subprocess.run([path, "--version"], stdin=subprocess.DEVNULL, capture_output=True, timeout=LIMIT, check=False)
            except subprocess.TimeoutExpired:
                raise MonitorFault(f"{path} doesn't print its version within {LIMIT:g} seconds: {self.advice()}") from None
        line = ((ran.stdout or ran.stderr).decode(errors="replace").splitlines() or [""])[0]
        name, _, version = line.partition(" ")
        is_own = ran.returncode == 0 and name == self.name
        why = f"with --version it ends with status {ran.returncode} and prints {repr(line) if line else 'nothing'}"
        require(is_own, f"{path} isn't the program {self.name}: {why}: {self.advice()}", MonitorFault)
        wanted = read_version()
        require(wanted in (None, version), f"{path} is {line}, and this monitor has version {wanted}: {self.advice()}", MonitorFault)


SCHEDULER = Program("nagsched", "tools/try.sh", "with --program")
RUNNER = Program("nagsched-runner", "monitor/build_runner.sh", "in the variable NAGSCHED_RUNNER")


def file_trouble(path: str, error: OSError) -> str:
    """More about an error of a program's file: what the system's words leave open."""
    if "/" not in path:
        return f" in the folders of PATH, {os.environ.get('PATH', os.defpath)}"
    if os.path.isdir(path):
        return ", since it is a folder"
    if os.path.isfile(path) and error.errno == errno.ENOENT:
        return ", though it exists: its interpreter or its loader doesn't"
    return f", since {user_name(os.geteuid())} may not execute it" if os.path.isfile(path) and not os.access(path, os.X_OK) else ""


def version_files() -> List[pathlib.Path]:
    """Where the version is: in an installation, and in a checkout."""
    return [FOLDER / "VERSION", FOLDER.parent / "VERSION"]


def read_version() -> Optional[str]:
    """The version of this monitor. None if there is no file VERSION, as where only the package was copied."""
    found = [file for file in version_files() if file.is_file()]
    return found[0].read_text(encoding="utf-8").strip() if found else None


def own_version() -> str:
    return read_version() or f"of an unknown version: there is no file {' and no '.join(map(str, version_files()))}"


def find_program(name: str) -> Optional[str]:
    """The path of a program: of this package, or one on the path. None if it isn't found."""
    folders = PROGRAM_FOLDERS if "/" not in name and name.startswith("nagsched-") else ()
    return next(filter(None, (shutil.which(str(folder / name)) for folder in folders)), None) or shutil.which(name)


def runner_command() -> List[str]:
    """The command of a runner of this machine: the variable NAGSCHED_RUNNER, the one that is found, or the one that should be there."""
    is_checkout = (FOLDER / "build_runner.sh").is_file()
    return [os.environ.get("NAGSCHED_RUNNER") or find_program(RUNNER.name) or str(PROGRAM_FOLDERS[is_checkout] / RUNNER.name)]


def scheduler_path(script: pathlib.Path) -> str:
    """nagsched: on the path, next to the monitor's script, or where a checkout builds it. If it is nowhere, where it should be."""
    if shutil.which(SCHEDULER.name) is not None:
        return SCHEDULER.name
    home = script.resolve().parent
    built = home.parent / "crates/nagsched/out/nagsched"
    found = [place for place in (script.parent / SCHEDULER.name, built) if shutil.which(str(place)) is not None]
    return str(found[0] if found else built if (home / "build_runner.sh").is_file() else SCHEDULER.name)


def read_own_file(path: pathlib.Path) -> str:
    """The text of a file of this package. Ends the process with a line if it can't be read."""
    try:
        return path.read_text(encoding="utf-8")
    except OSError as error:
        raise SystemExit(f"{path}: {system_words(error)}: {INSTALL}") from None
