"""The trial on Nagios as README and the tutorial have it: their lines, one after another, by a normal user whose home folder nobody else can read.

    cd monitor; python3 -m tests.packages_trial PROGRAM

For a machine that can be thrown away, with Debian's packages nagios4 and sudo; root runs it. It makes the user `alice` with a clone and PROGRAM in it, and
removes all that it made at the end. A monitor in the foreground keeps running until the next one starts, so the lines between are those of a second terminal.
Without systemd as the first process, the commands of the unit are run as its user in place of systemctl.
"""
import contextlib
import os
import pathlib
import pwd
import re
import shlex
import shutil
import signal
import subprocess
import sys
import tempfile
import time
import urllib.request
from typing import Dict, Iterator, List, Optional, Tuple

TOP = pathlib.Path(__file__).resolve().parent.parent.parent
USER, SITE = "alice", pathlib.Path("/var/tmp/office")
HOME = pathlib.Path("/home") / USER
SERVICE = pathlib.Path("/var/lib/nagsched")
RIGHTS = pathlib.Path("/etc/sudoers.d") / USER
# The sections of README that are followed, and then the whole tutorial.
SECTIONS = ("## A site to look at", "## Try it on your Nagios site")
# The longest time for a command, for a start of a monitor and for its end, in seconds.
LONG, START, END = 120, 60, 60
IS_BOOTED = pathlib.Path("/run/systemd/system").is_dir()


def lines_of(page: str) -> Iterator[str]:
    """The commands in the code blocks of a page. Examples of output aren't commands."""
    for block in re.findall(r"^```\n(.*?)^```", page, re.M | re.S):
        yield from (line for line in block.splitlines() if re.match(r"(?:sudo|monitor/|tools/|journalctl)\b", line))


def all_lines() -> List[str]:
    readme = (TOP / "README.md").read_text(encoding="utf-8")
    for heading in SECTIONS:
        if f"{heading}\n" not in readme:
            sys.exit(f"packages_trial: README has no section {heading!r}: name the sections of the trial here")
    parts = [f"{heading}{readme.partition(heading)[2]}".split("\n## ")[0] for heading in SECTIONS]
    return [line for page in (*parts, (TOP / "docs/tutorial.md").read_text(encoding="utf-8")) for line in lines_of(page)]


def monitor_words(line: str) -> Optional[Tuple[str, List[str]]]:
    """The folder of a line that starts or asks a monitor, and its command; no words without one."""
    words = shlex.split(line)
    place = next((place for place, word in enumerate(words) if pathlib.PurePath(word).name == "nagsched-monitor"), None)
    if place is None:
        return None
    words = words[place + 1 :]
    while words[0].startswith("--"):
        words = words[2:]
    return words[0], words[1:]


class Trial:
    """The lines, and the monitor that runs in the foreground or as a service."""

    def __init__(self, work: pathlib.Path) -> None:
        self.work = work
        # The monitor in the foreground, the line that started it, and its folder.
        self.running: Optional[subprocess.Popen[bytes]] = None
        self.started, self.folder = "", ""
        self.service: Optional[subprocess.Popen[bytes]] = None
        self.wrong: List[str] = []

    def start(self, command: List[str], user: str, output: pathlib.Path) -> "subprocess.Popen[bytes]":
        entry = pwd.getpwnam(user)
        environment = {"HOME": entry.pw_dir, "USER": user, "LOGNAME": user, "PATH": "/usr/local/bin:/usr/bin:/bin", "LANG": "C.UTF-8"}
        folder = HOME / "nagsched" if user == USER else pathlib.Path("/")
        with output.open("wb") as file:
            return subprocess.Popen(command, cwd=folder, user=user, group=entry.pw_gid, extra_groups=[], env=environment, stdin=subprocess.DEVNULL,
                                    stdout=file, stderr=subprocess.STDOUT, start_new_session=True)

    def fail(self, line: str, why: str) -> None:
        self.wrong.append(f"{line}: {why}")
        print(f"  WRONG: {why}")

    def tell(self, output: pathlib.Path) -> str:
        """Prints the last lines of an output, and returns all of it."""
        text = output.read_text(encoding="utf-8", errors="replace")
        print("".join(f"  {line}\n" for line in text.splitlines()[-4:]), end="", flush=True)
        return text

    def run(self, line: str, command: List[str], user: str) -> None:
        """Runs a command to its end, which has to be a good one."""
        output = self.work / "output"
        running = self.start(command, user, output)
        try:
            status = running.wait(timeout=LONG)
        except subprocess.TimeoutExpired:
            os.killpg(running.pid, signal.SIGKILL)
            status = running.wait()
        self.tell(output)
        if status != 0:
            self.fail(line, f"status {status}")

    def await_start(self, line: str, running: "subprocess.Popen[bytes]", output: pathlib.Path) -> None:
        """Waits until a monitor runs, and until its page answers if it has one."""
        end = time.monotonic() + START
        address = re.search(r"--page (\S+)", line)
        while True:
            text = output.read_text(encoding="utf-8", errors="replace")
            with contextlib.suppress(OSError):
                if "begins: " in text and (not address or b"<html" in urllib.request.urlopen(f"http://{address[1]}/", timeout=10).read()):
                    break
            if time.monotonic() >= end or running.poll() is not None:
                self.fail(line, f"it doesn't begin within {START} seconds, or ended")
                break
            time.sleep(0.2)
        self.tell(output)

    def stop(self, running: "Optional[subprocess.Popen[bytes]]", number: int) -> None:
        """Ends a monitor, as Ctrl-C or systemctl do."""
        if running is not None and running.poll() is None:
            with contextlib.suppress(ProcessLookupError):
                os.killpg(running.pid, number)
            try:
                running.wait(timeout=END)
            except subprocess.TimeoutExpired:
                os.killpg(running.pid, signal.SIGKILL)
                self.fail("the end of a monitor", f"it took more than {END} seconds")

    def bring_to_foreground(self, line: str, folder: str) -> None:
        self.stop(self.running, signal.SIGINT)
        output = self.work / "foreground"
        self.running, self.started, self.folder = self.start(["bash", "-c", f"exec {line}"], USER, output), line, folder
        self.await_start(line, self.running, output)

    def follow(self, line: str) -> None:
        """Runs a line of a page."""
        print(f"$ {line}", flush=True)
        words = monitor_words(line)
        if "systemctl" in line and not IS_BOOTED:
            self.in_place_of_systemctl(line)
        elif line.startswith("journalctl"):
            print("  passed over: it follows the log without an end")
        elif words is not None and not words[1]:
            self.bring_to_foreground(line, words[0])
        else:
            if words is not None and words[1][0] != "test" and (self.running is None or self.running.poll() is not None):
                self.bring_to_foreground(self.started, self.folder)
            if line.startswith("sudo systemd-sysusers"):
                self.stop(self.running, signal.SIGINT)
            self.run(line, ["bash", "-c", line], USER)

    def in_place_of_systemctl(self, line: str) -> None:
        """Runs the command of the unit as its user."""
        unit = pathlib.Path("/usr/local/lib/systemd/system/nagsched-monitor@.service").read_text(encoding="utf-8")
        commands: Dict[str, str] = dict(re.findall(r"^(Exec\w+)=(.*)$", unit.replace("%i", "office").replace("$WORDS ", ""), re.M))
        if "enable" in line:
            output = self.work / "service"
            self.service = self.start(shlex.split(commands["ExecStart"]), "nagsched", output)
            self.await_start(line, self.service, output)
        elif "reload" in line:
            self.run(line, shlex.split(commands["ExecReload"]), "nagsched")
        else:
            self.stop(self.service, signal.SIGTERM)


def refuse() -> None:
    """Ends if something is there that the trial would make."""
    for path in (HOME, SITE, SERVICE, pathlib.Path("/usr/local/bin/nagsched")):
        if path.exists():
            sys.exit(f"packages_trial: {path} is there: this needs a machine without nagsched and without a user {USER}")


def prepare(program: str) -> None:
    """The user, the clone, and the program in it."""
    signal.signal(signal.SIGINT, signal.default_int_handler)  # what a shell starts in the background ignores it, and so would all that it starts
    subprocess.run(["useradd", "--create-home", "--shell", "/bin/bash", USER], check=True)
    HOME.chmod(0o700)
    RIGHTS.write_text(f"{USER} ALL=(ALL) NOPASSWD: ALL\n")
    RIGHTS.chmod(0o440)
    clone = HOME / "nagsched"
    subprocess.run(["git", "clone", "-q", TOP, clone], check=True)
    (clone / "crates/nagsched/out").mkdir()
    shutil.copy(program, clone / "crates/nagsched/out/nagsched")
    subprocess.run(["chown", "-R", f"{USER}:", clone], check=True)


def remove(work: pathlib.Path) -> None:
    """All that the trial made, and the files that were installed."""
    clone = HOME / "nagsched"
    subprocess.run(["bash", clone / "tools/install.sh", "/usr/local"], env={**os.environ, "DESTDIR": str(work / "list")}, stdout=subprocess.DEVNULL, check=False)
    for file in (work / "list/usr/local").rglob("*"):
        if file.is_symlink() or file.is_file():
            pathlib.Path("/usr/local", file.relative_to(work / "list/usr/local")).unlink(missing_ok=True)
    shutil.rmtree("/usr/local/lib/nagsched", ignore_errors=True)
    shutil.rmtree("/usr/local/share/doc/nagsched", ignore_errors=True)
    for folder in (SITE, SERVICE):
        shutil.rmtree(folder, ignore_errors=True)
    RIGHTS.unlink(missing_ok=True)
    for words in (["--remove", USER], ["nagsched"]):
        subprocess.run(["userdel", *words], stdout=subprocess.DEVNULL, stderr=subprocess.DEVNULL, check=False)


def main(program: str) -> int:
    refuse()
    with tempfile.TemporaryDirectory() as holder:
        trial = Trial(pathlib.Path(holder))
        try:
            prepare(program)
            for line in all_lines():
                trial.follow(line)
        finally:
            trial.stop(trial.running, signal.SIGINT)
            trial.stop(trial.service, signal.SIGTERM)
            remove(trial.work)
    print("".join(f"{line}\n" for line in trial.wrong) + f"trial: {len(all_lines()) - len(trial.wrong)} lines passed, {len(trial.wrong)} failed")
    return 1 if trial.wrong else 0


if __name__ == "__main__":
    sys.exit(main(sys.argv[1]))
