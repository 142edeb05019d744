"""Trials of plugins that reach behind walls: a worker in a network namespace of its own, NRPE, and check_by_ssh."""
import contextlib
import getpass
import grp
import json
import os
import pathlib
import pwd
import re
import shutil
import subprocess
import sys
import tempfile
import time
from typing import Any, Dict, List, Optional

from .gearman_trial import GearmanTrial, is_open, runner_command, search_path
from .ssh_server import SshServer, free_port
from .waiting import becomes_true

MONITOR = pathlib.Path(__file__).resolve().parent.parent / "nagsched-monitor"
PLUGINS = pathlib.Path("/usr/lib/nagios/plugins")
SPACE, NEAR, FAR = "nagsched-wall", "10.213.90.1", "10.213.90.2"
# A program that listens behind the wall only, and one that sends it a request.
LISTEN = "import socket; it = socket.create_server(('127.0.0.1', {port})); print(flush=True)\nwhile True: it.accept()[0].close()"
ASK = "import socket, sys\ntry:\n socket.create_connection(('127.0.0.1', {port}), 2)\nexcept OSError as error:\n print(error); sys.exit(2)\nprint('it listens')"


def states_of(folder: pathlib.Path, program: str, count: int, seconds: float = 120) -> Dict[str, List[str]]:
    """Runs a site until this many objects have been checked: the state and the output of each."""
    running = subprocess.Popen([sys.executable, str(MONITOR), "--program", program, str(folder)], stdout=subprocess.DEVNULL)
    found: Dict[str, List[str]] = {}
    try:
        end = time.monotonic() + seconds
        while time.monotonic() < end and len(found) < count:
            time.sleep(0.5)
            printed = subprocess.run([sys.executable, str(MONITOR), str(folder), "status"], stdout=subprocess.PIPE, stderr=subprocess.DEVNULL, text=True,
                                     check=False)
            lines = [re.fullmatch(r"(\w+) +\w+ \d+ +(?:(?:FLAPPING|running|off) +)*([^:]*): *(.*)", line) for line in printed.stdout.splitlines()]
            found = {line.group(2): [line.group(1), line.group(3)] for line in lines if line and line.group(1) != "PENDING"}
    finally:
        running.terminate()
        running.wait(timeout=60)
    return found


def write_site(folder: pathlib.Path, commands: Dict[str, str], **files: Any) -> None:
    """A site of one host that isn't checked, and a service for each of these commands."""
    services = [{"host": "far", "description": name, "check_interval": 2, "max_check_attempts": 1} for name in commands]
    setup = {"options": {"interval_length": 1}, "hosts": [{"name": "far", "check_interval": 0, "max_check_attempts": 1, "enabled": False}],
             "services": services}
    lines = {f"far;{name}": {"line": line} for name, line in commands.items()}
    for name, document in {"setup": setup, "commands": lines, **files}.items():
        (folder / f"{name}.json").write_text(json.dumps(document))


# ---- a wall


def wall(program: str) -> List[str]:
    """A service that can be reached behind a wall only: the worker there finds it OK, the monitor alone doesn't."""
    if os.geteuid() != 0 or shutil.which("ip", path=search_path()) is None:
        print("packages: passed over the wall: it wants root and iproute2")
        return []
    built = [["netns", "add", SPACE], ["link", "add", "nagsched-near", "type", "veth", "peer", "name", "nagsched-far", "netns", SPACE],
             ["addr", "add", f"{NEAR}/24", "dev", "nagsched-near"], ["link", "set", "nagsched-near", "up"],
             ["-n", SPACE, "addr", "add", f"{FAR}/24", "dev", "nagsched-far"], ["-n", SPACE, "link", "set", "nagsched-far", "up"],
             ["-n", SPACE, "link", "set", "lo", "up"]]
    try:
        for words in built:
            ran = subprocess.run(["ip", *words], stderr=subprocess.PIPE, text=True, check=False)
            if ran.returncode != 0:
                print(f"packages: passed over the wall: ip {' '.join(words)}: {ran.stderr.strip()}")
                return []
        return behind_the_wall(program)
    finally:
        subprocess.run(["ip", "netns", "del", SPACE], stderr=subprocess.DEVNULL, check=False)
        subprocess.run(["ip", "link", "del", "nagsched-near"], stderr=subprocess.DEVNULL, check=False)


def behind_the_wall(program: str) -> List[str]:
    trial, port, within = GearmanTrial(NEAR), free_port(), ["ip", "netns", "exec", SPACE]
    listening = subprocess.Popen([*within, sys.executable, "-c", LISTEN.format(port=port)], stdout=subprocess.PIPE)
    try:
        assert listening.stdout is not None
        listening.stdout.readline()
        trial.begin_server()
        trial.begin_worker("wall", slots=2, before=within)
        with tempfile.TemporaryDirectory() as holder:
            folder = pathlib.Path(holder)
            (folder / "ask.py").write_text(ASK.format(port=port))
            line = f"{sys.executable} {folder}/ask.py"
            write_site(folder, {"behind": line, "before": line}, runners={"runners": {"wall": runner_command(trial, "wall")},
                                                                          "objects": {"wall": ["far;behind"]}})
            found = states_of(folder, program, 2)
    finally:
        listening.kill()
        listening.wait()
        trial.close()
    states = {name: words[0] for name, words in found.items()}
    print(f"wall: {found}")
    return [] if states == {"far;behind": "OK", "far;before": "CRITICAL"} else [f"wall: wanted behind OK and before CRITICAL, came {found}"]


# ---- NRPE and SSH


def remote(program: str) -> List[str]:
    """Plugins that have another machine run a plugin: NRPE's, and check_by_ssh."""
    wrong = []
    with tempfile.TemporaryDirectory() as holder, contextlib.ExitStack() as ends:
        folder = pathlib.Path(holder)
        folder.chmod(0o755)
        commands: Dict[str, str] = {}
        for name, begin, wants in (("nrpe", begin_nrpe, ["nrpe", "check_nrpe"]), ("ssh", begin_sshd, ["sshd", "ssh", "ssh-keygen", "check_by_ssh"])):
            lacking = [each for each in wants if found_program(each) is None]
            if lacking:
                print(f"packages: passed over {name}: {', '.join(lacking)} isn't here")
                continue
            commands[name] = begin(folder, ends)
        if commands:
            write_site(folder, commands)
            found = states_of(folder, program, len(commands))
            print(f"remote: {found}")
            wrong = [f"{name}: wanted WARNING, came {found.get(f'far;{name}')}" for name in commands if found.get(f"far;{name}", [""])[0] != "WARNING"]
    return wrong


def found_program(name: str) -> Optional[str]:
    return shutil.which(name, path=f"{search_path()}:{PLUGINS}:{os.environ.get('PLUGINS', '')}")


def warning_plugin(folder: pathlib.Path) -> pathlib.Path:
    plugin = folder / "warns"
    plugin.write_text("#!/bin/sh\necho by $1\nexit 1\n")
    plugin.chmod(0o755)
    return plugin


def begin_nrpe(folder: pathlib.Path, ends: contextlib.ExitStack) -> str:
    """Starts NRPE's daemon, and returns the line that sends it a request."""
    # It doesn't run as root.
    port, user = free_port(), "nobody" if os.geteuid() == 0 else getpass.getuser()
    group = grp.getgrgid(pwd.getpwnam(user).pw_gid).gr_name
    (folder / "nrpe.cfg").write_text(
        f"server_address=127.0.0.1\nserver_port={port}\nallowed_hosts=127.0.0.1\nnrpe_user={user}\nnrpe_group={group}\n"
        f"pid_file={folder}/nrpe.pid\ncommand[warns]={warning_plugin(folder)} NRPE\n"
    )
    daemon = subprocess.Popen([str(found_program("nrpe")), "-c", str(folder / "nrpe.cfg"), "-f"], stdout=subprocess.DEVNULL, stderr=subprocess.DEVNULL)
    ends.callback(daemon.wait, timeout=20)
    ends.callback(daemon.terminate)
    becomes_true(lambda: is_open("127.0.0.1", port), 10)
    return f"{found_program('check_nrpe')} -t 50 -H 127.0.0.1 -p {port} -c warns"


def begin_sshd(folder: pathlib.Path, ends: contextlib.ExitStack) -> str:
    """Starts a server of SSH, and returns the line that sends it a request."""
    server = SshServer()
    ends.callback(server.close)
    options = " ".join(server.options())
    return f"{found_program('check_by_ssh')} -t 50 -H 127.0.0.1 {options} -C '{warning_plugin(folder)} SSH'"
