"""A server of SSH with keys of its own, on a free port of this machine."""
import getpass
import os
import pathlib
import shutil
import socket
import subprocess
import tempfile
from typing import List, Optional

from .gearman_trial import is_open, search_path
from .waiting import becomes_true


def missing_program() -> Optional[str]:
    """A program that is missing here; None if all exist."""
    return next((name for name in ("sshd", "ssh", "ssh-keygen") if shutil.which(name, path=search_path()) is None), None)


def free_port() -> int:
    with socket.socket() as free:
        free.bind(("127.0.0.1", 0))
        return int(free.getsockname()[1])


class SshServer:
    """The server. Its key may run everything, until `allow` names a command."""

    def __init__(self) -> None:
        self._holder = tempfile.TemporaryDirectory()
        self.folder, self.port, self.user = pathlib.Path(self._holder.name), free_port(), getpass.getuser()
        self.folder.chmod(0o755)
        for name in ("host_key", "user_key"):
            subprocess.run(["ssh-keygen", "-q", "-t", "ed25519", "-N", "", "-f", str(self.folder / name)], check=True)
        shutil.copy(self.folder / "user_key.pub", self.folder / "authorized")
        (self.folder / "known").write_text(f"[127.0.0.1]:{self.port} {(self.folder / 'host_key.pub').read_text()}")
        (self.folder / "sshd.cfg").write_text(
            f"Port {self.port}\nListenAddress 127.0.0.1\nHostKey {self.folder}/host_key\nAuthorizedKeysFile {self.folder}/authorized\nStrictModes no\n"
            f"PidFile {self.folder}/sshd.pid\nUsePAM no\nPermitRootLogin prohibit-password\n")
        if os.geteuid() == 0:
            pathlib.Path("/run/sshd").mkdir(exist_ok=True)
        program = str(shutil.which("sshd", path=search_path()))
        self._server = subprocess.Popen([program, "-D", "-f", str(self.folder / "sshd.cfg")], stdout=subprocess.DEVNULL, stderr=subprocess.DEVNULL)
        becomes_true(lambda: is_open("127.0.0.1", self.port), 10)

    def allow(self, command: str) -> None:
        """The key may run only this command, for every request."""
        (self.folder / "authorized").write_text(f'restrict,command="{command}" {(self.folder / "user_key.pub").read_text()}')

    def options(self) -> List[str]:
        """The options of `ssh` that reach it, without its address."""
        return ["-p", str(self.port), "-l", self.user, "-i", f"{self.folder}/user_key", "-o", f"UserKnownHostsFile={self.folder}/known"]

    def close(self) -> None:
        self._server.terminate()
        self._server.wait(timeout=20)
        self._holder.cleanup()
