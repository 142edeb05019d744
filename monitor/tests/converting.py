"""A folder for Nagios's files, and the site that the converter makes of them."""
import json
import pathlib
import subprocess
import sys
import tempfile
import unittest
from typing import Any, Dict, Sequence

from .waiting import LONG

SCRIPT = pathlib.Path(__file__).resolve().parents[1] / "from_nagios/from_nagios.py"


def defined(kind: str, members: Dict[str, str]) -> str:
    return f"define {kind} {{\n" + "".join(f"\t{name}\t{value}\n" for name, value in members.items()) + "\t}\n"


class Converting(unittest.TestCase):
    def setUp(self) -> None:
        holder = tempfile.TemporaryDirectory()
        self.addCleanup(holder.cleanup)
        self.folder = pathlib.Path(holder.name)
        self.site = self.folder / "site"

    def taken(self, objects: str, options: str = "", words: Sequence[str] = ()) -> "subprocess.CompletedProcess[str]":
        (self.folder / "nagios.cfg").write_text(f"interval_length=60\n{options}")
        (self.folder / "objects").write_text(objects)
        command = [sys.executable, str(SCRIPT), *words, "--site", str(self.site), str(self.folder / "nagios.cfg"), str(self.folder / "objects")]
        return subprocess.run(command, capture_output=True, text=True, timeout=LONG, check=False)

    def take(self, objects: str, options: str = "") -> str:
        ran = self.taken(objects, options)
        self.assertEqual(ran.returncode, 0, ran.stderr)
        return ran.stderr

    def read(self, name: str) -> Any:
        return json.loads((self.site / f"{name}.json").read_text())

    def small(self, count: int = 1) -> str:
        """Hosts with a command each, all with one number."""
        hosts = "".join(defined("host", {"host_name": f"h{number}-{count}", "check_command": "dummy", "max_check_attempts": "3"}) for number in range(count))
        return defined("command", {"command_name": "dummy", "command_line": f"/bin/true {count}"}) + hosts
