"""The command for changes that is one of the examples, over a mail server on this machine."""
import json
import pathlib
import socketserver
import subprocess
import sys
import threading
import unittest
from typing import Any, Dict, Sequence

EXAMPLES = pathlib.Path(__file__).resolve().parents[1] / "examples"
CHANGE = {
    "time": 1_795_766_400.0, "name": "web;http", "state": "CRITICAL", "kind": "HARD", "attempt": 3, "flapping": False, "was": "OK",
    "was_flapping": False, "output": "no answer",
}


def given(script: str, *words: str, changes: Sequence[Dict[str, Any]] = ({},)) -> "subprocess.CompletedProcess[str]":
    lines = "".join(json.dumps({**CHANGE, **change}) + "\n" for change in changes)
    return subprocess.run([sys.executable, str(EXAMPLES / script), *words], input=lines, capture_output=True, text=True, check=False, timeout=60)


class Mails(unittest.TestCase):
    def mail(self, *changes: Dict[str, Any]) -> str:
        """The mail for changes."""
        heard: Dict[str, str] = {}

        class Server(socketserver.StreamRequestHandler):
            """As much of a mail server as one mail needs."""

            def handle(self) -> None:
                self.wfile.write(b"220 here\r\n")
                for line in self.rfile:
                    word = line[:4].upper()
                    if word == b"DATA":
                        self.wfile.write(b"354 go on\r\n")
                        heard["mail"] = "".join(text.decode() for text in iter(self.rfile.readline, b".\r\n"))
                    self.wfile.write(b"250 fine\r\n" if word != b"QUIT" else b"221 bye\r\n")
                    if word == b"QUIT":
                        return

        with socketserver.TCPServer(("127.0.0.1", 0), Server) as server:
            threading.Thread(target=server.handle_request, daemon=True).start()
            place = f"127.0.0.1:{server.server_address[1]}"
            sent = given("mail_change.py", "--server", place, "monitor@example.org", "oncall@example.org", changes=changes)
        self.assertEqual((sent.returncode, sent.stderr), (0, ""))
        return heard["mail"]

    def test_a_mail(self) -> None:
        mail = self.mail({})
        self.assertIn("Subject: web;http is CRITICAL\r\n", mail)
        self.assertIn("was OK, and is CRITICAL HARD 3.", mail)
        self.assertIn("no answer", mail)

    def test_a_mail_for_several(self) -> None:
        mail = self.mail({}, {"name": "db", "state": "DOWN", "output": "it is gone"})
        self.assertIn("Subject: web;http is CRITICAL, and 1 more\r\n", mail)
        self.assertIn("db was OK, and is DOWN HARD 3.", mail)
        self.assertIn("it is gone", mail)

    def test_no_server(self) -> None:
        refused = given("mail_change.py", "--server", "127.0.0.1:9", "a@example.org", "b@example.org")
        self.assertEqual((refused.returncode, refused.stderr.count("\n")), (1, 1))
