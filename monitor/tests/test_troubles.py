"""Errors of the machine as messages: each says what to do, and no number of an error is shown."""
import errno
import os
import pathlib
import subprocess
import sys
import tempfile
import unittest
from unittest import mock

from nagsched_monitor.faults import ADVICE, MonitorFault, trouble_text
from nagsched_monitor.system.programs import FOLDER


class Troubles(unittest.TestCase):
    def test_each_error_has_advice(self) -> None:
        for number in ADVICE:
            text = trouble_text(OSError(number, os.strerror(number), "/some/file"))
            self.assertRegex(text, rf"^{os.strerror(number)}: [a-z]")
            self.assertNotIn("Errno", text)

    def test_other_errors(self) -> None:
        self.assertEqual(trouble_text(OSError(errno.EXDEV, "Invalid cross-device link")), "Invalid cross-device link")
        self.assertEqual(trouble_text(OSError("the server has ended")), "the server has ended")
        self.assertEqual(trouble_text(MonitorFault("there is no zone")), "there is no zone")
        self.assertEqual(trouble_text(ConnectionError()), "ConnectionError")

    def test_a_file_of_another_user(self) -> None:
        """The command of its owner. For another path, and for a helper, which has no command, it is what the user lacks."""
        error = PermissionError(errno.EACCES, "Permission denied")
        with tempfile.TemporaryDirectory() as folder, mock.patch("os.geteuid", return_value=12345):
            self.assertRegex(trouble_text(error, pathlib.Path(folder, "monitor.db")), "^Permission denied: you are #12345, and it belongs to .*; try: sudo -u ")
            self.assertEqual(trouble_text(error), "Permission denied: give the user #12345 the right to it")
            with mock.patch.object(sys, "argv", ["-c"]):
                self.assertEqual(trouble_text(error, pathlib.Path(folder, "monitor.db")), trouble_text(error))

    def test_no_message_has_the_number_of_an_error(self) -> None:
        """In the modules that take errors of the machine, each is passed through this function."""
        found = subprocess.run(["grep", "-rnE", "--include=*.py", r"strerror|OSError as (\w+):.*\{\1\}", FOLDER / "nagsched_monitor"], capture_output=True, text=True)
        self.assertEqual({line.split(":")[0] for line in found.stdout.splitlines()}, {str(FOLDER / "nagsched_monitor/faults.py")})
