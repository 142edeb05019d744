"""The record of how the program was built, as the log has it."""
import hashlib
import pathlib
import tempfile
import unittest

from nagsched_monitor.program.monitor import build_line

RECORD = "version: 1.2.3\ncommit: 0123456789ab\nkit: a kit\nproofs: not proved\nsha256: {}\n"


class BuildRecord(unittest.TestCase):
    def setUp(self) -> None:
        folder = tempfile.TemporaryDirectory()
        self.addCleanup(folder.cleanup)
        self.prefix = pathlib.Path(folder.name).resolve()
        self.program = self.prefix / "bin/nagsched"
        self.program.parent.mkdir()
        self.program.write_bytes(b"a program")
        self.record = RECORD.format(hashlib.sha256(b"a program").hexdigest())
        self.line = f"{self.program} is version 1.2.3, commit 0123456789ab, a kit, not proved"

    def test_beside_the_program(self) -> None:
        self.program.with_name("nagsched.build").write_text(self.record)
        self.assertEqual(build_line(str(self.program)), self.line)

    def test_installed(self) -> None:
        (self.prefix / "share/nagsched").mkdir(parents=True)
        (self.prefix / "share/nagsched/nagsched.build").write_text(self.record)
        self.assertEqual(build_line(str(self.program)), self.line)

    def test_none_or_another_program_s(self) -> None:
        unknown = f"{self.program}: no record says how it was built"
        self.assertEqual(build_line(str(self.program)), unknown)
        for text in (RECORD.format("0" * 64), "no record\n", ""):
            self.program.with_name("nagsched.build").write_text(text)
            self.assertEqual(build_line(str(self.program)), unknown)


if __name__ == "__main__":
    unittest.main()
