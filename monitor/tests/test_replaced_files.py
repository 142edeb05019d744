"""The converter over the files of a site: they are replaced together, and keep their owners. A reader sees the files of one time."""
import fcntl
import os
import subprocess
import sys
import threading
import unittest
from typing import List
from unittest import mock

from nagsched_monitor.faults import SiteFault
from nagsched_monitor.site import json_files
from nagsched_monitor.site.json_files import lock_for_reading

from .converting import SCRIPT, Converting
from .waiting import LONG


class ReplacedFiles(Converting):
    def test_files_that_it_does_not_know_stay(self) -> None:
        self.take(self.small())
        (self.site / "runners.json").write_text("{}")
        (self.site / "mirrors.json").write_text("{}")
        (self.site / "part-1.json").write_text("{}")
        self.take(self.small(2))
        self.assertEqual(sorted(path.name for path in self.site.iterdir()),
                         ["alertmanager.yml", "commands.json", "directory.json", "groups.json", "inventory.json", "monitor.json", "passive.json", "periods.json",
                          "runners.json", "setup.json"])
        self.assertEqual([(self.site / f"{name}.json").stat().st_mode & 0o777 for name in ("commands", "inventory", "groups")], [0o600, 0o600, 0o644])

    @unittest.skipIf(os.geteuid() != 0, "only root can give files to others")
    def test_owners(self) -> None:
        """A file keeps its owner and group; a new one has those of the folder. Another user than the folder's can't write there."""
        self.take(self.small())
        os.chown(self.site, 1234, 1235)
        os.chown(self.site / "setup.json", 1236, 1237)
        (self.site / "groups.json").unlink()
        self.take(self.small(2))
        owners = {name: ((self.site / name).stat().st_uid, (self.site / name).stat().st_gid) for name in ("setup.json", "groups.json", "commands.json")}
        self.assertEqual(owners, {"setup.json": (1236, 1237), "groups.json": (1234, 1235), "commands.json": (0, 0)})
        as_another = ("import os, runpy, sys; os.geteuid = lambda: 1238; del sys.argv[0]; sys.path[0] = os.path.dirname(sys.argv[0]); "
                      "runpy.run_path(sys.argv[0], {}, '__main__')")
        words = [str(SCRIPT), "--site", str(self.site), str(self.folder / "nagios.cfg"), str(self.folder / "objects")]
        ran = subprocess.run([sys.executable, "-c", as_another, *words], capture_output=True, text=True, timeout=LONG, check=False)
        self.assertEqual(ran.returncode, 1)
        self.assertRegex(ran.stderr, f"^from_nagios: {self.site} belongs to the user 1236, who .*: run this as that user or root$")
        self.assertEqual(list(self.site.glob("*.new")), [])

    def test_a_reader_sees_all_files_of_one_time(self) -> None:
        """The holder of the folder's lock finds commands of exactly the existing hosts."""
        self.take(self.small(1))
        is_over = threading.Event()
        seen: List[int] = []
        different: List[int] = []

        def read() -> None:
            while not is_over.is_set():
                with lock_for_reading(self.site):
                    hosts = sorted(host["name"] for host in self.read("setup")["hosts"])
                    (seen if hosts == sorted(self.read("commands")) else different).append(len(hosts))

        reader = threading.Thread(target=read)
        reader.start()
        try:
            for count in (2, 3, 300, 4, 5):
                self.take(self.small(count))
        finally:
            is_over.set()
            reader.join(LONG)
        self.assertEqual(different, [])
        self.assertEqual(seen, sorted(seen, key=[1, 2, 3, 300, 4, 5].index))
        self.assertGreater(len(set(seen)), 2)

    def test_files_that_are_replaced_for_too_long(self) -> None:
        self.site.mkdir()
        lock = os.open(self.site, os.O_RDONLY)
        self.addCleanup(os.close, lock)
        fcntl.flock(lock, fcntl.LOCK_EX)
        with mock.patch.object(json_files, "PATIENCE", 0.1), self.assertRaises(SiteFault):
            with lock_for_reading(self.site):
                pass
        with self.assertRaises(SiteFault), lock_for_reading(self.folder / "none"):
            pass
