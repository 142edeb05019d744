"""The site of examples/: it shows every state within two minutes, and leaves the checkout clean."""
import pathlib
import shutil
import subprocess
from typing import Set

from .running import ProcessTest
from .waiting import becomes_true

SITE = pathlib.Path(__file__).resolve().parents[1] / "examples/site"
STATES = {"OK", "WARNING", "CRITICAL", "UNKNOWN", "UP", "DOWN", "UNREACHABLE", "SOFT", "HARD", "FLAPPING", "PENDING"}
# Within this time, in seconds, each state has been there.
PROMISE = 120.0


class ExampleSite(ProcessTest):
    def copy_site(self) -> None:
        for file in (*SITE.glob("*.json"), SITE / ".gitignore"):
            shutil.copy(file, self.folder)

    def test_every_state(self) -> None:
        """Each state is seen in time, and a result is accepted for the passive service, which is PENDING until then."""
        self.copy_site()
        self.start_monitor()
        seen: Set[str] = set()

        def has_all() -> bool:
            seen.update(word for line in self.states() for word in line.partition(":")[0].split())
            return STATES <= seen

        becomes_true(has_all, PROMISE)
        self.assertEqual(STATES - seen, set())
        self.assertEqual(self.run_command("result", "lab;passive", "1", "by the test").returncode, 0)
        self.assertTrue(becomes_true(lambda: "WARNING HARD 1 off lab;passive: by the test" in self.states()))

    def test_clean_checkout(self) -> None:
        """git ignores all that a monitor leaves in the folder."""
        self.copy_site()
        subprocess.run(["git", "init", "-q", str(self.folder)], check=True)
        subprocess.run(["git", "-C", str(self.folder), "add", "."], check=True)
        self.stop_monitor(self.start_monitor())
        untracked = ["git", "-C", str(self.folder), "ls-files", "--others", "--exclude-standard"]
        self.assertEqual(subprocess.run(untracked, stdout=subprocess.PIPE, text=True, check=True).stdout, "")
        self.assertNotEqual([file.name for file in self.folder.iterdir() if file.suffix != ".json"], [".gitignore"])
