"""Sites larger than one scheduler: 1,000 hosts with 20 services each, behind one gateway and in a tree, taken over from Nagios's own files and run."""
import json
import resource
import subprocess
import sys
from typing import List, Tuple

from .networks import write_network
from .parted import CONVERTER, PartedSiteTest
from .simulated import BEGIN

HOSTS, SERVICES = 1_000, 20
# The network's gateway, and the outage, in which the gateway and all below it give no answer.
GATEWAY = "h00000"
DOWN, UP = BEGIN + 60_000, BEGIN + 150_000


class LargeSites(PartedSiteTest):
    def take_over(self, children: int) -> List[str]:
        """The folder of the site, made by the converter within its limits of time and memory."""
        names = write_network(self.folder, HOSTS, SERVICES, children)
        files = (self.folder, self.folder / "nagios.cfg", self.folder / "objects.precache")
        words = [sys.executable, str(CONVERTER / "from_nagios.py"), "--site", *map(str, files)]
        before = resource.getrusage(resource.RUSAGE_CHILDREN)
        subprocess.run(words, stderr=subprocess.DEVNULL, check=True)
        after = resource.getrusage(resource.RUSAGE_CHILDREN)
        # It takes 9 seconds, and on a machine whose host is busy up to half a minute.
        self.assertLess(after.ru_utime + after.ru_stime - before.ru_utime - before.ru_stime, 60)
        self.assertLess(after.ru_maxrss * 1024, 600_000_000)
        return names

    def outage(self, children: int) -> None:
        """An outage of the gateway: each result and each change is that of one scheduler."""
        names = self.take_over(children)
        mirrors = json.loads((self.folder / "mirrors.json").read_text())
        for path in self.folder.glob("part-*.json"):
            self.one.add(json.loads(path.read_text()), mirrors.get(path.stem, ()))
        self.assertEqual(sorted(self.one.objects), sorted(names))

        def plugin(name: str, moment: int) -> Tuple[int, int, str]:
            return (500, 2, "no answer") if DOWN <= moment < UP else (50, 0, "fine")

        monitor = self.start_monitor(plugin)
        monitor.between = 50
        monitor.run(470)
        self.assertGreater(self.assert_mirrors_answered_alike(), 10)
        # Services alone: the first OK of a service asks for its host, which was never checked.
        services = [moment for moment, job in monitor.runners.started if ";" in job.name and BEGIN + 5_000 <= moment < DOWN]
        self.assertAlmostEqual(len(services) / 55, HOSTS * SERVICES / 300, delta=2)
        self.assert_changes(change for _, change in monitor.changes)
        hosts = {name: told[0][0] for name, told in self.wanted.items() if ";" not in name}
        self.assertEqual((hosts[GATEWAY], len(hosts)), ("DOWN", HOSTS))
        self.assertEqual({told[-1][0] for told in self.wanted.values()}, {"UP", "OK"})

    def test_behind_one_gateway(self) -> None:
        self.outage(0)

    def test_in_a_tree(self) -> None:
        self.outage(10)
