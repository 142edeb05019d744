"""One fault at one moment of a site with all kinds of events: each write refused, each write the last one, each exchange with a scheduler that ends,
each start of one refused. The gate tries some moments of each kind, and FAULTS=all tries all of them."""
import os
import pathlib
import tempfile
import unittest
from typing import Dict, List

from .faults import FaultRun

# The number of moments of each kind that the gate tries.
TRIED = int(os.environ.get("FAULTS_TRIED", "8"))


def run(**fault: int) -> FaultRun:
    """All events with this fault, and the facts that hold then."""
    with tempfile.TemporaryDirectory() as folder:
        faulty = FaultRun(pathlib.Path(folder), **fault)
        try:
            faulty.run()
            faulty.wrong = faulty.judge()
        finally:
            faulty.monitor.close()
    return faulty


class OneFault(unittest.TestCase):
    counts: Dict[str, int] = {}

    def count(self, kind: str) -> int:
        """The number of moments of a kind without a fault."""
        if not self.counts:
            faulty = run()
            self.assertEqual(faulty.wrong, [])
            self.assertGreater(len(faulty.documents), 4)
            OneFault.counts = {"refused": faulty.writes, "last": faulty.writes, "ends": faulty.exchanges, "start": run(start=-1).starts}
        return self.counts[kind]

    def tried(self, kind: str) -> None:
        count = self.count(kind)
        step = 1 if os.environ.get("FAULTS") == "all" else max(1, count // TRIED)
        wrong: List[str] = []
        for moment in range(1 + step // 2, count + 1, step):
            faulty = run(**{kind: moment})
            if faulty.wrong:
                wrong.append(f"{kind} {moment} of {count}: {faulty.wrong[:4]}; log: {faulty.lines[-6:]}")
        self.assertEqual(wrong, [])

    def test_each_write_refused(self) -> None:
        self.tried("refused")

    def test_each_write_the_last_one(self) -> None:
        self.tried("last")

    def test_each_exchange_with_a_scheduler_that_ends(self) -> None:
        self.tried("ends")

    def test_each_start_of_a_scheduler_refused(self) -> None:
        self.tried("start")
