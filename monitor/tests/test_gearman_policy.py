"""Which jobs a worker accepts: signed jobs of its queues, in their time, and each once. No server is needed."""
import json
import os
import random
import time
from typing import Any, Callable, List, Optional

from nagsched_monitor.model.jobs import Event, Job, JobFinished
from nagsched_monitor.run.gearman_signing import JOB, RESULT, SKEW, JobPolicy, Refusal, Signer
from nagsched_monitor.run.gearman_worker import LOG_REFUSALS_EVERY

from .one_worker import WorkerTest

KEY = b"a key of a test: 16 bytes or more"
# The number of damaged, forged and replayed jobs. Manually: FORGED=100000 python3 -m unittest tests.test_gearman_policy
FORGED = int(os.environ.get("FORGED", "4000"))


class Ran:
    """A runner that starts nothing: each job ends at once."""

    def __init__(self, run: Callable[[List[str]], None]) -> None:
        self._run, self._events = run, list[Event]()
        self.processes: List[Any] = []

    def start(self, job: Job) -> None:
        self._run(list(job.arguments))
        self._events.append(JobFinished(job, "exited", 0, ""))

    def flush(self) -> None:
        pass

    def events(self) -> List[Event]:
        events, self._events = self._events, []
        return events


class Signed(WorkerTest):
    """A worker that has a key."""

    signer = Signer(KEY)

    def refused(self, *jobs: bytes) -> List[Optional[str]]:
        """Why each of these is refused; None if it was run."""
        ran: List[List[str]] = []
        told: List[Optional[str]] = []
        self.start_worker(1, runner=Ran(ran.append))
        for job in jobs:
            self.jobs.append(job)
            count = len(self.answers) + 1
            self.assertTrue(self.turns_until(lambda: len(self.answers) == count))
            told.append(json.loads(self.answers[-1].partition(b" ")[2]).get("lost", ": ").partition(": ")[2] or None)
        self.assertEqual(len(ran), told.count(None))
        return told

    def signed(self, **members: Any) -> bytes:
        return self.signer.sign(JOB, self.document(["true"], **{"time": self.now, "until": self.now + 30, **members}))

    def setUp(self) -> None:
        super().setUp()
        self.now = time.time()

    def test_signatures(self) -> None:
        document, bare = self.document(["true"], time=self.now, until=self.now + 30), "it is too long, or isn't signed with this site's key"
        whole = self.signer.sign(JOB, document)
        body = whole.partition(b" ")[2]
        several = [body, Signer(b"another key of 16 bytes").sign(JOB, document), self.signer.sign(RESULT, document), whole[:-1], whole + b" ",
                   b"0" * 64 + b" " + body, whole[1:],
                   whole[:64], whole.replace(b"true", b"fals"), whole.upper(), b"", b" ", whole[:64] + b"\t" + body[:-1]]
        self.assertEqual(self.refused(*several, whole, whole), [bare] * len(several) + [None, "it was taken before"])

    def test_a_job_comes_twice(self) -> None:
        self.assertEqual(self.refused(self.signed(job="one"), self.signed(job="one"), self.signed(job="other"), self.signed(job="other", words=["false"])),
                         [None, "it was taken before", None, "it was taken before"])

    def test_queues(self) -> None:
        self.assertEqual(self.refused(self.signed(queue="lan"), self.signed(queue="paris", job="2"), self.signed(queue=None, job="3")),
                         [None, "it is of another queue", "it is of another queue"])

    def test_times(self) -> None:
        """It holds until its end; the clocks may be a minute apart."""
        policy = JobPolicy(self.signer, ["dmz"], lambda: self.now)

        def is_taken(**members: Any) -> bool:
            document = self.document(["true"], **{"job": str(random.random()), "time": self.now, "until": self.now + 30, **members})
            try:
                policy.job_of(document)
            except Refusal:
                return False
            return True

        self.assertTrue(is_taken())
        self.assertTrue(is_taken(time=self.now + SKEW, until=self.now + SKEW))
        self.assertFalse(is_taken(time=self.now + SKEW + 1, until=self.now + SKEW + 9))
        self.assertTrue(is_taken(time=self.now - 400, until=self.now - SKEW))
        self.assertFalse(is_taken(time=self.now - 400, until=self.now - SKEW - 1))
        self.assertFalse(is_taken(until=self.now - 1))
        self.assertFalse(is_taken(until=self.now + 100_000))
        for member in ("time", "until"):
            several: List[Any] = [None, "1", True, [], float("nan"), float("inf"), 10**400, -(10**400)]
            for value in several:
                self.assertFalse(is_taken(**{member: value}))

    def test_numbers(self) -> None:
        numbers: List[Any] = [None, 1, ["a"], {}]
        self.assertEqual(self.refused(*(self.signed(job=number) for number in numbers)), ["it names no job"] * len(numbers))

    def test_what_it_remembers(self) -> None:
        """A job is remembered as long as it would be accepted, and no longer."""
        policy = JobPolicy(self.signer, ["dmz"], lambda: self.now)
        for number in range(100):
            policy.job_of(self.document(["true"], job=str(number), time=self.now, until=self.now + 30))
        self.now += 30 + SKEW
        self.assertRaises(Exception, policy.job_of, self.document(["true"], job="99", time=self.now - 30 - SKEW, until=self.now - SKEW))
        self.now += SKEW + 1
        policy.job_of(self.document(["true"], job="last", time=self.now, until=self.now))
        self.assertEqual(len(policy._accepted), 1)

    def test_forged_damaged_and_replayed_jobs(self) -> None:
        """None of them is run or ends the worker, and in the end a good job is run. Some jobs between them are signed, and are run once each."""
        chance = random.Random(3)
        good: List[bytes] = []
        ran: List[List[str]] = []

        def forged() -> bytes:
            how, whole = chance.randrange(8), bytearray(chance.choice(good))
            if how == 0:
                return bytes(whole)  # again
            if how == 1:
                whole[chance.randrange(len(whole))] ^= 1 << chance.randrange(8)
            elif how == 2:
                del whole[chance.randrange(len(whole)) :]
            elif how == 3:
                return Signer(b"not the key of the site").sign(JOB, self.document(["forged"]))
            elif how == 4:
                return Signer(None).sign(JOB, self.document(["forged"]))
            elif how == 5:
                return chance.choice((b"[", b'{"a":', b"\xff", b"0")) * chance.choice((1, 1000, 100_000))
            elif how == 6:
                return self.signer.sign(RESULT, self.document(["forged"]))
            else:
                return self.signer.sign(JOB, self.document(["forged"], time=time.time() - 9_000, until=time.time() - 8_000))
            return bytes(whole)

        begun = time.monotonic()
        self.start_worker(8, runner=Ran(ran.append))
        good += [self.signer.sign(JOB, self.document(["run", str(number)])) for number in range(20)]
        self.jobs += good
        self.assertTrue(self.turns_until(lambda: len(ran) == len(good)))
        for number in range(0, FORGED, 500):
            self.jobs += [forged() for _ in range(500)]
            self.assertTrue(self.turns_until(lambda: not self.jobs))
        self.job(["run", "last"])
        self.assertTrue(self.turns_until(lambda: ["run", "last"] in ran and len(self.answers) == len(good) + FORGED + 1))
        self.assertEqual(sorted(ran), sorted([["run", str(number)] for number in range(20)] + [["run", "last"]]))
        said = [line for line in self.lines if "jobs were refused" in line]
        self.assertLessEqual(1, len(said))
        self.assertLessEqual(len(said), 1 + (time.monotonic() - begun) / LOG_REFUSALS_EVERY)
