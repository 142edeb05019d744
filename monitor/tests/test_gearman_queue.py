"""A queue of a Gearman server: each job is answered once, or abandoned within its limit, for any behaviour of server and workers."""
import random
from typing import Dict, List

from nagsched_monitor.run.gearman import ECHO_EVERY, RETRY, Code
from nagsched_monitor.run.gearman_queue import GRACE

from .gearman_server import ServedJob
from .one_queue import LIMIT, WAIT, QueueTest


class OneQueue(QueueTest):
    def test_jobs_in_their_order(self) -> None:
        self.add(5)
        self.pass_by()
        for number in range(1, 6):
            job = self.take()
            self.assertEqual((job.workload["words"], job.workload["limit"]), (["plugin", str(number)], LIMIT))
            self.server.answer(job, output=str(number))
        self.pass_by()
        self.assertEqual(self.ends(), [(number, "exited", str(number)) for number in range(1, 6)])

    def test_an_answer_that_comes_twice(self) -> None:
        self.add()
        self.pass_by()
        job = self.take()
        self.server.answer(job)
        self.server.answer(job, code=2)
        self.pass_by()
        self.server.answer(job, code=2)
        self.pass_by()
        self.assertEqual([(it["job"], it["code"]) for it in self.answers], [(1, 0)])

    def test_packets_about_no_job(self) -> None:
        """Names and packets that nobody knows change nothing."""
        self.add()
        self.pass_by()
        job = self.take()
        for code, data in ((Code.WORK_COMPLETE, b"H:unknown\0x"), (Code.WORK_STATUS, b"H:unknown\0000\0001"), (Code.JOB_CREATED, b"H:more"), (99, b"?")):
            job.client.send(code, data)
        self.pass_by()
        self.assertEqual(self.answers, [])
        self.server.answer(job)
        self.pass_by()
        self.assertEqual(self.ends(), [(1, "exited", "fine")])

    def test_lines_that_are_no_jobs(self) -> None:
        several = [b"", b"[", b"[]", b"{}", b'{"job":"a","words":[],"limit":1}', b'{"job":1,"words":1,"limit":1}', b"[" * 100_000, b"\xff"]
        for line in several:
            self.queue.add_line(line)
        self.assertEqual(self.answers, [{"error": "the line is no job"}] * len(several))

    def test_a_server_that_is_restarted(self) -> None:
        """Unanswered jobs are submitted again, and an answer of the old server's worker isn't accepted for them."""
        self.add(2)
        self.pass_by()
        old = self.take()
        self.server.restart()
        self.pass_by()
        self.server.answer(old, output="old")
        self.pass_by(RETRY)
        for _ in range(2):
            self.server.answer(self.take(), output="new")
        self.pass_by()
        self.assertEqual(self.ends(), [(1, "exited", "new"), (2, "exited", "new")])
        self.assertEqual(self.lines, ["the server isn't reached: lost connection", "the server is reached again"])

    def test_a_server_that_isn_t_there(self) -> None:
        self.server.is_there = False
        self.add(2)
        for _ in range(int(WAIT) + 2):
            self.pass_by(1)
        self.assertEqual({end for _, end, _ in self.ends()}, {"lost"})
        self.assertIn("the server of the queue dmz wasn't reached", self.answers[0]["lost"])
        self.add()
        self.server.is_there = True
        self.pass_by(RETRY)
        self.server.answer(self.take())
        self.pass_by()
        self.assertEqual(self.ends()[2:], [(3, "exited", "fine")])

    def test_a_server_that_goes_while_a_worker_has_a_job(self) -> None:
        """The job waits for a worker again, and is abandoned when it has waited long enough in all."""
        self.add()
        self.pass_by()
        self.take()
        self.pass_by(WAIT)
        self.assertEqual(self.answers, [])
        self.server.restart()
        self.server.is_there = False
        self.pass_by()
        self.assertEqual(self.ends(), [(1, "lost", "the server of the queue dmz wasn't reached")])

    def test_a_server_that_gives_no_answer(self) -> None:
        """Another connection is tried; jobs of the first one aren't answered twice."""
        self.server.is_silent = True
        self.add()
        self.pass_by()
        self.pass_by(ECHO_EVERY)
        self.server.is_silent = False
        self.pass_by(RETRY)
        self.assertEqual(self.server.connections, 2)
        self.server.answer(self.take())
        self.pass_by()
        self.assertEqual(self.ends(), [(1, "exited", "fine")])

    def test_a_worker_that_dies(self) -> None:
        self.add()
        self.pass_by()
        self.server.lose_worker(self.take())
        self.pass_by(5)
        self.server.answer(self.take())
        self.pass_by()
        self.assertEqual(self.ends(), [(1, "exited", "fine")])

    def test_a_result_after_its_limit(self) -> None:
        """The job is abandoned by name; a later answer is dropped."""
        self.add()
        self.pass_by()
        job = self.take()
        self.pass_by(1)
        self.pass_by(LIMIT + GRACE)
        self.assertEqual(self.ends(), [(1, "lost", "its worker gave no result")])
        self.server.answer(job)
        self.pass_by()
        self.assertEqual(len(self.answers), 1)

    def test_a_worker_that_dies_late(self) -> None:
        """The limit is that of the job, for any number of workers that have it one after another."""
        self.add()
        self.pass_by()
        job = self.take()
        self.pass_by()
        self.pass_by(LIMIT)
        self.server.lose_worker(job)
        self.take()
        self.pass_by(GRACE)
        self.assertEqual(self.ends(), [(1, "lost", "its worker gave no result")])

    def test_nobody_takes_anything(self) -> None:
        """Waiting jobs are abandoned, and the server forgets them; later jobs still wait."""
        self.add(3)
        self.pass_by()
        self.pass_by(1)
        self.add()
        self.pass_by(WAIT - 1)
        self.assertEqual(self.ends(), [(number, "lost", "no worker took it from the queue dmz") for number in (1, 2, 3)])
        self.pass_by()
        self.assertEqual([job.workload["words"][1] for job in self.server.waiting], ["4"])
        self.server.answer(self.take())
        self.pass_by()
        self.assertEqual(self.ends()[3:], [(4, "exited", "fine")])
        self.assertEqual(self.lines, [])

    def test_workers_that_have_too_much_to_do(self) -> None:
        """While a worker works, a job that waits too long is abandoned alone."""
        self.add(2)
        self.pass_by()
        self.take()
        self.pass_by(1)
        self.pass_by(WAIT)
        self.add()
        self.pass_by()
        self.assertEqual(self.ends(), [(2, "lost", "no worker took it from the queue dmz")])
        self.assertEqual([job.workload["words"][1] for job in self.server.waiting], ["2", "3"])

    def test_random_mishaps(self) -> None:
        """Servers and workers that end at any time: each job has one answer, within its limit and that of waiting."""
        chance = random.Random(11)
        begun: Dict[int, float] = {}
        ended: Dict[int, List[float]] = {}
        running: List[ServedJob] = []
        for _ in range(20_000):
            before = len(self.answers)
            for _ in range(chance.choice((0, 0, 1, 2))):
                self.add()
                begun[self.last] = self.now
            what = chance.random()
            if what < 0.003:
                self.server.restart()
            elif what < 0.005:
                self.server.is_there = False
            elif what < 0.006:
                self.server.is_silent = True
            elif what > 0.95:
                self.server.is_there, self.server.is_silent = True, False
            while running and chance.random() < 0.6:
                job = running.pop(chance.randrange(len(running)))
                if chance.random() < 0.2:
                    self.server.lose_worker(job)
                elif chance.random() < 0.95:
                    self.server.answer(job)
                    if chance.random() < 0.1:
                        self.server.answer(job)
            while len(running) < 10 and chance.random() < 0.7:
                taken = self.server.take()
                if taken is None:
                    break
                running.append(taken)
            self.pass_by(chance.choice((0.01, 0.1, 1.0)))
            for answer in self.answers[before:]:
                ended.setdefault(answer["job"], []).append(self.now)
        self.server.is_there = False
        for _ in range(200):
            before = len(self.answers)
            self.pass_by(1)
            for answer in self.answers[before:]:
                ended.setdefault(answer["job"], []).append(self.now)
        self.assertGreater(len(begun), 10_000)
        self.assertEqual({number: len(times) for number, times in ended.items()}, {number: 1 for number in begun})
        self.assertLessEqual(max(ended[number][0] - begun[number] for number in begun), WAIT + LIMIT + GRACE + 2)
        self.assertGreater(sum(answer.get("code") == 0 for answer in self.answers), 1000)
