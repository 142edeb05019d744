"""Answers to the jobs of a Gearman queue: those of workers, of the server, and of nobody who may give them."""
import json
from typing import Any, Dict, List

from nagsched_monitor.run.gearman import Code
from nagsched_monitor.run.gearman_signing import JOB, RESULT, Signer

from .one_queue import QueueTest


class Answers(QueueTest):
    def test_an_answer_that_is_no_result(self) -> None:
        several: List[Dict[str, Any]] = [{"job": "another"}, {"code": "0"}, {"code": True}, {"code": 256}, {"end": "fine"}, {"output": None}, {"stderr": 1},
                                         {"lost": 1, "end": 1}]
        for wrong in several:
            self.add()
            self.pass_by()
            self.server.answer(self.take(), **wrong)
            self.pass_by()
        self.assertEqual({(end, output.partition(":")[0]) for _, end, output in self.ends()}, {("lost", "its worker's answer was no result")})
        self.assertEqual(len(self.answers), len(several))

    def answer_with(self, data: bytes) -> None:
        job = self.take()
        job.client.send(Code.WORK_COMPLETE, job.handle, data)
        self.pass_by()

    def test_answers_that_are_not_signed(self) -> None:
        """Damaged answers aren't accepted either, nor are those with another key, or those of earlier jobs."""
        result = {"job": "mark-1", "code": 0, "end": "exited", "output": "forged"}
        good = self.server.signer.sign(RESULT, result)
        bad = [b"", b"[]", b"\xff", b"[" * 100_000, json.dumps(result).encode(), Signer(b"another key of the network").sign(RESULT, result),
               self.server.signer.sign(JOB, result),
               good[:-1], good.replace(b"forged", b"folded")]
        for data in bad:
            self.add()
            self.pass_by()
            self.answer_with(data)
        why = "its worker's answer was no result: it is too long, or isn't signed with this site's key"
        self.assertEqual({(end, words) for _, end, words in self.ends()}, {("lost", why)})
        self.add()
        self.pass_by()
        self.answer_with(good)
        self.assertEqual(self.ends()[-1], (len(bad) + 1, "lost", "its worker's answer was no result: it is of another job"))

    def test_a_site_without_signatures(self) -> None:
        self.server.signer = Signer(None)
        self.begin_queue()
        self.pass_by()
        self.add(2)
        self.pass_by()
        self.answer_with(b'{"job":"mark-1","code":1,"end":"exited","output":"fine","stderr":"words"}')
        self.answer_with(b"[" * 100_000)
        self.assertEqual(self.answers, [{"job": 1, "code": 1, "end": "exited", "output": "fine", "stderr": "words"},
                                        {"job": 2, "lost": "its worker's answer was no result: it names no job"}])

    def test_a_result_that_a_worker_lost(self) -> None:
        self.pass_by()
        self.add()
        self.pass_by()
        self.answer_with(self.server.signer.sign(RESULT, {"job": "mark-1", "lost": "no room"}))
        self.assertEqual(self.ends(), [(1, "lost", "no room")])

    def test_a_job_that_the_server_gives_up(self) -> None:
        self.add()
        self.pass_by()
        job = self.take()
        job.client.send(Code.WORK_FAIL, job.handle)
        self.pass_by()
        self.assertEqual(self.ends(), [(1, "lost", "its worker failed")])
