"""The protocol of a Gearman server: packets in both directions, in pieces of any size, and servers that don't speak it. No gearmand is needed."""
import socket
import unittest
from functools import partial
from typing import List, Optional

from nagsched_monitor.run.gearman import HEADER, LONGEST_PACKET, REQUEST, RESPONSE, Code, Packet, Server, connect
from nagsched_monitor.system.poller import FilePoller

from .gearman_server import response
from .waiting import becomes_true


class Protocol(unittest.TestCase):
    def setUp(self) -> None:
        self.listening = socket.create_server(("127.0.0.1", 0))
        self.addCleanup(self.listening.close)
        self.place = self.listening.getsockname()
        self.lines: List[str] = []
        self.begin_server()

    def begin_server(self) -> None:
        self.server = Server(partial(connect, self.place), FilePoller(), self.lines.append)
        self.addCleanup(self.server.disconnect)

    def accepted(self) -> socket.socket:
        """The other end of the connection, after its first packet."""
        self.assertEqual(list(self.server.turn()), [(Code.CONNECTED, [])])
        there, _ = self.listening.accept()
        there.settimeout(30)
        self.addCleanup(there.close)
        return there

    def packets(self, count: int) -> List[Packet]:
        came: List[Packet] = []

        def is_there() -> bool:
            came.extend(self.server.turn())
            return len(came) >= count

        self.assertTrue(becomes_true(is_there))
        return came

    def test_packets_that_are_sent(self) -> None:
        there = self.accepted()
        for number in (7, 8):
            self.server.send(Code.SUBMIT_JOB, b"dmz", b"", b"job %d\0more" % number)
        self.server.send(Code.PRE_SLEEP)
        wanted = b"".join(HEADER.pack(REQUEST, code, len(body)) + body for code, body in (
            (Code.ECHO_REQ, b"?"), (Code.SUBMIT_JOB, b"dmz\0\0job 7\0more"), (Code.SUBMIT_JOB, b"dmz\0\0job 8\0more"), (Code.PRE_SLEEP, b"")))
        sent = b""

        def is_sent() -> bool:
            nonlocal sent
            list(self.server.turn())
            sent += there.recv(1 << 20)
            return len(sent) >= len(wanted)

        self.assertTrue(becomes_true(is_sent))
        self.assertEqual(sent, wanted)

    def test_packets_in_pieces(self) -> None:
        """Those that come at once, and byte by byte. Data may have zero bytes, and codes may be unknown."""
        there = self.accepted()
        said = [(Code.JOB_CREATED, [b"H:1"]), (Code.WORK_STATUS, [b"H:1", b"0", b"1"]), (Code.WORK_COMPLETE, [b"H:1", b"a\0b\0c"]), (Code.WORK_FAIL, [b"H:2"]),
                (99, [b"what is this?"]), (Code.NOOP, [b""]), (Code.JOB_ASSIGN, [b"H:3", b"dmz", b"\0"]), (Code.WORK_COMPLETE, [b"H:4", b""])]
        sent = b"".join(response(code, *parts) for code, parts in said)
        there.sendall(sent)
        self.assertEqual(self.packets(len(said)), said)
        came: List[Packet] = []
        for byte in sent:
            there.sendall(bytes([byte]))
            came += self.server.turn()
        came += self.packets(len(said) - len(came))
        self.assertEqual(came, said)

    def test_more_than_the_connection_takes_at_once(self) -> None:
        there = self.accepted()
        list(self.server.turn())
        for _ in range(5_000):
            self.server.send(Code.SUBMIT_JOB, b"dmz", b"", b"x" * 1_000)
        got = 0
        there.settimeout(0.01)

        def is_sent() -> bool:
            nonlocal got
            list(self.server.turn())
            try:
                got += len(there.recv(1 << 20))
            except socket.timeout:
                pass
            return got == HEADER.size + 1 + 5_000 * (HEADER.size + 1_005)

        self.assertTrue(becomes_true(is_sent))

    def lost(self, said: Optional[bytes]) -> str:
        """What the log says when a server says this, or isn't there."""
        self.lines.clear()
        self.begin_server()
        if said is not None:
            there = self.accepted()
            there.sendall(said)
            there.shutdown(socket.SHUT_WR)
        self.assertTrue(becomes_true(lambda: list(self.server.turn()) is not None and bool(self.lines)))
        self.assertIsNone(self.server.connection)
        return self.lines[0]

    def test_what_is_no_server(self) -> None:
        """The connection is lost, with a reason; nothing waits."""
        for said, why in (
            (b"HTTP/1.0 400 Bad Request\r\n\r\n", "it isn't a Gearman server"), (HEADER.pack(REQUEST, Code.NOOP, 0), "it isn't a Gearman server"),
            (HEADER.pack(RESPONSE, Code.NOOP, LONGEST_PACKET + 1), "it isn't a Gearman server"), (response(Code.ERROR, b"queue", b"is full"), "queue is full"),
            (response(Code.JOB_ASSIGN, b"H:1"), "H:1"), (b"", "lost connection"),
        ):
            with self.subTest(why):
                self.assertEqual(self.lost(said), f"the server isn't reached: {why}")
        self.listening.close()
        with self.subTest("nobody listens"):
            self.assertIn("Connection refused", self.lost(None))
