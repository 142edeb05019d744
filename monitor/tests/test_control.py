"""The socket of a monitor: lines in both directions, and no client that holds up another one."""
import contextlib
import json
import socket
import threading
from typing import List
from unittest import mock

from nagsched_monitor.inputs import client, control

from nagsched_monitor.core.requests import Request
from nagsched_monitor.faults import MonitorFault
from nagsched_monitor.system.poller import FilePoller, keep_trying

from .simulated import SiteTest
from .waiting import becomes_true


class Socket(SiteTest):
    """The socket alone: each request is answered in the turn in which it came, with its line and this many letters."""

    def serving(self, letters: int = 0) -> control.ControlSocket:
        self.poller = FilePoller()
        self.heard: List[bytes] = []

        def asked(request: Request) -> None:
            self.heard.append(request.line)
            request.reply({"heard": request.line.decode() + letters * "x"})

        made = control.ControlSocket(self.folder, asked, self.poller)
        self.addCleanup(made.close)
        return made

    def answer(self, line: str, letters: int = 0) -> bytes:
        return json.dumps({"heard": line + letters * "x"}).encode() + b"\n"

    def asking(self) -> socket.socket:
        connection = socket.socket(socket.AF_UNIX, socket.SOCK_STREAM)
        self.addCleanup(connection.close)
        connection.connect(client.short_path(self.folder / client.NAME))
        return connection

    def turn(self, made: control.ControlSocket) -> bool:
        """One turn of the loop around it, which reads what can be read. Returns whether more lines wait."""
        self.poller.wait(0)
        return made.work() == 0

    def await_clients(self, made: control.ControlSocket, count: int) -> None:
        self.assertTrue(becomes_true(lambda: not self.turn(made) and len(made._clients) == count))

    def test_lines_there_and_back(self) -> None:
        made = self.serving()
        self.assertEqual((self.folder / client.NAME).stat().st_mode & 0o777, 0o600)
        answers: List[bytes] = []
        asking = threading.Thread(target=lambda: answers.extend([client.send_request(self.folder, b"one"), client.send_request(self.folder, b"two")]))
        asking.start()
        self.assertTrue(becomes_true(lambda: self.turn(made) or not asking.is_alive()))
        self.assertEqual(answers, [self.answer("one"), self.answer("two")])

    def test_one_that_asks_much_leaves_room_for_others(self) -> None:
        """A limited number of each client's lines is passed on in one turn. The others wait, and nothing is lost."""
        made = self.serving()
        greedy, other = self.asking(), self.asking()
        greedy.sendall(b"".join(b"%d\n" % number for number in range(1_000)))
        self.turn(made)
        self.turn(made)
        other.sendall(b"other\n")
        self.turn(made)
        self.assertLess(self.heard.index(b"other"), 4 * control.LINES_IN_TURN)
        self.assertTrue(becomes_true(lambda: not self.turn(made) and len(self.heard) == 1_001))
        self.assertEqual([line for line in self.heard if line != b"other"], [b"%d" % number for number in range(1_000)])

    def test_one_that_reads_slowly_holds_up_nobody(self) -> None:
        made, size = self.serving(1_000_000), len(self.answer("one", 1_000_000))
        slow = self.asking()
        slow.sendall(b"one\n")
        self.assertTrue(becomes_true(lambda: self.turn(made) or self.heard == [b"one"]))
        other = self.asking()
        other.settimeout(30)
        other.sendall(b"two\n")
        got: List[bytes] = []
        other.setblocking(False)

        def is_answered() -> bool:
            self.turn(made)
            with contextlib.suppress(BlockingIOError):
                got.append(other.recv(1 << 20))
            return sum(map(len, got)) == size

        self.assertTrue(becomes_true(is_answered))
        slow.settimeout(30)
        read = 0

        def is_read() -> bool:
            nonlocal read
            self.turn(made)
            read += len(slow.recv(1 << 20))
            return read == size

        self.assertTrue(becomes_true(is_read))
        self.assertIsNone(made.work())

    def test_an_answer_of_any_length(self) -> None:
        """It comes whole. A client that leaves more than the limit unread is dropped with its next answer."""
        made = self.serving(3 * control.UNREAD_BYTES)
        answers: List[bytes] = []
        asking = threading.Thread(target=lambda: answers.append(client.send_request(self.folder, b"one")))
        asking.start()
        self.assertTrue(becomes_true(lambda: self.turn(made) or not asking.is_alive()))
        self.assertEqual(answers, [self.answer("one", 3 * control.UNREAD_BYTES)])
        self.await_clients(made, 0)
        silent = self.asking()
        silent.sendall(b"two\n")
        self.await_clients(made, 1)
        silent.sendall(b"three\n")
        self.await_clients(made, 0)

    def test_one_that_ends_before_its_requests_are_obeyed(self) -> None:
        made = self.serving()
        with self.asking() as gone:
            gone.sendall(b"".join(b"%d\n" % number for number in range(200)))
        self.await_clients(made, 0)
        self.assertEqual(self.heard, [b"%d" % number for number in range(200)])

    def test_more_clients_than_there_may_be(self) -> None:
        made = self.serving()
        with mock.patch.object(control, "MOST_CLIENTS", 1):
            first, second = self.asking(), self.asking()
            self.await_clients(made, 1)
            second.sendall(b"two\n")
            for _ in range(5):
                self.turn(made)
            self.assertEqual(self.heard, [])
            first.sendall(b"one\n")
            self.assertTrue(becomes_true(lambda: self.turn(made) or self.heard == [b"one", b"two"]))

    def test_many_at_once(self) -> None:
        """All connections of a burst are accepted together; a client that finds too many before it tries again."""
        made = self.serving()
        clients = [self.asking() for _ in range(100)]
        self.turn(made)
        self.assertEqual(len(made._clients), 100)
        for each in clients:
            each.close()
        again = self.asking()
        with mock.patch.object(socket.socket, "connect", side_effect=[BlockingIOError(11, "again"), BlockingIOError(11, "again"), None]) as tried:
            keep_trying(lambda: again.connect("x"), 30)
        self.assertEqual(tried.call_count, 3)

    def test_one_that_says_nothing_is_forgotten(self) -> None:
        made = self.serving()
        there = self.asking()
        there.settimeout(30)
        self.await_clients(made, 1)
        with mock.patch.object(control, "IDLE", -1.0):
            self.turn(made)
        self.assertEqual((made._clients, there.recv(1)), ([], b""))

    def test_a_line_that_is_too_long(self) -> None:
        made = self.serving()
        there = self.asking()
        there.settimeout(30)
        sending = threading.Thread(target=lambda: there.sendall(b"x" * (control.LONGEST_LINE + control.READ_BYTES)), daemon=True)
        sending.start()
        self.await_clients(made, 1)
        self.await_clients(made, 0)
        self.assertEqual(self.heard, [])

    def test_no_room_for_a_connection(self) -> None:
        """It waits until there is."""
        made = self.serving()
        there = self.asking()
        there.sendall(b"one\n")
        with mock.patch.object(socket.socket, "accept", side_effect=OSError(24, "too many files")):
            self.assertTrue(self.poller.wait(1_000))
        self.assertEqual(made._clients, [])
        self.assertTrue(becomes_true(lambda: self.turn(made) or self.heard == [b"one"]))
        self.assertEqual(there.recv(100), self.answer("one"))

    def test_no_monitor(self) -> None:
        with self.assertRaisesRegex(MonitorFault, "no monitor runs on"):
            client.send_request(self.folder, b"{}")
