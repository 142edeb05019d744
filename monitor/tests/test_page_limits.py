"""Refusals of the page's server: other paths and methods, requests that are too long, clients that send nothing, a database that can't be read."""
import contextlib
import pathlib
import socket
import sqlite3
import time

from nagsched_monitor.outputs import page
from nagsched_monitor.system.thread_server import MOST_CLIENTS

from .shown_site import PageTest, fill_database, standing
from .waiting import becomes_true, exchange


class Refused(PageTest):
    def raw(self, sent: bytes, is_all: bool = True) -> bytes:
        with socket.create_connection(("127.0.0.1", self.port), timeout=20) as connection:
            return exchange(connection, sent, is_all)

    def test_paths_and_methods(self) -> None:
        fill_database(self.folder, [standing("h")])
        self.serve()
        queries = ("", "name=", "name=g", "name=h&name=h", "a=b&" * 200)
        for path in ("/x", "/../monitor.db", "/monitor.db", "/index.html", "*", "/object", *(f"/object?{query}" for query in queries)):
            self.assertEqual(self.request(path)[0::2], (404, "404 Not Found\n"), path)
        for method in ("POST", "PUT", "DELETE", "OPTIONS", "TRACE", "CONNECT", "BREW"):
            status, headers, _ = self.request("/", method)
            self.assertEqual((status, headers["allow"]), (405, "GET, HEAD"), method)
        for path in ("/", "/status.json", "/metrics", "/object?name=h"):
            status, headers, text = self.request(path, "HEAD")
            self.assertEqual((status, text), (200, ""))
            self.assertGreater(int(headers["content-length"]), 100)

    def test_limits(self) -> None:
        """Lines and headers that are too long, too many of them, and texts that are no request."""
        fill_database(self.folder, [standing("h")])
        self.serve()
        self.assertIn(b" 404 ", self.raw(b"GET /" + b"a" * 60_000 + b" HTTP/1.1\r\n\r\n"))
        for long, code in ((b"GET /" + b"a" * 70_000, b"414"), (b"GET / HTTP/1.1\r\nx: " + b"a" * 70_000, b"431"),
                           (b"GET / HTTP/1.1\r\n" + b"x: y\r\n" * 101, b"431")):
            with contextlib.suppress(ConnectionError):  # unread bytes may cost the answer
                self.assertIn(b" " + code + b" ", self.raw(long + b"\r\n\r\n"))
        for wrong in (b"\r\n\r\n", b"GET\r\n\r\n", b"GET / HTTP/9\r\n\r\n", b"\x16\x03\x01\x02\x00\r\n\r\n", b"GET / HTTP/1.1 more\r\n\r\n"):
            self.assertRegex(self.raw(wrong), rb"^(HTTP/1\.0 (400|405|505) |400 |405 |$)", wrong)
        self.assertEqual(self.request("/")[0], 200)

    def test_other_hosts(self) -> None:
        """A browser that was sent here by another name is refused; addresses, localhost and the names of the page aren't."""
        fill_database(self.folder, [standing("h")])
        self.serve()
        self.server.names = ["monitor.example.org"]
        for name in ("127.0.0.1", "127.0.0.1:8080", "10.0.0.7", "[::1]:80", "[::1]", "localhost", "LOCALHOST:99", "monitor.example.org",
                     "Monitor.Example.org.:8080"):
            self.assertEqual(self.request("/", Host=name)[0], 200, name)
        for name in ("evil.example.org", "127.0.0.1.evil.example.org", "localhost.evil", "", "example.org", "monitor.example.org.evil:80",
                     "127.0.0.1@evil"):
            for path in ("/", "/status.json", "/metrics", "/object?name=h"):
                self.assertEqual(self.request(path, Host=name)[0::2], (421, "421 Misdirected Request\n"), name)
        self.assertTrue(self.raw(b"GET / HTTP/1.0\r\n\r\n").startswith(b"HTTP/1.0 200 "))

    def test_a_client_that_sends_nothing(self) -> None:
        fill_database(self.folder, [standing("h")])
        self.serve()
        self.assertEqual(page.Handler.timeout, 5)
        self.addCleanup(setattr, page.Handler, "timeout", 5)
        page.Handler.timeout = 1
        for sent in (b"", b"GET / HT", b"GET / HTTP/1.1\r\nx: "):
            begun = time.monotonic()
            self.assertEqual(self.raw(sent, False), b"")
            self.assertTrue(0.9 < time.monotonic() - begun < 15)
        self.assertIn(b" 404 ", self.raw(b"GET /x HTTP/1.1\r\n\r\n", False))

    def test_clients_that_take_too_long_and_too_many(self) -> None:
        """Each client past the limit is closed at once. Slow clients are closed after the longest time, and others have room again."""
        fill_database(self.folder, [standing("h")])
        self.serve()
        self.addCleanup(setattr, page.Handler, "timeout", page.Handler.timeout)
        page.Handler.timeout = 60
        clients = [socket.create_connection(("127.0.0.1", self.port), timeout=20) for _ in range(MOST_CLIENTS)]
        for client in clients:
            self.addCleanup(client.close)
            client.sendall(b"GET / HT")
        with self.assertRaises((ConnectionError, OSError)):
            self.request("/")
        for request in list(self.server.ends_at):
            self.server.ends_at[request] = time.monotonic()

        def is_let_go() -> bool:
            try:
                clients[0].sendall(b"T")
            except ConnectionError:
                return True
            return False

        def is_served() -> bool:
            try:
                return self.request("/")[0] == 200
            except (ConnectionError, OSError):
                return False  # there is no room yet

        self.assertTrue(becomes_true(is_let_go))
        self.assertTrue(becomes_true(is_served))

    def test_no_database(self) -> None:
        self.serve()
        for path in ("/", "/status.json", "/metrics", "/object?name=h"):
            status, _, text = self.request(path)
            self.assertEqual((status, text.count("\n")), (503, 1))
            self.assertTrue(text.startswith(f"{self.folder}/monitor.db doesn't exist: "), text)
        self.assertFalse((self.folder / "monitor.db").exists())
        (self.folder / "monitor.db").write_text("this is no database" * 100)
        self.assertEqual(self.request("/")[0], 503)

    def test_a_locked_database(self) -> None:
        fill_database(self.folder, [standing("h")])
        self.serve()
        database = sqlite3.connect(self.folder / "monitor.db", isolation_level=None)
        database.execute("PRAGMA journal_mode=DELETE")
        database.execute("BEGIN EXCLUSIVE")
        status, _, text = self.request("/")
        self.assertEqual((status, text), (503, f"{self.folder}/monitor.db can't be read: database is locked\n"))
        database.execute("ROLLBACK")
        database.close()
        self.assertEqual(self.request("/")[0], 200)

    def test_nothing_is_written(self) -> None:
        fill_database(self.folder, [standing("h")])
        before = pathlib.Path(self.folder / "monitor.db").read_bytes()
        self.serve()
        for path in ("/", "/status.json", "/metrics", "/object?name=h"):
            self.request(path)
        self.assertEqual((self.folder / "monitor.db").read_bytes(), before)
