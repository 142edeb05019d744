"""The lines of the runner: each line that it reads is answered, results wait for their reader, and a file says which command lines are run."""
import fcntl
import json
import os
import pathlib
import random
import signal
import subprocess
import tempfile
import time
import unittest
from typing import List

from .one_runner import MONITOR, OneRunner, shell
from .test_runner import children_of, is_zombie
from .waiting import becomes_true

MOST_KEPT = 4096
F_SETPIPE_SZ = 1031  # Python 3.9 has no name for it


class Lines(unittest.TestCase):
    """No line ends the runner, and no result is lost in it. It is built so that it ends if it would touch memory that isn't its own."""

    @classmethod
    def setUpClass(cls) -> None:
        folder = tempfile.TemporaryDirectory()
        cls.addClassCleanup(folder.cleanup)
        cls.program = f"{folder.name}/nagsched-runner"
        flags = "-fsanitize=address,undefined -fno-sanitize-recover=all"
        subprocess.run([MONITOR / "build_runner.sh", cls.program], env={**os.environ, "CFLAGS": flags}, check=True)

    program: str

    def test_lines_that_are_no_jobs(self) -> None:
        for line in ("", "[]", "{}", '{"job":-1,"words":["true"],"limit":1}', '{"words":["true"],"limit":1}', '{"job":"1","words":["true"],"limit":1}',
                     "[" * 9000,
                     '{"job":1,"words":["true"],"limit":1}\0', '{"job":1e400'):
            with self.subTest(line[:40]), OneRunner() as runner:
                wanted = {"job": 1, "lost": "the line is no job"} if "1e4" in line else {"error": "the line is no job"}
                self.assertEqual(runner.results_of(line.encode() + b"\n"), [wanted])
                self.assertEqual(runner.results_of(shell(2, "true"))[0]["end"], "exited")

    def test_lines_that_have_a_number(self) -> None:
        lines = ['"words":[],"limit":1', '"words":["true"],"limit":', '"words":["a', '"words":["\\u0000"],"limit":1', '"words":["\\ud800"],"limit":1',
                 '"words":["\\udc00"],"limit":1', '"words":["true"]', '"words":["true"],"limit":1,"more":2', '"words":["true"],"words":["true"],"limit":1',
                 '"words":"true","limit":1', '"words":[1],"limit":1', '"words":[["true"]],"limit":1', '"words":["true"],"limit":0',
                 '"words":["true"],"limit":-1',
                 '"words":["true"],"limit":nan', '"words":["true"],"limit":inf', '"words":["true"],"limit":1' + 400 * "0", '"words":["true"],"limit":86401',
                 '"words":["true"],"limit":1} {"job":8']
        with OneRunner() as runner:
            results = runner.results_of(*(f'{{"job":{number},{line}}}\n'.encode() for number, line in enumerate(lines)))
        self.assertEqual(results, [{"job": number, "lost": "the line is no job"} for number in range(len(lines))])

    def test_members_in_another_order(self) -> None:
        words = b'"words":["printf","%s","fine"]'
        with OneRunner() as runner:
            results = runner.results_of(b'{"job":1,"limit":9,' + words + b"}\n", b"{" + words + b',"limit":9,"job":2}\n',
                                 b' { "limit" : 9.0e0 , ' + words + b' ,\t"job" : 3 } \r\n')
        self.assertEqual([(it["job"], it["output"]) for it in results], [(1, "fine"), (2, "fine"), (3, "fine")])

    def test_a_line_that_is_too_long(self) -> None:
        with OneRunner() as runner:
            runner.send(b'{"job":1,"words":["' + b"x" * 5_000_000 + b"\n")
            self.assertEqual(runner.results(1), [{"error": "the line is no job"}])
            (result,) = runner.results_of({"job": 2, "words": ["/bin/sh", "-c", "echo fine"] + 100 * [1_000 * "x"], "limit": 9})
            self.assertEqual(result["output"], "fine\n")

    def test_more_words_than_a_program_can_have(self) -> None:
        with OneRunner() as runner:
            (result,) = runner.results_of({"job": 1, "words": ["true", 900_000 * "x"], "limit": 9})
        self.assertEqual((result["end"], result["output"]), ("failed", "true: Argument list too long"))

    def test_damaged_lines(self) -> None:
        """None of them runs another program, and the runner continues."""
        chance = random.Random(11)
        whole = json.dumps({"job": 1, "words": ["/plugins/none", "\u20ac \U0001f600\"\\"], "limit": 5}).encode()
        lines = []
        for _ in range(3_000):
            line = bytearray(whole)
            for _ in range(chance.randint(1, 4)):
                place = chance.randrange(len(line))
                line[place : place + chance.randint(0, 3)] = bytes(chance.choice(b'{}[]",:\\u0\0\xff19eE-') for _ in range(chance.randint(0, 3)))
            lines.append(bytes(line).replace(b"\n", b" ") + b"\n")
        with OneRunner(program=self.program) as runner:
            for place in range(0, len(lines), 100):
                results = runner.results_of(*lines[place : place + 100])
                self.assertEqual(len(results), 100)
                self.assertLessEqual({it.get("end", "lost") for it in results}, {"failed", "lost"})
            self.assertEqual(runner.results_of(shell(2, "echo fine"))[0]["output"], "fine\n")
            self.assertEqual(runner.end(), 0)

    def test_more_results_than_it_can_keep(self) -> None:
        """Plugins that end together have longer results than it has room for; their reader reads each piece at once."""
        with OneRunner(program=self.program) as runner, tempfile.TemporaryDirectory() as folder:
            fcntl.fcntl(runner.process.stdout or 0, F_SETPIPE_SZ, 1 << 20)
            go = pathlib.Path(folder, "go")
            os.mkfifo(go)
            # Kept open, so that a plugin that opens it late finds its line.
            lines = os.open(go, os.O_RDWR)
            self.addCleanup(os.close, lines)
            runner.send(*(shell(number, f"read line < {go}; head -c 4096 /dev/zero | tee /dev/stderr", 600) for number in range(150)))
            self.assertTrue(becomes_true(lambda: len(children_of(runner.process.pid)) == 151))
            runner.process.send_signal(signal.SIGSTOP)
            os.write(lines, 150 * b"go\n")
            self.assertTrue(becomes_true(lambda: all(is_zombie(child) for child in children_of(runner.process.pid)[1:])))
            runner.process.send_signal(signal.SIGCONT)
            results = runner.results(150)
        self.assertEqual([(it["job"], len(it["output"]), len(it["stderr"])) for it in results], [(number, MOST_KEPT, MOST_KEPT) for number in range(150)])

    def test_results_that_nobody_reads_for_a_while(self) -> None:
        """They wait, limits are kept, and each comes once."""
        with OneRunner() as runner, tempfile.TemporaryDirectory() as folder:
            late = pathlib.Path(folder, "late")
            os.set_blocking(runner._jobs.fileno(), False)
            lines = b"".join(json.dumps(shell(number, "head -c 4096 /dev/zero")).encode() + b"\n" for number in range(400))
            lines = json.dumps(shell(400, f"sleep 12; touch {late}; sleep 600", 2)).encode() + b"\n" + lines
            sent = runner._jobs.write(lines) or 0
            time.sleep(14)  # a runner without a processor for a while gives its plugins that time
            os.set_blocking(runner._jobs.fileno(), True)
            self.assertFalse(late.exists())
            runner.send(lines[sent:])
            results = runner.results(401)
        self.assertEqual([it["job"] for it in results], list(range(401)))
        self.assertEqual([it["end"] for it in results], 400 * ["exited"] + ["limit"])


class Only(unittest.TestCase):
    """The file of patterns."""

    def setUp(self) -> None:
        folder = tempfile.TemporaryDirectory()
        self.addCleanup(folder.cleanup)
        self.file = pathlib.Path(folder.name, "allowed")

    def ends(self, patterns: str, *lines: List[str]) -> List[bool]:
        """For each command line, whether it was run."""
        self.file.write_text(patterns)
        with OneRunner("--only", str(self.file)) as runner:
            results = runner.results_of(*({"job": number, "words": words, "limit": 9} for number, words in enumerate(lines)))
        refused = "this machine's --only file doesn't allow this command line"
        return [(it["end"], it["output"]) != ("failed", refused) for it in results]

    def test_words(self) -> None:
        patterns = "# of this machine\n\n  echo fine  \necho -w *% 'a  b' a\\*b\n/bin/true \"?\" ?\techo\n"
        self.assertEqual(self.ends(patterns, ["echo", "fine"], ["echo"], ["echo", "fine", "more"], ["echo fine"], ["Echo", "fine"],
                                   ["echo", "-w", "10%", "a  b", "a*b"],
                                   ["echo", "-w", "10", "a  b", "a*b"], ["echo", "-w", "%", "a  b", "a*b"], ["echo", "-w", "10%", "a b", "a*b"],
                                   ["echo", "-w", "10%", "a  b", "axb"], ["/bin/true", "?", "\u20ac", "echo"], ["/bin/true", "x", "y", "echo"],
                                   ["/bin/true", "?", "yy", "echo"]),
                         [True, False, False, False, False, True, False, True, False, False, True, False, False])

    def test_wildcards(self) -> None:
        for pattern, word, fits in (("*", "", True), ("*", "a b", True), ("a*b*c", "aXbXbc", True), ("*ab", "aab", True), ("a*b*c", "aXbXb", False),
                                    ("*.example", "web.example", True),
                                    ("*.example", "-oProxyCommand=x.example", False), ("?*", "-x", False), ("-*", "-x", True), ("a*", "a-x", True),
                                    ("*a" * 12 + "b", "a" * 200, False),
                                    ("[ab]", "a", False), ("[ab]", "[ab]", True), ("*", "a\1b", False), ("''", "", True)):
            with self.subTest(pattern=pattern, word=word):
                self.assertEqual(self.ends(f"echo {pattern}\n", ["echo", word]), [fits])

    def test_programs_that_run_others(self) -> None:
        """A program that is allowed with some arguments isn't allowed with others."""
        patterns = "/usr/lib/nagios/plugins/check_ping -H * -w * -c *\n/usr/lib/nagios/plugins/check_by_ssh -H * -C *\n"
        plugins = "/usr/lib/nagios/plugins"
        self.assertEqual(self.ends(patterns, [f"{plugins}/negate", "/bin/sh", "-c", "id"],
                                   [f"{plugins}/check_by_ssh", "-H", "a", "-o", "ProxyCommand=id", "-C", "true"],
                                   [f"{plugins}/check_by_ssh", "-H", "-oProxyCommand=id", "-C", "true"],
                                   ["/bin/sh", "-c", f"{plugins}/check_ping -H a -w 1 -c 2"],
                                   [f"{plugins}/../plugins/check_ping", "-H", "a", "-w", "1", "-c", "2"]), [False] * 5)

    def test_no_pattern_allows_nothing(self) -> None:
        self.assertEqual(self.ends("# none\n", ["true"], [""]), [False, False])

    def test_files_that_cannot_be_used(self) -> None:
        bad = "isn't a command line: close its quotes, and leave out control characters"
        for text, why in ((None, "No such file or directory"), (b"true\n'a b\n", f"line 2 {bad}"), (b"true \\", f"line 1 {bad}"),
                          (b"true \1", f"line 1 {bad}"),
                          (b"a\0b", "Invalid argument"), (b"#" * 1_100_000, "Invalid argument")):
            with self.subTest(text=text and text[:20]):
                self.file.unlink(missing_ok=True)
                if text is not None:
                    self.file.write_bytes(text)
                ran = subprocess.run([os.environ["NAGSCHED_RUNNER"], "--only", self.file], input=b"", capture_output=True, timeout=90, check=False)
                self.assertEqual((ran.returncode, ran.stderr.decode()), (1, f"nagsched-runner: --only {self.file}: {why}\n"))

    def test_arguments(self) -> None:
        for words in (["--only"], ["--other", "x"], ["x"], ["--only", "x", "y"]):
            ran = subprocess.run([os.environ["NAGSCHED_RUNNER"], *words], input=b"", capture_output=True, timeout=90, check=False)
            self.assertEqual((ran.returncode, ran.stderr[:6]), (2, b"usage:"))
