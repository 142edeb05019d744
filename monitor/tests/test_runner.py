"""The runner: each job has one result, for any behaviour of its plugin and any lack of the machine, and no plugin outlives its runner."""
import os
import pathlib
import signal
import subprocess
import tempfile
import time
import unittest
from typing import Any, Dict, List, Set

from nagsched_monitor.system.processes import living_processes

from .one_runner import MONITOR, OneRunner, shell
from .waiting import becomes_true

MOST_KEPT = 4096
F_SETPIPE_SZ = 1031  # Python 3.9 has no name for it


def is_zombie(process: int) -> bool:
    return pathlib.Path(f"/proc/{process}/stat").read_text().rpartition(")")[2].split()[0] == "Z"


def living(marks: str) -> Set[int]:
    """The processes that have this argument."""
    found = set()
    for folder in pathlib.Path("/proc").glob("[0-9]*"):
        try:
            if marks.encode() in (folder / "cmdline").read_bytes().split(b"\0") and not is_zombie(int(folder.name)):
                found.add(int(folder.name))
        except OSError:
            pass  # it has just ended
    return found


def children_of(process: int) -> List[int]:
    """The children of its first thread, which has the guard, and of the others."""
    threads = sorted(pathlib.Path(f"/proc/{process}/task").iterdir(), key=lambda thread: thread.name != str(process))
    return [int(each) for thread in threads for each in (thread / "children").read_text().split()]


class Plugins(unittest.TestCase):
    def ran(self, *jobs: Any) -> List[Dict[str, Any]]:
        with OneRunner() as runner:
            return runner.results_of(*jobs)

    def test_codes_and_words(self) -> None:
        results = self.ran(shell(1, "echo fine"), shell(2, "echo bad; exit 2"), shell(3, "kill -9 $$"), shell(4, "exit 77"))
        self.assertEqual([(it["end"], it["code"]) for it in results], [("exited", 0), ("exited", 2), ("signal", 9), ("exited", 77)])
        self.assertEqual([it["output"] for it in results], ["fine\n", "bad\n", "", ""])

    def test_standard_error(self) -> None:
        results = self.ran(shell(1, "echo one; echo two; echo no route >&2; exit 2"), shell(2, "echo fine"))
        self.assertEqual([(it["output"], it.get("stderr")) for it in results], [("one\ntwo\n", "no route\n"), ("fine\n", None)])

    def test_standard_input_is_empty(self) -> None:
        self.assertEqual(self.ran(shell(1, "cat; echo end"))[0]["output"], "end\n")

    def test_programs_that_cannot_be_run(self) -> None:
        with tempfile.TemporaryDirectory() as folder:
            plain, empty = pathlib.Path(folder, "plain"), pathlib.Path(folder, "empty")
            plain.touch(0o644)
            empty.touch(0o755)
            programs = ["/no/such/plugin", "no-such-plugin", "", str(plain), f"{plain}/plugin", str(empty)]
            results = self.ran(*({"job": number, "words": [program], "limit": 9} for number, program in enumerate(programs)))
        self.assertEqual([it["end"] for it in results], ["failed"] * len(programs))
        self.assertEqual([it["output"].rpartition(": ")[2] for it in results], ["No such file or directory"] * 3 + [
            "Permission denied", "Not a directory", "Exec format error"])

    def test_a_program_of_the_path(self) -> None:
        self.assertEqual(self.ran({"job": 1, "words": ["printf", "%s", "fine"], "limit": 9})[0]["output"], "fine")

    def test_a_limit(self) -> None:
        begin = time.monotonic()
        (result,) = self.ran(shell(1, "echo begun; sleep 600", 1))
        self.assertEqual((result["end"], result["output"]), ("limit", "begun\n"))
        self.assertGreaterEqual(time.monotonic() - begin, 1)

    def test_a_child_that_keeps_the_output(self) -> None:
        with OneRunner() as runner:
            (result,) = runner.results_of(shell(1, "sleep 600 & echo $!"))
            self.assertEqual((result["end"], result["code"]), ("exited", 0))
            os.kill(int(result["output"]), signal.SIGKILL)

    def test_much_output(self) -> None:
        """It never fills a pipe, and the beginning is stored."""
        (result,) = self.ran(shell(1, "head -c 1000000 /dev/zero | tr '\\0' x | tee /dev/stderr"))
        self.assertEqual((result["end"], result["output"], result["stderr"]), ("exited", "x" * MOST_KEPT, "x" * MOST_KEPT))

    def test_a_character_at_the_cut(self) -> None:
        for before in (MOST_KEPT - 3, MOST_KEPT - 2, MOST_KEPT - 1):
            (result,) = self.ran(shell(1, f"head -c {before} /dev/zero | tr '\\0' x; printf '\\342\\202\\254\\342\\202\\254'"))
            self.assertEqual(result["output"], "x" * before + ("\u20ac" if before == MOST_KEPT - 3 else ""))

    def test_invalid_bytes(self) -> None:
        """Each byte that is part of no character is replaced; characters of each length are not."""
        (result,) = self.ran(shell(1, "printf '\\303\\251\\342\\202\\254\\360\\237\\230\\200 \\300\\200 \\355\\240\\200 \\364\\220\\200\\200 \\342\\202'"))
        self.assertEqual(result["output"], "\u00e9\u20ac\U0001f600 " + 2 * "\ufffd" + " " + 3 * "\ufffd" + " " + 4 * "\ufffd" + " " + 2 * "\ufffd")

    def test_words_that_json_escapes(self) -> None:
        words = "a\"b\\c\td\u00fc\u20ac\U0001f600\x01\x7f"
        (result,) = self.ran({"job": 1, "words": ["printf", "%s", words], "limit": 5})
        self.assertEqual(result["output"], words)

    def test_signals_are_as_usual_in_a_plugin(self) -> None:
        (result,) = self.ran({"job": 1, "words": ["grep", "-E", "^Sig(Blk|Ign)", "/proc/self/status"], "limit": 60})  # a shell would unblock them itself
        self.assertEqual(result["output"].split(), ["SigBlk:", "0" * 16, "SigIgn:", "0" * 16])

    def test_a_plugin_has_no_file_of_the_runner(self) -> None:
        (result,) = self.ran(shell(1, "ls /proc/$$/fd"))
        self.assertEqual(result["output"].split(), ["0", "1", "2"])

    def test_a_runner_without_standard_error(self) -> None:
        with OneRunner(before=["sh", "-c", 'exec "$0" "$@" 2>&-']) as runner:
            (result,) = runner.results_of(shell(1, "echo one; echo two >&2"))
        self.assertEqual((result["output"], result["stderr"]), ("one\n", "two\n"))

    def test_memory_is_taken_from_plugins_first(self) -> None:
        (result,) = self.ran(shell(1, "cat /proc/$$/oom_score_adj"))
        self.assertEqual(result["output"], "500\n")

    def test_the_limit_of_files(self) -> None:
        """The runner's limit is as high as possible; a plugin has the one with which the runner was started."""
        with OneRunner(before=["prlimit", "--nofile=100:200"]) as runner:
            (result,) = runner.results_of(shell(1, "ulimit -n"))
            limits = pathlib.Path(f"/proc/{runner.process.pid}/limits").read_text()
        self.assertEqual(result["output"], "100\n")
        self.assertEqual(limits.partition("Max open files")[2].split()[:2], ["200", "200"])

    def test_a_runner_that_stood_still(self) -> None:
        """Plugins that ended meanwhile ended in time. Those that stood still too get the time that they lacked."""
        with OneRunner() as runner:
            runner.send(*(shell(number, f"sleep 0.5; echo {number}", 2) for number in range(80)))
            self.assertTrue(becomes_true(lambda: len(children_of(runner.process.pid)) == 81))
            runner.process.send_signal(signal.SIGSTOP)
            time.sleep(4)
            runner.process.send_signal(signal.SIGCONT)
            self.assertEqual([(it["job"], it["end"], it["output"]) for it in runner.results(80)], [(number, "exited", f"{number}\n") for number in range(80)])
            runner.send(shell(1, "sleep 1; echo fine", 2), shell(2, "sleep 100", 2))
            self.assertTrue(becomes_true(lambda: len(children_of(runner.process.pid)) == 3))
            stopped = [process for process, _, session in living_processes() if session == runner.process.pid]
            for number in (signal.SIGSTOP, signal.SIGCONT):
                for process in stopped:
                    os.kill(process, number)
                time.sleep(4 if number == signal.SIGSTOP else 0)
            self.assertEqual([(it["job"], it["end"], it["output"]) for it in runner.results(2)], [(1, "exited", "fine\n"), (2, "limit", "")])

    def test_many_at_once(self) -> None:
        with OneRunner() as runner:
            runner.send(*(shell(number, f"sleep 0.2; echo {number}; exit {number % 4}") for number in range(300)))
            self.assertEqual([(it["job"], it["code"], it["output"]) for it in runner.results(300)],
                             [(number, number % 4, f"{number}\n") for number in range(300)])


class Ends(unittest.TestCase):
    """The fate of plugins when their runner ends."""

    def setUp(self) -> None:
        # A number that no other process has among its arguments.
        self.seconds = f"{100_000 + os.getpid()}.{time.monotonic_ns()}"
        # A shell with a child, and a program in its place.
        self.jobs = [shell(1, f"sleep {self.seconds}; true", 1000), {"job": 2, "words": ["sleep", self.seconds], "limit": 1000}]

    def begin(self, runner: OneRunner) -> None:
        runner.send(*self.jobs)
        self.assertTrue(becomes_true(lambda: len(living(self.seconds)) == 2))

    def test_its_standard_input_ends(self) -> None:
        with OneRunner() as runner:
            self.begin(runner)
            self.assertEqual(runner.end(), 0)
            self.assertTrue(becomes_true(lambda: not living(self.seconds)))

    def test_it_is_killed(self) -> None:
        with OneRunner() as runner:
            self.begin(runner)
            runner.process.kill()
            self.assertTrue(becomes_true(lambda: not living(self.seconds)))

    def test_its_group_is_killed(self) -> None:
        with OneRunner() as runner:
            self.begin(runner)
            os.killpg(runner.process.pid, signal.SIGKILL)
            self.assertTrue(becomes_true(lambda: not living(self.seconds)))

    def test_it_is_killed_with_its_guard(self) -> None:
        """A plugin ends with it even then; only the plugin's own children are left."""
        with OneRunner() as runner:
            self.begin(runner)
            runner.process.send_signal(signal.SIGSTOP)
            guard, *plugins = children_of(runner.process.pid)
            children = living(self.seconds) - set(plugins)
            os.kill(guard, signal.SIGKILL)
            runner.process.kill()
            self.assertTrue(becomes_true(lambda: living(self.seconds) == children))
            for child in children:
                os.kill(child, signal.SIGKILL)

    def test_its_guard_is_killed(self) -> None:
        """Another one takes its place."""
        with OneRunner() as runner:
            self.assertTrue(becomes_true(lambda: bool(children_of(runner.process.pid))))
            (guard,) = children_of(runner.process.pid)
            os.kill(guard, signal.SIGKILL)
            self.assertTrue(becomes_true(lambda: children_of(runner.process.pid) not in ([], [guard])))
            self.begin(runner)
            runner.process.kill()
            self.assertTrue(becomes_true(lambda: not living(self.seconds)))

    def test_signals_that_the_monitor_has_too(self) -> None:
        """A terminal sends them to all; the runner waits for the end of its standard input."""
        with OneRunner() as runner:
            runner.results_of(shell(1, "true"))
            for number in (signal.SIGINT, signal.SIGTERM, signal.SIGHUP):
                runner.process.send_signal(number)
            self.assertEqual(runner.results_of(shell(2, "true"))[0]["job"], 2)
            self.assertEqual(runner.end(), 0)

    def test_nobody_reads_its_results(self) -> None:
        with OneRunner() as runner:
            assert runner.process.stdout is not None
            runner.process.stdout.close()
            runner.send(shell(1, "true"))
            self.assertEqual(runner.process.wait(timeout=90), 0)


class Troubles(unittest.TestCase):
    """A lack of the machine is no plugin's fault, and a process that hangs holds up no other."""

    folder: "tempfile.TemporaryDirectory[str]"

    @classmethod
    def setUpClass(cls) -> None:
        cls.folder = tempfile.TemporaryDirectory()
        cls.addClassCleanup(cls.folder.cleanup)
        subprocess.run(["cc", "-O2", "-shared", "-fPIC", "-o", f"{cls.folder.name}/trouble.so", MONITOR / "tests/trouble.c"], check=True)
        subprocess.run([MONITOR / "build_runner.sh", f"{cls.folder.name}/nagsched-runner"], env={**os.environ, "CFLAGS": "-DMOST_PLUGINS=40"}, check=True)

    def runner(self, trouble: str) -> OneRunner:
        return OneRunner(program=f"{self.folder.name}/nagsched-runner", environment={"LD_PRELOAD": f"{self.folder.name}/trouble.so", "TROUBLE": trouble})

    def test_no_process(self) -> None:
        with self.runner("fork") as runner:
            results = runner.results_of(*(shell(number, "exit 2") for number in range(6)))
        self.assertEqual([it.get("lost", it.get("code")) for it in results], 3 * ["/bin/sh: Resource temporarily unavailable", 2])

    def test_no_pipe(self) -> None:
        with self.runner("pipe") as runner:
            results = runner.results_of(*(shell(number, "exit 2") for number in range(6)))
        self.assertEqual({it.get("lost") for it in results}, {"/bin/sh: Too many open files"})

    def test_no_files(self) -> None:
        """A job is lost, or its plugin's result comes; never anything else."""
        with OneRunner(before=["prlimit", "--nofile=32:32"]) as runner:
            results = runner.results_of(*(shell(number, "sleep 1; exit 2") for number in range(40)))
        told = [it.get("lost", (it.get("end"), it.get("code"))) for it in results]
        self.assertEqual(set(told), {("exited", 2), "/bin/sh: Too many open files"})
        self.assertEqual(len(told), 40)

    def test_no_place(self) -> None:
        """More plugins than a runner can run at once are lost, and their places are used again."""
        with self.runner("nothing") as runner:
            results = runner.results_of(*(shell(number, "sleep 3") for number in range(60)))
            self.assertEqual([it.get("lost", it.get("code")) for it in results], [0] * 40 + ["/bin/sh: Resource temporarily unavailable"] * 20)
            for _ in range(4):
                self.assertEqual({it.get("code") for it in runner.results_of(*(shell(number, "exit 2") for number in range(30)))}, {2})

    def test_no_memory(self) -> None:
        """A plugin that the kernel killed is lost. One that somebody killed isn't, and neither is one that ended meanwhile on its own."""
        with self.runner("memory") as runner:
            results = runner.results_of(shell(1, "kill -9 $$"), shell(2, "kill -TERM $$"), shell(3, "exit 2"), shell(4, "sleep 60", 0.5))
        self.assertEqual([it.get("lost", (it.get("end"), it.get("code"))) for it in results],
                         ["/bin/sh: Cannot allocate memory", ("signal", signal.SIGTERM), ("exited", 2), ("limit", signal.SIGKILL)])

    def test_a_program_that_is_never_loaded(self) -> None:
        """Its limit is kept, and others run meanwhile."""
        with self.runner("exec") as runner:
            runner.send({"job": 1, "words": ["/plugins/hangs"], "limit": 3})
            self.assertEqual([it["output"] for it in runner.results_of(shell(2, "echo fine"))], ["fine\n"])
            self.assertEqual([(it["job"], it["end"]) for it in runner.results(1)], [(1, "limit")])

    def test_a_plugin_that_cannot_be_killed(self) -> None:
        """It is reported with its limit, and once more when it has ended."""
        with self.runner("kill") as runner:
            runner.send(shell(1, "echo begun; sleep 8", 0.5))
            (late,) = runner.results(1)
            self.assertEqual((late["end"], late["output"], late["stuck"]), ("limit", "begun\n", True))
            self.assertEqual(runner.results_of(shell(2, "echo fine"))[0]["output"], "fine\n")
            self.assertEqual(runner.results(1), [{"job": 1, "gone": True}])
            self.assertEqual(runner.results_of(shell(3, "echo fine"))[0]["output"], "fine\n")
            self.assertEqual(len(children_of(runner.process.pid)), 1)  # the guard
