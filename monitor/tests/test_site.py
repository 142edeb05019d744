"""Each file of a site, and each way in which it can be wrong."""
import contextlib
import io
import json
import subprocess
from typing import List
from unittest import mock

from nagsched_monitor.faults import MonitorFault, SiteFault
from nagsched_monitor.program.main import main
from nagsched_monitor.model.objects import Command
from nagsched_monitor.site import command_lines
from nagsched_monitor.site.site import read_site

from .simulated import PROGRAM, SiteFilesTest

HOST = {"name": "web", "max_check_attempts": 3}
TRAP = {"host": "web", "description": "trap", "max_check_attempts": 1, "enabled": False}


class SiteFiles(SiteFilesTest):
    def test_what_people_see(self) -> None:
        self.write_site([HOST], [], directory={"host_groups": {"linux": {"alias": "Linux"}}, "contact_groups": {"team": {"members": ["ada"]}},
                                               "contacts": {"ada": {}}},
                        inventory={"web": {"alias": "Web", "custom": {"RACK": "7"}}})
        read_site(self.folder, PROGRAM)
        for file, document, *words in (
            ("directory", {"hosts": {}}, "a member 'hosts' isn't known here"),
            ("directory", {"contacts": {"ada": []}}, "contacts: ada: it has to be an object"),
            ("directory", {"contacts": {"ada": {"email": 7}}}, "contacts: ada: email has to be a text, not 7"),
            ("directory", {"contact_groups": {"team": {"members": "ada"}}}, "contact_groups: team: members has to be a list of names"),
            ("inventory", {"web": {"custom": {"RACK": 7}}}, "web: custom: RACK has to be a text, not 7"),
            ("inventory", {"web": {"colour": "red"}}, "a member 'colour' isn't known"),
        ):
            self.write_site([HOST], [])
            self.write(f"{file}.json", document)
            self.refused(f"{file}.json: ", *words)
            (self.folder / f"{file}.json").unlink()

    def test_a_good_one(self) -> None:
        self.write_site([HOST, {"name": "db", "parents": ["web"], "max_check_attempts": 1}], [TRAP], passive={"web;trap": {"only": True, "freshness": 90}})
        site = read_site(self.folder, PROGRAM)
        self.assertEqual(sorted(site.objects), ["db", "web", "web;trap"])
        self.assertEqual(site.children, {"web": ["db"]})
        self.assertEqual((site.objects["web;trap"].host, site.objects["web;trap"].freshness), ("web", 90_000))
        self.assertEqual((site.objects["db"].check_interval, site.options.slots), (5_000, 64))

    def test_no_retry(self) -> None:
        """Objects that aren't checked again after a soft problem are named when the site is tested."""
        hosts = [{"name": f"h{number}", "max_check_attempts": 3, "retry_interval": 0} for number in range(6)]
        others = [{"name": "once", "max_check_attempts": 1, "retry_interval": 0},
                  {"name": "off", "max_check_attempts": 2, "retry_interval": 0, "enabled": False}]
        self.write_site([HOST, *hosts, *others], [])
        wanted = 'warning: 6 objects aren\'t checked again after a soft problem, since their "retry_interval" is 0: write 1 or more: h0, h1, h2, h3, h4 and 1 more'
        self.assertEqual(read_site(self.folder, PROGRAM).warnings, [wanted])
        with contextlib.redirect_stdout(io.StringIO()), contextlib.redirect_stderr(io.StringIO()) as told:
            self.assertEqual(main(["--program", PROGRAM, str(self.folder), "test"]), 0)
        self.assertEqual(told.getvalue(), f"nagsched-monitor: {wanted}\n")
        self.write_site([HOST], [])
        self.assertEqual(read_site(self.folder, PROGRAM).warnings, [])

    def test_no_setup(self) -> None:
        self.refused("setup.json")

    def test_a_refused_setup(self) -> None:
        self.write_site([{"name": "web", "max_check_attempts": 0}], [])
        self.refused("setup.json", "L8 Range", "max_check_attempts")

    def test_setup_and_parts(self) -> None:
        self.write_site([HOST], [])
        self.write("part-1.json", {})
        self.refused("setup.json", "part-1.json")

    def test_an_object_in_two_parts(self) -> None:
        for part in (1, 2):
            self.write(f"part-{part}.json", {"hosts": [HOST]})
        self.write("commands.json", {"web": {"line": "true"}})
        self.refused("part-2.json", "web")

    def test_commands(self) -> None:
        self.write_site([HOST], [])
        wrong = {
            "{": ("commands.json", "line 1"),
            "[]": ("commands.json", "object"),
            json.dumps({"web": {"line": "echo 'one"}}): ("web", "split"),
            json.dumps({"web": {"line": ""}}): ("web", "empty"),
            json.dumps({"web": {"line": "/no/such/plugin -H web"}}): ("web", "/no/such/plugin"),
            json.dumps({"web": {"line": "echo (", "shell": True}}): ("web", "yntax"),
            json.dumps({"web": {"line": 7}}): ("web", "text"),
            json.dumps({"web": {"line": "true", "limit": 0}}): ("web", "limit"),
            json.dumps({"web": {"line": "true", "limt": 1}}): ("web", "limt"),
            json.dumps({"web": {"line": "true"}, "wbe": {"line": "true"}}): ("wbe", "no such object"),
            "{}": ("web", "no command"),
        }
        for text, words in wrong.items():
            with self.subTest(text):
                self.write("commands.json", text)
                self.refused(*words)

    def test_no_commands_file(self) -> None:
        self.write("setup.json", {"hosts": [HOST]})
        self.refused("commands.json")

    def test_an_object_that_is_never_checked_needs_no_command(self) -> None:
        self.write_site([HOST], [TRAP], commands={"web": {"line": "true"}}, passive={"web;trap": {"only": True}})
        self.assertIsNone(read_site(self.folder, PROGRAM).objects["web;trap"].command)
        self.write("passive.json", {"web;trap": {"only": True, "freshness": 5}})
        self.refused("web;trap", "freshness")

    def test_passive(self) -> None:
        self.write_site([HOST], [TRAP])
        for document, word in (
            ({"x": {}}, "no such object"), ({"web": []}, "object"), ({"web": {"only": 1}}, "only"), ({"web": {"freshness": -1}}, "freshness"),
            ({"web": {"f": 1}}, "'f'"),
        ):
            with self.subTest(word):
                self.write("passive.json", document)
                self.refused("passive.json", word)

    def test_options(self) -> None:
        self.write_site([HOST], [])
        for document, word in (
            ({"on_change": 1}, "on_change"), ({"alertmanager": "x"}, "alertmanager"), ({"page_name": [1]}, "page_name"), ({"log_passive": 1}, "log_passive"),
            ({"slots": 0}, "slots"), ({"slots": True}, "slots"), ({"slotz": 1}, "slotz"), ({"keep_days": -1}, "keep_days"),
            ({"service_check_timeout_state": "x"}, "'x'"), ({"service_check_timeout_state": ["c"]}, "['c']"), ({"zone": "Nowhere/Town"}, "Nowhere/Town"),
            ("[" * 100_000, "recursion"),
        ):
            with self.subTest(word):
                self.write("monitor.json", document)
                self.refused("monitor.json", word)

    def test_periods(self) -> None:
        self.write_site([HOST], [])
        day = {"monday": ["09:00-17:00"]}
        for document, words in (
            ({"periods": {"p": {"weekdays": {"moonday": []}}}}, ("p", "monday to sunday")),
            ({"periods": {"p": {"weekdays": {"monday": ["9-17"]}}}}, ("p", "monday", "'9-17'")),
            ({"periods": {"p": {"weekdays": {"monday": ["17:00-09:00"]}}}}, ("p", "'17:00-09:00'")),
            ({"periods": {"p": {"exclude": ["q"]}}}, ("p", "q")),
            ({"periods": {"p": {"exclude": ["q"]}, "q": {"exclude": ["p"]}}}, ("p", "itself")),
            ({"periods": {"p": {"dates": [{"day": 0, "times": []}]}}}, ("p", "date 0")),
            ({"periods": {"p": {"dates": [{"first": "2026-13-01", "last": "2026-13-01", "times": []}]}}}, ("p", "2026-13-01")),
            ({"periods": {"p": {"dates": [{"month": 1, "times": []}]}}}, ("p", "date 0")),
            ({"periods": {"p": {"dates": [{"day": 1, "month": None, "times": []}]}}}, ("p", "date 0", "month")),
            ({"periods": {"p": {"dates": [{"first": {"day": 1}, "times": []}]}}}, ("p", "date 0: last")),
            ({"periods": {"p": {"dates": [{"first": "2026-01-01", "times": []}]}}}, ("p", "date 0: last")),
            ({"periods": {"p": {"dates": [{"first": {"day": 1}, "last": {"day": 2, "month": 3}, "times": []}]}}}, ("p", "date 0", "same form")),
            ({"periods": {"p": {"dates": [{"first": "2026-02-01", "last": "2026-01-01", "times": []}]}}}, ("p", "before its first")),
            ({"periods": {"p": {"dates": [{"first": "2026-02-30", "step": 2, "times": []}]}}}, ("p", "no day 2026-02-30")),
            ({"periods": {"p": {"dates": [{"first": "2026-01-01", "step": 0, "times": []}]}}}, ("p", "step", "0")),
            ({"periods": {"p": {"dates": [{"weekday": "monday", "nth": 6, "times": []}]}}}, ("p", "nth", "6")),
            ({"periods": {"p": {"dates": [{"day": 1, "step": 2, "times": []}]}}}, ("p", "date 0")),
            ({"periods": {"p": {"weekdays": day}}, "objects": {"web": "q"}}, ("web", "'q'")),
            ({"periods": {"p": {"weekdays": day}}, "objects": {"web": ["p"]}}, ("web", "['p']")),
            ({"periods": {"p": {"weekdays": day}}, "objects": {"x": "p"}}, ("x", "no such object")),
            ({"period": {}}, ("'period'",)),
        ):
            with self.subTest(words):
                self.write("periods.json", document)
                self.refused("periods.json", *words)

    def test_what_only_a_shell_reads(self) -> None:
        self.write_site([HOST], [])
        for line, sign in (("echo no; exit 2", ";"), ("echo a | cat", "|"), ("echo a>b", ">"), ("a=$(true)", "("), ("sleep 1 &", "&")):
            with self.subTest(line):
                self.write("commands.json", {"web": {"line": line}})
                self.refused("commands.json", "web", f"only a shell gives {sign}")
        self.write("commands.json", {"web": {"line": "echo 'no; exit 2' \"a|b\" # c"}})
        self.assertEqual(read_site(self.folder, PROGRAM).objects["web"].command, Command(["echo", "no; exit 2", "a|b", "#", "c"], 60.0))

    def test_the_command_for_changes(self) -> None:
        """Its first program has to exist, and the shell has to be able to read the line. What only the shell knows isn't tested."""
        (self.folder / "text").touch()
        for line in ("cat >> x", "/bin/cat", "exec cat", "A=1 B= cat", "A=1", "cd /; ./x", "$X y", "~/x", "if true; then nosuch; fi", "(nosuch)", "! nosuch",
                     "'my x' y", ""):
            command_lines.test_change_command(line)
        for line, name in (("/nosuch x", "/nosuch"), (" nosuch|cat", "nosuch"), ("A=1 nosuch>x", "nosuch"), (f"{self.folder}/text", f"{self.folder}/text")):
            wanted = f"^the command for changes: there is no program {name}: put it on the path, or name its whole path$"
            with self.assertRaisesRegex(SiteFault, wanted):
                command_lines.test_change_command(line)
        with self.assertRaisesRegex(SiteFault, "^the command for changes: .*yntax"):
            command_lines.test_change_command("if")

    def test_shell_lines_are_tested_once(self) -> None:
        """A line that was found to be good isn't tested again, also if its file of checksums is damaged or can't be written: then all are."""
        self.write_site([{**HOST, "name": f"h{number}"} for number in range(6)], [])
        self.write("commands.json", {f"h{number}": {"line": f"test {number % 3} -lt 9 || exit 2", "shell": True} for number in range(6)})
        tested: List[str] = []
        with mock.patch.object(command_lines, "test_shell_line", lambda line, place: tested.append(line)):
            for count in (3, 0):
                tested.clear()
                read_site(self.folder, PROGRAM)
                self.assertEqual(len(tested), count)
            (self.folder / command_lines.TESTED).write_bytes(b"\xff")
            read_site(self.folder, PROGRAM)
            self.assertEqual(len(tested), 3)
        self.write("commands.json", {f"h{number}": {"line": "if", "shell": True} for number in range(6)})
        self.refused("commands.json: h0")
        self.refused("commands.json: h0")

    def test_half_a_character(self) -> None:
        self.write_site([HOST], [])
        for shell in (False, True):
            self.write("commands.json", {"web": {"line": "echo \ud800", "shell": shell}})
            self.refused("commands.json: web: its line has half a character")

    def test_a_setup_that_cannot_be_read(self) -> None:
        (self.folder / "setup.json").mkdir()
        self.refused("setup.json: Is a directory")

    def test_a_scheduler_that_fails(self) -> None:
        """It accepts the setup, and then writes no line of it; or there is no room for its process."""
        self.write_site([HOST], [])
        program = self.folder / "program"
        program.write_text(f'#!/bin/sh\n[ "$1" = check ] || exec "{PROGRAM}" "$@"\ntest $# = 1\n')
        program.chmod(0o700)
        with self.assertRaisesRegex(SiteFault, f"setup.json: {program} gives no answer, and ends with status 1"):
            read_site(self.folder, str(program))
        with mock.patch.object(subprocess, "run", side_effect=BlockingIOError(11, "no room")):
            self.assertRaisesRegex(MonitorFault, "^nagsched can't be run: .*: no room", read_site, self.folder, PROGRAM)
