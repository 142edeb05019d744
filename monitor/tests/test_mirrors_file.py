"""The file of a site's mirrors, and each way in which it can be wrong."""
from typing import Any, Dict, List, Tuple

from nagsched_monitor.site.site import read_site

from .simulated import PROGRAM, SiteFilesTest

GATEWAY: Dict[str, Any] = {"name": "gateway", "max_check_attempts": 3}
PING: Dict[str, Any] = {"host": "gateway", "description": "ping", "max_check_attempts": 2}
NEVER: Dict[str, Any] = {"enabled": False, "check_interval": 0, "retry_interval": 0}
FAR: Dict[str, Any] = {"name": "far", "parents": ["gateway"], "max_check_attempts": 3}


class MirrorsFile(SiteFilesTest):
    def write_parts(self, second: Dict[str, Any], mirrors: Any, first: Any = None) -> None:
        """A site of two parts. The first has commands for its objects, and the second only for those that aren't mirrors."""
        self.write("part-1.json", first or {"hosts": [GATEWAY], "services": [PING]})
        self.write("part-2.json", second)
        self.write("mirrors.json", mirrors)
        self.write("commands.json", {name: {"line": "true"} for name in ("gateway", "gateway;ping", "far")})

    def second(self, **of_mirror: Any) -> Dict[str, Any]:
        return {"hosts": [{**GATEWAY, **NEVER, **of_mirror}, FAR]}

    def test_a_good_one(self) -> None:
        services = [{**PING, **NEVER}]
        self.write_parts({**self.second(), "services": services}, {"part-2": {"gateway": "part-1", "gateway;ping": "part-1"}})
        site = read_site(self.folder, PROGRAM)
        self.assertEqual(sorted(site.objects), ["far", "gateway", "gateway;ping"])
        self.assertEqual(site.mirrors, {1: {"gateway", "gateway;ping"}})
        self.assertEqual((site.objects["gateway"].part, site.objects["far"].part, site.children), (0, 1, {"gateway": ["far"]}))

    def test_an_object_in_two_parts(self) -> None:
        self.write_parts(self.second(), {})
        self.refused("part-2.json: gateway is in another part already, and mirrors.json doesn't name it")

    def test_lines(self) -> None:
        for mirrors, word in (
            ({"part-3": {}}, "mirrors.json: part-3: there is no part-3.json"),
            ({"part-2.json": {}}, "there is no part-2.json.json"),
            ({"part-2": ["gateway"]}, "mirrors.json: part-2: it has to be an object"),
            ({"part-2": {"gatewy": "part-1"}}, "mirrors.json: part-2: gatewy: part-2.json has no such object"),
            ({"part-2": {"gateway": "part-7"}}, "mirrors.json: part-2: gateway: the part of its original isn't there: 'part-7'"),
            ({"part-2": {"gateway": 1}}, "isn't there: 1"),
            ({"part-2": {"gateway": "part-2"}}, "its original is in another part, not in part-2"),
            ({"part-2": {"far": "part-1"}}, "far: part-1.json has no such object"),
            ({"part-2": {"gateway": "part-1"}, "part-1": {"gateway": "part-2"}}, "has a mirror of it too"),
        ):
            with self.subTest(word):
                self.write_parts(self.second(), mirrors)
                self.refused("mirrors.json", word)
        self.write("mirrors.json", "{")
        self.refused("mirrors.json: ")
        self.write("mirrors.json", "[]")
        self.refused("mirrors.json: it has to be an object")

    def test_mirrors_that_are_judged_otherwise(self) -> None:
        mirrors = {"part-2": {"gateway": "part-1"}}
        wrong: List[Tuple[Dict[str, Any], str]] = [
            ({"enabled": True}, '"enabled":false'),
            ({"check_interval": 5}, '"check_interval":0'),
            ({"retry_interval": 1}, '"retry_interval":0'),
            ({"max_check_attempts": 4}, "max_check_attempts aren't those of its original in part-1.json"),
        ]
        for members, word in wrong:
            with self.subTest(word):
                self.write_parts(self.second(**members), mirrors)
                self.refused("mirrors.json: part-2: gateway: ", word)
        first: Dict[str, Any] = {"hosts": [{"name": "root", "max_check_attempts": 1}, {**GATEWAY, "parents": ["root"]}]}
        self.write_parts(self.second(), mirrors, first)
        self.refused("gateway: parents aren't those of its original")

    def test_masters_whose_dependencies_count(self) -> None:
        ring = {"host": "gateway", "description": "ring", "max_check_attempts": 2}
        on_ring = {"dependent": "gateway;ping", "master": "gateway;ring", "criteria": "c"}
        web = {"host": "far", "description": "web", "max_check_attempts": 2}
        services = [{**PING, **NEVER}, web]
        on_ping: Dict[str, Any] = {"dependent": "far;web", "master": "gateway;ping", "criteria": "u,c"}
        first: Dict[str, Any] = {"hosts": [GATEWAY], "services": [PING, ring], "service_dependencies": [on_ring]}
        mirrors = {"part-2": {"gateway": "part-1", "gateway;ping": "part-1"}}
        second = {**self.second(), "services": services, "service_dependencies": [{**on_ping, "inherits_parent": True}]}
        self.write_parts(second, mirrors, first)
        self.refused("gateway;ping: dependencies, which count here for those that depend on it, aren't those of its original")
        self.write_parts({**second, "service_dependencies": [on_ping]}, mirrors, first)
        self.refused("commands.json")

    def test_options(self) -> None:
        mirrors = {"part-2": {"gateway": "part-1"}}
        wrong: List[Tuple[Dict[str, Any], str]] = [
            ({"max_concurrent_checks": 5}, "max_concurrent_checks of a part with mirrors is 0"),
            ({"high_host_flap_threshold": 40}, "high_host_flap_threshold isn't that of part-1"),
            ({"use_aggressive_host_checking": True}, "use_aggressive_host_checking isn't that of part-1"),
        ]
        for options, word in wrong:
            with self.subTest(word):
                self.write_parts({**self.second(), "options": options}, mirrors)
                self.refused("mirrors.json: part-2: ", word)
        self.write_parts({**self.second(), "options": {"high_host_flap_threshold": 30, "interval_length": 1}}, mirrors)
        self.assertEqual(len(read_site(self.folder, PROGRAM).objects), 3)

    def test_one_setup_has_none(self) -> None:
        self.write_site([GATEWAY], [], mirrors={"part-2": {"gateway": "part-1"}})
        self.refused("mirrors.json: part-2: there is no part-2.json")
