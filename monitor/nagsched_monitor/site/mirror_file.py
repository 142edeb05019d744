"""Mirrors: objects of one part that are in another part too, because its objects need them as a parent, as their host or as a master.

`docs/scaling.md` describes their file, mirrors.json. A mirror is never checked. Each result of its original is reported to it too."""
import collections
import pathlib
from typing import AbstractSet, Any, Dict, FrozenSet, Mapping, Sequence, Set, Tuple

from ..faults import require
from .json_files import members_by_name, members_of, read_object

FILE = "mirrors.json"
NEVER = {"enabled": False, "check_interval": 0, "retry_interval": 0}
# The options that decide how results are judged, with their default values.
JUDGING: Mapping[str, Any] = {
    "soft_state_dependencies": False, "use_aggressive_host_checking": False, "low_service_flap_threshold": 20, "high_service_flap_threshold": 30,
    "low_host_flap_threshold": 20, "high_host_flap_threshold": 30,
}

# The master of a dependency, its criteria, and whether those of the master count.
Dependency = Tuple[str, FrozenSet[str], bool]


class Part:
    """The members of a part's setup that are compared. The setup was found to be good."""

    def __init__(self, stem: str, setup: Mapping[str, Any]) -> None:
        self.stem, self.objects = stem, members_by_name(setup)
        self.options: Mapping[str, Any] = {**JUDGING, **setup.get("options", {})}
        self.dependencies: Dict[str, Set[Dependency]] = collections.defaultdict(set)
        for it in [*setup.get("service_dependencies", ()), *setup.get("host_dependencies", ())]:
            self.dependencies[it["dependent"]].add((it["master"], frozenset(it["criteria"].split(",")), it.get("inherits_parent", False)))
        # The masters whose own dependencies count too.
        self.inherited_masters = {master for each in self.dependencies.values() for master, _, is_inherited in each if is_inherited}


def read_mirrors(folder: pathlib.Path, setups: Mapping[str, Mapping[str, Any]]) -> Dict[int, AbstractSet[str]]:
    """The names of the mirrors of each part that has some, by its number. The keys of the setups are the names of their files, without the ending."""
    document = read_object(folder, FILE)
    for stem, homes in document.items():
        require(stem in setups, f"{FILE}: {stem}: there is no {stem}.json")
        members_of(homes, f"{FILE}: {stem}")
    parts = {stem: Part(stem, setup) for stem, setup in setups.items()} if document else {}
    for stem, homes in document.items():
        for name, home in homes.items():
            test_mirror(name, parts[stem], home, parts, document)
        test_options(parts[stem], [parts[home] for home in sorted(set(homes.values()))])
    return {number: frozenset(document[stem]) for number, stem in enumerate(setups) if document.get(stem)}


def test_mirror(name: str, part: Part, home: Any, parts: Mapping[str, Part], document: Mapping[str, Mapping[str, Any]]) -> None:
    """A mirror is never checked, and has its original in another part, which judges results in the same way."""
    place = f"{FILE}: {part.stem}: {name}"
    require(name in part.objects, f"{place}: {part.stem}.json has no such object")
    require(isinstance(home, str) and home in parts, f"{place}: the part of its original isn't there: {home!r}")
    require(home != part.stem, f"{place}: its original is in another part, not in {home}")
    require(name in parts[home].objects, f"{place}: {home}.json has no such object")
    require(name not in document.get(home, {}), f"{place}: {home} has a mirror of it too, and not the original")
    here, there = part.objects[name], parts[home].objects[name]
    is_never_checked = all(here.get(member) == value for member, value in NEVER.items())
    require(is_never_checked, f'{place}: a mirror has "enabled":false, "check_interval":0 and "retry_interval":0')
    has_same_masters = name not in part.inherited_masters or part.dependencies.get(name) == parts[home].dependencies.get(name)
    differ = f"aren't those of its original in {home}.json"
    require(here["max_check_attempts"] == there["max_check_attempts"], f"{place}: max_check_attempts {differ}")
    require(set(here.get("parents", ())) == set(there.get("parents", ())), f"{place}: parents {differ}")
    require(has_same_masters, f"{place}: dependencies, which count here for those that depend on it, {differ}")


def test_options(part: Part, homes: Sequence[Part]) -> None:
    """With mirrors, no take waits for a limit, and results are judged in the same way in all parts."""
    place = f"{FILE}: {part.stem}"
    is_unlimited = not homes or part.options.get("max_concurrent_checks", 0) == 0
    require(is_unlimited, f"{place}: max_concurrent_checks of a part with mirrors is 0: slots in monitor.json is the limit of all parts")
    for home in homes:
        for option in JUDGING:
            is_same = part.options[option] == home.options[option]
            require(is_same, f"{place}: {option} isn't that of {home.stem}, by which the originals of its mirrors are judged")
