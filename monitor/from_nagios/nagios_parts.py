"""Divides a setup that is too large into several, with mirrors for objects that a part needs of another. For from_nagios.py.

A piece is a set of objects connected by parents, dependencies and hosts of services. A piece that is too large for a setup is cut between hosts. A host or a
master that another part needs is then a mirror there too. With a host come all its parents up to the root, with a service its host, and with a master its
own masters. A mirror is never checked there: it is off, and its intervals are 0.
"""
import collections
from dataclasses import dataclass, field
from typing import Any, Dict, FrozenSet, Iterable, Iterator, List, Optional, Sequence, Set, Tuple

MOST_OBJECTS, MOST_LINKS = 4_096, 16_384
DEPENDENCIES = ("service_dependencies", "host_dependencies")
NEVER = {"enabled": False, "check_interval": 0, "retry_interval": 0}

Setup = Dict[str, Any]
# The numbers of objects, dependencies and parents.
Sizes = Tuple[int, int, int]


class CannotBeSplit(Exception):
    """No cut makes a piece small enough, or a named object doesn't exist."""


@dataclass(frozen=True)
class Limits:
    """The limits of one setup."""

    objects: int = MOST_OBJECTS
    links: int = MOST_LINKS

    def allow(self, sizes: Sizes) -> bool:
        return sizes[0] <= self.objects and max(sizes[1:]) <= self.links


def service_name(service: Setup) -> str:
    return f"{service['host']};{service['description']}"


def objects_by_name(setup: Setup) -> Dict[str, Setup]:
    """The hosts and services of a setup by their full names."""
    return {host["name"]: host for host in setup["hosts"]} | {service_name(service): service for service in setup["services"]}


def host_of(name: str) -> str:
    """The host of an object by its full name."""
    return name.partition(";")[0]


def sizes_of(setup: Setup) -> Sizes:
    """The numbers of objects, dependencies and parents of a setup."""
    parents = sum(len(host.get("parents", ())) for host in setup["hosts"])
    return len(setup["hosts"]) + len(setup["services"]), sum(len(setup[kind]) for kind in DEPENDENCIES), parents


@dataclass(frozen=True)
class Group:
    """Objects that come into a part together: those that are checked there, all that have to be there, and those whose dependencies count."""

    checked: FrozenSet[str]
    there: FrozenSet[str]
    depending: FrozenSet[str]


class Network:
    """The objects of a setup, and the objects that each needs."""

    def __init__(self, setup: Setup) -> None:
        self.hosts: Dict[str, Setup] = {host["name"]: host for host in setup["hosts"]}
        self.services: Dict[str, List[str]] = {name: [] for name in self.hosts}
        self.masters: Dict[str, List[str]] = collections.defaultdict(list)
        self._above: Dict[str, FrozenSet[str]] = {}
        self.names = set(self.hosts)
        for service in setup["services"]:
            self.services[self.existing_host(service["host"])].append(service_name(service))
            self.names.add(service_name(service))
        for host in setup["hosts"]:
            for parent in host.get("parents", ()):
                self.existing_host(parent)
        for kind in DEPENDENCIES:
            for dependency in setup[kind]:
                self.masters[self._there(dependency["dependent"])].append(self._there(dependency["master"]))

    def existing_host(self, host: str) -> str:
        """The name of an existing host."""
        if host not in self.hosts:
            raise CannotBeSplit(f"no host {host}")
        return host

    def _there(self, name: str) -> str:
        self.existing_host(host_of(name))
        if name not in self.names:
            raise CannotBeSplit(f"no service {name}")
        return name

    def parents(self, host: str) -> Sequence[str]:
        parents: Sequence[str] = self.hosts[host].get("parents", ())
        return parents

    def links(self, names: Iterable[str]) -> Tuple[int, int]:
        """The number of dependencies of these dependents, and the number of their parents."""
        return sum(len(self.masters.get(name, ())) for name in names), sum(len(self.parents(name)) for name in names if name in self.hosts)

    def ancestors(self, host: str) -> FrozenSet[str]:
        """A host and all its parents up to the root."""
        if host not in self._above:
            found, left = {host}, [host]
            while left:
                for parent in self.parents(left.pop()):
                    if parent not in found:
                        known = self._above.get(parent)
                        found |= known or {parent}
                        left += [] if known else [parent]
            self._above[host] = frozenset(found)
        return self._above[host]

    def all_masters(self, names: Iterable[str]) -> Set[str]:
        """The masters of these, their masters, and so on."""
        found: Set[str] = set()
        left = [master for name in names for master in self.masters.get(name, ())]
        while left:
            name = left.pop()
            if name not in found:
                found.add(name)
                left += self.masters.get(name, ())
        return found

    def group(self, hosts: Iterable[str]) -> Group:
        """Hosts with their services, and the objects that these need."""
        hosts = list(hosts)
        checked = frozenset([*hosts, *(name for host in hosts for name in self.services[host])])
        masters = self.all_masters(checked)
        needed = {*hosts, *(host_of(name) for name in masters)}
        return Group(checked, checked.union(masters, *(self.ancestors(host) for host in needed)), checked | masters)

    def connected_pieces(self) -> List[List[str]]:
        """The connected hosts, each piece from its roots down, so that hosts with the same parents are next to each other."""
        beside: Dict[str, List[str]] = {host: [] for host in self.hosts}
        below: Dict[str, List[str]] = {host: [] for host in self.hosts}
        for host in self.hosts:
            for parent in self.parents(host):
                below[parent].append(host)
                beside[host].append(parent)
                beside[parent].append(host)
        for name, masters in self.masters.items():
            for master in masters:
                beside[host_of(name)].append(host_of(master))
                beside[host_of(master)].append(host_of(name))
        place = {host: number for number, host in enumerate(reachable([host for host in self.hosts if not self.parents(host)], below))}
        seen: Set[str] = set()
        pieces = []
        for host in self.hosts:
            if host not in seen:
                piece = list(reachable([host], beside, seen))
                pieces.append(sorted(piece, key=lambda name: place.get(name, len(place))))
        return pieces


def reachable(first: Sequence[str], after: Dict[str, List[str]], seen: Optional[Set[str]] = None) -> Iterator[str]:
    """All that is reached from these, each once, and everything from one before the next."""
    seen = set() if seen is None else seen
    left = list(reversed(first))
    while left:
        name = left.pop()
        if name not in seen:
            seen.add(name)
            yield name
            left += reversed(after[name])


@dataclass
class Part:
    """One of the setups, while it fills."""

    network: Network
    limits: Limits
    checked: Set[str] = field(default_factory=set)
    there: Set[str] = field(default_factory=set)
    depending: Set[str] = field(default_factory=set)
    sizes: Sizes = (0, 0, 0)

    def sizes_with(self, group: Group) -> Sizes:
        """Its sizes if these objects were also in it."""
        new, depending = group.there - self.there, group.depending - self.depending
        dependencies, parents = self.network.links(depending)[0], self.network.links(new)[1]
        return self.sizes[0] + len(new), self.sizes[1] + dependencies, self.sizes[2] + parents

    def has_room(self, group: Group) -> bool:
        return self.limits.allow(self.sizes_with(group))

    def add(self, group: Group) -> None:
        self.sizes = self.sizes_with(group)
        self.checked |= group.checked
        self.there |= group.there
        self.depending |= group.depending

    def mirrors(self) -> Set[str]:
        return self.there - self.checked

    def setup(self, whole: Setup) -> Setup:
        """The objects of the whole setup in this part, in its order."""
        as_here = {name: NEVER for name in self.mirrors()}
        part: Setup = {"options": whole["options"]}
        part["hosts"] = [host | as_here.get(host["name"], {}) for host in whole["hosts"] if host["name"] in self.there]
        names = ((service, service_name(service)) for service in whole["services"])
        part["services"] = [service | as_here.get(name, {}) for service, name in names if name in self.there]
        for kind in DEPENDENCIES:
            part[kind] = [dependency for dependency in whole[kind] if dependency["dependent"] in self.depending]
        return part


def parts_of(setup: Setup, limits: Limits = Limits(), with_mirrors: bool = True) -> Tuple[List[Setup], Dict[str, Dict[str, str]]]:
    """Several setups, and for each that has mirrors their names, with the part of the original: `{"part-2": {"gateway": "part-1"}}`.

    Each piece goes, the largest first, into the first part with room. A piece that is too large is cut, or refused if mirrors aren't allowed."""
    network = Network(setup)
    pieces = sorted(((network.group(hosts), hosts) for hosts in network.connected_pieces()), key=lambda piece: len(piece[0].there), reverse=True)
    parts: List[Part] = []
    for group, hosts in pieces:
        if Part(network, limits).has_room(group):
            place_group(group, parts, parts, Part(network, limits))
        elif with_mirrors:
            split_piece(hosts, parts, network, limits)
        else:
            refuse(hosts[0], Part(network, limits).sizes_with(group), limits)
    home = {name: f"part-{number}" for number, part in enumerate(parts, 1) for name in part.checked}
    mirrors = {f"part-{number}": {name: home[name] for name in sorted(part.mirrors())} for number, part in enumerate(parts, 1) if part.mirrors()}
    return [part.setup(setup) for part in parts], mirrors


def place_group(group: Group, wanted: Sequence[Part], parts: List[Part], empty: Part) -> Part:
    """Adds objects to the first of these parts that has room, or to one more."""
    part = next((part for part in wanted if part.has_room(group)), None)
    if part is None:
        parts.append(empty)
        part = empty
    part.add(group)
    return part


def split_piece(hosts: Sequence[str], parts: List[Part], network: Network, limits: Limits) -> None:
    """Cuts a piece between its hosts. Each host goes into the part of the one before it, while there is room."""
    own: List[Part] = []
    for host in hosts:
        group = network.group([host])
        if not Part(network, limits).has_room(group):
            refuse(host, Part(network, limits).sizes_with(group), limits)
        part = place_group(group, own, parts, Part(network, limits))
        own = [part, *(other for other in own if other is not part)]


def refuse(host: str, sizes: Sizes, limits: Limits) -> None:
    objects, dependencies, parents = sizes
    raise CannotBeSplit(
        f"the piece with host {host} is too large for one setup: {objects} objects, {dependencies} dependencies, {parents} parents "
        f"(at most {limits.objects}, {limits.links}, {limits.links})")
