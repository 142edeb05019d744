"""The groups of a configuration of Nagios Core 4: the host, service and contact groups of each object, and what people see of groups and contacts. For
from_nagios.py."""
import collections
from typing import Any, Dict, List, Sequence

from nagios_values import Definition, Members, checked_objects, split_list


# The kinds of definitions that are listed, by their kinds in the site, and their members that are shown.
LISTED = {"host_groups": "hostgroup", "service_groups": "servicegroup", "contact_groups": "contactgroup", "contacts": "contact"}
SHOWN = ("alias", "notes", "notes_url", "action_url", "email", "pager")


def directory(objects: Sequence[Definition]) -> Dict[str, Dict[str, Any]]:
    """What people see of each group and each contact, by their kind and name."""
    found: Dict[str, Dict[str, Any]] = {}
    for listed, of in LISTED.items():
        for members in (members for kind, _, members in objects if kind == of):
            name = str(members[f"{of}_name"])
            shown: Dict[str, Any] = {member: str(members[member]) for member in SHOWN if member in members and members[member] != name}
            if of == "contactgroup":
                shown["members"] = sorted(split_list(members.get("members", "")))
            found.setdefault(listed, {})[name] = shown
    return found


def service_names(text: str) -> List[str]:
    """The full names of a list in which host and description alternate."""
    names = split_list(text)
    return [f"{host};{description}" for host, description in zip(names[::2], names[1::2])]


class Groups:
    """The host and service groups, and their objects."""

    def __init__(self, objects: Sequence[Definition]) -> None:
        self.hosts: Dict[str, Members] = {}
        self.services: Dict[str, Members] = {}
        # The groups of each host, and of each service by its full name: the last one of the file first, as in Nagios.
        self.of_host: Dict[str, List[str]] = collections.defaultdict(list)
        self.of_service: Dict[str, List[str]] = collections.defaultdict(list)
        for kind, _, members in objects:
            if kind == "hostgroup":
                self._add(members["hostgroup_name"], members, self.hosts, self.of_host, split_list(members.get("members", "")))
            elif kind == "servicegroup":
                self._add(members["servicegroup_name"], members, self.services, self.of_service, service_names(members.get("members", "")))

    @staticmethod
    def _add(group: str, members: Members, groups: Dict[str, Members], of: Dict[str, List[str]], names: List[str]) -> None:
        groups[group] = members
        for name in names:
            of[name].insert(0, str(group))

    def document(self, objects: Sequence[Definition]) -> Dict[str, Dict[str, Any]]:
        """The groups and contacts of each object that has some, by its full name. A service is in the host groups of its host."""
        document = {}
        for name, _, members in checked_objects(objects):
            several = {
                "host_groups": sorted(self.of_host.get(members["host_name"], [])),
                "service_groups": sorted(self.of_service.get(name, [])),
                "contact_groups": sorted(split_list(members.get("contact_groups", ""))),
                "contacts": sorted(split_list(members.get("contacts", ""))),
            }
            found = {member: names for member, names in several.items() if names}
            if found:
                document[name] = found
        return document
