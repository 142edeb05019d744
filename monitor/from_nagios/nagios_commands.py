"""The command lines of a configuration of Nagios Core 4, with expanded macros. For from_nagios.py --commands and --site."""
import pathlib
import re
import shlex
import sys
import urllib.parse
from typing import Callable, Dict, Iterable, List, Mapping, NamedTuple, Optional, Sequence, Tuple

from nagios_groups import Groups
from nagios_values import Definition, Members, full_name, split_list

# The macros whose values are known before Nagios runs, each with its member; every other macro of capital letters has a value only at run time.
HOST_MACROS = {"NAME": "host_name", "ALIAS": "alias", "DISPLAYNAME": "display_name", "ADDRESS": "address", "CHECKCOMMAND": "check_command"}
SERVICE_MACROS = {"DESC": "service_description", "DISPLAYNAME": "display_name", "CHECKCOMMAND": "check_command"}
GROUP_MACROS = {"NAME": "{}group_name", "ALIAS": "alias"}
# Members in which macros are expanded too, and whether the value is encoded for a URL.
NOTES = {"NOTES": ("notes", False), "NOTESURL": ("notes_url", True), "ACTIONURL": ("action_url", True)}
MACRO = re.compile(r"\$([^$\n]*)\$")
AT_RUN_TIME = re.compile(r"[A-Z]+\d*(:.*)?")
# Characters that only a shell understands, outside quotes: Nagios gives such a line to one.
QUOTED = re.compile(r"""'[^']*'|"[^"$`\\]*\"""")
FOR_A_SHELL = re.compile(r"""[|&;<>()$`\\"'*?\[\]#~{}!]""")

Lookup = Callable[[str], Optional[str]]


class CommandLine(NamedTuple):
    """A command line; whether it needs a shell, and whether only because of the value of a macro, such as an alias with a semicolon."""

    text: str
    needs_shell: bool
    by_a_value: bool


class NoCommand(Exception):
    """Why an object has no command line that can be run."""


def read_resource(lines: Iterable[Tuple[str, str]]) -> Dict[str, str]:
    """The macros of a resource file, such as `$USER1$=/usr/lib/nagios/plugins`, from its lines."""
    macros = {}
    for place, line in lines:
        name, equals, value = line.partition("=")
        if not equals or not re.fullmatch(r"\$USER\d+\$", name.strip()):
            raise NoCommand(f"{place}: a line has to be like $USER1$=/usr/lib/nagios/plugins, not {line!r}")
        macros[name.strip().strip("$")] = value.strip()
    return macros


def expanded(text: str, lookup: Lookup, encoded: bool = False) -> str:
    """The text with expanded macros; `$$` is one dollar. A custom variable that the object doesn't have stays unchanged, and so does
    any other text between two dollars, as in Nagios."""
    def value(match: "re.Match[str]") -> str:
        name = match[1]
        found = lookup(name) if name else "$"
        if found is None and AT_RUN_TIME.fullmatch(name):
            raise NoCommand(f"${name}$ has no value before Nagios runs")
        return match[0] if found is None else urllib.parse.quote(found, safe="") if encoded and name else found

    return MACRO.sub(value, text)


class Macros:
    """The values of macros before Nagios runs, for a check of a host or of a service on it."""

    def __init__(self, network: "Network", host: Members, service: Optional[Members]) -> None:
        self._network, self._host, self._service = network, host, service

    def lookup(self, name: str) -> Optional[str]:
        """The value of a macro; None if its value isn't known here."""
        name, colon, of = name.partition(":")
        if name in self._network.resource and not colon:
            return self._network.resource[name]
        for prefix, find in (("_HOST", self._of_host), ("_SERVICE", self._of_service), ("HOSTGROUP", self._host_group), ("SERVICEGROUP", self._service_group),
                             ("HOST", self._of_host), ("SERVICE", self._of_service)):
            if name.startswith(prefix):
                return find(("_" if prefix.startswith("_") else "") + name[len(prefix) :], of)
        return None

    def _of_host(self, name: str, of: str) -> Optional[str]:
        """A macro of the host, of another one, or, with a delimiter, of each host of a group."""
        group, colon, delimiter = of.partition(":")
        if colon:
            members = split_list(self._network.groups.hosts.get(group, {}).get("members", ""))
            values = [value for value in (self._of_host(name, member) for member in members) if value is not None]
            return delimiter.join(values) if values and len(values) == len(members) else None
        host = self._network.hosts.get(of) if of else self._host
        if host is None:
            return None
        if name == "GROUPNAMES":
            return ",".join(self._network.groups.of_host.get(host["host_name"], []))
        return Macros(self._network, host, None).of_member(host, name, HOST_MACROS)

    def _of_service(self, name: str, of: str) -> Optional[str]:
        """A macro of the service, or of another one, which is on the same host if none is named."""
        host, colon, description = of.partition(":")
        service = self._network.services.get(f"{host or self._host['host_name']};{description}") if colon else None if of else self._service
        if service is None:
            return None
        if name == "GROUPNAMES":
            return ",".join(self._network.groups.of_service.get(full_name(service), []))
        own_host = self._network.hosts.get(service["host_name"], service)
        return Macros(self._network, own_host, service).of_member(service, name, SERVICE_MACROS)

    def _host_group(self, name: str, of: str) -> Optional[str]:
        return self._of_host("GROUPNAMES", of) if name == "NAMES" else self._of_group("host", name, of,
                                                                                      self._network.groups.of_host.get(self._host["host_name"], []))

    def _service_group(self, name: str, of: str) -> Optional[str]:
        if name == "NAMES":
            return self._of_service("GROUPNAMES", of)
        own = "" if self._service is None else full_name(self._service)
        return self._of_group("service", name, of, self._network.groups.of_service.get(own, []))

    def _of_group(self, kind: str, name: str, of: str, own: Sequence[str]) -> Optional[str]:
        """A macro of a group, or of the object's first one; the macro's text if the object is in no group, as Nagios leaves it."""
        groups = self._network.groups.hosts if kind == "host" else self._network.groups.services
        if not of and not own:
            return f"${kind.upper()}GROUP{name}$"
        group = groups.get(of or own[0])
        if group is None:
            return None
        if name == "MEMBERS":
            return ",".join(split_list(group.get("members", "")))
        return self.of_member(group, name, {macro: member.format(kind) for macro, member in GROUP_MACROS.items()})

    def of_member(self, members: Members, name: str, names: Mapping[str, str]) -> Optional[str]:
        """The value of a macro from an object's members. A missing member is the first of the names, the object's own."""
        if name.startswith("_"):
            return {key.upper(): str(value) for key, value in members.items() if key.startswith("_")}.get(name)
        if name in NOTES:
            member, encoded = NOTES[name]
            return expanded(members.get(member, ""), self.lookup, encoded)
        if name not in names:
            return None
        return str(members.get(names[name], "" if name == "CHECKCOMMAND" else members[next(iter(names.values()))]))


class Network:
    """The objects of a configuration, by name."""

    def __init__(self, objects: Sequence[Definition], resource: Mapping[str, str]) -> None:
        self.resource, self.groups = resource, Groups(objects)
        self.commands = {str(members["command_name"]): str(members["command_line"]) for kind, _, members in objects if kind == "command"}
        self.hosts = {str(members["host_name"]): members for kind, _, members in objects if kind == "host"}
        self.services = {full_name(members): members for kind, _, members in objects if kind == "service"}

    def line_of(self, members: Members, service: Optional[Members]) -> CommandLine:
        """The command line of one object."""
        if "check_command" not in members:
            raise NoCommand("no check_command")
        name, arguments = split_check_command(members["check_command"])
        if name not in self.commands:
            raise NoCommand(f"no command {name}")
        macros = Macros(self, self.hosts.get(members["host_name"], members), service)
        line = expanded_command(self.commands[name], arguments, macros.lookup)
        try:
            words = shlex.split(line)
        except ValueError as error:
            raise NoCommand(f"its command line can't be split into words: {error}") from None
        if not words:
            raise NoCommand("its command line is empty")
        without_values = expanded_command(self.commands[name], arguments, lambda macro: self.resource.get(macro, "x"))
        return CommandLine(line, needs_shell(line), needs_shell(line) and not needs_shell(without_values))


def expanded_command(text: str, arguments: Sequence[str], lookup: Lookup) -> str:
    """A command line with its arguments and macros."""
    given = {f"ARG{number}": "" for number in range(1, 33)}
    given.update({f"ARG{number}": expanded(argument, lookup) for number, argument in enumerate(arguments, 1)})
    return expanded(text, lambda macro: given[macro] if macro in given else lookup(macro))


def split_check_command(check_command: str) -> Tuple[str, List[str]]:
    """The name of a command and its arguments, separated by exclamation marks; after a backslash an exclamation mark is a letter."""
    name, *rest = re.split(r"(?<!\\)!", check_command)
    return name.strip(), [argument.replace("\\!", "!") for argument in rest]


def needs_shell(line: str) -> bool:
    return bool(FOR_A_SHELL.search(QUOTED.sub("", line))) or "=" in line.split(" ", 1)[0]


def direct_line(line: CommandLine) -> str:
    """The line as one that needs no shell: a line that needs one begins with the shell."""
    return shlex.join(["/bin/sh", "-c", line.text]) if line.needs_shell else line.text


def resource_file(options: Mapping[str, str], beside: pathlib.Path, named: Optional[pathlib.Path]) -> Optional[pathlib.Path]:
    """The path of the resource file: the given one, or the one in nagios.cfg, or, for copied files, the one next to nagios.cfg, which it then reports."""
    if named is not None:
        return named
    if "resource_file" not in options:
        return None
    path = pathlib.Path(options["resource_file"])
    copy = beside.with_name(path.name)
    if path.exists() or not copy.exists():
        return path
    print(f"{path} isn't here: {copy} is read as the resource file (--resource FILE names another)", file=sys.stderr)
    return copy


def commands_of(objects: Sequence[Definition], resource: Mapping[str, str]) -> Tuple[Dict[str, CommandLine], Dict[str, str]]:
    """The command line of each host and service by its full name; and why others have none, by name."""
    network = Network(objects, resource)
    lines: Dict[str, CommandLine] = {}
    without: Dict[str, str] = {}
    for kind, place, members in objects:
        if kind not in ("host", "service"):
            continue
        name = full_name(members)
        try:
            lines[name] = network.line_of(members, members if kind == "service" else None)
        except NoCommand as why:
            without[name] = f"{place}: {name}: {why}"
    return lines, without
