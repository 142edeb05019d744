"""Large networks as Nagios writes them out, with every member that it writes: behind one gateway, or treelike."""
import pathlib
from typing import List

OPTIONS = "interval_length=60\nmax_concurrent_checks=0\n"
COMMAND = "define command {\n\tcommand_name\tc\n\tcommand_line\t/bin/true\n\t}\n\n"
BOTH = {
    "check_period": "24x7", "check_command": "c", "contact_groups": "admins", "notification_period": "24x7", "initial_state": "o", "importance": "0",
    "check_interval": "5.000000", "retry_interval": "1.000000", "max_check_attempts": "3", "active_checks_enabled": "1", "passive_checks_enabled": "1",
    "obsess": "1", "event_handler_enabled": "1", "low_flap_threshold": "0.000000", "high_flap_threshold": "0.000000", "flap_detection_enabled": "1",
    "flap_detection_options": "a", "freshness_threshold": "0", "check_freshness": "0", "notifications_enabled": "1",
    "notification_interval": "300.000000", "first_notification_delay": "0.000000", "stalking_options": "n", "process_perf_data": "1",
    "retain_status_information": "1", "retain_nonstatus_information": "1",
}
NOTIFIED = {"host": "r,d,u,f,s", "service": "r,w,u,c,f,s"}
ALWAYS = "define timeperiod {\n\ttimeperiod_name\t24x7\n\talias\tAlways\n%s\t}\n\n" % "".join(
    f"\t{day}\t00:00-24:00\n" for day in ("sunday", "monday", "tuesday", "wednesday", "thursday", "friday", "saturday"))


def definition(kind: str, **members: str) -> str:
    its = {"notification_options": NOTIFIED[kind]}
    return f"define {kind} {{\n" + "".join(f"\t{name}\t{value}\n" for name, value in (members | BOTH | its).items()) + "\t}\n\n"


def parent_of(number: int, children: int) -> str:
    """The parent of a host: the gateway h00000 if the network is flat, otherwise the host above it in a tree with this many children each."""
    return f"h{(number - 1) // children:05}" if children else "h00000"


def write_network(folder: pathlib.Path, hosts: int, services: int, children: int = 0) -> List[str]:
    """Writes nagios.cfg and objects.precache of such a network, and returns the full names."""
    text, names = [ALWAYS, COMMAND], []
    for number in range(hosts):
        name = f"h{number:05}"
        parents = {"parents": parent_of(number, children)} if number else {}
        text.append(definition("host", host_name=name, alias=f"The host {name}", address="192.0.2.1", **parents))
        names.append(name)
        for service in range(services):
            text.append(definition("service", host_name=name, service_description=f"service-{service:02}"))
            names.append(f"{name};service-{service:02}")
    (folder / "nagios.cfg").write_text(OPTIONS)
    (folder / "objects.precache").write_text("".join(text))
    return names
