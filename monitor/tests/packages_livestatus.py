"""Livestatus with real clients: NagVis's backend, Nagstamon's class, pynag and Perl's module, without a change in them.

    cd monitor; python3 -m tests.packages_livestatus PROGRAM UNPACKED

PROGRAM is `nagsched`, UNPACKED the folder of the unpacked packages. Each client reads the states of a running site. Nagstamon and NagVis acknowledge, have
objects checked and plan downtimes. What each asked and got is printed. A client that isn't there is named, and passed over. `packages.sh` runs this.
"""
import json
import os
import pathlib
import shutil
import socket
import subprocess
import sys
import tempfile
import threading
import time
from typing import Dict, List

from .livestatus_site import ask
from .waiting import becomes_true

MONITOR = pathlib.Path(__file__).resolve().parent.parent / "nagsched-monitor"
LINES = {"gate": "echo up", "web": "echo up", "web;http": "echo 'HTTP OK|time=0.1s'", "web;load": "echo 'load 7'; exit 1",
         "web;disk": "echo '99% used'; exit 2"}
# NagVis's own class, with the few functions of NagVis that it needs.
PHP = r"""<?php
error_reporting(E_ERROR);
function l($t, $a = Array()) { foreach ($a as $k => $v) $t = str_replace("[$k]", $v, $t); return $t; }
function cfg($s, $k) { return ['socket' => 'unix:' . getenv('SOCKET'), 'timeout' => 5, 'only_permitted_objects' => false,
                              'staleness_threshold' => 1.5][$k] ?? null; }
class BackendConnectionProblem extends Exception {} class BackendInvalidResponse extends Exception {} class BackendException extends Exception {}
foreach (glob(getenv('CORE') . '/defines/*.php') as $f) require_once $f;
require_once getenv('CORE') . '/classes/GlobalBackendInterface.php';
require_once getenv('CORE') . '/classes/GlobalBackendmklivestatus.php';
class O { public $n, $s; function __construct($n, $s = null) { $this->n = $n; $this->s = $s; } function getName() { return $this->n; }
          function getServiceDescription() { return $this->s; } function __call($f, $a) { return null; } }
$b = new GlobalBackendmklivestatus('live');
$hf = [['key' => 'host_name', 'op' => '=', 'val' => 'name']];
$sf = [['key' => 'host_name', 'op' => '='], ['key' => 'service_description', 'op' => '=']];
$b->actionAcknowledge('service', 'web;disk', 'known', 1, 1, 0, 'ann');
sleep(3);
echo json_encode([
    'hosts' => $b->getObjects('host'), 'groups' => $b->getObjects('hostgroup'), 'state' => $b->getHostState(['web' => [new O('web')]], 0, $hf)['web'][0],
    'disk' => array_slice($b->getServiceState(['web~~disk' => [new O('web', 'disk')]], 0, $sf)['web~~disk'], 0, 4),
    'counts' => $b->getHostMemberCounts(['web' => [new O('web')]], 0, $hf)['web']['counts'],
    'of group' => array_keys($b->getHostgroupStateCounts(['linux' => [new O('linux')]], 0, [['key' => 'host_groups', 'op' => '>=']])),
    'no parent' => $b->getHostNamesWithNoParent(), 'children' => $b->getDirectChildNamesByHostName('gate'), 'members' => $b->getHostNamesInHostgroup('linux'),
    'problems' => $b->getHostNamesProblematic(), 'contacts' => $b->getContactsWithGroups()]);
"""
NAGSTAMON = r"""
import json, os, sys, time, types
base = os.environ["PACKAGES"] + "/Nagstamon"
def module(name, **members):
    sys.modules[name] = types.ModuleType(name); sys.modules[name].__dict__.update(members)
module("Nagstamon", __path__=[base])  # without its window: the class under test is its own
module("Nagstamon.Config", conf=types.SimpleNamespace(filter_acknowledged_hosts_services=False))
module("Nagstamon.Servers", __path__=[base + "/Servers"])
module("Nagstamon.Servers.Generic", GenericServer=type("GenericServer", (), {}))
source = "".join(line for line in open(base + "/Objects.py") if not line.startswith(("from Nagstamon", "import Nagstamon")))
module("Nagstamon.Objects"); exec(source, sys.modules["Nagstamon.Objects"].__dict__)
from Nagstamon.Servers.Livestatus import LivestatusServer
server = LivestatusServer(); server.name = "site"; server.monitor_url = "tcp://127.0.0.1:" + os.environ["PORT"]; server.init_config()
def shown():
    server._get_status(); server.hosts = server.new_hosts
    return {f"{host.name};{each.name}": [each.status, each.status_information, each.acknowledged, each.scheduled_downtime]
            for host in server.hosts.values() for each in host.services.values()}
before = shown(); now = int(time.time())
server.set_recheck({"host": "web", "service": "load"})
server.set_acknowledge({"host": "web", "service": "load", "sticky": True, "notify": True, "persistent": False, "author": "ann", "comment": "known"})
server.command(f"SCHEDULE_SVC_DOWNTIME;web;load;{now};{now + 600};1;0;600;ann;move")
time.sleep(3)
print(json.dumps({"before": before, "after": shown()}))
"""
PYNAG = r"""
import json, os, sys, types
sys.modules["chardet"] = types.ModuleType("chardet"); sys.path.insert(0, os.environ["PACKAGES"])
from pynag.Parsers.livestatus import Livestatus
live = Livestatus(livestatus_socket_path=os.environ["SOCKET"])
print(json.dumps({"test": live.test(), "hosts": len(live.get_hosts()), "disk": live.get_service("web", "disk")["plugin_output"],
                  "groups": len(live.get_hostgroups()),
                  "contacts": [each["name"] for each in live.get_contacts()], "counts": live.query("GET services", "Stats: state = 0", "Stats: state != 0")}))
"""
PERL = r"""
use strict; use Monitoring::Livestatus; use Cpanel::JSON::XS;
my $live = Monitoring::Livestatus->new(socket => $ENV{SOCKET}, keepalive => 1, warnings => 0, errors_are_fatal => 0);
my %found = (hosts => $live->selectcol_arrayref("GET hosts\nColumns: name"),
    stats => $live->selectrow_hashref("GET services\nStats: state = 0 as ok\nStats: state = 2 as bad"),
    sorted => $live->selectall_arrayref("GET services\nColumns: description", 
        { sort => ['state desc'], wrapped_json => 1, limit_start => 0, limit_length => 2 }));
$live->do("COMMAND [" . time() . "] ENABLE_HOST_CHECK;nobody");
$found{refused} = $Monitoring::Livestatus::ErrorMessage;
print encode_json(\%found);
"""
# The answers to each client that don't depend on the time.
WANTED: Dict[str, str] = {
    "NagVis": '"hosts": [{"name1": "gate", "name2": "gate"}, {"name1": "web", "name2": "Web server"}], '
              '"groups": [{"name1": "linux", "name2": "Linux servers"}], '
              '"state": 10, "disk": [2, "99% used", true, false], "counts": ',
    "Nagstamon": '"before": {"web;disk": ["CRITICAL", "99% used", true, false], "web;load": ["WARNING", "load 7", false, false]}, '
                 '"after": {"web;disk": ["CRITICAL", "99% used", true, false], "web;load": ["WARNING", "load 7", true, true]}',
    "pynag": '"test": true, "hosts": 2, "disk": "99% used", "groups": 1, "contacts": ["ada"], "counts": [1, 2]',
    "Perl": '"hosts": ["gate", "web"], "refused": "ENABLE_HOST_CHECK: nobody: there is no object \'nobody\'; the command status lists the full names", '
            '"sorted": [["disk"], ["load"]], '
            '"stats": {"bad": 1, "ok": 1}',
}


def write_site(folder: pathlib.Path) -> None:
    hosts = [{"name": "gate", "max_check_attempts": 1, "check_interval": 10},
             {"name": "web", "parents": ["gate"], "max_check_attempts": 1, "check_interval": 10}]
    services = [{"host": "web", "description": name, "max_check_attempts": 1, "check_interval": 10} for name in ("http", "load", "disk")]
    options = {"interval_length": 1, "host_inter_check_delay_method": "n", "service_inter_check_delay_method": "n"}
    for name, document in (("setup", {"options": options, "hosts": hosts, "services": services}), ("inventory", {"web": {"alias": "Web server"}}),
                           ("commands", {name: {"line": line, "shell": True} for name, line in LINES.items()}),
                           ("groups", {"web": {"host_groups": ["linux"], "contact_groups": ["team"], "contacts": ["ada"]}}),
                           ("directory", {"host_groups": {"linux": {"alias": "Linux servers"}}, "contact_groups": {"team": {"members": ["ada"]}}})):
        (folder / f"{name}.json").write_text(json.dumps(document))


def forward(server: socket.socket, path: pathlib.Path) -> None:
    """Passes what clients send over TCP on to the socket."""
    def pump(one: socket.socket, other: socket.socket) -> None:
        while data := one.recv(65_536):
            other.sendall(data)
        other.shutdown(socket.SHUT_WR)

    while True:
        client, _ = server.accept()
        there = socket.socket(socket.AF_UNIX)
        there.connect(str(path))
        for pair in ((client, there), (there, client)):
            threading.Thread(target=pump, args=pair, daemon=True).start()


def main(program: str, unpacked: str) -> int:
    wrong: List[str] = []
    packages = pathlib.Path(unpacked, "usr/lib/python3/dist-packages")
    core = pathlib.Path(unpacked, "usr/share/nagvis/share/server/core")
    perl = subprocess.run(["perl", "-MMonitoring::Livestatus", "-e", "1"], capture_output=True, check=False).returncode == 0
    clients = {"NagVis": (["php", "-r", PHP.replace("<?php", "")], shutil.which("php") and core.exists()),
               "pynag": ([sys.executable, "-c", PYNAG], (packages / "pynag").exists()),
               "Nagstamon": ([sys.executable, "-c", NAGSTAMON], (packages / "Nagstamon").exists()), "Perl": (["perl", "-e", PERL], perl)}
    with tempfile.TemporaryDirectory() as holder, socket.create_server(("127.0.0.1", 0)) as server:
        folder, path = pathlib.Path(holder), pathlib.Path(holder, "live")
        write_site(folder)
        running = subprocess.Popen([sys.executable, str(MONITOR), "--program", program, "--livestatus", str(path), str(folder)], stdout=subprocess.DEVNULL)
        try:
            becomes_true(lambda: path.exists() and ask(path, "GET services\nStats: has_been_checked = 1\n") == "3\n")
            threading.Thread(target=forward, args=(server, path), daemon=True).start()
            environment = {**os.environ, "SOCKET": str(path), "PORT": str(server.getsockname()[1]), "PACKAGES": str(packages), "CORE": str(core)}
            for name, (command, is_there) in clients.items():
                if not is_there:
                    print(f"packages: passed over {name}, which isn't here")
                    continue
                ran = subprocess.run(command, env=environment, capture_output=True, text=True, timeout=120, check=False)
                try:
                    got = json.dumps(json.loads(ran.stdout), sort_keys=name == "Perl")[1:-1]
                except ValueError:
                    got = f"{ran.stdout} {ran.stderr}"
                print(f"{name}: {got}")
                wrong += [] if got.startswith(WANTED[name]) else [f"{name}: it should begin with {WANTED[name]}"]
        finally:
            running.terminate()
            running.wait(timeout=60)
    print("\n".join([*wrong, f"packages: Livestatus {'failed' if wrong else 'passed'}"]))
    return 1 if wrong else 0


if __name__ == "__main__":
    sys.exit(main(*sys.argv[1:]))
