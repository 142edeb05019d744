#!/usr/bin/env python3
"""Tests the scripts of tools/.

    .ci/deliverables/tools.py PROGRAM

The small network of conformance/nagios, as Nagios 4.4.6 wrote it, becomes a setup. Its counts, intervals and first checks are those that Nagios reports
in its schedule (schedule.txt). A generated network of 10,000 services is divided into parts that the program accepts. One behind a gateway is divided
into parts with mirrors. A template is refused with its place. The command line of each object is written, with its macros. The picture of README is
drawn again.
"""
import json
import pathlib
import random
import re
import shlex
import subprocess
import sys
import tempfile
import xml.dom.minidom

sys.path.append(str(pathlib.Path(__file__).resolve().parents[1] / "program"))
from harness import TOP, Harness
sys.path.append(str(TOP / "monitor/from_nagios"))
import nagios_parts

OFFICE = TOP / "conformance/nagios"
HOST = """define host {{
\thost_name\t{name}
\tparents\t{parents}
\tcheck_interval\t5.000000
\tretry_interval\t1.000000
\tmax_check_attempts\t3
\tactive_checks_enabled\t1
\t}}
"""
SERVICE = """define service {{
\thost_name\t{host}
\tservice_description\tservice-{number}
\tcheck_interval\t5.000000
\tretry_interval\t1.000000
\tmax_check_attempts\t4
\tactive_checks_enabled\t1
\t}}
"""


COMMANDS = """define command {
	command_name	plain
	command_line	$USER1$/check -H '$HOSTADDRESS$' -n "$HOSTALIAS$" -w $ARG1$ -c "$ARG2$" -x$ARG3$
	}
define command {
	command_name	piped
	command_line	$USER1$/check -s "$SERVICEDESC$" -o $_SERVICEOID$ -p '$_HOSTPASSWORD$' | head -1
	}
define command {
	command_name	dollars
	command_line	/bin/echo costs $$5 '$_HOSTMISSING$' $HOSTDISPLAYNAME$
	}
define command {
	command_name	late
	command_line	/bin/echo $LASTHOSTCHECK$
	}
define command {
	command_name	torn
	command_line	/bin/echo 'one
	}
define host {
	host_name	h
	alias	The host
	address	127.0.0.4
	check_command	dollars
	max_check_attempts	3
	_PASSWORD	se cret
	}
"""
# For each service: its check_command, and the arguments of the wanted command line, if there is one.
LINES = {
    "args": ("plain!10%!5 6\\!7", ["/plugins/check", "-H", "127.0.0.4", "-n", "The host", "-w", "10%", "-c", "5 6!7", "-x"]),
    "shell": ("piped", ["/bin/sh", "-c", "/plugins/check -s \"shell\" -o .1.3 -p 'se cret' | head -1"]),
    "nested": ("plain!$_SERVICEOID$!$HOSTNAME$!a", ["/plugins/check", "-H", "127.0.0.4", "-n", "The host", "-w", ".1.3", "-c", "h", "-xa"]),
    "at run time": ("late", None),
    "unbalanced": ("torn", None),
    "unknown": ("nothing!1", None),
    "none": (None, None),
}


PERIODS = """define timeperiod {
	timeperiod_name	always
	alias	Each time
	sunday	00:00-24:00
	monday	00:00-24:00
	tuesday	00:00-24:00
	wednesday	00:00-24:00
	thursday	00:00-24:00
	friday	00:00-24:00
	saturday	00:00-24:00
	}
define timeperiod {
	timeperiod_name	free
	alias	Holidays
	2026-12-24 - 2026-12-26	00:00-24:00
	january 1	00:00-24:00
	december 31 - january 2	12:00-24:00
	day -1	20:00-24:00
	day 1 - 3	20:00-24:00
	monday 1 may	00:00-24:00
	friday -1	18:00-24:00
	2026-01-01 / 3	00:00-24:00
	tuesday -1 - monday 1	00:00-24:00
	july 3	12:00-13:00,22:00-06:00,00:00-00:00
	}
define timeperiod {
	timeperiod_name	work
	alias	Work
	exclude	free
	monday	08:00-12:00,13:00-17:00
	}
"""
# For each service of a site: members in addition to its name, and its entry in which file.
SITE = {
    "plain": {"check_command": "plain!1%!2", "check_period": "always"},
    "piped": {"check_command": "piped", "check_period": "work", "is_volatile": "1"},
    "trap": {"active_checks_enabled": "0", "check_interval": "5"},
    "backup": {"active_checks_enabled": "0", "check_command": "dollars", "check_freshness": "1", "freshness_threshold": "90"},
    "nightly": {"check_command": "dollars", "check_freshness": "1", "freshness_threshold": "0", "check_interval": "5", "parents": "h,plain"},
    "lost": {"check_command": "nothing"},
}


def run_from_nagios(*words):
    ran = subprocess.run([sys.executable, TOP / "monitor/from_nagios/from_nagios.py", *words], capture_output=True, text=True)
    return ran.returncode, ran.stdout, ran.stderr


def names_of(setup):
    return [it["name"] for it in setup["hosts"]], [f"{it['host']};{it['description']}" for it in setup["services"]]


def first_checks(program, setup, names):
    """When each of these is checked first, in milliseconds from the start."""
    lines = [json.dumps(setup), *(json.dumps(["status", name]) for name in names)]
    ran = subprocess.run([program], input="\n".join(lines), capture_output=True, text=True)
    times = [line.split(" ")[6] for line in ran.stdout.splitlines()]
    return sorted(int(time) for time in times if time != "none")


def check_figures(program, setup, *words):
    """The figures that a check prints about a setup, by word."""
    ran = subprocess.run([program, "check", *words], input=json.dumps(setup, indent=1), capture_output=True, text=True)
    first, *lines = ran.stdout.splitlines()
    return dict(line.split(" ") for line in lines) if (first, ran.returncode) == ("setup ok", 0) else {}


def nagios_schedule():
    """Nagios's report of its schedule: by word of a check, the figures that both report."""
    told = re.findall(r"^([A-Z][\w -]+):\s+(.*)$", (OFFICE / "schedule.txt").read_text(), re.M)
    first_of = {}
    for word, value in told:
        first_of.setdefault(word, value)
    seconds = float(first_of["Host inter-check delay"].split()[0])
    scheduled = int(first_of["Total scheduled hosts"]) + int(first_of["Total scheduled services"])
    return {"hosts": first_of["Total hosts"], "services": first_of["Total services"], "scheduled": str(scheduled),
            "host_delay": str(round(seconds * 1000)), "service_delay": first_of["Service inter-check delay method"].lower(),
            "interleave_factor": first_of["Service interleave factor"]}


def check_office(program):
    """The small network: six hosts, five of which are scheduled a quarter of a second apart, and nine services, eight of which are
    scheduled 652.5 / 8 seconds apart."""
    status, told, left_out = run_from_nagios(OFFICE / "nagios.cfg", OFFICE / "objects.precache")
    setup = json.loads(told)
    hosts, services = names_of(setup)
    options = setup["options"]
    yield "its words", status == 0 and "objects without active checks (2)" in left_out and "serviceescalation" in left_out
    yield "its counts", (len(hosts), len(services), len(setup["service_dependencies"]), len(setup["host_dependencies"])) == (6, 9, 5, 1)
    yield "its options", (options["interval_length"], options["host_inter_check_delay_method"], options["high_service_flap_threshold"]) == (30, 250, 21)
    yield "its hosts' first checks", first_checks(program, setup, hosts) == [250 * rank for rank in range(5)]
    told_here, told_there = check_figures(program, setup), nagios_schedule()
    yield "the figures that Nagios tells too", {word: told_here.get(word) for word in told_there} == told_there
    yield "its other figures", [told_here.get(word) for word in ("dependencies", "parents", "disabled", "without_interval")] == ["6", "7", "2", "0"]
    yield "its first and last checks", [told_here.get(word) for word in ("host_first", "host_last", "service_first", "service_last")] == [
        "0", "1000", "0", str(5_220_000 * 7 // 64)]
    yield "its services' first checks", first_checks(program, setup, services) == [5_220_000 * rank // 64 for rank in range(8)]


def check_large_network(program, work):
    """A thousand hosts below ten others, with ten services each: no host is separated from its parent."""
    objects = work / "large.precache"
    with objects.open("w") as file:
        for number in range(1000):
            name = f"host-{number:04}"
            file.write(HOST.format(name=name, parents="" if number < 10 else f"host-{number % 10:04}"))
            file.writelines(SERVICE.format(host=name, number=service) for service in range(10))
    status, _, told = run_from_nagios("--parts", work / "parts", OFFICE / "nagios.cfg", objects)
    parts = sorted((work / "parts").iterdir())
    yield "its parts", status == 0 and len(parts) == 4 and "4 parts" in told
    counts = [sum(map(len, names_of(json.loads(part.read_text())))) for part in parts]
    yield "their objects", sum(counts) == 11_000 and max(counts) <= 4_096
    checked = [check_figures(program, json.loads(part.read_text())) for part in parts]
    yield "that each is a setup, with these objects", [int(it["hosts"]) + int(it["services"]) for it in checked if it] == counts
    yield "that one setup is refused", run_from_nagios(OFFICE / "nagios.cfg", objects)[0] == 1


def needs_of(part, mirrors):
    """The objects in a part, those that its own objects need there, and those whose dependencies count."""
    hosts, services = names_of(part)
    parents = {host["name"]: host.get("parents", []) for host in part["hosts"]}
    dependencies = part["service_dependencies"] + part["host_dependencies"]
    needed, depending = {*hosts, *services} - mirrors.keys(), {*hosts, *services} - mirrors.keys()
    while True:
        masters = {it["master"] for it in dependencies if it["dependent"] in depending}
        above = {parent for name in needed for parent in parents.get(name, ())} | {name.partition(";")[0] for name in needed}
        if masters <= depending and masters | above <= needed:
            return {*hosts, *services}, needed, depending
        needed, depending = needed | masters | above, depending | masters


def networks(count):
    """Random networks with parents, and dependencies of later objects on earlier ones."""
    chance = random.Random(5)
    for _ in range(count):
        hosts = [f"h{number:02}" for number in range(chance.randint(5, 30))]
        setup = {"options": {}, "hosts": [], "services": [], "service_dependencies": [], "host_dependencies": []}
        for number, name in enumerate(hosts):
            setup["hosts"].append({"name": name, "max_check_attempts": 3, "parents": chance.sample(hosts[:number], min(number, chance.choice((0, 1, 1, 2))))})
            setup["services"] += [{"host": name, "description": f"s{each}", "max_check_attempts": 3} for each in range(chance.randint(0, 3))]
        names = names_of(setup)[1]
        for _ in range(len(hosts) if len(names) > 1 else 0):
            first, last = sorted(chance.sample(range(len(names)), 2))
            setup["service_dependencies"].append({"dependent": names[last], "master": names[first], "criteria": "c"})
        yield setup


def check_mirrors(program, work):
    """Pieces that are too large are cut: each object is checked in one part, and each part has exactly the objects that its objects need."""
    wrong, cuts = [], 0
    for setup in networks(200):
        for most in (12, 20, 31):
            try:
                parts, mirrors = nagios_parts.parts_of(setup, nagios_parts.Limits(objects=most))
            except nagios_parts.CannotBeSplit as error:
                wrong += [] if "the piece with host h" in str(error) else [str(error)]
                continue
            checked, cuts = [], cuts + bool(mirrors)
            for number, part in enumerate(parts, 1):
                of_part = mirrors.get(f"part-{number}", {})
                there, needed, depending = needs_of(part, of_part)
                checked += there - of_part.keys()
                counted = [it for kind in ("service_dependencies", "host_dependencies") for it in setup[kind] if it["dependent"] in depending]
                kept = part["service_dependencies"] + part["host_dependencies"]
                never = [name for name in of_part for it in part["hosts"] + part["services"] if nagios_parts.NEVER.items() <= it.items()
                         and name in (it.get("name"), f"{it.get('host')};{it.get('description')}")]
                wrong += [] if there == needed and kept == counted and never == list(of_part) and len(there) <= most else [(setup, most, number)]
            wrong += [] if sorted(checked) == sorted(sum(names_of(setup), [])) else [(setup, most)]
    yield "parts with mirrors", not wrong and cuts > 100
    objects = work / "wide.precache"
    objects.write_text(HOST.format(name="wide", parents="") + "".join(SERVICE.format(host="wide", number=number) for number in range(4_096)))
    status, _, told = run_from_nagios("--site", work / "wide", OFFICE / "nagios.cfg", objects)
    yield "a host with too many services", status == 1 and "the piece with host wide is too large for one setup: 4097 objects" in told
    objects = work / "flat.precache"
    hosts = [HOST.format(name="gateway", parents="")] + [HOST.format(name=f"host-{number:03}", parents="gateway") for number in range(250)]
    objects.write_text("".join(hosts) + "".join(SERVICE.format(host=f"host-{number % 250:03}", number=number // 250) for number in range(5_000)))
    status, _, told = run_from_nagios("--site", work / "flat", OFFICE / "nagios.cfg", objects)
    files = {path.stem: json.loads(path.read_text()) for path in (work / "flat").glob("*.json")} if status == 0 else {}
    yield "a site behind one gateway", files.get("mirrors") == {"part-2": {"gateway": "part-1"}} and "2 parts with 1 mirrors" in told
    yield "that its parts are setups", all(check_figures(program, files[name])["hosts"] == count for name, count in (("part-1", "196"), ("part-2", "56")))
    status, _, told = run_from_nagios("--site", work / "flat", OFFICE / "nagios.cfg", OFFICE / "objects.precache")
    yield "that a smaller site has no mirrors", status == 0 and not (work / "flat/mirrors.json").exists() and (work / "flat/setup.json").exists()


def check_templates(work):
    (work / "template.cfg").write_text("define host {\n\tname\tmachine\n\tregister\t0\n\tmax_check_attempts\t3\n\t}\n")
    status, told, why = run_from_nagios(OFFICE / "nagios.cfg", work / "template.cfg")
    yield "a template", (status, told) == (1, "") and "template.cfg:" in why


def check_command_lines(work):
    """The command line of each object, with expanded macros; those without a command line are named, and disabled."""
    (work / "resource.cfg").write_text("# macros\n$USER1$=/plugins\n")
    objects, wanted = COMMANDS, {"h": ["/bin/sh", "-c", "/bin/echo costs $5 '$_HOSTMISSING$' h"]}
    for name, (command, line) in LINES.items():
        said = "" if command is None else f"\tcheck_command\t{command}\n"
        objects += f"define service {{\n\thost_name\th\n\tservice_description\t{name}\n{said}\tmax_check_attempts\t3\n\t_OID\t.1.3\n\t}}\n"
        if line is not None:
            wanted[f"h;{name}"] = line
    (work / "site.precache").write_text(objects)
    file = work / "commands.json"
    status, made, told = run_from_nagios("--commands", file, "--resource", work / "resource.cfg", OFFICE / "nagios.cfg", work / "site.precache")
    lines = json.loads(file.read_text()) if status == 0 else {}
    yield "the command lines of a site", {name: shlex.split(line) for name, line in lines.items()} == wanted
    yield "that only their owner reads them", file.stat().st_mode & 0o777 == 0o600
    off = {it["description"] for it in json.loads(made)["services"] if it.get("enabled") is False}
    without = {name for name, (_, line) in LINES.items() if line is None}
    yield "which services have none", off == without and all(f": h;{name}: " in told for name in without)
    status, made, told = run_from_nagios("--commands", file, "--resource", work / "missing.cfg", OFFICE / "nagios.cfg", work / "site.precache")
    yield "a resource file that isn't there", (status, made) == (1, "") and "missing.cfg" in told
    (work / "copied.cfg").write_text((OFFICE / "nagios.cfg").read_text() + "resource_file=/nowhere/resource.cfg\n")
    status, _, told = run_from_nagios("--commands", file, work / "copied.cfg", work / "site.precache")
    yield "the resource file of a copied configuration", (status, json.loads(file.read_text()) == lines) == (0, True) and "/nowhere/resource.cfg isn't here: " in told
    (work / "resource.cfg").unlink()
    status, made, told = run_from_nagios("--commands", file, work / "copied.cfg", work / "site.precache")
    yield "a configuration that was copied without it", (status, made) == (1, "") and "/nowhere/resource.cfg" in told


def check_site(work):
    """The folder of a site: commands with and without a shell, the periods of objects, passive objects, the monitor's options."""
    services = "".join("define service {\n\thost_name\th\n\tservice_description\t%s\n\tmax_check_attempts\t3\n%s\t}\n"
                       % (name, "".join(f"\t{member}\t{value}\n" for member, value in members.items())) for name, members in SITE.items())
    (work / "site.precache").write_text(COMMANDS + PERIODS + services)
    options = {"max_concurrent_checks": 40, "service_check_timeout": 20, "host_check_timeout": 7, "cached_host_check_horizon": 9, "interval_length": 60}
    (work / "site.cfg").write_text("".join(f"{name}={value}\n" for name, value in options.items()))
    (work / "resource.cfg").write_text("$USER1$=/plugins\n")
    status, _, told = run_from_nagios("--site", work / "site", "--resource", work / "resource.cfg", work / "site.cfg", work / "site.precache")
    files = {path.stem: json.loads(path.read_text()) for path in (work / "site").glob("*.json")} if status == 0 else {}
    yield "the files of a site", sorted(files) == ["commands", "directory", "groups", "inventory", "monitor", "passive", "periods", "setup"]
    commands = files["commands"]
    yield "its limits", (commands["h"]["limit"], commands["h;plain"]["limit"]) == (7, 20)
    yield "its shells", (commands["h;piped"].get("shell"), commands["h;plain"].get("shell")) == (True, None)
    yield "its options", files["monitor"] == {"slots": 40, "cached_host_check_horizon": 9, "service_check_timeout_state": "c"}
    yield "that its scheduler has no limit", files["setup"]["options"]["max_concurrent_checks"] == 0
    yield "its passive objects", files["passive"] == {"h;trap": {"only": True}, "h;backup": {"only": True, "freshness": 90}, "h;nightly": {"freshness": 315}}
    yield "its objects' periods", files["periods"]["objects"] == {"h;piped": "work"} and sorted(files["periods"]["periods"]) == ["free", "work"]
    dates = [{member: value for member, value in it.items() if member != "times"} for it in files["periods"]["periods"]["free"]["dates"]]
    yield "dates", dates == [
        {"first": "2026-12-24", "last": "2026-12-26"}, {"month": 1, "day": 1}, {"first": {"month": 12, "day": 31}, "last": {"month": 1, "day": 2}},
        {"day": -1}, {"first": {"day": 1}, "last": {"day": 3}}, {"month": 5, "weekday": "monday", "nth": 1}, {"weekday": "friday", "nth": -1},
        {"first": "2026-01-01", "step": 3}, {"first": {"weekday": "tuesday", "nth": -1}, "last": {"weekday": "monday", "nth": 1}}, {"month": 7, "day": 3}]
    yield "times that never come", files["periods"]["periods"]["free"]["dates"][-1]["times"] == ["12:00-13:00"]
    yield "what is left out, by name", all(f"left out: {line}" in told for line in (
        "parents of services (1)", "is_volatile (1)", "times july 3 22:00-06:00 (1)")) and told.count("h;piped") == 2
    off = {it["description"] for it in files["setup"]["services"] if it.get("enabled") is False}
    yield "what has no command", off == {"trap", "backup", "lost"} and "h;lost: no command nothing" in told and "h;trap" not in told
    (work / "latin.precache").write_bytes(b"define host {\n\thost_name\th\n\talias\tB\xfcro\n\tmax_check_attempts\t3\n\t}\n")
    status, _, told = run_from_nagios("--site", work / "latin", work / "site.cfg", work / "latin.precache")
    yield "an alias that is no UTF-8", status == 1 and "latin.precache:3" in told and not (work / "latin").exists()


def check_pictures():
    drawn = [subprocess.run([sys.executable, TOP / "tools/timeline.py", TOP / f"examples/{name}.txt", TOP / f"examples/{name}.out"],
                            capture_output=True, text=True).stdout for name in ("office", "drill")]
    yield "the picture of README", drawn[0] == (TOP / "docs/office.svg").read_text()
    words = [sys.executable, TOP / "tools/timeline.py", TOP / "examples/sequence.txt", TOP / "examples/sequence.out", "--objects", "web;http"]
    sequence = subprocess.run(words, capture_output=True, text=True).stdout
    yield "the picture of a sequence", sequence == (TOP / "docs/sequence.svg").read_text()
    for script, picture in (("lanes.py", "lanes.svg"), ("overview.py", "parts.svg")):
        drawn_again = subprocess.run([sys.executable, TOP / "tools" / script], capture_output=True, text=True).stdout
        yield f"the picture {picture}", drawn_again == (TOP / "docs" / picture).read_text()
    yield "the picture of a drill", len(xml.dom.minidom.parseString(drawn[1]).getElementsByTagName("rect")) > 20


def main():
    harness = Harness("tools")
    program = harness.program
    with tempfile.TemporaryDirectory() as folder:
        work = pathlib.Path(folder)
        for rows in (check_office(program), check_large_network(program, work), check_mirrors(program, work), check_templates(work), check_command_lines(work),
                     check_site(work), check_pictures()):
            for what, is_so in rows:
                harness.compare(what, True, is_so)
    harness.end()


main()
