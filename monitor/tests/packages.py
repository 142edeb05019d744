"""The monitor with Debian's packages: Nagios's pages over its files, and NSCA's daemon on its pipe.

    cd monitor; python3 -m tests.packages PROGRAM UNPACKED CGIS PICTURES [NSCA SEND_NSCA]

PROGRAM is `nagsched`, UNPACKED the folder of the unpacked packages, CGIS that of Nagios's pages in it, PICTURES one for pictures of the pages, or an empty
word. A site in an outage is monitored. The output of status.cgi for each object is compared with the monitor's output. `packages.sh` fetches the
packages and runs this.
"""
import html
import json
import os
import pathlib
import re
import shutil
import socket
import subprocess
import sys
import tempfile
import time
import urllib.parse
from typing import Callable, Dict, List, Optional, Tuple

from .page_pictures import BROWSERS, drawn

MONITOR = pathlib.Path(__file__).resolve().parent.parent / "nagsched-monitor"
# Hosts behind a router that is down, hosts that answer, and services of each kind of state; the trap gets its results only through the pipe.
HOSTS = {"gate": ("", 0), "router": ("gate", 2), "h1": ("router", 2), "h2": ("router", 2), "h3": ("gate", 0), "h4": ("gate", 0)}
SERVICES = {"http": 0, "load": 1, "disk / & more": 2, "odd": 3}
TRAP = "trap"
CONTACT = "operator"

OBJECTS = """define timeperiod {
	timeperiod_name	always
	alias	always
	sunday	00:00-24:00
	monday	00:00-24:00
	tuesday	00:00-24:00
	wednesday	00:00-24:00
	thursday	00:00-24:00
	friday	00:00-24:00
	saturday	00:00-24:00
	}

define command {
	command_name	check
	command_line	/bin/true
	}

define contact {
	contact_name	operator
	alias	operator
	service_notification_period	always
	host_notification_period	always
	service_notification_commands	check
	host_notification_commands	check
	}

define hostgroup {
	hostgroup_name	all
	alias	all
	members	%s
	}

"""
CHECKED = """	check_period	always
	check_command	check
	contacts	operator
	notification_period	always
	check_interval	1.000000
	retry_interval	1.000000
	max_check_attempts	2
	}

"""
HOST = """define host {
	host_name	%s
	display_name	%s
	alias	%s
	address	127.0.0.1
	parents	%s
""" + CHECKED
SERVICE = """define service {
	host_name	%s
	service_description	%s
	display_name	%s
""" + CHECKED
MAIN = """object_cache_file={0}/objects.cache
status_file={0}/status.dat
command_file={0}/nagios.cmd
resource_file=/dev/null
log_file={0}/nagios.log
check_external_commands=1
"""
PAGES = """main_config_file={0}/nagios.cfg
physical_html_path=/usr/share/nagios4/htdocs
url_html_path=/nagios4
use_authentication=1
default_user_name=operator
refresh_rate=90
result_limit=0
escape_html_tags=1
"""
ALLOWED = ("system_information", "configuration_information", "system_commands", "all_services", "all_hosts", "all_service_commands", "all_host_commands")


class Site:
    """A site in an outage, its monitor, and the files of Nagios's pages."""

    def __init__(self, folder: pathlib.Path, program: str) -> None:
        self.folder, self.nagios, self._program = folder, folder / "nagios", program
        self.nagios.mkdir()
        self._write_site()
        self._write_pages()

    def _write_site(self) -> None:
        hosts = [{"name": name, "parents": [parent] if parent else [], "check_interval": 5, "max_check_attempts": 2} for name, (parent, _) in HOSTS.items()]
        services = [{"host": host, "description": word, "check_interval": 5, "max_check_attempts": 2} for host in HOSTS for word in SERVICES]
        services += [{"host": host, "description": TRAP, "max_check_attempts": 1, "enabled": False} for host in HOSTS]
        options = {"interval_length": 1, "host_inter_check_delay_method": "n", "service_inter_check_delay_method": "n"}
        (self.folder / "setup.json").write_text(json.dumps({"options": options, "hosts": hosts, "services": services}))
        codes = {name: code for name, (_, code) in HOSTS.items()}
        codes.update((f"{host};{word}", code if HOSTS[host][1] == 0 else 2) for host in HOSTS for word, code in SERVICES.items())
        lines = {name: f"echo 'answer of {name.replace(';', ' ')} <b>&amp;</b>|time=1ms;2;3'; exit {code}" for name, code in codes.items()}
        (self.folder / "commands.json").write_text(json.dumps({name: {"line": line, "shell": True} for name, line in lines.items()}))
        (self.folder / "passive.json").write_text(json.dumps({f"{host};{TRAP}": {"only": True} for host in HOSTS}))

    def _write_pages(self) -> None:
        text = OBJECTS % ",".join(HOSTS)
        text += "".join(HOST % (name, name, name, parent) for name, (parent, _) in HOSTS.items()).replace("\tparents\t\n", "")
        text += "".join(SERVICE % (host, word, word) for host in HOSTS for word in (*SERVICES, TRAP))
        (self.nagios / "objects.cache").write_text(text)
        (self.nagios / "nagios.cfg").write_text(MAIN.format(self.nagios))
        (self.nagios / "nagios.log").touch()
        allowed = "".join(f"authorized_for_{what}={CONTACT}\n" for what in ALLOWED)
        (self.nagios / "cgi.cfg").write_text(PAGES.format(self.nagios) + allowed)

    def begin(self) -> "subprocess.Popen[bytes]":
        return subprocess.Popen([sys.executable, str(MONITOR), "--program", self._program, "--nagios-files", str(self.nagios), str(self.folder)])

    def status(self) -> Dict[str, Tuple[str, str]]:
        """The state and the output of each object, as the monitor prints them."""
        printed = subprocess.run([sys.executable, str(MONITOR), str(self.folder), "status"], stdout=subprocess.PIPE, text=True, check=False).stdout
        found = [re.fullmatch(r"(\w+) +\w+ \d+ +(?:(?:FLAPPING|running|off) +)*([^:]*): *(.*)", line) for line in printed.splitlines()]
        return {match.group(2): (match.group(1), match.group(3)) for match in found if match}


def page(cgis: pathlib.Path, site: Site, name: str, query: str, posted: str = "", cookie: str = "") -> str:
    """The output of one of Nagios's pages."""
    environment = {
        **os.environ, "NAGIOS_CGI_CONFIG": str(site.nagios / "cgi.cfg"), "REQUEST_METHOD": "POST" if posted else "GET", "QUERY_STRING": query,
        "REMOTE_ADDR": "127.0.0.1", "REMOTE_USER": CONTACT, "CONTENT_LENGTH": str(len(posted)), "CONTENT_TYPE": "application/x-www-form-urlencoded",
        "HTTP_COOKIE": cookie,
    }
    ran = subprocess.run([str(cgis / name)], env=environment, input=posted.encode(), stdout=subprocess.PIPE, check=False, timeout=60)
    return ran.stdout.decode(errors="replace")


def shown(text: str, link: str) -> Dict[str, Tuple[str, str]]:
    """The state and the output of each object of a page of status.cgi, by the words of its link."""
    rows = re.findall(link + r"[^>]*>[^\n]*?</a>.*?<td class='status(?:HOST)?([A-Z]+)'>.*?<td class='status[^']*' valign='center'>(.*?)</td>", text, re.DOTALL)
    objects = {}
    for *link_words, state, words in rows:
        name = ";".join(urllib.parse.unquote_plus(word) for word in link_words)
        objects[name] = state, html.unescape(words).replace("\xa0", " ").strip()
    return objects


def wait(what: Callable[[], bool], seconds: float = 60) -> bool:
    end = time.monotonic() + seconds
    while time.monotonic() < end:
        if what():
            return True
        time.sleep(0.5)
    return False


def compared(cgis: pathlib.Path, site: Site) -> List[str]:
    """The differences between status.cgi and the monitor."""
    on_page = shown(page(cgis, site, "status.cgi", "hostgroup=all&style=hostdetail&limit=0"), r"align=left[^>]*><a href='extinfo.cgi\?type=1&host=([^'&]+)'")
    on_page.update(shown(page(cgis, site, "status.cgi", "host=all&limit=0"), r"align='left'[^>]*><a href='extinfo.cgi\?type=2&host=([^'&]+)&service=([^'&]+)'"))
    printed = site.status()
    lines = [f"{name}: the page has {on_page.get(name)}, the monitor {it}" for name, it in printed.items() if not alike(on_page.get(name), it)]
    return lines + [f"{name} is only on the page" for name in on_page if name not in printed]


def alike(on_page: Optional[Tuple[str, str]], printed: Tuple[str, str]) -> bool:
    """The same state, and the same output if the object was checked."""
    return on_page is not None and on_page[0] == printed[0] and (printed[0] == "PENDING" or on_page[1] == printed[1].strip())


def by_page(cgis: pathlib.Path, site: Site) -> List[str]:
    """The faults when a result is entered on Nagios's page for commands."""
    found = re.search("NagFormId=([0-9a-f]+)", page(cgis, site, "cmd.cgi", f"cmd_typ=30&host=h4&service={TRAP}"))
    form = found.group(1) if found else ""
    words = f"nagFormId={form}&cmd_typ=30&cmd_mod=2&host=h4&service={TRAP}&plugin_state=2&plugin_output=by+the+page&performance_data=&btnSubmit=Commit"
    answer = page(cgis, site, "cmd.cgi", "", words, f"NagFormId={form}")
    came = wait(lambda: site.status().get(f"h4;{TRAP}") == ("CRITICAL", "by the page"), 20)
    print(f"cmd.cgi: {'its result came' if came else 'failed'}")
    return [] if came else [f"cmd.cgi: its result didn't come: {' '.join(re.sub('<[^>]*>', ' ', answer).split())[-300:]}"]


def by_nsca(site: Site, daemon: str, sender: str) -> bool:
    """Whether a result comes through NSCA's daemon and the pipe."""
    with socket.socket() as free:
        free.bind(("127.0.0.1", 0))
        port = free.getsockname()[1]
    (site.nagios / "nsca.cfg").write_text(
        f"server_port={port}\nserver_address=127.0.0.1\ncommand_file={site.nagios}/nagios.cmd\nalternate_dump_file=/dev/null\n"
        "aggregate_writes=0\nappend_to_file=0\nmax_packet_age=30\npassword=of-a-trial\ndecryption_method=1\ndebug=0\n"
    )
    (site.nagios / "send_nsca.cfg").write_text("password=of-a-trial\nencryption_method=1\n")
    running = subprocess.Popen([daemon, "-c", str(site.nagios / "nsca.cfg"), "-f", "--single"])
    try:
        time.sleep(1)
        words = [sender, "-H", "127.0.0.1", "-p", str(port), "-c", str(site.nagios / "send_nsca.cfg")]
        subprocess.run(words, input=f"h3\t{TRAP}\t1\tby NSCA\n".encode(), check=False, timeout=30)
        return wait(lambda: site.status().get(f"h3;{TRAP}") == ("WARNING", "by NSCA"))
    finally:
        running.terminate()
        running.wait(timeout=10)


def draw(cgis: pathlib.Path, unpacked: pathlib.Path, site: Site, pictures: pathlib.Path) -> None:
    """Pictures of status.cgi, of hosts and of services, with Nagios's own styles."""
    browser = next((browser for browser in BROWSERS if shutil.which(browser)), None)
    if browser is None:
        print("passed over: a browser isn't here")
        return
    for name, query in (("hosts", "hostgroup=all&style=hostdetail&limit=0"), ("services", "host=all&limit=0")):
        text = re.split(r"\r?\n\r?\n", page(cgis, site, "status.cgi", query), maxsplit=1)[-1]
        text = re.sub("(?<=['\"])/nagios4/(?=stylesheets/)", f"{(unpacked / 'etc/nagios4').as_uri()}/", text)
        text = re.sub("(?<=['\"])/nagios4/", f"{(unpacked / 'usr/share/nagios4/htdocs').as_uri()}/", text)
        file = site.folder / f"{name}.html"
        file.write_text(text)
        drawn(browser, file.as_uri(), (1280, 1400), pictures / f"status-cgi-{name}.png")
        print(f"status.cgi: a picture of its {name}")


def main(program: str, unpacked: str, cgis: str, pictures: str, *nsca: str) -> int:
    wrong: List[str] = []
    with tempfile.TemporaryDirectory() as holder:
        site, pages = Site(pathlib.Path(holder), program), pathlib.Path(cgis)
        running = site.begin()
        try:
            hard = wait(lambda: "UNREACHABLE" in {state for state, _ in site.status().values()} and not compared(pages, site))
            wrong += [] if hard else compared(pages, site) or ["no host became UNREACHABLE"]
            print(f"status.cgi: {len(site.status())} objects, {len(wrong)} differ")
            if pictures:
                draw(pages, pathlib.Path(unpacked), site, pathlib.Path(pictures))
            wrong += by_page(pages, site)
            for name, query, word in (("extinfo.cgi", "type=1&host=router", "DOWN"), ("extinfo.cgi", "type=0", str(running.pid)), ("tac.cgi", "", "1 Down")):
                found = word in page(pages, site, name, query)
                wrong += [] if found else [f"{name}?{query}: it has no {word!r}"]
                print(f"{name}?{query}: {'fine' if found else 'failed'}")
            if nsca:
                found = by_nsca(site, *nsca)
                wrong += [] if found else ["NSCA: its result didn't come"]
                print(f"NSCA: {'its result came' if found else 'failed'}")
        finally:
            running.terminate()
            running.wait(timeout=60)
    for line in wrong:
        print(line)
    print(f"packages: {'failed' if wrong else 'passed'}")
    return 1 if wrong else 0


if __name__ == "__main__":
    sys.exit(main(*sys.argv[1:]))
