"""Hard problems and flapping objects of a site as alerts of Prometheus's Alertmanager: a process next to the monitor.

Its arguments are the address of Alertmanager, the site's folder, and the address of the page if there is one. All alerts are posted every 30 seconds, and at
once when one begins, changes or ends. Alertmanager is then asked for the site's alerts, and those that don't stand are ended. So this process stores nothing.
Alerts end by themselves only hours after the last post: the heartbeat alone shows that the monitor is gone."""
import datetime
import http.client
import json
import math
import pathlib
import socket
import time
import urllib.error
import urllib.parse
import urllib.request
from typing import Any, Callable, Dict, FrozenSet, List, Mapping, Optional, Sequence, Tuple

from ..model.remarks import Remark
from ..model.text import first_line
from ..site.people_files import GROUPS, INVENTORY, Facts, Groups, WatchedFile, facts_of, labels_of, read_groups, read_inventory
from ..system.log import Trouble
from ..system.processes import ParentMonitor
from .status_query import PROBLEMS_AND_HELD, SiteStatus, StatusUnavailable, read_site_status

# In seconds: the time between two posts of all alerts, the end of an alert and of the heartbeat after their last post, the time between two looks at the
# database, and the limit for Alertmanager's answer.
EVERY, ENDS, HEARTBEAT_ENDS, LOOK_EVERY, PATIENCE = 30.0, 21_600.0, 300.0, 1.0, 10.0
AT_ONCE = 1_000  # the greatest number of alerts in one request
MOST_REFUSED = 100  # the number of refused alerts that are remembered
PROBLEM, FLAPPING, NOT_CHECKED, HEARTBEAT = "NagschedProblem", "NagschedFlapping", "NagschedNotChecked", "NagschedHeartbeat"
HELD = "NagschedHeld"  # an object of which people aren't notified: it inhibits the object's other alerts, which stay as they are
SEVERITIES = {"WARNING": "warning", "CRITICAL": "critical", "DOWN": "critical", "UNREACHABLE": "unreachable", "UNKNOWN": "unknown"}

Labels = FrozenSet[Tuple[str, str]]  # the labels of an alert, which identify it
Alert = Dict[str, Any]


def alerts_of(status: SiteStatus, site: str, groups: Mapping[str, Groups], inventory: Mapping[str, Facts], page: str = "") -> Dict[Labels, Alert]:
    """All current alerts except the heartbeat: one for each held object, one for each hard problem and each flapping object, and one if results are missing.

    If the beginning isn't known, it is now; Alertmanager keeps the earliest that it was told."""
    hosts = {it.name: str(it.state) for it in status.objects if it.is_host() and it.is_hard_problem()}
    alerts: List[Alert] = []
    holding = status.holding()
    for it in status.objects:
        labels = {"site": site, **labels_of(it.name, groups)}
        # The facts that may change while a problem lasts are annotations.
        host_state = hosts.get(it.name.partition(";")[0], "UP")
        notes = {"state": str(it.state), "host_state": host_state, "output": it.words, **facts_of(it.name, inventory)}
        if not it.is_on:
            notes["checks"] = "off"
        link = f"{page}object?name={urllib.parse.quote(it.name, safe='')}" if page else ""
        if it.name in holding:
            alerts.append({**alert({**labels, "alertname": HELD, "severity": "none"}, held_notes(it.name, holding[it.name]), status.now, link),
                           "endsAt": timestamp(min(status.now + ENDS, *(each.end() or math.inf for each in holding[it.name])))})
        found = [(FLAPPING, "warning", "is flapping", status.now)] if it.flapping else []
        if it.is_hard_problem():
            found.append((PROBLEM, SEVERITIES.get(str(it.state), "unknown"), f"is {it.state}", it.problem_since() or status.now))
        for name, severity, verb, since in found:
            summary = f"{it.name.replace(';', ' ')} {verb}: {first_line(it.words)}"
            alerts.append(alert({**labels, "alertname": name, "severity": severity}, {"summary": summary, **notes}, min(since, status.now), link))
    overdue, promised = status.overdue()
    if overdue and status.silent_seconds() is None:
        summary = f"{overdue} of {promised} objects of {site} have no result in time: what is known of them is old"
        alerts.append(alert({"alertname": NOT_CHECKED, "site": site, "severity": "critical"}, {"summary": summary}, status.now, page))
    return {frozenset(each["labels"].items()): each for each in alerts}


def held_notes(name: str, remarks: Sequence[Remark]) -> Dict[str, str]:
    said = "; ".join(f"{each.kind} by {each.author}: {first_line(each.text)}" for each in remarks)
    return {"summary": f"{name.replace(';', ' ')} is held: {said}"}


def alert(labels: Dict[str, str], annotations: Dict[str, str], since: float, link: str) -> Alert:
    return {"labels": labels, "annotations": annotations, "startsAt": timestamp(since), **({"generatorURL": link} if link else {})}


def timestamp(moment: float) -> str:
    return datetime.datetime.fromtimestamp(moment, datetime.timezone.utc).isoformat()


class AlertPoster:
    def __init__(self, url: str, folder: pathlib.Path, page: str = "", log: Callable[[str], None] = print, alive: Callable[[], None] = lambda: None) -> None:
        """`alive` is called before each request, since many slow ones together may take longer than a process may be silent."""
        self._url, self._folder, self._page, self._log, self._alive = f"{url.rstrip('/')}/api/v2/alerts", folder, page, log, alive
        self._site = folder.resolve().name
        self._groups = WatchedFile(folder / GROUPS, read_groups)
        self._inventory = WatchedFile(folder / INVENTORY, read_inventory)
        # An annotation of this monitor's alerts: only these are ended.
        self._monitor = f"{socket.gethostname()}:{folder.resolve()}"
        # The alerts that were posted last, and when all are posted again.
        self._posted: Optional[Sequence[Labels]] = None
        self._next_post = 0.0
        self._trouble = Trouble(log, "alerts aren't taken, and are posted again each second", "alerts are taken again")
        self._is_answering = True  # whether it said last which alerts it has
        self._refused: List[Dict[str, str]] = []  # the labels of refused alerts, which are logged once

    def post_due(self) -> None:
        with self._trouble.noted(StatusUnavailable, OSError, http.client.HTTPException, ValueError):
            status = read_site_status(self._folder, PROBLEMS_AND_HELD)
            alerts = alerts_of(status, self._site, self._groups.read(), self._inventory.read(), self._page)
            if time.monotonic() >= self._next_post or list(alerts) != self._posted:
                self._post_all(status, alerts)

    def _post_all(self, status: SiteStatus, alerts: Mapping[Labels, Alert]) -> None:
        """Posts the heartbeat first, then the current alerts, and ends those of the site that don't stand."""
        # There is no heartbeat if the monitor has written nothing, or more than half of the objects have no result in time.
        overdue, promised = status.overdue()
        if status.silent_seconds() is None and 2 * overdue <= promised:
            labels = {"alertname": HEARTBEAT, "site": self._site, "severity": "none"}
            heartbeat = alert(labels, {"summary": f"the monitor of {self._site} is at work"}, status.now, "")
            self._post([{**heartbeat, "endsAt": timestamp(status.now + HEARTBEAT_ENDS)}])
        # An alert that ends has no beginning here: Alertmanager keeps its own, and one later than its end would be refused.
        # Those that were posted last are ended too: an Alertmanager that was restarted has forgotten them, but not whom it told of them.
        fired = dict.fromkeys([*self._firing(), *(self._posted or ())])
        ended = [{"labels": dict(labels), "endsAt": timestamp(status.now)} for labels in fired if labels not in alerts]
        current: List[Alert] = [{"endsAt": timestamp(status.now + ENDS), **each, "annotations": {**each["annotations"], "monitor": self._monitor}}
                   for each in alerts.values()]
        held = [each for each in current if each["labels"]["alertname"] == HELD]
        # Alertmanager gets those first that hold others back.
        for some in (held, ended + [each for each in current if each["labels"]["alertname"] != HELD]):
            for first in range(0, len(some), AT_ONCE):
                self._post(some[first : first + AT_ONCE])
        self._posted, self._next_post = list(alerts), time.monotonic() + EVERY

    def _firing(self) -> List[Labels]:
        """The alerts that Alertmanager has from this monitor, except the heartbeat, which ends by itself; none if it can't be asked. Prometheus, and a site of
        this name on another machine, may have alerts with the same names."""
        query = urllib.parse.urlencode([("filter", f"site={json.dumps(self._site)}"), ("filter", f'alertname=~"{PROBLEM}|{FLAPPING}|{NOT_CHECKED}|{HELD}"')])
        try:
            with urllib.request.urlopen(f"{self._url}?{query}", timeout=PATIENCE) as answer:
                self._is_answering = True
                return [frozenset(each["labels"].items()) for each in json.load(answer) if each["annotations"].get("monitor") == self._monitor]
        except urllib.error.HTTPError as error:
            if self._is_answering:
                lasts = f"an alert that ended while this process didn't run lasts up to {ENDS / 3_600:g} hours"
                self._log(f"it doesn't say which alerts it has ({error}), so {lasts}: allow GET of {self._url}")
            self._is_answering = False
            return []

    def _post(self, alerts: Sequence[Alert]) -> None:
        """Posts alerts. A request that is refused is halved, so that a refused alert holds back itself alone."""
        self._alive()
        body = json.dumps(alerts, ensure_ascii=False).encode(errors="replace")
        try:
            urllib.request.urlopen(urllib.request.Request(self._url, body, {"Content-Type": "application/json"}), timeout=PATIENCE).close()
        except urllib.error.HTTPError as error:
            if error.code != http.HTTPStatus.BAD_REQUEST:
                raise
            if len(alerts) == 1:
                if alerts[0]["labels"] not in self._refused:
                    self._log(f"an alert is refused: {alerts[0]['labels']}: {first_line(error.read(500).decode(errors='replace'))}")
                    self._refused = [*self._refused[-MOST_REFUSED:], alerts[0]["labels"]]
                return
            self._post(alerts[: len(alerts) // 2])
            self._post(alerts[len(alerts) // 2 :])


def main() -> int:
    monitor = ParentMonitor()
    url, folder, page = monitor.arguments
    poster = AlertPoster(url, pathlib.Path(folder), page, lambda line: monitor.log(f"alertmanager: {line}"), lambda: monitor.log(""))
    while not monitor.is_ended(LOOK_EVERY):
        poster.post_due()
    return 0
