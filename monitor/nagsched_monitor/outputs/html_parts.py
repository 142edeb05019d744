"""The parts of a site's HTML pages: the frame of a page, tables, states and times. Names and texts are escaped, and control characters are replaced."""
import base64
import datetime
import hashlib
import html
import pathlib
import urllib.parse
from typing import List, Mapping, NamedTuple, Optional, Sequence, Tuple

from ..model.clock import LAST_TIME
from ..model.remarks import Remark
from ..model.text import CONTROLS, first_line, text_of
from ..site.people_files import Facts, Groups
from ..store.rows import StoredStanding
from ..system.programs import read_own_file
from .status_query import DAY, MARKS

RENEW_EVERY = 15  # how often a page renews itself, in seconds
LONGEST_TEXT = 200  # the length at which texts in tables are cut
COLUMNS = ("State", "Host", "Service", "Since", "Attempt", "Last check", "Status information")
# The colours are those of Okabe and Ito, which colour-blind people can distinguish. Hard problems are filled, and soft ones have a dashed edge.
STYLE = read_own_file(pathlib.Path(__file__).with_name("page.css"))
DIGEST = base64.b64encode(hashlib.sha256(STYLE.encode()).digest()).decode()
# These headers keep everything out of a page that isn't part of it.
HEADERS = {
    "Content-Security-Policy": f"default-src 'none'; style-src 'sha256-{DIGEST}'; base-uri 'none'; form-action 'self'; frame-ancestors 'none'",
    "Cache-Control": "no-store",
    "X-Content-Type-Options": "nosniff",
    "Referrer-Policy": "no-referrer",
}
# state: the class of its colour
CLASSES = {"OK": "up", "UP": "up", "WARNING": "warn", "CRITICAL": "crit", "DOWN": "down", "UNKNOWN": "unknown", "UNREACHABLE": "far"}


def duration(seconds: float) -> str:
    """A duration, in two units at most."""
    left = max(0, round(seconds))
    if left >= 3_600:
        return f"{left // DAY} d {left % DAY // 3_600} h" if left >= DAY else f"{left // 3_600} h {left % 3_600 // 60} min"
    return f"{left // 60} min" if left >= 60 else f"{left} s"


class View(NamedTuple):
    """What all pages of a site need: its name, the moment, its zone, and facts about objects by their names."""

    site: str
    now: float
    zone: Optional[datetime.tzinfo]
    attempts: Mapping[str, int]  # the attempts after which a problem is hard
    groups: Mapping[str, Groups]
    facts: Mapping[str, Facts]

    def time(self, time: Optional[float]) -> str:
        """The time of day, with the date if it isn't today."""
        if time is None or not 0 <= time <= LAST_TIME:
            return "never" if time is None or time > 0 else "long ago"
        when, today = (datetime.datetime.fromtimestamp(int(each), self.zone) for each in (time, self.now))
        return when.strftime("%H:%M:%S" if when.date() == today.date() else "%d %b %H:%M" if when.year == today.year else "%d %b %Y %H:%M")

    def ago(self, time: Optional[float]) -> str:
        return "" if time is None else f"{self.time(time)} <i>{duration(self.now - time)}</i>"

    def attempt(self, it: StoredStanding) -> str:
        if it.attempt is None or it.state in (None, "PENDING"):
            return ""
        return f"{it.attempt}/{self.attempts[it.name]}" if it.name in self.attempts else str(it.attempt)

    def group_names(self, name: str) -> Sequence[str]:
        its = self.groups[name].names if name in self.groups else {}
        return list(dict.fromkeys([*its.get("host_groups", ()), *its.get("service_groups", ())]))

    def searched_text(self, name: str) -> str:
        facts = self.facts.get(name, {})
        return f"{name} {facts.get('alias', '')} {facts.get('address', '')}".lower()

    def row(self, it: StoredStanding, held: Sequence[Remark]) -> Sequence[str]:
        (host, _, service), text = it.name.partition(";"), first_line(text_of(it.words))
        checked = [self.time(it.last_check), *(["running"] if it.out_since is not None else []), *([] if it.is_on else ["checks off"])]
        state = [badge(it.state, it.kind, it.flapping), *sorted({MARKS[each.kind] for each in held})]
        return (" ".join(state), link("/object", host, name=host), link("/object", service, name=it.name) if service else "",
                self.ago(it.since), self.attempt(it), " ".join(checked), html_text(text if len(text) <= LONGEST_TEXT else f"{text[:LONGEST_TEXT]}…"))

    def rows(self, objects: Sequence[StoredStanding], held: Mapping[str, Sequence[Remark]], empty: str = "") -> str:
        return table([self.row(it, held.get(it.name, ())) for it in objects], COLUMNS, empty, "o")

    def page(self, title: str, body: Sequence[str], heading: str, path: str = "", is_renewed: bool = True) -> str:
        now = datetime.datetime.fromtimestamp(self.now, self.zone).astimezone(self.zone).isoformat(sep=" ", timespec="seconds")
        lines = "\n".join(filter(None, body))
        pages = (("/", self.site), ("/all", "All hosts and services"))
        links = " ".join(f'<a href="{its}"{" aria-current=page" if its == path else ""}>{html_text(name)}</a>' for its, name in pages)
        refresh = f'<meta http-equiv="refresh" content="{RENEW_EVERY}">' if is_renewed else ""
        return f"""<!DOCTYPE html>
<html lang="en"><head><meta charset="utf-8"><title>{html_text(title)}</title>
<meta name="viewport" content="width=device-width, initial-scale=1">{refresh}
<style>{STYLE}</style></head><body>
<header><nav aria-label="Pages">{links}</nav><p>{now}{f", renewed every {RENEW_EVERY} seconds" if is_renewed else ""}</p></header>
<main><h1>{heading}</h1>
{lines}
</main></body></html>
"""


def look_of(state: Optional[str], kind: Optional[str]) -> Tuple[str, bool]:
    """The class of a state's colour, and whether it is a soft problem."""
    name = CLASSES.get(state or "", "none")
    return name, kind == "SOFT" and name not in ("up", "none")


def html_text(given: str) -> str:
    return html.escape(CONTROLS.sub("\ufffd", given))


def badge(state: Optional[str], kind: Optional[str], flapping: bool = False) -> str:
    """A state by its word and colour, a soft problem by its edge and its word, and flapping."""
    name, is_soft = look_of(state, kind)
    soft = " soft" if is_soft else ""
    return f'<b class="s {name}{soft}">{html_text(str(state))}</b>{soft}{" flapping" if flapping else ""}'


def link(path: str, text: str, /, **query: str) -> str:
    given = urllib.parse.urlencode({name: value for name, value in query.items() if value}, quote_via=urllib.parse.quote, safe="")
    return f'<a href="{path}{"?" if given else ""}{html.escape(given)}">{html_text(text)}</a>'


def table(rows: Sequence[Sequence[str]], heads: Sequence[str], empty: str = "", kind: str = "c") -> str:
    if not rows:
        return f"<p>{empty}</p>" if empty else ""
    head = "".join(f'<th scope="col">{each}</th>' for each in heads)
    lines = "\n".join(f"<tr><td>{'</td><td>'.join(row)}</td></tr>" for row in rows)
    return f'<table class="{kind}"><thead><tr>{head}</tr></thead><tbody>\n{lines}\n</tbody></table>'


def tiles(pairs: Sequence[Tuple[str, str]]) -> str:
    return "<dl>" + "".join(f"<div><dt>{name}</dt><dd>{value}</dd></div>" for name, value in pairs if value) + "</dl>"


def section(title: str, *parts: str) -> List[str]:
    """A part of a page with its heading; nothing if it is empty."""
    return [f"<h2>{title}</h2>", *parts] if any(parts) else []
