"""The pages of a site: its problems, all its hosts and services, and one of them with its last day."""
import collections
import html
import json
import re
import urllib.parse
from typing import Dict, List, Mapping, Sequence, Set, Tuple

from ..model.remarks import Remark
from ..model.text import first_line, number_text, performance_values, text_of
from ..site.people_files import NO_GROUPS, labels_of
from ..store.rows import StoredChange, StoredStanding
from .html_parts import CLASSES, View, badge, duration, html_text, link, look_of, section, table, tiles
from .status_query import DAY, ObjectStatus, SiteStatus

# The most rows of problems that nobody takes care of, of others, of groups, and on a page of all objects.
MOST_PROBLEMS, MOST_HELD, MOST_GROUPS, MOST_ROWS = 100, 25, 40, 100
LATE_SPOOL = 120  # the age of the last performance data that is told, in seconds
PROBLEMS, ACKNOWLEDGED, DOWNTIME = PARTS = ("Unhandled problems", "Acknowledged", "In downtime")
CHOICES = ("all", "problems", *(part.lower() for part in PARTS), "flapping", "running", "checks off", *CLASSES, "PENDING")
# The picture of a day: the heights of hard and soft states and of unknown ones, and the place of their lower edge.
HIGH, LOW, THIN, BOTTOM = 44, 24, 6, 52
MOST_SERVICES = 100  # the most services of a host that are shown


def part_of(held: Sequence[Remark]) -> str:
    """The part of the page in which a problem is, by what holds it."""
    kinds = {each.kind for each in held}
    return DOWNTIME if "downtime" in kinds else ACKNOWLEDGED if "acknowledgement" in kinds else PROBLEMS


def choices_of(it: StoredStanding, held: Sequence[Remark]) -> Set[str]:
    """The choices with which the page of all objects shows an object, by what holds it."""
    is_wrong = it.is_problem()
    marks = {"problems": is_wrong, part_of(held).lower(): is_wrong, "flapping": it.flapping, "running": it.out_since is not None, "checks off": not it.is_on}
    return {"", "all", str(it.state), *(mark for mark, is_so in marks.items() if is_so)}


def own_state(status: SiteStatus) -> List[str]:
    """What is wrong with the monitor itself, and how it keeps pace."""
    figures, silent, (overdue, promised) = status.figures, status.silent_seconds(), status.overdue()
    spooled_at, since = figures.get("spooled_at", 0.0), f"for {duration(silent or 0)}" if "written_at" in figures else "yet"
    complaints = [
        (silent is not None, f"The monitor has written nothing {since}: what is shown is how things stood then."),
        (overdue, f"{overdue} of {promised} objects have no result in time; the latest is overdue by {duration(figures.get('overdue_by', 0.0))}."),
        (spooled_at and status.now - spooled_at > LATE_SPOOL,
         f"Performance data was last written {duration(status.now - spooled_at)} ago: the monitor's log says why."),
    ]
    rate, late, latest = (figures.get(name, 0.0) for name in ("checks_a_second", "latest_start_lately", "latest_start"))
    return section("Monitor", *(f'<p class="alarm">{text}</p>' for is_so, text in complaints if is_so), tiles([
        ("Checks per second", f"{rate:.2f}"), ("Check latency", f"{late:.2f} s <i>{latest:.2f} s at most</i>"),
        ("Running checks", link("/all", str(status.running_count()), show="running")), ("Waiting checks", str(status.due_count())),
    ]))


def groups_of(view: View, objects: Sequence[StoredStanding]) -> List[str]:
    """The numbers of problems and objects of each group. If there are too many groups, those with the most problems."""
    members = [(group, it.is_problem()) for it in objects for group in view.group_names(it.name)]
    found, wrong = collections.Counter(group for group, _ in members), collections.Counter(group for group, is_wrong in members if is_wrong)
    shown = sorted(sorted(found, key=lambda group: (-wrong[group], group))[:MOST_GROUPS])
    rows = [(link("/", group, group=group), str(wrong[group]), link("/all", str(found[group]), group=group)) for group in shown]
    more = f"{len(shown)} of " if len(shown) < len(found) else ""
    return section(f"Groups: {more}{len(found)}", table(rows, ("Group", "Problems", "Objects"), kind="g"))


def problems_page(view: View, status: SiteStatus, group: str) -> str:
    """The monitor's own state, counts, and problems: those that nobody takes care of, and others. Of a group, if one is named."""
    if group:
        status = status._replace(objects=[it for it in status.objects if group in view.group_names(it.name)])
    counts, held = collections.Counter(str(it.state) for it in status.objects), status.holding()
    order = [state for state in [*CLASSES, *sorted(set(counts) - set(CLASSES))] if state in counts]
    body = [*own_state(status), *section("Hosts and services", tiles([
        (badge(state, None), link("/all", str(counts[state]), show=state, group=group)) for state in order]))]
    parts: Dict[str, List[StoredStanding]] = {part: [] for part in PARTS}
    for it in status.problems():
        parts[part_of(held.get(it.name, ()))].append(it)
    for part, objects in parts.items():
        most = MOST_PROBLEMS if part == PROBLEMS else MOST_HELD
        if objects or part == PROBLEMS:
            rest = f"<p>{link('/all', f'All {len(objects)}', show=part.lower(), group=group)}</p>" if len(objects) > most else ""
            body += section(f"{part}: {len(objects)}", view.rows(objects[:most], held, "No problem is known."), rest)
    place = group or view.site
    return view.page(f"{len(parts[PROBLEMS])} problems: {place}", [*body, *groups_of(view, status.objects)], f"Problems of {html_text(place)}", "/")


def all_page(view: View, status: SiteStatus, query: Mapping[str, str]) -> str:
    """The hosts and services that fit a filter, a number of them at once."""
    text, show, group = (query.get(name, "") for name in ("text", "show", "group"))
    held = status.holding()
    found = [it for it in status.objects if show in choices_of(it, held.get(it.name, ())) and text.lower() in view.searched_text(it.name)
             and (not group or group in view.group_names(it.name))]
    pages, digits = max(1, -(-len(found) // MOST_ROWS)), re.fullmatch("[0-9]{1,9}", query.get("page", ""))
    number = min(pages, max(1, int(digits[0]))) if digits else 1
    shown = found[(number - 1) * MOST_ROWS : number * MOST_ROWS]
    others = [link("/all", word, text=text, show=show, group=group, page=str(place))
              for place, word in ((number - 1, "Previous"), (number + 1, "Next")) if 0 < place <= pages]
    options = "".join(f"<option{' selected' if each == show else ''}>{each}</option>" for each in CHOICES)
    form = f"""<form action="/all" role="search"><label>Name or address <input name="text" type="search" value="{html.escape(text)}"></label>
<label>Show <select name="show">{options}</select></label> <label>Group <input name="group" value="{html.escape(group)}"></label>
<button>Search</button></form>"""
    first = (number - 1) * MOST_ROWS + 1
    return view.page(f"All objects: {view.site}", [
        form, f"<p>{first} to {first + len(shown) - 1} of {len(found)}</p>" if shown else "", view.rows(shown, held, "No host or service is like this."),
        f'<nav aria-label="More of them">{" ".join(others)}</nav>' if others else "",
    ], "All hosts and services", "/all", is_renewed=False)


def stretches(status: ObjectStatus) -> List[StoredChange]:
    """The day of an object, from its beginning on: what it was since which time. Without a state, no change of it is known."""
    begin, it = status.now - DAY, status.standing
    found = [each._replace(time=max(begin, each.time)) for each in status.changes]
    if not found and it.since is not None and it.state not in (None, "PENDING"):
        found = [StoredChange(0, max(begin, it.since), it.name, str(it.state), it.kind or "HARD", 1, False, it.words)]
    return found if found and found[0].time <= begin else [StoredChange(0, begin, it.name, "", "", 0, False, ""), *found]


def day_chart(status: ObjectStatus, view: View) -> str:
    """The day as a picture: time across, states by colour, hard ones high and soft ones low, and the words of each when pointed at.

    Positions across are parts of its width, so that its texts keep their size on a narrow page."""
    begin, day = view.now - DAY, stretches(status)
    lines = ['<svg role="img" aria-label="The states of the last day">']
    for it, end in zip(day, [*(each.time for each in day[1:]), view.now]):
        left, right = (min(100.0, max(0.0, 100 * (time - begin) / DAY)) for time in (it.time, end))
        name, is_soft = look_of(it.state, it.kind)
        height = THIN if not it.state else LOW if is_soft else HIGH
        state = f"{it.state}{' soft' if is_soft else ''}" if it.state else "no change is known"
        title = html_text(f"{view.time(it.time)} to {view.time(end)}: {state} {text_of(it.words)[:200]}")
        place = f'x="{left:.3f}%" width="{max(0.1, right - left):.3f}%" y="{BOTTOM - height}" height="{height}"'
        lines.append(f'<rect class="{name}{"" if it.state else " thin"}" {place}><title>{title}</title></rect>')
    for quarter, anchor in enumerate(("start", "middle", "middle", "middle", "end")):
        part, time = 25 * quarter, view.time(begin + DAY * quarter / 4)
        without_seconds = time[:-3] if time.count(":") == 2 else time[-5:]
        lines.append(f'<line x1="{part}%" x2="{part}%" y1="{BOTTOM}" y2="{BOTTOM + 6}"></line>')
        lines.append(f'<text x="{part}%" y="{BOTTOM + 20}" text-anchor="{anchor}">{without_seconds}</text>')
    return "\n".join([*lines, "</svg><p>Soft problems are low, and a thin line is where no change is known.</p>"])


def silence_link(name: str, site: str, alertmanager: str) -> str:
    """A link to Alertmanager's form for a silence of a problem, by the labels that stay while it lasts."""
    labels = {"site": site, **labels_of(name, {})}
    matchers = ",".join(f"{label}={json.dumps(value, ensure_ascii=False)}" for label, value in labels.items())
    return f'<p><a href="{html_text(alertmanager)}#/silences/new?filter={urllib.parse.quote(f"{{{matchers}}}", safe="")}">Silence it</a></p>'


def next_check_text(it: StoredStanding, view: View) -> str:
    """The time of an object's next check, or why it has no next check."""
    if it.out_since is not None:
        return f"runs since {view.ago(it.out_since)}"
    if not it.is_on or it.next_check is None:
        return "none" if it.is_on else "off"
    return view.time(it.next_check) if it.next_check > view.now else f"due since {view.time(it.next_check)}"


def remark_text(its: Remark, view: View) -> str:
    """What somebody said about a state."""
    begins, end = view.time(its.starts_at if its.began_at is None else its.began_at), its.end()
    until = "" if end is None else f" until {view.time(end)}"
    return f"<p>{its.kind.capitalize()} since {begins}{until} by {html_text(its.author)}: {html_text(its.text)}</p>"


def fact_pairs(view: View, name: str) -> List[Tuple[str, str]]:
    """What people wrote about an object. Only an address of the web is a link."""
    its = view.facts.get(name, {})
    texts = [(word, html_text(its.get(member, ""))) for word, member in (("Alias", "alias"), ("Address", "address"), ("Notes", "notes"))]
    return texts + [(word, f'<a href="{html_text(its[member])}">{html_text(its[member])}</a>' if re.match("https?://", its[member]) else html_text(its[member]))
                    for word, member in (("More notes", "notes_url"), ("Actions", "action_url")) if member in its]


def object_page(view: View, status: ObjectStatus, alertmanager: str = "") -> str:
    it, groups = status.standing, view.groups.get(status.standing.name, NO_GROUPS)
    host, _, service = it.name.partition(";")
    pairs = [
        *(("Host", f"{link('/object', each.name, name=each.name)} {badge(each.state, each.kind, each.flapping)}") for each in status.others if service),
        ("Attempt", view.attempt(it)),
        ("Since", view.ago(it.since) or "never checked"),
        ("Last hard change", view.ago(it.hard_since)),
        ("Last check", view.ago(it.last_check)),
        ("Next check", next_check_text(it, view)),
        ("Check duration", "" if it.took is None else f"{it.took:.3f} s"),
        ("Check latency", "" if it.late is None else f"{it.late:.3f} s"),
        *fact_pairs(view, it.name),
        ("Groups", ", ".join(link("/", name, group=name) for name in view.group_names(it.name))),
        *((kind.replace("_", " ").capitalize(), html_text(", ".join(groups.names.get(kind, ())))) for kind in ("contact_groups", "contacts")),
        *((wish.replace("_", " ").capitalize(), html_text(value.strip(","))) for wish, value in groups.notifications.items()),
    ]
    changes = [(view.time(each.time), badge(each.state, each.kind, each.flapping), str(each.attempt), html_text(first_line(text_of(each.words))))
               for each in reversed(status.changes) if each.time >= view.now - DAY]
    values = [(html_text(label), html_text(f"{number_text(value)} {unit}")) for (label, unit), value in performance_values(it.words).items()]
    services = [] if service else status.others
    body = [
        f"<pre>{html_text(text_of(it.words)) or 'no status information'}</pre>",
        *(remark_text(each, view) for each in status.remarks),
        tiles(pairs),
        silence_link(it.name, view.site, alertmanager) if alertmanager and it.is_problem() else "",
        *section("Performance data", table(values, ("Label", "Value"))),
        *section(f"Services: {len(services)}", view.rows(services[:MOST_SERVICES], {}),
                 f"<p>{link('/all', 'All of them', text=f'{host};')}</p>" if len(services) > MOST_SERVICES else ""),
        *section("The last day", day_chart(status, view), table(changes, ("Time", "State", "Attempt", "Status information"), "No change in the last day.")),
        "<p>There were more changes than these.</p>" if status.is_cut else "",
    ]
    name = f"{html_text(service)} on {link('/object', host, name=host)}" if service else html_text(host)
    return view.page(f"{it.name}: {it.state}", body, f"{name} {badge(it.state, it.kind, it.flapping)}")
