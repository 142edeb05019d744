#!/usr/bin/env python3
"""Draws a picture of a run: objects down, time across, states by colour.

    tools/timeline.py INPUT OUTPUT [--from MOMENT] [--to MOMENT] [--objects PATTERN] > picture.svg

INPUT is the input of nagsched (of `run`, `live` or `drill`), OUTPUT its output. A state holds from the moment at which its check
was taken to that of the next. Moments are milliseconds; from about 1973 on they are shown as times of day in UTC. PATTERN is a
shell pattern of full names, such as 'web-*'.
"""
import argparse
import collections
import datetime
import fnmatch
import html
import json
import pathlib
import sys

# state: (soft, hard)
COLOURS = {
    "OK": ("#b7dfb0", "#4f9d45"), "UP": ("#b7dfb0", "#4f9d45"),
    "WARNING": ("#f6e3a1", "#d9a400"), "CRITICAL": ("#f2b8b0", "#c0392b"), "UNKNOWN": ("#f3cfa6", "#d9822b"),
    "DOWN": ("#f2b8b0", "#c0392b"), "UNREACHABLE": ("#d5c3e6", "#7d4fa3"),
}
MARKS = {"putoff": "put off", "reschedule": "rescheduled", "enable": "switched", "abandon": "abandoned"}
LEFT, WIDTH, TOP, LETTER = 230, 860, 64, 6.4
STEPS = [1, 2, 5, 10, 15, 30] + [60 * it for it in (1, 2, 5, 10, 15, 30)] + [3600 * it for it in (1, 2, 3, 6, 12)]
CLOCK = 10**11

State = collections.namedtuple("State", "moment word hard attempt flapping")
Mark = collections.namedtuple("Mark", "moment kind")


class History:
    """The known history of each object, in the order of the setup."""

    def __init__(self, setup):
        names = [host["name"] for host in setup.get("hosts", [])]
        names += [f"{service['host']};{service['description']}" for service in setup.get("services", [])]
        self.states = {name: [] for name in names}
        self.marks = {name: [] for name in names}
        self.taken = {}
        self.first = self.last = None

    def note_moment(self, moment):
        """A call was made at this moment."""
        self.first = moment if self.first is None else min(self.first, moment)
        self.last = moment if self.last is None else max(self.last, moment)

    def mark(self, name, kind):
        self.marks[name].append(Mark(self.last or 0, kind))

    def take(self, moment, reply):
        """A check was asked for, and this was the answer."""
        self.note_moment(moment)
        if reply[0] == "taken":
            self.taken[reply[2]] = moment
        elif reply[0] == "putoff":
            self.marks[reply[2]].append(Mark(moment, "putoff"))

    def report(self, reply):
        """A result was accepted: the object has this standing since the moment at which its check was taken."""
        _, word, kind, attempt, _, flapping, _, name = reply
        self.states[name].append(State(self.taken.get(name, self.last or 0), word, kind == "HARD", attempt, flapping == "FLAPPING"))


def words_of(line):
    """The words of a line of output; a full name is one word, with any spaces in it."""
    counts = {"standing": 7, "taken": 2, "putoff": 2, "freed": 2, "done": 1}
    return line.split(" ", counts.get(line.split(" ", 1)[0], -1))


def read_run(history, lines, replies):
    calls = [json.loads(line) for line in lines if line.strip()]
    if len(calls) != len(replies):
        raise SystemExit("timeline: the output doesn't answer this input line by line")
    for call, reply in zip(calls, map(words_of, replies)):
        if call[0] == "take":
            history.take(call[1], reply)
        elif call[0] == "report" and reply[0] == "standing":
            history.report(reply)
        elif call[0] in MARKS and reply[0] in ("done", "freed"):
            history.mark(call[1], call[0])


def read_drill(history, lines, entries):
    """The moments follow one after another, for each pass separately."""
    moments = [call[1] for call in map(json.loads, filter(str.strip, lines)) if call[0] == "moment"]
    taken = collections.Counter()
    for entry in entries[:-1]:
        number, _, line = entry.partition(" ")
        reply = words_of(line)
        if reply[0] == "standing":
            history.report(reply)
        elif reply[:2] not in (["refused", "C3"], ["refused", "C4"]):
            history.take(moments[taken[number]], reply)
            taken[number] += 1


def history_of(given, written):
    """The contents of the two files."""
    setup, *lines = given.read_text(encoding="utf-8").split("\n")
    replies = written.read_text(encoding="utf-8").splitlines()
    history = History(json.loads(setup))
    if replies and replies[-1].startswith("total "):
        read_drill(history, lines, replies)
    else:
        read_run(history, lines, replies)
    return history


def time_text(moment):
    """A moment on the axis: a time of day, or a time since 0."""
    if moment >= CLOCK:
        return datetime.datetime.fromtimestamp(moment / 1000, datetime.timezone.utc).strftime("%d %b %H:%M:%S")
    seconds = moment / 1000
    for size, unit in ((3600, "h"), (60, "min")):
        if seconds >= size and seconds % size == 0:
            return f"{seconds / size:g} {unit}"
    return f"{seconds:g} s"


class Picture:
    """The parts of an SVG picture."""

    def __init__(self, names, begin, end):
        self.names, self.begin, self.end = names, begin, max(end, begin + 1)
        self.row = max(13, min(40, 1600 // max(1, len(names))))
        self.height = TOP + self.row * len(names) + 66
        self.parts = []

    def x_of(self, moment):
        return LEFT + WIDTH * (min(max(moment, self.begin), self.end) - self.begin) / (self.end - self.begin)

    def add(self, part):
        self.parts.append(part)

    def text(self, x, y, told, size=11, ink="#444", more=""):
        self.add(f'<text x="{x:.1f}" y="{y:.1f}" font-size="{size}" fill="{ink}"{more}>{html.escape(told)}</text>')

    def axis(self):
        """A line and a label at round moments, about nine of them."""
        seconds = (self.end - self.begin) / 1000
        step = 1000 * next((it for it in STEPS if seconds / it <= 9), 86_400 * max(1, int(seconds // (9 * 86_400)) + 1))
        moment = -(-self.begin // step) * step
        while moment <= self.end:
            x = self.x_of(moment)
            self.add(f'<line x1="{x:.1f}" y1="{TOP - 10}" x2="{x:.1f}" y2="{self.height - 62}" stroke="#ddd"/>')
            self.text(x + 3, TOP - 13, time_text(moment), ink="#777")
            moment += step

    def spans(self, y, states):
        """The states of one object, each as long as it held; a later result in the same state continues the span."""
        held = []
        for state in states:
            if held and held[-1][1:] == state[1:]:
                continue
            held.append(state)
        for state, after in zip(held, held[1:] + [State(self.end, *held[-1][1:])] if held else []):
            if after.moment < self.begin or state.moment > self.end:
                continue
            x, until = self.x_of(state.moment), self.x_of(after.moment)
            fill = COLOURS[state.word][state.hard]
            dash = ' stroke-dasharray="4 3"' if state.word == "UNREACHABLE" else ""
            self.add(f'<rect x="{x:.1f}" y="{y + 2}" width="{max(until - x, 1):.1f}" height="{self.row - 4}" fill="{fill}" stroke="#666" stroke-width="0.5"{dash}/>')
            if state.flapping:
                self.add(f'<rect x="{x:.1f}" y="{y + self.row - 5}" width="{max(until - x, 1):.1f}" height="3" fill="#222"/>')
            self.span_text(x, until, y, state)

    def span_text(self, x, until, y, state):
        """The words in a span, as many as there is room for."""
        ink = "white" if state.hard and state.word != "WARNING" else "black"
        whole = f"{state.word} {'hard' if state.hard else 'soft'} {state.attempt}" + (" flapping" if state.flapping else "")
        for words in (whole, state.word, state.word[:1] if self.row >= 20 else ""):
            if words and LETTER * len(words) + 6 <= until - x:
                self.text(x + 4, y + self.row / 2 + 4, words, size=min(11, self.row - 3), ink=ink)
                return

    def marks(self, y, marks):
        """Checks that were put off (hollow triangles), and operators' actions (filled ones)."""
        for mark in marks:
            if self.begin <= mark.moment <= self.end:
                x, fill = self.x_of(mark.moment), "white" if mark.kind == "putoff" else "#1f5fa8"
                self.add(f'<path d="M{x:.1f} {y + self.row - 3} l-4 -7 h8 z" fill="{fill}" stroke="#1f5fa8"><title>{MARKS[mark.kind]}</title></path>')

    def legend(self):
        x, y = 10, self.height - 44
        for word, (soft, hard) in COLOURS.items():
            for fill in (soft, hard):
                self.add(f'<rect x="{x}" y="{y}" width="12" height="12" fill="{fill}" stroke="#666" stroke-width="0.5"/>')
                x += 14
            self.text(x + 2, y + 10, word)
            x += 16 + LETTER * len(word) + 8
        self.text(10, y + 30, "Pale: soft. Strong: hard. Dashed: unreachable. Black bar: flapping. "
                  "Hollow triangle: put off by a dependency. Filled: an operator's call.", ink="#777")

    def svg(self, title, history):
        self.add(f'<svg xmlns="http://www.w3.org/2000/svg" width="{LEFT + WIDTH + 60}" height="{self.height}" font-family="sans-serif">')
        self.add('<rect width="100%" height="100%" fill="white"/>')
        self.text(10, 22, title, size=15, ink="black")
        self.axis()
        room = int((LEFT - 16) / LETTER)
        for place, name in enumerate(self.names):
            y = TOP + self.row * place
            shown = name if len(name) <= room else name[: room - 1] + "…"
            self.text(10, y + self.row / 2 + 4, shown, size=min(12, self.row - 2), ink="black")
            if not history.states[name]:
                self.text(LEFT + 4, y + self.row / 2 + 4, "never checked", size=min(11, self.row - 3), ink="#999")
            self.spans(y, history.states[name])
            self.marks(y, history.marks[name])
        self.legend()
        self.add("</svg>")
        return "\n".join(self.parts) + "\n"


def main():
    parser = argparse.ArgumentParser(description=__doc__, formatter_class=argparse.RawDescriptionHelpFormatter)
    parser.add_argument("given", metavar="INPUT", type=pathlib.Path)
    parser.add_argument("written", metavar="OUTPUT", type=pathlib.Path)
    parser.add_argument("--from", dest="begin", metavar="MOMENT", type=int)
    parser.add_argument("--to", dest="end", metavar="MOMENT", type=int)
    parser.add_argument("--objects", metavar="PATTERN", default="*")
    arguments = parser.parse_args()
    history = history_of(arguments.given, arguments.written)
    names = [name for name in history.states if fnmatch.fnmatchcase(name, arguments.objects)]
    first, last = history.first or 0, history.last or 0
    begin = first if arguments.begin is None else arguments.begin
    end = last + (last - first) // 5 + 1 if arguments.end is None else arguments.end
    sys.stdout.write(Picture(names, begin, end).svg(f"{arguments.given.name}, as nagsched reports it", history))
    return 0


if __name__ == "__main__":
    sys.exit(main())
