"""The measured figures of the pages, which come from the files of bench/results/, and the test that no page has another one.

A file has a table of cells between tabs. Lines before it begin with `#` and say by which command the figures were measured, at which commit, on which
machine and when. .ci/pages/generated.py writes these to the pages:

    figures of FILE                the whole table
    figure of FILE/ROW/../COLUMN   one cell: the row begins with these cells
    ratio of FILE/ROW/COLUMN       the monitor's figure, divided by Nagios's
    source of FILE                 commit, machine and date
    speed                          README's comparison with Nagios
"""
import re
from typing import Dict, Iterator, List, NamedTuple

import anchors

RESULTS = anchors.TOP / "bench/results"
KINDS = ("figures", "figure", "ratio", "source", "speed")
OURS, THEIRS = "the monitor", "Nagios 4.4.6"
COST, MEMORY = "Processor ms per check", "Memory, MB"
# The rows of the comparison of the whole monitor on README.
RATES = ("18", "500")
# The pages whose figures come from files: the whole page, or the section with this heading.
PAGES = {"README.md": "## Speed", "docs/dev/measured.md": "", "docs/before-you-switch.md": ""}
# A number with a unit in which something is measured.
FIGURE = re.compile(r"\b\d[\d,.]*\s*(?:ns|µs|ms|s|seconds?|minutes?|kB|MB|GB|MiB|%|percent|times|million|billion|instructions)(?!\w)|(?<![\d.])\d+\.\d+(?![\d.])")
# Figures that are settings of a measurement, or names.
SETTINGS = {"40 seconds"}


class Table(NamedTuple):
    """A file of results."""

    head: Dict[str, str]
    columns: List[str]
    rows: List[List[str]]

    def cell(self, column: str, *row: str) -> str:
        """The cell in this column of the row that begins with these cells."""
        found = [cells for cells in self.rows if tuple(cells[: len(row)]) == row]
        if len(found) != 1 or column not in self.columns:
            raise KeyError(f"bench/results has {len(found)} rows {row} with a column {column}")
        return found[0][self.columns.index(column)]


def read_table(name: str) -> Table:
    """The table of a file."""
    lines = (RESULTS / f"{name}.tsv").read_text(encoding="utf-8").splitlines()
    head = dict(line[2:].split(": ", 1) for line in lines if line.startswith("# "))
    columns, *rows = [line.split("\t") for line in lines if not line.startswith("#")]
    return Table(head, columns, rows)


def markdown(columns: List[str], rows: List[List[str]]) -> str:
    """A table as a page has it."""
    lines = [columns, ["---"] * len(columns), *rows]
    return "\n" + "\n".join("|" + "|".join(f" {cell} " if cell != "---" else cell for cell in cells) + "|" for cells in lines) + "\n"


def source_of(table: Table) -> str:
    """A sentence about commit, machine and date, with a note if the file has one."""
    head = table.head
    return f"`{head['command']}`, {head['date']}, commit {head['commit']}, {head['machine']}" + (f"; {head['note']}" if "note" in head else "")


def ratio(of: str) -> str:
    """The monitor's figure, divided by Nagios's, with two digits."""
    name, row, column = of.split("/", 2)
    ours, theirs = (float(read_table(name).cell(column, row, system).replace(",", "")) for system in (OURS, THEIRS))
    return f"{ours / theirs:.2g}"


def speed() -> str:
    """README's table."""
    cycles, monitor = read_table("cycles"), read_table("monitor")
    rows = [["scheduler only, 4,096 services: one check and its result", *(f"{row[-1]} ns{' *' * row[0].endswith('*')}" for row in cycles.rows)]]
    for rate in RATES:
        cells = [f"{monitor.cell(COST, rate, who)} ms, {monitor.cell(MEMORY, rate, who)} MB" for who in (OURS, THEIRS)]
        rows.append([f"monitor, {rate} checks per second: processor time per check, memory", *cells])
    return markdown(["Workload", "nagsched", THEIRS], rows)


def generated(kind: str, of: str) -> str:
    """The text of an anchor."""
    if kind == "speed":
        return speed()
    if kind == "ratio":
        return ratio(of)
    if kind == "figure":
        name, *row, column = of.split("/")
        return read_table(name).cell(column, *row)
    table = read_table(of)
    return markdown(table.columns, table.rows) if kind == "figures" else source_of(table)


def files_without_source() -> Iterator[str]:
    """Each file of results that doesn't say by which command, at which commit, on which machine and when it was measured."""
    for file in sorted(RESULTS.glob("*.tsv")):
        missing = {"command", "commit", "machine", "date"} - read_table(file.stem).head.keys()
        if missing:
            yield f"{file.name}: {', '.join(sorted(missing))}"


def typed_figures() -> Iterator[str]:
    """Each figure on those pages that comes from no file."""
    for page, heading in PAGES.items():
        text = anchors.text_of(anchors.TOP / page)
        section = text[text.index(heading):].split("\n## ")[0] if heading else text
        prose = re.sub(anchors.BLOCK, "", anchors.GENERATED.sub("", section), flags=re.S | re.M)
        yield from (f"{page}: {figure[0]} comes from no file of bench/results" for figure in FIGURE.finditer(prose) if figure[0] not in SETTINGS)
