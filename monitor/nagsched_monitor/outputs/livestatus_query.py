"""The query language of Livestatus: the lines of a query, the rows of a table that they choose, and the form of the answer.

    GET services
    Columns: host_name description state
    Filter: state = 1
    Filter: state = 2
    Or: 2

A condition is evaluated for all rows at once. The rows that fit are one number, with a byte for each row, so that conditions are combined at once too."""
import collections
import enum
import functools
import json
import math
import operator
import re
import statistics
import time
from typing import Any, Callable, Collection, DefaultDict, Dict, Iterable, List, Mapping, NoReturn, Optional, Sequence, Tuple

from .object_columns import Column

# The limits of a query: its columns and statistics, the values of its answer, its seconds, and those for which it waits; and of a shown text.
MOST_COLUMNS, MOST_VALUES, LONGEST, LONGEST_WAIT, SHOWN = 1_000, 5_000_000, 10.0, 60.0, 80
NUMBERS = ("int", "time", "float")
ORDERS = {"=": operator.eq, "<": operator.gt, ">": operator.lt, "<=": operator.ge, ">=": operator.le}
PATTERNS = {"~": 0, "~~": re.IGNORECASE}
OPERATORS = (*ORDERS, *PATTERNS, "=~")
COMBINED = re.compile("(Stats|WaitCondition|)(And|Or|Negate)")
SWITCH = ("on", "off")
WORDS = {"OutputFormat": ("csv", "json", "python", "python3", "wrapped_json"), "ColumnHeaders": SWITCH, "KeepAlive": SWITCH,
         "ResponseHeader": ("off", "fixed16"), "WaitTrigger": ("all", "check", "state", "log", "downtime", "comment", "command", "program")}
AGGREGATES: Mapping[str, Callable[[Sequence[float]], float]] = {
    "sum": math.fsum, "min": min, "max": max, "avg": statistics.fmean, "std": lambda values: statistics.stdev(values) if len(values) > 1 else 0.0,
}
Code = enum.IntEnum("Code", {"OK": 200, "WRONG_HEADER": 400, "NO_TABLE": 404, "TOO_LARGE": 413, "NO_COLUMN": 450, "INCOMPLETE": 451, "WRONG_REQUEST": 452,
                             "UNAVAILABLE": 502})  # as in Livestatus


class QueryFault(Exception):
    """A query that is refused, with its code."""

    def __init__(self, text: str, code: Code = Code.WRONG_HEADER) -> None:
        super().__init__(text)
        self.code = code


def refuse(text: str, code: Code = Code.WRONG_HEADER) -> NoReturn:
    raise QueryFault(text, code)


def rows_that(fit: Iterable[int]) -> int:
    return int.from_bytes(bytes(fit), "big")


class Table:
    """The rows of a table at one moment. The values of a column, and the rows that fit a condition, are computed once.

    `key` gives the full name of a row's object, and `contacts` those who may see it; a table that isn't about objects has neither."""

    def __init__(self, name: str, columns: Mapping[str, Column], rows: Sequence[Any], key: Optional[Callable[[Any], str]] = None,
                 contacts: Optional[Callable[[Any], Collection[str]]] = None) -> None:
        self.name, self.columns, self.rows, self._key, self._contacts = name, columns, rows, key, contacts
        self.every_row = int.from_bytes(b"\1" * len(rows), "big")
        self._values: Dict[str, List[Any]] = {}
        self._fitting: Dict[str, int] = {}
        self._places: Dict[str, DefaultDict[str, List[int]]] = {}  # those of each value of a column

    def column(self, name: str) -> str:
        """The name of a column, before which the name of one row may be, as in `service_state`."""
        before = f"{self.name.partition('by')[0].rstrip('s')}_"
        known = [each for each in (name, name.removeprefix(before), f"current_{name}") if each in self.columns]
        return known[0] if known else refuse(f"the table {self.name} has no column {name[:SHOWN]!r}", Code.NO_COLUMN)

    def values(self, name: str) -> List[Any]:
        if name not in self._values:
            self._values[name] = list(map(self.columns[name].value, self.rows))
        return self._values[name]

    def values_at(self, name: str, places: Sequence[int]) -> List[Any]:
        known, value = self._values.get(name), self.columns[name].value
        return [value(self.rows[place]) for place in places] if known is None else [known[place] for place in places]

    def fitting(self, line: str) -> int:
        """The rows that fit a condition, such as `state != 0`."""
        if line not in self._fitting:
            name, given, text = (*line.split(None, 2), "", "", "")[:3]
            order = given.removeprefix("!")
            if order not in OPERATORS:
                refuse(f"it has to be COLUMN OPERATOR VALUE, with one of the operators {' '.join(OPERATORS)}, or one of them after a !")
            name = self.column(name)
            kind = self.columns[name].kind
            is_name = (kind, given) == ("string", "=")
            found = self._rows_with(name, text) if is_name else rows_that(map(test_of(kind, order, text), self.values(name)))
            self._fitting[line] = found ^ self.every_row if given != order else found
        return self._fitting[line]

    def _rows_with(self, name: str, text: str) -> int:
        """The rows with this text in a column. Maps ask for many objects by their names."""
        if name not in self._places:
            self._places[name] = collections.defaultdict(list)
            for place, value in enumerate(self.values(name)):
                self._places[name][value].append(place)
        found = bytearray(len(self.rows))
        for place in self._places[name].get(text, ()):
            found[place] = 1
        return rows_that(found)

    def of_contact(self, name: str) -> int:
        contacts = self._contacts
        return self.every_row if contacts is None else rows_that(name in contacts(row) for row in self.rows)

    def of_object(self, name: str) -> int:
        """The row of an object. A `;` or a space is between a host and its service."""
        key = self._key or (lambda row: "")
        return rows_that(key(row) in (name, name.replace(" ", ";", 1)) for row in self.rows) or refuse(f"the table {self.name} has no such object")


def test_of(kind: str, order: str, text: str) -> Callable[[Any], bool]:
    if kind in NUMBERS and order in ORDERS:
        try:
            return functools.partial(ORDERS[order], float(text))
        except ValueError:
            refuse("the column needs a number")
    if kind == "string":
        return test_of_text(order, text)
    if kind == "dict":
        member, _, text = text.partition(" ")
        fits = test_of_text(order, text.lstrip())
        return lambda value: fits(value.get(member, ""))
    if kind == "list" and order in PATTERNS:
        fits = test_of_text(order, text)
        return lambda value: any(map(fits, map(list_text, value)))
    if kind == "list" and order in (">=", "<"):
        return lambda value: (text in map(list_text, value)) == (order == ">=")
    if kind == "list" and order == "=" and not text:
        return operator.not_
    refuse("a list takes `>= NAME`, `< NAME`, `~ PATTERN`, `~~ PATTERN`, and `=` alone" if kind == "list" else "a number takes no such operator")


def test_of_text(order: str, text: str) -> Callable[[str], bool]:
    if order in ORDERS:
        return functools.partial(ORDERS[order], text)
    if order == "=~":
        return lambda value: value.lower() == text.lower()
    try:
        search = re.compile(text, PATTERNS[order]).search
    except (re.error, OverflowError, RecursionError) as error:
        refuse(f"it is no regular expression: {error}")
    return lambda value: search(value) is not None


def list_text(value: Any, between: str = "|") -> str:
    """An item of a list as a text: of a host and its service, both."""
    return between.join(map(str, value)) if isinstance(value, list) else str(value)


class Query:
    """A query of a table, whose conditions are evaluated as they are read. Raises `QueryFault` if it is refused."""

    def __init__(self, table: Table, lines: Sequence[str]) -> None:
        self._table, end = table, time.monotonic() + LONGEST
        self._columns: List[str] = []
        self._sorts: List[Tuple[str, bool]] = []
        # For each kind of condition, a stack of the rows that fit. In that of statistics, a column is with its function.
        self._stacks: Dict[str, List[Any]] = {"": [], "Stats": [], "WaitCondition": []}
        self.words = {"OutputFormat": "csv"}
        self.numbers = {"Limit": MOST_VALUES, "Offset": 0, "WaitTimeout": 0, "Localtime": round(time.time())}
        self._separators = ["\n", ";", ",", "|"]  # of rows, of columns, of a list, and of a host and its service
        self._seen = self._object = table.every_row
        for line in lines:
            name, _, text = line.partition(":")
            try:
                self._read(name, text.strip())
            except QueryFault as fault:
                raise QueryFault(f"{line[:SHOWN]!r}: {fault}", fault.code) from None
            if time.monotonic() > end:
                refuse(f"the query takes more than {LONGEST:g} seconds: ask for less", Code.TOO_LARGE)

    def _read(self, name: str, text: str) -> None:
        combined = COMBINED.fullmatch(name)
        if combined is not None:
            self._combine(self._stacks[combined.group(1)], combined.group(2), text)
        elif name in ("Filter", "WaitCondition"):
            self._stacks[name.replace("Filter", "")].append(self._table.fitting(text))
        elif name == "Stats":
            self._stacks[name].append(self._statistic_of(text))
        elif name in ("Columns", "StatsGroupBy"):
            self._columns += [self._table.column(each) for each in text.split()[: MOST_COLUMNS + 1]]
        elif name == "Sort":
            column, _, order = text.partition(" ")
            self._sorts.append((self._table.column(column), word(order.strip() or "asc", ("asc", "desc")) == "desc"))
        elif name in WORDS:
            self.words[name] = word(text, WORDS[name])
        elif name in self.numbers:
            self.numbers[name] = whole(text)
        elif name == "AuthUser":
            self._seen = self._table.of_contact(text)
        elif name == "WaitObject":
            self._object = self._table.of_object(text)
        elif name == "Separators":
            self._separators = [chr(whole(each, 255)) for each in text.split()]
        else:
            refuse("there is no such header")
        if len(self._columns) + len(self._stacks["Stats"]) > MOST_COLUMNS:
            refuse(f"a query has at most {MOST_COLUMNS} columns and statistics", Code.TOO_LARGE)
        if len(self._separators) != 4:
            refuse("it has to be four codes of characters")
        if abs(self.numbers["Localtime"] - time.time()) > 900:
            refuse("this machine's clock differs by more than 15 minutes: set the clock of one of them")

    def _combine(self, stack: List[Any], how: str, text: str) -> None:
        """Puts a combination of the last conditions in their place."""
        count = 1 if how == "Negate" else whole(text)
        last = stack[-count:]
        if not 0 < count == len(last) or any(isinstance(each, tuple) for each in last):
            refuse(f"it needs {max(count, 1)} conditions before it")
        combined = operator.or_ if how == "Or" else operator.and_
        stack[-count:] = [last[0] ^ self._table.every_row if how == "Negate" else functools.reduce(combined, last)]

    def _statistic_of(self, text: str) -> Any:
        """The rows that fit a condition, which are counted, or a function of a column."""
        name, _, column = text.partition(" ")
        if name not in AGGREGATES or " " in column.strip():
            return self._table.fitting(text)
        column = self._table.column(column.strip())
        return (name, column) if self._table.columns[column].kind in NUMBERS else refuse("it needs a column of numbers")

    def patience(self) -> float:
        """How long it waits at most, in seconds."""
        return min(self.numbers["WaitTimeout"] / 1000 or LONGEST_WAIT, LONGEST_WAIT)

    def is_waiting(self, is_unchanged: bool) -> bool:
        """Whether what it waits for hasn't come: that its conditions are met, or without any, that its trigger has happened."""
        conditions = self._stacks["WaitCondition"]
        return not functools.reduce(operator.and_, conditions, self._object) if conditions else "WaitTrigger" in self.words and is_unchanged

    def answer(self) -> str:
        fitting = functools.reduce(operator.and_, self._stacks[""], self._seen).to_bytes(len(self._table.rows), "big")
        places = [place for place, fits in enumerate(fitting) if fits]
        for column, is_reversed in reversed(self._sorts):
            values = {place: str(value) if isinstance(value, dict) else value for place, value in zip(places, self._table.values_at(column, places))}
            places.sort(key=values.__getitem__, reverse=is_reversed)
        stats = self._stacks["Stats"]
        shown = self._columns if self._columns or stats else list(self._table.columns)
        chosen = slice(self.numbers["Offset"], self.numbers["Offset"] + self.numbers["Limit"])
        its = places if stats else places[chosen]
        if len(its) * (len(shown) + len(stats)) > MOST_VALUES:
            refuse(f"the answer has more than {MOST_VALUES} values: ask for fewer rows or columns", Code.TOO_LARGE)
        cells = [self._table.values_at(column, its) for column in shown]
        rows = self._statistics(places, cells)[chosen] if stats else list(map(list, zip(*cells)))
        heads = [*shown, *(f"stats_{number}" for number in range(1, len(stats) + 1))]
        if self.words["OutputFormat"] == "wrapped_json":
            return json.dumps({"columns": heads, "data": rows, "total_count": len(places)}) + "\n"
        has_heads = self.words.get("ColumnHeaders", "off" if self._columns or stats else "on") == "on"
        return self._text([heads, *rows] if has_heads else rows)

    def _statistics(self, places: List[int], cells: List[List[Any]]) -> List[List[Any]]:
        """A row for each group of rows that have the same values; without columns, one row."""
        groups: Dict[str, Tuple[Sequence[Any], List[int]]] = {} if cells else {"": ((), places)}
        for place, values in zip(places, zip(*cells)):
            groups.setdefault(str(values), (values, []))[1].append(place)
        stats = [each if isinstance(each, tuple) else each.to_bytes(len(self._table.rows), "big") for each in self._stacks["Stats"]]
        return [[*values, *(self._statistic(each, its) for each in stats)] for values, its in groups.values()]

    def _statistic(self, each: Any, places: List[int]) -> Any:
        if isinstance(each, tuple):
            return AGGREGATES[each[0]](self._table.values_at(each[1], places)) if places else 0.0
        return sum(each[place] for place in places)

    def _text(self, rows: List[List[Any]]) -> str:
        if self.words["OutputFormat"] != "csv":
            return f"{json.dumps(rows) if self.words['OutputFormat'] == 'json' else ascii(rows)}\n"
        end, between, of_list, of_pair = self._separators
        return "".join(between.join(csv_text(value, of_list, of_pair) for value in row) + end for row in rows)


def csv_text(value: Any, of_list: str, of_pair: str) -> str:
    items = [[name, text] for name, text in value.items()] if isinstance(value, dict) else value
    return of_list.join(list_text(each, of_pair) for each in items) if isinstance(items, list) else str(value)


def whole(text: str, most: int = 10**12) -> int:
    return int(text) if re.fullmatch("[0-9]{1,13}", text) and int(text) <= most else refuse(f"it needs a whole number up to {most}")


def word(text: str, words: Sequence[str]) -> str:
    return text if text in words else refuse(f"it has to be one of {', '.join(words)}")
