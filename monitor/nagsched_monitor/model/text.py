"""Texts of plugins and clients, cleaned in this one place: stored, logged and shown texts have no control characters except line feeds.

The performance data of a plugin's output is what stands after `|` on its first line, and after the first `|` of the lines below:

    OK - 23 % used | /=23%;80;90;0;100 'free space'=1.5e3MB
"""
import math
import re
from typing import Dict, Tuple

MOST_OUTPUT_BYTES = 4_096  # the number of stored bytes of a plugin's standard output, and of its standard error
# Control characters, and characters that turn the direction of the text after them. A tab becomes a space.
CONTROLS = re.compile("[\x00-\x08\x0b-\x1f\x7f-\x9f\u2028\u2029\u202a-\u202e\u2066-\u2069\ufeff]")
ON_ONE_LINE = {**{code: " " for code in (*range(32), 127)}, 10: "\\n"}
# A label, in quotes or not, with its number and its unit.
VALUE = re.compile(r"(?:^|(?<=\s))(?:'((?:[^']|'')+)'|([^\s='|]+))=([-+]?(?:\d+(?:[.,]\d*)?|[.,]\d+)(?:[eE][-+]?\d+)?)([^\s;\d'\".,+-]*)(?=[\s;]|$)")


def plain_text(text: str, most: int = MOST_OUTPUT_BYTES) -> str:
    """A text without control characters, cut to a number of bytes of UTF-8."""
    if text.isascii() and text.isprintable() and len(text) <= most:
        return text
    cleaned = CONTROLS.sub(" ", text.replace("\r\n", "\n").replace("\t", " "))
    return cleaned.encode(errors="replace")[:most].decode(errors="ignore").rstrip("\n")


def printable_text(text: str) -> str:
    """A text on one line without spaces around it: a line feed becomes two letters, as in Nagios, and each other control character a space."""
    text = text.strip()
    return text if text.isprintable() else text.translate(ON_ONE_LINE)


def number_text(value: float) -> str:
    """A number with all of its digits."""
    return str(int(value)) if value == int(value) and abs(value) < 2**53 else repr(value)


def first_line(text: str) -> str:
    return text.partition("\n")[0]


def split_output(words: str) -> Tuple[str, str, str]:
    """The first line and the others without performance data, and the performance data."""
    first, _, others = words.partition("\n")
    text, _, data = first.partition("|")
    long_text, _, more = others.partition("|")
    return text.strip(), long_text.rstrip("\n"), f"{data.rstrip()} {more.lstrip()}".strip()


def text_of(words: str) -> str:
    text, long_text, _ = split_output(words)
    return f"{text}\n{long_text}" if long_text else text


def performance_data(words: str) -> str:
    """The performance data of an output, on one line. If an output is cut, the last value isn't whole, and is left out."""
    data = split_output(words)[2].replace("\n", " ")
    return data[: max(data.rfind(" "), 0)] if len(words.encode(errors="replace")) > MOST_OUTPUT_BYTES - 4 else data


def performance_values(words: str) -> Dict[Tuple[str, str], float]:
    """The values of an output by label and unit: if there are several of one, the last. What isn't a number (`U`) is left out."""
    found: Dict[Tuple[str, str], float] = {}
    for quoted, plain, number, unit in VALUE.findall(performance_data(words)):
        value = float(number.replace(",", "."))
        if math.isfinite(value):
            found[quoted.replace("''", "'") or plain, unit] = value
    return found
