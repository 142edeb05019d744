"""Data as the lines of a YAML file. For from_nagios.py --site."""
import re
from typing import Any, Dict, Iterator

PLAIN = re.compile(r"[A-Za-z_]\w*")
# Words that YAML takes for something else.
NO_TEXTS = {"y", "n", "yes", "no", "on", "off", "true", "false", "null"}


def scalar(value: object) -> str:
    if isinstance(value, bool):
        return str(value).lower()
    text = str(value)
    quoted = "'" + text.replace("'", "''") + "'"
    return text if PLAIN.fullmatch(text) and text.lower() not in NO_TEXTS else quoted


def yaml_lines(value: Dict[str, Any], indent: str = "") -> Iterator[str]:
    """A mapping as lines of YAML: lists of texts on one line, others with an item each."""
    for key, item in value.items():
        if isinstance(item, dict):
            yield f"{indent}{key}:"
            yield from yaml_lines(item, indent + "  ")
        elif isinstance(item, list) and any(isinstance(each, dict) for each in item):
            yield f"{indent}{key}:"
            for each in item:
                lines = list(yaml_lines(each, indent + "    "))
                yield f"{indent}  - {lines[0].strip()}"
                yield from lines[1:]
        else:
            yield f"{indent}{key}: " + (f"[{', '.join(map(scalar, item))}]" if isinstance(item, list) else scalar(item))
