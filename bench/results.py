"""Writes a table of measured figures into bench/results/, with the command, the commit, the machine and the date. .ci/pages/figures.py reads it."""
import datetime
import os
import pathlib
import platform
import re
import subprocess
from typing import List, Sequence

TOP = pathlib.Path(__file__).resolve().parent.parent
RESULTS = TOP / "bench/results"


def commit() -> str:
    """The commit of this clone, and whether a file differs from it."""
    words = ["git", "-C", str(TOP)]
    name = subprocess.run([*words, "rev-parse", "--short=8", "HEAD"], stdout=subprocess.PIPE, text=True, check=True).stdout.strip()
    changed = subprocess.run([*words, "status", "--porcelain"], stdout=subprocess.PIPE, text=True, check=True).stdout
    return f"{name} with changes" if changed else name


def machine() -> str:
    """The processor, the number of cores, and the kernel."""
    model = re.search(r"^model name\s*: (.*)$", pathlib.Path("/proc/cpuinfo").read_text(encoding="utf-8"), re.M)
    return f"{len(os.sched_getaffinity(0))} cores of {model[1].strip() if model else platform.machine()}, Linux {platform.release()}"


def write_table(name: str, command: str, columns: Sequence[str], rows: Sequence[Sequence[str]]) -> None:
    """Replaces the table of this name."""
    head = {"command": command, "commit": commit(), "machine": machine(), "date": datetime.date.today().isoformat()}
    lines: List[str] = [f"# {word}: {value}" for word, value in head.items()]
    lines += ["\t".join(cells) for cells in (columns, *rows)]
    (RESULTS / f"{name}.tsv").write_text("".join(f"{line}\n" for line in lines), encoding="utf-8")
