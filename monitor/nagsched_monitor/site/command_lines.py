"""The command lines of a site: each can be split, and has a program that exists, unless a runner elsewhere runs it."""
import contextlib
import functools
import hashlib
import os
import pathlib
import re
import shlex
import shutil
import subprocess
from concurrent.futures import ThreadPoolExecutor
from typing import Container, Dict, List, Mapping, Set

from ..faults import SiteFault, raising, require
from ..model.objects import Command
from ..system.poller import replace_file
from .json_files import FLAG, TEXT, read_by_name, seconds

# A line without quotes, escapes and shell characters.
PLAIN = re.compile(r"[\w ./:,=%@+!#*?$~^{}\[\]-]*", re.ASCII)
HALF = re.compile("[\ud800-\udfff]")  # half of a character, which JSON allows: no program can get such an argument
TESTED = "shell-lines.tested"  # the file of a site with the checksums of the shell lines that were found to be good
LIMIT = 30.0  # the limit for a shell's test of a line, in seconds
# The program of a shell line, after variables that are set for it; no match if the line begins with something else.
FIRST_WORD = re.compile(r"\s*(?:\w+=[\w./:+-]*\s+)*([\w./+][\w./+-]*)(?![^\s;&|<>])")


def read_commands(folder: pathlib.Path, objects: Container[str], runner_of: Container[str]) -> Dict[str, Command]:
    """The command of each object. Each line can be split, and has a program that exists, unless a runner elsewhere runs it."""
    commands = {}
    places: Dict[str, str] = {}  # the place of each line that a shell runs; equal lines are tested once
    which = functools.lru_cache(maxsize=None)(shutil.which)  # many lines have the same program
    for name, place, members in read_by_name(folder, "commands.json", {"line": TEXT, "shell": FLAG, "limit": seconds()}, objects, required=True):
        require("line" in members, f"{place}: it has no line")
        line, shell = members["line"], members.get("shell", False)
        require("\0" not in line, f"{place}: its line has a zero byte")
        require(not HALF.search(line), f"{place}: its line has half a character")
        arguments = ["/bin/sh", "-c", line] if shell else plain_arguments(line, place)
        if shell:
            places.setdefault(line, place)
        require(name in runner_of or which(arguments[0]), f"{place}: there is no program {arguments[0]}")
        commands[name] = Command(arguments, members.get("limit", 60))
    test_shell_lines(folder / TESTED, places)
    return commands


def plain_arguments(line: str, place: str) -> List[str]:
    arguments, signs = line.split(), []
    if not PLAIN.fullmatch(line):
        with raising(SiteFault, f"{place}: its line can't be split into words", ValueError):
            arguments, signs = shlex.split(line), shell_characters(line)
    require(arguments, f"{place}: its line is empty")
    if signs:
        raise SiteFault(f'{place}: only a shell gives {signs[0]} a meaning: add "shell": true, or put it in quotes')
    return arguments


def shell_characters(line: str) -> List[str]:
    """The characters in a line, outside of quotes, that only a shell gives a meaning."""
    lexer = shlex.shlex(line, posix=True, punctuation_chars=True)
    lexer.whitespace_split, lexer.commenters = True, ""
    return [word for word in lexer if word and not word.strip(lexer.punctuation_chars)]


def test_shell_lines(file: pathlib.Path, places: Mapping[str, str]) -> None:
    """Tests lines that a shell runs: a process for each, so lines whose checksums are in a file were found to be good before."""
    checksums = {line: hashlib.blake2b(line.encode(), digest_size=12).hexdigest() for line in places}
    known: Set[str] = set()
    with contextlib.suppress(OSError, ValueError):
        known.update(file.read_text().split())
    new = [line for line, checksum in checksums.items() if checksum not in known]
    with ThreadPoolExecutor(os.cpu_count()) as several:
        list(several.map(test_shell_line, new, map(places.__getitem__, new)))
    if new:
        with contextlib.suppress(OSError):  # the disk is full, or the folder is another user's: all are tested again the next time
            replace_file(file, "\n".join(checksums.values()).encode())


def test_shell_line(line: str, place: str) -> None:
    with raising(SiteFault, f"{place}: its line can't be tested", subprocess.TimeoutExpired):
        read = subprocess.run(["/bin/sh", "-n", "-c", line], stdin=subprocess.DEVNULL, stderr=subprocess.PIPE, check=False, timeout=LIMIT)
    require(read.returncode == 0, f"{place}: {read.stderr.decode(errors='replace').strip()}")


def test_change_command(line: str) -> None:
    """Raises a `SiteFault` if a shell can't read the command for changes, or can't find the program with which it begins."""
    place = "the command for changes"
    test_shell_line(line, place)
    first = FIRST_WORD.match(line)
    if first and shutil.which(first[1]) is None:
        known = ["/bin/sh", "-c", 'command -v "$1"', "sh", first[1]]  # a word of the shell itself, such as cd
        found = "/" not in first[1] and subprocess.run(known, stdin=subprocess.DEVNULL, stdout=subprocess.DEVNULL, check=False, timeout=LIMIT)
        require(found and found.returncode == 0, f"{place}: there is no program {first[1]}: put it on the path, or name its whole path")
