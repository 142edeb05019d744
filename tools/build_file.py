#!/usr/bin/env python3
"""Records how a program was built, in a file next to it: NAME.build.

    tools/build_file.py write PROGRAM (proved | unproved)    after a build: writes the file
    tools/build_file.py show PROGRAM                         prints it as one line
    tools/build_file.py commit                               prints the commit of the crates
    tools/build_file.py copy PROGRAM COPY FILE               writes the record of a program, as FILE, for its installed or stripped copy

The file has the version, the commit, the kit, whether the program is proved, and the checksums of its sources and of the program. A record with another
checksum is of another program, and counts as none. It is a note for people: a person who can write the program can write the file too.
"""
import hashlib
import pathlib
import subprocess
import sys
from typing import Dict, List

TOP = pathlib.Path(__file__).resolve().parent.parent
PROOFS = {"proved": "proved", "unproved": "not proved"}
LIMIT = 60


def output_of(*words: str) -> str:
    """What a command prints, or nothing if it fails or isn't there."""
    try:
        ran = subprocess.run(words, cwd=TOP, stdout=subprocess.PIPE, stderr=subprocess.DEVNULL, text=True, timeout=LIMIT, check=False)
    except (OSError, subprocess.TimeoutExpired):
        return ""
    return ran.stdout.strip() if ran.returncode == 0 else ""


def checksum(program: pathlib.Path) -> str:
    return hashlib.sha256(program.read_bytes()).hexdigest()


def sources() -> str:
    """The checksum of all that a program is compiled from, without its proofs."""
    files = [TOP / "crates.txt", *sorted(TOP.glob("crates/*/src/**/*.rt"))]
    return hashlib.sha256(b"\0".join(file.read_bytes() for file in files)).hexdigest()


def commit() -> str:
    """The last commit that changed the crates, and whether they were changed after it."""
    name = output_of("git", "log", "-1", "--format=%h", "--abbrev=12", "--", "crates", "crates.txt")
    changed = output_of("git", "status", "--porcelain", "--", "crates", "crates.txt")
    return f"{name} with changes" if name and changed else name or "unknown"


def file_of(program: pathlib.Path) -> pathlib.Path:
    return program.with_name(program.name + ".build")


def record(program: pathlib.Path, proofs: str) -> Dict[str, str]:
    """The record of a program that was just built."""
    return {
        "version": (TOP / "VERSION").read_text(encoding="utf-8").strip(),
        "commit": commit(),
        "kit": output_of("rt", "version") or "unknown",
        "proofs": PROOFS[proofs],
        "sources": sources(),
        "sha256": checksum(program),
    }


def read(program: pathlib.Path) -> Dict[str, str]:
    """The record of a program, or nothing if there is none, or one of another program."""
    file = file_of(program)
    if not file.is_file():
        return {}
    found = dict(line.split(": ", 1) for line in file.read_text(encoding="utf-8").splitlines() if ": " in line)
    return found if found.get("sha256") == checksum(program) else {}


def text_of(found: Dict[str, str]) -> str:
    return "".join(f"{name}: {value}\n" for name, value in found.items())


def line_of(program: pathlib.Path) -> str:
    """The record as a line."""
    found = read(program)
    if not found:
        return f"{program.name}: no record says how it was built"
    return f"{program.name} {found['version']}, commit {found['commit']}, {found['kit']}, {found['proofs']}"


def copy(program: pathlib.Path, target: pathlib.Path, file: pathlib.Path) -> None:
    """Writes the record for a copy. A program without a record has none afterwards."""
    found = read(program)
    if found:
        file.write_text(text_of(found | {"sha256": checksum(target)}), encoding="utf-8")
    else:
        file.unlink(missing_ok=True)


def main(words: List[str]) -> int:
    if len(words) == 3 and words[0] == "write" and words[2] in PROOFS:
        program = pathlib.Path(words[1])
        file_of(program).write_text(text_of(record(program, words[2])), encoding="utf-8")
    elif len(words) == 2 and words[0] == "show":
        print(line_of(pathlib.Path(words[1])))
    elif words == ["commit"]:
        print(commit())
    elif len(words) == 4 and words[0] == "copy":
        copy(*(pathlib.Path(word) for word in words[1:]))
    else:
        print(__doc__, file=sys.stderr)
        return 2
    return 0


if __name__ == "__main__":
    sys.exit(main(sys.argv[1:]))
