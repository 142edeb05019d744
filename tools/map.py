#!/usr/bin/env python3
"""Prints the files of crates, each with the first sentence of its comment and the definitions that its contracts use.

    tools/map.py [CRATE ..]     all crates if none is named, lowest layer first
    tools/map.py --crates       each crate with its first sentence only
"""
import pathlib
import re
import sys

TOP = pathlib.Path(__file__).resolve().parent.parent


def first_sentence(file):
    """The first sentence of a file's comment, or nothing if it has none."""
    mark = "//!" if file.suffix == ".rt" else "--"
    lines = [line for line in file.read_text(encoding="utf-8").splitlines() if not line.startswith("#!")]
    comment = []
    for line in lines:
        if not line.startswith(mark) or not line.removeprefix(mark).strip():
            break
        comment.append(line.removeprefix(mark).strip())
    return re.split(r"(?<=\.)\s", " ".join(comment) + " ", maxsplit=1)[0].strip().rstrip(".")


def definitions(file, crate):
    """The files of the crate's own definitions that a source file brings in."""
    cited = re.findall(rf"Rattle\.{crate}\.specs\.([A-Z]\w*)", file.read_text(encoding="utf-8"))
    return ", ".join(name for name in sorted(set(cited)) if (TOP / f"crates/{crate}/specs/{name}.antt").exists())


def crate_rows(crate):
    """A crate's lines: its sources with their definitions, and then the definitions."""
    folder = TOP / "crates" / crate
    for file in sorted(folder.glob("src/**/*.rt")):
        said = first_sentence(file)
        if said and file.name != "lib.rt":
            yield f"  {file.relative_to(folder)}: {said}" + f" ({definitions(file, crate)})" * bool(definitions(file, crate))
    for file in sorted(folder.glob("specs/*.antt")):
        said = first_sentence(file)
        if said:
            yield f"  {file.relative_to(folder)}: {said}"


def root_file(crate):
    """The root file of a crate."""
    source = TOP / "crates" / crate / "src"
    return next(file for file in (source / "lib.rt", source / "main.rt") if file.exists())


def main():
    crates = re.findall(r"^\w+", (TOP / "crates.txt").read_text(encoding="utf-8"), re.MULTILINE)
    if sys.argv[1:] == ["--crates"]:
        print("\n".join(f"{crate}: {first_sentence(root_file(crate))}" for crate in crates))
        return 0
    unknown = [name for name in sys.argv[1:] if name not in crates]
    if unknown:
        print(f"map: crates.txt has no crate {unknown[0]}")
        return 1
    for crate in sys.argv[1:] or crates:
        print("\n".join([crate, *crate_rows(crate)]))
    return 0


if __name__ == "__main__":
    sys.exit(main())
