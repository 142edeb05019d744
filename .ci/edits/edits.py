#!/usr/bin/env python3
"""Tries the wrong bodies of each crate: the prover must leave a goal of the clause that each names open.

    .ci/edits/edits.py [--proved]        in the gate: tries the edits of each crate whose file TRIED is old, and two others
    tools/edits [NAME ..]          manually: tries those of these crates, or of all, and writes TRIED

An edit is a file in must-fail/, which `rt ci` tries too at each run, or in edits/, which only this script tries. Its line `clause:` names what it breaks
(.ci/edits/clauses.py). It is refused if the prover leaves a goal of that clause open, and not only since a name of the proof moved. Other edits are listed at the
end, to be read, and count as failed. A function is proved from its own body and the contracts of those that it calls, so one check tries edits of several
functions. An edit whose goals such a check doesn't try is tried alone.

TRIED has the goal that refused each edit, the kit, of which its logic counts, and a checksum without lines of comment of what the outcome depends on: the
crate's sources and edits, and the signatures, clauses and definitions of the libraries below. Where TRIED isn't old, the gate tries two edits of small crates,
chosen by the commit. With --proved the libraries are those that `rt ci` just left in the tree. The last line counts the edits.
"""
import hashlib
import os
import pathlib
import random
import re
import runpy
import shutil
import subprocess
import sys
import types
from concurrent.futures import ThreadPoolExecutor
from typing import Any, Dict, List, NamedTuple, Set, Tuple

import clauses
import goals
import tried

TOP = pathlib.Path(__file__).resolve().parents[2]
KIT = pathlib.Path(shutil.which("rt") or "rt").resolve().parent
# Two programs of the kit as modules: the command itself, and a reader of sources.
RT, READER = (types.SimpleNamespace(**runpy.run_path(str(KIT / name))) for name in ("rt", "rt-plant-bodies"))
FLAGS = ["--jobs", "1"]
FOLDERS = ("edits", "must-fail")
# How many edits of edits/ the gate tries where no TRIED is old, of crates with at most this many lines of source.
SAMPLE, SMALL = 2, 1000


class Edit(NamedTuple):
    """A wrong body."""

    file: pathlib.Path
    clause: clauses.Clause
    # The function whose goals show that it is refused, and all functions that it changes.
    target: str
    changed: Set[str]
    # Whether it changes something outside functions too.
    is_alone: bool

    @property
    def name(self) -> str:
        return f"{self.file.parent.name}/{self.file.stem}"

    @property
    def functions(self) -> Set[str]:
        return self.changed | {self.target}


def files_of(crate: Any) -> List[pathlib.Path]:
    """The edits of a crate."""
    return sorted(file for folder in FOLDERS for file in TOP.glob(f"crates/{crate.name}/{folder}/*.edit"))


def tried_file(crate: Any) -> pathlib.Path:
    return pathlib.Path(crate.folder, "edits", "TRIED")


def kit_version() -> str:
    return subprocess.run([KIT / "rt", "version"], stdout=subprocess.PIPE, text=True, check=True).stdout.strip()


def checksum(crate: Any) -> str:
    """The checksum of everything that the outcome of a crate's edits depends on, except the kit."""
    files = [file for part in ("src", "specs", "proofs", *FOLDERS) for file in TOP.glob(f"crates/{crate.name}/{part}/**/*.*")]
    for library in crate.below():
        # Those in interface/ have the names of their clauses alone.
        signatures = [*TOP.glob(f"crates/{library.name}/out/rlib/{library.name}.rlib/lang/src/**/*.rt")]
        if not signatures:
            sys.exit(f"edits: {library.name} isn't built, or its signatures are in another place")
        files += [*TOP.glob(f"crates/{library.name}/specs/**/*.antt"), *signatures]
    texts = [(str(file.relative_to(TOP)), re.sub(rb"(?m)^[ \t]*(?://|--).*\n", b"", file.read_bytes())) for file in sorted(files)]
    return hashlib.sha256(repr(texts).encode()).hexdigest()


def is_stale(crate: Any, kit: str) -> bool:
    """Whether TRIED is old, or an edit doesn't fit its file any more, as when it changes a comment."""
    known = tried.read_tried(tried_file(crate))
    return not (known and known.fits(kit, checksum(crate))) or any(RT.read_edit(str(file), crate.folder)[1] for file in files_of(crate))


def path_of(function: Any) -> str:
    """The end of the prover's name for a function. An impl of a trait has the words of its type and of the trait, without modules."""
    trait = re.findall(r"\b\w+\b(?!::)", READER.written(function.block.trait)) if function.in_trait else []
    owner = ["".join([function.owner, *trait])] if function.block else function.module
    return "::".join([*owner, function.name])


def changed_functions(source: Any, text: str) -> Tuple[Set[str], bool]:
    """The functions whose bodies an edit changes, and whether it changes something else too."""
    found: Set[str] = set()
    is_alone, file = False, ""
    for kind, _, what in (line.partition(": ") for line in text.splitlines()):
        file = what if kind == "file" else file
        if kind == "old":
            bodies = [it for it in source.functions if it.file == file and what.encode() in source.data[file][it.opens : it.end]]
            found |= {path_of(it) for it in bodies}
            is_alone |= not bodies
    return found, is_alone


def read_edits(crate: Any) -> Tuple[List[Edit], Dict[str, str]]:
    """The edits of a crate, and by name what is wrong with the others."""
    source = READER.Source(crate.folder)
    source.read("src/main.rt" if crate.is_program else "src/lib.rt")
    found: List[Edit] = []
    wrong: Dict[str, str] = {}
    for file in files_of(crate):
        text = file.read_text(encoding="utf-8")
        clause, (changed, is_alone) = clauses.read_clause(text), changed_functions(source, text)
        why = RT.read_edit(str(file), crate.folder)[1] or ("" if clause else "it has no line 'clause: NAME' in a form of .ci/edits/clauses.py")
        if clause and not why and not clause.function and len(changed) != 1:
            why = "it changes no function, or several, so its line 'clause:' must end in ' of FUNCTION'"
        if clause and not why:
            found.append(Edit(file, clause, clause.function or min(changed), changed, is_alone))
        else:
            wrong[f"{file.parent.name}/{file.stem}"] = why
    return found, wrong


def judge(crate: Any, edit: Edit, said: str) -> Tuple[bool, str]:
    """Whether a check refuses an edit by the clause that it names, and what shows it, or what is to be read."""
    folder = pathlib.Path(crate.folder, "proofs")
    answers = "".join(file.read_text(encoding="utf-8") for file in sorted(folder.glob(f"**/{edit.target.replace('::', '/')}/*.antt")))
    is_refused, words = clauses.judged(edit.clause, goals.open_goals(crate.name, edit.target, said, answers))
    if not is_refused and re.search(rf"(?m)^fn {crate.name}::(?:\S+::)?{re.escape(edit.target)}: proved", said):
        words = f"{edit.target} is still proved"
    elif not is_refused and not re.search(r"(?m)^only=", said):
        words = f"the check didn't end: {' '.join(said.split())[:200]}"
    return is_refused, f"{edit.target}, {words}"


def was_judged(crate: Any, edit: Edit, said: str) -> bool:
    """Whether a check of several edits tried all goals of an edit's function: it waits with those of a function that calls one that isn't proved."""
    verdict = re.search(rf"(?m)^fn {crate.name}::(?:\S+::)?{re.escape(edit.target)}: (.*)", said)
    return verdict is not None and "it calls" not in verdict[1]


def check(crate: Any, batch: List[Edit]) -> str:
    """What the prover says of the functions that these edits change."""
    texts, why = RT.edited("\n".join(edit.file.read_text(encoding="utf-8") for edit in batch), crate.folder)
    names = sorted({name for edit in batch for name in edit.functions})
    return f"edits: {why}" if why else RT.checked(crate, texts, [*FLAGS, *(f"--only={name}" for name in names)], None).stdout


def batches(edits: List[Edit]) -> List[List[Edit]]:
    """The edits in groups that one check can try: of different functions, and of nothing else."""
    found: List[List[Edit]] = []
    for edit in edits:
        fits = (batch for batch in found if not any(edit.is_alone or other.is_alone or edit.functions & other.functions for other in batch))
        batch = next(fits, None)
        if batch is None:
            found.append(batch := [])
        batch.append(edit)
    return found


def outcomes(crate: Any, edits: List[Edit]) -> Dict[str, Tuple[bool, str]]:
    """By the name of each edit, whether it is refused by its clause, and what shows it, or what is to be read."""
    found: Dict[str, Tuple[bool, str]] = {}
    for batch in batches(edits):
        said = check(crate, batch)
        found |= {edit.name: judge(crate, edit, said) for edit in batch}
        for edit in batch if len(batch) > 1 else []:
            if not found[edit.name][0] and not was_judged(crate, edit, said):
                found[edit.name] = judge(crate, edit, check(crate, [edit]))
    return found


def try_edits(crate: Any, kit: str, writes: bool, chosen: Set[str]) -> List[str]:
    """Tries the chosen edits of a crate, or all, and prints a line for each. Returns a line for each that isn't shown to be refused by its clause."""
    edits, wrong = read_edits(crate)
    found = outcomes(crate, [edit for edit in edits if not chosen or edit.name in chosen])
    refused = {name: words for name, (is_refused, words) in found.items() if is_refused}
    print("\n".join(f"edits: {crate.name}/{name}: refused: {words}" for name, words in refused.items()), flush=True)
    if writes and len(refused) == len(files_of(crate)):
        tried_file(crate).parent.mkdir(exist_ok=True)
        tried_file(crate).write_text(tried.Tried(kit, checksum(crate), refused).text(), encoding="utf-8")
    others = {name: words for name, (is_refused, words) in found.items() if not is_refused} | wrong
    return [f"edits: {crate.name}/{name}: {words}" for name, words in others.items()]


def sample(crates: List[Any]) -> Dict[str, Set[str]]:
    """A few edits of small crates, by the names of their crates. The commit chooses them."""
    ran = subprocess.run(["git", "rev-parse", "HEAD"], cwd=TOP, stdout=subprocess.PIPE, stderr=subprocess.DEVNULL, text=True, check=False)
    seed = ran.stdout.strip() or kit_version()
    small = [crate for crate in crates if sum(file.read_bytes().count(b"\n") for file in pathlib.Path(crate.folder, "src").glob("**/*.rt")) <= SMALL]
    every = [(crate.name, f"edits/{file.stem}") for crate in small for file in files_of(crate) if file.parent.name == "edits"]
    found: Dict[str, Set[str]] = {}
    for crate, name in random.Random(seed).sample(every, min(SAMPLE, len(every))):
        print(f"edits: {crate}/{name} is one of the {SAMPLE} that {seed} chooses")
        found.setdefault(crate, set()).add(name)
    return found


def build_below(all_crates: List[Any], crates: List[Any]) -> None:
    """Builds the libraries below crates."""
    libraries = [library for library in all_crates if any(library in crate.below() for crate in crates)]
    RT.rtlib.lock(libraries)
    if any(library.build_rlib(FLAGS, anew=False) for library in libraries):
        sys.exit("edits: a library isn't proved")


def main(arguments: List[str]) -> int:
    writes, names = "--write" in arguments, {word for word in arguments if not word.startswith("--")}
    RT.rtlib.guarded()
    all_crates, kit = RT.rtlib.crates_below(str(TOP)), kit_version()
    crates = [crate for crate in all_crates if files_of(crate) and (not names or crate.name in names)]
    if len(crates) < len(names):
        sys.exit("edits: a crate that was named has no edits")
    if "--proved" not in arguments:
        build_below(all_crates, crates)
    stale = [crate for crate in crates if writes or is_stale(crate, kit)]
    chosen = sample([crate for crate in crates if crate not in stale]) if not writes else {}
    with ThreadPoolExecutor(int(os.environ.get("RT_JOBS") or os.cpu_count() or 1)) as lanes:
        work = [crate for crate in crates if crate in stale or crate.name in chosen]
        found = [*lanes.map(lambda crate: try_edits(crate, kit, writes, chosen.get(crate.name, set())), work)]
    others = [line for lines in found for line in lines]
    if others:
        print("\n".join([f"edits: {len(others)} edits to be read, which aren't shown to be refused by the clause that they name:", *others]))
    print(f"edits: {sum(len(files_of(crate)) for crate in crates) - len(others)} passed, {len(others)} failed")
    return 1 if others else 0


if __name__ == "__main__":
    sys.exit(main(sys.argv[1:]))
