"""The promises of the proofs: the laws that state each, the clauses that bring the code in, and the uses that it reaches.

.ci/pages/generated.py writes them to README (`promises of README`) and to docs/proofs.md (`promises of proofs`). .ci/pages/pages.py tests that each cited clause
is there. A citation is `CRATE FUNCTION CLAUSE ..`; without clauses the contract is one clause without a name.
"""
import re
import textwrap
from typing import Iterator, NamedTuple, Optional, Tuple

from anchors import TOP, text_of

LIVE, LIBRARY = "monitor, live", "library"
ALL = f"{LIVE}, {LIBRARY}"


class Promise(NamedTuple):
    text: str
    # The citations that state it, and those that say that the code does it.
    law: Tuple[str, ...]
    code: Tuple[str, ...]
    uses: str
    pages: Tuple[str, ...]
    is_on_readme: bool = False


PROMISES = (
    Promise("**No check runs twice**: before an object is handed out again, its running check was reported or abandoned",
            ("check_sched laws::runs_once once",), ("check_sched Sched::apply state reply", "check_desk Desk::close history"), ALL,
            ("scheduler", "lock"), True),
    Promise("**No recorded call is lost**: each is in the history once, in its caller's order, in every order of the threads' steps",
            ("check_desk laws::headline entries made all",),
            ("check_desk Desk::ask answer", "check_desk Desk::close schedule history made"), LIBRARY, ("lock",), True),
    Promise("**No state is hard too early**: every verdict is the one in [the table](docs/rules.md#soft-and-hard)",
            ("check_sched laws::standings_are_lawful",), ("check_states verdict table", "check_sched Sched::apply state"), ALL, ("scheduler",), True),
    Promise("**A refused call changes nothing**, and a refused setup creates nothing",
            (), ("check_sched Sched::apply refused", "check_objects Setup::read exact"), ALL, ("scheduler", "setup"), True),
    Promise("**`run` and `live` write exactly the text of the definitions**, or a prefix of it and an error",
            (), ("nagsched_run drive", "nagsched_run live"), LIVE, ("program",), True),
    Promise("A scheduler that is resumed with the same setup continues as if it had never stopped",
            ("check_sched laws::resumed_over_the_same", "check_sched laws::resumed_histories_join joined"),
            ("check_sched Sched::save", "check_sched Sched::resume ok"), ALL, ("scheduler",)),
    Promise("After a resume over another setup no check runs twice, except that a smaller limit abandons the runs of services",
            ("check_sched laws::resumed_runs greater out",), ("check_sched Sched::resume ok",), ALL, ("scheduler",)),
    Promise("Callers are served in the order of their tickets, and each waits for fewer calls than there are callers",
            ("check_desk laws::headline first_come bypass fair",), ("check_desk Desk::close schedule",), LIBRARY, ("lock",)),
    Promise("An enabled object whose intervals aren't 0 always has a next check, or is being checked",
            ("check_sched laws::never_forgotten opened kept shown",), ("check_sched Sched::apply state",), ALL, ("scheduler",)),
    Promise("Each other object is chosen at most once before a due one, unless a call lets it in",
            ("check_sched laws::passed_over_once once chosen chooses",), ("check_sched Sched::apply state reply",), ALL, ("scheduler",)),
    Promise("Out of memory loses nothing that was recorded, with one exception: `crew`",
            (), ("check_book Book::record refused full", "check_workers crew errors"), LIBRARY, ("tested",)),
    Promise("A glance reads a standing of the one history, and never an older one than before",
            (), ("check_desk Desk::glance standing legal seen",), LIBRARY, ("lock",)),
    Promise("The C functions do what the proved ones do, and change nothing if they fail", (), ("nagsched_c nagsched_try_take",), LIBRARY, ("c-library",)),
)


def shown(citations: Tuple[str, ...]) -> str:
    """Citations as a part of a sentence."""
    named = []
    for crate, function, *clauses in map(str.split, citations):
        named.append(f"`{function}`{' (' * bool(clauses)}{', '.join(f'`{clause}`' for clause in clauses)}{')' * bool(clauses)} of {crate}")
    return ", ".join(named)


def listed(page: str) -> str:
    """The list of a page: README has the main promises, docs/proofs.md the others."""
    is_readme = page == "README"
    folder = "docs/proofs/" if is_readme else "proofs/"
    items = []
    for it in PROMISES:
        if it.is_on_readme == is_readme:
            law = f"Law: {shown(it.law)}. " if it.law else ""
            links = ", ".join(f"[{page}]({folder}{page}.md)" for page in it.pages)
            text = f"- {it.text}. {law}Code: {shown(it.code)}. Reaches: {it.uses} ({links})."
            items.append("\n".join(textwrap.wrap(text, 158, subsequent_indent="  ", break_long_words=False, break_on_hyphens=False)))
    return "\n" + "\n".join(items) + "\n"


def contract_of(crate: str, function: str) -> Optional[str]:
    """The head of a function, from its name to its body; nothing if the crate has no such function. A `Type::` before the name is the type of its `impl`."""
    owner, _, name = function.rpartition("::")
    for file in sorted((TOP / "crates" / crate / "src").rglob("*.rt")):
        text = text_of(file)
        for match in re.finditer(rf"^( *)(?:pub )?(?:extern \"C\" )?fn {name}\b", text, re.M):
            implemented = re.findall(r"^impl\b.*?(\w+)(?:<.*>)? *\{", text[: match.start()], re.M)
            if owner in ("", "laws") and (owner == "" or "laws" in (file.stem, file.parent.name)) or match[1] and implemented and implemented[-1] == owner:
                return re.split(r"^ *\{", text[match.end():], maxsplit=1, flags=re.M)[0]
    return None


def missing() -> Iterator[str]:
    """Each citation with a function or a clause that isn't there."""
    for it in PROMISES:
        for citation in (*it.law, *it.code):
            crate, function, *clauses = citation.split()
            contract = contract_of(crate, function)
            if contract is None or any(not re.search(rf"^ *ensures {clause} *\{{" if clause else r"^ *ensures *\{", contract, re.M) for clause in clauses or [""]):
                yield citation
