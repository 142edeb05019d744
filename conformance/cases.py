"""The cases beside this file, as the rows of STATUS.tsv name them."""
import pathlib
from typing import Iterator, NamedTuple

FOLDER = pathlib.Path(__file__).resolve().parent


class Case(NamedTuple):
    """A case: its file, its arguments, and the exit status that is wanted."""

    file: pathlib.Path
    arguments: list[str]
    status: int

    @property
    def name(self) -> str:
        return str(self.file.relative_to(FOLDER))

    @property
    def given(self) -> bytes:
        """Its standard input."""
        return self.file.read_bytes()

    @property
    def wanted(self) -> bytes:
        """What is to be written."""
        return self.file.with_name(self.file.name + ".stdout").read_bytes()


def cases() -> Iterator[Case]:
    """All cases with a row, in the order of the rows."""
    for line in (FOLDER / "STATUS.tsv").read_text(encoding="utf-8").splitlines():
        folder, name, status = line.split("\t")
        file = FOLDER / folder / name
        arguments = file.with_name(name + ".args")
        yield Case(file, arguments.read_text(encoding="utf-8").splitlines() if arguments.exists() else [], int(status))


def wrong_rules() -> list[tuple[str, str]]:
    """Rules that are wrong in definition and code alike, each with a case that detects it."""
    rows = [line.split("\t") for line in (FOLDER / "WRONG_RULES.tsv").read_text(encoding="utf-8").splitlines()]
    names = {case.name for case in cases()}
    for rule, name in rows:
        if name not in names:
            raise LookupError(f"WRONG_RULES.tsv: there is no case {name}: name another that detects: {rule}")
    return [(rule, name) for rule, name in rows]


def runs() -> Iterator[Case]:
    """The cases that `run` accepts and answers in words. Their arguments begin with `run`."""
    for case in cases():
        arguments = case.arguments or ["run"]
        if case.status == 0 and arguments[0] == "run" and not {"--help", "--json"} & set(arguments):
            yield case._replace(arguments=arguments)
