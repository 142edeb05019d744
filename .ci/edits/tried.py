"""The file TRIED of a crate: which goal refused each of its wrong bodies, by which kit, and over which sources."""
import pathlib
import sys
from typing import Dict, NamedTuple, Optional

sys.path.append(str(pathlib.Path(__file__).resolve().parents[1]))
from needs import logic_of

HEAD = ("kit", "checksum")


class Tried(NamedTuple):
    """What a run of all wrong bodies of a crate came to."""

    kit: str
    # Of everything except the kit that the outcome depends on.
    checksum: str
    # By the name of the edit, with its folder: the function, the goal that was left open, and what the prover says of it.
    goals: Dict[str, str]

    def fits(self, kit: str, checksum: str) -> bool:
        """Whether it is of a kit with this logic, and of these sources."""
        return (logic_of(self.kit), self.checksum) == (logic_of(kit), checksum)

    def text(self) -> str:
        """The content of the file."""
        lines = [f"kit: {self.kit}", f"checksum: {self.checksum}", *(f"{name}: {goal}" for name, goal in sorted(self.goals.items()))]
        return "".join(line + "\n" for line in lines)


def read_tried(file: pathlib.Path) -> Optional[Tried]:
    """The content of a file TRIED. None if there is no such file, or it has another form."""
    lines = file.read_text(encoding="utf-8").splitlines() if file.is_file() else []
    fields = [line.partition(": ") for line in lines]
    if [name for name, _, _ in fields[:2]] != list(HEAD):
        return None
    return Tried(fields[0][2], fields[1][2], {name: goal for name, _, goal in fields[2:]})
