"""Shared by the parts of the gate: running the built program, and counting the differences."""
from __future__ import annotations

import pathlib
import subprocess
import sys
from typing import Any, NoReturn, Optional, Sequence, Union

TOP = pathlib.Path(__file__).resolve().parents[2]
EXAMPLES = TOP / "examples"
# The folders of the modules `cases` and `needs`.
sys.path += [str(TOP / "conformance"), str(TOP / ".ci")]
SECONDS = 120
LONGEST = 2_000  # characters of a value that is printed
REFUSED_WORDS = b"refused words\n"

# Setup A: a host without regular checks, and its service.
SERVICE = (
    b'{"options":{"service_inter_check_delay_method":"n","host_inter_check_delay_method":"n"},'
    b'"hosts":[{"name":"h","check_interval":0,"max_check_attempts":3}],'
    b'"services":[{"host":"h","description":"s","max_check_attempts":3}]}\n'
)


class Counts:
    """Counts each comparison of a part, and prints the differences."""

    def __init__(self, part: str) -> None:
        self.part = part
        self.passed = self.failed = 0

    def compare(self, what: str, wanted: object, came: object) -> None:
        """Counts one comparison, and prints it if it differs."""
        if came == wanted:
            self.passed += 1
        else:
            self.failed += 1
            print(f"{self.part}: {what}: wanted {short_text(wanted)}, came {short_text(came)}")

    def end(self) -> NoReturn:
        """Prints the counts as the last line, and ends."""
        print(f"{self.part}: {self.passed} passed, {self.failed} failed")
        sys.exit(1 if self.failed or not self.passed else 0)


class Harness(Counts):
    """Runs a program too: the one that the first argument names, or that of this tree."""

    def __init__(self, part: str) -> None:
        super().__init__(part)
        self.program = str(pathlib.Path(sys.argv[1] if len(sys.argv) > 1 else TOP / "crates/nagsched/out/nagsched").resolve())
        if not pathlib.Path(self.program).is_file():
            self.compare("the program", "there", "not there")
            self.end()

    def run(self, arguments: Sequence[str], given: Union[bytes, int], **how: Any) -> tuple[Any, Optional[int]]:
        """The program's output on an input, and its exit status. The input is bytes, or a file's number."""
        how["input" if isinstance(given, bytes) else "stdin"] = given
        how.setdefault("stderr", subprocess.DEVNULL)
        try:
            ran = subprocess.run([self.program, *arguments], stdout=subprocess.PIPE, timeout=SECONDS, **how)
        except subprocess.TimeoutExpired:
            return f"not ended after {SECONDS} seconds", None
        return ran.stdout, ran.returncode


def short_text(value: object) -> str:
    """A value as it is printed; a long text is cut."""
    told = repr(value)
    return told if len(told) <= LONGEST else f"{told[:LONGEST - 200]} .. {told[-200:]}"


def input_lines(*commands: object) -> bytes:
    """An input's lines, each with its line feed."""
    return "".join(f"{command}\n" for command in commands).encode()
