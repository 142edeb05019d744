"""Finds words in messages, help and web pages that other programs don't use so. .ci/pages/style.py has the words, and calls this.

It reads the texts in the code: of the program (crates), the monitor, the converter, the runner in C, the packages and the scripts of tools/. A text is a
string with two or more words; what a program writes for other programs has names without spaces.
"""
import ast
import re
from typing import Iterator, Mapping, Tuple

from anchors import TOP, name_of, text_of

# Files by the way in which their texts are found. Tests aren't read.
PYTHON = ("monitor/**/*.py", "monitor/nagsched-*", "tools/*.py", "python/**/*.py", "examples/*.py")
OTHERS = ("monitor/runner/*.[ch]", "c/**/*.[ch]", "crates/*/src/**/*.rt", "tools/*.sh", "monitor/*.sh", "tools/completion/*")
NOT_READ = re.compile(r"_tests/|/tests?(?:/|\.rt)|@|\.sysusers$")
# Words that a reader of a message knows otherwise, and their alternatives. These are right in documentation.
MORE_WORDS = {"behind": "after", r"mend(?:s|ed|ing)?": "fix", r"go(?:es)? round": "form a cycle"}
# Texts of the program that stay: definitions, proofs and cases have them too.
KEPT = re.compile(r"or so many milliseconds apart|gives up a check that won't return|runs that are given up|go round:")
TEXT = re.compile(r"[A-Za-z']{2,}[,;:]? [A-Za-z']{2,}")
STRING = re.compile(r"\"(?:[^\"\\]|\\.)*\"", re.S)
# Comments of C and Rattle, and of shells, next to strings, which may have the same characters.
COMMENT_OR_STRING = re.compile(rf"//[^\n]*|/\*.*?\*/|{STRING.pattern}", re.S)
SHELL_COMMENT_OR_STRING = re.compile(rf"(?:^|(?<=\s))#[^\n]*|'[^']*'|{STRING.pattern}", re.S)
Text = Tuple[int, str]


def python_texts(code: str) -> Iterator[Text]:
    """The strings of a Python file with their lines. A module's first string counts if the module prints it; other documentation doesn't."""
    tree = ast.parse(code)
    inner = {id(part) for node in ast.walk(tree) if isinstance(node, ast.JoinedStr) for part in node.values}
    for node in ast.walk(tree):
        if isinstance(node, (ast.Module, ast.ClassDef, ast.FunctionDef)) and not (isinstance(node, ast.Module) and "__doc__" in code):
            inner |= {id(node.body[0].value)} if node.body and isinstance(node.body[0], ast.Expr) else set()
        if isinstance(node, ast.JoinedStr):
            yield node.lineno, "".join(str(part.value) if isinstance(part, ast.Constant) else "code" for part in node.values)
        elif isinstance(node, ast.Constant) and isinstance(node.value, str) and id(node) not in inner:
            yield node.lineno, node.value


def other_texts(code: str, pattern: "re.Pattern[str]") -> Iterator[Text]:
    """The strings of a file in another language, with their lines."""
    for match in pattern.finditer(code):
        if match[0][0] in "\"'":
            yield code.count("\n", 0, match.start()) + 1, match[0][1:-1]


def texts_of(name: str, code: str) -> Iterator[Text]:
    """The strings of a file, by the language of its name or first line."""
    if name.endswith(".py") or code.startswith("#!/usr/bin/env python3"):
        yield from python_texts(code)
    else:
        yield from other_texts(code, COMMENT_OR_STRING if name.endswith((".c", ".h", ".rt")) else SHELL_COMMENT_OR_STRING)


def faults_of(text: str, words: Mapping[str, str]) -> Iterator[str]:
    line = " ".join(KEPT.sub("", text).split())
    if TEXT.search(line):
        for pattern, plain in {**words, **MORE_WORDS}.items():
            if found := re.search(rf"\b(?:{pattern})\b", line, re.I):
                yield f"\"{found[0]}\" (plainer: {plain}): {line[max(0, found.start() - 40):found.end() + 40]}"


def faults(words: Mapping[str, str]) -> Iterator[str]:
    """The faults of all texts, each with its file and line."""
    for file in sorted({file for pattern in (*PYTHON, *OTHERS) for file in TOP.glob(pattern) if file.is_file()}):
        name = name_of(file)
        if not NOT_READ.search(name):
            yield from (f"{name}:{line}: {fault}" for line, text in texts_of(name, text_of(file)) for fault in faults_of(text, words))
