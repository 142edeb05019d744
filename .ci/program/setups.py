#!/usr/bin/env python3
"""Compares the check of a setup with a run on the same document, and its line with the document.

    .ci/program/setups.py [PROGRAM]     crates/nagsched/out/nagsched if no program is named

The documents are line 1 of each case of conformance/, and the examples. A check begins with the line that a run on the document writes, or with
`setup ok` if the run writes none, and ends in the run's status. One line more follows a refusal. `check --line` writes the document in JSON's
compact form. A run on that line, and a check of it, have the results of the document.
"""
import json
import os
from concurrent.futures import ThreadPoolExecutor

from harness import EXAMPLES, TOP, Harness, input_lines

LIMIT = 16_777_216
HOST = '{"name":"h","max_check_attempts":3}'
# A setup of that host on one line: members are in the order of their names.
LINE = b'{"hosts":[{"max_check_attempts":3,"name":"h"}]}'


def documents():
    """Each document once, as bytes."""
    inputs = [it.with_suffix("") for it in sorted((TOP / "conformance").rglob("*.stdout"))]
    inputs += sorted(it for it in EXAMPLES.iterdir() if it.suffix == ".txt")
    return sorted({it.read_bytes().partition(b"\n")[0] for it in inputs if it.is_file()})


def on_many_lines(document):
    """The same over many lines, if it is JSON that can be written so."""
    try:
        return json.dumps(json.loads(document), indent=1).encode() + b"\n"
    except (ValueError, RecursionError):
        return None


def compact_document(document):
    """The document in JSON's compact form, its members in the order of their names, as serde_json orders them."""
    return json.dumps(json.loads(document), separators=(",", ":"), ensure_ascii=False, sort_keys=True).encode()


def document_results(harness, document):
    """One document, checked in each way: pairs of the wanted and the actual result."""
    told, status = harness.run([], document + b"\n")
    checked, ended = harness.run(["check"], document + b"\n")
    first, _, rest = checked.partition(b"\n")
    wanted = told if status else b"setup ok\n"
    pairs = [("status", status, ended), ("the first line", wanted, first + b"\n")]
    written, ended = harness.run(["check", "--line"], document + b"\n")
    pairs.append(("status with --line", status, ended))
    if status:
        pairs += [("one line more", (1, True), (rest.count(b"\n"), len(rest) > 1)), ("the same with --line", checked, written)]
        return pairs
    pairs += [("the line", compact_document(document) + b"\n", written), ("a run on the line", (b"", 0), harness.run([], written)),
              ("a check of the line", checked, harness.run(["check"], written)[0])]
    if on_many_lines(document) is not None:
        pairs.append(("over many lines", checked, harness.run(["check"], on_many_lines(document))[0]))
    return pairs


def all_documents(harness):
    """Each document, several at a time."""
    found = documents()
    with ThreadPoolExecutor(os.cpu_count()) as threads:
        came = list(threads.map(lambda document: document_results(harness, document), found))
    for document, pairs in zip(found, came):
        for what, wanted, told in pairs:
            harness.compare(f"{document[:80]!r}: {what}", wanted, told)


def at_the_limit(harness):
    """Documents of the most bytes that are allowed, and of one byte more; and a line that is too long, of a document that isn't."""
    good = f'{{"hosts":[{HOST}]}}'.encode()
    harness.compare("as long as can be", 0, harness.run(["check"], good + b" " * (LIMIT - len(good)) + b"\n")[1])
    told, status = harness.run(["check"], good + b" " * (LIMIT + 1 - len(good)) + b"\n")
    harness.compare("a byte longer", (b"refused L12 TooLong", 1), (told.partition(b"\n")[0], status))
    # No member that a setup can have is written longer than in the document, so no good document has a line that is too long.
    harness.compare("its line", (LINE + b"\n", 0), harness.run(["check", "--line"], good + b" " * (LIMIT - len(good)) + b"\n"))


def ends(harness):
    """One line feed at the end is no part of the document, two do no harm, and an empty input is no document."""
    good = f'{{"hosts":[{HOST}]}}'
    harness.compare("without a line feed", harness.run(["check"], input_lines(good)), harness.run(["check"], good.encode()))
    harness.compare("with two", harness.run(["check"], input_lines(good)), harness.run(["check"], input_lines(good, "")))
    harness.compare("nothing", (b"refused L1 NotJson", 1), (lambda ran: (ran[0].partition(b"\n")[0], ran[1]))(harness.run(["check"], b"")))
    harness.compare("a script", (b"refused L1 NotJson", 1),
                 (lambda ran: (ran[0].partition(b"\n")[0], ran[1]))(harness.run(["check"], input_lines(good, '["take",0]'))))


harness = Harness("setups")
all_documents(harness)
at_the_limit(harness)
ends(harness)
harness.end()
