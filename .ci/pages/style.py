#!/usr/bin/env python3
"""Tests the form of the pages and the words of messages: sizes, sentences, openings, tables, code blocks, and words that other programs don't use so.

    .ci/pages/style.py [PAGE ..]     all pages and messages if none is named

Generated text isn't read, and of code only its texts (.ci/pages/messages.py). .ci/pages/pages.py does the same in the gate. The last line has the sums: bytes, words
per sentence, habits.
"""
import pathlib
import re
import sys
from typing import Iterator

import anchors
import messages

PAGE_BYTES, ALL_BYTES, CODE_LINES = 16_000, 250_000, 25
SENTENCE_WORDS, MEAN_WORDS, HABITS = 40, 17.0, 150
# The verbs with which the first sentence of a page says what the page does for its reader, or defines its subject.
VERBS = r"(?:is|are|can|explains?|describes?|lists?|shows?|helps?|says?|tells?|decides?|contains?|compares?|leads?|takes?|guides?|names?|gives?|answers?|defines?|needs?)"
# Words that have a plainer alternative, and that alternative.
WORDS = {
    "anew": "again", "beside": "next to, with", "besides": "also", "whoever": "you, the caller", "whatever": "every, any", "by hand": "manually",
    "but for": "except", r"some \d": "about", "so many": "a number of", r"(?:is|are|was|were) none": "there is no", "at hand": "available", r"stands?(?! (?:for|still)\b)": "is",
    r"(?:go|goes|going|gone|went) on": "continue, resume", r"(?:give|gives|given|giving|gave) up": "abandon, time out", "alike": "in the same way",
    r"(?:is|are|be) had": "get", "want of": "lack of", r"goes by|go by": "follows",
}
# Words that are sometimes right: over all pages they count as habits.
NOW_AND_THEN = r"\b(?:where|behind|tells?|told|by itself|by themselves|what (?:is|was|has|had|were|are)|of which|front)\b"
OPENINGS = r"^(?:That|What|Of|Where) \w"


def prose_of(page: str) -> str:
    """A page without code, generated text and comments; text between backticks is one word, and links are their words."""
    text = anchors.without_code(anchors.COMMENT.sub("", anchors.GENERATED.sub("", page)))
    text = re.sub(r"`[^`\n]+`", "code", text)
    return re.sub(r"!?\[([^]]*)\]\([^)]*\)", r"\1", text)


def sentences(prose: str) -> Iterator[str]:
    """The sentences of paragraphs, list items and table cells."""
    for block in re.split(r"\n\s*\n|\n(?=\s*(?:[-*] |\d+\. |\|))", prose):
        if not block.lstrip().startswith("#") and not re.match(r"\s*\|[-|: ]+$", block):
            parts = block.strip().strip("|").split(" | ") if block.lstrip().startswith("|") else [re.sub(r"^\s*(?:[-*]|\d+\.) ", "", block)]
            for part in parts:
                text = re.sub(r"[:;]$", ".", " ".join(part.split()))
                yield from (sentence for sentence in re.split(r"(?<=[.!?:;])\s+", text) if re.search(r"\w", sentence))


def length(sentence: str) -> int:
    return len(re.findall(r"[A-Za-z0-9'-]+", sentence))


def whole_sentences(prose: str) -> list[str]:
    """The same, but a colon or a semicolon ends no sentence."""
    found, rest = [], ""
    for part in sentences(prose):
        rest = f"{rest} {part}".strip()
        if not part.endswith((":", ";")):
            found.append(rest)
            rest = ""
    return [*found, rest] if rest else found


def opening_faults(prose: str) -> Iterator[str]:
    """The first paragraph has to address the reader, and its first sentence needs a verb."""
    first = next((block for block in re.split(r"\n\s*\n", prose) if block.strip() and not block.lstrip().startswith("#")), "")
    sentence = next(sentences(first), "")
    if not re.search(rf"\b{VERBS}\b", sentence) or not sentence.endswith((".", ":")):
        yield f"the first sentence has no verb that says what the page is for: {sentence[:80]}"
    if not re.search(r"\byou(?:r)?\b", " ".join(re.split(r"\n\s*\n", prose)[:4]), re.I):
        yield "the opening doesn't say what the page helps you do"


def table_faults(page: str) -> Iterator[str]:
    """A table needs a sentence before it, and a name for each column."""
    lines = [line for line in anchors.without_code(page).splitlines() if line.strip() and not line.startswith("<!--")]
    for before, head, rule in zip(lines, lines[1:], lines[2:]):
        if re.fullmatch(r"\|[-|: ]+\|", rule.strip()) and head.startswith("|"):
            if before.startswith(("#", "|")):
                yield f"a table directly under a heading: {head[:60]}"
            if any(not cell.strip() for cell in head.strip().strip("|").split("|")):
                yield f"a column without a name: {head[:60]}"


def faults(page: str) -> Iterator[str]:
    """The faults of form of a page."""
    prose = prose_of(page)
    if len(page.encode()) > PAGE_BYTES:
        yield f"{len(page.encode()):,} bytes; at most {PAGE_BYTES:,}"
    yield from opening_faults(prose)
    yield from table_faults(page)
    for block in re.findall(rf"^{anchors.BLOCK}", page, re.S | re.M):
        if block.count("\n") > CODE_LINES:
            yield f"a code block of {block.count(chr(10))} lines; at most {CODE_LINES}"
    for sentence in whole_sentences(prose):
        if length(sentence) > SENTENCE_WORDS:
            yield f"a sentence of {length(sentence)} words: {sentence[:100]}"
        if re.search(OPENINGS, sentence):
            yield f"a sentence that begins with {sentence.split()[0]}: {sentence[:100]}"
        for pattern, plain in WORDS.items():
            if re.search(rf"\b(?:{pattern})\b", sentence, re.I):
                yield f"/{pattern}/ (plainer: {plain}): {sentence[:100]}"


def slugs(page: str) -> set[str]:
    """The fragments with which a link reaches the headings of a page."""
    headings = re.findall(r"^#+ (.*)$", anchors.without_code(page), re.M)
    return {re.sub(r"[^\w -]", "", re.sub(r"[`*]", "", heading).lower()).replace(" ", "-") for heading in headings}


def dead_links() -> Iterator[str]:
    """Links of a page to a file or a heading that doesn't exist."""
    for page in anchors.PAGES:
        text = anchors.without_code(anchors.text_of(page))
        for target, _, fragment in (link.partition("#") for link in re.findall(r"\]\(([^)\s]+)\)", text)):
            file = (page.parent / target).resolve() if target else page
            if not target.startswith("http") and (not file.exists() or fragment and fragment not in slugs(anchors.text_of(file))):
                yield f"{anchors.name_of(page)}: a link to {target}#{fragment}, which isn't there"


def page_sums(pages: dict[str, str]) -> tuple[int, float, int]:
    """The bytes of all pages, the mean length of their sentences outside of tables, and the number of words that are only sometimes right."""
    found = [sentence for page in pages.values() for sentence in whole_sentences(prose_of(page))]
    running = [sentence for page in pages.values() for sentence in whole_sentences(re.sub(r"^\|.*\n", "", prose_of(page), flags=re.M)) if sentence.endswith(".")]
    mean = sum(map(length, running)) / max(len(running), 1)
    return sum(len(page.encode()) for page in pages.values()), mean, sum(len(re.findall(NOW_AND_THEN, sentence, re.I)) for sentence in found)


def all_faults() -> Iterator[str]:
    """The faults of each page, and of all pages together."""
    pages = {anchors.name_of(page): anchors.text_of(page) for page in anchors.PAGES}
    for name, page in pages.items():
        yield from (f"{name}: {fault}" for fault in faults(page))
    yield from dead_links()
    yield from messages.faults(WORDS)
    size, mean, habits = page_sums(pages)
    if size > ALL_BYTES or mean > MEAN_WORDS or habits > HABITS:
        yield f"all pages: {size:,} bytes (at most {ALL_BYTES:,}), {mean:.1f} words per sentence ({MEAN_WORDS}), {habits} habits ({HABITS})"


def main() -> int:
    named = {word: anchors.text_of(pathlib.Path(word)) for word in sys.argv[1:]} or {anchors.name_of(page): anchors.text_of(page) for page in anchors.PAGES}
    wrong = [f"{name}: {fault}" for name, page in named.items() for fault in faults(page)] if sys.argv[1:] else list(all_faults())
    size, mean, habits = page_sums(named)
    print("\n".join([*wrong, f"{len(wrong)} faults; {size:,} bytes, {mean:.1f} words per sentence, {habits} habits"]))
    return 1 if wrong else 0


if __name__ == "__main__":
    sys.exit(main())
