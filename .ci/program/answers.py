"""Answers of `run` and `live` as JSON, in the words of the plain form."""
from __future__ import annotations

import json
from typing import Any, Dict, List

FLAGS = {"changed": ("no", "yes"), "flapping": ("STEADY", "FLAPPING")}
# Members that the plain form doesn't have, or has otherwise.
APART = ("line", "id", "answer", "objects", "saved", "explanation")
Members = Dict[str, Any]


def field_in_words(name: str, value: Any) -> str:
    """A field of an answer in JSON, as `run` writes it."""
    if isinstance(value, bool):
        return FLAGS[name][value]
    return "none" if value is None else str(value)


def answer_in_words(answer: Members) -> List[str]:
    """The lines of `run` that say the same as an answer in JSON."""
    fields = [field_in_words(name, value) for name, value in answer.items() if name not in APART]
    kind = answer["answer"]
    if kind == "listed":
        objects = [" ".join(["object", *(field_in_words(*field) for field in each.items())]) for each in answer["objects"]]
        return [f"listed {len(objects)}", *objects]
    if kind == "saved":
        fields = [json.dumps(answer["saved"], ensure_ascii=False, separators=(",", ":"))]
    if kind == "refused" and answer["code"].startswith("S"):
        fields.append(str(answer["line"]))
    return [" ".join([kind, *fields])]


def text_in_words(answers: List[Members]) -> str:
    """The output of the plain form that says the same as these answers."""
    return "".join(f"{line}\n" for answer in answers for line in answer_in_words(answer))
