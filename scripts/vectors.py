#!/usr/bin/env python3
"""vectors.py: prints the test vectors of messages (docs/MESSAGES.md), made of cases/: a line of
JSON for each.

`text` is what is posted as the relay `web`, `roster` the desk's, and `answer` what that answers.
`members` is the same as data, its members in no order, where the text is a message: a relay that
writes well makes `text` of it. `what` says what is tried.
"""

import json
import sys
import tomllib
from collections.abc import Iterator
from pathlib import Path
from typing import Any

CASES = Path(__file__).resolve().parents[1] / "cases"
Vector = dict[str, Any]


def read(name: str) -> dict[str, Any]:
    return tomllib.loads((CASES / f"{name}.toml").read_text(encoding="utf-8"))


def compact(message: object) -> str:
    return json.dumps(message, sort_keys=True, separators=(",", ":"), ensure_ascii=False)


def turned(message: dict[str, Any]) -> dict[str, Any]:
    """The same members, the last one first."""
    return dict(sorted(message.items(), reverse=True))


def vector(what: str, roster: str, text: str, answer: str) -> Vector:
    found: Vector = {"what": what, "roster": roster, "text": text, "answer": answer}
    if not answer.startswith("M"):
        found["members"] = turned(json.loads(text))
    return found


def admitted() -> Iterator[Vector]:
    """What a roster admits."""
    cases = read("deliver-admission")
    for group in cases["group"]:
        roster, first = cases["roster"], cases["message"][group.get("message", "Q7")]
        for old, new in group.get("with", []):
            roster = roster.replace(old, new)
        for answer, members in group["rows"]:
            yield vector(group["name"], roster, compact(first | members), answer)


def written() -> Iterator[Vector]:
    """Which texts are messages."""
    cases = read("print-messages")

    def made(row: dict[str, Any]) -> str:
        return str(cases["request"].replace(row["part"], row["by"], 1))

    for row in cases["read"]:
        answer = row.get("err", "line 1: ack\n")
        yield vector("a request", cases["roster"], made(row), said(answer))
    for group in cases["group"]:
        # (the others are made of pieces, or have bytes that are no text)
        texts = [it for it in group.get("lines", []) if isinstance(it, str)]
        rows = [it for it in group.get("rows", []) if set(it) == {"part", "by"}]
        texts += [made(it) for it in rows if isinstance(it["by"], str)]
        for text in texts:
            yield vector(group["name"], cases["roster"], text, said(group["err"]))


def said(line: str) -> str:
    return line.removeprefix("line 1: ").strip()


def delivered() -> Iterator[Vector]:
    """Requests, verdicts, and lines that are no message."""
    cases = read("deliver")
    for case in cases["case"]:
        if set(case) <= {"name", "lines", "out", "status"}:
            for name, answer in zip(case["lines"], case["out"], strict=True):
                text = cases["message"][name]
                yield vector(case["name"], cases["roster"], text, answer)


def vectors() -> list[Vector]:
    found = [*admitted(), *written(), *delivered()]
    return list({(it["roster"], it["text"]): it for it in found}.values())


if __name__ == "__main__":
    for each in vectors():
        print(json.dumps(each, ensure_ascii=False))
    sys.exit(0)
