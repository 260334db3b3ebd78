"""What the tests of faults count: inputs, and what the program did with them that it must not."""

from __future__ import annotations

import os
import subprocess
import sys
from collections import Counter
from collections.abc import Callable, Sequence

from tests.common import desk

# the seconds after which a run hangs; a machine that is busy with other things takes more
PATIENCE = float(os.environ.get("PATIENCE", "60"))
MOST_SHOWN = 20


class Stopped(Exception):
    """A run ended by a signal, by another status than 0, 1 or 2, or not at all."""


class Tally:
    """How many inputs there were, what was answered to them, and what went wrong."""

    def __init__(self) -> None:
        self.inputs = self.stops = self.hangs = self.denied = 0
        self.answers: Counter[str] = Counter()
        self.shown: list[str] = []

    def show(self, text: str) -> None:
        if len(self.shown) < MOST_SHOWN:
            self.shown.append(text)

    def deny(self, what: object, got: object, wanted: object) -> None:
        """An answer that the second reading denies."""
        self.denied += 1
        self.show(f"{str(what)[:600]}\n    answered {str(got)[:300]}, not {str(wanted)[:300]}")

    def compare(self, what: object, got: object, wanted: object) -> None:
        if got != wanted:
            self.deny(what, got, wanted)

    def add(self, other: Tally) -> None:
        self.inputs += other.inputs
        self.stops += other.stops
        self.hangs += other.hangs
        self.denied += other.denied
        self.answers += other.answers
        for text in other.shown:
            self.show(text)

    @property
    def wrong(self) -> int:
        return self.stops + self.hangs + self.denied

    def run(self, words: Sequence[str], given: bytes = b"") -> tuple[int, bytes, bytes]:
        """The status, the output and the standard error of a run; a stop and a hang are counted."""
        try:
            done = subprocess.run(
                words, input=given, capture_output=True, timeout=PATIENCE, check=False
            )
        except subprocess.TimeoutExpired:
            self.hangs += 1
            self.show(f"no end after {PATIENCE:.0f} seconds: {words}")
            raise Stopped from None
        if done.returncode not in (0, 1, 2):
            self.stops += 1
            self.show(f"status {done.returncode}: {words} {done.stderr[-200:]!r}")
            raise Stopped
        err = desk.without_names(done.stderr.decode("latin-1")).encode("latin-1")
        return done.returncode, done.stdout, err


class Count:
    """How many things were tried, and how many went otherwise."""

    def __init__(self) -> None:
        self.tried = self.wrong = 0

    def same(self, what: str, got: object, wanted: object) -> bool:
        self.tried += 1
        if got != wanted:
            self.wrong += 1
            print(f"{what}: {str(got)[:400]} and not {str(wanted)[:400]}", flush=True)
        return got == wanted

    def holds(self, what: str, is_right: bool, found: object = "") -> bool:
        self.tried += 1
        if not is_right:
            self.wrong += 1
            print(f"{what}: {str(found)[:400]}", flush=True)
        return is_right


def program(words: list[str]) -> list[str]:
    """The words of the program, whose path may be given from another folder."""
    return [os.path.abspath(words[0]), *words[1:]] if words else []


def try_parts(
    parts: Sequence[Callable[..., None]], words: list[str]
) -> tuple[list[Callable[..., None]], list[str]]:
    """The parts that `--only NAME..` names before the program's words, or all; and these words."""
    if words[:1] != ["--only"]:
        return list(parts), words
    names = {part.__name__: part for part in parts}
    chosen = [word for word in words[1:] if word in names]
    if not chosen:
        sys.exit(f"--only takes some of {', '.join(names)}")
    return [names[name] for name in chosen], words[1 + len(chosen) :]
