"""Which numbers of askers no message has. A relay gives each person's requests numbers one after
another, so a number that is missing was refused by the desk, or is kept from whoever reads."""

from collections.abc import Iterable
from typing import Any, NamedTuple

Message = dict[str, Any]


class Gap(NamedTuple):
    """Numbers of one asker, from the first to the last, that no message has."""

    by: str
    first: int
    last: int

    @property
    def said(self) -> str:
        return f"{self.first}" if self.first == self.last else f"{self.first} to {self.last}"


def numbers_of(messages: Iterable[Message]) -> dict[str, list[int]]:
    """Each asker's numbers that some message has, in order."""
    numbers: dict[str, set[int]] = {}
    for it in messages:
        numbers.setdefault(it.get("of", it["by"]), set()).add(it["no"])
    return {by: sorted(held) for by, held in sorted(numbers.items())}


def gaps(numbers: dict[str, list[int]]) -> list[Gap]:
    """The numbers that are missing between an asker's lowest and highest one."""
    found = []
    for by, held in numbers.items():
        pairs = zip(held, held[1:])
        found += [Gap(by, one + 1, other - 1) for one, other in pairs if other > one + 1]
    return found


def begins(numbers: dict[str, list[int]]) -> list[tuple[str, int]]:
    """The askers whose lowest number is not 1, and that number: another relay may begin there."""
    return [(by, held[0]) for by, held in numbers.items() if held[0] > 1]


def gap_lines(numbers: dict[str, list[int]]) -> list[str]:
    """What is missing, by asker."""
    lines = [f"{it.by} lacks {it.said}" for it in gaps(numbers)]
    return sorted([*lines, *(f"{by} begins at {no}" for by, no in begins(numbers))])
