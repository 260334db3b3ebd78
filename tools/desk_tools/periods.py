"""A time, cut where a desk began to be served with another roster or another base."""

from typing import NamedTuple

from desk_tools import history
from desk_tools.kept import Kept
from steelnewt_client.moments import seconds, stamp_of


class Period(NamedTuple):
    """A roster and a base, since when both were served, and their part of the time."""

    name: str
    text: bytes
    base: bytes
    first: str
    last: str
    said: list[tuple[str, str]]  # of the change with which they began


def read(path: str) -> bytes:
    with open(path, "rb") as file:
        return file.read()


def periods(kept: Kept, first: str, last: str) -> list[Period]:
    """The parts of a time, by a history."""
    lines = kept.until(first, last)
    ends = [stamp_of(seconds(it.moment) - 1) for it in lines[1:]] + [last]
    return [
        Period(
            it.moment,
            kept.text("roster", it),
            kept.text("base", it),
            max(it.moment, first),
            end,
            history.said(kept.folder, it.moment),
        )
        for it, end in zip(lines, ends, strict=True)
        if first <= end
    ]
