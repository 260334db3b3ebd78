"""What hosts themselves wrote down as sudo started it (`desk-host starts`), beside sudo's logs.

A log may miss a run: its disk was full, or somebody took a line out. sudo's plugin of desk-host
keeps each start elsewhere, so a start without a line of a log is told."""

import json
import re
from bisect import bisect_left
from collections.abc import Iterable, Iterator, Sequence
from typing import Any, NamedTuple

from desk_tools.found import visible
from desk_tools.sudo_logs import LAST
from desk_tools.use import Use, escaped
from steelnewt_client.moments import stamp_of

NAMED = re.compile(r"([a-z][a-z0-9-]{0,31})=(.+)")
# how far a start and its line may lie from one another, in seconds: sudo's JSON tells when a
# command was asked for, which a prompt comes behind; the nearest are taken for one another first
NEAR, FAR = 5, 900
EDIT = "sudoedit"
LONGEST = 1 << 16
ODD = (ValueError, KeyError, TypeError, RecursionError)


class Start(NamedTuple):
    """What sudo started, as its plugin kept it."""

    host: str
    user: str
    target: str
    path: str
    at: int
    words: tuple[str, ...]
    is_edit: bool  # by sudoedit, which sudo 1.9.13 logs as a run of the editor

    @property
    def shown(self) -> str:
        return escaped(" ".join((self.path, *self.words[1:])))


class Kept(NamedTuple):
    """What a host kept, and where lines of it were lost or cannot be read."""

    starts: list[Start]
    lost: list[str]


def plain(text: str) -> str:
    """A text of the plugin's, which writes each byte that is not ASCII by its number."""
    return text.encode("latin-1").decode("utf-8", "surrogateescape")


def start_of(host: str, told: Any) -> Start:
    at = told["at"]
    if not isinstance(at, int) or not 0 <= at <= LAST:
        raise ValueError("its moment is out of range")
    words = tuple(plain(it) for it in told["words"])
    user, target, path = (plain(told[it]) for it in ("user", "runas", "command"))
    return Start(host, user, target, path, at, words, told.get("edit") is True)


def read_starts(words: Iterable[str]) -> Kept:
    """The files of these words, [HOST=]FILE; a line that stands twice counts once."""
    starts: list[Start] = []
    lost: list[str] = []
    for word in words:
        named = NAMED.fullmatch(word)
        host, path = named.groups() if named else ("", word)
        with open(path, encoding="utf-8", errors="surrogateescape") as file:
            seen = set()
            for number, line in enumerate(iter(lambda: file.readline(LONGEST), ""), 1):
                if not line.strip() or line in seen:
                    continue
                seen.add(line)
                try:
                    told = json.loads(line)
                    if "lost" in told:
                        lost.append(f"{visible(path)}:{number}: {escaped(str(told['lost']))}")
                    else:
                        starts.append(start_of(host, told))
                except ODD:
                    lost.append(f"{visible(path)}:{number}: it is no line of desk-host starts")
    return Kept(starts, lost)


def logged(use: Use) -> dict[tuple[str, str, str, str], list[int]]:
    """The moments of the logs' runs, by host, user, target and path; a host that was not named is
    any."""
    found: dict[tuple[str, str, str, str], list[int]] = {}
    for done, moments in use.done.items():
        for host in {done.host, ""}:
            key = host, done.user, done.target, done.path
            found.setdefault(key, []).extend(moments)
    return {key: sorted(moments) for key, moments in found.items()}


def without_line(starts: Sequence[Start], moments: list[int]) -> Iterator[Start]:
    """The starts of one user, host, target and path that no moment is left for."""
    left, waiting = list(moments), list(starts)
    for most in (NEAR, FAR):
        still = []
        for it in waiting:
            at = bisect_left(left, it.at)
            near = [place for place in (at - 1, at) if 0 <= place < len(left)]
            near = [place for place in near if abs(left[place] - it.at) <= most]
            if near:
                left.pop(min(near, key=lambda place: abs(left[place] - it.at)))
            else:
                still.append(it)
        waiting = still
    yield from waiting


def unlogged(kept: Kept, use: Use, first: dict[str, int], last: int) -> list[Start]:
    """The starts of which no log has a line, from a host's first line on."""
    by: dict[tuple[str, str, str, str], list[Start]] = {}
    for it in sorted(kept.starts, key=lambda it: it.at):
        if first.get(it.host, 0) <= it.at <= last:
            path = EDIT if it.is_edit else it.path
            by.setdefault((it.host, it.user, it.target, path), []).append(it)
    lines = logged(use)
    found: list[Start] = []
    for (*who, path), mine in by.items():
        paths = {path, *(it.path for it in mine)}
        moments = [at for each in paths for at in lines.get((who[0], who[1], who[2], each), [])]
        found += without_line(mine, sorted(moments))
    return sorted(found, key=lambda it: (it.at, it))


def told_of(kept: Kept, found: Iterable[Start]) -> dict[str, Any]:
    return {
        "unlogged": [
            {
                "host": it.host,
                "by": escaped(it.user),
                "runas": escaped(it.target),
                "command": it.shown,
                "at": stamp_of(it.at),
            }
            for it in found
        ],
        "starts_lost": kept.lost,
    }
