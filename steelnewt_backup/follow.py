"""What people say between two backups: each message of the outbox, written beside the backups as it
comes. A file for each day, of which the last two stay; a line that a kill cut off is no line."""

from __future__ import annotations

import os
import re
import time
from collections.abc import Iterator

from steelnewt_backup.faults import Failed
from steelnewt_backup.pieces import write_all
from steelnewt_backup.settings import Settings
from steelnewt_backup.site import Site, run_relay
from steelnewt_client.moments import stamp_of

NAME = re.compile(r"said-[0-9]{8}")
LINE = re.compile(r"([0-9]{1,18}) (\{.*\})")
DAYS = 2
PAUSE = 1.0


def files_in(folder: str) -> list[str]:
    try:
        return sorted(it for it in os.listdir(folder) if NAME.fullmatch(it))
    except FileNotFoundError:
        return []


def said_in(folder: str) -> Iterator[tuple[int, str]]:
    """Each message, with its number in the outbox."""
    for name in files_in(folder):
        with open(os.path.join(folder, name), encoding="utf-8", errors="replace") as file:
            for line in file:
                found = LINE.fullmatch(line.removesuffix("\n"))
                if found and line.endswith("\n"):
                    yield int(found[1]), found[2]


def append(folder: str, lines: list[str]) -> None:
    """Adds lines to the day's file, down to the disk; behind a line that was cut off, too."""
    path = os.path.join(folder, f"said-{stamp_of(int(time.time()))[:8]}")
    file = os.open(path, os.O_RDWR | os.O_CREAT | os.O_APPEND, 0o600)
    try:
        size = os.fstat(file).st_size
        is_cut = size > 0 and os.pread(file, 1, size - 1) != b"\n"
        write_all(file, ("\n" * is_cut + "".join(f"{it}\n" for it in lines)).encode())
        os.fsync(file)
    finally:
        os.close(file)
    for name in files_in(folder)[:-DAYS]:
        os.unlink(os.path.join(folder, name))


def look(site: Site, folder: str, after: int) -> int:
    """Writes what came behind a message: the last one's number."""
    rows = [it.split(" ", 2) for it in run_relay(site, "sent", "--after", str(after)).splitlines()]
    if rows:
        append(folder, [f"{number} {text}" for number, _, text in rows])
        return int(rows[-1][0])
    return after


def changed(path: str) -> tuple[int, ...]:
    """What is another once somebody wrote into the outbox."""
    found = []
    for name in (path, f"{path}-wal"):
        try:
            told = os.stat(name)
            found += [told.st_ino, told.st_size, told.st_mtime_ns]
        except FileNotFoundError:
            found.append(0)
    return tuple(found)


def follow(site: Site, settings: Settings) -> None:
    """Until somebody ends it."""
    if settings.seal == "all":
        raise Failed("seal = \"all\": what is said would stand beside the backups as it is")
    if not os.path.isdir(settings.folder):
        raise Failed(f"there is no folder {settings.folder}")
    last, seen = 0, tuple[int, ...]()
    while True:
        path = site.outbox()
        now = changed(path) if path else ()
        if now != seen:
            if now[:1] != seen[:1]:
                last = known(site, settings.folder)
            last = look(site, settings.folder, last)
            seen = now
        time.sleep(PAUSE)


def known(site: Site, folder: str) -> int:
    """The last message of this outbox that is written already: one that was made anew counts from
    the beginning."""
    last = max((number for number, _ in said_in(folder)), default=0)
    rows = run_relay(site, "sent", "--after", "0").splitlines()
    there = int(rows[-1].split(" ", 1)[0]) if rows else 0
    return last if there >= last else 0
