"""What is kept of each start for 90 days: `desk-host starts` prints it, for desk-used.

sudo's plugin adds a line for each start to a file of /run, which is small; each look takes them to
the state's folder, a file for each day. Where lines were lost, that is kept too."""

from __future__ import annotations

import contextlib
import datetime
import json
import os
import re
import time
from collections.abc import Iterator
from typing import Any

from steelnewt_host.faults import Fault
from steelnewt_host.settings import Settings
from steelnewt_host.state import locked, state_folder
from steelnewt_host.telling import log

DAYS = 90
MOST_KEPT = 256 * 1024 * 1024  # the bytes of all days; the oldest go first
LOST = "lines of starts were lost"


def folder_of(settings: Settings) -> str:
    return os.path.join(settings.state, "starts")


def boot() -> str:
    """Which start of the machine this is: numbers of processes are used again after the next."""
    with open("/proc/sys/kernel/random/boot_id", encoding="ascii") as file:
        return file.read().strip()


def lines_of(text: bytes, of_boot: str) -> Iterator[dict[str, Any]]:
    """The lines that the plugin added, with the machine's start; a line that a full disk cut is
    told of as lost."""
    for line in text.split(b"\n"):
        if not line:
            continue
        try:
            held = json.loads(line)
            is_one = isinstance(held["at"], int) and 0 < held["at"] < 1e11
        except (ValueError, KeyError, TypeError, RecursionError):
            is_one = False
        yield {**held, "boot": of_boot} if is_one else {"at": int(time.time()), "lost": LOST}


def day_of(at: int) -> str:
    return time.strftime("%Y%m%d", time.gmtime(at))


def add(folder: str, held: list[dict[str, Any]]) -> None:
    """Adds lines to the files of their days."""
    for day in sorted({day_of(it["at"]) for it in held}):
        path = os.path.join(folder, f"{day}.jsonl")
        flags = os.O_WRONLY | os.O_CREAT | os.O_APPEND | os.O_NOFOLLOW
        with os.fdopen(os.open(path, flags, 0o600), "a", encoding="ascii") as file:
            file.writelines(f"\n{json.dumps(it)}\n" for it in held if day_of(it["at"]) == day)
            file.flush()
            os.fsync(file.fileno())


def days(folder: str) -> list[str]:
    """The files that are kept, the oldest first."""
    with contextlib.suppress(FileNotFoundError):
        return sorted(it for it in os.listdir(folder) if re.fullmatch(r"[0-9]{8}\.jsonl", it))
    return []


def prune(folder: str) -> None:
    """Takes away what is older than 90 days, and the oldest of what is more than may be kept."""
    kept = days(folder)
    before = day_of(int(time.time()) - DAYS * 86_400)
    sizes = {it: os.path.getsize(os.path.join(folder, it)) for it in kept}
    while kept and (kept[0][:8] < before or sum(sizes[it] for it in kept) > MOST_KEPT):
        if kept[0][:8] >= before:
            add(folder, [{"at": int(time.time()), "lost": f"those of {kept[0][:8]}: too many"}])
        os.unlink(os.path.join(folder, kept.pop(0)))


def gather(settings: Settings) -> None:
    """Takes what the plugin added since to the state's folder. What a run that was killed left is
    taken first; a line may then be there twice."""
    state_folder(settings.state)
    folder = folder_of(settings)
    os.makedirs(folder, mode=0o700, exist_ok=True)
    new, taken = (os.path.join(settings.run, it) for it in ("kept", "kept.taken"))
    with locked(settings.state, "keeping"):
        if not os.path.exists(taken):
            with contextlib.suppress(FileNotFoundError):
                os.rename(new, taken)
        with contextlib.suppress(FileNotFoundError):
            with open(taken, "rb") as file:
                add(folder, list(lines_of(file.read(), boot())))
            os.unlink(taken)
        with contextlib.suppress(FileNotFoundError):
            os.unlink(os.path.join(settings.run, "kept.lost"))
            add(folder, [{"at": int(time.time()), "lost": LOST}])
        prune(folder)


def gathered(settings: Settings) -> bool:
    """The same, and a fault is only told of: it holds nothing up."""
    try:
        gather(settings)
    except (Fault, OSError) as why:
        log(f"the starts cannot be kept for desk-used: {why}; is the disk full?")
        return False
    return True


def print_starts(settings: Settings, since: str) -> int:
    """Prints what is kept since a day, each start once, and how long it reaches back."""
    gather(settings)
    folder, seen = folder_of(settings), set()
    for name in days(folder):
        if name[:8] < since:
            continue
        with open(os.path.join(folder, name), encoding="ascii") as file:
            for line in filter(str.strip, file):
                if line not in seen:
                    print(line, end="")
                seen.add(line)
    return 0


def a_day(text: str) -> str:
    """A day among the words of the command."""
    try:
        return datetime.datetime.strptime(text, "%Y%m%d").strftime("%Y%m%d")
    except ValueError:
        raise Fault(f"{text} is no day: write it as 20261130") from None
