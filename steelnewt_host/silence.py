"""How long this host has heard no sound answer, and what ends then (STALE_AFTER)."""

from __future__ import annotations

import math
import os
import time
from typing import Optional

from steelnewt_host.answers import parted
from steelnewt_host.changes import since_boot, tell_change
from steelnewt_host.noted import Notes
from steelnewt_host.place import Held, Place
from steelnewt_host.settings import Settings
from steelnewt_host.state import read_some
from steelnewt_host.telling import say

HOUR = 3600


def heard(settings: Settings) -> None:
    """Notes that a desk gave a sound answer now. (The time of the host's file says so too, by a
    clock that may be set.)"""
    os.makedirs(settings.run, mode=0o755, exist_ok=True)
    Notes(settings).put("heard", f"{since_boot():.3f}\n")


def silence(
    settings: Settings, held: Optional[Held], shortest: bool = False
) -> Optional[float]:
    """The seconds since then; nothing where there is no file. Where this host's clock was set
    meanwhile, it is the longest that can be, or the shortest."""
    if held is None:
        return None
    age = time.time() - held.seen.st_mtime
    noted = read_some(os.path.join(settings.run, "heard"), 64)
    if noted is None:  # (of this start of the machine: else the clock alone tells)
        return age if shortest or age > -HOUR else math.inf
    since = since_boot() - float(noted)
    return min(age, since) if shortest else max(age, since)


def without_grants(text: bytes, base: Optional[str]) -> bytes:
    """A host's file without its grants. They stand behind its base; where nobody knows where that
    ends, each line that ends by a date goes, but for those that deny."""
    parts = parted(text, base) if base is not None else None
    if parts is not None:
        return parts[0]
    lines = text.splitlines(keepends=True)
    return b"".join(it for it in lines if b"!" in it or b"NOTAFTER=" not in it)


def stale(settings: Settings, held: Optional[Held]) -> Optional[str]:
    """That this host has heard nothing for longer than the operator allows; else nothing."""
    age = silence(settings, held)
    if settings.stale_after is None or age is None or age <= settings.stale_after:
        return None
    told = f"for {age:.0f} seconds" if age < math.inf else "since this host's clock went back"
    return f"no desk gave a sound answer {told} (STALE_AFTER): the grants have ended"


def end_grants(settings: Settings, place: Place, base: Optional[str]) -> None:
    """Takes the grants out of this host's file where it has heard nothing for so long. The file
    keeps its time, and so stays as old as it is."""
    held = place.read()
    why = stale(settings, held)
    if held is None or why is None:
        return
    say(why)
    text = without_grants(held.text, base)
    if text != held.text:
        place.put_back(text, held.seen.st_mtime_ns)
        tell_change(settings)
