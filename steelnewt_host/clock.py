"""Whether this host's clock went back: sudo goes by it, and allows again what a grant allowed whose
end it has shown before."""

from __future__ import annotations

import os
import re
import time
from typing import Optional

from steelnewt_host.changes import since_boot
from steelnewt_host.settings import Settings
from steelnewt_host.state import read_some
from steelnewt_host.timers import ends_of, file_of

SLACK = 60.0  # the seconds by which a clock may be set without a word


def path_of(settings: Settings) -> str:
    return os.path.join(settings.run, "clock")


def ahead() -> float:
    """How far this host's clock is ahead of the one that nobody sets."""
    return time.time() - since_boot()


def noted(settings: Settings) -> Optional[float]:
    """How far it was at most, since the machine's start."""
    text = read_some(path_of(settings), 64) or b""
    return float(text) if re.fullmatch(rb"-?[0-9]{1,15}\.[0-9]{1,9}\n", text) else None


def furthest(settings: Settings) -> str:
    """What is noted of the clock from now on."""
    return f"{max(ahead(), noted(settings) or ahead()):.3f}\n"


def behind(settings: Settings) -> float:
    """By how many seconds this host's clock is behind what it has shown; 0 where that is no more
    than any clock is set by."""
    most = noted(settings)
    back = most - ahead() if most is not None else 0.0
    return back if back > SLACK else 0.0


def passes_an_end(settings: Settings, user: str, back: float) -> bool:
    """Whether the clock went back over a second in which a line about a user began or ended."""
    now = time.time()
    return any(now < at <= now + back for at in ends_of(file_of(settings), user))
