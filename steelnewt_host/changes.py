"""When this host's rights last changed."""

from __future__ import annotations

import os
import time

from steelnewt_host.settings import Settings
from steelnewt_host.state import write_state
from steelnewt_host.telling import say


def since_boot() -> float:
    """A clock that nobody sets, and that does not stand still: a process's start is told by it."""
    return time.clock_gettime(time.CLOCK_BOOTTIME)


def tell_change(settings: Settings) -> None:
    """Notes that this host's rights are others from now on. Where that cannot be noted, as in a
    full /run, no file waits for it: sudo's plugin starts nothing then."""
    path = os.path.join(settings.run, "changed")
    try:
        os.makedirs(settings.run, mode=0o755, exist_ok=True)
        write_state(path, f"{since_boot():.9f}\n")
    except OSError as why:
        say(f"{path} cannot be written: {why.strerror}; free space in /run")


def last_change(settings: Settings) -> float:
    """When this host's rights last changed, since the machine's start; else before it."""
    try:
        with open(os.path.join(settings.run, "changed"), encoding="ascii") as file:
            return float(file.read())
    except FileNotFoundError:
        return -1.0
