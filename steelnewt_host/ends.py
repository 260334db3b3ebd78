"""What systemd starts by itself: as sudo starts something, and at an end that a timer waits for."""

from __future__ import annotations

import os
import time

from steelnewt_host.ending import end, warn
from steelnewt_host.faults import FAULT, Unanswered, Unclear
from steelnewt_host.judging import is_allowed
from steelnewt_host.kept import gathered
from steelnewt_host.records import starts
from steelnewt_host.session import Session
from steelnewt_host.settings import Settings
from steelnewt_host.timers import ends_of, file_of, set_timers


def starting(settings: Settings) -> int:
    """What desk-starts.service does as something is started. (A command that has ended by now needs
    no timer.)"""
    folder = os.path.join(settings.run, "pending")
    for name in os.listdir(folder) if os.path.isdir(folder) else ():
        os.unlink(os.path.join(folder, name))
    time.sleep(0.5)
    set_timers(settings)
    gathered(settings)
    return 0


def is_denied(it: Session, settings: Settings) -> bool:
    """Whether sudo denies it. What cannot be judged is left to the looks, which tell why."""
    try:
        return not is_allowed(it, settings)
    except (Unclear, Unanswered):
        return False


def end_at(settings: Settings, at: int) -> int:
    """Ends what sudo denies to the people for whom the file has an end at that second: the date
    was known as it began, so there is no grace."""
    text = file_of(settings)
    mine = [it for it in starts(settings) if at in ends_of(text, it.user)]
    denied = [it for it in mine if is_denied(it, settings)]
    for it in denied:
        warn(it, "the right to it has ended")
    is_ended = settings.sessions != "end" or not denied or end(denied)
    set_timers(settings)
    return 0 if is_ended else FAULT
