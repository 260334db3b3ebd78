"""What is said to whoever looks, and to the system's log."""

from __future__ import annotations

import contextlib
import sys
import syslog


def say(text: str) -> None:
    """Says it, where anybody listens: a reader that is gone, or a full disk, holds nothing up."""
    with contextlib.suppress(OSError):
        print(f"desk-host: {shown(text)}", file=sys.stderr, flush=True)


def shown(text: str) -> str:
    """A text as one line of a log or a terminal. Users choose some of its words: a line end would
    begin a line of their own, and bytes that are no UTF-8 cannot be written."""
    return "".join(it if it.isprintable() else ascii(it)[1:-1] for it in text)


def log(text: str) -> None:
    """Says it, and keeps it in the system's log."""
    say(text)
    syslog.openlog("desk-host", syslog.LOG_PID, syslog.LOG_AUTHPRIV)
    syslog.syslog(syslog.LOG_NOTICE, shown(text))
