"""Whether a line says that a host's log lost others, by the program that keeps the log.

Any account may write such a line to syslog. It hides nothing by that: what it says is only that
something may be missing.
"""

from __future__ import annotations

import re

# what each program says of lines that it dropped, or could not write
LOSSES = {
    "systemd-journald": re.compile(
        r"Suppressed \d+ messages|Forwarding to syslog missed \d+ messages|Failed to write entry"
    ),
    "rsyslogd": re.compile(
        r"messages lost due to rate-limiting|begin to drop messages|message lost|write error"
    ),
}
# (a host may stand before the program, whose process behind it)
TAGGED = re.compile(rf"(?:(\S+) )?({'|'.join(LOSSES)})(?:\[\d+\])?: (.*)", re.DOTALL)
MOST_SAID = 80


def why_lost(program: str, said: str, host: str) -> str | None:
    """Why lines of a host may be missing; None where this says nothing of it."""
    losses = LOSSES.get(program)
    if losses is None or not losses.search(said):
        return None
    return f"lines of {host or 'its host'} are lost: {program}: {said[:MOST_SAID]}"


def why_lost_by(text: str, host: str) -> str | None:
    """The same of what a line of syslog has behind its moment."""
    found = TAGGED.match(text)
    return why_lost(found[2], found[3], host or found[1] or "") if found else None
