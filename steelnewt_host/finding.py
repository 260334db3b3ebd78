"""What `desk-host check` finds, with the statuses of a Nagios probe."""

from __future__ import annotations

from typing import NamedTuple

OK, WARNING, CRITICAL, UNKNOWN = range(4)
NAMES = ("OK", "WARNING", "CRITICAL", "UNKNOWN")


class Finding(NamedTuple):
    """One thing that is not as it has to be, and how bad that is."""

    level: int
    text: str
