"""What a consumer did, told to the log now and then."""

from __future__ import annotations

import logging
import time
from collections.abc import Callable

LOG = logging.getLogger("desk-consume")


class Tally:
    """Counts of messages since the start, and the longest lag since the last line."""

    def __init__(
        self, desk: str, every: float = 30.0, clock: Callable[[], float] = time.monotonic
    ) -> None:
        self._desk, self._every, self._clock = desk, every, clock
        self._due = clock() + every
        self._told = (0, 0)
        self.taken = self.refused = self.tried_again = 0
        self.lag = 0.0

    def done(self, was_taken: bool, lag: float | None) -> None:
        """A message is off the queue; `lag` is how long ago it was published."""
        if was_taken:
            self.taken += 1
        else:
            self.refused += 1
        if lag is not None:
            self.lag = max(self.lag, lag)
        self.tell_if_due()

    def tell_if_due(self) -> None:
        if self._clock() >= self._due:
            self.tell()

    def tell(self) -> None:
        """A line, where something happened since the last."""
        self._due = self._clock() + self._every
        if self._told != (self.taken, self.refused):
            LOG.info(
                "desk %s: %d taken, %d refused, %d tries again; the longest lag %.1f s",
                self._desk, self.taken, self.refused, self.tried_again, self.lag,
            )
            self._told = (self.taken, self.refused)
            self.lag = 0.0
