"""How long to wait before the next try."""

from __future__ import annotations

import random


class Backoff:
    """Waits that double from `first` to `most` seconds, each shortened at random by up to half.

    The chance keeps many clients of one desk from coming all at once.
    """

    def __init__(self, first: float, most: float, chance: random.Random | None = None) -> None:
        self._first, self._most = first, most
        self._chance = chance or random.Random()
        self.tries = 0

    def next(self) -> float:
        """The seconds to wait now; the next wait is longer."""
        whole = min(self._most, self._first * 2.0 ** min(self.tries, 30))
        self.tries += 1
        return whole * (0.5 + self._chance.random() / 2)

    def reset(self) -> None:
        self.tries = 0
