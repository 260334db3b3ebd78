"""What a machine that has much else to do adds to a time that is measured: how long this process
stood still, and how long the programs that it tries waited for a processor."""

from __future__ import annotations

import contextlib
import threading
import time
from pathlib import Path
from typing import NamedTuple, Self

TICK = 0.05  # seconds between two looks; what is later than one more is lost


class Mark(NamedTuple):
    """A moment, and what was lost until then."""

    at: float
    lost: float


def times(process: int) -> tuple[float, float]:
    """For how many seconds a process's threads had a processor, and for how many they waited for
    one, by the kernel; 0 where it is gone, or the kernel does not say so."""
    had = waited = 0
    with contextlib.suppress(OSError):
        for path in Path(f"/proc/{process}/task").glob("*/schedstat"):
            words = path.read_text(encoding="ascii").split()
            had, waited = had + int(words[0]), waited + int(words[1])
    return had / 1e9, waited / 1e9


class Machine:
    """Watches this process and those of these ids as long as the block lasts."""

    def __init__(self, *processes: int) -> None:
        self.processes = processes
        self._seen = 0.0, time.monotonic()
        self._over = threading.Event()
        self._thread = threading.Thread(target=self._watch, daemon=True)

    def __enter__(self) -> Self:
        self._thread.start()
        return self

    def __exit__(self, *_: object) -> None:
        self._over.set()
        self._thread.join()

    def _watch(self) -> None:
        late = 0.0
        while not self._over.is_set():
            begun = time.monotonic()
            self._seen = late, begun
            time.sleep(TICK)
            late += self._late(begun)

    def _late(self, begun: float) -> float:
        late = time.monotonic() - begun - TICK
        return late if late > TICK else 0.0

    def lost(self) -> float:
        late, begun = self._seen
        return late + self._late(begun) + self.times()[1]

    def times(self) -> tuple[float, float]:
        """For how many seconds these processes had a processor, and waited for one."""
        found = [times(it) for it in self.processes]
        return sum(had for had, _ in found), sum(waited for _, waited in found)

    def slowness(self, began: tuple[float, float]) -> float:
        """How much longer these processes took for all that they did since some times, as others
        had the processors: 1 where they never waited for one."""
        had, waited = (now - then for now, then in zip(self.times(), began))
        return max(1.0, (had + waited) / had) if had > 0 else 1.0

    def mark(self) -> Mark:
        return Mark(time.monotonic(), self.lost())

    def since(self, mark: Mark) -> float:
        """The seconds since a mark, without those that were lost."""
        return max(0.0, time.monotonic() - mark.at - max(0.0, self.lost() - mark.lost))
