"""One question to the desk for all who ask the same at the same time.

Whoever comes while a question is under way waits for the next one, which is asked for all who came
meanwhile. So each has an answer to a question that was asked after they came, nobody reads what
is older, and however many ask, the desk hears one question at a time.
"""

import threading
import time
from collections.abc import Callable, Hashable
from concurrent.futures import Future
from typing import Any, TypeVar

Answer = TypeVar("Answer")


class Shared:
    """Questions, each by what it asks for. `pause` is how many seconds there are at least from the
    beginning of one to that of the next."""

    def __init__(self, pause: float = 0.4) -> None:
        self.pause, self.began = pause, -pause
        self.lock, self.turn = threading.Lock(), threading.Lock()
        self.waiting: dict[Hashable, Future[Any]] = {}

    def ask(self, key: Hashable, question: Callable[[], Answer]) -> Answer:
        """The answer, or what the question raised."""
        with self.lock:
            is_first = key not in self.waiting
            found: Future[Answer] = self.waiting.setdefault(key, Future())
        if is_first:
            with self.turn:
                time.sleep(max(0.0, self.began + self.pause - time.monotonic()))
                self.began = time.monotonic()
                # (who comes from here on waits for the next)
                with self.lock:
                    del self.waiting[key]
                try:
                    found.set_result(question())
                except BaseException as fault:
                    found.set_exception(fault)
        return found.result()
