"""A second process of a job, which ends with the first one, however that ends."""

import logging
import os
import signal
import threading
from collections.abc import Callable
from contextlib import suppress

log = logging.getLogger("desk-relay")


class Other:
    """The second process, as the first one sees it. (While `held` is open, the first one lives.)"""

    def __init__(self, process: int, held: int) -> None:
        self.process, self.held, self.is_over = process, held, False

    def has_ended(self) -> bool:
        if not self.is_over:
            self.is_over = os.waitpid(self.process, os.WNOHANG)[0] == self.process
        return self.is_over

    def end(self) -> None:
        """Has it end, and waits until it did: what it began it ends."""
        if not self.has_ended():
            with suppress(ProcessLookupError):
                os.kill(self.process, signal.SIGTERM)
            os.waitpid(self.process, 0)
            self.is_over = True
        os.close(self.held)


def forked(work: Callable[[], None]) -> Other:
    """Does the work in a process of its own. (Before this one has opened a database or begun a
    thread: neither lives in two processes.)"""
    ends, held = os.pipe()
    if process := os.fork():
        os.close(ends)
        return Other(process, held)
    status = 1
    try:
        os.close(held)
        threading.Thread(target=end_with, args=(ends,), daemon=True).start()
        work()
        status = 0
    except BaseException:
        log.exception("a process that was begun beside another one fails")
    finally:
        os._exit(status)


def end_with(ends: int) -> None:
    """Ends this process once the other side of a pipe is closed: whoever had it open is gone."""
    os.read(ends, 1)
    os._exit(1)
