"""Messages on their way to the broker: which were sent, confirmed, or are to be sent again."""

from __future__ import annotations

import concurrent.futures
import contextlib
import itertools
import time
from collections import deque

from desk_broker import names


class NotConfirmed(Exception):
    """The broker did not confirm the message in time, or no queue takes it."""


class Sent:
    """A message on its way, the exchange that it is for, and the future that tells when it is
    confirmed."""

    def __init__(self, body: bytes) -> None:
        self.body, self.exchange = body, names.exchange_of(body)
        self.sent_ms = int(time.time() * 1000)
        self.confirmed: concurrent.futures.Future[None] = concurrent.futures.Future()

    def settle(self, error: Exception | None = None) -> None:
        """Tells the caller, unless that has given up."""
        with contextlib.suppress(concurrent.futures.InvalidStateError):
            if error is None:
                self.confirmed.set_result(None)
            else:
                self.confirmed.set_exception(error)


class Outbox:
    """At most `window` messages are sent and not confirmed. A connection numbers them from 1. What
    takes rights away is sent before all else.

    `give` may be called by any thread, all else by the connection's alone.
    """

    def __init__(self, window: int) -> None:
        self._window = window
        self._first: deque[Sent] = deque()
        self._rest: deque[Sent] = deque()
        self._open: dict[int, Sent] = {}
        self._number = 0

    def give(self, sent: Sent) -> None:
        self._queue_of(sent).append(sent)

    def _queue_of(self, sent: Sent) -> deque[Sent]:
        return self._first if sent.exchange == names.FIRST else self._rest

    def begin(self) -> None:
        """A new connection: what the last one left unconfirmed is sent again, first."""
        for sent in reversed(self._open.values()):
            self._queue_of(sent).appendleft(sent)
        self._open.clear()
        self._number = 0

    def take(self) -> tuple[int, Sent] | None:
        """The next message to send and its number, where there is one and the window has room."""
        while (given := self._first or self._rest) and len(self._open) < self._window:
            sent = given.popleft()
            if sent.confirmed.done():
                continue  # its caller gave up
            self._number += 1
            self._open[self._number] = sent
            return self._number, sent
        return None

    def confirm(self, last: int, multiple: bool) -> None:
        """The broker has this message, or all up to it."""
        for sent in self._leave(last, multiple):
            sent.settle()

    def deny(self, last: int, multiple: bool) -> None:
        """The broker could not keep this message, or all up to it: they are sent again."""
        for sent in self._leave(last, multiple):
            self.give(sent)

    def unroutable(self, number: int) -> None:
        """No queue takes the message: that it is confirmed promises nothing."""
        if (sent := self._open.get(number)) is not None:
            sent.settle(NotConfirmed("no desk has a queue at the broker"))

    def _leave(self, last: int, multiple: bool) -> list[Sent]:
        numbers = [last]
        if multiple:  # (they stand in the order of their numbers)
            numbers = list(itertools.takewhile(lambda number: number <= last, self._open))
        return [self._open.pop(number) for number in numbers if number in self._open]
