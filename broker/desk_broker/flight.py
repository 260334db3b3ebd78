"""Messages on their way from a queue to a desk, several at once.

Order means nothing to a desk, so while it answers no message waits for another. Where it does not
answer one, that one alone is tried again, at waits that double, and no other post begins until it
was answered: a desk that is away is asked by one, and not by all.

All of it runs in one thread, which waits for the desk's replies together: with a thread for each
post, handing over the interpreter cost more than the posts.
"""

from __future__ import annotations

import dataclasses
import logging
import select
import time
from collections import deque
from collections.abc import Callable, Iterator

import pika

from desk_broker import names
from desk_broker.backoff import Backoff
from desk_broker.tally import Tally
from steelnewt_client.codes import Answer, Fate
from steelnewt_client.desk import Desk, Post

LOG = logging.getLogger("desk-consume")
POSTS = 16  # at once
ENOUGH = 2 * POSTS  # answered, so that they are acknowledged together
AHEAD = POSTS + ENOUGH  # begun, from the first that is not acknowledged on
LULL = 0.001  # seconds in which answers come while many posts are open: they are read together
TRIES = 2  # of a message at which this program fails
PAUSE = 1.0  # seconds between these
TICK = 0.2  # seconds between two looks at whether it is time to stop
# How many messages wait aside, and each for how many seconds: longer than a door lets an approval wait
# for its request (120), and than two looks at the other doors are apart.
MOST_ASIDE, MOST_WAIT = 128, 150.0


@dataclasses.dataclass(frozen=True)
class Delivery:
    """A message as it came from the queue."""

    tag: int
    relay: str | None
    body: bytes
    sent: float | None  # when it was published, in seconds since 1970
    fault: str | None = None  # why no desk is asked

    @classmethod
    def of(cls, tag: int, properties: pika.BasicProperties, body: bytes) -> Delivery:
        sent = (properties.headers or {}).get("sent-ms")
        seconds = sent / 1000 if isinstance(sent, int) else None
        relay = names.relay_of(properties.user_id)
        # (it would be gone from the queue of a desk that lags, and of no other)
        fault = names.EXPIRES if properties.expiration is not None else None
        return cls(tag, relay, body, seconds, fault if relay else names.NO_RELAY)

    def lag(self) -> float | None:
        return None if self.sent is None else max(0.0, time.time() - self.sent)


@dataclasses.dataclass
class Aside:
    """A message that waits for something of its own: since when, and when it is posted again."""

    delivery: Delivery
    since: float
    backoff: Backoff
    due: float = 0.0


class Acks:
    """The deliveries of a channel that are not acknowledged, by their tags, which rise. `passed` is
    the last one up to which all are settled, or aside."""

    def __init__(self) -> None:
        self._open: deque[int] = deque()
        self._settled: set[int] = set()
        self._aside: set[int] = set()
        self.passed = 0

    def begin(self, tag: int) -> None:
        self._open.append(tag)

    def settle(self, tag: int) -> None:
        self._settled.add(tag)

    def set_aside(self, tag: int) -> None:
        """No message behind this one waits for its answer."""
        self._aside.add(tag)

    def due(self) -> list[tuple[int, bool]]:
        """The tags to acknowledge now, and whether each stands for all before it: one for all, where
        none before it is aside."""
        found = list[int]()
        while self._open and (self._open[0] in self._settled or self._open[0] in self._aside):
            self.passed = self._open.popleft()
            found += [self.passed] if self.passed not in self._aside else []
        found += [tag for tag in self._aside if tag in self._settled and tag <= self.passed]
        self._settled.difference_update(found)
        self._aside.difference_update(found)
        if not found or (self._aside and min(self._aside) < max(found)):
            return [(tag, False) for tag in found]
        return [(max(found), True)]


class Flight:
    """The posts of one connection to the broker. Once it is time to stop, none begins.

    A channel numbers its deliveries one after the other. None begins that is more than `AHEAD`
    places behind the last one acknowledged: so where a message ends this program, at most so many
    stand in the queue from the first that is left up to it.
    """

    def __init__(
        self, name: str, desk: Desk, tally: Tally, is_stopping: Callable[[], bool] = lambda: False
    ) -> None:
        self._name, self._desk, self._tally = name, desk, tally
        self._is_stopping = is_stopping
        self._poller = select.epoll()
        self._waiting: deque[Delivery] = deque()
        self._open: dict[int, tuple[Delivery, Post]] = {}  # by their descriptors
        self._done: deque[tuple[Delivery, Answer]] = deque()
        self._last_acknowledged = 0
        self._unanswered: deque[Delivery] = deque()  # the first of these alone is tried
        self._backoff, self._next_try = Backoff(0.1, 10.0), 0.0
        self._lacking_since = self._went_on = 0.0  # an answer; and when there was one again
        self._failed: dict[int, tuple[int, float, Delivery]] = {}  # how often, and until when not
        self._aside: dict[int, Aside] = {}  # by their tags, the oldest first
        self._new_aside: deque[int] = deque()

    def begin(self, delivery: Delivery) -> None:
        self._waiting.append(delivery)

    def acknowledged(self, last: int) -> None:
        """All up to this one are off the queue."""
        self._last_acknowledged = last

    def done(self) -> Iterator[tuple[Delivery, Answer]]:
        """What was answered since."""
        while self._done:
            yield self._done.popleft()

    def set_aside(self) -> Iterator[int]:
        """The tags of what was set aside since: it is done later, and those behind it now."""
        while self._new_aside:
            yield self._new_aside.popleft()

    def has_only_aside(self) -> bool:
        """Whether all that is here waits for something of its own."""
        others = self._open or self._waiting or self._done or self._unanswered or self._failed
        return bool(self._aside) and not others

    def go_on(self, most: float) -> None:
        """Posts what there is, for so many seconds, or until enough is answered, or nothing is left
        that has begun."""
        until = time.monotonic() + most
        self._begin_more()
        while self._open and len(self._done) < ENOUGH and (left := until - time.monotonic()) > 0:
            if len(self._open) == POSTS and left > LULL:
                time.sleep(LULL)
            self._read(min(left, TICK))
            self._begin_more()

    def has_waiting(self) -> bool:
        """Whether there is more to post than what has begun."""
        return bool(self._waiting)

    def idle_for(self) -> float:
        """The seconds for which there is nothing to do here, if nothing comes from the queue."""
        if self._open or self._is_stopping() or (self._waiting and not self._unanswered):
            return 0.0
        times = [until for _, until, _ in self._failed.values()]
        times += [self._next_try] if self._unanswered else [it.due for it in self._aside.values()]
        return max(0.0, min(times) - time.monotonic()) if times else float("inf")

    def finish(self) -> None:
        """Waits for the posts that have begun."""
        while self._open:
            self._read(TICK)

    def end(self) -> None:
        """Nobody asks for the answers any longer."""
        for _, post in self._open.values():
            post.close()
        self._open.clear()
        self._poller.close()

    def _begin_more(self) -> None:
        while (
            len(self._open) < POSTS
            and not self._is_stopping()
            and (delivery := self._next()) is not None
        ):
            self._begin(delivery)

    def _next(self) -> Delivery | None:
        """The message whose post begins now."""
        now = time.monotonic()
        if self._unanswered:
            first = self._unanswered[0]
            is_tried = any(delivery is first for delivery, _ in self._open.values())
            return None if is_tried or now < self._next_try else first
        for number, until, delivery in self._failed.values():
            if until <= now:
                self._failed[delivery.tag] = number, float("inf"), delivery
                return delivery
        if aside := self._aside_due(now):
            aside.due = float("inf")
            return aside.delivery
        if self._waiting and self._waiting[0].tag <= self._last_acknowledged + AHEAD:
            return self._waiting.popleft()
        return None

    def _aside_due(self, now: float) -> Aside | None:
        """The one that waits and is posted again now: one at a time, so that whatever waits takes
        little from what is new."""
        first = min(self._aside.values(), key=lambda it: it.due, default=None)
        is_one_posted = any(it.due == float("inf") for it in self._aside.values())
        return first if first and first.due <= now and not is_one_posted else None

    def _begin(self, delivery: Delivery) -> None:
        try:
            if delivery.fault is not None or delivery.relay is None:
                self._finish(delivery, Answer(Fate.FINAL, delivery.fault or names.NO_RELAY))
                return
            begun = self._desk.begin(delivery.relay, delivery.body)
            if isinstance(begun, Answer):
                self._judge(delivery, begun, time.monotonic())
                return
            self._poller.register(begun, select.EPOLLIN)
            self._open[begun.fileno()] = delivery, begun
        except Exception:
            self._fail(delivery)

    def _read(self, most: float) -> None:
        """Reads what came within so many seconds, and gives up what came too late."""
        for place, _ in self._poller.poll(most):
            self._take(place, Post.read)
        now = time.monotonic()
        for place in [place for place, (_, post) in self._open.items() if post.until <= now]:
            self._take(place, Post.give_up)

    def _take(self, place: int, read: Callable[[Post], Answer | None]) -> None:
        """What one post has to say, and what follows. (Its descriptor leaves the poller when it is
        closed.)"""
        delivery, post = self._open[place]
        try:
            if (answer := read(post)) is not None:
                del self._open[place]
                self._judge(delivery, answer, post.begun)
        except Exception:
            self._open.pop(place, None)
            post.close()
            self._fail(delivery)

    def _judge(self, delivery: Delivery, answer: Answer, begun: float) -> None:
        is_first = bool(self._unanswered) and self._unanswered[0] is delivery
        if answer.fate is not Fate.AGAIN or answer.waits:
            if is_first:
                self._go_on_again()
            if answer.waits:
                self._set_aside(delivery, answer)
            else:
                self._finish(delivery, answer)
            return
        if self._is_stopping():
            return
        if not is_first:
            self._unanswered.append(delivery)
        if self._unanswered[0] is delivery and (is_first or begun >= self._went_on):
            self._wait(answer)

    def _set_aside(self, delivery: Delivery, answer: Answer) -> None:
        """Posts it again later. One that waited for too long is put by, and so is the oldest where
        too many wait: somebody publishes them again."""
        now, said = time.monotonic(), answer.said.partition(" ")[2]
        aside = self._aside.get(delivery.tag)
        if aside is None:
            LOG.info("desk %s: waits: %s, relay %s", self._name, said, delivery.relay)
            aside = self._aside[delivery.tag] = Aside(delivery, now, Backoff(0.1, 5.0))
            self._new_aside.append(delivery.tag)
        aside.due = now + aside.backoff.next()
        if now - aside.since > MOST_WAIT and not self._is_stopping():
            self._finish(delivery, Answer(Fate.MEND, said))
        elif len(self._aside) > MOST_ASIDE and not self._is_stopping():
            oldest = next(it for it in self._aside.values() if it.due < float("inf"))
            self._finish(oldest.delivery, Answer(Fate.MEND, said))

    def _wait(self, answer: Answer) -> None:
        """The first of those without an answer is tried again, later."""
        now = time.monotonic()
        if not self._backoff.tries:
            self._lacking_since = now
        wait = self._backoff.next()
        self._next_try = now + wait
        self._tally.tried_again += 1
        LOG.warning(
            "desk %s: no answer (%s), try %d; the next in %.1f s",
            self._name, answer.said, self._backoff.tries, wait,
        )

    def _go_on_again(self) -> None:
        """The desk answered the one that was tried; the next one without an answer has its turn."""
        self._unanswered.popleft()
        self._went_on = time.monotonic()
        self._next_try = self._went_on
        if self._backoff.tries:
            lasted = self._went_on - self._lacking_since
            LOG.info("desk %s: it goes on after %.1f s", self._name, lasted)
        self._backoff.reset()

    def _fail(self, delivery: Delivery) -> None:
        """One at which this program fails is tried once more, and then refused."""
        number = self._failed[delivery.tag][0] + 1 if delivery.tag in self._failed else 1
        LOG.exception(
            "desk %s: failed at a message, relay %s, %d bytes, try %d of %d",
            self._name, delivery.relay, len(delivery.body), number, TRIES,
        )
        if self._unanswered and self._unanswered[0] is delivery:
            self._unanswered.popleft()
            self._next_try = time.monotonic()
            self._backoff.reset()
        if number < TRIES:
            self._failed[delivery.tag] = number, time.monotonic() + PAUSE, delivery
        elif not self._is_stopping():
            self._finish(delivery, Answer(Fate.FINAL, names.FAILS))

    def _finish(self, delivery: Delivery, answer: Answer) -> None:
        self._failed.pop(delivery.tag, None)
        self._aside.pop(delivery.tag, None)
        self._done.append((delivery, answer))
