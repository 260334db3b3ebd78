"""No message leaves the outbox before it is confirmed."""

from __future__ import annotations

from collections.abc import Iterable
from typing import cast
import concurrent.futures

import pytest
from desk_broker.outbox import NotConfirmed, Outbox, Sent
from desk_broker.publish import Publisher
from desk_broker.publish import publish_all, wait_for


def box(count: int, window: int = 10) -> tuple[Outbox, list[Sent]]:
    outbox, sent = Outbox(window), [Sent(b"%d" % n) for n in range(count)]
    for each in sent:
        outbox.give(each)
    outbox.begin()
    return outbox, sent


def taken(outbox: Outbox) -> list[tuple[int, Sent]]:
    found = []
    while (each := outbox.take()) is not None:
        found.append(each)
    return found


def done(sent: Iterable[Sent]) -> list[bool]:
    return [each.confirmed.done() for each in sent]


def test_numbers_from_one_and_a_bounded_window() -> None:
    outbox, sent = box(5, window=3)
    assert taken(outbox) == [(1, sent[0]), (2, sent[1]), (3, sent[2])]
    outbox.confirm(2, multiple=False)
    assert taken(outbox) == [(4, sent[3])]
    assert done(sent) == [False, True, False, False, False]


def test_confirms_all_up_to_one() -> None:
    outbox, sent = box(4)
    taken(outbox)
    outbox.confirm(3, multiple=True)
    assert done(sent) == [True, True, True, False]


def test_a_new_connection_sends_again_what_is_not_confirmed_first_and_in_order() -> None:
    outbox, sent = box(4, window=3)
    taken(outbox)
    outbox.confirm(2, multiple=False)
    outbox.begin()
    assert taken(outbox) == [(1, sent[0]), (2, sent[2]), (3, sent[3])]


def test_a_confirmation_of_the_old_connection_says_nothing_of_the_new() -> None:
    outbox, sent = box(2, window=1)
    taken(outbox)
    outbox.begin()
    assert done(sent) == [False, False]


def test_what_the_broker_denies_is_sent_again() -> None:
    outbox, sent = box(2)
    taken(outbox)
    outbox.deny(1, multiple=False)
    assert done(sent) == [False, False]
    assert taken(outbox) == [(3, sent[0])]


def test_what_no_queue_takes_is_not_confirmed() -> None:
    outbox, sent = box(1)
    taken(outbox)
    outbox.unroutable(1)
    outbox.confirm(1, multiple=False)
    with pytest.raises(NotConfirmed):
        wait_for(sent[0].confirmed, 0)


def test_who_gave_up_is_not_sent() -> None:
    outbox, sent = box(2)
    with pytest.raises(NotConfirmed):
        wait_for(sent[0].confirmed, 0)
    assert taken(outbox) == [(1, sent[1])]


def test_a_late_confirmation_of_what_was_given_up_is_passed_over() -> None:
    outbox, sent = box(1)
    taken(outbox)
    with pytest.raises(NotConfirmed):
        wait_for(sent[0].confirmed, 0)
    outbox.confirm(1, multiple=False)
    outbox.unroutable(1)


def test_what_takes_rights_away_is_sent_first() -> None:
    """Also what a broken connection left, and what the broker denied."""
    outbox = Outbox(2)
    sent = [Sent(b'{"kind":"%s"}' % kind) for kind in (b"request", b"approve", b"revoke", b"refuse")]
    for each in sent:
        outbox.give(each)
    outbox.begin()
    assert [it for _, it in taken(outbox)] == [sent[2], sent[3]]
    assert {it.exchange for it in sent[2:]} == {"first.messages"}
    assert {it.exchange for it in sent[:2]} == {"desk.messages"}
    outbox.begin()
    assert [it for _, it in taken(outbox)] == [sent[2], sent[3]]
    outbox.deny(1, multiple=False)
    assert [it for _, it in taken(outbox)] == [sent[2]]
    outbox.confirm(3, multiple=True)
    assert [it for _, it in taken(outbox)] == [sent[0], sent[1]]


class Confirms:
    """A publisher that confirms all but the third."""

    def __init__(self) -> None:
        self.count = 0

    def submit(self, body: bytes) -> concurrent.futures.Future[None]:
        sent = Sent(body)
        self.count += 1
        if self.count != 3:
            sent.settle()
        return sent.confirmed


def test_publish_all_answers_each_in_order() -> None:
    publisher = cast(Publisher, Confirms())
    answers = list(publish_all(publisher, [b"a", b"b", b"c", b"d"], patience=0.05))
    assert [answer is None for answer in answers] == [True, True, False, True]
