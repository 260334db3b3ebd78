"""A message that waits for something of its own, as a signed approval whose request is withheld,
holds up no other: it is set aside, posted again, and put by in the end."""

from __future__ import annotations

import socket
import time
from typing import Any, cast

import pytest
from conftest import Scripted
from desk_broker import fill as filling
from desk_broker import flight as module
from desk_broker.consume import Consumer, Lane
from desk_broker.consume import Link as RealLink
from desk_broker.fill import fill
from desk_broker.flight import POSTS, Acks, Delivery, Flight
from desk_broker.tally import Tally
from steelnewt_client.codes import Answer, Fate, judge
from steelnewt_client.desk import Desk, Post
from test_consume import BROKER, Queue

TAKEN, AWAY = Answer(Fate.TAKEN, "ack"), judge(503, "K20 DeskAway\n")
NO_REQUEST, LAGS = judge(503, "K22 NoRequestYet\n"), judge(503, "K27 DoorLags\n")


LATER = b"HTTP/1.1 503 No\r\nContent-Length: 17\r\n\r\nK22 NoRequestYet\n"


class Withheld:
    """A desk that has no request for some approvals, as long as it is not brought."""

    def __init__(self, *bodies: bytes, said: Answer = NO_REQUEST) -> None:
        self.waiting, self.said, self.posted = {*bodies}, said, list[bytes]()

    def begin(self, relay: str, body: bytes) -> Answer:
        self.posted.append(body)
        return self.said if body in self.waiting else TAKEN


class Held:
    """A desk that says what it is told to, and holds each post of which it is told nothing."""

    def __init__(self) -> None:
        self.said, self.open, self.peers = dict[bytes, bytes](), list[bytes](), list[socket.socket]()

    def begin(self, relay: str, body: bytes) -> Post:
        ours, theirs = socket.socketpair()
        self.peers.append(theirs)
        if said := self.said.get(body):
            theirs.sendall(said)
        else:
            self.open.append(body)
        return Post(ours, 60.0)


def started(desk: object, count: int) -> Flight:
    flight = Flight("a", cast(Desk, desk), Tally("a"))
    for tag in range(1, count + 1):
        flight.begin(Delivery(tag, "web", b"%d" % tag, None))
    flight.acknowledged(count)
    return flight


def answered(flight: Flight, seconds: float) -> dict[int, Answer]:
    until, found = time.monotonic() + seconds, dict[int, Answer]()
    while time.monotonic() < until:
        flight.go_on(0.01)
        found |= {given.tag: answer for given, answer in flight.done()}
        time.sleep(min(0.01, flight.idle_for()))
    return found


@pytest.mark.parametrize("said", [NO_REQUEST, LAGS, judge(503, "K21 NotYet\n")])
def test_others_go_on_beside_one_that_waits(said: Answer) -> None:
    desk = Withheld(b"3", b"7", said=said)
    flight = started(desk, 40 * POSTS)
    found = answered(flight, 2)
    assert found == {tag: TAKEN for tag in range(1, 40 * POSTS + 1) if tag not in (3, 7)}
    assert list(flight.set_aside()) == [3, 7]
    assert 3 <= desk.posted.count(b"3") < 20, "it is posted again, and not all the time"
    desk.waiting.clear()
    assert answered(flight, 4) == {3: TAKEN, 7: TAKEN}
    flight.end()


def test_what_waits_takes_little_from_what_is_new() -> None:
    """Messages that wait for a request get one post of sixteen, and the new ones the others."""
    waiting = [b"%d" % tag for tag in range(1, 101)]
    posts = Held()
    flight = Flight("a", cast(Desk, posts), Tally("a"))
    for tag in range(1, 101):
        flight.begin(Delivery(tag, "web", b"%d" % tag, None))
    flight.acknowledged(10_000)
    posts.said = {it: LATER for it in waiting}
    answered(flight, 1)
    assert len(list(flight.set_aside())) == 100
    posts.said = {}
    time.sleep(0.3)
    for tag in range(101, 201):
        flight.begin(Delivery(tag, "web", b"%d" % tag, None))
    for _ in range(20):
        flight.go_on(0.02)
    assert len(posts.open) == POSTS and sum(it in waiting for it in posts.open) == 1
    flight.end()


def test_a_desk_that_is_away_still_holds_up_all() -> None:
    desk = Withheld(b"1", said=AWAY)
    flight = started(desk, 10)
    assert answered(flight, 0.5) == {} and {*desk.posted} == {b"1"}
    desk.said = NO_REQUEST
    assert answered(flight, 2) == {tag: TAKEN for tag in range(2, 11)}
    flight.end()


def test_one_that_waits_for_too_long_is_put_by(monkeypatch: pytest.MonkeyPatch) -> None:
    monkeypatch.setattr(module, "MOST_WAIT", 0.5)
    flight = started(Withheld(b"2"), 3)
    found = answered(flight, 3)
    assert found[2] == Answer(Fate.MEND, "K22 NoRequestYet") and len(found) == 3
    flight.end()


def test_the_oldest_is_put_by_where_too_many_wait(monkeypatch: pytest.MonkeyPatch) -> None:
    monkeypatch.setattr(module, "MOST_ASIDE", 4)
    flight = started(Withheld(*(b"%d" % tag for tag in range(1, 10))), 12)
    found = answered(flight, 1)
    assert {tag for tag, it in found.items() if it is TAKEN} == {10, 11, 12}
    assert {it.said for it in found.values()} == {"ack", "K22 NoRequestYet"} and len(found) == 8
    flight.end()


def test_what_is_acknowledged_beside_one_that_is_aside() -> None:
    """Not the one that waits: it stays in the queue until it is settled itself."""
    acks = Acks()
    for tag in range(1, 8):
        acks.begin(tag)
    acks.set_aside(2)
    assert acks.due() == [] and acks.passed == 0
    for tag in (1, 3, 4, 6):
        acks.settle(tag)
    assert sorted(acks.due()) == [(1, False), (3, False), (4, False)] and acks.passed == 4
    acks.settle(2)
    assert acks.due() == [(2, True)]
    acks.settle(5)
    assert acks.due() == [(6, True)]
    acks.set_aside(7)
    assert acks.due() == [] and acks.passed == 7
    acks.settle(7)
    assert acks.due() == [(7, True)]


@pytest.mark.parametrize("count", [1, 5])
def test_a_head_that_waits_is_passed_over(count: int) -> None:
    """Each start settles one message, before many come at a time."""
    bodies = [b"%d" % number for number in range(1, 31)]
    consumer = Consumer("a", cast(Desk, None), BROKER)
    queue, desk = Queue(bodies, 64), Withheld(*bodies[:count])
    queue.stop = lambda: None
    on_its_way = Flight("a", cast(Desk, desk), consumer.tally, consumer.is_stopping)
    waits = queue.wait

    def wait(most: float) -> None:
        waits(most)
        if queue.open() == count and not queue.bodies:
            assert queue.held == {*range(1, count + 1)}
            desk.waiting.clear()
        if not queue.held and not queue.bodies:
            consumer.stop()

    setattr(queue, "wait", wait)
    consumer._carry([Lane(cast(RealLink, queue), on_its_way)])
    on_its_way.end()
    assert queue.steps == ["head"] * (count + 1) + [("all", 1)]
    assert consumer.tally.taken == 30 and not queue.held


def test_a_fill_goes_on_beside_one_that_waits(
    scripted: Scripted, monkeypatch: pytest.MonkeyPatch
) -> None:
    later, ack = (503, "K22 NoRequestYet\n"), (200, "ack\n")
    scripted.replies = [later, ack, ack, later, ack]
    assert fill(Desk(scripted.address), "web", [b"1", b"2", b"3"]) == (3, [])
    assert [body for _, body in scripted.seen] == [b"1", b"2", b"3", b"1", b"1"]
    monkeypatch.setattr(filling, "PATIENCE", 0.0)
    scripted.replies = [later, ack]
    said: Any = fill(Desk(scripted.address), "web", [b"1", b"2"])
    assert said == (1, ["503 K22 NoRequestYet: 1"])
