"""A desk is killed with as many posts in flight as there can be: nothing is lost, and while it is
away one post alone asks for it. (Its place has tests/several/stub.py.)"""

from __future__ import annotations

import os
import signal
import subprocess
import sys
import time
from collections.abc import Callable
from pathlib import Path

from desk_broker.flight import POSTS, Delivery, Flight
from desk_broker.tally import Tally
from steelnewt_client.codes import Answer
from steelnewt_client.desk import Desk as Address
from tests.several import stub
from tests.several.desks import Desk

PATIENCE = 60


class Stub(Desk):
    """A program in a desk's place, at the socket of a path."""

    def __init__(self, path: Path) -> None:
        self.socket = path

    def start(self) -> None:
        words = [sys.executable, stub.__file__, "serve", "-", "-", "-", self.address]
        self.process = subprocess.Popen(words)
        wait_until(self.is_listening)


def wait_until(is_so: Callable[[], bool]) -> None:
    until = time.monotonic() + PATIENCE
    while not is_so() and time.monotonic() < until:
        time.sleep(0.05)
    assert is_so()


def test_a_desk_is_killed_with_posts_in_flight(tmp_path: Path) -> None:
    desk, tally = Stub(tmp_path / "desk.sock"), Tally("a")
    answers: list[tuple[Delivery, Answer]] = []
    desk.start()
    os.kill(desk.process.pid, signal.SIGSTOP)
    flight = Flight("a", Address(desk.address), tally)
    for tag in range(1, 4 * POSTS + 1):
        flight.begin(Delivery(tag, "web", b"%d" % tag, None))
    flight.go_on(0.1)
    wait_until(lambda: desk.in_flight() >= POSTS)
    desk.process.kill()
    desk.process.wait()

    def is_so_far(is_so: Callable[[], bool]) -> bool:
        flight.go_on(0.05)
        answers.extend(flight.done())
        flight.acknowledged(len(answers))
        return is_so()

    wait_until(lambda: is_so_far(lambda: tally.tried_again >= 3))
    desk.start()
    wait_until(lambda: is_so_far(lambda: len(answers) == 4 * POSTS))
    assert {answer.said for _, answer in answers} == {"ack"}
    assert len({given.tag for given, _ in answers}) == 4 * POSTS
    assert desk.count() == 4 * POSTS
    flight.end()
    desk.process.kill()
    desk.process.wait()
