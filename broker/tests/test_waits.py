"""Waits double and are bounded; the log has a line now and then."""

from __future__ import annotations

import logging
import random

import pytest
from desk_broker.backoff import Backoff
from desk_broker.tally import Tally


def test_waits_double_up_to_the_most() -> None:
    backoff = Backoff(0.1, 5.0, random.Random(1))
    waits = [backoff.next() for _ in range(60)]
    for n, wait in enumerate(waits):
        whole = min(5.0, 0.1 * 2**n)
        assert whole / 2 <= wait <= whole
    backoff.reset()
    assert backoff.next() <= 0.1


def test_a_line_when_it_is_due_and_something_happened(caplog: pytest.LogCaptureFixture) -> None:
    now = [0.0]
    with caplog.at_level(logging.INFO):
        tally = Tally("a", 30.0, lambda: now[0])
        tally.done(True, 2.0)
        tally.done(False, 7.5)
        assert caplog.records == []
        now[0] = 31.0
        tally.tell_if_due()
        tally.tell_if_due()
        now[0] = 62.0
        tally.tell_if_due()
    said = [record.getMessage() for record in caplog.records]
    assert said == ["desk a: 1 taken, 1 refused, 0 tries again; the longest lag 7.5 s"]
