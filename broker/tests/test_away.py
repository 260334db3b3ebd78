"""A broker that is not there, or takes connections and says nothing."""

from __future__ import annotations

import logging
import socket
import threading
import time
from collections.abc import Iterator

import pytest
from desk_broker.consume import Consumer
from desk_broker.outbox import NotConfirmed
from desk_broker.publish import Publisher
from desk_broker.settings import Broker
from steelnewt_client.desk import Desk
from tests.common.ports import free_port

# a resolver that does not answer takes its time to say so
PATIENCE = 120


@pytest.fixture(params=["nobody", "silent", "no name"])
def broker(request: pytest.FixtureRequest) -> Iterator[Broker]:
    if request.param == "silent":
        with socket.create_server(("127.0.0.1", 0)) as server:
            port = server.getsockname()[1]
            yield Broker([("127.0.0.1", port)], "desk-a", "secret", patience=0.3)
        return
    host = "127.0.0.1" if request.param == "nobody" else "no.such.host.invalid"
    yield Broker([(host, free_port())], "desk-a", "secret", patience=0.3)


def test_a_consumer_goes_on_trying_and_ends_when_asked(
    broker: Broker, caplog: pytest.LogCaptureFixture
) -> None:
    consumer = Consumer("a", Desk("http://127.0.0.1:1"), broker)
    with caplog.at_level(logging.INFO):
        thread = threading.Thread(target=consumer.run)
        thread.start()
        until = time.monotonic() + PATIENCE
        while caplog.text.count("the broker is away") < 2 and time.monotonic() < until:
            time.sleep(0.02)
        assert thread.is_alive()
        consumer.stop()
        thread.join(PATIENCE)
    assert not thread.is_alive()
    assert caplog.text.count("the broker is away") >= 2
    assert "desk a: ended" in caplog.text


def test_a_publisher_confirms_nothing(broker: Broker) -> None:
    with Publisher(broker) as publisher, pytest.raises(NotConfirmed, match="within 0.5 s"):
        publisher.publish(b"{}", patience=0.5)
