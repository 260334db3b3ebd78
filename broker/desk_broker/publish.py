"""What a relay publishes with: a message is on most of the broker's disks before it is answered.

    from desk_broker.outbox import NotConfirmed
    from desk_broker.publish import Publisher
    from desk_broker.settings import Broker, told

    broker = Broker.read(told(os.environ), "relay-chat")  # BROKERS, BROKER_CA, BROKER_PASSWORD_FILE
    with Publisher(broker) as publisher:
        publisher.publish(body)          # returns when it is confirmed, or raises NotConfirmed

After NotConfirmed the message may be there or not: publish it again, a repeat changes nothing.
As a program it reads messages from the standard input, one a line, and answers each in order:
`confirmed`, or `not confirmed` and why, with status 1 where any is not.
"""

from __future__ import annotations

import argparse
import concurrent.futures
import logging
import os
import queue
import sys
import threading
from collections.abc import Iterable, Iterator

import pika
from pika.channel import Channel

from desk_broker import names
from desk_broker.backoff import Backoff
from desk_broker.outbox import NotConfirmed, Outbox, Sent
from desk_broker.settings import BadSettings, Broker, told

LOG = logging.getLogger("desk-publish")
WINDOW = 256
AFTER_DENIAL = 0.2  # seconds
HEARTBEAT = 20  # seconds


class Publisher:
    """Publishes to the exchanges of messages, over one connection at a time, in a thread of its own.

    When a connection breaks, what was not confirmed is published again over the next one.
    """

    def __init__(self, broker: Broker) -> None:
        self._broker = broker
        self._outbox, self._backoff = Outbox(WINDOW), Backoff(0.1, 5.0)
        self._channel: Channel | None = None
        self._connection: pika.SelectConnection | None = None
        self._lock = threading.Lock()  # of the connection, which other threads wake
        self._is_woken = False  # and has not heard it yet
        self._closing = threading.Event()
        self._thread = threading.Thread(target=self._run, name="desk-publish", daemon=True)
        self._thread.start()

    def __enter__(self) -> Publisher:
        return self

    def __exit__(self, *_: object) -> None:
        self.close()

    def publish(self, body: bytes, patience: float = 30.0) -> None:
        """Returns when a majority of the broker's nodes has the message on its disk."""
        wait_for(self.submit(body), patience)

    def submit(self, body: bytes) -> concurrent.futures.Future[None]:
        """Gives a message to be published; the future tells when it is confirmed."""
        sent = Sent(body)
        self._outbox.give(sent)
        self._wake()
        return sent.confirmed

    def close(self) -> None:
        """Ends the connection; what is not confirmed by now stays so."""
        self._closing.set()
        self._wake()
        self._thread.join(20)

    def _wake(self) -> None:
        """One wake is for all that is given before it is heard."""
        with self._lock:
            if self._connection is not None and not self._is_woken:
                self._connection.ioloop.add_callback_threadsafe(self._go_on)
                self._is_woken = True

    # All below runs in the thread of the connection.

    def _run(self) -> None:
        turn = self._broker.first_turn()
        while not self._closing.is_set():
            connection = pika.SelectConnection(
                self._broker.parameters(turn, HEARTBEAT),
                on_open_callback=lambda it: it.channel(on_open_callback=self._channel_opened),
                on_open_error_callback=self._lost,
                on_close_callback=self._lost,
            )
            with self._lock:
                self._connection = connection
            self._go_on()
            try:
                connection.ioloop.start()
            except Exception:
                # (the next connection sends again what this one left)
                LOG.exception("the connection failed")
                self._channel = None
            with self._lock:
                self._connection = None
            connection.ioloop.close()
            turn += 1
            self._closing.wait(self._backoff.next())

    def _channel_opened(self, channel: Channel) -> None:
        channel.add_on_close_callback(self._channel_closed)
        channel.add_on_return_callback(self._returned)
        channel.confirm_delivery(self._confirmed, callback=lambda _: self._ready(channel))

    def _ready(self, channel: Channel) -> None:
        self._channel = channel
        self._backoff.reset()
        self._outbox.begin()
        self._go_on()

    def _channel_closed(self, channel: Channel, error: Exception) -> None:
        self._channel = None
        if channel.connection.is_open:
            LOG.warning("the broker closed the channel: %s", str(error)[:200])
            channel.connection.close()

    def _lost(self, connection: pika.SelectConnection, error: Exception) -> None:
        if not self._closing.is_set():
            LOG.warning("the broker is away: %s", str(error)[:200])
        self._channel = None
        connection.ioloop.stop()

    def _go_on(self) -> None:
        """Sends what was given, as far as the window has room; or ends."""
        with self._lock:
            self._is_woken = False
        if self._closing.is_set():
            self._end()
        while self._channel is not None and (taken := self._outbox.take()) is not None:
            number, sent = taken
            properties = self._properties(number, sent)
            self._channel.basic_publish(sent.exchange, "", sent.body, properties, mandatory=True)

    def _properties(self, number: int, sent: Sent) -> pika.BasicProperties:
        return pika.BasicProperties(
            delivery_mode=2,
            user_id=self._broker.user,
            message_id=str(number),
            content_type="application/json",
            headers={"sent-ms": sent.sent_ms},
        )

    def _returned(
        self, _: Channel, __: object, properties: pika.BasicProperties, ___: bytes
    ) -> None:
        self._outbox.unroutable(int(properties.message_id))

    def _confirmed(self, frame: pika.frame.Method) -> None:
        method = frame.method
        if isinstance(method, pika.spec.Basic.Nack):
            LOG.warning("the broker could not keep a message; it is sent again")
            self._outbox.deny(method.delivery_tag, method.multiple)
            if self._connection is not None:
                self._connection.ioloop.call_later(AFTER_DENIAL, self._go_on)
        else:
            self._outbox.confirm(method.delivery_tag, method.multiple)
            self._go_on()

    def _end(self) -> None:
        connection, self._channel = self._connection, None
        if connection is not None and connection.is_open:
            connection.close()
        elif connection is not None and not connection.is_closing:
            connection.ioloop.stop()


def wait_for(confirmed: concurrent.futures.Future[None], patience: float) -> None:
    try:
        confirmed.result(patience)
    except concurrent.futures.TimeoutError as error:
        confirmed.cancel()
        raise NotConfirmed(f"not confirmed within {patience:g} s") from error


def publish_all(
    publisher: Publisher, bodies: Iterable[bytes], patience: float
) -> Iterator[NotConfirmed | None]:
    """Publishes many, some of them at once; for each in order: what failed, or None."""
    waiting: queue.Queue[concurrent.futures.Future[None] | None] = queue.Queue(WINDOW)

    def give() -> None:
        try:
            for body in bodies:
                waiting.put(publisher.submit(body))
        finally:
            waiting.put(None)

    threading.Thread(target=give, daemon=True).start()
    while (confirmed := waiting.get()) is not None:
        try:
            wait_for(confirmed, patience)
        except NotConfirmed as error:
            yield error
        else:
            yield None


def main() -> int:
    about = "Publishes messages, one a line, as a relay."
    parser = argparse.ArgumentParser("desk-publish", description=about)
    parser.add_argument("relay", metavar="RELAY", help="the relay's name, as the roster has it")
    said = "how long each message may take (30)"
    parser.add_argument("--patience", type=float, default=30.0, metavar="SECONDS", help=said)
    words = parser.parse_args()
    logging.basicConfig(level=logging.INFO, format="%(levelname)s %(message)s", stream=sys.stderr)
    logging.getLogger("pika").setLevel(logging.CRITICAL)
    try:
        broker = Broker.read(told(os.environ), names.RELAY_USER + names.label(words.relay))
    except (BadSettings, ValueError) as error:
        print(f"desk-publish: {error}", file=sys.stderr)
        return 2
    status = 0
    with Publisher(broker) as publisher:
        lines = (line.rstrip(b"\n") for line in sys.stdin.buffer)
        for failed in publish_all(publisher, lines, words.patience):
            print("confirmed" if failed is None else f"not confirmed: {failed}", flush=True)
            status = status if failed is None else 1
    return status


if __name__ == "__main__":
    sys.exit(main())
