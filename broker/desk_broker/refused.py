"""Prints the messages that desks refused, each as a line of JSON: body, code, desk, relay.

    desk-refused          # leaves them in the queue
    desk-refused --take   # takes each off the queue, once it is printed

A byte of a body that is no UTF-8 is printed as `\\udcXX`. The headers of what a desk's consumer put
by are the consumer's. What the broker itself put there, because it expired or was given out too
often, has its relay's headers still: there only the broker's word counts.
"""

from __future__ import annotations

import argparse
import json
import os
import sys
from collections.abc import Iterator

import pika

from desk_broker import names, reading
from desk_broker.settings import AWAY, BadSettings, Broker, told

QUIET = 2.0  # seconds without a message: the queue is empty


def line(properties: pika.BasicProperties, body: bytes) -> str:
    if str(properties.user_id).startswith(names.DESK_USER):
        headers = properties.headers or {}
        told = {name: str(headers.get(name, "")) for name in ("code", "desk", "relay")}
    else:
        told = by_broker(properties)
    told["body"] = body.decode("utf-8", "surrogateescape")
    return json.dumps(told, sort_keys=True)


def by_broker(properties: pika.BasicProperties) -> dict[str, str]:
    """What the broker says of a message that it put by itself. The first entry of x-death is the
    latest, and so the broker's; where the headers cannot be read the desk is not known."""
    deaths = (properties.headers or {}).get("x-death")
    death = deaths[0] if isinstance(deaths, list) and deaths else {}
    death = death if isinstance(death, dict) else {}
    return {
        "code": names.EXPIRES if death.get("reason") == "expired" else names.FAILS,
        "desk": names.desk_of(str(death.get("queue", ""))) or "",
        "relay": names.relay_of(properties.user_id) or "",
    }


def body_of(told: dict[str, str]) -> bytes:
    """The body of a line that was read, byte for byte."""
    return told["body"].encode("utf-8", "surrogateescape")


def lines(broker: Broker, take: bool) -> Iterator[str]:
    """A line for each message; it is off the queue when the next one is asked for."""
    connection = pika.BlockingConnection(broker.parameters(broker.first_turn(), 60))
    try:
        channel = connection.channel()
        for method, properties, body in channel.consume(names.REFUSED, inactivity_timeout=QUIET):
            if method is None:
                break
            yield line(properties, body)
            if take:
                channel.basic_ack(method.delivery_tag)
    finally:
        if connection.is_open:
            connection.close()


def main() -> int:
    about = "Prints the messages that desks refused."
    parser = argparse.ArgumentParser("desk-refused", description=about)
    parser.add_argument("--take", action="store_true", help="take them off the queue")
    words = parser.parse_args()
    reading.install()
    try:
        broker = Broker.read(told(os.environ), names.READER)
        for each in lines(broker, words.take):
            print(each, flush=True)
    except (BadSettings, *AWAY) as error:
        print(f"desk-refused: {type(error).__name__} {error}", file=sys.stderr)
        return 1
    return 0


if __name__ == "__main__":
    sys.exit(main())
