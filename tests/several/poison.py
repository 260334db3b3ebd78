"""Messages that a relay writes by hand, to stop every desk, to speak as another relay, or to reach
some desks and not others. Their properties are bytes, as AMQP 0-9-1 has them, and pika, which would
refuse to write most of them, only carries them."""

from __future__ import annotations

import signal
import struct
import sys
import time
from collections.abc import Callable

import pika
from desk_broker.definitions import MOST_DELIVERIES
from tests.several.bench import Bench
from tests.several.desks import wait_for_stores
from tests.several.programs import Program, wait_until
from tests.several.sites import RELAYS, Post
from tests.several.verdict import Refusal, read_refused

CONTENT_TYPE, HEADERS, EXPIRATION, USER = 1 << 15, 1 << 13, 1 << 8, 1 << 4
MORE_FLAGS = 1  # says that another word of flags follows
DEEP = 3_000
PATIENCE = 180.0  # seconds: the machine may be busy
# A consumer that fails at one message, wherever the fault would be.
FAILING = """
import sys
from desk_broker import consume
from steelnewt_client import desk
whole = desk.Desk.begin
def begin(self, relay, body):
    if b"FAILS" in body:
        raise RecursionError("for the test")
    return whole(self, relay, body)
desk.Desk.begin = begin
sys.exit(consume.main())
"""


class Written(pika.BasicProperties):
    """Properties whose bytes are given."""

    def __init__(self, written: bytes) -> None:
        super().__init__()
        self.written = written

    def encode(self) -> list[bytes]:
        return [self.written]


def short(text: str | bytes) -> bytes:
    """A short string: its length in a byte, and itself."""
    encoded = text if isinstance(text, bytes) else text.encode("ascii")
    return bytes([len(encoded)]) + encoded


def with_headers(user: str, table: bytes) -> bytes:
    size = struct.pack(">I", len(table))
    return struct.pack(">H", HEADERS | USER) + size + table + short(user)


def far_moment(user: str) -> bytes:
    return with_headers(user, short("sent") + b"T" + b"\xff" * 8)


def deep_lists(user: str) -> bytes:
    value = b""
    for _ in range(DEEP):
        value = b"A" + struct.pack(">I", len(value)) + value
    return with_headers(user, short("deep") + value)


def deep_tables(user: str) -> bytes:
    table = b""
    for _ in range(DEEP):
        table = short("") + b"F" + struct.pack(">I", len(table)) + table
    return with_headers(user, table)


def other_relay(user: str) -> bytes:
    """Who passes over the flag of further flags reads `user`; who does not, another account."""
    hidden = b" \x00" + short("relay-nobody")
    return struct.pack(">H", CONTENT_TYPE | USER | MORE_FLAGS) + short(hidden) + short(user)


def expires(user: str, milliseconds: str) -> bytes:
    return struct.pack(">H", EXPIRATION | USER) + short(milliseconds) + short(user)


def plain(user: str) -> bytes:
    return struct.pack(">H", USER) + short(user)


# Each is a message like any other: what a relay writes beside it decides nothing.
TAKEN: list[Callable[[str], bytes]] = [far_moment, deep_lists, deep_tables, other_relay]
# How many good messages are published: one after each of these, and one after each that fails.
COUNT = 2 * len(TAKEN) + 2


class Hand:
    """A relay's account, by which messages are published with properties of any bytes."""

    def __init__(self, bench: Bench, relay: str) -> None:
        self.bench, self.user = bench, f"relay-{relay}"
        self._connection = connection(bench, self.user)
        self._channel = self._connection.channel()
        self._channel.confirm_delivery()

    def publish(self, written: Callable[[str], bytes], body: bytes) -> None:
        self._channel.basic_publish("desk.messages", "", body, Written(written(self.user)))

    def close(self) -> None:
        self._connection.close()


def connection(bench: Bench, user: str) -> pika.BlockingConnection:
    password = (bench.passwords / user).read_text(encoding="ascii").strip()
    own = pika.PlainCredentials(user, password)
    return pika.BlockingConnection(
        pika.ConnectionParameters("127.0.0.1", bench.cluster.ports[0], credentials=own)
    )


def gather(bench: Bench, count: int) -> set[Refusal]:
    """Takes what was refused off its queue, until there is so much of it."""
    found: set[Refusal] = set()

    def is_whole() -> bool:
        found.update(read_refused(bench))
        return len(found) >= count

    wait_until(f"{count} messages are refused", is_whole, PATIENCE, 0.2)
    return found


def write_by_hand(bench: Bench, hand: Hand, posts: list[Post]) -> None:
    """No desk stops at them, or hears another relay's name, and each desk has each."""
    bodies = [posts.pop().body for _ in range(2 * len(TAKEN))]
    for number, written in enumerate(TAKEN):
        hand.publish(written, bodies[2 * number])
        hand.publish(plain, bodies[2 * number + 1])
    wait_for_stores(list(bench.desks.values()), set(bodies), PATIENCE)
    bench.checks.same("written by hand and refused", read_refused(bench), {})
    bench.tell(f"{len(TAKEN)} messages that pika cannot read are at each desk")


def let_expire(bench: Bench, hand: Hand, relay: str) -> None:
    """What would expire reaches no desk, whether its consumer or its end comes first: one desk's
    consumer is away."""
    away = bench.consumers["a"]
    away.program.end(signal.SIGTERM)
    bodies = [b"soon", b"later"]
    for body, time_to_live in zip(bodies, ("100", "600000")):
        hand.publish(lambda user, after=time_to_live: expires(user, after), body)
    wanted = {Refusal(desk, relay, "C2 Expires", body) for desk in bench.desks for body in bodies}
    found = gather(bench, len(wanted) - 1)
    away.start()
    found |= gather(bench, len(wanted) - len(found))
    bench.checks.same("what expires", found, wanted)


def fail_twice(bench: Bench, hand: Hand, relay: str, post: Post) -> None:
    """A message at which one desk's consumer fails is put by, and the next one is taken."""
    name, consumer = "b", bench.consumers["b"]
    consumer.program.end(signal.SIGTERM)
    environment = bench.account(f"desk-{name}")
    environment |= {"DESK_NAME": name, "DESK_URL": bench.desks[name].address}
    words, log = [sys.executable, "-c", FAILING], bench.folder / "failing.out"
    failing = bench.started.add(Program("a failing consumer", words, environment, log))
    failing.start()
    hand.publish(plain, b"FAILS")
    hand.publish(plain, post.body)
    wait_for_stores(list(bench.desks.values()), {post.body}, PATIENCE)
    codes = {desk: "C3 Fails" if desk == name else "M2 NotCanonical" for desk in bench.desks}
    wanted = {Refusal(desk, relay, code, b"FAILS") for desk, code in codes.items()}
    bench.checks.same("what fails twice", gather(bench, len(wanted)), wanted)
    said = failing.text().count("failed at a message")
    bench.checks.same("how often its consumer failed", said, 2)
    failing.end(signal.SIGTERM)
    consumer.start()


def give_back(bench: Bench, hand: Hand, relay: str, post: Post) -> None:
    """A message whose consumer ends each time is put by by the broker, and the next one comes."""
    consumer = bench.consumers["c"]
    consumer.program.end(signal.SIGTERM)
    hand.publish(plain, b"ends its consumer")
    hand.publish(plain, post.body)
    taker = connection(bench, "desk-c")
    channel = taker.channel()
    until, returned = time.monotonic() + PATIENCE, 0
    while time.monotonic() < until:
        method, _, body = channel.basic_get("desk.c")
        if method is not None and body == post.body:
            channel.basic_nack(method.delivery_tag)
            break
        if method is not None:
            channel.basic_nack(method.delivery_tag)
            returned += 1
    taker.close()
    bench.checks.same("deliveries before it is put by", returned, MOST_DELIVERIES + 1)
    consumer.start()
    wait_for_stores(list(bench.desks.values()), {post.body}, PATIENCE)
    codes = {desk: "C3 Fails" if desk == "c" else "M2 NotCanonical" for desk in bench.desks}
    wanted = {Refusal(desk, relay, code, b"ends its consumer") for desk, code in codes.items()}
    bench.checks.same("what the broker puts by", gather(bench, len(wanted)), wanted)


def publish(bench: Bench, posts: list[Post]) -> None:
    """All of them, one kind after the other, while three desks and their consumers run."""
    left, relay = list(posts), RELAYS[0]
    hand = Hand(bench, relay)
    write_by_hand(bench, hand, left)
    let_expire(bench, hand, relay)
    fail_twice(bench, hand, relay, left.pop())
    give_back(bench, hand, relay, left.pop())
    hand.close()
    bench.tell("what expires, fails twice or ends its consumer is put by, and the next is taken")
