"""How many messages a second go from a relay to one, two and three desks, and to a desk alone."""

from __future__ import annotations

import resource
import signal
import sys
import time

from desk_broker.flight import POSTS, Acks, Delivery, Flight
from desk_broker.tally import Tally
from steelnewt_client.codes import Fate
from steelnewt_client.desk import plain_desk
from tests.several import stub
from tests.several.bench import Bench
from tests.several.desks import Desk, Files
from tests.several.programs import Failure
from tests.several.relays import Traffic
from tests.several.sites import RELAYS, Post

NAMES = ["a", "b", "c"]
PATIENCE = 600.0  # seconds
QUIET = 0.2  # seconds without a post on its way, after which a desk is asked what it holds
LEAST = 1_500  # messages a second, to each of three desks


def exchange(desk: Desk, body: bytes) -> bytes:
    """A post over a connection of its own, by nothing but a socket."""
    head = b"POST /v1/relays/%s/messages HTTP/1.1\r\nHost: desk\r\nContent-Length: %d\r\n\r\n"
    with desk.connected(60) as peer:
        peer.sendall(head % (RELAYS[0].encode(), len(body)) + body)
        whole = b""
        while piece := peer.recv(65_536):
            whole += piece
    return whole


def one_by_one(desk: Desk, posts: list[Post]) -> None:
    for post in posts:
        if not exchange(desk, post.body).endswith(b"\r\n\r\nack\n"):
            raise Failure("the desk alone does not acknowledge")


def at_once(desk: Desk, posts: list[Post]) -> None:
    """As a consumer posts them, without a broker."""
    flight, acks = Flight(desk.name, plain_desk(desk.address), Tally(desk.name)), Acks()
    for tag, post in enumerate(posts, 1):
        acks.begin(tag)
        flight.begin(Delivery(tag, post.relay, post.body, None))
    left = len(posts)
    while left:
        flight.go_on(1.0)
        for delivery, answer in flight.done():
            if answer.fate is not Fate.TAKEN:
                raise Failure(f"the desk alone does not acknowledge: {answer.said}")
            acks.settle(delivery.tag)
            left -= 1
        acks.due()
        flight.acknowledged(acks.passed)
    flight.end()


def tell_alone(bench: Bench, posts: list[Post]) -> None:
    """What a desk takes that no broker stands before, in messages a second."""
    desk = Desk("alone", bench.files, bench.folder, bench.started, bench.plain)
    desk.start()
    ways = (("one post after the other", one_by_one), (f"{POSTS} posts at once", at_once))
    for how, post_all in ways:
        begun = time.monotonic()
        post_all(desk, posts)
        rate = len(posts) / (time.monotonic() - begun)
        desk.lose_store()
        bench.tell(f"a desk alone, {how}: {rate:.0f} messages a second")


def held_at(wanted: dict[Desk, int]) -> float:
    """When the last post came to its end, after which all desks hold so many messages.

    (After each new message a desk counts all that it has by reading it, so one that is asked again
    and again does little else. It is asked when no post is on its way to it.)
    """
    begun = last = time.monotonic()
    while (now := time.monotonic()) - begun < PATIENCE:
        if any(desk.in_flight() for desk in wanted):
            last = now
        elif now - last > QUIET:
            if all(desk.count() >= count for desk, count in wanted.items()):
                return last
            last = now
        time.sleep(0.01)
    raise Failure(f"after {PATIENCE:g} s not all desks hold what was confirmed")


def through(bench: Bench, posts: list[Post]) -> tuple[float, float]:
    """Messages a second: that are confirmed, and that all desks hold, from the first confirmed.

    (A relay's program takes a while to start.)
    """
    accounts = {relay: bench.account(f"relay-{relay}") for relay in RELAYS}
    new = len({post.body for post in posts})
    wanted = {desk: desk.count() + new for desk in bench.desks.values()}
    traffic = Traffic(posts, 0.0, accounts, bench.folder)
    traffic.start()
    traffic.join(PATIENCE)
    begun = min(relay.first_at for relay in traffic.relays)
    confirmed = time.monotonic() - begun
    return len(posts) / confirmed, len(posts) / (held_at(wanted) - begun)


def spent(bench: Bench) -> list[float]:
    """The processor time of the brokers, of the consumers, of the desks, and of the relays that
    have ended, up to now."""
    consumers = [consumer.program for consumer in bench.consumers.values()]
    desks = [desk.program for desk in bench.desks.values()]
    kinds = (bench.cluster.nodes, consumers, desks)
    ended = resource.getrusage(resource.RUSAGE_CHILDREN)
    return [
        *(sum(one.processor() for one in kind) for kind in kinds), ended.ru_utime + ended.ru_stime
    ]


def tell_rates(bench: Bench, posts: list[Post], what: str) -> float:
    """What comes through to all desks, in messages a second."""
    before = spent(bench)
    confirmed, held = through(bench, posts)
    costs = [(now - old) / len(posts) * 1000 for old, now in zip(before, spent(bench))]
    bench.tell(
        f"through the broker to each of {what}: {held:.0f} messages a second; {confirmed:.0f} a"
        " second are confirmed"
    )
    bench.tell(
        f"  each took {costs[0]:.2f} ms of the brokers' processors, {costs[1]:.2f} of the"
        f" consumers', {costs[2]:.2f} of the desks', {costs[3]:.2f} of the relays'"
    )
    return held


def judged(rate: float) -> bool:
    """Prints the rate to three desks beside the promised one; returns whether it holds."""
    holds = rate >= LEAST
    print(
        f"through the broker to each of 3 desks, messages a second: {rate:,.0f}, at least"
        f" {LEAST:,}: {'holds' if holds else 'FAILS'}"
    )
    return holds


def measure(bench: Bench, posts: list[Post]) -> float:
    """Starts one desk after the other, and tells the rates, each of a third of the messages; the
    last one."""
    rate = 0.0
    # (a desk that has a message already would be waited for in vain)
    posts = list({post.body: post for post in posts}.values())
    for count in range(1, len(NAMES) + 1):
        bench.define(NAMES[:count])
        name = NAMES[count - 1]
        bench.new_desk(name).start()
        bench.new_consumer(name).start()
        # (one after the other: a verdict whose request is in another part would be parked, and
        # each request that comes later is looked for among all that are)
        first, last = (len(posts) * number // len(NAMES) for number in (count - 1, count))
        some = posts[first:last]
        if count == 1:
            tell_alone(bench, some)
        rate = tell_rates(bench, some, f"{count} desks")
    return rate


def measure_stubs(bench: Bench, posts: list[Post]) -> None:
    """The same with programs in the desks' places that take no time: what the rest can do."""
    words = [sys.executable, stub.__file__]
    roster = bench.files.roster.read_text(encoding="utf-8")
    files = Files(words, bench.folder, roster, bench.files.base.read_text(encoding="utf-8"))
    for name, desk in list(bench.desks.items()):
        desk.program.end(signal.SIGKILL)
        bench.desks[name] = Desk(name, files, bench.folder, bench.started, bench.plain)
        bench.desks[name].start()
    tell_rates(bench, posts, f"{len(bench.desks)} desks that only answer")
