"""What takes rights away has a queue of its own: a desk that takes nothing else is posted it."""

from __future__ import annotations

import signal
import sys

from desk_broker import names
from relays.tests.recorder import Recorder
from tests.several.bench import Bench
from tests.several.desks import wait_for_stores
from tests.several.programs import Program, wait_until
from tests.several.sites import RELAYS, Post

PATIENCE = 900.0  # seconds: the machine may be busy
FULL = "503 Unavailable\r\nContent-Length: 11\r\nConnection: close\r\n\r\nK4 Storage\n"


def publish(bench: Bench, posts: list[Post]) -> None:
    """The consumer of one desk is away while all else is published, and behind it what takes
    rights away. The first of these is the first that the desk is posted then; it takes nothing, and
    the head of each queue is all that it is asked."""
    bodies = {post.body for post in posts}
    last = sorted(it for it in bodies if names.exchange_of(it) == names.FIRST)
    rest = sorted(bodies - set(last))
    bench.checks.same("some take rights away, and more do not", 0 < len(last) < len(rest), True)
    consumer = bench.consumers["a"]
    consumer.program.end(signal.SIGTERM)
    words = [sys.executable, "-m", "desk_broker.publish", RELAYS[0]]
    publisher = bench.publish(words, [*rest, *last])
    bench.checks.same("all are confirmed", publisher, {"confirmed"})
    desk = Recorder(bench.folder / "full.sock", lambda _: FULL)
    environment = bench.account("desk-a") | {"DESK_NAME": "a", "DESK_URL": desk.url}
    words, log = [sys.executable, "-m", "desk_broker.consume"], bench.folder / "full.out"
    other = bench.started.add(Program("a consumer of a full desk", words, environment, log))
    other.start()
    wait_until("both queues' heads are posted", lambda: len(kinds(desk)) > 1, PATIENCE)
    other.end(signal.SIGTERM)
    desk.close()
    bench.checks.same("what comes first", desk.posted[0]["kind"] in ("refuse", "revoke"), True)
    bench.checks.same("how many of all were posted", len(kinds(desk)), 2)
    consumer.start()
    wait_for_stores(list(bench.desks.values()), bodies, PATIENCE)
    bench.tell(f"{len(last)} that take rights away, published behind {len(rest)}, come first")


def kinds(desk: Recorder) -> set[str]:
    """The messages that were posted, each once."""
    return {str(sorted(it.items())) for it in desk.posted}
