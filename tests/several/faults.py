"""What goes wrong while messages are published. Every kill is by a process id."""

from __future__ import annotations

import contextlib
import os
import pathlib
import random
import signal
import time
import typing

from desk_broker.flight import POSTS
from tests.several.bench import Bench
from tests.several.desks import Consumer, Desk
from tests.several.nodes import COUNT
from tests.several.programs import Failure, wait_until

SIZE = "96m"  # of the small disk


def pause(chance: random.Random, least: float, most: float) -> None:
    time.sleep(chance.uniform(least, most))


def kill_nodes(bench: Bench, _: random.Random) -> None:
    """One that leads few or none of the desks' queues, the leaders of some, and two at once."""
    queues = bench.cluster.queues()
    leading = [queues[f"desk.{name}"].leader for name in bench.desks]
    least = min(range(COUNT), key=leading.count)
    kill_nodes_at_once(bench, [least], "the node that leads fewest queues")
    for name in list(bench.desks)[: bench.plan.leader_kills]:
        queue = f"desk.{name}"
        kill_nodes_at_once(bench, [bench.cluster.queues()[queue].leader], f"the leader of {queue}")
    if bench.plan.majority:
        leader = bench.cluster.queues()["desk.c"].leader
        two = [leader, (leader + 1) % COUNT]
        kill_nodes_at_once(bench, two, "the leader of desk.c and another, so the majority,")


def kill_nodes_at_once(bench: Bench, numbers: list[int], what: str) -> None:
    names = " ".join(f"b{number + 1}" for number in numbers)
    bench.tell(f"{what} is killed: {names}")
    for number in numbers:
        bench.cluster.kill(number)
    time.sleep(bench.plan.down)
    for number in numbers:
        bench.cluster.nodes[number].start()
    for number in range(COUNT):
        bench.cluster.wait_for(number)
    # the next kill must not take the majority away
    wait_until("all nodes have every queue", lambda: is_whole(bench), 300, 1.0)
    bench.tell(f"{names} is back, and has every queue")


def is_whole(bench: Bench) -> bool:
    try:
        queues = bench.cluster.queues()
    except Failure:
        return False  # no node can say so yet
    return all(queue.replicas == COUNT for queue in queues.values())


def kill_programs(bench: Bench, chance: random.Random) -> None:
    """Each desk and each consumer, at random moments."""
    victims: list[Desk | Consumer] = []
    for name in bench.desks:
        victims += [bench.desks[name]] * bench.plan.desk_kills
        victims += [bench.consumers[name]] * bench.plan.consumer_kills
    chance.shuffle(victims)
    for victim in victims:
        pause(chance, 0.5, 2.5)
        victim.restart(signal.SIGKILL, chance.uniform(0.0, 1.5))
    bench.tell(f"{len(victims)} kills of desks and consumers are done")


def kill_in_flight(bench: Bench, _: random.Random) -> None:
    """The consumer of desk a, and then the desk, are killed with several posts in flight."""
    desk, consumer = bench.desks["a"], bench.consumers["a"]
    victims: list[tuple[Desk | Consumer, str]] = [(consumer, "consumer"), (desk, "desk")]
    for victim, what in victims:
        with desk.lock, consumer.lock:
            stand_still_in_flight(desk)
            try:
                victim.program.end(signal.SIGKILL)
            finally:
                desk.program.send(signal.SIGCONT)
            victim.start()
        bench.tell(f"a {what} was killed with {POSTS} posts in flight")


def stand_still_in_flight(desk: Desk) -> None:
    """The desk stands still with as many posts on their way as there can be. Where too few come
    for some seconds, as while the broker's nodes are killed, it goes on for a while: a post that
    gets no answer is tried again alone, and no other begins meanwhile."""
    until = time.monotonic() + 240
    while time.monotonic() < until:
        desk.program.send(signal.SIGSTOP)
        try:
            wait_until("posts are in flight", lambda: desk.in_flight() >= POSTS, 3)
            return
        except Failure:
            desk.program.send(signal.SIGCONT)
            time.sleep(2)
    raise Failure(f"there were never {POSTS} posts in flight")


def harm_stores(bench: Bench, chance: random.Random) -> None:
    """Two desks that joined late are filled; a disk is full; a disk is lost."""
    join_late(bench)
    fill_disk(bench, chance)
    lose_disk(bench)


def join_late(bench: Bench) -> None:
    """Desks b and c began later than a: they get what a held before, while messages go on."""
    lines = bench.listing("a").read_bytes()
    for name in ("b", "c"):
        bench.tell(f"desk {name}, which joined later, is filled from a: {bench.fill(name, lines)}")


def fill_disk(bench: Bench, chance: random.Random) -> None:
    """The disk of desk b is full for a while.

    Its consumer is killed meanwhile, each time with a message at hand that the desk did not take.
    """
    consumer, path = bench.consumers["b"], bench.desks["b"].folder / "filler"
    pause(chance, 1, 3)
    bench.tell("the disk of desk b is full")
    until = time.monotonic() + bench.plan.full
    seen = 0
    with open(path, "wb", buffering=0) as filler:
        # (a log that has been longer takes messages without more room: on a slow machine for long)
        while (now := time.monotonic()) < until or (seen == 0 and now < until + 30):
            write_all(filler)
            time.sleep(0.05)
            if (count := consumer.program.text().count("503 K4 Storage")) > seen + 2:
                consumer.restart(signal.SIGKILL, 0.0)
                seen = count
    path.unlink()
    bench.checks.same("the consumer of desk b saw the full disk", seen > 0, True)
    bench.tell(f"the disk of desk b has room; its consumer saw {seen} refusals with K4")


def write_all(filler: typing.BinaryIO) -> None:
    """Writes until the disk is full."""
    with contextlib.suppress(OSError):
        while True:
            filler.write(bytes(4096))


def hold_queue(bench: Bench, _: random.Random) -> None:
    """The queue of desk c is held: its consumer ends, and comes back later."""
    consumer = bench.consumers["c"]
    with consumer.lock:
        status = consumer.program.end(signal.SIGTERM)
        bench.checks.same("a consumer ends cleanly by SIGTERM", status, 0)
        said = consumer.program.text().splitlines()[-1]
        bench.checks.same("its last line", said, "INFO desk c: ended")
        bench.tell("the queue of desk c is held")
        time.sleep(bench.plan.held)
        told(bench, "while a queue is held", 1)
        wait_until("desk-check-queues finds the held queue", lambda: finds_held(bench), 300, 1.0)
        consumer.start()
    bench.tell("the queue of desk c is delivered")


def finds_held(bench: Bench) -> bool:
    """Whether the check of the queues tells of it, as soon as a broker can be asked."""
    try:
        return "desk.c: no consumer: its desk gets nothing" in bench.check_queues()
    except Failure:
        return False


def told(bench: Bench, when: str, wanted: int) -> None:
    """What the check that compares desks finds of their messages."""
    pairs = [f"{name}={bench.listing(name)}" for name in bench.desks]
    status, said = bench.compare("messages", *pairs)
    bench.checks.same(f"desk-compare {when}: {said}", status, wanted)


def lose_disk(bench: Bench) -> None:
    """Desk a loses its disk, and is filled from desk b's store while messages go on."""
    desk = bench.desks["a"]
    before = len(desk.held())
    desk.lose_store()
    bench.tell(f"desk a lost its disk, with {before} messages")
    bench.tell(f"desk a is filled from desk b: {bench.fill('a', bench.listing('b').read_bytes())}")


def mount_small_disk(bench: Bench) -> None:
    """Puts desk b's store onto a small disk, in the mount namespace of the test alone."""
    folder = bench.folder / "b"
    folder.mkdir()
    words = ["mount", "-t", "tmpfs", "-o", f"size={SIZE},mode=0700", "tmpfs", str(folder)]
    if os.spawnvp(os.P_WAIT, "mount", words) != 0:
        raise SystemExit("the small disk of desk b cannot be mounted: this needs root")


def unmount_small_disk(folder: pathlib.Path) -> None:
    """Takes it away again, or the folder could not be removed. Lazily: a file of it that somebody
    still has open is no reason to leave the folder behind."""
    os.spawnvp(os.P_WAIT, "umount", ["umount", "--lazy", str(folder / "b")])
