"""Three brokers, three desks, and messages that go on while things are killed.

    bash tests/several/several.sh [--short | --rate] [--seed N] [--keep] [--folder DIR] [DESK ..]

runs this in namespaces of its own; DESK are the words of the program, build/desk without them. All
data lie below build/, on a disk, or, of the short test and of `--rate`, in memory, where it is
there: kills do not lose what is there either, and how long it takes does not hang on the disk.
`--rate` only measures how many messages a second go through, also to desks that do nothing but
answer (stub.py); with `--folder build` it measures the disk, whose syncs a desk waits for.
"""

from __future__ import annotations

import argparse
import concurrent.futures
import os
import pathlib
import random
import shutil
import signal
import sys
import tempfile
import time

from tests.common.desk import PROGRAM
from tests.several import faults, first, packaged, poison, rates, verdict
from tests.several.bench import Bench
from tests.several.desks import Desk, wait_for_stores
from tests.several.nodes import ROOT
from tests.several.plan import SHORT, WHOLE
from tests.several.programs import Failure, Programs, programs
from tests.several.relays import Traffic
from tests.several.sites import GHOST, RELAYS, Post

MEMORY = pathlib.Path("/dev/shm")
PATIENCE = 600.0  # seconds: a slow machine takes longer, and is not wrong


def start(bench: Bench) -> None:
    bench.cluster.start(as_installed=True)
    # the account that a new broker makes by itself
    bench.cluster.control("delete_user", "guest")
    faults.mount_small_disk(bench)
    bench.tell("three brokers make a cluster")


def disturb(bench: Bench, seed: int, relays: packaged.Relays) -> None:
    """All faults, some at the same time; what a thread raises is raised here."""
    kinds = (
        relays.kill,
        faults.kill_nodes,
        faults.kill_programs,
        faults.kill_in_flight,
        faults.hold_queue,
        faults.harm_stores,
    )
    with concurrent.futures.ThreadPoolExecutor(len(kinds)) as pool:
        chances = [random.Random(f"{seed} {kind.__name__}") for kind in kinds]
        running = [pool.submit(kind, bench, chance) for kind, chance in zip(kinds, chances)]
        for each in running:
            each.result()


def publish(
    bench: Bench, posts: list[Post], seed: int, relays: packaged.Relays
) -> list[Post]:
    """Publishes them at their pace while things go wrong; those that the broker confirmed."""
    accounts = {relay: bench.account(f"relay-{relay}") for relay in [*RELAYS, GHOST]}
    traffic = Traffic(posts, bench.plan.pace, accounts, bench.folder)
    traffic.start()
    disturb(bench, seed, relays)
    bench.tell("all faults are over" + (", messages go on" if traffic.is_going() else ""))
    traffic.join(PATIENCE)
    bench.tell(f"{len(posts)} messages are published")
    denied = sum(relay.not_confirmed for relay in traffic.relays)
    bench.tell(f"{denied} were not confirmed in time, and published again")
    return traffic.confirmed()


def drain(bench: Bench, wanted: verdict.Wanted) -> None:
    """Waits for what is on its way; desk a is filled again, when b has caught up."""
    b, c = bench.desks["b"], bench.desks["c"]
    wait_for_stores([b, c], wanted.kept, PATIENCE)
    pairs = [f"{name}={bench.listing(name)}" for name in bench.desks]
    _, lacking = bench.compare("messages", *pairs, "--lacking", "a")
    said = bench.fill("a", lacking.encode())
    bench.tell(f"what desk a lacks after it lost its disk comes from the others: {said}")
    verdict.wait_for_queues(bench)
    wait_for_stores(list(bench.desks.values()), wanted.kept, PATIENCE)
    bench.tell("the queues are empty")


def judge(
    bench: Bench, posts: list[Post], confirmed: list[Post], oracle: Desk, wanted: verdict.Wanted
) -> None:
    verdict.check_kinds(bench, wanted)
    lost = verdict.check_stores(bench, confirmed, wanted)
    verdict.check_answers(bench, oracle)
    verdict.check_queues(bench)
    twice = verdict.check_refused(bench, posts, wanted)
    faults.told(bench, "at the end", 0)
    for desk in bench.desks.values():
        bench.checks.same(f"desk {desk.name} ends", desk.program.end(signal.SIGTERM), -15)
        verdict.check_integrity(desk)
    kills = sum(node.kills for node in bench.cluster.nodes)
    others = sum(desk.program.kills for desk in bench.desks.values())
    others += sum(consumer.program.kills for consumer in bench.consumers.values())
    bench.tell(f"killed: brokers {kills}, desks and consumers {others}")
    for name, consumer in bench.consumers.items():
        bench.tell(f"desk {name}: its consumer's longest lag was {consumer.longest_lag()} s")
    bench.tell(f"{twice} refusals were put by once more after a kill")
    bench.tell(f"confirmed by the broker, and lost: {lost}")


def rate(words: argparse.Namespace, folder: pathlib.Path, started: Programs) -> int:
    """The rates alone; 1 where that to three desks is too low."""
    bench = Bench(WHOLE, words.seed, words.desk or PROGRAM, folder, started)
    start(bench)
    rate = rates.measure(bench, bench.site.accepted(3 * WHOLE.rated))
    rates.measure_stubs(bench, bench.site.accepted(WHOLE.rated))
    return 0 if rates.judged(rate) else 1


def run(words: argparse.Namespace, folder: pathlib.Path, started: Programs) -> int:
    plan, program = SHORT if words.short else WHOLE, words.desk or PROGRAM
    bench = Bench(plan, words.seed, program, folder, started)
    bench.tell(f"seed {words.seed}")
    with concurrent.futures.ThreadPoolExecutor(1) as pool:
        posts = bench.site.messages(plan.messages)
        starting = pool.submit(start, bench)
        rated = bench.site.accepted(3 * plan.rated)
        by_hand = bench.site.accepted(poison.COUNT)
        behind = bench.site.accepted(plan.behind)
        kept = bench.site.accepted(packaged.MESSAGES * plan.relay_kills)
        given = [*rated, *by_hand, *behind, *kept, *posts]
        oracle, wanted = verdict.by_one_deliver(bench, given)
        starting.result()
    rates.measure(bench, rated)
    poison.publish(bench, by_hand)
    first.publish(bench, behind)
    relays = packaged.Relays(bench, kept)
    confirmed = publish(bench, posts, words.seed, relays)
    # (what no packaged relay would have asked is not missed)
    left = relays.end(bench)
    bench.fill("b", b"".join(post.body + b"\n" for post in kept if post.body not in left))
    bench.fill("c", b"".join(post.body + b"\n" for post in kept if post.body not in left))
    drain(bench, wanted)
    judge(bench, posts, confirmed, oracle, wanted)
    print(f"{bench.checks.made} checks, {bench.checks.wrong} wrong")
    return 1 if bench.checks.wrong else 0


def arguments() -> argparse.Namespace:
    parser = argparse.ArgumentParser(description="Several desks behind a broker, tested.")
    parser.add_argument("--short", action="store_true", help="one kill of each kind")
    parser.add_argument("--rate", action="store_true", help="only measure how fast it is")
    parser.add_argument("--seed", type=int, default=int(time.time()) % 1_000_000)
    parser.add_argument("--keep", action="store_true", help="leave the folder with all logs")
    parser.add_argument("--folder", type=pathlib.Path, help="where a folder for all data is made")
    parser.add_argument("desk", nargs="*", help="the words of the program, in place of build/desk")
    return parser.parse_args()


def place(words: argparse.Namespace) -> pathlib.Path:
    """Where the data are to lie."""
    if words.folder is not None:
        return pathlib.Path(words.folder)
    if (words.short or words.rate) and MEMORY.is_dir():
        return MEMORY
    (ROOT / "build").mkdir(exist_ok=True)
    return ROOT / "build"


def main() -> int:
    # (the first process of a namespace gets only the signals that it has a handler for)
    signal.signal(signal.SIGTERM, lambda *_: sys.exit(143))
    words = arguments()
    words.desk = words.desk or os.environ.get("DESK", "").split()
    folder = pathlib.Path(tempfile.mkdtemp(prefix="several-", dir=place(words)))
    status, is_whole = 1, False
    try:
        with programs() as started:
            status = (rate if words.rate else run)(words, folder, started)
        # (a rate that is too low leaves nothing to look for in the logs)
        is_whole = words.rate or status == 0
    except Failure as error:
        print(f"FAILED: {error}")
    finally:
        if words.keep or not is_whole:
            print(f"the logs are in {folder}")
        else:
            faults.unmount_small_disk(folder)
            shutil.rmtree(folder)
    return status


if __name__ == "__main__":
    sys.exit(main())
