"""What has to hold when all messages have arrived."""

from __future__ import annotations

import concurrent.futures
import contextlib
import dataclasses
import json
import sqlite3
import subprocess
import sys
import time
from collections import Counter

from desk_broker import names, refused
from tests.several.bench import Bench
from tests.several.desks import Desk, deliver
from tests.several.programs import Failure, wait_until
from tests.several.sites import GHOST, Post


@dataclasses.dataclass(frozen=True)
class Refusal:
    """A message as the queue of refused ones has it."""

    desk: str
    relay: str
    code: str
    body: bytes


@dataclasses.dataclass
class Wanted:
    """What one `deliver` of all messages answers: which are kept, and why the others are not."""

    kept: set[bytes]
    codes: dict[Post, str]


def by_one_deliver(bench: Bench, posts: list[Post]) -> tuple[Desk, Wanted]:
    """A desk that is given the whole set by one `deliver`, and what it answers."""
    oracle = Desk("oracle", bench.files, bench.folder, bench.started, bench.plain)
    known = [post for post in posts if post.relay != GHOST]
    bodies = [post.body for post in known]
    answers = deliver(bench.files, oracle.store, bodies, bench.plain)
    codes = {post: said for post, said in zip(known, answers) if said != "ack"}
    kept = {post.body for post, said in zip(known, answers) if said == "ack"}
    codes |= {post: "P1 UnknownRelay" for post in posts if post.relay == GHOST}
    return oracle, Wanted(kept, codes)


def read_refused(bench: Bench) -> Counter[Refusal]:
    """Empties the queue of refused messages, by the program that an operator uses."""
    words = [sys.executable, "-m", "desk_broker.refused", "--take"]
    account = bench.account(names.READER)
    ran = subprocess.run(words, env=account, capture_output=True, text=True, check=False)
    if ran.returncode != 0:
        raise Failure(f"desk_broker.refused: {ran.stderr[-300:]}")
    told = [json.loads(line) for line in ran.stdout.splitlines()]
    return Counter(
        Refusal(each["desk"], each["relay"], each["code"], refused.body_of(each)) for each in told
    )


def check_refused(bench: Bench, posts: list[Post], wanted: Wanted) -> int:
    """What each desk refused is there, no less often than it was published; how much more is."""
    found = read_refused(bench)
    expected = Counter(
        Refusal(desk, post.relay, wanted.codes[post], post.body)
        for desk in bench.desks
        for post in posts
        if post in wanted.codes
    )
    bench.checks.same("refused and not expected", few(set(found) - set(expected)), [])
    bench.checks.same("expected and not refused", few(set(expected - found)), [])
    codes = sorted({refusal.code.split()[0] for refusal in expected})
    bench.tell(f"{len(expected)} refusals, of the codes {' '.join(codes)}, are where they belong")
    return (found - expected).total()


def few(refusals: set[Refusal]) -> list[str]:
    return sorted(map(str, refusals))[:3]


def check_stores(bench: Bench, confirmed: list[Post], wanted: Wanted) -> int:
    """Each store holds exactly what is to be kept; how many confirmed messages are lost."""
    lost = 0
    for name, desk in bench.desks.items():
        held = desk.held()
        missing = {post.body for post in confirmed if post not in wanted.codes} - held
        lost += len(missing)
        bench.checks.same(f"confirmed and not in the store of {name}", list(missing)[:3], [])
        bench.checks.same(f"desk {name} holds the set", held == wanted.kept, True)
    return lost


def check_answers(bench: Bench, oracle: Desk) -> None:
    """Every host's file and every report, on all desks and on the one of one `deliver`."""
    oracle.start()
    moments = bench.site.moments(bench.plan.moments)
    desks = [oracle, *bench.desks.values()]
    with concurrent.futures.ThreadPoolExecutor(len(desks)) as pool:
        asked = [pool.submit(desk.digests, bench.site.hosts, moments) for desk in desks]
        expected, *others = [each.result() for each in asked]
    for desk, found in zip(desks[1:], others):
        for target, digest in expected.items():
            bench.checks.same(f"desk {desk.name}: {target}", found[target], digest)
    words = ["--at", moments[0], "--at", moments[1]]
    status, said = bench.compare("answers", str(bench.files.roster), *bench.addresses(), *words)
    bench.checks.same(f"desk-compare answers: {said}", status, 0)
    begun = time.monotonic()
    bytes_of = sum(len(oracle.get(f"/v1/hosts/{host}/sudoers")) for host in bench.site.hosts)
    each = (time.monotonic() - begun) / len(bench.site.hosts)
    bench.tell(f"a host's file takes {each * 1000:.1f} ms of a desk that holds this set")
    bench.tell(
        f"{len(bench.site.hosts)} files of {bytes_of:,} bytes and {len(moments)} reports are the"
        f" same on all desks: {said.splitlines()[0].split()[-1]}"
    )


def wait_for_queues(bench: Bench) -> None:
    """Waits until no desk's queue has a message."""

    def are_empty() -> bool:
        queues = bench.cluster.queues()
        kinds = ("desk", "first")
        return not any(queues[f"{kind}.{it}"].messages for kind in kinds for it in bench.desks)

    wait_until("the queues of all desks are empty", are_empty, 300, 0.5)


def check_queues(bench: Bench) -> None:
    """At the end the check of the queues finds the refused messages, and nothing else."""
    found = bench.check_queues()
    bench.checks.same("desk-check-queues", [line.split()[0] for line in found], ["desk.refused:"])


def check_kinds(bench: Bench, wanted: Wanted) -> None:
    """The random messages have refusals of every kind, or the test says little."""
    kinds = {code.split()[0] for code in wanted.codes.values()}
    every = {f"A{n}" for n in range(1, 9)} | {"M1", "M2", "M3", "P1"}
    bench.checks.same("codes that no message meets", sorted(every - kinds), [])


def check_integrity(desk: Desk) -> None:
    """`sqlite3` finds the file whole, once the desk has ended."""
    # (a connection that nobody closes has the file until it is collected, and its disk is busy)
    with contextlib.closing(sqlite3.connect(desk.store)) as connection:
        [[said]] = connection.execute("PRAGMA integrity_check")
    if said != "ok":
        raise Failure(f"desk {desk.name}: {said}")
