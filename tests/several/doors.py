"""Three brokers, three desks behind doors, and signed messages that go on while things are killed.

    bash tests/several/several.sh --doors [--short | --rate] [--seed N] [--keep] [--folder DIR]

runs this in namespaces of its own, as several.sh says. Nothing that was confirmed may be lost, none
may be taken twice, a thief with passwords of the broker gets nothing, and every journal is verified
from the first row to the last. `--rate` only measures: how many signed messages a second go through
broker and doors to three desks, beside the same desks without doors, in alternating rounds.
"""

from __future__ import annotations

import argparse
import concurrent.futures
import contextlib
import os
import pathlib
import random
import shutil
import signal
import subprocess
import sys
import tempfile
import threading
import time
from collections import Counter

import pika
from desk_broker import names
from pika.exceptions import AMQPError

from door.tests.doors import SITE, posted
from steelnewt_client.messages import canonical
from tests.common.desk import PROGRAM
from tests.several import verdict
from tests.several.doored import Door, DoorBench
from tests.several.faults import kill_nodes_at_once
from tests.several.main import arguments, place
from tests.several.nodes import ROOT
from tests.several.plan import SHORT, WHOLE
from tests.several.programs import Failure, Programs, programs, wait_until
from tests.several.relays import Traffic
from tests.several.signed import APPROVERS, ASKERS, LATE, Grant, message_of
from tests.several.sites import RELAYS, Post

NAMES = ["a", "b", "c"]
PATIENCE = 600.0  # seconds: a slow machine takes longer, and is not wrong
WITHHELD = 12  # approvals whose request is withheld for a while
STOLEN = 8  # messages that somebody takes off a queue with a consumer's password


def start(bench: DoorBench) -> None:
    bench.cluster.start()
    bench.cluster.control("delete_user", "guest")
    bench.begin(NAMES, [*ASKERS, *APPROVERS])
    bench.tell("three brokers, and three desks behind their doors")


# --- what goes wrong


def kill_programs(bench: DoorBench, chance: random.Random) -> None:
    """Each door, desk and consumer at random moments, and a node of the broker."""
    victims = [*bench.doors.values(), *bench.desks.values(), *bench.consumers.values()]
    victims = chance.sample(victims, len(victims)) * (1 if bench.plan is SHORT else 3)
    for victim in victims:
        time.sleep(chance.uniform(0.2, 1.0))
        victim.restart(signal.SIGKILL, chance.uniform(0.0, 1.0))
    bench.tell(f"{len(victims)} kills of doors, desks and consumers are done")


def kill_node(bench: DoorBench) -> None:
    leader = bench.cluster.queues()["desk.a"].leader
    kill_nodes_at_once(bench, [leader], "the leader of desk.a")


def look_all_the_time(bench: DoorBench, ended: threading.Event) -> None:
    """Each door looks at the others now and then, as by its timer, and is killed at it."""
    chance = random.Random(1)
    while not ended.is_set():
        for door in bench.doors.values():
            words = [sys.executable, "-B", str(ROOT / "door" / "desk-door")]
            words += ["--config", str(door.config), "bring"]
            job = subprocess.Popen(
                words, env=door.environment, stdout=subprocess.DEVNULL, stderr=subprocess.DEVNULL
            )
            with contextlib.suppress(subprocess.TimeoutExpired):
                job.wait(1.0 if chance.random() < 0.2 else 60.0)
            if job.poll() is None:
                job.kill()
                job.wait()
        ended.wait(2.0)


def steal(bench: DoorBench) -> None:
    """With a consumer's password somebody takes messages off its queue, and publishes none: the
    broker lets that account publish no message to a desk."""
    account = bench.account("desk-c")
    secret = pathlib.Path(account["BROKER_PASSWORD_FILE"]).read_text().strip()
    host = pika.ConnectionParameters(
        "127.0.0.1", bench.cluster.ports[0], credentials=pika.PlainCredentials("desk-c", secret)
    )
    connection = pika.BlockingConnection(host)
    channel, taken = connection.channel(), list[bytes]()
    consumer, until = bench.consumers["c"], time.monotonic() + PATIENCE
    consumer.program.end(signal.SIGTERM)
    while len(taken) < STOLEN and time.monotonic() < until:
        method, _, body = channel.basic_get("desk.c", auto_ack=True)
        taken += [] if method is None else [body]
    bench.stolen.update(taken)
    consumer.start()
    said = "taken"
    try:
        channel.confirm_delivery()
        channel.basic_publish(names.MESSAGES, "", b"{}", pika.BasicProperties(user_id="desk-c"))
    except AMQPError as error:
        said = str(error)
    bench.checks.same("a consumer publishes no message", "ACCESS_REFUSED" in said, True)
    bench.checks.same("messages were stolen", len(taken), STOLEN)
    bench.tell(f"{len(taken)} messages were taken off desk.c by its consumer's password")


def enrol_late(bench: DoorBench) -> list[Post]:
    """Somebody is enrolled at one door, and speaks at once: the other doors lag for a while."""
    first, *others = bench.doors.values()
    bench.people.enrol(first.folder / "signers", [LATE])
    grants = [bench.people.grant(LATE)[0] for _ in range(6)]
    posts = [post for it in grants for post in (it.request, it.approval)]
    publish_all(bench, posts)
    saw = [wait_for_line(it, "door a has the signers of") for it in others]
    bench.checks.same("doors that lag say so", saw, [True] * len(others))
    for door in others:
        said = door_signer(door, "take", str(first.folder / "signers"))
        bench.checks.same(f"door {door.desk.name} takes the signers", "hold" in said, True)
    bench.tell("somebody was enrolled while they spoke, and two doors lagged")
    return posts


def wait_for_line(door: Door, line: str) -> bool:
    with contextlib.suppress(Failure):
        said = door.program.text
        wait_until(f"{line} of {door.desk.name}", lambda: line in said(), PATIENCE, 0.2)
        return True
    return False


def door_signer(door: Door, *words: str) -> str:
    whole = [sys.executable, "-B", str(ROOT / "door" / "desk-signer"), "--config", str(door.config)]
    ran = subprocess.run(
        [*whole, "--yes", *words], env=door.environment, capture_output=True, text=True, check=False
    )
    return ran.stdout + ran.stderr


# --- what is published


def publish_all(bench: DoorBench, posts: list[Post]) -> None:
    for relay in RELAYS:
        bodies = [post.body for post in posts if post.relay == relay]
        said = {*bench.publish_as(relay, bodies)}
        if said - {"confirmed"}:
            raise Failure(f"relay {relay}: {said}")


def withheld(bench: DoorBench) -> list[Post]:
    """Signed approvals whose requests a relay keeps back: they wait, and nothing waits for them.
    Then their requests come."""
    grants = [bench.people.grant()[0] for _ in range(WITHHELD)]
    publish_all(bench, [it.approval for it in grants])
    others = bench.people.revocations(40) + [
        post for _ in range(20) for post in posts_of(bench.people.grant()[0])
    ]
    publish_all(bench, others)
    wanted = {message_of(post) for post in others}
    took = wait_until("others go on", lambda: all_have(bench, wanted), 100, 0.2)
    told = f"{len(others)} others are at each desk after {took:.1f} s"
    bench.tell(f"{told}, beside {WITHHELD} that wait")
    waiting = {message_of(it.approval) for it in grants}
    held = [desk.held() & waiting for desk in bench.desks.values()]
    bench.checks.same("no approval without its request", held, [set()] * len(held))
    publish_all(bench, [it.request for it in grants])
    requests = {message_of(it.request) for it in grants}
    wait_until("their requests come", lambda: all_have(bench, requests), PATIENCE, 0.2)
    # (after two minutes a door refuses what waits: on a slow machine it is published again)
    publish_all(bench, [it.approval for it in grants])
    return [*others, *(post for it in grants for post in posts_of(it))]


def posts_of(grant: Grant) -> list[Post]:
    return [grant.request, grant.approval]


def all_have(bench: DoorBench, wanted: set[bytes]) -> bool:
    return all(wanted <= desk.held() for desk in bench.desks.values())


def forge(bench: DoorBench, honest: list[Post]) -> dict[bytes, str]:
    """A thief has the password of the relay web."""
    found = bench.people.forgeries(honest)
    said = {*bench.publish_as("web", [*found])}
    bench.checks.same("the broker takes what a thief publishes", said, {"confirmed"})
    return found


def disturb(bench: DoorBench, posts: list[Post], seed: int) -> list[Post]:
    """Publishes messages at a pace while things go wrong; all honest ones."""
    accounts = {relay: bench.account(f"relay-{relay}") for relay in RELAYS}
    traffic, ended = Traffic(posts, bench.plan.pace / 4, accounts, bench.folder), threading.Event()
    with concurrent.futures.ThreadPoolExecutor(3) as pool:
        looking = pool.submit(look_all_the_time, bench, ended)
        try:
            traffic.start()
            steal(bench)
            killing = pool.submit(kill_programs, bench, random.Random(seed))
            kill_node(bench)
            killing.result()
            late = enrol_late(bench)
            traffic.join(PATIENCE)
        finally:
            ended.set()
        looking.result()
    bench.tell(f"{len(posts)} messages are published")
    return [*traffic.confirmed(), *late]


def lose_disk(bench: DoorBench) -> None:
    """Desk b and its door lose all: the other doors would say that it took back what it had, so
    their copies of it are moved away."""
    bench.doors["b"].lose_journal()
    for door in bench.doors.values():
        shutil.rmtree(door.folder / "journal" / "doors" / "b", ignore_errors=True)
    bench.tell("desk b and its door lost their disk")


# --- what has to hold


def bring_all(bench: DoorBench) -> None:
    """What one desk lacks comes from the others' doors, until nothing is left."""

    def is_done() -> bool:
        ran = [door.run("bring") for door in bench.doors.values()]
        return all(it.returncode == 0 and " 0 brought, 0 wait" in it.stdout for it in ran)

    wait_until("each door has what the others took", is_done, PATIENCE, 1.0)


def check_stores(bench: DoorBench, posts: list[Post]) -> None:
    """Each desk has exactly what was confirmed."""
    wanted = {message_of(post) for post in posts}
    for desk in bench.desks.values():
        held = desk.held()
        bench.checks.same(f"desk {desk.name} lost", len(wanted - held), 0)
        bench.checks.same(f"desk {desk.name} has more", sorted(held - wanted)[:3], [])
    bench.tell(f"{len(wanted)} messages are at each desk, 0 lost")


def check_once(bench: DoorBench) -> None:
    """No message was taken twice: each has one row that was taken, and is acknowledged."""
    for name, door in bench.doors.items():
        rows = door.rows()
        taken = [it for it in rows if it["row"] in ("came", "brought") and it["how"] != "refused"]
        count = Counter(str(it["message"]) for it in taken)
        twice = [it for it, number in count.items() if number > 1]
        bench.checks.same(f"door {name} took twice", twice, [])
        brought = sum(it["row"] == "brought" for it in taken)
        bench.tell(f"door {name}: {len(rows)} rows, {len(taken)} messages taken, {brought} brought")


def check_journals(bench: DoorBench) -> None:
    """`desk-verify` finds nothing in any journal, with the desk's messages and the other doors'."""
    for name, door in bench.doors.items():
        desk = bench.desks[name]
        for target in ("messages", "requests"):
            (door.folder / target).write_bytes(desk.get(f"/v1/{target}"))
        words = ["--site", SITE, "--journal", str(door.folder / "journal")]
        words += ["--signers", str(door.folder / "signers"), "--sample", "500"]
        words += ["--messages", str(door.folder / "messages")]
        words += ["--requests", str(door.folder / "requests")]
        for other, it in bench.doors.items():
            # (what was brought from door b stood in the journal that it lost)
            is_whole = other not in (name, "b")
            words += ["--other", f"{other}={it.folder}/journal"] if is_whole else []
        ran = bench.run(str(ROOT / "door" / "desk-verify"), *words)
        said = (ran.stdout + ran.stderr).decode().splitlines()
        # (a kill may cut a row short, which is noted as what it is)
        known = ("HEALED", "the last", *"0123456789")
        found = [it for it in said if not it.startswith(known)]
        bench.checks.same(f"desk-verify of door {name}", (found, ran.returncode < 2), ([], True))
        bench.tell(f"door {name}: {'; '.join(it for it in said if it[:1].isdigit())}")


def check_answers(bench: DoorBench) -> None:
    """All answer alike, with one roster, one base and one history of signers."""
    words = ["answers", str(bench.files.roster), *bench.addresses(), "--doors"]
    status, said = bench.compare(*words, *(it.answers_at for it in bench.doors.values()))
    bench.checks.same(f"desk-compare: {said}", status, 0)
    bench.tell(said.splitlines()[-1])


def check_refused(bench: DoorBench, forged: dict[bytes, str]) -> None:
    """What a thief published is put by under its name, by each desk."""
    found = verdict.read_refused(bench)
    codes = {(it.desk, it.body): it.code for it in found if it.body in forged}
    # (what was stolen from desk c's queue reached no consumer there)
    wanted = {
        (desk, body): code for desk in NAMES for body, code in forged.items()
        if desk != "c" or body not in bench.stolen
    }  # fmt: skip
    # (of a key that nobody has: a slow machine looks at the other doors too late to say more)
    slow = {"A20 BadSignature": "K27 DoorLags"}
    lacking = {
        key: (code, codes.get(key)) for key, code in wanted.items()
        if codes.get(key) not in (code, slow.get(code))
    }  # fmt: skip
    bench.checks.same("forgeries that are not put by under their names", lacking, {})
    others = {it.code for it in found if it.body not in forged}
    # (of honest ones only what waited for too long, and came by the other doors, or again)
    known = {"K27 DoorLags", "K22 NoRequestYet", "A23 NoRequest"}
    bench.checks.same("codes of others", others - known, set())
    bench.tell(f"{len(forged)} forgeries with a relay's password are put by, at each desk")


def bought(bench: DoorBench) -> None:
    """Whoever has the machine of desk c gives it a revocation past its door, and writes signers:
    each shows at desk-compare."""
    desk, door = bench.desks["c"], bench.doors["c"]
    text = canonical({"at": "20260105090000Z", "by": APPROVERS[0], "kind": "revoke", "no": 1,
                      "of": ASKERS[0]}).encode()  # fmt: skip
    with desk.connected(60) as peer:
        peer.sendall(posted(text))
        bench.checks.same("desk c takes it", peer.recv(4096).endswith(b"ack\n"), True)
    said = door.run("check").stdout
    bench.checks.same("desk-door check names it", "this came past the door" in said, True)
    bench.people.enrol(door.folder / "signers", ["thief"])
    words = ["answers", str(bench.files.roster), *bench.addresses(), "--patience", "1", "--doors"]
    status, said = bench.compare(*words, *(it.answers_at for it in bench.doors.values()))
    found = status, "differs: the signers of" in said
    bench.checks.same("desk-compare shows the signers", found, (1, True))
    pairs = [f"{name}={bench.listing(name)}" for name in bench.desks]
    status, said = bench.compare("messages", *pairs)
    bench.checks.same("desk-compare shows the message", (status, "a lacks 1:" in said), (1, True))
    bench.tell("a door that was bought shows beside two that were not")


def run(words: argparse.Namespace, folder: pathlib.Path, started: Programs) -> int:
    plan = SHORT if words.short else WHOLE
    bench = DoorBench(plan, words.seed, words.desk or PROGRAM, folder, started)
    bench.tell(f"seed {words.seed}")
    start(bench)
    posts = bench.people.traffic(plan.messages // 12)
    forged = forge(bench, posts)
    honest = withheld(bench)
    honest += disturb(bench, posts, words.seed)
    lose_disk(bench)
    bring_all(bench)
    verdict.wait_for_queues(bench)
    bring_all(bench)
    check_stores(bench, honest)
    check_once(bench)
    check_journals(bench)
    check_answers(bench)
    check_refused(bench, forged)
    bought(bench)
    kills = sum(it.program.kills for it in [*bench.doors.values(), *bench.desks.values()])
    kills += sum(it.program.kills for it in bench.consumers.values())
    bench.tell(f"killed: brokers {sum(it.kills for it in bench.cluster.nodes)}, others {kills}")
    print(f"{bench.checks.made} checks, {bench.checks.wrong} wrong")
    return 1 if bench.checks.wrong else 0


def main() -> int:
    from tests.several import door_rates

    # (the first process of a namespace gets only the signals that it has a handler for)
    signal.signal(signal.SIGTERM, lambda *_: sys.exit(143))
    words = arguments()
    words.desk = words.desk or os.environ.get("DESK", "").split()
    folder = pathlib.Path(tempfile.mkdtemp(prefix="doors-", dir=place(words)))
    status = 1
    try:
        with programs() as started:
            status = (door_rates.run if words.rate else run)(words, folder, started)
    except Failure as error:
        print(f"FAILED: {error}")
    finally:
        if words.keep or status:
            print(f"the logs are in {folder}")
        else:
            shutil.rmtree(folder)
    return status


if __name__ == "__main__":
    sys.exit(main())
