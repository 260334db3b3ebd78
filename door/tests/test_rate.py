"""How many messages a second the door takes, and what it asks of the processor for each.

On a disk that says at once that it has a row, the rate is that of the processors. So the long form
also measures where each sync takes longer, of the desk and the door alike. (strace is no way to
make it so: it holds up each call of a thread, or of a process that was forked.)"""

import os
import subprocess
import tempfile
import threading
import time
from collections.abc import Callable, Iterator
from pathlib import Path

import pytest
from cryptography.hazmat.primitives.asymmetric.ed25519 import Ed25519PrivateKey
from cryptography.hazmat.primitives.serialization import Encoding, PublicFormat

from door.tests.doors import SITE, Doored
from door.tests.test_verify import Person
from steelnewt_client.desk import Desk
from steelnewt_client.messages import Verdict
from steelnewt_client.moments import now, stamp
from steelnewt_client.signed import Signed
from steelnewt_door.wire import check, parts_of

IS_LONG = os.environ.get("RATE", "") == "1"
COUNT, AT_ONCE, ROUNDS = (1_000 if IS_LONG else 100), 8, (3 if IS_LONG else 1)
# What a message may cost the door of a processor, in signatures that are made and judged here: a
# machine that is slow or busy takes longer for both. (One of GATE.md's does 200 a second then.)
MOST_SIGNATURES = 20
SLOW_SYNC = Path(__file__).with_name("slow_sync.c")
TICKS = os.sysconf("SC_CLK_TCK")


def used_by(process: int) -> float:
    """The seconds of a processor that a process, those below it and those that they waited for have
    used."""
    fields = Path(f"/proc/{process}/stat").read_text().rpartition(")")[2].split()
    own = sum(int(it) for it in fields[11:15]) / TICKS
    children = Path(f"/proc/{process}/task/{process}/children").read_text().split()
    return own + sum(used_by(int(it)) for it in children)


def of_a_signature(person: Person, signed: list[Signed]) -> float:
    """The seconds of a processor that making and judging a signature takes now."""
    begins = time.process_time()
    for it in signed:
        namespace, what, raw = person.sign(it.message).signed_bytes(SITE)
        check(parts_of(raw), namespace, what)
    return (time.process_time() - begins) / len(signed)


def posted(post: Callable[[Signed], str], signed: list[Signed]) -> float:
    """How many a second are acknowledged, of several at a time."""
    answers: list[str] = []

    def some(at: int) -> None:
        answers.extend(post(it) for it in signed[at::AT_ONCE])

    threads = [threading.Thread(target=some, args=(at,)) for at in range(AT_ONCE)]
    begins = time.monotonic()
    for it in threads:
        it.start()
    for it in threads:
        it.join()
    took = time.monotonic() - begins
    assert answers == ["ack"] * len(signed)
    return len(signed) / took


def of_a_sync(folder: Path) -> float:
    """The seconds that a disk takes to have a row: the middle of many."""
    took = []
    with open(folder / "rows", "ab", buffering=0) as file:
        for _ in range(101):
            begins = time.monotonic()
            file.write(bytes(800))
            os.fdatasync(file.fileno())
            took.append(time.monotonic() - begins)
    return sorted(took)[50]


def held_up(folder: Path, name: str, more: int) -> list[str]:
    """The words before a program's own that make each of its syncs take milliseconds more."""
    if not more:
        return []
    shim = folder / "slow_sync.so"
    subprocess.run(["cc", "-O2", "-shared", "-fPIC", "-o", shim, SLOW_SYNC], check=True)
    return ["env", f"LD_PRELOAD={shim}", f"SYNC_MORE={more}", f"SYNC_LOG={folder}/{name}.syncs"]


class Rated:
    """A site, and somebody whose signatures are made in this process. Each sync may take so many
    milliseconds more than it does here."""

    def __init__(self, folder: Path, more: int = 0) -> None:
        self.doored = Doored(folder)
        self.doored.prefix = held_up(folder, "door", more)
        self.doored.site.before = held_up(folder, "desk", more)
        self.person = Person("olga", Ed25519PrivateKey.generate())
        form = (Encoding.OpenSSH, PublicFormat.OpenSSH)
        public = self.person.key.public_key().public_bytes(*form)
        (folder / "olga.pub").write_bytes(public + b"\n")
        self.doored.add("olga")
        self.doored.start()
        self.number = 0

    def verdicts(self, count: int) -> list[Signed]:
        """Revocations that nobody has posted yet."""
        self.number += count
        numbers = range(self.number - count, self.number)
        texts = [Verdict("olga", "revoke", "ann", no, stamp(now())).text() for no in numbers]
        return [self.person.sign(it) for it in texts]

    def bare(self, signed: Signed) -> str:
        return Desk(self.doored.site.url).post("chat", signed.message.encode()).said

    def rates(self) -> tuple[float, float]:
        """Messages a second, to the desk alone and through the door, in alternating rounds."""
        posted(self.doored.post, self.verdicts(AT_ONCE))
        rates = [
            (posted(self.bare, self.verdicts(COUNT)),
             posted(self.doored.post, self.verdicts(COUNT)))
            for _ in range(ROUNDS)
        ]  # fmt: skip
        alone, behind = (sorted(it)[ROUNDS // 2] for it in zip(*rates, strict=True))
        return alone, behind


@pytest.fixture
def in_memory() -> Iterator[Rated]:
    with tempfile.TemporaryDirectory(dir="/dev/shm", prefix="d.") as folder:
        found = Rated(Path(folder))
        yield found
        found.doored.close()


def test_what_a_message_costs(in_memory: Rated) -> None:
    """Whatever else runs here."""
    doored = in_memory.doored
    posted(doored.post, in_memory.verdicts(AT_ONCE))
    assert doored.door
    signed = in_memory.verdicts(COUNT)
    begins, rule = used_by(doored.door.pid), of_a_signature(in_memory.person, signed)
    rate = posted(doored.post, signed)
    took = (used_by(doored.door.pid) - begins) / COUNT
    rule = (rule + of_a_signature(in_memory.person, signed)) / 2
    said = f"{1000 * took:.2f} ms of a processor a message, {took / rule:.1f} signatures"
    print(f"the door: {said} of {1000 * rule:.2f} ms; {rate:.0f} a second here")
    assert took < MOST_SIGNATURES * rule, said


@pytest.mark.skipif(not IS_LONG, reason="the long form alone measures the machine")
def test_how_many_in_memory(in_memory: Rated) -> None:
    alone, behind = in_memory.rates()
    print(f"in memory: {alone:.0f} a second by the desk alone, {behind:.0f} through the door")
    assert behind >= 200


@pytest.mark.skipif(not IS_LONG, reason="the long form alone measures the machine")
@pytest.mark.parametrize("more", [0, 1, 3])
def test_how_many_on_a_disk(tmp_path: Path, more: int) -> None:
    sync, rated = 1000 * of_a_sync(tmp_path), Rated(tmp_path, more)
    alone, behind = rated.rates()
    rated.doored.close()
    if more:
        for name in ("desk", "door"):
            assert (tmp_path / f"{name}.syncs").stat().st_size > ROUNDS, name
    print(
        f"on a disk whose sync takes {sync:.2f} ms and {more} ms more: {alone:.0f} a second by the"
        f" desk alone, {behind:.0f} through the door, {behind / alone:.2f} of that"
    )
    assert behind >= alone / 2
