"""A door that is killed, whose power is cut, and whose journal or disk is full, before a real desk:
nothing reaches the desk that is not in the journal, and nothing that was acknowledged is lost.

PLACES is at how many places each of them happens: 5, and 60 in the long form."""

import contextlib
import os
import random
import re
import signal
import subprocess
import threading
import time
from collections.abc import Iterator
from pathlib import Path

import pytest

from door.tests.doors import IS_ROOT, SITE, Doored, wait_until
from relays.tests.site import PATIENCE
from steelnewt_client.moments import now, stamp
from steelnewt_client.signed import Signed
from steelnewt_door.journal import Full, Journal, Room
from steelnewt_door.refusals import Refused
from steelnewt_door.rows import came_broken
from steelnewt_door.settings import read_settings
from steelnewt_door.taking import Door, Way

ROUNDS = int(os.environ.get("PLACES", "5"))
PER_ROUND = 6


def killed(doored: Doored) -> None:
    assert doored.door and doored.door.stdout
    doored.door.kill()
    doored.door.wait(timeout=PATIENCE)
    doored.door.stdout.close()
    doored.start_door()


def test_what_the_desk_holds_is_in_the_journal(fresh: Doored) -> None:
    """The door is killed at many places, while two relays post."""
    dice, said = random.Random(7), dict[str, str]()

    def revocations(first: int) -> list[Signed]:
        texts = [fresh.verdict(kind="revoke", no=first + it) for it in range(PER_ROUND)]
        return fresh.sign_list("bob", [Signed(it) for it in texts])

    def post_all(signed: list[Signed], relay: str) -> None:
        for it in signed:
            with contextlib.suppress(OSError):
                said[it.message] = fresh.post(it, relay=relay)

    everything = list[Signed]()
    for place in range(ROUNDS):
        signed = revocations(1 + place * PER_ROUND)
        everything += signed
        posting = [
            threading.Thread(target=post_all, args=(signed[at::2], relay))
            for at, relay in enumerate(("chat", "mail"))
        ]
        for thread in posting:
            thread.start()
        time.sleep(dice.uniform(0.0, 0.3))
        killed(fresh)
        for thread in posting:
            thread.join()
    nothing_is_lost(fresh, said)
    for it in everything:
        assert fresh.post(it) == "ack"
    everything_is_there(fresh, everything)


def below(process: int) -> list[int]:
    found = Path(f"/proc/{process}/task/{process}/children").read_text()
    return [int(it) for it in found.split()]


def is_there(process: int) -> bool:
    with contextlib.suppress(OSError):
        return ") Z " not in Path(f"/proc/{process}/stat").read_text()
    return False


def test_one_process_of_the_door_is_killed(fresh: Doored) -> None:
    """Whichever it is, none of them goes on, and what was acknowledged is there."""
    everything = [fresh.sign("bob", fresh.verdict(kind="revoke", no=no)) for no in range(3)]
    said = {everything[0].message: fresh.post(everything[0])}
    assert fresh.door and fresh.door.stdout
    others = below(fresh.door.pid)
    os.kill(others[0], signal.SIGKILL)
    assert fresh.door.wait(timeout=PATIENCE) == 1
    fresh.door.stdout.close()
    assert not any(is_there(it) for it in others)
    fresh.start_door()
    said[everything[1].message] = fresh.post(everything[1])
    others = below(fresh.door.pid)
    killed(fresh)
    wait_until(lambda: not any(is_there(it) for it in others))
    said[everything[2].message] = fresh.post(everything[2])
    assert list(said.values()) == ["ack"] * 3
    nothing_is_lost(fresh, said)
    everything_is_there(fresh, everything)


def nothing_is_lost(doored: Doored, said: dict[str, str]) -> None:
    """What was acknowledged is at the desk, and what is there came through the journal."""
    acknowledged = {text for text, answer in said.items() if answer == "ack"}
    kept = {it["message"] for it in doored.rows("came") if it["how"] == "signed"}
    assert acknowledged <= set(doored.all_held()) <= kept


def everything_is_there(doored: Doored, everything: list[Signed]) -> None:
    """All that was said is at the desk, and in the journal once, with its answer."""
    assert set(doored.all_held()) == {it.message for it in everything}
    answered = {it["of"]: it["code"] for it in doored.rows("answered")}
    came = [it for it in doored.rows("came") if it["how"] == "signed"]
    assert [answered.get(it["no"]) for it in came] == ["ack"] * len(everything)


class PowerCut(Exception):
    """From here on the machine is off."""


class Power:
    """The power of a door in this process: off at one of the calls that write its journal. What is
    left of a file is what was synced, and some of what was written behind that."""

    def __init__(self, monkeypatch: pytest.MonkeyPatch, dice: random.Random) -> None:
        self.dice, self.left = dice, dice.randrange(8)
        self.synced: dict[str, int] = {}
        self.files: dict[str, bytes] = {}
        self.write, self.sync, self.cut_to = os.write, os.fdatasync, os.ftruncate
        monkeypatch.setattr(os, "write", self.writing)
        monkeypatch.setattr(os, "fdatasync", self.syncing)
        monkeypatch.setattr(os, "ftruncate", self.cutting)

    def is_of_journal(self, file: int) -> str:
        path = os.readlink(f"/proc/self/fd/{file}")
        return path if "/journal-" in path else ""

    def ends(self, path: str) -> None:
        """Cuts the power, once it is time."""
        if not self.files and self.left > 0:
            self.left -= 1
            return
        if not self.files:
            text, synced = Path(path).read_bytes(), self.synced[path]
            kept = text[: self.dice.randrange(synced, len(text) + 1)]
            if len(kept) > synced and self.dice.random() < 0.3:
                kept = kept[:synced] + bytes(len(kept) - synced)  # (a disk may leave zeros)
            self.files[path] = kept
        raise PowerCut

    def writing(self, file: int, text: bytes) -> int:
        if not (path := self.is_of_journal(file)):
            return self.write(file, text)
        self.synced.setdefault(path, os.fstat(file).st_size)
        if not self.files and self.left == 0:
            self.write(file, text[: self.dice.randrange(len(text) + 1)])
        self.ends(path)
        return self.write(file, text)

    def syncing(self, file: int) -> None:
        if path := self.is_of_journal(file):
            self.ends(path)
        self.sync(file)
        if path:
            self.synced[path] = os.fstat(file).st_size

    def cutting(self, file: int, length: int) -> None:
        if self.files:
            raise PowerCut
        self.cut_to(file, length)


def said_by(door: Door, signed: Signed) -> str:
    """What a door in this process answers."""
    try:
        return door.take(Way("chat"), signed.line().encode()).split(b"\r\n\r\n")[1].decode().strip()
    except Refused as fault:
        return fault.code


def test_a_power_cut_before_a_desk(fresh: Doored) -> None:
    """A power cut leaves a part of the journal, with an index or without; the desk goes on."""
    fresh.stop_door()
    dice, said, everything = random.Random(11), dict[str, str](), list[Signed]()
    folder = str(fresh.folder / "journal")
    for place in range(ROUNDS):
        texts = [fresh.verdict(kind="revoke", no=1 + place * PER_ROUND + it) for it in range(4)]
        signed = fresh.sign_list("bob", [Signed(it) for it in texts])
        door = read_settings(str(fresh.config)).door()
        with pytest.MonkeyPatch.context() as monkeypatch:
            power = Power(monkeypatch, dice)
            for it in signed:
                said[it.message] = said_by(door, it)
                if power.files:
                    break
            door.journal.close()
        assert power.files, "the power was never cut"
        for path, text in power.files.items():
            Path(path).write_bytes(text)
        if dice.random() < 0.5:  # (the index may be behind the disk's rows, and never before them)
            for file in Path(folder).glob("index.db*"):
                file.unlink()
        everything += signed
        again = read_settings(str(fresh.config)).door()
        again.journal.note_torn()
        again.settle()
        again.journal.close()
        nothing_is_lost(fresh, said)
    fresh.start_door()
    for it in everything:
        assert fresh.post(it) == "ack"
    everything_is_there(fresh, everything)


@pytest.fixture
def small(fresh: Doored) -> Iterator[Doored]:
    """A site whose journal has a small disk of its own, which has room for all rows of the long form
    and for the index, whose log takes 4 MiB."""
    place = str(fresh.folder / "journal")
    fresh.stop_door()
    for path in Path(place).iterdir():
        path.unlink()
    words = ["mount", "-t", "tmpfs", "-o", "size=12m,mode=0700", "none", place]
    subprocess.run(words, check=True)
    try:
        fresh.start_door()
        yield fresh
        fresh.stop_door()
    finally:
        subprocess.run(["umount", "--lazy", place], check=True)


def filled(doored: Doored, spare: int) -> Path:
    """Takes all room of the journal's disk, but for so many bytes, in whole pages."""
    path = doored.folder / "journal" / "filler"
    with open(path, "wb", buffering=0) as filler:
        with contextlib.suppress(OSError):
            while True:
                filler.write(bytes(4_096))
        filler.truncate(max(0, filler.tell() - spare))
    return path


@pytest.mark.skipif(not IS_ROOT, reason="only root has a small disk")
def test_a_disk_that_is_full_before_a_desk(small: Doored) -> None:
    """At places with more and less room: what gives rights is refused where there is none, what
    takes them away has a file of its own, and all is taken once there is room."""
    dice, said, everything = random.Random(13), dict[str, str](), list[Signed]()
    for place in range(ROUNDS):
        first = 10 * place + 1
        requests = [small.request(no=first + it) for it in range(3)]
        signed = [small.sign("ann", it) for it in requests]
        texts = [small.verdict(kind="revoke", no=first + it) for it in range(3)]
        signed += [small.sign("bob", it) for it in texts]
        filler = filled(small, dice.randrange(4) * 4_096)
        for it in signed:
            said[it.message] = small.post(it)
        assert {said[it.message] for it in signed} <= {"ack", "K24 JournalFull"}
        nothing_is_lost(small, said)
        filler.unlink()
        everything += signed
        for it in signed:
            assert small.post(it) == "ack"
        nothing_is_lost(small, said)
    codes = [said[it.message] for it in everything]
    assert "K24 JournalFull" in codes and codes.count("ack") >= 3 * ROUNDS, codes
    everything_is_there(small, everything)


def test_a_journal_that_is_full(fresh: Doored) -> None:
    """What cannot be kept is not posted, what takes rights away has the last tenth, and all is
    taken once files were carried away."""
    fresh.stop_door()
    fresh.configure(more="journal_bytes = 1048576\nfile_bytes = 65536\n")
    journal = Journal(str(fresh.folder / "journal"), SITE, Room(1 << 20, 1 << 16))
    with pytest.raises(Full):
        while True:
            journal.append([came_broken(b"x" * 200, stamp(now()), ("chat", "")) for _ in range(50)])
    journal.close()
    fresh.start_door()
    signed = fresh.sign("ann", fresh.request())
    assert fresh.post(signed) == "K24 JournalFull"
    before = len(fresh.rows())
    for no in range(10, 20):
        assert fresh.post(fresh.verdict(kind="revoke", no=no)) == "P20 NotSigned"
    assert len(fresh.rows()) == before
    assert fresh.post(fresh.sign("bob", fresh.verdict(kind="revoke", no=2))) == "ack"
    assert fresh.post(fresh.verdict(kind="revoke", no=3), root=True) == "ack"
    assert len(fresh.held()) == 2
    assert re.search("9[0-9] % of journal_bytes", fresh.run("check", status=2))
    for path in sorted((fresh.folder / "journal").glob("journal-*.jsonl"))[:-1]:
        path.rename(fresh.folder / path.name)
    assert fresh.post(signed) == "ack"
    assert signed.message in fresh.held() and signed.message in [
        it["message"] for it in fresh.came()
    ]


def test_a_journal_that_was_cut_is_not_gone_on_with(fresh: Doored) -> None:
    assert fresh.post(fresh.sign("ann", fresh.request())) == "ack"
    fresh.stop_door()
    [path] = (fresh.folder / "journal").glob("journal-*.jsonl")
    whole = path.read_bytes()
    path.write_bytes(b"".join(whole.splitlines(keepends=True)[:-1]))
    assert "was cut" in fresh.run("serve", status=2)
    path.write_bytes(whole)
    fresh.start_door()
    assert fresh.codes() == ["ack"]


def test_one_door_at_a_place(fresh: Doored) -> None:
    assert "a door answers at" in fresh.run("serve", status=2)
    assert fresh.post(fresh.sign("ann", fresh.request())) == "ack"
