"""desk-change-roster --cut, over a desk that is served: what it takes out of the store, and that
nothing is lost on the way, wherever it is killed."""

from __future__ import annotations

import os
import re
import signal
import subprocess
import sys
import threading
import time
from collections.abc import Iterator
from concurrent.futures import ThreadPoolExecutor
from contextlib import contextmanager
from pathlib import Path

import pytest

from desk_tools import cuts
from running import Running
from steelnewt_client.messages import canonical
from test_change_roster import REASONS, WITH_KIM, asked, full, moment

__all__ = ["full"]  # (the fixture)
DAY = 24.0
# up to when it is cut: the same moment again and again
BEFORE = -3 * DAY
AT = moment(BEFORE)
# how many requests have ended then
OLD = 12
# the call of a program at which a cut is killed, or where a full disk fails it, and whether that
# program was run
STOPPED = """\
import os, signal, sys
from desk_tools import change_program, served
at, is_behind, real = int(sys.argv.pop(1)), sys.argv.pop(1) == "behind", served.run
is_killed, calls = sys.argv.pop(1) == "killed", [0]
def stop():
    if is_killed:
        os.kill(os.getpid(), signal.SIGKILL)
    raise served.Failed("No space left on device")
def run(*words, **named):
    calls[0] += 1
    is_there = calls[0] == at
    if is_there and not is_behind:
        stop()
    told = real(*words, **named)
    if is_there:
        stop()
    return told
served.run = run
status = change_program.main()
print(f"{calls[0]} calls")
sys.exit(status)
"""
# how many of these calls are tried: all in the long form
PLACES = int(os.environ.get("PLACES", "6"))


def ended(running: Running, number: int, verdict: str = "approve", by: str = "bob") -> None:
    """A request of ann's that ended before the cut, with a verdict."""
    wish = {"cmnds": ["/usr/bin/id"], "hosts": ["db1"], "runas": "root", "ceiling": "db-care"}
    span = {"from": moment(-10 * DAY), "until": moment(-10 * DAY + 1.5)}
    running.post(at=moment(-11 * DAY), by="ann", kind="request", no=number, **wish, **span)
    running.post(at=moment(-10.5 * DAY), by=by, kind=verdict, no=number, of="ann")


@pytest.fixture
def running(tmp_path: Path, desk: str) -> Iterator[Running]:
    found = Running(tmp_path, desk)
    filled(found)
    yield found
    found.close()


def filled(running: Running) -> None:
    """Requests that ended, one of them refused and one revoked, and one that is in force."""
    for number in range(100, 100 + OLD):
        ended(running, number)
    ended(running, 200, "refuse")
    running.post(at=moment(-10 * DAY + 0.5), by="carol", kind="revoke", no=100, of="ann")
    asked(running)


def answers(running: Running) -> list[str]:
    """All that a cut changes nothing of: each host's file from the cut on, and what is in force."""
    routes = [f"/v1/hosts/{it}/sudoers/{AT}" for it in ("db1", "db2", "web1")]
    routes += [f"/v1/grants/{AT}", f"/v1/open/{AT}", "/v1/parked"]
    return [re.sub(r"\d{14}Z", "", running.ask("GET", it)) for it in routes]


def archives(running: Running) -> list[str]:
    folder = running.folder / "store" / "archives"
    return [it for path in folder.glob("*.messages") for it in path.read_text().splitlines()]


def whole(running: Running) -> list[str]:
    """What the desk holds and what its archives have, each message once."""
    found = [*running.messages(), *archives(running)]
    assert len(set(found)) == len(found)
    return sorted(found)


def counted(running: Running) -> int:
    """What a host counts: what the desk holds, and what its history says that it took out."""
    last = running.ask("GET", "/v1/history").splitlines()[-1].split(" ")
    return len(running.messages()) + (int(last[3]) if last[1] == "cut" else 0)


def test_a_history_is_cut(running: Running) -> None:
    """Each message is in the store or in the archive; what is in force, and each file from then on,
    is as before; the history says what was taken out, also after a start and another roster."""
    before, told, old = running.messages(), answers(running), counted(running)
    shown = running.cut(AT, "--show")
    assert shown.returncode == 0 and running.messages() == before, shown
    assert f"Of {len(before)} messages {OLD + 2} go to the archive" in shown.stdout, shown
    ran = running.cut(AT, *REASONS, given="y\n")
    assert ran.returncode == 0, ran
    assert f"serves {len(before) - OLD - 2} messages" in ran.stdout, ran.stdout
    assert whole(running) == sorted(before) and answers(running) == told
    assert len(archives(running)) == OLD + 2 and counted(running) == old
    assert running.moments()[-1].cut == f"cut {AT} {OLD + 2}"
    assert running.reasons()[:2] == ["by carol", "why kim joins"]
    assert kept_aside(running, before) and not left(running)
    running.systemctl("start")
    assert counted(running) == old and len(running.moments()) == 2
    changed = running.change(running.new(WITH_KIM), "--yes")
    assert changed.returncode == 0 and counted(running) == old, changed
    again = running.cut(AT, "--yes")
    assert again.returncode == 0 and again.stdout.endswith("The desk is cut there.\n"), again


def kept_aside(running: Running, before: list[str]) -> bool:
    """The old store is beside the new one, whole, and the archive is the account's alone."""
    folder = running.folder / "store"
    [old], [archive] = old_stores(running), (folder / "archives").glob("*.messages")
    seen, owner = archive.stat(), folder.stat()
    assert (seen.st_mode & 0o7777, seen.st_uid) == (0o400, owner.st_uid)
    assert old.stat().st_mode == (folder / "desk.db").stat().st_mode
    with cuts.opened(str(old)) as base:
        return [it.decode() for it in cuts.texts_of(base)] == before


def old_stores(running: Running) -> Iterator[Path]:
    return (running.folder / "store").glob("desk.db.before-*")


def left(running: Running) -> list[str]:
    """What a cut leaves beside the store that is none of what it makes."""
    names = sorted(it.name for it in (running.folder / "store").iterdir())
    names += [it.name for it in (running.folder / "store" / "archives").glob("*")]
    known = r"desk\.db(-wal|-shm)?|desk\.db\.before-\d+Z|\d+Z\.messages|archives|history|reserve.*"
    return [it for it in names if not re.fullmatch(known, it)]


def test_it_is_cut_again(running: Running) -> None:
    """A second cut takes out more; its archive stands beside the first, and the numbers add up."""
    before, old = running.messages(), counted(running)
    first, second = moment(-20 * DAY), AT
    assert "0 messages would be taken out" in running.cut(first, "--yes").stderr
    assert running.cut(moment(-9 * DAY), "--yes").returncode == 0
    ended_later = {"from": moment(-8 * DAY), "until": moment(-8 * DAY + 1)}
    wish = {"cmnds": ["/usr/bin/id"], "hosts": ["db1"], "runas": "root", "ceiling": "db-care"}
    running.post(at=moment(-8.5 * DAY), by="ann", kind="request", no=300, **wish, **ended_later)
    for number, by in enumerate(("bob", "carol", "bob", "carol")):
        running.post(at=moment(-8.4 * DAY - number), by=by, kind="approve", no=300, of="ann")
    ran = running.cut(second, "--yes")
    assert ran.returncode == 0 and "4 go to the archive" in ran.stdout, ran
    assert len(whole(running)) == len(before) + 5 == counted(running) == old + 5
    assert running.moments()[-1].cut == f"cut {second} {OLD + 6}"
    ran = running.cut(first, "--yes")
    assert ran.returncode == 2 and "which is later" in ran.stderr, ran


def test_what_comes_meanwhile_is_kept(running: Running) -> None:
    """Somebody posts while the history is cut: what was acknowledged is there."""
    acked, is_over = list[str](), threading.Event()

    def post() -> None:
        number = 1_000
        while not is_over.is_set():
            number += 1
            about: dict[str, object] = {"by": "bob", "kind": "approve", "no": number, "of": "ann"}
            body = canonical(about | {"at": moment(-10.2 * DAY)})
            try:
                if running.ask("POST", "/v1/relays/chat/messages", body) == "ack\n":
                    acked.append(body)
            except Exception:  # (the desk is away for a while)
                time.sleep(0.05)

    posting = threading.Thread(target=post)
    posting.start()
    try:
        ran = running.cut(AT, "--yes")
    finally:
        is_over.set()
        posting.join()
    assert ran.returncode == 0, ran
    assert acked and set(acked) <= set(whole(running)) and counted(running) == len(whole(running))


# ---- bad input


@pytest.mark.parametrize(
    ("hours", "told"),
    [(-1.0, "CutTooLate"), (5.0, "CutTooLate"), (-30 * DAY, "0 messages would be taken out")],
)
def test_a_moment_that_is_none(running: Running, hours: float, told: str) -> None:
    before = running.messages()
    stays(running, running.cut(moment(hours), "--yes"), before, told)


def stays(
    running: Running, ran: subprocess.CompletedProcess[str], before: list[str], told: str
) -> None:
    """The fault is named, and all is as before."""
    assert ran.returncode == 2 and ran.stderr.endswith(": all is as before\n"), ran
    assert told in ran.stderr, ran
    assert running.messages() == before and not archives(running)
    assert not (running.folder / "store" / "archives" / "under-way").exists()
    assert [it.cut for it in running.moments()] == ["" for _ in running.moments()]


def test_other_words(running: Running) -> None:
    for words in (["20260105"], [AT, "--add", "x"]):
        ran = running.cut(*words)
        assert ran.returncode == 2 and "usage:" in ran.stderr, ran
    before = running.messages()
    stays(running, running.cut(AT, "--yes", "--expect", "0" * 64), before, "than on")


def test_most_of_it_is_of_today(running: Running) -> None:
    """More came within the last day than the cut takes out: hosts might not see that there was
    one."""
    for number in range(OLD + 3):
        running.post(at=moment(-0.1), by="bob", kind="approve", no=500 + number, of="ann")
    before = running.messages()
    stays(running, running.cut(AT, "--yes"), before, "are of the last day")


def test_a_roster_that_waits_for_its_reload(running: Running) -> None:
    with running.roster.open("a") as file:
        file.write("# later\n")
    before = running.messages()
    stays(running, running.cut(AT, "--yes"), before, "reload it first")


@pytest.mark.parametrize("verb", ["stop", "start"])
def test_the_service_fails(running: Running, verb: str) -> None:
    """A desk that does not stop is as before; one that does not start is started by the same
    call."""
    before = running.messages()
    (running.folder / "fail").write_text(verb)
    ran = running.cut(AT, "--yes")
    if verb == "stop":
        stays(running, ran, before, "systemctl: stop fails")
    else:
        assert ran.returncode == 3 and "the store is cut, and the desk does not" in ran.stderr, ran
    ran = running.cut(AT, "--yes")
    assert ran.returncode == 0 and whole(running) == sorted(before), ran


def test_two_at_once(running: Running) -> None:
    """The one waits for the other, and finds that all is done, or names it where that is slow."""
    before, old = running.messages(), counted(running)
    with ThreadPoolExecutor(2) as pool:
        ran = list(pool.map(lambda _: running.cut(AT, "--yes"), range(2)))
    first, second = sorted(ran, key=lambda it: "its archive has" not in it.stdout)
    assert first.returncode == 0 and "its archive has" not in second.stdout, ran
    is_found = second.returncode == 0 and second.stdout.endswith("The desk is cut there.\n")
    is_named = second.returncode == 2 and "another change is under way" in second.stderr
    assert is_found or is_named, ran
    assert whole(running) == sorted(before) and counted(running) == old
    assert kept_aside(running, before) and not left(running)


def test_nobody_says_yes(running: Running) -> None:
    before = running.messages()
    ran = running.cut(AT, given="\n")
    assert ran.returncode == 1 and "Change the history? [y/N] Nothing" in ran.stdout, ran
    assert running.messages() == before and not archives(running)


def test_an_archive_that_was_carried_away(running: Running) -> None:
    """An archive that is away is asked for by its name: desks that are cut are compared by all."""
    assert running.cut(moment(-9 * DAY), "--yes").returncode == 0
    [archive] = (running.folder / "store" / "archives").glob("*.messages")
    archive.rename(running.folder / "elsewhere")
    ran = running.cut(AT, "--yes")
    assert ran.returncode == 2 and f"{archive} is not there: bring it back" in ran.stderr, ran


def test_a_disk_that_is_full(full: Running) -> None:
    filled(full)
    before = full.messages()
    (full.folder / "store" / "fill").write_bytes(b"x" * ((6 << 20) + (1 << 19)))
    stays(full, full.cut(AT, "--yes"), before, "has no room")


# ---- kills, and programs that fail


def stopped_words(at: int, where: str, how: str) -> list[str]:
    return [sys.executable, "-c", STOPPED, str(at), where, how]


def each_place(tmp_path: Path, desk: str, how: str) -> Iterator[tuple[Running, int, str]]:
    """A desk for each place at which a cut is stopped: before or behind a program it starts."""
    with desk_in(tmp_path / "whole", desk) as running:
        ran = running.cut(AT, "--yes", words=stopped_words(0, "before", how))
        assert ran.returncode == 0, ran
        count = int(ran.stdout.split()[-2])
    places = [(at, where) for at in range(1, count + 1) for where in ("before", "behind")]
    # (behind the third last call but one the new store is in place, and the desk is down; and
    # behind the last call all is done)
    tried = {*places[:: max(1, len(places) // PLACES)], (count - 3, "behind"), (count, "behind")}
    for at, where in sorted(tried):
        with desk_in(tmp_path / f"{at}-{where}", desk) as running:
            yield running, at, where


@contextmanager
def desk_in(room: Path, desk: str) -> Iterator[Running]:
    room.mkdir()
    running = Running(room, desk)
    try:
        filled(running)
        yield running
    finally:
        running.close()


def test_killed_at_each_step(tmp_path: Path, desk: str) -> None:
    """The desk starts with a store and a history that say the same, and the same call ends the
    cut."""
    for running, at, where in each_place(tmp_path, desk, "killed"):
        before, told, old = running.messages(), answers(running), counted(running)
        ran = running.cut(AT, "--yes", words=stopped_words(at, where, "killed"))
        assert ran.returncode == -signal.SIGKILL, (at, where, ran)
        running.systemctl("start")
        assert counted(running) == old, (at, where)
        assert set(running.messages()) | set(archives(running)) == set(before), (at, where)
        assert answers(running) == told, (at, where)
        is_ended(running, before, told, f"killed {where} {at}")


def test_a_full_disk_at_each_step(tmp_path: Path, desk: str) -> None:
    """What is said is so: all is as before, and nothing is left; or the store is cut, and the same
    call ends it."""
    for running, at, where in each_place(tmp_path, desk, "failing"):
        before, told, old = running.messages(), answers(running), counted(running)
        ran = running.cut(AT, "--yes", words=stopped_words(at, where, "failing"))
        place = f"failing {where} {at}"
        assert "No space left on device" in ran.stderr, (place, ran)
        if ran.returncode == 2:
            assert ran.stderr.endswith(": all is as before\n"), (place, ran)
            assert running.messages() == before and not left(running), (place, ran)
            assert not archives(running) and not [*old_stores(running)], (place, ran)
        else:
            assert ran.returncode == 3 and "the store is cut" in ran.stderr, (place, ran)
            running.systemctl("start")
        assert counted(running) == old and answers(running) == told, (place, ran)
        is_ended(running, before, told, place)


def is_ended(running: Running, before: list[str], told: list[str], place: str) -> None:
    """The same call, run again, ends the cut."""
    ran = running.cut(AT, "--yes")
    assert ran.returncode == 0, (place, ran)
    assert whole(running) == sorted(before) and counted(running) == len(before), place
    assert answers(running) == told and not left(running), place
    assert len(archives(running)) == OLD + 2 and kept_aside(running, before), place
