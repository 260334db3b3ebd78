"""Which desk's file `desk-host fetch` takes of several, and that a host never goes back: for
hosts.py."""

from __future__ import annotations

import contextlib
import json
import os
import subprocess
import time
from collections.abc import Callable, Iterator

from tests.common.replies import Replies, counted, desk_of, digest, history, of_a_host, reply
from tests.hosts.fetch import CLOCK, GOOD, MORE, begin, killing, serving
from tests.hosts.root import FILE, STATE, Host

HEARD = "/run/desk-host/heard"
BASE = b"dba ALL = (root) /usr/bin/id\nann ALL = (root) !/usr/bin/env\n"
OTHER = b"dba ALL = (root) /usr/bin/id\n"  # without what the other denies
GRANT = b"ann db1 = (root) NOTBEFORE=20260105090000Z NOTAFTER=20990105110000Z /usr/bin/id\n"
SECOND = GRANT.replace(b"ann", b"bob")
RECORD = f"{STATE}/db1.json"
# what writes to a disk, or makes it last: a fetch that is killed at another call leaves what one of
# these leaves
CALLS = "rename renameat unlink unlinkat fsync fchmod write ftruncate utimensat mkdir flock".split()
REFUSED = 4  # a file was taken, and somebody has to look at what another desk says


@contextlib.contextmanager
def desks(host: Host, *answers: Callable[[str], bytes], **settings: str) -> Iterator[list[Replies]]:
    """Desks with these answers, which the host asks."""
    with contextlib.ExitStack() as stack:
        made = [stack.enter_context(Replies(it)) for it in answers]
        host.conf(*(it.url for it in made), **settings)
        yield made


def away(target: str) -> bytes:
    return b""


def expect(host: Host, what: str, status: int, held: bytes | None, says: str = "") -> str:
    """A fetch that ends so: what it says."""
    ended, said = host.fetch()
    is_right = (ended, host.held()) == (status, held) and says in said
    host.check(what, is_right, f"{ended}: {host.held()!r} {said}")
    return said


def unseen(host: Host) -> None:
    """One desk still has a roster that this host has never had: it brings nothing back, and the
    right desk stays right."""
    if not host.is_fit:
        return
    for has_file in (False, True):
        begin(host)
        if not has_file:
            host.drop("desk")
        with desks(host, desk_of(GOOD, 100, "01"), desk_of(MORE, 90, "0")) as (right, old):
            expect(host, "the right desk is taken", 0, GOOD)
            right.answer = away
            says = f"{old.url}: it has a roster that this host has left"
            expect(host, "the old one is not", 1, GOOD, says)
            right.answer = desk_of(GOOD, 100, "01")
            expect(host, "the right one again", 0, GOOD)
            old.answer = away
            said = expect(host, "and without the other", 0, GOOD)
            host.check("it is refused by nothing", said.count("desk-host:") == 1, said)


def unknown(host: Host) -> None:
    """A roster or a base of which no history says that it came after this host's is not taken: the
    status and `check` say so, and how to mend it."""
    if not host.is_fit:
        return
    other = digest(OTHER)
    for what, answer, name, state in (
        ("a roster", desk_of(MORE, 900, "e"), "roster", f"{'e' * 64} {digest(b'')}"),
        ("a base", desk_of(MORE, 900, "0", (OTHER,)), "base", f"{'0' * 64} {other}"),
        ("a desk of before", of_a_host(reply(counted(MORE, 900, "9"))), "roster", ""),
        ("a rewritten history", desk_of(MORE, 900, "1e"), "roster", ""),
    ):
        begin(host)
        with desks(host, desk_of(GOOD, 5, "0")) as (first,):
            expect(host, "the first", 0, GOOD)
            first.answer = answer
            says = f"it has another {name} (sha256"
            said = expect(host, f"{what} that nobody knows", 1, GOOD, says)
            how = f"desk-host accept db1 {state}"
            host.check("it says how to go on", how in said, said)
            found = host.run("desk-host", "check").stdout
            host.check("check says so", f"desk-host: {first.url}: {says}" in found, found)
            with Replies(desk_of(GOOD, 5, "0")) as second:
                host.conf(second.url, first.url)
                expect(host, "beside one that is right", REFUSED, GOOD, says)
                host.conf(second.url)
                expect(host, "without it all is well", 0, GOOD)
            found = host.run("desk-host", "check").stdout
            host.check("check says it no more", says not in found, found)


def newer(host: Host) -> None:
    """A roster or base that came after this host's, as the desk's history says, is taken; what it
    left is not, also where a site went back to it on purpose and a desk lags."""
    if not host.is_fit:
        return
    begin(host)
    with desks(host, desk_of(MORE, 9, "a")) as (desk,):
        expect(host, "the first", 0, MORE)
        for what, rosters, bases, count, status, says in (
            ("another base", "a", (b"", OTHER), 9, 0, "the base is another"),
            ("a base that was left", "a", (b"",), 99, 1, "a base that this host has left"),
            ("another base, that lags", "a", (b"", OTHER, BASE), 8, 1, "it holds 8 messages"),
            ("another roster, that lags", "ac", (b"", OTHER), 8, 1, "it holds 8 messages"),
            ("another roster", "ac", (b"", OTHER), 10, 0, "the roster is another"),
            ("that roster, behind", "ac", (b"", OTHER), 9, 1, "it holds 9 messages"),
            ("a roster that was left", "a", (b"", OTHER), 99, 1, "a roster that this"),
            ("back on purpose", "aca", (b"", OTHER), 10, 0, "the roster is another"),
            ("a desk that does not know it", "ac", (b"", OTHER), 99, 1, "a roster that this"),
            ("and one that goes on", "cad", (OTHER,), 11, 0, "the roster is another"),
            ("the same once more", "cad", (OTHER,), 11, 0, ""),
        ):
            desk.answer = desk_of(GOOD, count, rosters, bases)
            expect(host, what, status, host.held() if status else bases[-1] + GOOD, says)
        kept = json.loads(host.read(RECORD))["installed"]
        host.check("the record has its last", kept[-1] == [11, "d" * 64, digest(OTHER)], str(kept))
        mode = os.stat(host.path(RECORD)).st_mode & 0o7777
        host.check("the record's mode", mode == 0o600, oct(mode))


def cut(host: Host) -> None:
    """A desk whose history was cut holds fewer messages, and says how many it took out: it counts
    as before. One that lags does not, whether it was cut or not, or came back from a backup of
    before and has the roster of today."""
    if not host.is_fit:
        return
    begin(host)
    lags = "and this host's file is made of "
    with desks(host, desk_of(MORE, 300)) as (desk,):
        expect(host, "the first", 0, MORE)
        for what, held, rosters, cuts, status, says in (
            ("fewer, and nothing of a cut", 100, "a", (0,), 1, f"it holds 100 messages, {lags}300"),
            ("cut", 100, "a", (0, 200), 0, ""),
            ("cut, and more", 102, "a", (0, 200), 0, ""),
            ("cut, and behind", 101, "a", (0, 200), 1, f"101 messages and archived 200, {lags}302"),
            ("uncut, and behind", 301, "a", (0,), 1, f"it holds 301 messages, {lags}302"),
            ("uncut, and as far", 302, "a", (0,), 0, ""),
            ("cut as by none", 102, "a", (0, 199), 1, f"102 messages and archived 199, {lags}302"),
            ("cut again", 12, "a", (0, 200, 290), 0, ""),
            ("a lower cut, behind", 101, "a", (0, 200), 1, f"archived 200, {lags}302"),
            ("another roster, behind", 11, "ab", (0, 290), 1, f"archived 290, {lags}302"),
            ("another roster", 13, "ab", (0, 290), 0, "the roster is another"),
            ("a roster that was left, uncut", 400, "a", (0,), 1, "that this host has left"),
            ("back to it, cut", 13, "aba", (0, 290), 0, "the roster is another"),
            ("then uncut, and behind", 302, "a", (0,), 1, f"it holds 302 messages, {lags}303"),
            ("a new roster", 13, "abac", (0, 290), 0, "the roster is another"),
            ("a restored desk with it", 302, "ac", (0,), 1, f"it holds 302 messages, {lags}303"),
        ):
            desk.answer = desk_of(GOOD, held, rosters, cuts=cuts)
            expect(host, what, status, host.held() if status else GOOD, says)
        kept = json.loads(host.read(RECORD))["installed"][-1]
        host.check("the record", kept == [303, "c" * 64, digest(b""), 290], str(kept))


def cut_one_by_one(host: Host) -> None:
    """One of three desks is cut, while a revocation comes to one of them: the host takes the file
    of the desk that has the revocation, whether that one is cut or not."""
    if not host.is_fit:
        return
    for held in ((102, 301, 301), (101, 302, 301)):
        begin(host)
        with desks(host, *(desk_of(MORE, 300) for _ in held)) as made:
            expect(host, "the first", 0, MORE)
            for it, count in zip(made, held):
                text = GOOD if count in (102, 302) else MORE
                it.answer = desk_of(text, count, cuts=(0, 200) if count < 200 else (0,))
            expect(host, f"the newest of {held}", 0, GOOD)
            best = next(it for it, count in zip(made, held) if count in (102, 302))
            best.answer = away
            said = expect(host, f"none of the others of {held}", 1, GOOD)
            host.check("each is behind", said.count("made of 302") == 2, said)


def away_meanwhile(host: Host) -> None:
    """A host that was away while its desk was cut, and until the desk held as many messages as
    before: it asks what was taken out, so that it knows what an uncut desk lacks."""
    if not host.is_fit:
        return
    begin(host)
    with desks(host, desk_of(MORE, 300)) as (desk,):
        expect(host, "the first", 0, MORE)
        host.drop(HEARD)
        os.utime(host.path(FILE), (1, 1))
        desk.answer = desk_of(GOOD, 310, cuts=(0, 200))
        expect(host, "after the cut", 0, GOOD)
        desk.answer = desk_of(MORE, 509)
        says = "it holds 509 messages, and this host's file is made of 510"
        expect(host, "one that was never cut", 1, GOOD, says)


def first_contact(host: Host) -> None:
    """A host without a record takes the desk that knows the others' as left, in whatever order
    they stand; and where one says nothing, it keeps what it has."""
    if not host.is_fit:
        return
    new, old, oldest = (desk_of(it, 9, to) for it, to in ((GOOD, "123"), (MORE, "12"), (MORE, "1")))
    for answers in ((old, new, oldest), (oldest, old, new)):
        begin(host)
        with desks(host, *answers):
            expect(host, "the newest is taken", 0, GOOD)
    begin(host)
    with desks(host, away, old) as (first, second):
        says = f"of {first.url} no answer. If what another says is right: desk-host accept db1 222"
        expect(host, "it keeps its file", 1, GOOD, says)
        found = host.run("desk-host", "check").stdout
        host.check("check says so", says in found, found)
        host.drop("desk")
        expect(host, "where it has none, it takes one", 0, MORE)
        first.answer = new
        expect(host, "and then the newer one", 0, GOOD)
    begin(host)
    with desks(host, desk_of(MORE, 1, "12"), desk_of(MORE, 1, "21")):
        expect(host, "two that contradict each other", 1, GOOD, "another desk contradicts it")


def furthest(host: Host) -> None:
    """The desk that holds the most messages gives the file, in whatever order several desks stand;
    what does not answer is told of."""
    if not host.is_fit:
        return
    begin(host)
    host.drop("desk")
    answers = [desk_of(text, count) for text, count in ((MORE, 4), (GOOD, 5), (MORE, 3))]
    with desks(host, *answers) as (_, second, third):
        odd = ("http://127.0.0.1:1", "https://desk.example:99999")
        host.conf(*odd, *(it.url for it in (_, second, third)))
        said = expect(host, "the furthest is taken", 0, GOOD)
        is_told = all(f"desk-host: {it}" in said for it in odd)
        host.check("what is away is told of", is_told and len(said.splitlines()) == 2, said)
        second.answer = away
        says = "it holds 4 messages, and this host's file is made of 5"
        expect(host, "the others bring nothing back", 1, GOOD, says)
        third.answer = desk_of(MORE, 6)
        expect(host, "but for one that is further", 0, MORE)
        third.answer, second.answer = desk_of(b"what\n", 9), desk_of(GOOD, 8)
        expect(host, "the newest sound one is taken", 0, GOOD, "is none of a desk's")


def same_count(host: Host) -> None:
    """Two desks with the same count and other files: the one is taken that gives nothing which the
    other does not give. Bases are not compared so: a line that is missing may be a denial."""
    if not host.is_fit:
        return
    less, more = BASE + GRANT, BASE + GRANT + SECOND
    for texts in ((GRANT, GRANT + SECOND), (GRANT + SECOND, GRANT)):
        begin(host)
        with desks(host, *(desk_of(it, 5, "a", (BASE,)) for it in texts)):
            expect(host, "the one that gives less", 0, less)
    both = (GRANT + SECOND, 5, "a", (BASE,))
    newer_base, third_base = (GRANT, 6, "a", (BASE, OTHER)), (GRANT, 6, "a", (BASE, b""))
    for what, status, held, one, two in (
        ("neither gives less", 0, less, (GRANT, 6, "a", (BASE,)), (SECOND, 6, "a", (BASE,))),
        ("other bases", REFUSED, more, newer_base, third_base),
        ("each has a part newer", 0, more, (GRANT, 6, "ab", (BASE,)), newer_base),
    ):
        begin(host)
        with desks(host, *(desk_of(*it) for it in (both, one, two))) as made:
            host.conf(made[0].url)
            expect(host, "a first file", 0, more)
            host.conf(*(it.url for it in made))
            said = expect(host, f"{what}: nothing is given", status, held, "contradicts")
            told = [line.split(" ")[1] for line in said.splitlines() if "contradicts" in line]
            is_told = told == [f"{it.url}:" for it in made[1:]]
            host.check(f"{what}: both are named, once", is_told, said)
            found = host.run("desk-host", "check").stdout
            # (the last line repeats the first fault)
            named = found.rpartition("DESK HOST ")[0].count("another desk contradicts it")
            host.check("check says so", named == (2 if status else 0), found)


def hanging(host: Host) -> None:
    """Desks that do not answer, or send a byte now and then, cost their time once."""
    if not host.is_fit:
        return
    begin(host)

    def slow(target: str) -> bytes:
        time.sleep(40)
        return b""

    with desks(host, slow, slow, desk_of(MORE, 4), slow) as made:
        host.drop("desk")
        began = time.monotonic()
        said = expect(host, "the one that answers is taken", 0, MORE)
        took = time.monotonic() - began
        host.check("the others cost ten seconds in all", 9 < took < 25, f"{took:.0f} s")
        told = [f"desk-host: {made[at].url}: no whole answer in 10 seconds" for at in (0, 1, 3)]
        host.check("each is named", said.splitlines() == told, said)


HISTORIES = {
    "that was cut": (history("ab")[:-9], "the last line of its /v1/history has no end"),
    "that is half": (history("ab")[:-90] + b"\n", "line 2 of its /v1/history is none that a"),
    "of another": (history("ac"), "does not end with what its file is made of"),
    "that lags": (history("a"), "does not end with what its file is made of"),
    "that is empty": (b"", "the last line of its /v1/history has no end"),
    "that goes back": (b"".join(reversed(history("ba").splitlines(True))), "line 2 of its /v1/his"),
    "of a month that is none": (history("ab").replace(b"202601", b"202613"), "line 1 of its /v1/"),
    "of 10 MB": (history("ab") * 34_000, "is longer than 1048576 bytes"),
    "of other words": (b"<html>\n", "line 1 of its /v1/history is none that a desk writes"),
}


def odd_histories(host: Host) -> None:
    """A desk with a history that cannot be is refused by name, once; the rest goes on."""
    if not host.is_fit:
        return
    begin(host)
    with desks(host, desk_of(GOOD, 5, "a"), desk_of(MORE, 9, "ab")) as (first, second):
        host.conf(first.url)
        expect(host, "a first file", 0, GOOD)
        host.conf(second.url, first.url)
        answers = {
            what: (of_a_host(reply(counted(MORE, 9, "b")), reply(text)), says)
            for what, (text, says) in HISTORIES.items()
        }
        busy = reply(b"K5 NoMemory\n", "503 Service Unavailable")
        answers["that does not come"] = (of_a_host(reply(counted(MORE, 9, "b")), busy), "503 K5")
        for what, (answer, says) in answers.items():
            second.answer = answer
            said = expect(host, f"a history {what}", 0, GOOD, says)
            is_named = said.count("desk-host:") == said.count(f"{second.url}: ") == 1
            host.check(f"a history {what} is named once", is_named, said)
        second.answer = desk_of(MORE, 9, "ab")
        expect(host, "one that is sound", 0, MORE)


def meanwhile(host: Host) -> None:
    """A desk that takes a revocation while it is asked: the file counts as made of all that the
    desk held as it wrote it."""
    if not host.is_fit:
        return
    begin(host)
    with serving(host, away) as server:

        def answer(target: str) -> bytes:
            is_late = len(server.asked) > 1
            return desk_of(GOOD if is_late else MORE, 5 if is_late else 4)(target)

        server.answer = answer
        status, said = host.fetch()
        host.check("a first file", status == 0, said)
        expect(host, "the revocation", 0, GOOD)
        server.answer = desk_of(MORE, 4)
        says = "it holds 4 messages, and this host's file is made of 5"
        expect(host, "a desk without it", 1, GOOD, says)


def killed_then_behind(host: Host) -> None:
    """A fetch that is killed once its file stands: the next one takes none that is older."""
    if not host.is_fit:
        return
    begin(host)
    with desks(host, desk_of(MORE, 4)) as (desk,):
        expect(host, "a first file", 0, MORE)
        desk.answer = desk_of(GOOD, 5)
        with killing(host):
            expect(host, "the next is killed", -9, GOOD)
        desk.answer = desk_of(MORE, 4)
        says = "it holds 4 messages, and this host's file is made of 5"
        expect(host, "it does not go back", 1, GOOD, says)


def killed_everywhere(host: Host) -> None:
    """A fetch is killed at each call that leaves something, while one desk has a revocation, or
    another roster, and one lags: the host then never goes back from it, and a file is never half
    there."""
    if not host.is_fit:
        return
    for what, rosters in (("a revocation", "a"), ("a roster", "ab")):
        wrong: list[str] = []
        begin(host)
        with desks(host, desk_of(MORE, 4, "a"), away) as (lags, right):
            host.conf(lags.url)
            expect(host, "a first file", 0, MORE)
            kept = host.read(RECORD)
            host.conf(right.url, lags.url)
            killed = 0
            for call in CALLS:
                for at in range(1, 99):
                    host.put("desk", MORE)
                    host.write(RECORD, kept)
                    right.answer = desk_of(GOOD, 5, rosters)
                    is_killed = killed_at(host, call, at)
                    if not is_killed:
                        break
                    killed += 1
                    stood, right.answer = host.held(), away
                    host.fetch()
                    is_back = stood == GOOD != host.held()
                    is_odd = bool({stood, host.held()} - {GOOD, MORE})
                    wrong += [f"{call} {at}"] if is_back or is_odd else []
            right.answer = desk_of(GOOD, 5, rosters)
            expect(host, f"{what}: and then it is taken", 0, GOOD)
        print(f"{host.name}, {what}: killed at {killed} calls, went back {len(wrong)} times")
        host.check(f"{what}: it was killed at many calls", killed > 20, str(killed))
        host.check(f"{what}: it never goes back, and no file is half there", not wrong, str(wrong))


def killed_at(host: Host, call: str, at: int) -> bool:
    """A fetch that is killed as it makes that call so many times: whether it was."""
    words = ["strace", "-qq", "-o", "/dev/null", "-e", f"trace={call}"]
    words += ["-e", f"inject={call}:signal=KILL:when={at}", "chroot", host.root]
    words += ["env", "-i", "PATH=/usr/sbin:/usr/bin:/sbin:/bin", "LC_ALL=C"]
    ran = subprocess.run(
        [*words, "desk-host", "fetch", "db1"], capture_output=True, check=False, timeout=120
    )
    return ran.returncode not in (0, 1, REFUSED)


@contextlib.contextmanager
def small_disk(host: Host, *places: str) -> Iterator[str]:
    """As long as the block lasts, these folders are on one small disk: a path of it."""
    disk = host.path("/mnt")
    subprocess.run(["mount", "-t", "tmpfs", "-o", "size=2m,mode=0700", "tmpfs", disk], check=True)
    try:
        for at, place in enumerate(places):
            os.makedirs(host.path(place), mode=0o700, exist_ok=True)
            own = f"{disk}/{at}"
            subprocess.run(["cp", "-a", host.path(place), own], check=True)
            subprocess.run(["mount", "--bind", own, host.path(place)], check=True)
        yield disk
    finally:
        for place in places:
            subprocess.run(["umount", "--lazy", host.path(place)], check=True)
        subprocess.run(["umount", "--lazy", disk], check=True)


def full_disk(host: Host) -> None:
    """Revocations arrive where /var is full, also where it is one disk with /etc."""
    if not host.is_fit:
        return
    for what, places in (("/var", [STATE]), ("/var and /etc", [STATE, "/etc/sudoers.d"])):
        begin(host)
        with small_disk(host, *places) as disk, desks(host, desk_of(MORE, 4)) as (desk,):
            expect(host, "a first file", 0, MORE)
            fill = ["dd", "if=/dev/zero", f"of={disk}/filled", "bs=1k"]
            subprocess.run(fill, check=False, stderr=subprocess.DEVNULL)
            desk.answer = desk_of(GOOD, 5)
            expect(host, f"{what} is full: a revocation arrives", 0, GOOD)
            desk.answer = desk_of(b"", 6)
            expect(host, f"{what} is full: the next one too", 0, b"")
            desk.answer = desk_of(MORE, 4)
            says = "it holds 4 messages, and this host's file is made of 6"
            expect(host, f"{what} is full: and never back", 1, b"", says)
            host.drop(f"{STATE}/spare.0")
            subprocess.run([*fill[:2], f"of={disk}/more", "bs=1k"], stderr=subprocess.DEVNULL)
            expect(host, "without room that is said", 1, b"", "keeps no room for a revocation")
            found = host.run("desk-host", "check").stdout
            host.check("check says so", f"{STATE} keeps no room for a revocation" in found, found)


def behind_for_long(host: Host) -> None:
    """A desk that lags brings nothing back within the operator's limit, whatever the host's clock
    shows; past it, its file is taken, and the record stays."""
    if not host.is_fit:
        return
    begin(host)
    with desks(host, desk_of(GOOD, 5), BACK_AFTER="3600") as (desk,):
        expect(host, "a first file", 0, GOOD)
        desk.answer = desk_of(MORE, 4)
        says = "it holds 4 messages, and this host's file is made of 5"
        expect(host, "within the limit", 1, GOOD, says)
        later = CLOCK.format(time.time() + 9_999_999)
        ran = host.run("/usr/bin/python3", "-c", later, "fetch", "db1")
        is_right = ran.returncode == 1 and host.held() == GOOD
        host.check("a clock that jumps", is_right, ran.stdout)
        old = time.time() - 7200
        for turn in ("first", "second"):
            host.drop(HEARD)  # (as after a start of the machine)
            os.utime(host.path(FILE), (old, old))
            expect(host, f"past it, the {turn} time", 0, MORE, "(BACK_AFTER)")
        expect(host, "and then not at once", 1, MORE)
        kept = json.loads(host.read(RECORD))["installed"]
        host.check("the record stays", kept[-1][0] == 5, str(kept))


def stale(host: Host) -> None:
    """A host that has heard nothing for as long as its operator allows loses its grants and keeps
    what its base denies, whatever its clock was set to; a sound answer gives them back."""
    if not host.is_fit:
        return
    begin(host)
    whole = BASE + GRANT
    with desks(host, desk_of(GRANT, 5, "a", (BASE,)), STALE_AFTER="3600") as (desk,):
        expect(host, "a first file", 0, whole)
        answer, desk.answer = desk.answer, away
        expect(host, "not at once", 1, whole)
        says = "(STALE_AFTER): the grants have ended"
        for what, seen, noted in (
            ("after an hour", time.time() - 3700, None),
            ("by the clock that nobody sets", time.time() + 99, "-3700"),
            ("where its clock went back at a start", time.time() + 99_999, None),
        ):
            desk.answer = answer
            expect(host, f"{what}: first it is there", 0, whole)
            desk.answer = away
            os.utime(host.path(FILE), (seen, seen))
            host.drop(HEARD)
            if noted is not None:
                since = time.clock_gettime(time.CLOCK_BOOTTIME) + float(noted)
                host.write(HEARD, f"{since}\n")
            expect(host, f"{what}: the grants end", 1, BASE, says)
            now = os.stat(host.path(FILE)).st_mtime
            host.check(f"{what}: it stays as old", abs(now - seen) < 1, f"{now} {seen}")
            expect(host, f"{what}: and so it stays", 1, BASE, says)
            found = host.run("desk-host", "check").stdout
            host.check(f"{what}: check says so", says in found, found)
        host.conf(desk.url)
        desk.answer = answer
        expect(host, "it comes back", 0, whole)
        os.utime(host.path(FILE), (1, 1))
        host.drop(HEARD)
        desk.answer = away
        expect(host, "without the setting it stays", 1, whole)


def accepted(host: Host) -> None:
    """An administrator says which roster and base hold: these are taken, with whatever count, and
    what the host had before is not. So a damaged record is mended."""
    if not host.is_fit:
        return
    begin(host)
    words = ("desk-host", "accept", "db1")
    with desks(host, desk_of(GOOD, 5, "b")) as (desk,):
        expect(host, "a first file", 0, GOOD)
        desk.answer = desk_of(MORE, 1, "a")
        expect(host, "another that nobody knows", 1, GOOD)
        host.does("it is accepted", *words, "a" * 64, digest(b""), says="^$")
        expect(host, "then it is taken", 0, MORE)
        desk.answer = desk_of(GOOD, 5, "b")
        expect(host, "and the one of before is not", 1, MORE, "a roster that this host has left")
        host.does("no digest", *words, "b" * 63, digest(b""), status=1, says="is no SHA-256")
        damaged(host, desk)


def damaged(host: Host, desk: Replies) -> None:
    """A record that cannot be read is no empty one."""
    before = host.held()
    for text in ("", "{}", '{"installed": [[1]]}', "[]", "\xff", '{"installed": [[1, 2, 3]]}'):
        host.write(RECORD, text)
        expect(host, f"a record {text!r}", 1, before, "cannot read the record")
    host.does("accepted", "desk-host", "accept", "db1", "b" * 64, digest(b""), says="^$")
    expect(host, "then it is mended", 0, GOOD)
    host.drop(RECORD)
    os.chmod(host.path(STATE), 0o777)
    ended, said = host.fetch()
    host.check("a record that others may write", ended == 1, f"{ended}: {said}")
    os.chmod(host.path(STATE), 0o700)


PARTS = (
    unseen,
    unknown,
    newer,
    cut,
    cut_one_by_one,
    away_meanwhile,
    first_contact,
    furthest,
    same_count,
    hanging,
    odd_histories,
    meanwhile,
    killed_then_behind,
    killed_everywhere,
    full_disk,
    behind_for_long,
    stale,
    accepted,
)
