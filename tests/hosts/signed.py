"""What a host takes whose site has its answers signed by the door (SIGNED=yes). A front, and
whoever has its key and its account, gives it nothing: for hosts.py."""

from __future__ import annotations

import base64
import os
import re
import subprocess
import time
from collections.abc import Callable

from tests.common.replies import NO_ROUTE, Replies, counted, desk_of, history, reply
from tests.hosts.fetch import GOOD, MORE, begin
from tests.hosts.newer import BASE, GRANT, HEARD, REFUSED, away, expect
from tests.hosts.root import FILE, Host

SITE = "desk.example"
NAMESPACE = "steelnewt-file@v1"
ROUTE = re.compile(r"(/v1/hosts/[a-z0-9-]+/)(at/[0-9]{14}Z|history)/signed/[0-9a-f]{32}")
OWN = BASE + b"bob ALL = (root) ALL\n"  # what a thief would like a host to have
Answer = Callable[[str], bytes]


class Signer:
    """A key of a door's, or of somebody else."""

    def __init__(self, folder: str, name: str) -> None:
        self.path = os.path.join(folder, name)
        if not os.path.exists(self.path):
            words = ["ssh-keygen", "-q", "-t", "ed25519", "-N", "", "-C", "", "-f", self.path]
            subprocess.run(words, check=True)
        with open(f"{self.path}.pub", encoding="ascii") as file:
            self.public = file.read().split()[1]

    def line(
        self, route: str, answer: bytes, site: str = SITE, namespace: str = NAMESPACE
    ) -> bytes:
        """The line with its signature over an answer to a question."""
        words = ["ssh-keygen", "-q", "-Y", "sign", "-f", self.path, "-n", namespace, "-"]
        told = f"{site}\n{route}\n".encode() + answer
        ran = subprocess.run(words, input=told, capture_output=True, check=True)
        lines = [it for it in ran.stdout.splitlines() if not it.startswith(b"-----")]
        return b"ssh:" + b"".join(lines) + b"\n"


def body_of(raw: bytes) -> bytes | None:
    """The body of a 200; nothing where it is another reply."""
    head, _, body = raw.partition(b"\r\n\r\n")
    return body if head.startswith(b"HTTP/1.1 200 ") else None


def behind_door(signer: Signer, desk: Answer, **words: str) -> Answer:
    """What comes from a desk behind a door that signs: to a host that asks as before, too."""

    def answer(target: str) -> bytes:
        found = ROUTE.fullmatch(target)
        if not found:
            return desk(target)
        raw = desk("/v1/history" if found[2] == "history" else found[1] + found[2])
        body = body_of(raw)
        return raw if body is None else reply(signer.line(target, body, **words) + body)

    return answer


def front(signer: Signer, desk: Answer, lie: Callable[[str, bytes], bytes]) -> Answer:
    """A front that gives something else in the place of a host's file: `lie` makes it of the
    question and of the answer that the door signed."""
    door = behind_door(signer, desk)

    def answer(target: str) -> bytes:
        whole = body_of(door(target))
        is_file = "/at/" in target and whole is not None
        return lie(target, whole) if is_file and whole is not None else door(target)

    return answer


def keys(*signers: Signer, **more: str) -> dict[str, str]:
    """A host's settings for these keys."""
    told = {"SIGNED": "yes", "SITE": SITE, "FILE_KEYS": " ".join(it.public for it in signers)}
    return told | more


def lies(door: Signer, thief: Signer, ended: Signer) -> dict[str, tuple[Answer, str]]:
    """What a front answers that somebody took over, and what the host says of each answer. The
    desk has GOOD; the thief has all that the door ever signed for anybody."""
    desk = desk_of(GOOD, 9)
    own = counted(OWN, 9)
    none, bad = "its answer has no signature", "the signature of its answer is not good"

    def line_of(whole: bytes) -> bytes:
        return whole[: whole.index(b"\n") + 1]

    def asked(change: Callable[[str], str]) -> Callable[[str, bytes], bytes]:
        """A good signature of the door's, over the answer to another question."""
        return lambda target, _: reply(door.line(change(target), own) + own)

    def moved(target: str) -> str:
        return re.sub("at/[0-9]{8}", "at/20260101", target)

    def other(target: str) -> str:
        return target.replace("/db1/", "/db2/")

    def earlier(target: str) -> str:
        return target[:-32] + "0" * 32

    found: dict[str, tuple[Callable[[str, bytes], bytes], str]] = {
        "its own file": (lambda *_: reply(own), none),
        "its own file, with its own key": (lambda t, _: reply(thief.line(t, own) + own), bad),
        "another host's": (asked(other), bad),
        "one of an earlier moment": (asked(moved), bad),
        "one that was asked for before, of this moment": (asked(earlier), bad),
        "a history for a file": (asked(lambda t: re.sub("at/[0-9]+Z", "history", t)), bad),
        "another site's": (lambda t, _: reply(door.line(t, own, "trial.example") + own), bad),
        "for another purpose": (lambda t, _: reply(door.line(t, own, SITE, "file") + own), bad),
        "of a key that ended": (lambda t, _: reply(ended.line(t, own) + own), bad),
        "its signature before another file": (lambda _, w: reply(line_of(w) + own), bad),
        "a grant more": (lambda _, w: reply(w + b"bob ALL = (root) ALL\n"), bad),
        "a grant less": (lambda _, w: reply(w[: w.rindex(b"\n", 0, -1) + 1]), bad),
        "a signature that is cut": (lambda _, w: reply(b"ssh:" + w[20:]), bad),
        "half a signature": (lambda _, w: reply(w[:90] + b"\n" + own), bad),
        "an empty one": (lambda *_: reply(b"ssh:\n" + own), none),
        "one of 1 MB": (lambda *_: reply(b"ssh:" + b"A" * 1_000_000 + b"\n" + own), none),
        "1 MB without a line": (lambda *_: reply(b"A" * 1_000_000), none),
        "two lines": (lambda t, w: reply(thief.line(t, own) + w), bad),
        "the signature behind": (lambda t, _: reply(own + door.line(t, own)), none),
        "nothing": (lambda *_: reply(b""), none),
        "no route": (lambda *_: NO_ROUTE, "it gives no signed file"),
        "a page": (lambda *_: reply(b"<html>", "403 Forbidden"), "it gives no signed file"),
        "what is cut on the way": (lambda _, w: reply(w)[:-9], "its 200 was cut short"),
    }
    return {what: (front(door, desk, lie), says) for what, (lie, says) in found.items()}


def lying_front(host: Host) -> None:
    """Each lie of a front leaves what is in force, is said, and `check` names it."""
    if not host.is_fit:
        return
    door, thief, ended = (Signer(host.folder, it) for it in ("door", "thief", "ended"))
    begin(host)
    with Replies(behind_door(door, desk_of(GOOD, 5))) as served:
        host.conf(served.url, **keys(door))
        expect(host, "what the door signed is taken", 0, GOOD)
        plain = [it for it in served.asked if "/signed/" not in it]
        host.check("nothing else is asked for", not plain and len(served.asked) > 0, str(plain))
        for what, (answer, says) in lies(door, thief, ended).items():
            served.answer = answer
            said = expect(host, f"a front gives {what}", 1, GOOD, says)
            if "cut on the way" not in what:
                found = host.run("desk-host", "check").stdout
                host.check(f"check says so of {what}", f"{served.url}: {says}" in found, found)
            host.check(f"{what}: said once", said.count(f"{served.url}: ") == 1, said)
        served.answer = lambda _: reply(b"K20 DeskAway\n", "503 Service Unavailable")
        expect(host, "the door is away", 1, GOOD, "it answered 503 K20 DeskAway")
        served.answer = behind_door(door, desk_of(MORE, 6))
        expect(host, "and then it is there", 0, MORE)
        found = host.run("desk-host", "check").stdout
        host.check("check says it no more", "signature" not in found, found)


def lying_history(host: Host) -> None:
    """A front cannot say that a roster which a desk still has came after the one that this host
    has: histories are signed, each for its own question."""
    if not host.is_fit:
        return
    door, thief = (Signer(host.folder, it) for it in ("door", "thief"))
    begin(host)
    right, lagging = desk_of(GOOD, 5, "ab"), desk_of(MORE, 5, "a")
    with Replies(behind_door(door, right)) as served:
        host.conf(served.url, **keys(door))
        expect(host, "a first file", 0, GOOD)
        forged = history("aba")

        def told(line: Callable[[str], bytes]) -> Answer:
            file = behind_door(door, lagging)
            return lambda t: file(t) if "/at/" in t else reply(line(t) + forged)

        def of_another(target: str) -> bytes:
            return door.line(target[:-32] + "0" * 32, forged)

        says = "the signature of its answer is not good"
        for what, answer, said in (
            ("unsigned", told(lambda _: b""), "its answer has no signature"),
            ("of a thief's", told(lambda t: thief.line(t, forged)), says),
            ("of another question", told(of_another), says),
            ("withheld", lambda t: told(away)(t) if "/at/" in t else NO_ROUTE, "has left"),
        ):
            served.answer = answer
            expect(host, f"a history {what}", 1, GOOD, said)
        served.answer = behind_door(door, desk_of(MORE, 5, "aba"))
        expect(host, "one that is signed", 0, MORE, "the roster is another")


def another_key(host: Host) -> None:
    """While a door's key is changed a host has both; then the first one says nothing any more."""
    if not host.is_fit:
        return
    first, second = (Signer(host.folder, it) for it in ("door", "second"))
    begin(host)
    with Replies(behind_door(first, desk_of(GOOD, 5))) as served:
        for what, signer, known, status in (
            ("the first key", first, (first,), 0),
            ("the second, which the host has not", second, (first,), 1),
            ("the second, which it has", second, (first, second), 0),
            ("the first, which it still has", first, (first, second), 0),
            ("the second alone", second, (second,), 0),
            ("the first, which has ended", first, (second,), 1),
        ):
            host.conf(served.url, **keys(*known))
            served.answer = behind_door(signer, desk_of(GOOD, 5))
            expect(host, what, status, GOOD)


def one_without(host: Host) -> None:
    """There are two desks, one of them without a door that signs: that one is not taken, whatever
    it says that it holds, and holds up nothing. A host that asks as before takes both."""
    if not host.is_fit:
        return
    door = Signer(host.folder, "door")
    begin(host)
    with Replies(behind_door(door, desk_of(GOOD, 5))) as signed, Replies(desk_of(MORE, 9)) as other:
        host.conf(other.url, signed.url, **keys(door))
        says = f"{other.url}: it gives no signed file (SIGNED=yes): 404 T3 NoRoute"
        host.drop("desk")
        expect(host, "the one that signs is taken", REFUSED, GOOD, says)
        found = host.run("desk-host", "check").stdout
        host.check("check names the other", says in found, found)
        signed.answer = away
        expect(host, "the other is not, alone", 1, GOOD, says)
        host.conf(other.url, signed.url)
        expect(host, "but by a host that wants no signature", 0, MORE)


def stale_by_lies(host: Host) -> None:
    """A front that lies is no sound answer: the grants end as if nobody had answered."""
    if not host.is_fit:
        return
    door = Signer(host.folder, "door")
    whole = desk_of(GRANT, 5, "a", (BASE,))
    begin(host)
    with Replies(behind_door(door, whole)) as served:
        host.conf(served.url, **keys(door, STALE_AFTER="3600"))
        expect(host, "a first file", 0, BASE + GRANT)
        served.answer = front(door, whole, lambda *_: reply(counted(OWN, 9)))
        expect(host, "a lie", 1, BASE + GRANT, "its answer has no signature")
        old = time.time() - 3700
        os.utime(host.path(FILE), (old, old))
        host.drop(HEARD)
        expect(host, "and for an hour", 1, BASE, "(STALE_AFTER): the grants have ended")
        served.answer = behind_door(door, whole)
        expect(host, "the truth", 0, BASE + GRANT)


def wrong_keys(host: Host) -> None:
    """Settings by which nothing can be judged take nothing, and `check` says so."""
    if not host.is_fit:
        return
    door = Signer(host.folder, "door")
    begin(host)
    blob = base64.b64decode(door.public)
    with Replies(behind_door(door, desk_of(MORE, 5))) as served:
        for what, more, says in (
            ("no site", {"SITE": ""}, "SITE=: SIGNED=yes needs the site's name"),
            ("a pattern for a site", {"SITE": "*"}, "SITE=[*]: SIGNED=yes needs the site's name"),
            ("no key", {"FILE_KEYS": ""}, "SIGNED=yes needs FILE_KEYS"),
            ("half a key", {"FILE_KEYS": door.public[:40]}, "is no key that"),
            ("a key and a half", {"FILE_KEYS": f"{door.public} {door.public[:9]}"}, "is no key"),
            ("a private thing", {"FILE_KEYS": base64.b64encode(blob[4:]).decode()}, "is no key"),
            ("a word of its own", {"SIGNED": "maybe"}, "SIGNED=maybe: it has to be one of yes, no"),
        ):
            host.conf(served.url, **keys(door, **more))
            status, said = host.fetch()
            is_right = (status, host.held()) == (1, GOOD) and re.search(says, said) is not None
            host.check(f"{what}: nothing is taken", is_right, f"{status}: {said}")
            found = host.run("desk-host", "check").stdout
            host.check(f"{what}: check says so", re.search(says, found) is not None, found)
        host.check("nobody was asked", not served.asked, str(served.asked))
        host.conf(served.url, **keys(door))
        tool = host.path("/usr/bin/ssh-keygen")
        os.rename(tool, f"{tool}.away")
        says = "SIGNED=yes needs ssh-keygen"
        expect(host, "no ssh-keygen", 1, GOOD, says)
        found = host.run("desk-host", "check").stdout
        host.check("no ssh-keygen: check says so", says in found, found)
        os.rename(f"{tool}.away", tool)
        expect(host, "all is there", 0, MORE)


PARTS = (lying_front, lying_history, another_key, one_without, stale_by_lies, wrong_keys)
