"""Hosts' files with the door's own signature, from the desk to a host: whoever has the front, its
key and all that the door ever signed for anybody gives a host nothing."""

import os
import re
import socket
import subprocess
import threading
import time
from collections.abc import Callable, Iterator
from contextlib import closing, contextmanager, suppress
from pathlib import Path

import pytest

from door.tests.doors import IS_ROOT, SITE, Doored, exchanged, program, ran
from relays.tests.site import PATIENCE
from steelnewt_client.desk import Desk
from steelnewt_client.moments import now, stamp
from steelnewt_door import program as door_program
from steelnewt_host.answers import Answer, answer_of
from steelnewt_host.counts import Record
from steelnewt_host.faults import Fault, Unsigned
from steelnewt_host.settings import Settings, settings_of

MOMENT, NONCE = "20260105093000Z", "0123456789abcdef" * 2
FILE = f"/v1/hosts/db1/at/{MOMENT}"
SIGNED = f"{FILE}/signed/{NONCE}"
Told = tuple[int, bytes]


class Signing:
    """A site whose door answers hosts."""

    def __init__(self, doored: Doored) -> None:
        self.doored, self.folder = doored, doored.folder
        self.told = self.key()
        self.running: subprocess.Popen[str] | None = None
        self.start()

    def key(self, *words: str, status: int = 0) -> str:
        return self.doored.run("file-key", *words, status=status)

    def start(self) -> None:
        words = [*program("desk-door"), "--config", str(self.doored.config), "answer"]
        with open(self.folder / "answers.log", "ab") as log:
            self.running = subprocess.Popen(words, stdout=subprocess.PIPE, stderr=log, text=True)
        assert self.running.stdout
        assert self.running.stdout.readline().startswith("listening unix:")

    def stop(self) -> int:
        assert self.running and self.running.stdout
        self.running.terminate()
        status = self.running.wait(PATIENCE)
        self.running.stdout.close()
        return status

    def ask(self, route: str, method: str = "GET") -> Told:
        """The status and the body of what the door answers."""
        given = f"{method} {route} HTTP/1.1\r\nHost: desk\r\n\r\n".encode()
        head, _, body = exchanged(self.folder / "answers.sock", given).partition(b"\r\n\r\n")
        return int(head.split(b" ")[1]), body

    def settings(self, url: str, **more: str) -> Settings:
        lines = dict(it.split("=", 1) for it in self.told.splitlines())
        return settings_of({"DESKS": url} | lines | more)

    def fetched(self, url: str, moment: str = "", **more: str) -> Answer:
        """What a host takes of a front."""
        last = Record(str(self.folder), "db1").sure
        at = moment or stamp(now())
        return answer_of(self.settings(url, **more), url, "db1", last, at)


@pytest.fixture(scope="module")
def signing(shared: Doored) -> Iterator[Signing]:
    found = Signing(shared)
    yield found
    assert found.stop() == 0


@contextmanager
def front(answer: Callable[[str], bytes]) -> Iterator[str]:
    """A front, or somebody in its place, which gives each question this answer."""
    listener = socket.create_server(("127.0.0.1", 0))

    def serve() -> None:
        with suppress(OSError):
            while True:
                peer, _ = listener.accept()
                with peer:
                    peer.sendall(answer(peer.recv(65_536).split(b" ")[1].decode()))

    threading.Thread(target=serve, daemon=True).start()
    with closing(listener):
        yield f"http://127.0.0.1:{listener.getsockname()[1]}"


def whole(told: Told) -> bytes:
    status, body = told
    head = f"HTTP/1.1 {status} It\r\nContent-Type: text/plain\r\nContent-Length: {len(body)}"
    return f"{head}\r\n\r\n".encode() + body


def judged(signing: Signing, route: str, body: bytes, site: str = SITE) -> bool:
    """Whether ssh-keygen takes an answer for the door's, by the words of SIGNING's page."""
    line, _, answer = body.partition(b"\n")
    key = signing.told.split("FILE_KEYS=")[1].split()[0]
    (signing.folder / "door.allowed").write_text(f"door ssh-ed25519 {key}\n")
    text = line.removeprefix(b"ssh:").decode()
    armor = f"-----BEGIN SSH SIGNATURE-----\n{text}\n-----END SSH SIGNATURE-----\n"
    (signing.folder / "answer.sig").write_text(armor)
    words = ["ssh-keygen", "-Y", "verify", "-f", "door.allowed", "-I", "door"]
    words += ["-n", "steelnewt-file@v1", "-s", "answer.sig"]
    given = f"{site}\n{route}\n".encode() + answer
    done = subprocess.run(words, cwd=signing.folder, input=given, capture_output=True)
    return done.returncode == 0


# --- the key


def test_a_key_is_made_once_and_for_the_door_alone(tmp_path: Path) -> None:
    doored = Doored(tmp_path)
    told = doored.run("file-key")
    assert re.fullmatch(f"SIGNED=yes\nSITE={SITE}\nFILE_KEYS=AAAA[A-Za-z0-9+/]{{64}}\n", told)
    assert os.stat(tmp_path / "key").st_mode & 0o7777 == 0o600
    assert doored.run("file-key") == told
    shown = subprocess.run(
        ["ssh-keygen", "-y", "-f", str(tmp_path / "key")], capture_output=True, text=True
    )
    assert shown.stdout.split()[1] == told.split("FILE_KEYS=")[1].strip()


def test_another_key_beside_the_first(tmp_path: Path) -> None:
    doored = Doored(tmp_path)
    first = doored.run("file-key").split("FILE_KEYS=")[1].split()
    assert "no key" in doored.run("file-key", "--turn", status=2)
    both = doored.run("file-key", "--next").split("FILE_KEYS=")[1].split()
    assert both[0] == first[0] and len(set(both)) == 2
    assert doored.run("file-key", "--next").split("FILE_KEYS=")[1].split() == both
    assert doored.run("file-key", "--turn").split("FILE_KEYS=")[1].split() == both[1:]
    assert doored.run("file-key").split("FILE_KEYS=")[1].split() == both[1:]


def test_a_key_that_others_may_read_signs_nothing(tmp_path: Path) -> None:
    doored = Doored(tmp_path)
    for text, mode, says in (
        (None, 0, "there is no key"),
        ("x\n", 0o600, "is no key of ssh's without a passphrase"),
        ("x\n", 0o640, "has to be the door's own, with mode 0600"),
    ):
        if text:
            (tmp_path / "key").write_text(text)
            (tmp_path / "key").chmod(mode)
        words = ["--config", str(doored.config), "answer"]
        assert says in ran(door_program.main, words, 2)


@pytest.mark.skipif(not IS_ROOT, reason="another account's folder needs root")
def test_root_makes_no_key_that_the_door_cannot_read(tmp_path: Path) -> None:
    doored = Doored(tmp_path)
    os.chown(tmp_path, 65_534, 65_534)
    assert "is another account's" in doored.run("file-key", status=2)


# --- what is signed


def test_an_answer_is_the_desks_with_a_signature_before_it(signing: Signing) -> None:
    """ssh-keygen takes it for this site, host, moment and number, and for no other."""
    status, body = signing.ask(SIGNED)
    assert status == 200 and body.partition(b"\n")[2].decode() == desk_of(signing).get(FILE)
    assert judged(signing, SIGNED, body)
    assert not judged(signing, SIGNED, body, "trial.example")
    for was, becomes in (("db1", "db2"), (MOMENT, "20260105093001Z"), (NONCE, NONCE[::-1])):
        assert not judged(signing, SIGNED.replace(was, becomes), body)
    assert not judged(signing, SIGNED, body + b"bob ALL = (root) ALL\n")
    assert not judged(signing, SIGNED, body[:-1])


def desk_of(signing: Signing) -> Desk:
    return Desk(signing.doored.site.url)


def test_what_the_desk_refuses_passes_as_it_is(signing: Signing) -> None:
    for route in (f"/v1/hosts/nobody/at/{MOMENT}", "/v1/hosts/db1/at/20261305093000Z"):
        plain = desk_of(signing).exchange("GET", route)
        assert signing.ask(f"{route}/signed/{NONCE}") == (plain.status, plain.body)
        assert plain.status in (400, 404)
    assert signing.ask(f"/v1/hosts/db1/history/signed/{NONCE}")[0] in (200, 404)


def test_the_door_answers_nothing_else_there(signing: Signing) -> None:
    for route in (
        FILE, f"{FILE}/signed", f"{FILE}/signed/", f"{FILE}/signed/{NONCE[1:]}",
        f"{SIGNED}0", f"{SIGNED}/", f"{SIGNED}?x", SIGNED.upper(), "/v1/messages",
        "/v1/relays/chat/messages", "/", f"/v1/hosts/../x/at/{MOMENT}/signed/{NONCE}",
        f"/v1/hosts/db1/sudoers/signed/{NONCE}", f"/v1/history/signed/{NONCE}",
        f"/v1/hosts/db1/at/1Z/signed/{NONCE}", f"//v1/hosts/db1/at/{MOMENT}/signed/{NONCE}",
    ):  # fmt: skip
        assert signing.ask(route) == (404, b"T3 NoRoute\n"), route
    assert signing.ask(SIGNED, "POST") == (405, b"T4 BadMethod\n")
    assert signing.ask(SIGNED, "HEAD") == (200, b"")
    assert signing.ask("x y", "GET") == (400, b"T1 BadHead\n")
    assert exchanged(signing.folder / "answers.sock", b"GET\r\n\r\n").startswith(b"HTTP/1.1 400 ")


# --- a host behind a front


def test_a_host_takes_what_the_door_signed(signing: Signing) -> None:
    with front(lambda target: whole(signing.ask(target))) as url:
        found = signing.fetched(url)
    assert found.text.decode() == desk_of(signing).get("/v1/hosts/db1/sudoers")
    assert found.messages == desk_of(signing).count()[0]


def test_a_host_that_asks_as_before_needs_no_signature(signing: Signing) -> None:
    def plain(target: str) -> bytes:
        found = desk_of(signing).exchange("GET", target)
        return whole((found.status, found.body))

    with front(plain) as url:
        assert signing.fetched(url, SIGNED="no").text
        with pytest.raises(Unsigned, match="it gives no signed file .*404 T3 NoRoute"):
            signing.fetched(url)


def test_what_was_asked_for_in_advance_is_of_no_use(signing: Signing) -> None:
    """Whoever has the front asks today for each second of tomorrow, and answers so tomorrow, when
    a right was taken away: the host's number is another one."""
    moments = [f"2026010509{minute:02}00Z" for minute in range(60)]
    kept = {it: signing.ask(f"/v1/hosts/db1/at/{it}/signed/{NONCE}") for it in moments}
    assert {status for status, _ in kept.values()} == {200}

    def later(target: str) -> bytes:
        found = re.search(r"at/([0-9]{14}Z)/", target)
        return whole(kept[found[1]] if found else (404, b"T3 NoRoute\n"))

    with front(later) as url:
        for moment in moments[::20]:
            with pytest.raises(Unsigned, match="the signature of its answer is not good"):
                signing.fetched(url, moment)


def test_what_was_signed_for_another_question(signing: Signing) -> None:
    """All that the door signs for whoever asks it, in the place of what a host asks for."""
    for change in (
        lambda it: it.replace("/db1/", "/web1/"),
        lambda it: re.sub("at/[0-9]{4}", "at/2025", it),
        lambda it: it[:-32] + NONCE,
    ):  # fmt: skip
        with front(lambda target: whole(signing.ask(change(target)))) as url:
            with pytest.raises(Fault):
                signing.fetched(url)
    with front(lambda target: whole(signing.ask(re.sub("at/[0-9]+Z", "history", target)))) as url:
        with pytest.raises(Fault):
            signing.fetched(url)


def test_a_door_of_another_site(signing: Signing, tmp_path: Path) -> None:
    """A desk for trials behind a door with the same key, which somebody copied: its site's name is
    another one."""
    told = signing.settings("http://x")._replace(site="trial.example")
    with front(lambda target: whole(signing.ask(target))) as url:
        with pytest.raises(Unsigned):
            answer_of(told, url, "db1", Record(str(tmp_path), "db1").sure, MOMENT)


def test_a_front_that_changes_what_passes(signing: Signing) -> None:
    def changed(how: Callable[[bytes], bytes]) -> Callable[[str], bytes]:
        return lambda target: whole((200, how(signing.ask(target)[1])))

    for how in (
        lambda it: it + b"bob ALL = (root) ALL\n",
        lambda it: it[:-1],
        lambda it: it.partition(b"\n")[2],
        lambda it: it[:100] + b"A" + it[101:],
        lambda it: b"ssh:" + b"A" * 1_000_000 + b"\n" + it,
        lambda it: b"",
    ):  # fmt: skip
        with front(changed(how)) as url, pytest.raises(Unsigned):
            signing.fetched(url)


# --- what fails, and how many there are


def test_the_desk_is_away(tmp_path: Path) -> None:
    doored = Doored(tmp_path)
    signing = Signing(doored)
    try:
        assert signing.ask(SIGNED) == (503, b"K20 DeskAway\n")
        with front(lambda target: whole(signing.ask(target))) as url:
            with pytest.raises(Fault, match="503 K20 DeskAway") as caught:
                signing.fetched(url)
            assert not isinstance(caught.value, Unsigned)
        doored.site.start_desk()
        assert signing.ask(SIGNED)[0] == 200
    finally:
        assert signing.stop() == 0
        doored.close()


def test_another_key_holds_at_once_and_a_lost_one_is_said(tmp_path: Path) -> None:
    doored = Doored(tmp_path)
    doored.site.start_desk()
    signing = Signing(doored)
    try:
        assert judged(signing, SIGNED, signing.ask(SIGNED)[1])
        before = signing.told
        signing.key("--next")
        assert judged(signing, SIGNED, signing.ask(SIGNED)[1])
        signing.told = signing.key("--turn")
        assert judged(signing, SIGNED, signing.ask(SIGNED)[1])
        signing.told = before
        assert not judged(signing, SIGNED, signing.ask(SIGNED)[1])
        os.chmod(tmp_path / "key", 0o644)
        os.utime(tmp_path / "key", (1, 1))
        assert signing.ask(SIGNED) == (503, b"K23 DoorFails\n")
        assert "has to be the door's own" in (tmp_path / "answers.log").read_text()
        assert "hosts with SIGNED=yes get no file" in doored.run("check", status=2)
    finally:
        assert signing.stop() == 0
        doored.close()


def test_who_says_nothing_keeps_nobody_waiting(signing: Signing) -> None:
    silent = []
    try:
        for _ in range(300):
            peer = socket.socket(socket.AF_UNIX)
            peer.connect(str(signing.folder / "answers.sock"))
            peer.sendall(b"GET /v1/")
            silent.append(peer)
        begun = time.monotonic()
        assert signing.ask(SIGNED)[0] == 200
        assert time.monotonic() - begun < 5
    finally:
        for peer in silent:
            peer.close()


def test_a_thousand_hosts_a_minute(signing: Signing) -> None:
    """(the best of some rounds: others work on this machine)"""
    took = list[float]()
    for turn in range(5):
        begun = time.monotonic()
        for number in range(50):
            assert signing.ask(f"{FILE}/signed/{50 * turn + number:032x}")[0] == 200
        took.append(time.monotonic() - begun)
    print(f"{50 / min(took):.0f} signed answers a second")
    assert min(took) < 3
