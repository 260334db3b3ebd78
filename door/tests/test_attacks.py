"""Forgeries and replays: what somebody gets who has a relay's key, a person's key, or both."""

import base64
import itertools
import os
import random
import sqlite3
import struct
import subprocess
from concurrent.futures import ThreadPoolExecutor
from contextlib import closing
from dataclasses import replace
from datetime import timedelta
from pathlib import Path

import pytest

from door.tests.doors import SITE, Doored, wait_until
from door.tests.people import Person, behind_door
from door.tests.security_key import SecurityKey
from relays.tests.site import wait_for_next_second
from steelnewt_client.desk import Desk
from steelnewt_client.messages import Request, Wish
from steelnewt_client.moments import now, stamp
from steelnewt_client.signed import Signed, digest
from steelnewt_door.changing import Changing
from steelnewt_door.refusals import Refused
from steelnewt_door.settings import read_settings
from steelnewt_door.signers import Signer
from steelnewt_door.taking import Door, Way
from steelnewt_door.wire import parts_of, strings, wire


def ago(**words: float) -> str:
    return stamp(now() - timedelta(**words))


# --- a relay's key alone: every message in everybody's name, and no signature


def test_a_relay_alone_forges_nothing(untaken: Doored) -> None:
    request, verdict = untaken.request(command="ALL"), untaken.verdict()
    for text in (request, verdict, untaken.verdict(kind="refuse"), untaken.verdict(kind="revoke")):
        assert untaken.post(text) == "P20 NotSigned"
        assert untaken.post(f"{text}\t") == "P20 NotSigned"
        assert untaken.post(f"{text}\t\t{'0' * 64}") == "P20 NotSigned"
        for signature in ("ssh:AAAA", "ssh:", "list:AAAA:AAAA", "list::", "pgp:AAAA", "ssh:U1NI"):
            assert untaken.post(Signed(text, signature)) == "A20 BadSignature"
    assert untaken.held() == []


def test_no_root_by_a_relay(untaken: Doored) -> None:
    """Root's socket is not the relays', and a relay named root is none."""
    found = os.stat(untaken.folder / "root" / "desk.sock")
    assert found.st_mode & 0o777 == 0o600
    assert untaken.post(untaken.verdict(kind="revoke"), relay="root") == "P20 NotSigned"


# --- the same signature elsewhere


def test_a_signature_for_another_purpose(untaken: Doored) -> None:
    """As git's, or a file's: somebody lets ann sign anything else."""
    request = untaken.request()
    for namespace in ("git", "file", "desk-evidence", "steelnewt-message@v2"):
        signed = untaken.sign("ann", request, namespace=namespace)
        assert untaken.post(signed) == "A20 BadSignature"


def test_a_signature_for_another_site(untaken: Doored) -> None:
    """A desk for trials, with the same people: what they say there is said there alone."""
    for site in ("trial.example", "desk.exampl", "", f"{SITE}\n"):
        assert untaken.post(untaken.sign("ann", untaken.request(), site=site)) == "A20 BadSignature"


def test_bytes_that_could_be_read_otherwise(doored: Doored) -> None:
    """What is signed is one thing: no line of it slips into another."""
    request, verdict = doored.request(), doored.verdict()
    assert doored.post(doored.sign("ann", request)) == "ack"
    about = digest(request)
    # bob signs a revocation; its bytes and a digest are no approval's
    revoke = doored.verdict(kind="revoke")
    signed = doored.sign("bob", revoke)
    assert doored.post(Signed(verdict, signed.signature, about)) == "A20 BadSignature"
    # the site's name with the message in it
    signed = doored.sign("bob", about, site=f"{SITE}\n{verdict}")
    other = Signed(about).payload(f"{SITE}\n{verdict}")
    assert Signed(verdict, "", about).payload(SITE) == other
    # (that is a person who signs these very bytes; a message is never a digest)
    assert doored.post(Signed(about, signed.signature)) == "M2 NotCanonical"


def test_one_persons_signature_under_anothers_name(doored: Doored) -> None:
    request = doored.request(by="carol")
    assert doored.post(doored.sign("ann", request)) == "A20 BadSignature"
    assert doored.post(doored.sign("ann", doored.request())) == "ack"
    for kind in ("approve", "refuse", "revoke"):
        verdict = doored.verdict(by="bob", kind=kind)
        about = doored.request() if kind == "approve" else ""
        assert doored.post(doored.sign("ann", verdict, about)) == "A20 BadSignature"
    assert not doored.in_force()


@pytest.mark.parametrize("name", ["*", "!bob", "ann,bob", "-V", "a" * 33, "", "Ann", "bob "])
def test_names_that_a_list_of_signers_may_read_otherwise(untaken: Doored, name: str) -> None:
    """ssh-keygen takes patterns where signers are listed; a name is none."""
    text = untaken.verdict().replace('"by":"bob"', f'"by":"{name}"')
    assert untaken.post(untaken.sign("bob", text, untaken.request())) == "M3 BadField"


@pytest.mark.parametrize(
    "change",
    [
        ('{"at"', '{"at":"20260105083000Z","at"'),  # a member twice: readers differ in which
        ('"by":"bob"', '"by":"ann","by":"bob"'),
        ('"no":1', '"no":01'),
        ('"no":1', '"no":1.0'),
        ('"no":1', '"no":-0'),
        ('"bob"', '"\\u0062ob"'),
        ('{"at"', ' {"at"'),
        ('"}', '"}\n'),
        ('"}', '"}\0'),
        ('"}', '","x":1}'),
        ('"kind":"revoke"', '"kind":"request"'),
        ('"no":1', '"no":true'),
        ('"no":1', '"no":1000000000'),
    ],
)
def test_a_message_has_one_reading(untaken: Doored, change: tuple[str, str]) -> None:
    """The desk is never sent a text in which it might read another author than the door did."""
    text = untaken.verdict(kind="revoke").replace(*change)
    assert untaken.post(untaken.sign("bob", text))[:2] in ("M2", "M3")
    assert untaken.held() == []


# --- replays


def test_a_signature_again(doored: Doored) -> None:
    request = doored.request()
    signed = doored.sign("ann", request)
    for _ in range(3):
        assert doored.post(signed) == "ack"
    assert doored.held() == [request]
    assert len(doored.came()) == 1 and doored.codes() == ["ack"]


def test_an_approval_for_another_request_of_that_name(doored: Doored) -> None:
    """The desk refused what bob approved; another request of that name gets nothing of it."""
    shown = doored.request(no=3, command="/usr/bin/who")
    other = doored.request(no=3)
    verdict = doored.sign("bob", doored.verdict(no=3), shown)
    assert doored.post(doored.sign("ann", shown)) == "A6 CommandOutside"
    assert doored.post(verdict) == "K22 NoRequestYet"
    assert doored.post(doored.sign("ann", other)) == "ack"
    assert doored.post(verdict) == "A22 OtherRequest"
    assert not doored.in_force()


def test_an_approval_that_slept_at_the_desk(fresh: Doored) -> None:
    """From before there was a door: forged approvals of numbers that nobody has used yet."""
    desk = Desk(fresh.site.url)
    for no in (7, 8):
        assert desk.post("chat", fresh.verdict(no=no).encode()).said == "ack"
    fresh.stop_door()
    fresh.run("begin")
    fresh.start_door()
    assert fresh.post(fresh.sign("ann", fresh.request(no=7))) == "A24 NameTaken"
    assert fresh.post(fresh.sign("ann", fresh.request(no=9))) == "ack"
    assert not fresh.in_force()


def test_dated_back_to_when_a_duty_was_held(doored: Doored) -> None:
    request = doored.request()
    assert doored.post(doored.sign("ann", request)) == "ack"
    for at in (ago(days=30), ago(hours=2), "19700101000000Z"):
        late = doored.verdict(at=at)
        assert doored.post(doored.sign("bob", late, request)) == "A21 NotOfNow"
    ahead = doored.verdict(at=stamp(now() + timedelta(hours=1)))
    assert doored.post(doored.sign("bob", ahead, request)) == "K21 NotYet"
    # what takes rights away may be late: it was on its way for long
    assert doored.post(doored.sign("bob", doored.verdict(kind="revoke", at=ago(days=2)))) == "ack"


def test_an_approval_that_is_put_by_for_later(fresh: Doored) -> None:
    """bob signs today, while he holds the duty, what is asked for long after."""
    later = now() + timedelta(hours=3)
    fresh.stop_door()
    door = read_settings(str(fresh.config)).door()
    ahead = replace(door, clock=lambda: later.timestamp())

    def answer(at: Door, signed: Signed) -> str:
        try:
            said = at.take(Way("chat"), signed.line().encode())
            return said.partition(b"\r\n\r\n")[2].decode().strip()
        except Refused as fault:
            return fault.code

    wish = Wish.of("db-care", ["db1"], "root", ["/usr/bin/id"], (stamp(later), stamp(later)))
    request = Request("ann", 5, stamp(later), wish).text()
    approval = fresh.sign("bob", fresh.verdict(no=5), request)
    assert answer(door, approval) == "K22 NoRequestYet"
    assert answer(door, fresh.sign("ann", request)) == "K21 NotYet"
    assert answer(ahead, fresh.sign("ann", request)) == "ack"
    assert answer(ahead, approval) == "A21 NotOfNow"
    today = fresh.sign("bob", fresh.verdict(no=5, at=stamp(later)), request)
    assert answer(ahead, today) == "ack"
    door.journal.close()


# --- keys


def test_a_key_that_has_ended(doored: Doored) -> None:
    doored.new_key("erin")
    doored.add("erin")
    first, revoke = (doored.verdict(by="erin", no=it, kind="revoke") for it in (1, 2))
    assert doored.post(doored.sign("erin", first)) == "ack"
    before = doored.sign("erin", revoke)
    [mark] = [it.split()[1] for it in doored.signer("list").splitlines() if it.startswith("erin ")]
    # (a key ends behind its first second, and counts in its last one)
    doored.signer("end", mark)
    wait_for_next_second()
    assert doored.post(before) == "A20 BadSignature"
    doored.new_key("erin2")
    doored.add("erin", doored.public("erin2"))
    assert doored.post(doored.sign("erin2", revoke)) == "ack"


def test_a_key_that_does_not_count_yet(doored: Doored) -> None:
    """A version with a key of tomorrow, as root may write one for a change of duties."""
    changing = Changing(str(doored.folder / "signers"), read_settings(str(doored.config)).two())
    doored.new_key("frank")
    text = Path(doored.public("frank")).read_text().split()
    new = Signer("frank", text[0], text[1], stamp(now() + timedelta(days=1)))
    signers, revoked = changing.held()
    changing.write_draft([*signers, new], revoked, "{}")
    changing.put()
    changing.close()
    verdict = doored.verdict(by="frank", kind="revoke")
    assert doored.post(doored.sign("frank", verdict)) == "A20 BadSignature"
    assert doored.held() == []


def test_a_key_that_was_lost_never_comes_back(doored: Doored) -> None:
    doored.new_key("grace")
    doored.add("grace")
    doored.signer("lost", "grace")
    for name in ("grace", "bob"):
        words = ("add", name, doored.public("grace"), "--unproved")
        assert "was lost" in doored.signer(*words, status=2)


def test_a_key_of_two_people(doored: Doored) -> None:
    words = ("add", "ann", doored.public("bob"), "--unproved")
    assert "is bob's" in doored.signer(*words, status=2)


def test_an_rsa_key_that_is_written_otherwise(doored: Doored) -> None:
    """The same key with a zero before its exponent: ssh takes carol's signature for bob's then."""
    key = doored.folder / "rsa"
    subprocess.run(["ssh-keygen", "-q", "-t", "rsa", "-N", "", "-f", str(key)], check=True)
    doored.add("carol", f"{key}.pub")
    kind, text = Path(f"{key}.pub").read_text().split()[:2]
    raw = base64.b64decode(text)
    at = 4 + len("ssh-rsa")
    (size,) = struct.unpack_from(">I", raw, at)
    exponent = b"\0" + raw[at + 4 : at + 4 + size]
    other = raw[:at] + struct.pack(">I", len(exponent)) + exponent + raw[at + 4 + size :]
    (doored.folder / "odd.pub").write_text(f"{kind} {base64.b64encode(other).decode()}\n")
    said = doored.signer("add", "bob", str(doored.folder / "odd.pub"), "--unproved", status=2)
    assert "is carol's" in said


def test_a_certificate_of_the_authority(doored: Doored) -> None:
    doored.new_key("ca")
    doored.new_key("dave")
    doored.signer("add-authority", doored.public("ca"))
    words = ["-s", str(doored.folder / "ca"), "-I", "id", "-n", "dave", doored.public("dave")]
    subprocess.run(["ssh-keygen", "-q", *words], check=True)
    revoke = doored.verdict(by="dave", kind="revoke")
    assert doored.post(doored.sign("dave-cert.pub", revoke)) == "ack"
    assert doored.post(doored.sign("dave", doored.verdict(by="dave", no=2, kind="revoke"))) == (
        "A20 BadSignature"
    )
    in_bobs_name = doored.verdict(by="bob", kind="revoke")
    assert doored.post(doored.sign("dave-cert.pub", in_bobs_name)) == "A20 BadSignature"
    doored.signer("revoke", doored.public("dave"))
    again = doored.verdict(by="dave", no=4, kind="revoke")
    assert doored.post(doored.sign("dave-cert.pub", again)) == "A20 BadSignature"
    # the authority's own key signs nothing by itself
    assert doored.post(doored.sign("ca", in_bobs_name)) == "A20 BadSignature"


@pytest.mark.parametrize("curve", [False, True])
def test_a_security_key_has_to_be_touched(doored: Doored, curve: bool) -> None:
    """ssh-keygen itself takes its signature without a touch, as a stolen machine makes it."""
    key, name = SecurityKey(curve), f"heidi{curve:d}"
    doored.add(name, key.public(doored.folder / f"{name}.pub"))
    revoke = doored.verdict(by=name, kind="revoke")
    assert doored.post(key.sign(revoke, flags=0)) == "A20 BadSignature"
    assert "nobody touched it" in doored.said()
    assert doored.post(key.sign(revoke, flags=1)) == "ack"
    # the second one of a key is judged by python3-cryptography
    again = doored.verdict(by=name, kind="revoke", no=2)
    assert doored.post(key.sign(again, flags=0)) == "A20 BadSignature"
    assert doored.post(replace(key.sign(revoke), message=again)) == "A20 BadSignature"
    assert doored.post(key.sign(again)) == "ack"


# --- with a relay's account and its outbox


@pytest.fixture
def robbed(fresh: Doored) -> Doored:
    """A site whose relay is somebody else's: ann has asked, and its outbox has her request."""
    behind_door(fresh)
    fresh.site.hear()
    fresh.stop_door()
    ask = ("ask", "db-care", "--on", "db1", "--as", "root", "--for", "15m", "/usr/bin/id")
    assert "It is kept here" in Person(fresh, "ann").run(*ask, status=3)
    return fresh


def written(doored: Doored, statement: str, *values: object) -> None:
    with closing(sqlite3.connect(doored.folder / "outbox.db")) as base, base:
        base.execute(statement, values)


def test_an_outbox_that_was_rewritten(robbed: Doored) -> None:
    """Whoever has the relay's account writes what they like into the rows: other words under ann's
    signature, bob's verdicts with none, and with hers."""
    [(body, _)] = robbed.site.kept()
    other = body.replace("/usr/bin/id", "/usr/local/sbin/x")
    written(robbed, "UPDATE messages SET body = ?", other)
    row = "INSERT INTO messages (id, body, by, kind, of, no) VALUES (?, ?, 'bob', ?, 'ann', 1)"
    for id, kind in ((2, "refuse"), (3, "revoke")):
        written(robbed, row, id, robbed.verdict(kind=kind), kind)
    written(robbed, "INSERT INTO signatures SELECT 3, signature, about, why FROM signatures")
    robbed.start_door()
    robbed.site.start("post", "--every", "0.2")
    wait_until(lambda: len(robbed.codes()) == 3)
    assert sorted(robbed.codes()) == ["A20 BadSignature", "A20 BadSignature", "P20 NotSigned"]
    assert robbed.held() == []


def test_a_relays_program_in_the_thiefs_hands(robbed: Doored) -> None:
    """The program prepares a message and cannot send it, even where its settings say that the site
    signs nothing."""
    text = robbed.site.config.read_text()
    robbed.site.config.write_text(text.replace("required = true", "required = false"))
    for name, line in (
        ("carol", "ask db-care --on db1 --as root --for 15m --yes /usr/bin/id"),
        ("bob", "revoke ann 1 --yes"),
    ):
        assert robbed.site.run(name, line).returncode == 3
    robbed.start_door()
    robbed.site.start("post", "--every", "0.2")
    wait_until(lambda: len(robbed.codes()) == 3)
    assert sorted(robbed.codes()) == ["P20 NotSigned", "P20 NotSigned", "ack"]
    assert [it["how"] for it in robbed.came()] == ["signed"] and len(robbed.held()) == 1


def test_all_that_a_relay_ever_had_again(doored: Doored) -> None:
    """In any order, by any relay, once it is revoked: nothing comes back."""
    request = doored.request()
    lines = [doored.sign("ann", request), doored.sign("bob", doored.verdict(), request)]
    lines.append(doored.sign("bob", doored.verdict(kind="revoke")))
    for it in lines:
        assert doored.post(it) == "ack"
    rows = len(doored.rows())
    for order in itertools.permutations(lines):
        for relay in ("chat", "mail"):
            assert [doored.post(it, relay=relay) for it in order] == ["ack"] * 3
        assert not doored.in_force()
    assert len(doored.rows()) == rows


def test_parts_of_one_line_in_another(doored: Doored) -> None:
    """Each part of what two people signed, in the place of each part of the other."""
    request, other = doored.request(), doored.request(command="/usr/local/sbin/x", no=2)
    said = [doored.sign("ann", it) for it in (request, other)]
    said += [doored.sign("bob", doored.verdict(), request)]
    said += [doored.sign("bob", doored.verdict(kind="revoke"))]
    good = {it.line() for it in said}
    codes = set()
    for parts in itertools.product(said, repeat=3):
        mixed = Signed(parts[0].message, parts[1].signature, parts[2].about)
        if mixed.line() not in good:
            codes.add(doored.post(mixed))
    assert codes == {"A20 BadSignature"} and doored.held() == []


def test_a_signature_that_is_cut_or_changed(untaken: Doored) -> None:
    signed = untaken.sign("ann", untaken.request())
    raw, dice = base64.b64decode(signed.signature.removeprefix("ssh:")), random.Random(17)
    odd = [raw[:at] for at in (1, 6, 9, 10, 14, 60, len(raw) // 2, len(raw) - 1)]
    odd += [raw + b"\0", raw + raw, raw[10:], b"\0" + raw]
    for at in dice.sample(range(len(raw)), 30):
        odd.append(raw[:at] + bytes([raw[at] ^ 1 << dice.randrange(8)]) + raw[at + 1 :])
    for it in odd:
        text = base64.b64encode(it).decode("ascii")
        assert untaken.post(replace(signed, signature=f"ssh:{text}")) == "A20 BadSignature"


def forgeries(doored: Doored) -> list[tuple[Signed | str, str]]:
    """One of each kind, and its code."""
    request, verdict = doored.request(), doored.verdict()
    revoke, good = doored.verdict(kind="revoke"), doored.sign("ann", request)
    lists = doored.sign_list("bob", [Signed(revoke)])
    return [
        (request, "P20 NotSigned"), (verdict, "P20 NotSigned"), (revoke, "P20 NotSigned"),
        (doored.sign("thief", request), "A20 BadSignature"),
        (doored.sign("ann", revoke), "A20 BadSignature"),
        (doored.sign("ann", request, site="trial.example"), "A20 BadSignature"),
        (doored.sign("ann", request, namespace="git"), "A20 BadSignature"),
        (replace(good, message=doored.request(no=2)), "A20 BadSignature"),
        (replace(good, signature=good.signature[:99]), "A20 BadSignature"),
        (replace(good, signature=lists[0].signature), "A20 BadSignature"),
        (doored.sign("bob", verdict), "A22 OtherRequest"),
        (doored.sign("bob", doored.verdict(at=ago(days=3)), request), "A21 NotOfNow"),
        (doored.sign("ann", doored.request(at=stamp(now() + timedelta(hours=1)))), "K21 NotYet"),
        (doored.sign("bob", revoke, request), "A20 BadSignature"),
        (doored.sign("ann", "{}"), "M3 BadField"), (doored.sign("ann", "x"), "M2 NotCanonical"),
        ("x" * 16_385, "M1 TooLong"),
    ]  # fmt: skip


def test_the_desk_is_not_asked(fresh: Doored) -> None:
    """Each is refused by its own name while the desk is away: nobody needed it for that."""
    fresh.site.stop_desk()
    for given, code in forgeries(fresh):
        assert fresh.post(given) == code, given
    assert fresh.post(fresh.sign("ann", fresh.request())) == "K20 DeskAway"
    fresh.site.start_desk()
    assert fresh.held() == []


def test_a_thousand_at_once(fresh: Doored) -> None:
    """Each is refused by its name, and what is signed comes through between them."""
    kinds = forgeries(fresh)
    codes: list[tuple[str, str]] = []
    honest = [fresh.sign("ann", fresh.request(no=no)) for no in range(50, 60)]

    def forge(number: int) -> None:
        given, code = kinds[number % len(kinds)]
        codes.append((fresh.post(given), code))

    def speak(signed: Signed) -> str:
        return fresh.post(signed)

    with ThreadPoolExecutor(40) as crowd, ThreadPoolExecutor(1) as people:
        forged = [crowd.submit(forge, number) for number in range(1_000)]
        answers = list(people.map(speak, honest))
        for it in forged:
            it.result()
    assert answers == ["ack"] * 10
    assert len(codes) == 1_000 and all(one == other for one, other in codes)
    assert sorted(fresh.held()) == sorted(it.message for it in honest)


# --- one message, written in many ways

P256 = 0xFFFFFFFF00000000FFFFFFFFFFFFFFFFBCE6FAADA7179E84F3B9CAC2FC632551  # (the group's order)
BASE64 = "ABCDEFGHIJKLMNOPQRSTUVWXYZabcdefghijklmnopqrstuvwxyz0123456789+/"


def number(raw: int) -> bytes:
    """A number as ssh writes it."""
    return raw.to_bytes(raw.bit_length() // 8 + 1, "big")


def rewritten(signed: Signed) -> list[Signed]:
    """The same signature in other bytes, as a relay makes them that has no key: with zeros before
    its numbers, with the other one of its two, and with other bits behind its base64."""
    raw = base64.b64decode(signed.signature.removeprefix("ssh:"))
    parts = parts_of(raw)
    algorithm, itself, _ = parts.tail
    first, second = (int.from_bytes(it, "big") for it in strings(itself))
    pairs = [(b"\0" * count + number(first), number(second)) for count in range(1, 9)]
    pairs.append((number(first), number(P256 - second)))
    head = raw[: len(raw) - len(wire(parts.signature))]
    made = [head + wire(wire(algorithm) + wire(wire(one) + wire(two))) for one, two in pairs]
    texts = [base64.b64encode(it).decode("ascii") for it in made]
    bare = signed.signature.removeprefix("ssh:").rstrip("=")
    last = BASE64.index(bare[-1])
    tail = "=" * (-len(bare) % 4)
    texts += [bare[:-1] + BASE64[last | more] + tail for more in (1, 2, 3) if tail]
    return [replace(signed, signature=f"ssh:{it}") for it in texts]


def test_a_signature_that_is_written_otherwise(doored: Doored) -> None:
    """One message has one row, however often a relay rewrites its signature: or it would fill the
    journal by itself, and the last tenth of it, which is for what takes rights away."""
    doored.new_key("peter", "ecdsa")
    doored.add("nora", doored.public("peter"))
    doored.new_key("paul", "ecdsa")
    doored.add("olga", doored.public("paul"))
    for name, key in (("nora", "peter"), ("olga", "paul")):
        signed = doored.sign(key, doored.verdict(by=name, kind="revoke"))
        assert doored.post(signed) == "ack"
        before = len(doored.rows())
        others = [it for it in rewritten(signed) if it != signed]
        assert len(others) >= 9
        assert {doored.post(it) for it in others} <= {"ack", "A20 BadSignature"}
        kept = [it for it in doored.rows()[before:] if it.get("how") != "refused"]
        assert [it for it in kept if it["row"] == "came" or it["code"] == "ack"] == []
