"""Passkeys at the door: what an authenticator says that was not asked by the door's page for this
very message counts for nothing. (test_page.py has the page, test_browser.py a real browser.)"""

from collections.abc import Iterator
from dataclasses import replace
from pathlib import Path

import pytest

from door.tests.authenticator import ORIGIN, PAGE, TOUCHED, VERIFIED, Authenticator, add
from door.tests.doors import SITE, Doored, ran
from relays.tests.site import wait_for_next_second
from steelnewt_client.signed import Signed, digest
from steelnewt_door import verify_program
from steelnewt_door.bringing import Copy
from steelnewt_door.shown import rows_after, versions_after

REFUSED = "A20 BadSignature"


def verified(doored: Doored, status: int, kept: Path | None = None) -> list[str]:
    """What desk-verify says of a journal, and of all that the desk holds."""
    folder = kept or doored.folder
    messages = doored.folder / "messages.txt"
    messages.write_text("".join(f"{it}\n" for it in doored.all_held()))
    words = ["--site", SITE, "--journal", str(folder / "journal"), "--sample", "1"]
    words += ["--signers", str(folder / "signers"), "--messages", str(messages)]
    return ran(verify_program.main, words, status).splitlines()


class Keyed:
    """A site where carol has a passkey, and ann and bob keys of ssh's."""

    def __init__(self, folder: Path, more: str = PAGE) -> None:
        self.doored, self.carols = Doored(folder), Authenticator()
        self.doored.configure(more=more)
        add(self.doored, "carol", self.carols)
        self.doored.start()

    def asked(self, no: int = 1, command: str = "/usr/bin/id") -> str:
        """A request of ann's that the desk holds."""
        request = self.doored.request(no=no, command=command)
        assert self.doored.post(self.doored.sign("ann", request)) == "ack"
        return request

    def approval(self, no: int = 1) -> str:
        return self.doored.verdict(by="carol", no=no)

    def revocation(self, no: int = 1, by: str = "carol") -> str:
        return self.doored.verdict(by=by, kind="revoke", no=no)

    def post(self, signed: Signed) -> str:
        return self.doored.post(signed)


@pytest.fixture(scope="module")
def shared_keys(tmp_path_factory: pytest.TempPathFactory) -> Iterator[Keyed]:
    found = Keyed(tmp_path_factory.mktemp("k"))
    yield found
    found.doored.close()


@pytest.fixture
def keyed(shared_keys: Keyed) -> Keyed:
    """The same, with numbers that no other test has."""
    shared_keys.doored.block += 100
    return shared_keys


def test_approved_by_a_touch(keyed: Keyed) -> None:
    request = keyed.asked()
    assert keyed.post(keyed.carols.sign(keyed.approval(), request)) == "ack"
    assert [it[:4] for it in keyed.doored.in_force()] == ["ann "]
    [row] = [it for it in keyed.doored.came() if "approve" in it["message"]]
    assert row["key"] in keyed.doored.signer("list") and row["how"] == "signed"
    said = verified(keyed.doored, 0)
    assert "2 signatures, 1 of passkeys, 1 by ssh-keygen again" in said
    assert "1 approvals, 1 over the very request" in said
    assert keyed.post(keyed.carols.sign(keyed.revocation())) == "ack"
    assert not keyed.doored.in_force()


def test_auditors_verify_it_elsewhere(tmp_path: Path) -> None:
    """By a copy of what the door answers to them alone: a passkey's origin stands beside it."""
    keyed = Keyed(tmp_path)
    try:
        request = keyed.asked()
        assert keyed.post(keyed.carols.sign(keyed.approval(), request)) == "ack"

        def ask(path: str) -> bytes:
            last = path.rpartition("/")[2]
            if "/signers/" in path:
                return versions_after(str(tmp_path / "signers"), last)
            return rows_after(str(tmp_path / "journal"), int(last))

        copy = Copy(str(tmp_path / "copy"))
        assert list(copy.bring(ask)) == []
        copy.bring_signers(ask)
        said = verified(keyed.doored, 0, tmp_path / "copy")
        assert "2 signatures, 1 of passkeys, 1 by ssh-keygen again" in said
        [file] = tmp_path.glob("copy/signers/2*/passkeys")
        file.write_text(file.read_text().replace("door", "desk").replace("8444", "8443"))
        said = verified(keyed.doored, 1, tmp_path / "copy")
        assert any("another page asked for it" in it for it in said)
    finally:
        keyed.doored.close()


# What each is, and what of the browser's or the authenticator's words differs.
FORGED: dict[str, dict[str, object]] = {
    "another origin": {"origin": "https://thief.example"},
    "the page of a relay, of the same site": {"origin": "https://desk.example:8443"},
    "the door's origin without its port": {"origin": "https://desk.example"},
    "the door's origin without TLS": {"origin": "http://desk.example:8444"},
    "another site": {"rp": "thief.example"},
    "another desk": {"site": "trial.example"},
    "nobody touched it": {"flags": VERIFIED},
    "its owner is not known": {"flags": TOUCHED},
    "a new passkey's answer": {"kind": "webauthn.create"},
    "in a frame": {"crossOrigin": True},
    "in a frame, as text": {"crossOrigin": "false"},
    "in a frame of": {"topOrigin": ORIGIN},
    "another request": {"request": "another"},
    "another reason": {"why": digest("another")},
}


@pytest.mark.parametrize("name", FORGED)
def test_a_touch_for_something_else(keyed: Keyed, name: str) -> None:
    request, forged = keyed.asked(), FORGED[name]
    said = {"request": request} | forged
    made = keyed.carols.sign(keyed.approval(), **said)  # type: ignore[arg-type]
    wanted = Signed(keyed.approval(), made.signature, digest(request))
    assert keyed.post(wanted) == REFUSED
    assert keyed.doored.held() == [request]
    # what differs is all that was wrong
    assert keyed.post(keyed.carols.sign(keyed.approval(), request)) == "ack"


def test_shown_one_and_touched_for_another(keyed: Keyed) -> None:
    """A relay shows one request, and brings the touch with another: each is over its own bytes."""
    harmless, evil = keyed.asked(1, "/usr/bin/id"), keyed.asked(2)
    touched = keyed.carols.sign(keyed.approval(1), harmless)
    for message, about in (
        (keyed.approval(2), digest(evil)),
        (keyed.approval(2), digest(harmless)),
        (keyed.approval(1), digest(evil)),
        (keyed.revocation(1), ""),
        (keyed.doored.verdict(by="carol", no=1, at="20260101000000Z"), digest(harmless)),
    ):
        assert keyed.post(Signed(message, touched.signature, about)) == REFUSED, message
    assert not keyed.doored.in_force()


def test_a_touch_that_is_used_twice(keyed: Keyed) -> None:
    """The same message again is the same; under another message it is nothing."""
    request = keyed.asked()
    signed = keyed.carols.sign(keyed.approval(), request)
    assert [keyed.post(signed) for _ in range(3)] == ["ack"] * 3
    assert len([it for it in keyed.doored.came() if it["key"] != ""]) == 2
    wait_for_next_second()
    later = replace(signed, message=keyed.approval())
    assert keyed.post(later) == REFUSED


def test_a_list_is_one_touch(keyed: Keyed) -> None:
    requests = {no: keyed.asked(no) for no in (1, 2, 3)}
    said = [Signed(keyed.approval(no), "", digest(it)) for no, it in requests.items()]
    shown, hidden = said[:2], said[2]
    signed = keyed.carols.sign_list(shown)
    assert keyed.post(replace(hidden, signature=signed[0].signature)) == REFUSED
    # a list to which somebody put what was not shown
    head, _, digests = signed[0].signature.rpartition(":")
    longer = keyed.carols.sign_list(said)[0].signature.rpartition(":")[2]
    assert keyed.post(replace(hidden, signature=f"{head}:{longer}")) == REFUSED
    assert keyed.post(replace(shown[0], signature=f"{head.replace('-list', '')}")) == REFUSED
    assert [keyed.post(it) for it in signed] == ["ack"] * 2
    assert len(keyed.doored.in_force()) == 2 and digests


def test_a_counter_that_went_back(keyed: Keyed) -> None:
    """Somebody copied the passkey: the two count on beside each other, and one of them shows."""
    own = Authenticator()
    add(keyed.doored, "grace", own)
    copied = own.count
    requests = {no: keyed.doored.request(by="grace", no=no) for no in range(1, 6)}
    assert [keyed.post(own.sign(requests[no])) for no in (1, 2)] == ["A3 NotAsker"] * 2
    # (the desk says more of these than the door, which took them)
    own.count, ahead = copied, own.count
    assert keyed.post(own.sign(requests[3])) == "A26 CopiedKey"
    own.count = ahead - 1
    assert keyed.post(own.sign(requests[4])) == "A26 CopiedKey"
    own.count = copied
    # its owner still takes away what the copy gave, and that is said
    assert keyed.post(own.sign(keyed.revocation(4, "grace"))) == "ack"
    assert "A26 CopiedKey: what takes rights away is taken all the same" in keyed.doored.said()
    own.count = ahead
    assert keyed.post(own.sign(requests[5])) == "A3 NotAsker"
    found = [it for it in verified(keyed.doored, 1) if it.startswith("COPIED KEY")]
    assert len(found) == 1 and '"kind":"revoke"' in found[0]


def test_what_was_signed_later_may_come_first(keyed: Keyed) -> None:
    """A relay sends what takes rights away before all else."""
    own = Authenticator()
    add(keyed.doored, "heidi0", own)
    request = keyed.doored.request(by="heidi0")
    first = own.sign(request)
    wait_for_next_second()
    then = own.sign(keyed.revocation(2, "heidi0"))
    assert [keyed.post(it) for it in (then, first)] == ["ack", "A3 NotAsker"]


def test_a_passkey_without_a_counter(keyed: Keyed) -> None:
    """A vendor copies some passkeys to all of a person's machines: each of these says 0."""
    own = Authenticator()
    add(keyed.doored, "heidi1", own, step=0)
    for no in (1, 2):
        revoke = keyed.revocation(no, "heidi1")
        assert keyed.post(own.sign(revoke, step=0)) == "ack"
    assert own.count == 0


def test_somebody_elses_passkey(keyed: Keyed) -> None:
    thiefs = Authenticator()
    revoke = keyed.revocation()
    assert keyed.post(thiefs.sign(revoke)) == REFUSED
    thiefs.id = keyed.carols.id
    assert keyed.post(thiefs.sign(revoke)) == REFUSED
    assert keyed.post(keyed.carols.sign(keyed.revocation(by="bob"))) == REFUSED


def test_a_ceiling_of_ssh_alone(keyed: Keyed) -> None:
    """What the most dangerous ceiling gives is asked and approved by ssh."""
    mine = keyed.doored.request(by="carol", no=2, command="ALL")
    assert keyed.post(keyed.carols.sign(mine)) == "A27 NotBySsh"
    request = keyed.asked(command="ALL")
    assert keyed.post(keyed.carols.sign(keyed.approval(), request)) == "A27 NotBySsh"
    bobs = keyed.doored.sign("bob", keyed.doored.verdict(), request)
    assert keyed.post(bobs) == "ack"
    # who takes rights away needs none
    assert keyed.post(keyed.carols.sign(keyed.revocation())) == "ack"


# --- whose passkey is whose


def test_several_of_one_person_that_end_and_are_lost(keyed: Keyed) -> None:
    first, second, third = (Authenticator() for _ in range(3))
    for each in (first, second):
        add(keyed.doored, "erin", each)
    for no, each in enumerate((first, second), 1):
        assert keyed.post(each.sign(keyed.revocation(no, "erin"))) == "ack"
    marks = [it.split()[1] for it in keyed.doored.signer("list").splitlines() if "erin " in it]
    keyed.doored.signer("end", marks[0])
    wait_for_next_second()
    assert keyed.post(first.sign(keyed.revocation(3, "erin"))) == REFUSED
    said = add(keyed.doored, "erin", third, "rotate")
    assert said.count("erin webauthn SHA256:") >= 2 and ORIGIN in said
    assert keyed.post(second.sign(keyed.revocation(4, "erin"))) == "ack"
    said = keyed.doored.signer("lost", "erin", marks[1])
    assert f"2 messages were signed with {marks[1]}" in said
    for each, answer in ((second, REFUSED), (third, "ack")):
        assert keyed.post(each.sign(keyed.revocation(5, "erin"))) == answer
    assert "was lost: it never counts again" in add(keyed.doored, "bob", second, status=2)
    assert any(it.startswith("LOST KEY") for it in verified(keyed.doored, 1))


def test_who_enrols(keyed: Keyed) -> None:
    """A passkey of somebody who did not sign the word, here, at the door's page, is nobody's."""
    new = Authenticator()
    forged: list[dict[str, object]] = [
        {"origin": "https://desk.example:8443"}, {"rp": "thief.example"}, {"flags": VERIFIED},
        {"flags": TOUCHED}, {"site": "trial.example"},
    ]  # fmt: skip
    for wrong in forged:
        said = add(keyed.doored, "frank", new, status=2, **wrong)  # type: ignore[arg-type]
        assert "frank did not sign the word with this key" in said, wrong
    path = keyed.doored.folder / "line"
    path.write_text(new.enrolment("frank", "0123456789abcdef"))
    assert "did not sign the word" in keyed.doored.signer("add", "frank", str(path), status=2)
    other = Authenticator()
    other.id, other.blob = new.id, new.blob
    assert "did not sign the word" in add(keyed.doored, "frank", other, status=2)
    assert "is carol's" in add(keyed.doored, "frank", keyed.carols, status=2)
    assert "hold" in add(keyed.doored, "frank", new)
    assert "is frank's" in add(keyed.doored, "bob", new, status=2)
    path.write_text(new.public)
    words = ("add", "bob", str(path), "--unproved")
    assert "no public key" in keyed.doored.signer(*words, status=2)


def test_a_line_that_somebody_wrote_into_the_file(tmp_path: Path) -> None:
    """A version with a line that desk-signer writes none of is believed in nothing."""
    keyed = Keyed(tmp_path)
    try:
        version = max(tmp_path.glob("signers/2*"))
        text = (version / "passkeys").read_text()
        (version / "passkeys").write_text(text + text.replace(",verify-required", ",any"))
        assert keyed.post(keyed.carols.sign(keyed.revocation())) == "K25 NoSigners"
        # (lost, though nobody said until when it counted)
        (version / "passkeys").write_text(f"{text}revoked {keyed.carols.public}\n")
        assert keyed.post(keyed.carols.sign(keyed.revocation())) == REFUSED
        (version / "passkeys").write_text(text)
        assert keyed.post(keyed.carols.sign(keyed.revocation())) == "ack"
    finally:
        keyed.doored.close()


def test_two_people_say_yes_to_a_passkey(tmp_path: Path) -> None:
    doored, new = Doored(tmp_path), Authenticator()
    doored.configure(more=f"{PAGE}changes_by = 2\n")
    said = add(doored, "carol", new, status=3)
    assert "carol webauthn SHA256:" in said and f"at {ORIGIN}, with a PIN or a finger" in said
    text = (tmp_path / "signers/draft/to-sign").read_bytes()
    for who in ("ann", "bob"):
        raw = doored.signature(who, text, "steelnewt-change@v1")
        (tmp_path / f"{who}.yes").write_text(f"{who} ssh:{raw}\n")
    ann, bob = (str(tmp_path / f"{it}.yes") for it in ("ann", "bob"))
    assert "have to" in doored.signer("put", ann, status=2)
    assert "hold" in doored.signer("put", ann, bob)
    # to take it away needs none
    mark = next(it.split()[1] for it in doored.signer("list").splitlines() if "webauthn" in it)
    assert "hold" in doored.signer("end", mark)


def test_where_no_pin_and_no_finger_is_wanted(tmp_path: Path) -> None:
    keyed = Keyed(tmp_path, f'{PAGE}verified = "no"\n')
    try:
        assert keyed.post(keyed.carols.sign(keyed.revocation(), flags=TOUCHED)) == "ack"
        assert keyed.post(keyed.carols.sign(keyed.revocation(2), flags=VERIFIED)) == REFUSED
    finally:
        keyed.doored.close()
    assert SITE in keyed.doored.said()


@pytest.mark.parametrize(
    ("more", "why"),
    [
        ('origin = "https://desk.example/"\n', "origin is where browsers find the page"),
        ('origin = "http://desk.example"\n', "origin is where browsers find the page"),
        ('origin = "https://a.b:1"\nrelay_pages = ["https://a.b:1"]\n', "no page of a relay"),
        ('relay_pages = ["desk.example"]\n', "relay_pages is a list of origins"),
        ('by_ssh = "db-care"\n', "by_ssh is a list of ceilings"),
        ('verified = "maybe"\n', "verified is"),
    ],
)
def test_settings(tmp_path: Path, more: str, why: str) -> None:
    doored = Doored(tmp_path)
    doored.configure(more=more)
    assert why in doored.signer("list", status=2)
