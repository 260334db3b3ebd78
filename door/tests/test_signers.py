"""Whose key is whose: enrolled in person, rotated, ended, lost, revoked, and changed by two."""

import hashlib
import os
import subprocess
from pathlib import Path

import pytest

from door.tests.doors import SITE, Doored, keygen
from steelnewt_client.desk import Desk
from steelnewt_client.signed import CHANGES, ENROLS, enrolling
from steelnewt_door.changes import Two
from steelnewt_door.judge import Judge
from steelnewt_door.signers import BadSigners, Signers, Version


@pytest.fixture
def still(tmp_path: Path) -> Doored:
    """A site that is not served."""
    return Doored(tmp_path)


def enrolled(doored: Doored, name: str, key: str, word: str, namespace: str = ENROLS) -> Path:
    """What mydesk writes of a key: the key, and its signature over a word."""
    public = Path(doored.public(key)).read_text().split()[:2]
    raw = doored.signature(key, enrolling(SITE, name, word), namespace)
    path = doored.folder / f"{key}.enrol"
    path.write_text(f"{' '.join(public)} ssh:{raw}\n")
    return path


def word_for(doored: Doored, name: str) -> str:
    return doored.signer("enrol", name).splitlines()[0]


def names(doored: Doored) -> list[str]:
    return [it.split()[0] for it in doored.signer("list").splitlines()]


def test_a_key_is_enrolled_in_person(still: Doored) -> None:
    still.new_key("dave")
    assert "nobody is enrolling" in still.signer(
        "add", "dave", str(enrolled(still, "dave", "dave", "0" * 16)), status=2
    )
    word = word_for(still, "dave")
    for key, who, said, namespace in (
        ("dave", "dave", "0" * 16, ENROLS), ("dave", "erin", word, ENROLS),
        ("dave", "dave", word, "file"),
    ):  # fmt: skip
        path = enrolled(still, who, key, said, namespace)
        assert "did not sign the word" in still.signer("add", "dave", str(path), status=2)
    # a key of somebody else's, with a signature of one's own
    mine = enrolled(still, "dave", "dave", word).read_text().split()
    mine[1] = Path(still.public("thief")).read_text().split()[1]
    (still.folder / "odd").write_text(" ".join(mine))
    assert "did not sign" in still.signer("add", "dave", str(still.folder / "odd"), status=2)
    assert "hold" in still.signer("add", "dave", str(enrolled(still, "dave", "dave", word)))
    assert names(still) == ["ann", "bob", "carol", "dave"]
    # the word is used up
    still.new_key("dave2")
    again = enrolled(still, "dave", "dave2", word)
    assert "nobody is enrolling" in still.signer("add", "dave", str(again), status=2)


def test_a_word_gets_old(still: Doored) -> None:
    word = word_for(still, "dave")
    os.utime(still.folder / "signers" / "enrolling" / "dave" / word, (0, 0))
    still.new_key("dave")
    path = str(enrolled(still, "dave", "dave", word))
    assert "nobody is enrolling" in still.signer("add", "dave", path, status=2)


def test_a_rotation_overlaps(still: Doored) -> None:
    still.new_key("ann2")
    path = str(enrolled(still, "ann", "ann2", word_for(still, "ann")))
    still.signer("rotate", "ann", path, "--days", "3")
    first, second = [it for it in Signers(str(still.folder / "signers")).now().signers()
                     if it.name == "ann"]  # fmt: skip
    assert second.first > first.first and not second.last
    assert second.first[:8] < first.last[:8] and first.counts_at(second.first)


@pytest.mark.parametrize(
    ("given", "said"),
    [
        ("PRIVATE", "private key"), ("two", "no public key alone"), ("", "no public key alone"),
        ("options", "no public key alone"), ("long", "longer than"), ("gone", "cannot be read"),
    ],
)  # fmt: skip
def test_what_is_no_public_key(still: Doored, given: str, said: str) -> None:
    public = Path(still.public("thief")).read_text()
    texts = {"PRIVATE": (still.folder / "thief").read_text(), "two": public * 2, "": ""}
    texts |= {"options": f'command="x" {public}', "long": public + "x" * 9_000}
    path = still.folder / "given"
    if given in texts:
        path.write_text(texts[given])
    assert said in still.signer("add", "dave", str(path), "--unproved", status=2)
    assert names(still) == ["ann", "bob", "carol"]


@pytest.mark.parametrize("name", ["*", "Dave", "-V", "ann,bob", "", "../x", "a" * 33])
def test_what_is_no_name(still: Doored, name: str) -> None:
    words = ["--", name, still.public("thief")]
    assert "no person's name" in still.signer("add", "--unproved", *words, status=2)


def test_who_else_writes_the_folder(still: Doored) -> None:
    (still.folder / "signers").chmod(0o777)
    assert "not yours alone" in still.signer("lost", "ann", status=2)


def test_a_change_is_shown_and_kept(still: Doored) -> None:
    reasons = ("--why", "new here", "--ticket", "OPS-7", "--approved-by", "bob")
    said = still.signer(*reasons, "add", "dave", still.public("thief"), "--unproved")
    assert said.startswith("+ dave ssh-ed25519 SHA256:") and "hold" in said
    said = still.signer("history").splitlines()[-1]
    assert "unproved" in said and "new here" in said
    assert '"approved-by": ["bob"]' in said and '"ticket": "OPS-7"' in said
    at = Signers(str(still.folder / "signers")).moments()[0]
    assert "dave" not in still.signer("list", "--at", at)


def test_what_a_lost_key_signed(doored: Doored) -> None:
    """Exactly, and when it came."""
    for name in ("judy", "ken"):
        doored.new_key(name)
        doored.add(name)
    mine = [doored.verdict(by="judy", kind="revoke", no=no) for no in (1, 2)]
    for text in mine:
        assert doored.post(doored.sign("judy", text)) == "ack"
    other = doored.verdict(by="ken", kind="revoke", no=3)
    assert doored.post(doored.sign("ken", other)) == "ack"
    said = doored.signer("lost", "judy")
    found = [it for it in said.splitlines() if "by relay chat" in it]
    assert len(found) == 2 and "2 messages were signed with SHA256:" in said
    assert all(f"judy: revoke ann {doored.block + no} (ack)" in found[no - 1] for no in (1, 2))
    late = doored.verdict(by="judy", kind="revoke", no=4)
    assert doored.post(doored.sign("judy", late)) == "A20 BadSignature"
    assert doored.signer("lost", "judy").splitlines()[:-1] == found


def test_a_list_of_the_sites_own(doored: Doored) -> None:
    """What a KRL revokes signs no more: by ssh-keygen, and also a key that was taken before."""
    doored.new_key("mary")
    doored.add("mary")
    text = doored.verdict(by="mary", kind="revoke")
    assert doored.post(doored.sign("mary", text)) == "ack"
    krl = doored.folder / "krl"
    keygen("-k", "-f", str(krl), doored.public("mary"))
    assert "another revoked.krl" in doored.signer("krl", str(krl))
    later = doored.verdict(by="mary", kind="revoke", no=2)
    assert doored.post(doored.sign("mary", later)) == "A20 BadSignature"
    assert doored.post(doored.sign("bob", doored.verdict(kind="revoke", no=3))) == "ack"
    (doored.folder / "no-krl").write_text("ssh-ed25519 AAAA\n")
    assert "no list" in doored.signer("krl", str(doored.folder / "no-krl"), status=2)


def test_ssh_keygen_reads_the_files_by_itself(still: Doored) -> None:
    """Nobody needs the door to judge a signature."""
    request = still.request()
    signed = still.sign("ann", request)
    at = Signers(str(still.folder / "signers")).now()
    (still.folder / "s").write_text(
        "-----BEGIN SSH SIGNATURE-----\n" + signed.signature[4:] + "\n-----END SSH SIGNATURE-----\n"
    )
    words = ["ssh-keygen", "-Y", "verify", "-f", at.path("allowed_signers"), "-I", "ann"]
    words += ["-n", "steelnewt-message@v1", "-s", str(still.folder / "s")]
    ran = subprocess.run(words, input=signed.payload(SITE), capture_output=True, check=False)
    assert ran.returncode == 0, ran


# --- two people


def yes_of(doored: Doored, name: str, text: str, key: str = "") -> str:
    """What mydesk writes of somebody's yes, in a file."""
    path = doored.folder / f"{name}.yes"
    path.write_text(f"{name} ssh:{doored.signature(key or name, text.encode(), CHANGES)}\n")
    return str(path)


@pytest.fixture
def paired(fresh: Doored) -> Doored:
    fresh.configure(more="changes_by = 2\n")
    fresh.stop_door()
    fresh.start_door()
    roster = fresh.folder / "site.roster"
    for what, which in (("roster", str(roster)), ("base", Desk(fresh.site.url).count()[2])):
        text = fresh.signer("agree", what, which, status=3)
        yeses = [yes_of(fresh, name, text) for name in ("ann", "bob")]
        fresh.signer("agree", what, which, *yeses)
    return fresh


def test_two_people_say_yes(paired: Doored) -> None:
    """To each change that gives; what takes away is root's alone."""
    assert paired.post(paired.sign("ann", paired.request())) == "ack"
    paired.new_key("dave")
    said = paired.signer("add", "dave", paired.public("dave"), "--unproved", status=3)
    assert said.startswith("+ dave ssh-ed25519 SHA256:") and "2 of those who sign" in said
    text = (paired.folder / "signers" / "draft" / "to-sign").read_text()
    ann, bob = yes_of(paired, "ann", text), yes_of(paired, "bob", text)
    forged = yes_of(paired, "carol", text, "thief")
    assert "1 people said yes" in paired.signer("put", ann, status=2)
    assert "1 people said yes" in paired.signer("put", ann, ann, status=2)
    assert "carol did not sign" in paired.signer("put", ann, forged, status=2)
    assert "dave did not sign" in paired.signer("put", ann, yes_of(paired, "dave", text), status=2)
    assert "hold" in paired.signer("put", ann, bob)
    verdict = paired.verdict(by="dave", kind="revoke")
    assert paired.post(paired.sign("dave", verdict)) == "ack"
    assert "hold" in paired.signer("lost", "dave")
    assert paired.post(paired.sign("bob", paired.verdict(kind="revoke"))) == "ack"
    # the same yes for another change
    paired.new_key("erin")
    paired.signer("add", "erin", paired.public("erin"), "--unproved", status=3)
    assert "did not sign" in paired.signer("put", ann, bob, status=2)


def test_root_alone_adds_nobody(paired: Doored) -> None:
    """Files that root wrote past desk-signer: the door takes nothing signed by them."""
    folder = paired.folder / "signers"
    before = Signers(str(folder)).now()
    after = Version("20990101000000Z", str(folder / "20990101000000Z"))
    os.mkdir(after.folder)
    key = " ".join(Path(paired.public("thief")).read_text().split()[:2])
    line = before.text("allowed_signers").splitlines()[0]
    forged = f"{line.rsplit(' ', 2)[0]} {key}".replace("ann ", "mallory ", 1)
    for name, text in (("allowed_signers", before.text("allowed_signers") + forged + "\n"),
                       ("revoked_keys", ""), ("change", "{}\n")):  # fmt: skip
        Path(after.path(name)).write_text(text)
    for who, key in (("mallory", "thief"), ("bob", "bob")):
        signed = paired.sign(key, paired.verdict(by=who, kind="revoke"))
        assert paired.post(signed) == "K25 NoSigners"
    with pytest.raises(BadSigners, match="need 2"):
        Two(Judge(SITE), Signers(str(folder)), 2).check_all()
    assert "need 2" in paired.run("check", status=2)
    # root's own socket takes rights away all the same
    assert paired.post(paired.verdict(kind="revoke", no=2), root=True) == "ack"


def test_a_roster_that_two_did_not_say_yes_to(paired: Doored) -> None:
    paired.site.stop_desk()
    roster = paired.folder / "site.roster"
    roster.write_text(roster.read_text() + "# another one\n")
    paired.site.store.unlink(missing_ok=True)
    paired.site.start_desk()
    assert paired.post(paired.sign("ann", paired.request(no=2))) == "K26 NotAgreed"
    assert paired.post(paired.sign("bob", paired.verdict(kind="revoke", no=3))) == "ack"
    text = paired.signer("agree", "roster", str(roster), status=3)
    assert hashlib.sha256(roster.read_bytes()).hexdigest() in text
    ann = yes_of(paired, "ann", text)
    assert "have to" in paired.signer("agree", "roster", str(roster), ann, status=2)
    paired.signer("agree", "roster", str(roster), ann, yes_of(paired, "bob", text))
    assert paired.post(paired.sign("ann", paired.request(no=2))) == "ack"
