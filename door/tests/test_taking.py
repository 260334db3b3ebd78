"""What the door takes and refuses before a real desk, and which rows its journal has then."""

from dataclasses import replace
from pathlib import Path

import pytest

from door.tests.doors import SITE, Doored
from steelnewt_client.desk import Desk
from steelnewt_client.moments import now, stamp
from steelnewt_client.signed import Signed, digest, reason_digest
from steelnewt_door.refusals import Share
from steelnewt_door.settings import BadSettings, read_settings


def test_a_grant_needs_two_signatures(doored: Doored) -> None:
    request = doored.request()
    assert doored.post(request) == "P20 NotSigned"
    assert doored.post(doored.sign("thief", request)) == "A20 BadSignature"
    assert doored.held() == []
    assert doored.post(doored.sign("ann", request)) == "ack"
    verdict = doored.verdict()
    assert doored.post(verdict) == "P20 NotSigned"
    assert doored.post(doored.sign("thief", verdict, request)) == "A20 BadSignature"
    assert not doored.in_force()
    assert doored.post(doored.sign("bob", verdict, request)) == "ack"
    assert doored.in_force()
    assert doored.post(doored.sign("bob", doored.verdict(kind="revoke"))) == "ack"
    assert not doored.in_force()
    rows = doored.came()
    assert [it["how"] for it in rows] == ["signed"] * 3
    assert all(it["key"].startswith("SHA256:") and it["relay"] == "chat" for it in rows)
    assert all(it["peer"].startswith("uid ") and it["signers"] for it in rows)


def test_the_journal_has_what_was_refused(doored: Doored) -> None:
    """A refusal of the door's, once; and one of the desk's."""
    request = doored.request()
    for _ in range(3):
        assert doored.post(request) == "P20 NotSigned"
    outside = doored.sign("ann", doored.request(no=2, command="/usr/bin/who"))
    assert doored.post(outside) == "A6 CommandOutside"
    assert doored.codes() == ["P20 NotSigned", "A6 CommandOutside"]
    assert [it["how"] for it in doored.came()] == ["signed"]
    assert doored.post("no message at all") == "M2 NotCanonical"
    assert "17 bytes" in doored.rows("came")[-1]["message"]


def test_a_repeat_is_taken_as_it_was(doored: Doored) -> None:
    """What the desk took once is taken again, whoever brings it, also after the key has ended."""
    doored.new_key("ivan")
    doored.add("ivan")
    verdict = doored.verdict(by="ivan", kind="revoke")
    signed = doored.sign("ivan", verdict)
    assert doored.post(signed) == "ack"
    doored.signer("lost", "ivan")
    assert doored.post(signed) == "ack"
    other = doored.sign("ivan", doored.verdict(by="ivan", kind="revoke", no=2))
    assert doored.post(other) == "A20 BadSignature"
    assert doored.held() == [verdict]


def test_one_signature_is_of_one_message(doored: Doored) -> None:
    signed = doored.sign("ann", doored.request())
    other = doored.request(command="ALL", no=2)
    assert doored.post(Signed(other, signed.signature)) == "A20 BadSignature"
    in_bobs_name = doored.verdict(kind="revoke")
    assert doored.post(doored.sign("ann", in_bobs_name)) == "A20 BadSignature"


def test_an_approval_is_of_the_bytes_that_were_shown(doored: Doored) -> None:
    harmless, evil = doored.request(), doored.request(command="/usr/local/sbin/x")
    assert doored.post(doored.sign("ann", evil)) == "ack"
    verdict = doored.verdict()
    shown = doored.sign("bob", verdict, harmless)
    assert doored.post(shown) == "A22 OtherRequest"
    true = doored.sign("bob", verdict, evil)
    assert doored.post(Signed(verdict, shown.signature, true.about)) == "A20 BadSignature"
    assert doored.post(doored.sign("bob", verdict)) == "A22 OtherRequest"
    assert doored.post(true) == "ack"


def test_an_approval_is_of_the_reason_that_was_shown(doored: Doored) -> None:
    request, why = doored.request(), reason_digest("the disk of db1 fills", "OPS-7")
    assert doored.post(doored.sign("ann", request, why=why)) == "ack"
    verdict = doored.verdict()
    for other in ("", reason_digest("the disk of db1 fills", "OPS-8")):
        assert doored.post(doored.sign("bob", verdict, request, why=other)) == "A25 OtherReason"
    mine = doored.sign("bob", verdict, request, why=why)
    assert doored.post(replace(mine, why="")) == "A20 BadSignature"
    assert doored.post(mine) == "ack"


def test_no_approval_sleeps(doored: Doored) -> None:
    """An approval waits at the relay until its request is there, and not at the desk."""
    request = doored.request(no=5)
    early = doored.sign("bob", doored.verdict(no=5), request)
    for _ in range(2):
        assert doored.post(early) == "K22 NoRequestYet"
    assert doored.held() == []
    assert doored.post(doored.sign("ann", request)) == "ack"
    assert doored.post(early) == "ack"
    assert doored.codes() == ["K22 NoRequestYet", "ack", "ack"]


def test_of_what_takes_rights_away_nothing_is_about_bytes(doored: Doored) -> None:
    request = doored.request()
    verdict = doored.verdict(kind="revoke")
    assert doored.post(doored.sign("bob", verdict, request)) == "A20 BadSignature"
    assert doored.post(doored.sign("bob", verdict)) == "ack"


# --- lists: one touch, one yes


def listed(doored: Doored, count: int) -> tuple[list[str], list[Signed]]:
    """Requests, and approvals of them with one signature of bob's."""
    requests = [doored.request(no=no) for no in range(1, count + 1)]
    verdicts = [doored.verdict(no=no) for no in range(1, count + 1)]
    said = [Signed(it, "", digest(of)) for it, of in zip(verdicts, requests, strict=True)]
    return requests, doored.sign_list("bob", said)


def test_a_list_is_signed_once(doored: Doored) -> None:
    requests, approvals = listed(doored, 3)
    for it in doored.sign_list("ann", [Signed(it) for it in requests]):
        assert doored.post(it) == "ack"
    assert [doored.post(it) for it in approvals] == ["ack"] * 3
    assert len(doored.in_force()) == 3
    assert len({it["signature"] for it in doored.came()}) == 2


def test_a_list_of_64(doored: Doored) -> None:
    verdicts = [Signed(doored.verdict(no=no, kind="revoke")) for no in range(1, 65)]
    signed = doored.sign_list("bob", verdicts)
    assert doored.post(signed[0]) == doored.post(signed[-1]) == "ack"
    too_many = [*verdicts, Signed(doored.verdict(no=65, kind="revoke"))]
    assert doored.post(doored.sign_list("bob", too_many)[0]) == "A20 BadSignature"


def test_another_list(doored: Doored) -> None:
    """The signature of one list under another, cut, repeated, as a single one, or of another
    site."""
    requests, approvals = listed(doored, 2)
    for it in requests:
        assert doored.post(doored.sign("ann", it)) == "ack"
    first, second = approvals
    _, raw, digests = first.signature.split(":")
    other = doored.sign_list("bob", [Signed(doored.verdict(kind="revoke"))])[0]
    strange = [
        replace(first, signature=f"ssh:{raw}"), replace(first, signature=other.signature),
        replace(first, signature=f"list:{raw}:{digests[:43]}="),
        replace(first, signature=f"list:{raw}:{digests}{digests}"),
        replace(first, signature=f"list:{raw}:{other.signature.split(':')[2]}"),
        replace(first, about=second.about), replace(first, about=""),
        doored.sign_list("thief", [replace(first, signature="")])[0],
        doored.sign_list("bob", [replace(first, signature="")], site="trial.example")[0],
        replace(doored.sign("bob", first.message, requests[1]), about=first.about),
    ]  # fmt: skip
    for said in strange:
        assert doored.post(said) in ("A20 BadSignature", "A22 OtherRequest"), said
    assert not doored.in_force()
    assert doored.post(second) == "ack"


# --- a journal alone, and the way there


@pytest.fixture
def unsigned(fresh: Doored) -> Doored:
    fresh.stop_door()
    fresh.configure(signing="no")
    fresh.start_door()
    return fresh


def test_a_journal_alone(unsigned: Doored) -> None:
    """`signing = no`: all is noted, a signature is judged if there is one, and nothing is wanted;
    then the site signs, and what slept does not count."""
    request, verdict = unsigned.request(), unsigned.verdict()
    assert unsigned.post(request) == unsigned.post(verdict) == "ack"
    assert unsigned.in_force()
    assert unsigned.post(unsigned.sign("thief", unsigned.request(no=2))) == "A20 BadSignature"
    assert unsigned.post(unsigned.sign("ann", unsigned.request(no=2))) == "ack"
    assert unsigned.post(unsigned.verdict(no=3)) == "ack"
    assert [it["how"] for it in unsigned.came()] == ["unsigned", "unsigned", "signed", "unsigned"]
    assert "signing = no" in unsigned.run("check") and "signing = no" in unsigned.said()
    unsigned.stop_door()
    unsigned.configure()
    unsigned.start_door()
    assert unsigned.post(unsigned.request(no=4)) == "P20 NotSigned"
    assert unsigned.post(unsigned.sign("ann", unsigned.request(no=3))) == "A24 NameTaken"


def test_what_came_past_the_door(fresh: Doored) -> None:
    verdict = fresh.verdict(kind="revoke")
    assert Desk(fresh.site.url).post("chat", verdict.encode()).said == "ack"
    assert f"this came past the door: {verdict}" in fresh.run("check", status=2)
    fresh.stop_door()
    assert "1 messages of 1 are from before the door" in fresh.run("begin")
    assert "nothing is wrong with the door" in fresh.run("check")
    fresh.start_door()
    assert [it["how"] for it in fresh.came()] == ["before"]


def test_what_a_door_left_open_is_settled(fresh: Doored) -> None:
    """A door that ended between the desk's answer and its row asks the desk."""
    fresh.stop_door()
    door = read_settings(str(fresh.config)).door()
    messages = [fresh.verdict(kind="revoke", no=no) for no in (1, 2)]
    for text in messages:
        said = fresh.sign("bob", text)
        row = {"row": "came", "at": stamp(now()), "relay": "chat", "peer": "", "how": "signed"}
        row |= {"message": text, "signature": said.signature, "about": "", "why": ""}
        door.journal.append([row | {"key": "", "signers": ""}])
    door.journal.close()
    assert Desk(fresh.site.url).post("chat", messages[0].encode()).said == "ack"
    fresh.start_door()
    assert fresh.codes() == ["ack", "K23 DoorFails"]
    assert "2 messages had no answer" in fresh.said()


def test_a_relay_fills_no_journal() -> None:
    """So many refusals of a relay have rows each day; the others are counted."""
    share = Share(most=3, most_of_all=100)
    assert [share.has_room("web", "20260105090000Z") for _ in range(5)] == [True] * 3 + [False] * 2
    assert share.has_room("chat", "20260105090000Z")
    [row] = share.more("20260105090000Z", 100.0)
    assert (row["relay"], row["count"]) == ("web", 2)
    assert not share.has_room("web", "20260105090001Z")
    assert share.more("20260105090001Z", 120.0) == []
    assert share.has_room("web", "20260106000000Z")
    assert share.more("20260106000000Z", 161.0)[0]["count"] == 1


def test_whoever_names_any_relay_fills_no_journal_either() -> None:
    share = Share(most=3, most_of_all=10)
    took = [share.has_room(f"r{it}", "20260105090000Z") for it in range(5_000)]
    assert took == [True] * 10 + [False] * 4_990
    [row] = share.more("20260105090000Z", 100.0)
    assert (row["relay"], row["count"]) == ("others", 4_990)


@pytest.mark.parametrize(
    "text",
    ['site = "-"', "", 'site = "a"\nsigning = "maybe"', 'site = "a"\nlate = 5', 'site = 7',
     'site = "a"\nmore = 1', 'site = "a"\ndesk = "http://x"', 'site = "a"\nchanges_by = true',
     'site = "a"\njournal_bytes = 7', "site", 'site = "a"\nroot = "unix:/a/../b"'],
)  # fmt: skip
def test_settings_that_cannot_be_used(tmp_path: Path, text: str) -> None:
    (tmp_path / "door.toml").write_text(text)
    with pytest.raises(BadSettings):
        read_settings(str(tmp_path / "door.toml"))


def test_the_example_of_settings() -> None:
    found = read_settings(str(Path(__file__).resolve().parents[1] / "door.example.toml"))
    assert found.questions != found.desk and found.rules.is_signing and found.site == SITE
