"""From a site whose people sign nothing to one where all do: by a moment, with relays that sign for
nobody, and with what slept."""

import time
from datetime import timedelta
from pathlib import Path

import pytest

from door.tests.doors import SITE, Doored, ran
from door.tests.test_auditor import PROGRAM
from relays.tests.site import BASE
from steelnewt_client.desk import Desk
from steelnewt_client.moments import now, stamp
from steelnewt_client.signed import Signed
from steelnewt_door import verify_program
from steelnewt_door.auditing import Site, is_meant
from steelnewt_door.auditor_program import read_settings as read_auditor
from steelnewt_door.settings import BadSettings, read_settings
from steelnewt_door.signers import Signers


def configured(doored: Doored, more: str) -> None:
    doored.stop_door()
    doored.configure(more=more)
    doored.start_door()


def verified(doored: Doored, status: int, *words: str) -> str:
    held = doored.folder / "held"
    held.write_text(Desk(doored.site.url).get("/v1/messages"))
    parts = ["--journal", str(doored.folder / "journal")]
    parts += ["--signers", str(doored.folder / "signers"), "--messages", str(held)]
    return ran(verify_program.main, ["--site", SITE, *parts, *words], status)


def test_nothing_unsigned_from_a_moment_on(fresh: Doored) -> None:
    """Without a restart at that moment: what comes unsigned before it is taken, and from then on
    nothing. What slept till then counts for no request, and an auditor tells the times apart."""
    since = stamp(now() + timedelta(hours=1))
    configured(fresh, f'signed_since = "{since}"\n')
    assert f"TAKEN until {since}" in fresh.said()
    assert f"taken until {since}" in fresh.run("check")
    request, verdict = fresh.request(), fresh.verdict()
    assert fresh.post(request) == fresh.post(verdict) == "ack" and fresh.in_force()
    assert fresh.post(fresh.verdict(no=5)) == "ack"
    assert fresh.post(fresh.sign("thief", fresh.request(no=2))) == "A20 BadSignature"
    since = stamp(now() + timedelta(seconds=5))
    configured(fresh, f'signed_since = "{since}"\n')
    while stamp(now()) < since:
        time.sleep(0.1)
    verdicts = fresh.verdict(no=1, by="carol"), fresh.verdict(kind="revoke")
    for text in (fresh.request(no=3), *verdicts):
        assert fresh.post(text) == "P20 NotSigned"
    # what was taken is still taken, and an approval that slept gives nothing
    assert fresh.post(request) == "ack"
    assert fresh.post(fresh.sign("ann", fresh.request(no=5))) == "A24 NameTaken"
    signed = fresh.request(no=6)
    assert fresh.post(fresh.sign("ann", signed)) == "ack"
    assert fresh.post(fresh.sign("bob", fresh.verdict(no=6), signed)) == "ack"
    assert "until" not in fresh.run("check")
    said = verified(fresh, 0, "--signed-since", since)
    assert "3 needed no signature as they came" in said and "2 signed by their authors" in said
    said = verified(fresh, 1)
    assert said.count("UNSIGNED: it came while the site signed nothing") == 3
    said = verified(fresh, 1, "--signed-since", "20260101000000Z")
    assert said.count("UNSIGNED: it came") == 3 and said.count("COUNTS UNSIGNED") == 2


def test_what_was_before_the_door_is_noted(fresh: Doored) -> None:
    """`desk-door begin`: what the desk held is from before, and an auditor takes it so."""
    fresh.stop_door()
    desk = Desk(fresh.site.url)
    request = fresh.request()
    for text in (request, fresh.verdict(), fresh.verdict(no=9)):
        assert desk.post("chat", text.encode()).said == "ack"
    assert "this came past the door" in fresh.run("check", status=2)
    assert "3 messages of 3 are from before the door" in fresh.run("begin")
    time.sleep(1.1)
    since = stamp(now())
    configured(fresh, f'signed_since = "{since}"\n')
    assert fresh.in_force() and fresh.post(fresh.request(no=2)) == "P20 NotSigned"
    assert fresh.post(fresh.sign("ann", fresh.request(no=9))) == "A24 NameTaken"
    assert verified(fresh, 0, "--signed-since", since).count("UNSIGNED") == 0
    # whoever goes past the door later is named all the same
    assert desk.post("chat", fresh.verdict(no=2, kind="revoke").encode()).said == "ack"
    assert "UNSIGNED: it came past the door" in verified(fresh, 1, "--signed-since", since)


def test_a_relay_that_signs_for_nobody(fresh: Doored) -> None:
    """A ticket system's: it may ask, in the names of people of the roster, and no more; an approval
    of what it asked has to be signed, over its very bytes."""
    configured(fresh, 'programs = ["tickets", "chat"]\n')
    request = fresh.request()
    assert fresh.post(request, relay="mail") == "P20 NotSigned"
    assert fresh.post(request, relay="chat") == "ack"
    for kind in ("approve", "refuse", "revoke"):
        assert fresh.post(fresh.verdict(kind=kind), relay="chat") == "P20 NotSigned"
    assert fresh.post(Signed(fresh.verdict(), "ssh:AAAA"), relay="chat") == "A20 BadSignature"
    other = fresh.request(command="/usr/local/sbin/x")
    assert fresh.post(fresh.sign("bob", fresh.verdict(), other)) == "A22 OtherRequest"
    assert not fresh.in_force()
    assert fresh.post(fresh.sign("bob", fresh.verdict(), request)) == "ack"
    assert fresh.in_force()
    assert [it["how"] for it in fresh.came()] == ["program", "signed"]
    assert fresh.post(fresh.request(no=2, at=stamp(now() - timedelta(hours=2)))) == "A21 NotOfNow"
    # an approval that slept counts for no request of the program's relay
    assert Desk(fresh.site.url).post("chat", fresh.verdict(no=7).encode()).said == "ack"
    assert fresh.post(fresh.request(no=7)) == "A24 NameTaken"


def test_an_auditor_knows_such_relays(fresh: Doored) -> None:
    """A door that was bought may call any relay one of these: the auditors have their own list."""
    configured(fresh, 'programs = ["chat"]\n')
    request = fresh.request()
    assert fresh.post(request) == "ack"
    assert fresh.post(fresh.sign("bob", fresh.verdict(), request)) == "ack"
    said = verified(fresh, 1)
    assert f"UNSIGNED: its relay signs for nobody: {request}" in said
    assert "1 needed no signature" in verified(fresh, 0, "--program", "chat")
    assert "UNSIGNED" in verified(fresh, 1, "--program", "mail")
    for programs, wanted in ((frozenset({"chat"}), True), (frozenset[str](), False)):
        site = Site(SITE, "", str(BASE), "", PROGRAM, programs=programs)
        verifier = site.verifier(Signers(str(fresh.folder / "signers")))
        verifier.look(str(fresh.folder / "journal"), fresh.held())
        assert is_meant(verifier, request) is wanted
        assert is_meant(verifier, fresh.held()[0]) and len(fresh.held()) == 2 or not wanted


def test_the_auditors_settings(tmp_path: Path) -> None:
    """The auditors' own file says since when all sign, which relays sign for nobody, and where
    the journals of other doors are."""
    path = tmp_path / "auditor.toml"
    more = 'signed_since = "20260105090000Z"\nprograms = ["tickets"]\n[doors]\nb = "/copies/b"\n'
    path.write_text(f'site = "{SITE}"\ndesk = "unix:/x"\nroster = "r"\nbase = "b"\n{more}')
    site = read_auditor(str(path)).site()
    assert (site.since, site.programs) == ("20260105090000Z", frozenset({"tickets"}))
    assert site.others == {"b": "/copies/b"}
    example = Path(__file__).resolve().parents[1] / "auditor.example.toml"
    assert read_auditor(str(example)).site().others == {}


@pytest.mark.parametrize(
    "more",
    ['signed_since = "tomorrow"', 'signed_since = "2026-01-05"', 'programs = "chat"',
     "programs = [7]", 'programs = ["Chat"]', "signed_since = 7", 'doors = ["b"]',
     '[doors]\nb = "b.example"', '[doors]\nB = "unix:/b"', "[doors]\nb = 7"],
)  # fmt: skip
def test_settings_of_the_way_there(tmp_path: Path, more: str) -> None:
    (tmp_path / "door.toml").write_text(f'site = "a"\n{more}\n')
    with pytest.raises(BadSettings):
        read_settings(str(tmp_path / "door.toml"))
