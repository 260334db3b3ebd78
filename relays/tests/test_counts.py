"""Verdicts count for people as they count at the desk, and one that does not is said not to."""

import json
import re
from collections.abc import Iterator
from pathlib import Path

import pytest

from relays.tests.front import Front
from relays.tests.site import Site, wait_for_next_second
from relays.tests.test_outbox import answering
from relays.tests.test_page import get, post, token
from steelnewt_client.desk import Desk
from steelnewt_client.messages import Verdict, Wish
from steelnewt_client.moments import now, stamp
from steelnewt_relay.outbox import UNASKED, Kept, Outbox
from steelnewt_relay.posting import post_kept

LINE = "ask {ceiling} --on db1 --as root --for 10m --yes --anyway --json --again {command}"


@pytest.fixture(scope="module")
def fronted(tmp_path_factory: pytest.TempPathFactory) -> Iterator[tuple[Site, Front]]:
    site = Site(tmp_path_factory.mktemp("counts"))
    try:
        site.start_desk()
        site.start_page()
        front = Front(site, ["ann", "bob", "dave", "eve"])
        yield site, front
        front.stop()
    finally:
        site.close()


def asked(site: Site, ceiling: str = "db-care", command: str = "/usr/bin/id") -> int:
    """Asks as ann, and gives the request's number."""
    ran = site.run("ann", LINE.format(ceiling=ceiling, command=command))
    assert ran.stdout, ran
    return int(json.loads(ran.stdout)["no"])


def state(site: Site, no: int) -> str:
    found = site.data("ann", "mine --all")
    assert isinstance(found, list)
    return str(next(it["status"] or it["state"] for it in found if it["no"] == no))


def waits_for_bob(site: Site, front: Front, no: int) -> tuple[bool, bool]:
    """Whether bob is shown the request, with a button, by ssh and on the page."""
    found = site.data("bob", "waiting")
    assert isinstance(found, list)
    listed = [it["status"] for it in found if it["no"] == no]
    shown = f'id="waits-ann-{no}"' in get(front.url("bob")).text
    return listed == ["waiting"], shown


# Who may not refuse or revoke what ann asks for: nobody's duty, a conflict, the asker, no person.
@pytest.mark.parametrize(
    ("person", "kind"),
    [("dave", "refuse"), ("eve", "refuse"), ("ann", "refuse"), ("dave", "revoke")],
)
def test_nobody_hides_a_request_without_a_right(
    fronted: tuple[Site, Front], person: str, kind: str
) -> None:
    site, front = fronted
    no = asked(site)
    ran = site.run(person, f"{kind} ann {no} --yes --anyway")
    assert ran.returncode == 1, ran
    assert waits_for_bob(site, front, no) == (True, True)
    assert state(site, no) == "waiting"
    ran = site.run("bob", f"approve ann {no} --yes")
    assert "It is in force from" in ran.stdout, ran
    assert f"ann {no} " in site.ask(f"/v1/grants/{stamp(now())}")


# What the desk says then, and what the next approver reads. (What was revoked before anybody
# approved it waits at the desk, and for nobody here.)
ENDS = [
    ("bob", "refuse", "refused", "the desk grants nothing of it any more"),
    ("eve", "revoke", "waiting", "it was revoked"),
]


@pytest.mark.parametrize(("person", "kind", "status", "why"), ENDS)
def test_who_may_object_ends_it(
    fronted: tuple[Site, Front], person: str, kind: str, status: str, why: str
) -> None:
    site, front = fronted
    no = asked(site)
    ran = site.run(person, f"{kind} ann {no} --yes")
    assert ran.returncode == 0 and "count" not in ran.stdout, ran
    assert waits_for_bob(site, front, no) == (False, False)
    assert state(site, no) == status
    ran = site.run("bob", f"approve ann {no} --yes --again")
    assert ran.returncode == 2, ran
    assert f"Your approval will not count: {why}." in ran.stdout
    assert state(site, no) == status


def test_a_refusal_after_enough_approvals(fronted: tuple[Site, Front]) -> None:
    site, _ = fronted
    no = asked(site)
    assert site.run("bob", f"approve ann {no} --yes").returncode == 0
    wait_for_next_second()  # (a refusal of the same second counts)
    ran = site.run("carol", f"refuse ann {no} --yes")
    assert ran.returncode == 2, ran
    assert "Your refusal will not count: enough people have approved it: revoke it" in ran.stdout
    assert state(site, no) == "granted"


# Whose approval does not count: what is said before it is sent, as far as the desk tells by then,
# and why it did not count.
OTHERS = "the desk does not name you among those who may approve it now"
BARRED = [
    ("eve", OTHERS, "a duty that conflicts with approving was held then"),
    ("dave", OTHERS, "the duty to approve was not held then"),
    ("ann", "asked for it yourself", "nobody approves what they asked for themselves"),
]


@pytest.mark.parametrize(("person", "why", "after"), BARRED)
def test_it_is_said_before_and_after(
    fronted: tuple[Site, Front], person: str, why: str, after: str
) -> None:
    site, front = fronted
    no = asked(site)
    ran = site.run(person, f"approve ann {no} --yes")
    assert ran.returncode == 2 and "Your approval will not count: " in ran.stdout, ran
    assert why in ran.stdout and "Nothing was sent." in ran.stdout
    page = get(f"{front.url(person)}/verdict?kind=approve&of=ann&no={no}").text
    assert "Your approval will not count: " in page and why in page
    ran = site.run(person, f"approve ann {no} --yes --anyway")
    assert f"The desk has your approval. But it does not count: {after}." in ran.stdout, ran
    again = get(f"{front.url(person)}/verdict?kind=approve&of=ann&no={no}").text
    done = post(f"{front.url(person)}/send", {"token": token(again), "what": "verdict"}).text
    assert f"The desk has your approval. But it does not count: {after}." in done
    # (also once somebody else's approval counts)
    assert site.run("bob", f"approve ann {no} --yes").returncode == 0
    [told] = [it for it in site.data("ann", "mine --all") if it["no"] == no]  # type: ignore
    counts = {(it["by"], it["counts"]) for it in told["verdicts"]}
    assert counts == {(person, False), ("bob", True)}


def test_who_may_approve_reads_no_warning(fronted: tuple[Site, Front]) -> None:
    site, front = fronted
    no = asked(site)
    assert "not count" not in get(f"{front.url('bob')}/verdict?kind=approve&of=ann&no={no}").text
    ran = site.run("bob", f"approve ann {no} --yes")
    assert ran.returncode == 0 and "not count" not in ran.stdout, ran
    ran = site.run("carol", f"approve ann {no} --yes")
    assert "would change nothing: enough people have approved it already" in ran.stdout, ran


def test_a_duty_that_has_days(quiet_site: Site) -> None:
    roster = quiet_site.folder / "site.roster"
    text = roster.read_text().replace(
        'bob = ["approve-db"]',
        'bob = [{ duty = "approve-db", from = "20200101", until = "20200102" }]',
    )
    roster.write_text(text)
    quiet_site.start_desk()
    no = asked(quiet_site)
    assert quiet_site.run("bob", f"refuse ann {no} --yes --anyway").returncode == 1
    assert state(quiet_site, no) == "waiting"
    ran = quiet_site.run("bob", f"approve ann {no} --yes")
    assert f"Your approval will not count: {OTHERS}" in ran.stdout, ran


def test_what_the_desk_refused_is_not_approved(fronted: tuple[Site, Front]) -> None:
    site, front = fronted
    no = asked(site, "db-care", "/usr/sbin/reboot")
    assert state(site, no) == "rejected"
    before = site.kept()
    ran = site.run("bob", f"approve ann {no} --yes")
    assert ran.returncode == 2 and "the desk refused ann" in ran.stderr, ran
    assert "A6 CommandOutside" in ran.stderr
    reply = get(f"{front.url('bob')}/verdict?kind=approve&of=ann&no={no}")
    assert reply.status_code == 400 and "nothing to approve" in reply.text
    assert "Yes, approve" not in reply.text and site.kept() == before


def kept_both(outbox: Outbox) -> tuple[Kept, Kept]:
    """A request that is not at the desk yet, and its approval."""
    at = stamp(now())
    wish = Wish.of("db-care", ["db1"], "root", ["/usr/bin/id"], (at, at))
    request = outbox.keep_request("ann", wish, at)
    verdict = Verdict("bob", "approve", "ann", request.request.no, at)
    return request, outbox.keep_verdict(verdict)


def test_a_form_from_before_the_desk_refused_it(fronted: tuple[Site, Front]) -> None:
    site, front = fronted
    site.stop_desk()
    no = asked(site, "db-care", "/usr/sbin/reboot")
    page = get(f"{front.url('bob')}/verdict?kind=approve&of=ann&no={no}").text
    site.start_desk()
    assert site.run("ann", "mine").returncode == 0
    post_kept(Outbox(str(site.folder / "outbox.db")), Desk(site.url, "chat", None, None))
    before = site.kept()
    reply = post(f"{front.url('bob')}/send", {"token": token(page), "what": "verdict"})
    assert reply.status_code == 400 and "nothing to approve" in reply.text
    assert site.kept() == before


def test_an_approval_goes_after_its_request(tmp_path: Path) -> None:
    outbox = Outbox(str(tmp_path / "outbox.db"))
    request, approval = kept_both(outbox)
    with answering(503, "K4 Storage\n") as url:
        post_kept(outbox, Desk(url, "chat", None, None))
    assert outbox.entry(approval.id).answer == "its request is not at the desk yet"
    with answering(403, "A3 NotAsker\n") as url:
        post_kept(outbox, Desk(url, "chat", None, None))
    assert outbox.entry(request.id).answer == "A3 NotAsker"
    assert outbox.entry(approval.id) == Kept(
        approval.id, approval.message, "refused", UNASKED
    )


def test_objections_are_told_with_their_worth(fronted: tuple[Site, Front]) -> None:
    site, front = fronted
    no = asked(site)
    assert site.run("dave", f"refuse ann {no} --yes --anyway").returncode == 1
    told = site.run("ann", "mine -l").stdout
    assert re.search(r"dave refused it, .*; it does not count: the duty to approve", told), told
    assert "dave refused it" in get(front.url("ann")).text
