"""How often the desk is asked: once for what one answer shows, however much that is."""

import random
import re
import threading
import time
from collections.abc import Iterator
from concurrent.futures import Future, ThreadPoolExecutor
from datetime import datetime, timedelta

import pytest

from relays.tests.counting import Counter, counted
from relays.tests.site import SECRET, Site
from relays.tests.test_outbox import answering
from steelnewt_client.codes import Fate
from steelnewt_client.desk import Desk
from steelnewt_client.messages import Verdict, Wish
from steelnewt_client.moments import now, of_stamp, stamp
from steelnewt_relay import sharing
from steelnewt_relay.config import read_config
from steelnewt_relay.events import Finder
from steelnewt_relay.notices import Notices, look
from steelnewt_relay.outbox import Kept
from steelnewt_relay.sharing import Shared
from steelnewt_relay.standing import Knowledge

ASK = "ask db-care --on db1 --as root --for 1h --yes --again /usr/bin/id"


@pytest.fixture
def asking(site: Site) -> Iterator[tuple[Site, Counter]]:
    with counted(site) as counter:
        yield site, counter


def brought(site: Site, wish: Wish, *verdicts: tuple[str, str, datetime], by: str = "ann") -> Kept:
    """A request that the desk has from this relay, with verdicts on it."""
    outbox, desk = read_config(str(site.config)).open_outbox(), Desk(site.url, "chat", None, None)
    kept = outbox.keep_request(by, wish, wish.begins)
    messages = [kept]
    for person, kind, at in verdicts:
        verdict = Verdict(person, kind, by, kept.request.no, stamp(at))
        messages.append(outbox.keep_verdict(verdict))
    for it in messages:
        assert desk.post("chat", it.message.text().encode()).fate is Fate.TAKEN, it
        outbox.answered(it.id, "acked")
    outbox.close()
    return kept


def wish(begins: datetime, length: timedelta = timedelta(hours=1)) -> Wish:
    window = (stamp(begins), stamp(begins + length))
    return Wish.of("db-care", ["db1"], "root", ["/usr/bin/id"], window)


def many(site: Site, count: int = 20) -> None:
    """Requests of the last minutes: some wait, some are in force, some are refused."""
    at = now()
    for number in range(count):
        begins = at - timedelta(minutes=number)
        kind = ["approve", "refuse", None][number % 3]
        brought(site, wish(begins), *([("carol", kind, begins)] if kind else []))


def page(site: Site, person: str, path: str = "/") -> str:
    status, text = site.ask_page(path, {"X-Desk-Front": SECRET, "X-Desk-Person": person})
    assert status == 200, text
    return text


# What people write, and how many of the 20 requests it shows.
WORDS = [
    ("bob", "waiting", 6), ("ann", "mine", 20), ("ann", "mine --all", 20), ("ann", "live", 7),
    ("bob", "history", 20), ("bob", "history --all --on db1", 20), ("bob", "show ann 1", 1),
]  # fmt: skip


def test_each_word_asks_once(asking: tuple[Site, Counter]) -> None:
    site, counter = asking
    many(site)
    counter.asked()
    for person, line, shown in WORDS:
        found = site.data(person, line)
        assert isinstance(found, list) and len(found) == shown, line
        asked = counter.asked()
        assert len(asked) == 1, (line, asked)
    assert site.run("bob", "approve ann 3 --yes").returncode == 0
    # (before the yes also who may approve what waits, and after it what became of it)
    asked = [it for it in counter.asked() if not it.startswith("/v1/open/")]
    assert asked == ["/v1/requests/ann/3"] * 2


def test_the_page_asks_once(asking: tuple[Site, Counter]) -> None:
    site, counter = asking
    many(site)
    site.start_page()
    counter.asked()
    for person, path in (("bob", "/"), ("ann", "/"), ("ann", "/?all=1"), ("bob", "/history")):
        page(site, person, path)
        asked = counter.asked()
        assert len(asked) == 1 and asked[0].startswith("/v1/open/"), (path, asked)
    assert page(site, "bob").count('id="waits-ann-') == 6
    counter.asked()
    # (the findings are the desk's report)
    assert "Findings" in page(site, "dave")
    assert [it.split("/")[2] for it in counter.asked()] == ["open", "reviews"]


def test_who_comes_at_once_shares_a_question(asking: tuple[Site, Counter]) -> None:
    site, counter = asking
    many(site)
    site.start_page()
    page(site, "bob")
    counter.asked()
    begun = time.monotonic()
    with ThreadPoolExecutor(20) as people:
        pages = list(people.map(lambda person: page(site, person), ["bob", "ann"] * 10))
    # (a slow machine takes long until all have come, and no question follows another at once)
    assert len(counter.asked()) < max(10, 2 + (time.monotonic() - begun) / Shared().pause)
    assert {it.count('id="waits-ann-') for it in pages[::2]} == {6}


class Waited(Future[float]):
    """An answer that somebody waits for: how many do."""

    count = 0

    def result(self, timeout: float | None = None) -> float:
        Waited.count += 1
        return super().result(timeout)


def test_who_comes_meanwhile_shares_the_next_question(monkeypatch: pytest.MonkeyPatch) -> None:
    """Forty come while a question is under way: one more is asked for all of them."""
    monkeypatch.setattr(sharing, "Future", Waited)
    shared, asked, goes_on = Shared(0.0), list[float](), threading.Event()

    def question() -> float:
        asked.append(time.monotonic())
        assert goes_on.wait(60)
        return asked[-1]

    def come() -> float:
        return shared.ask("names", question)

    until = time.monotonic() + 60
    with ThreadPoolExecutor(41) as people:
        first = people.submit(come)
        while not asked and time.monotonic() < until:
            time.sleep(0.01)
        others = [people.submit(come) for _ in range(40)]
        # (all but the one of them who is to ask wait for the answer)
        while Waited.count < 39 and time.monotonic() < until:
            time.sleep(0.01)
        goes_on.set()
    assert len(asked) == 2 and first.result() == asked[0]
    assert {it.result() for it in others} == {asked[1]}


@pytest.mark.parametrize("fault", [None, OSError("gone")])
def test_nobody_has_an_answer_from_before_they_came(fault: OSError | None) -> None:
    shared, asked = Shared(0.02), []

    def question() -> float:
        asked.append(time.monotonic())
        time.sleep(0.01)
        if fault:
            raise fault
        return asked[-1]

    def come(wait: float) -> bool:
        time.sleep(wait)
        came = time.monotonic()
        try:
            return shared.ask("names", question) >= came
        except OSError as found:
            return found is fault

    chance = random.Random(11)
    start = time.monotonic()
    with ThreadPoolExecutor(40) as people:
        assert all(people.map(come, [chance.uniform(0, 0.2) for _ in range(200)]))
    # (each of the forty comes five times, and waits each time for a question that is begun later)
    assert 5 <= len(asked)
    # A question is noted when its thread runs, which may be after it began: so two that are next
    # to each other may be noted at less than the pause, and what is counted is from the start.
    assert all(at - start >= 0.02 * number - 0.001 for number, at in enumerate(asked))


def test_many_requests_stand_on_several_pages(asking: tuple[Site, Counter]) -> None:
    site, _ = asking
    at = now()
    for number in range(53):
        brought(site, wish(at - timedelta(seconds=number)))
    site.start_page()
    seen: list[str] = []
    for path, count, says in (
        ("/", 50, "Page 1 of 2"), ("/?waiting=2&mine=1", 3, "Page 2 of 2"),
        ("/?waiting=99", 3, "Page 2 of 2"), ("/?waiting=0", 50, "Page 1 of 2"),
        ("/?waiting=-1", 50, "Page 1 of 2"), ("/?waiting=%d9%a3", 50, "Page 1 of 2"),
    ):  # fmt: skip
        text = page(site, "bob", path)
        found = re.findall(r'id="waits-ann-([0-9]+)"', text)
        assert len(found) == count and says in text and "Waits for me (53)" in text, path
        seen += found if len(seen) < 53 else []
    assert seen == [str(it) for it in range(1, 54)]
    assert 'href="/?waiting=2#waiting"' in page(site, "bob")
    assert 'href="/history?on=db1&amp;page=1#page"' in page(site, "ann", "/history?on=db1&page=2")
    assert page(site, "ann", "/?all=1&mine=2").count('<article id="mine-') == 3


def test_who_tells_people_asks_once(asking: tuple[Site, Counter]) -> None:
    site, counter = asking
    config = read_config(str(site.config))
    outbox, desk = config.open_outbox(), config.open_desk()
    notices = Notices(outbox)
    many(site)
    counter.asked()

    def finder() -> Finder:
        return Finder(Knowledge(outbox, desk, config.read_roster(), now()))

    # (who may approve is asked while something that waits is told)
    for asked in (["requests", "open", "parked"], ["requests", "parked"]):
        assert look(notices, finder) == ""
        assert [it.split("/")[2] for it in counter.asked()] == asked
    kinds = [it[0] for it in outbox.base.execute("SELECT kind FROM notices ORDER BY kind")]
    # (an approval that is the last one needed is told as the grant)
    assert kinds == ["approved"] * 7 + ["asked"] * 20 + ["granted"] * 7 + ["refused"] * 7


def test_what_was_revoked_long_before_its_end(quiet_site: Site) -> None:
    """A revoked grant is found, though its window is older than what the relay asks for first."""
    site, roster = quiet_site, quiet_site.folder / "site.roster"
    roster.write_text(roster.read_text().replace("longest = 7200", "longest = 2592000"))
    site.start_desk()
    begins = now() - timedelta(days=20)
    revoked = ("bob", "approve", begins), ("bob", "revoke", begins + timedelta(hours=1))
    many(site, 3)
    with counted(site) as counter:
        for count in (1, 2, 3):
            brought(site, wish(begins, timedelta(days=21)), *revoked)
            mine = site.data("ann", "mine")
            assert isinstance(mine, list)
            words = [*[("granted", "over")] * count, ("waiting", None), ("refused", None)]
            assert [(it["status"], it["state"]) for it in mine] == [*words, ("granted", None)]
            assert mine[0]["window"]["until"] == stamp(begins + timedelta(minutes=59, seconds=59))
            asked = counter.asked()
            assert len(asked) == 2 and asked[0].startswith("/v1/open/"), asked
            is_one = asked[1] == "/v1/requests/ann/4"
            assert is_one or asked[1] == f"/v1/requests/after/{stamp(begins)}", asked


def test_what_the_desk_does_not_have(asking: tuple[Site, Counter]) -> None:
    """A desk that lost its store grants nothing, and is not asked for each."""
    site, counter = asking
    many(site, 6)
    site.stop_desk()
    for path in site.folder.glob("desk.db*"):
        path.unlink()
    site.start_desk()
    counter.asked()
    mine = site.data("ann", "mine")
    assert isinstance(mine, list)
    assert {(it["status"], it["state"]) for it in mine} == {(None, "unknown")} and len(mine) == 6
    assert len(counter.asked()) == 2


def test_a_person_who_is_named_as_a_route(quiet_site: Site) -> None:
    """The desk tells nobody named `after` by a route of their own."""
    site, roster = quiet_site, quiet_site.folder / "site.roster"
    roster.write_text(roster.read_text().replace("\nann = ", '\nafter = ["operate-db"]\nann = '))
    site.start_desk()
    kept = brought(site, wish(now()), ("bob", "approve", now()), by="after")
    with counted(site) as counter:
        mine = site.data("after", "mine")
        assert isinstance(mine, list)
        assert [(it["status"], it["no"]) for it in mine] == [("granted", kept.request.no)]
        assert len(counter.asked()) == 1


def test_an_older_desk(asking: tuple[Site, Counter]) -> None:
    """People read in plain words that the desk is older. What they send is posted all the same."""
    site, counter = asking
    config = read_config(str(site.config))
    outbox = config.open_outbox()
    notices = Notices(outbox)
    counter.is_old = True
    ran = site.run("ann", ASK)
    assert ran.returncode == 0 and "It is at the desk." in ran.stdout, ran
    ran = site.run("ann", "mine")
    assert ran.returncode == 3 and "it is older than this relay" in ran.stdout, ran
    counter.asked()
    assert site.run("bob", "waiting").returncode == 3 and len(counter.asked()) == 1
    site.start_page()
    assert "The desk does not answer: it is older than this relay" in page(site, "bob")
    assert 'id="waits-ann-1"' in page(site, "bob")

    def finder() -> Finder:
        desk = config.open_desk()
        return Finder(Knowledge(outbox, desk, config.read_roster(), now()))

    assert "it is older than this relay" in look(notices, finder)
    counter.is_old = False
    assert site.run("ann", "mine").returncode == 0
    assert look(notices, finder) == ""
    assert [it[0] for it in outbox.base.execute("SELECT kind FROM notices")] == ["asked"]


PEOPLE = ["ann", "bob", "carol", "dave", "eve"]


def test_a_grant_is_the_desks(site: Site) -> None:
    """Random verdicts: a grant that is shown is the one that the desk tells of its moments, and an
    approval of whoever its report bars does not count."""
    chance, at = random.Random(5), now()
    config = read_config(str(site.config))
    for _ in range(40):
        begins = at - timedelta(minutes=chance.randrange(90))
        said = [
            (chance.choice(PEOPLE), chance.choice(["approve", "approve", "refuse", "revoke"]),
             begins + timedelta(seconds=chance.randrange(5400)))
            for _ in range(chance.randrange(5))
        ]  # fmt: skip
        brought(site, wish(begins), *said)
    outbox, desk = config.open_outbox(), config.open_desk()
    found = Knowledge(outbox, desk, config.read_roster(), at).mine("ann")
    words = {it.word for it in found}
    assert {"granted", "waiting", "refused"} <= words, words
    barred = {(who, int(no), by): why for who, no, by, why in desk.review(at).parts["BARRED"]}
    for it in found:
        moments = {it.request.wish.begins, it.request.wish.ends, *(v.verdict.at for v in it.said)}
        told = {
            grant
            for moment in moments
            for grant in desk.grants(of_stamp(moment))
            if (grant.who, grant.no) == (it.request.by, it.request.no)
        }
        assert told == ({it.grant} if it.grant else set()), it
        for said_here in it.said:
            verdict = said_here.verdict
            bar = barred.get((verdict.of, verdict.no, verdict.by), "")
            if verdict.kind == "approve":
                assert said_here.barred in (bar, "asker", "duty", "conflict"), (it, barred)
                assert not bar or said_here.barred, (it, barred)


# What may come in the place of the desk's document.
DOCUMENTS = [
    "[]", "7", "{", '{"names":7}', '{"names":[7]}', '{"names":[{"by":"ann","no":1}]}',
    '{"names":[{"by":[],"no":1,"status":"waiting","requests":[],"verdicts":[]}]}',
    '{"names":[{"by":"ann","no":1,"status":"granted","requests":[],"verdicts":[],"window":7}]}',
    '{"names":[{"by":"ann","no":1,"status":"waiting","requests":[],"verdicts":[{"verdict":7}]}]}',
    '{"names":[{"by":"ann","no":1,"status":"granted","requests":[{"ceiling":"a"}],"verdicts":[],'
    '"window":{"from":"now","until":"then"}}]}', "[" * 100_000,
]  # fmt: skip


@pytest.mark.parametrize("document", DOCUMENTS)
def test_what_is_no_document_of_the_desk(site: Site, document: str) -> None:
    many(site, 2)
    with answering(200, document) as url:
        settings = site.config.read_text()
        site.config.write_text(settings.replace(site.url, url))
        ran = site.run("ann", "mine")
    assert ran.returncode == 3 and "these are no words of the desk's" in ran.stdout, ran
    assert "Traceback" not in ran.stderr
