"""Each person has a share of what a relay keeps and answers, and takes nothing of anybody else's."""

import threading
from collections.abc import Callable
from concurrent.futures import ThreadPoolExecutor
from datetime import timedelta
from pathlib import Path

import pytest
import requests

from relays.tests.front import Front
from relays.tests.site import SECRET, Site
from steelnewt_client.messages import BadWord, Verdict, Wish
from steelnewt_client.moments import now, stamp
from steelnewt_client.signed import Signed, reason_digest
from steelnewt_relay.config import BadConfig, read_config
from steelnewt_relay.lists import Lists
from steelnewt_relay.outbox import Kept, Outbox
from steelnewt_relay.page import MOST_OF_ONE, create_app
from steelnewt_relay.shares import Crowded, Places, Share
from steelnewt_relay.visit import Visit

AT = now()
SMALL = Share(open=3, day=5, ahead=2)


def opened(folder: Path, share: Share = SMALL) -> Outbox:
    outbox = Outbox(str(folder / "outbox.db"), share=share)
    outbox.number_past(0)
    return outbox


def asked(begins: timedelta = timedelta(), length: timedelta = timedelta(hours=1)) -> Wish:
    window = stamp(AT + begins), stamp(AT + begins + length)
    return Wish.of("db-care", ["db1"], "root", ["/usr/bin/id"], window)


def ask(outbox: Outbox, by: str = "ann", begins: timedelta = timedelta()) -> Kept:
    return outbox.keep_request(by, asked(begins), stamp(AT))


def test_so_many_requests_are_open_at_a_time(tmp_path: Path) -> None:
    outbox = opened(tmp_path)
    first = [ask(outbox) for _ in range(3)]
    with pytest.raises(BadWord, match="3 requests of yours are not over"):
        ask(outbox)
    with pytest.raises(BadWord, match="3 requests of yours are not over"):
        outbox.prepare_request("ann", asked(), stamp(AT))
    assert ask(outbox, "carol").request.no == 1
    # (whoever withdraws gets no room by it, but what the desk refused takes none)
    outbox.keep_verdict(Verdict("ann", "revoke", "ann", 1, stamp(AT)))
    with pytest.raises(BadWord):
        ask(outbox)
    outbox.answered(first[0].id, "refused", "A7 WindowTooLong")
    assert ask(outbox).request.no == 4
    later = stamp(AT + timedelta(hours=2))
    assert outbox.keep_request("ann", asked(timedelta(hours=2)), later).request.no == 5


def test_so_many_messages_a_day(tmp_path: Path) -> None:
    """Requests and approvals; what takes rights away is kept all the same, also to be signed."""
    outbox = opened(tmp_path, Share(open=50, day=5))
    ask(outbox)
    for no in range(2):
        outbox.keep_verdict(Verdict("ann", "approve", "carol", no, stamp(AT)))
    outbox.prepare_verdict(Verdict("ann", "approve", "carol", 7, stamp(AT)))
    made = outbox.prepare_request("ann", asked(), stamp(AT))
    for more in (
        lambda: ask(outbox),
        lambda: outbox.keep_verdict(Verdict("ann", "approve", "carol", 8, stamp(AT))),
        lambda: outbox.prepare_verdict(Verdict("ann", "approve", "carol", 9, stamp(AT))),
    ):
        with pytest.raises(BadWord, match="5 times within a day"):
            more()
    # (what was prepared is sent, and counts once)
    signed = Signed(made.text(), "signature", "", reason_digest("", ""))
    assert outbox.keep_signed("ann", signed).request.no == 2
    for no in range(20):
        outbox.keep_verdict(Verdict("ann", "refuse", "carol", no, stamp(AT)))
        outbox.keep_verdict(Verdict("ann", "revoke", "ann", no, stamp(AT)))
        outbox.prepare_verdict(Verdict("ann", "revoke", "carol", no, stamp(AT)))
    tomorrow = stamp(AT + timedelta(days=1, seconds=1))
    assert outbox.keep_request("ann", asked(timedelta(days=1, hours=1)), tomorrow).request.no == 3


def test_a_window_begins_so_many_days_ahead(tmp_path: Path) -> None:
    outbox = opened(tmp_path)
    assert ask(outbox, begins=timedelta(days=2)).is_new
    for days in (3, 26_000):
        with pytest.raises(BadWord, match="at most 2 days ahead"):
            ask(outbox, begins=timedelta(days=days))
    assert Share().ahead == 90 and Share().open < Share().day


def test_the_same_key_again_is_no_more(tmp_path: Path) -> None:
    """A script that sends again after a failure is told of the same request."""
    outbox = opened(tmp_path, Share(open=1))
    for _ in range(3):
        kept = outbox.keep_request("ann", asked(), stamp(AT), "key", "words")
        assert kept.request.no == 1


SETTINGS = ["open = 0", "day = true", 'ahead = "90"', "open = 1000001", "rows = 7"]


@pytest.mark.parametrize("text", SETTINGS)
def test_settings_that_are_none(quiet_site: Site, text: str) -> None:
    with open(quiet_site.config, "a", encoding="ascii") as file:
        file.write(f"[share]\n{text}\n")
    with pytest.raises(BadConfig, match="share"):
        read_config(str(quiet_site.config))


def test_it_is_said_by_ssh(quiet_site: Site) -> None:
    with open(quiet_site.config, "a", encoding="ascii") as file:
        file.write("[share]\nopen = 1\nahead = 5\n")
    line = "ask db-care --on db1 --as root --for 1h --yes --again {} /usr/bin/id"
    ran = quiet_site.run("ann", line.format("--from +200h --anyway"))
    assert ran.returncode == 2 and "begins at most 5 days ahead" in ran.stderr, ran
    assert quiet_site.run("ann", line.format("")).returncode == 3
    ran = quiet_site.run("ann", line.format(""))
    assert ran.returncode == 2 and "1 requests of yours are not over" in ran.stderr, ran
    assert quiet_site.run("ann", "withdraw 1 --yes --anyway").returncode == 3


def heads(person: str) -> dict[str, str]:
    return {"X-Desk-Person": person, "X-Desk-Front": SECRET}


def test_one_persons_questions_leave_places(
    quiet_site: Site, monkeypatch: pytest.MonkeyPatch
) -> None:
    """As many of ann's as may be wait for a slow desk; one more is refused at once, bob is served,
    and once they are answered she is again."""
    goes_on, begun = threading.Event(), threading.Semaphore(0)

    def waits(find: Callable[[Visit, bool], object]) -> Callable[[Visit, bool], object]:
        def found(visit: Visit, is_all: bool) -> object:
            if visit.person == "ann" and not goes_on.is_set():
                begun.release()
                assert goes_on.wait(120)
            return find(visit, is_all)

        return found

    monkeypatch.setattr(Visit, "own", waits(Visit.own))
    app = create_app(read_config(str(quiet_site.config)))

    def get(person: str, path: str = "/") -> int:
        return app.test_client().get(path, headers=heads(person)).status_code

    with ThreadPoolExecutor(MOST_OF_ONE) as people:
        held = [people.submit(get, "ann") for _ in range(MOST_OF_ONE)]
        try:
            for _ in held:
                assert begun.acquire(timeout=120)
            assert (get("ann"), get("ann", "/history"), get("bob")) == (429, 429, 200)
        finally:
            goes_on.set()
        assert {it.result() for it in held} == {200}
    assert get("ann") == 200


def test_a_place_is_given_back() -> None:
    places = Places(2)
    with places.place("ann"), places.place("ann"), places.place("bob"):
        with pytest.raises(Crowded), places.place("ann"):
            pass
    with pytest.raises(KeyError), places.place("ann"):
        raise KeyError
    assert not places.taken


def test_one_link_again_and_again_is_one_question(
    quiet_site: Site, monkeypatch: pytest.MonkeyPatch
) -> None:
    """Whoever opens the history at the same time shares it, and one is made at a time."""
    lock, found, now_made = threading.Lock(), list[int](), [0]
    page = Lists.page

    def counted(lists: Lists, *words: object) -> list[Kept]:
        with lock:
            now_made[0] += 1
            found.append(now_made[0])
        try:
            threading.Event().wait(0.2)
            return page(lists, *words)  # type: ignore[arg-type]
        finally:
            with lock:
                now_made[0] -= 1

    monkeypatch.setattr(Lists, "page", counted)
    app = create_app(read_config(str(quiet_site.config)))

    def get(number: int) -> int:
        path = f"/history?all=1&page={number % 2 + 1}"
        return app.test_client().get(path, headers=heads("ann")).status_code

    with ThreadPoolExecutor(MOST_OF_ONE) as people:
        assert set(people.map(get, range(MOST_OF_ONE))) == {200}
    # (two links, and who came while a question was under way)
    assert max(found) == 1 and len(found) <= MOST_OF_ONE // 2, found


def test_the_pages_front_limits_each_certificate(quiet_site: Site) -> None:
    quiet_site.start_page()
    front = Front(quiet_site, ["ann", "bob"])

    def get(peer: requests.Session, person: str) -> int:
        pair = front.path(f"{person}.pem"), front.path(f"{person}.key")
        url = f"https://127.0.0.1:{front.tls}/static/page.css"
        return peer.get(url, cert=pair, verify=front.path("ca/ca.pem"), timeout=60).status_code

    try:
        seen = list[int]()
        with requests.Session() as peer:
            while len(seen) < 3000 and 429 not in seen:
                seen.append(get(peer, "ann"))
        assert seen[-1] == 429 and len(seen) > 100, len(seen)
        with requests.Session() as peer:
            assert get(peer, "bob") != 429
    finally:
        front.stop()
