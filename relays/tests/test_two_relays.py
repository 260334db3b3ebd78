"""What people read is the desk's word: random sites with two relays and three desks, verdicts by
any relay, rosters that change. For every name the word, who may approve it and why a verdict does
not count are those of the desk that is asked, by ssh, with --json, on the page and in a notice.

The gate has a short form; SITES=200 is the long one, in which five sites have a real sshd and a
browser.
"""

import json
import os
import re
from collections.abc import Callable, Iterable, Iterator
from contextlib import ExitStack
from html import unescape
from pathlib import Path

import pytest
from selenium import webdriver
from selenium.webdriver.common.by import By

from relays.tests.chromium import browser
from relays.tests.front import Front
from relays.tests.random_site import OTHERS, PEOPLE, Entry, Name, RandomSite
from relays.tests.site import SECRET
from relays.tests.sshd import Sshd
from steelnewt_client.moments import now, stamp
from steelnewt_relay import fates
from steelnewt_relay.events import Finder, Manner
from steelnewt_relay.notices import look
from steelnewt_relay.page import create_app
from steelnewt_relay.standing import Knowledge

SITES = int(os.environ.get("SITES", "12"))
# How many have a real sshd and a browser, and how many names and people are looked at there.
REAL, SHOWN, READERS = (5, 100, PEOPLE) if "SITES" in os.environ else (1, 2, PEOPLE[:2])
# What a person reads who writes a line by ssh, and on a page.
Says = Callable[[str, str], str]


@pytest.fixture(params=range(SITES))
def random_site(tmp_path: Path, request: pytest.FixtureRequest) -> Iterator[RandomSite]:
    found = RandomSite(tmp_path, request.param)
    try:
        found.live()
        yield found
    finally:
        found.close()


def is_over(entry: Entry) -> bool:
    """Whether the clock has passed a window that the desk grants, or that waits."""
    if entry["status"] not in ("granted", "waiting"):
        return False
    ends = entry["window"]["until"] if "window" in entry else entry["requests"][0]["until"]
    return bool(ends < stamp(now()))


def may_approve(entry: Entry) -> list[str] | None:
    """Who may approve it now by the desk."""
    is_asked = entry["status"] == "waiting" and not is_over(entry)
    return entry["may_approve"]["people"] if is_asked else None


def check_data(told: Entry, entry: Entry) -> None:
    """A script has the desk's words, and the relay's own for what the clock says."""
    for word in ("status", "window", "denial", "lacks"):
        assert told[word] == entry.get(word), (word, told, entry)
    assert told["may_approve"] == may_approve(entry), (told, entry)
    assert told["state"] == ("over" if is_over(entry) else None), told
    verdicts = {(it["by"], it["kind"], it["at"]): (it["counts"], it["barred"])
                for it in told["verdicts"] if it["counts"] is not None}  # fmt: skip
    wanted = {tuple(it["verdict"][word] for word in ("by", "kind", "at")):
              (it["counts"], it.get("why")) for it in entry["verdicts"]}  # fmt: skip
    assert verdicts == wanted, (told, entry)


def check_text(text: str, entry: Entry, is_whole: bool) -> None:
    """What a person reads: the sentence of the desk's word, who may approve it, and why not."""
    text = " ".join(text.split())
    assert fates.SENTENCES[entry["status"]] in text, (text, entry)
    others = {it: said for it, said in fates.SENTENCES.items() if it != entry["status"]}
    assert is_over(entry) or not [it for it in others.values() if it in text], (text, entry)
    may = may_approve(entry)
    said = f"; {', '.join(may)} may approve it." if may else "; nobody may now."
    assert (said in text) == (may is not None), (text, entry)
    if denial := entry.get("denial"):
        assert denial in text
    for it in entry["verdicts"] if is_whole else []:
        if why := it.get("why"):
            assert f"it does not count: {fates.BARS[why]}" in text, (text, it)


def asked(names: dict[Name, Entry]) -> dict[Name, Entry]:
    return {name: it for name, it in names.items() if it["requests"]}


def is_open(entry: Entry) -> bool:
    return bool(max(it["until"] for it in entry["requests"]) >= stamp(now()))


def check_shown(says: Says, names: dict[Name, Entry], shown: Iterable[Name]) -> None:
    """Each name by ssh, for people and for a script."""
    for name in shown:
        text = says("ann", f"show {name[0]} {name[1]}")
        check_text(text, names[name], True)
        assert ("by another way in" in text.partition("]")[0]) == (name[1] >= OTHERS), text
        [told] = json.loads(says("bob", f"show {name[0]} {name[1]} --json"))
        check_data(told, names[name])


def check_history(says: Says, names: dict[Name, Entry]) -> None:
    told = {(it["who"], it["no"]): it for it in json.loads(says("ann", "history --all --json"))}
    known = {name for name, it in asked(names).items() if is_open(it) or name[1] < OTHERS}
    assert known <= set(told)
    for name in known:
        check_data(told[name], names[name])


def is_revoked(entry: Entry) -> bool:
    """Whether a revocation counts. What waits still does at the desk, but no longer for anybody."""
    return any(it["counts"] and it["verdict"]["kind"] == "revoke" for it in entry["verdicts"])


def not_there(site: RandomSite, names: dict[Name, Entry]) -> dict[Name, str]:
    """This relay's requests that the desk lacks which is asked, and what this outbox says."""
    kept = {(it.request.by, it.request.no): it.state for it in site.outbox.requests()}
    return {name: state for name, state in kept.items() if name not in asked(names)}


def check_own_words(site: RandomSite, names: dict[Name, Entry]) -> None:
    """The relay has words of its own for a request that the desk lacks, and no others."""
    own = {"kept": "kept", "refused": "rejected", "acked": "unknown"}
    for name, state in not_there(site, names).items():
        [told] = json.loads(site.ssh("ann", f"show {name[0]} {name[1]} --json"))
        word = names[name]["status"] if state == "acked" and name in names else None
        assert (told["status"], told["state"]) == (word, None if word else own[state]), told
        assert not told["may_approve"] and told["window"] is None, told


def check_waiting(
    says: Says, page: Says, names: dict[Name, Entry], others: Iterable[Name], people: Iterable[str]
) -> None:
    """What waits for somebody by ssh and on the page is what the desk says that they may approve,
    and maybe `others`, which are not at the desk."""
    left = {name: it for name, it in asked(names).items() if not is_revoked(it)}
    for person in people:
        waits = {name for name, it in left.items() if person in (may_approve(it) or ())}
        listed = json.loads(says(person, "waiting --json"))
        assert {(it["who"], it["no"]) for it in listed} - set(others) == waits, person
        shown = re.findall(r'id="waits-([a-z]+)-([0-9]+)"', page(person, "/"))
        assert {(of, int(no)) for of, no in shown} - set(others) == waits, person


def check_pages(page: Says, names: dict[Name, Entry], shown: Iterable[Name]) -> None:
    for by, no in shown:
        text = unescape(re.sub("<[^>]*>", "", page("ann", f"/r/{by}/{no}")))
        check_text(text, names[by, no], True)


def page_of(site: RandomSite) -> Says:
    """The page without a front or a browser."""
    client = create_app(site.settings).test_client()

    def page(person: str, path: str) -> str:
        reply = client.get(path, headers={"X-Desk-Front": SECRET, "X-Desk-Person": person})
        assert reply.status_code == 200, reply.text
        return reply.text

    return page


def check_notices(site: RandomSite, names: dict[Name, Entry]) -> int:
    """Each notice has the desk's words, and a request is told to whom the desk names: how many."""

    def finder() -> Finder:
        config = site.settings
        knowledge = Knowledge(site.outbox, config.open_desk(), config.read_roster(), now())
        return Finder(knowledge, Manner())

    assert look(site.notices, finder) == ""
    rows, count = site.outbox.base.execute("SELECT body FROM notices WHERE state = 'due'"), 0
    for event in [json.loads(body) for (body,) in rows]:
        entry = names.get((event["who"], event["no"]))
        if entry is None or "status" not in event or event["event"] == "elsewhere":
            continue
        if event["status"] is None:
            assert event["state"] in ("kept", "rejected"), event
            continue
        count += 1
        assert event["status"] == entry["status"], event
        check_text(event["text"], entry, False)
        assert event["approvers"] == (may_approve(entry) or []), (event, entry)
        if event["event"] == "asked":
            assert event["to"] == ([] if is_revoked(entry) else event["approvers"]), event
    return count


def test_the_desks_word(random_site: RandomSite) -> None:
    site, names = random_site, random_site.names()
    page = page_of(site)
    check_shown(site.ssh, names, asked(names))
    check_history(site.ssh, names)
    check_waiting(site.ssh, page, names, not_there(site, names), PEOPLE)
    check_own_words(site, names)
    check_pages(page, names, asked(names))
    assert check_notices(site, names) > 0


@pytest.fixture(scope="module")
def driver(tmp_path_factory: pytest.TempPathFactory) -> Iterator[webdriver.Chrome]:
    found = browser(tmp_path_factory.mktemp("browser"))
    yield found
    found.quit()


@pytest.mark.parametrize("seed", range(1_000, 1_000 + REAL))
def test_by_a_real_sshd_and_browser(tmp_path: Path, seed: int, driver: webdriver.Chrome) -> None:
    with ExitStack() as stack:
        site = RandomSite(tmp_path, seed)
        stack.callback(site.close)
        site.live()
        sshd = Sshd(site, list(READERS), "zoe")
        stack.callback(sshd.stop)
        front = Front(site, list(READERS))
        stack.callback(front.stop)
        site.start_page()
        check_by_them(site, sshd, front, driver)


def check_by_them(site: RandomSite, sshd: Sshd, front: Front, driver: webdriver.Chrome) -> None:
    def says(person: str, line: str) -> str:
        ran = sshd.ssh(person, line)
        assert ran.returncode == 0, ran
        return ran.stdout

    def page(person: str, path: str) -> str:
        """The text that the browser shows, or the first page's source."""
        driver.get(f"{front.url(person)}{path}")
        body = driver.find_element(By.TAG_NAME, "body")
        return driver.page_source if path == "/" else str(body.text)

    names = site.names()
    shown = sorted(asked(names))[:SHOWN]
    check_shown(says, names, shown)
    check_waiting(says, page, names, not_there(site, names), READERS)
    check_pages(page, names, shown)


def test_a_sentence_is_its_words_alone() -> None:
    """Each word has one sentence, and no two words have the same."""
    said = [fates.sentence(it) for it in fates.SENTENCES]
    assert len(set(said)) == len(said) and all(it.endswith(".") for it in said)
    assert fates.sentence("other") == "The desk says: other."
