"""A request on the page, from its card and its own address to the yes: what stands first, who may
press what, why somebody refused, and what is left of the time."""

import json
import re
import sqlite3
from collections.abc import Callable, Iterator
from contextlib import closing
from datetime import timedelta
from html import unescape
from zoneinfo import ZoneInfo

import pytest
from flask.testing import FlaskClient
from werkzeug.test import TestResponse

from relays.tests.site import SECRET, Site
from relays.tests.test_asks import brought, wish
from relays.tests.test_page import ASKED, token
from steelnewt_client.messages import Wish
from steelnewt_client.moments import now, of_stamp, stamp
from steelnewt_relay.config import read_config
from steelnewt_relay.page import create_app

MINUTE = timedelta(minutes=1)


class People:
    """The page as each person's browser has it."""

    def __init__(self, site: Site) -> None:
        self.site = site
        app = create_app(read_config(str(site.config)))
        self.client: FlaskClient = app.test_client(use_cookies=False)

    def get(self, person: str, path: str = "/") -> TestResponse:
        return self.client.get(path, headers=self.heads(person))

    def text(self, person: str, path: str = "/") -> str:
        """What somebody reads there: without the marks, and each blank once."""
        return read(self.get(person, path).text)

    def post(self, person: str, path: str, **fields: str) -> TestResponse:
        return self.client.post(path, data=fields, headers=self.heads(person))

    def heads(self, person: str) -> dict[str, str]:
        return {"X-Desk-Front": SECRET, "X-Desk-Person": person}

    def ask(self, person: str, **other: str) -> TestResponse:
        """What is shown of the form, filled."""
        words = ASKED | other | {"token": token(self.get(person).text)}
        return self.post(person, "/ask", **words)

    def say(self, person: str, page: str, **fields: str) -> str:
        """Where the yes of a page leads to. (A request's own page has another form before it.)"""
        page = page[max(0, page.find('id="confirm"')) :]
        what = re.search('name="what" value="([a-z]+)"', page)
        assert what, page
        sent = self.post(person, "/send", token=token(page), what=what[1], **fields)
        assert sent.status_code == 303, sent.text
        return sent.headers["Location"]


def read(page: str) -> str:
    return " ".join(unescape(re.sub("<[^>]*>", " ", page[max(0, page.find("<main")) :])).split())


def card(page: str, id: str) -> str:
    return page.partition(f'id="{id}"')[2].partition("</article>")[0]


@pytest.fixture(scope="module")
def people(tmp_path_factory: pytest.TempPathFactory) -> Iterator[People]:
    site = Site(tmp_path_factory.mktemp("each"))
    try:
        with open(site.config, "a", encoding="ascii") as file:
            file.write('[notify]\nprogram = ["/bin/true"]\n')
        site.start_desk()
        yield People(site)
    finally:
        site.close()


@pytest.fixture
def asked(people: People) -> Callable[..., int]:
    """Brings a request of ann's, whose window began so many minutes ago."""

    def bring(minutes: int = 0, length: timedelta = 60 * MINUTE, by: str = "ann") -> int:
        return brought(people.site, wish(now() - minutes * MINUTE, length), by=by).request.no

    return bring


def test_who_what_where_and_how_long_stand_first(
    people: People, asked: Callable[..., int]
) -> None:
    """The second that a yes took is no part of the length."""
    no = asked(length=60 * MINUTE - timedelta(seconds=1))
    shown = card(people.get("bob").text, f"waits-ann-{no}")
    heading = re.search("<h3[^>]*>(.*?)</h3>", shown, re.DOTALL)
    assert heading and read(heading[1]) == "ann: root on db1, 1 hour"
    assert "59 minutes" not in shown and "/usr/bin/id" in shown.partition("<details")[0]
    assert shown.index("/usr/bin/id") < shown.index("db-care")


def test_each_request_has_an_address(people: People, asked: Callable[..., int]) -> None:
    no = asked()
    assert f'href="/r/ann/{no}"' in people.get("bob").text
    page = people.get("bob", f"/r/ann/{no}")
    assert page.status_code == 200 and "Yes, approve" in page.text and "Refuse" in page.text
    told = read(page.text)
    assert told.startswith("ann: root on db1, 1 hour") or "ann: root on db1, 1 hour waiting" in told
    assert "ann asked" in told and "/usr/bin/id" in told
    for person, button in (("dave", ""), ("eve", ""), ("ann", "Withdraw")):
        other = people.get(person, f"/r/ann/{no}").text
        assert "Yes, approve" not in other and ("Withdraw" in other) == bool(button), person


def test_from_a_notice_to_the_yes_are_two_taps(people: People, asked: Callable[..., int]) -> None:
    """The link, and the button of the page that it leads to."""
    no = asked()
    page = people.get("bob", f"/r/ann/{no}")
    assert page.status_code == 200
    where = people.say("bob", page.text, why="go on")
    assert where.startswith(f"/r/ann/{no}?sent=")
    told = people.text("bob", where)
    assert "bob approved it : “go on”" in told or "bob approved it: go on" in told, told
    assert "in force" in told and "Yes, approve" not in told


def test_a_number_that_is_none(people: People, asked: Callable[..., int]) -> None:
    no = asked()
    page = people.get("bob", "/r/ann/4711")
    assert page.status_code == 404
    assert "There is no ann 4711 here: ann's open requests are " in read(page.text)
    assert re.search(rf"\b{no}\b", read(page.text))


def test_why_somebody_refused(people: People, asked: Callable[..., int]) -> None:
    no = asked()
    page = people.get("bob", f"/verdict?kind=refuse&of=ann&no={no}&back=1").text
    assert 'name="why"' in page
    where = people.say("bob", page, why="not now, <b>see</b> OPS-9")
    assert where.startswith(f"/r/ann/{no}?sent=")
    for path in ("/", f"/r/ann/{no}"):
        assert "not now, <b>see</b> OPS-9" in people.text("ann", path)
        assert "<b>see" not in people.get("ann", path).text
    data = people.site.run("ann", f"show ann {no}").stdout
    assert "bob refused it" in data


def test_what_is_left_of_the_time(people: People, asked: Callable[..., int]) -> None:
    """Whoever wakes late may let the asker ask for the whole of it, by one press of hers."""
    no = asked(40)
    told = read(card(people.get("bob").text, f"waits-ann-{no}"))
    assert re.search("(1[5-9]|20) of the 60 minutes are left", told), told
    assert "Let ann ask for the full hour" in told
    page = people.get("bob", f"/let?of=ann&no={no}").text
    assert "Let ann ask for the full hour?" in page
    assert people.say("bob", page) == f"/r/ann/{no}?told=1"
    with closing(sqlite3.connect(people.site.folder / "outbox.db")) as base:
        rows = base.execute("SELECT body FROM notices WHERE kind = 'full'").fetchall()
    [event] = [json.loads(it) for (it,) in rows]
    assert (event["by"], event["to"], event["no"]) == ("bob", ["ann"], no)
    own = people.get("ann", f"/r/ann/{no}").text
    people.say("ann", own)
    kept = read_config(str(people.site.config)).open_outbox().requests_of("ann")[-1].request
    assert kept.no > no and kept.wish.length() > 59 * MINUTE
    assert of_stamp(kept.wish.begins) > now() - 5 * MINUTE
    # (whoever may not approve it lets nobody)
    assert people.get("eve", f"/let?of=ann&no={no}").status_code == 400


def test_what_is_whole_is_not_counted(people: People, asked: Callable[..., int]) -> None:
    no = asked(-30)
    told = read(card(people.get("bob").text, f"waits-ann-{no}"))
    assert f"ann {no} · db-care · until " in told and "left" not in told and "Let ann" not in told
    assert 'id="yes"' not in people.get("ann", f"/r/ann/{no}").text


def test_what_ends_soon_stands_on_top(people: People, asked: Callable[..., int]) -> None:
    asked()
    later, soon = asked(50), asked(55)
    found = re.findall('id="waits-(ann-[0-9]+)"', people.get("bob").text)
    assert found[:2] == [f"ann-{soon}", f"ann-{later}"]


def marked(page: str) -> list[str]:
    """The fields that are marked as wrong."""
    return re.findall(r'<(?:input|select|textarea) id="([a-z]+)"[^>]*aria-invalid="true"', page)


# What cannot be granted, the field that is marked, and what is said there.
FAULTS = [
    ("ann", {"hosts": "web1"}, "hosts", "web1 is outside db-care"),
    ("ann", {"runas": "nobody"}, "runas", "nobody is outside db-care"),
    ("ann", {"commands": "/usr/sbin/reboot"}, "commands", "/usr/sbin/reboot is outside db-care"),
    ("ann", {"length": "3h"}, "length", "db-care gives at most 2 hours"),
    ("carol", {"ceiling": "db-emergency", "commands": "ALL", "length": "15m"}, "ceiling",
     "it needs approvals of 2 people, and only bob may approve it for carol until it ends"),
]  # fmt: skip


@pytest.mark.parametrize(("person", "words", "field", "said"), FAULTS)
def test_what_cannot_be_granted_is_the_form_again(
    people: People, person: str, words: dict[str, str], field: str, said: str
) -> None:
    before = people.site.kept()
    page = people.ask(person, **words)
    assert page.status_code == 400 and marked(page.text) == [field], page.text
    assert said in read(page.text) and "Yes, ask" not in page.text
    entry = re.search(f'id="{field}"[^>]*aria-describedby="([^"]*)"[^>]*', page.text)
    assert entry and f"{field}-wrong" in entry[1].split() and "autofocus" in entry[0]
    assert f'href="#{field}"' in page.text and f'<span id="{field}-wrong"' in page.text
    assert people.site.kept() == before
    # (whoever means it may send it)
    page = people.ask(person, **words, anyway="1")
    assert page.status_code == 200 and "This cannot be granted: " in read(page.text)
    assert "Ask all the same" in page.text


# Words that cannot be read, and the fields that are marked.
UNREAD = [
    ({"hosts": "<b>"}, ["hosts"]), ({"hosts": ""}, ["hosts"]), ({"runas": "a b"}, ["runas"]),
    ({"commands": "id"}, ["commands"]), ({"commands": "/x '"}, ["commands"]),
    ({"begins": "soon"}, ["begins"]), ({"length": "2 h"}, ["length"]),
    ({"length": "", "ends": "25:00"}, ["ends"]), ({"length": "", "ends": ""}, ["length"]),
    ({"why": "x" * 501}, ["why"]), ({"ticket": "a b"}, ["ticket"]),
    ({"hosts": "?", "commands": "id", "ticket": "a b"}, ["hosts", "commands", "ticket"]),
]  # fmt: skip


@pytest.mark.parametrize(("words", "fields"), UNREAD)
def test_each_field_that_cannot_be_read_is_marked(
    people: People, words: dict[str, str], fields: list[str]
) -> None:
    page = people.ask("ann", **words, anyway="1")
    assert page.status_code == 400 and marked(page.text) == fields, page.text
    assert page.text.count("autofocus") == 1 and "Show it all the same" not in page.text


def test_several_are_decided_by_one_yes(people: People, asked: Callable[..., int]) -> None:
    first, second, mine = asked(), asked(), asked(by="carol")
    home = people.get("carol").text
    for no in (first, second):
        assert f'value="ann {no}"' in card(home, f"waits-ann-{no}")
    names = "&".join(f"each={who}+{no}" for who, no in
                     (("ann", first), ("ann", second), ("carol", mine)))  # fmt: skip
    page = people.get("carol", f"/verdict?kind=approve&{names}")
    assert page.status_code == 200 and "Yes, approve 2" in page.text, page.text
    told = read(page.text)
    assert told.count("may run /usr/bin/id") == 2
    assert f"carol {mine}: Your approval will not count: you asked for it yourself." in told
    before = len(people.site.kept())
    where = people.say("carol", page.text, why="all of the migration")
    assert len(people.site.kept()) == before + 2
    told = people.text("carol", where)
    for no in (first, second):
        done = rf"ann {no} : The desk has your approval\. The desk grants it\. It is in force"
        assert re.search(done, told), told
        assert "all of the migration" in people.text("ann", f"/r/ann/{no}")
    assert "Yes, approve" not in people.get("carol", f"/r/ann/{first}").text


def test_all_of_one_person_are_ticked(people: People, asked: Callable[..., int]) -> None:
    numbers = [asked(), asked()]
    other = asked(by="carol")
    home = people.get("bob").text
    assert 'href="/?ticked=ann#waiting"' in home and " checked" not in home
    ticked = people.get("bob", "/?ticked=ann").text
    boxes = dict(re.findall(r'name="each" id="tick-(\w+-\d+)"\s+value="[^"]*"( checked)?>', ticked))
    assert all(boxes[f"ann-{it}"] for it in numbers) and not boxes[f"carol-{other}"]
    nothing = people.get("bob", "/verdict?kind=approve")
    assert nothing.status_code == 400 and "Tick first what you decide" in read(nothing.text)


def test_what_is_usual_is_asked_by_two_presses(people: People, asked: Callable[..., int]) -> None:
    for _ in range(2):
        asked(length=45 * MINUTE)
    home = people.get("ann").text
    usual = re.findall(r'<a href="(/usual\?no=\d+)">root on db1, 45 minutes\s*<', home)
    assert len(usual) == 1 and home.index(usual[0]) < home.index('id="hosts"')
    page = people.get("ann", usual[0])
    assert page.status_code == 200 and "Ask for this?" in page.text
    people.say("ann", page.text)
    kept = read_config(str(people.site.config)).open_outbox().requests_of("ann")[-1].request
    assert stamp(now() - 5 * MINUTE) < kept.wish.begins and kept.wish.commands == ("/usr/bin/id",)


def kept_under(people: People, person: str, no: int, name: str) -> TestResponse:
    """What comes of the form on a request's page that keeps it under a name."""
    page = people.get("ann", f"/r/ann/{no}").text
    form = re.search('value="([^"]+)">\\s*<input type="hidden" name="what" value="save"', page)
    assert form, page
    return people.post(person, "/send", token=form[1], what="save", name=name)


def test_a_name_of_ones_own_is_kept_on_the_page(
    people: People, asked: Callable[..., int]
) -> None:
    """The name stands above the form, and by ssh it asks for the same."""
    no = asked(length=50 * MINUTE)
    assert "A name of yours for it" not in people.get("bob", f"/r/ann/{no}").text
    sent = kept_under(people, "ann", no, " pg-again ")
    assert (sent.status_code, sent.headers.get("Location")) == (303, "/#usual"), sent.text
    home = people.get("ann").text
    usual = home[home.index('id="usual"') : home.index('id="ceiling"')]
    assert "pg-again root on db1, 50 minutes" in read(f"<main>{usual}")
    assert f'href="/usual?no={no}"' in usual
    ran = people.site.run("ann", "ask pg-again --yes --no-wait")
    assert ran.returncode == 0 and "for 50 minutes" in ran.stdout, ran
    for person, name, said in (
        ("ann", "db-care", "db-care is a ceiling's"), ("ann", "Not One", "is no name"),
        ("bob", "pg-again", "made for somebody else"),
    ):  # fmt: skip
        wrong = kept_under(people, person, no, name)
        assert wrong.status_code == 400 and said in read(wrong.text), wrong.text


def test_what_became_of_it_is_said_at_once(people: People, asked: Callable[..., int]) -> None:
    no = asked()
    page = people.get("bob", f"/verdict?kind=approve&of=ann&no={no}").text
    told = people.text("bob", people.say("bob", page))
    assert re.search(rf"ann {no} : [^:]*\. It is in force from", told), told


def test_nothing_is_said_of_what_nobody_sent(people: People, asked: Callable[..., int]) -> None:
    no = asked()
    assert "Nothing was sent" not in people.text("ann", f"/again?no={no}")
    stranger = people.get("mallory")
    assert stranger.status_code == 403 and "Nothing was sent" not in stranger.text
    assert "Back to the page" not in stranger.text and 'href="/"' not in stranger.text


def test_an_own_request_is_withdrawn(people: People, asked: Callable[..., int]) -> None:
    no = asked()
    assert "Withdraw" in card(people.get("ann").text, f"mine-{no}")
    page = people.get("ann", f"/verdict?kind=revoke&of=ann&no={no}").text
    assert f"Withdraw ann {no}?" in page and "Yes, withdraw" in page
    people.say("ann", page, why="done by hand")
    assert f'id="waits-ann-{no}"' not in people.get("bob").text
    assert "done by hand" in people.text("bob", f"/r/ann/{no}")


def test_what_is_in_force_goes_on_from_its_end(
    people: People, asked: Callable[..., int]
) -> None:
    no = asked()
    page = people.get("bob", f"/r/ann/{no}")
    assert page.status_code == 200 and "Change it first" not in page.text
    people.say("bob", page.text)
    assert "Ask again" in people.get("ann", f"/r/ann/{no}").text
    kept = read_config(str(people.site.config)).open_outbox().request("ann", no)
    assert kept
    ends = of_stamp(kept.request.wish.ends).astimezone(ZoneInfo("Europe/Berlin"))
    begins = f'id="begins" name="begins" value="{ends:%Y-%m-%d %H:%M:%S}"'
    assert begins in people.get("ann", f"/again?no={no}").text


def test_where_people_sign_the_page_says_what_to_write(quiet_site: Site) -> None:
    text = quiet_site.config.read_text()
    signed = '[signing]\nsite = "desk.example"\nrequired = true\n[page]'
    quiet_site.config.write_text(text.replace("[page]", signed, 1))
    config = read_config(str(quiet_site.config))
    kept = config.open_outbox().keep_request("ann", wish(now()), stamp(now()))
    people = People(quiet_site)
    for path in (f"/r/ann/{kept.request.no}", f"/verdict?kind=approve&of=ann&no={kept.request.no}"):
        page = people.get("bob", path).text
        assert "mydesk approve ann 1" in read(page) and 'id="yes"' not in page


def test_an_approval_that_will_not_count_is_no_easy_yes(
    people: People, asked: Callable[..., int]
) -> None:
    no = asked()
    page = people.get("eve", f"/verdict?kind=approve&of=ann&no={no}").text
    assert "Your approval will not count: " in page
    assert "Approve all the same" in page and "Yes, approve" not in page


def test_commands_the_widest_first_and_some_more(people: People) -> None:
    commands = [*(f"/usr/local/sbin/x{it} -a" for it in range(4)), "/usr/local/sbin/"]
    asked_for = Wish.of("db-care", ["db1", "db2"], "root", commands, window())
    no = brought(people.site, asked_for).request.no
    shown = card(people.get("bob").text, f"waits-ann-{no}").partition("<details")[0]
    told = re.findall("<li>(.*?)</li>", shown)
    assert told[0] == "/usr/local/sbin/" and told[-1] == "and 2 more" and len(told) == 4
    assert "ann: root on 2 hosts, 1 hour" in read(shown)


def window() -> tuple[str, str]:
    return stamp(now()), stamp(now() + 60 * MINUTE)
