"""The door's own page, as whoever reaches its socket or its front finds it: it shows what the desk
holds and the bytes that are signed, and takes a relay's word for nothing."""

import base64
import html
import re
import subprocess
import urllib.parse
from collections.abc import Iterator
from contextlib import closing
from pathlib import Path

import pytest

from door.tests.authenticator import Authenticator, encoded
from door.tests.doors import SITE, Doored
from door.tests.paged import Paged
from relays.tests.front import CONFIG, NGINX
from relays.tests.site import ROOT, PageConnection, wait_for_next_second, wait_for_port
from steelnewt_client.signed import ENROLS, LIST, NAMESPACE, Signed, challenge, digest
from steelnewt_client.signed import enrolling, list_payload, list_signature, reason_digest
from tests.common.ports import free_port

Fields = list[tuple[str, str]]
FORM = "application/x-www-form-urlencoded"


class Visited(Paged):
    """The site without browsers: its door and the door's page."""

    def __init__(self, folder: Path) -> None:
        super().__init__(Doored(folder))
        self.key = Authenticator(self.door)

    def start(self) -> None:
        self.configure()
        (self.folder / "line").write_text(self.line("bob", self.doored.signer("enrol", "bob")))
        self.doored.signer("add", "bob", str(self.folder / "line"))
        self.doored.start()
        self.start_page()

    def line(self, name: str, said: str) -> str:
        return self.key.enrolment(name, said.splitlines()[0], rp="localhost")

    def ask(
        self, where: str, fields: Fields | None = None, person: str = "bob", **headers: str
    ) -> tuple[int, str]:
        """What the page answers to a form of the relay's page, or of its own."""
        own = self.door if where in ("/sign", "/passkey") else self.relay
        given = {"X-Desk-Person": person, "Origin": own, "Content-Type": FORM}
        given |= {name.replace("_", "-"): it for name, it in headers.items()}
        body = urllib.parse.urlencode(fields) if fields is not None else None
        with closing(PageConnection(self.folder / "confirm.sock")) as peer:
            peer.request("GET" if body is None else "POST", where, body, given)
            reply = peer.getresponse()
            self.headers = dict(reply.getheaders())
            return reply.status, reply.read().decode("utf-8")

    def holds(self, no: int, by: str = "ann", command: str = "/usr/bin/id", why: str = "") -> str:
        """A request that the desk holds."""
        text = self.doored.request(by=by, no=no, command=command)
        reason = reason_digest(why, "")
        assert self.doored.post(self.doored.sign(by, text, why=reason)) == "ack"
        return text

    def touched(self, page: str) -> str:
        """The signature that the page's script makes of its form."""
        told = dict(re.findall(r'data-([a-z]+)="([^"]*)"', page))
        made = self.key.touched(bytes_of(told["challenge"]), rp="localhost")
        listed = told["listed"]
        return f"webauthn-list:{made}:{listed}" if listed else f"webauthn:{made}"


def bytes_of(text: str) -> bytes:
    return base64.urlsafe_b64decode(text + "=" * (-len(text) % 4))


def fields_in(page: str) -> Fields:
    """The hidden fields of a page's form, as a browser sends them."""
    found = re.findall(r'<input type="hidden" name="([a-z]+)"(?: value="([^"]*)")?>', page)
    return [(name, html.unescape(value)) for name, value in found]


def verdict(kind: str, *names: str, why: str = "") -> Fields:
    found = [("kind", kind), ("back", ""), ("why", why)]
    for name in names:
        found += [("name", name), ("reason", ""), ("ticket", "")]
    return found


@pytest.fixture(scope="module")
def shared_visit(tmp_path_factory: pytest.TempPathFactory) -> Iterator[Visited]:
    found = Visited(tmp_path_factory.mktemp("v"))
    try:
        found.start()
        yield found
    finally:
        found.close()


@pytest.fixture
def visited(shared_visit: Visited) -> Visited:
    shared_visit.doored.block += 100
    return shared_visit


def test_it_shows_what_the_desk_holds(visited: Visited) -> None:
    """And of a relay's words none that is not signed."""
    no = visited.doored.block + 1
    request = visited.holds(1, why="<b>disk</b>")
    fields = [("kind", "approve"), ("back", "1"), ("title", "harmless"), ("cmnds", "/bin/true")]
    fields += [("name", f"ann {no}"), ("reason", "<b>disk</b>"), ("ticket", "")]
    status, page = visited.ask("/confirm", fields)
    assert status == 200 and "/usr/bin/id" in page and "&lt;b&gt;disk&lt;/b&gt;" in page
    assert "harmless" not in page and "/bin/true" not in page
    told = dict(fields_in(page))
    assert told["about"] == digest(request)
    assert told["digest"] == reason_digest("<b>disk</b>", "")
    assert f'"by":"bob","kind":"approve","no":{no},"of":"ann"' in told["message"]
    signed = Signed(told["message"], visited.touched(page), told["about"], told["digest"])
    sent = [(it, value) for it, value in fields_in(page) if it != "signature"]
    assert visited.ask("/sign", [*sent, ("signature", signed.signature)]) == (200, "signed")
    assert visited.doored.post(signed) == "ack"
    assert [it.split(" ")[1] for it in visited.doored.in_force()] == [str(no)]


def test_another_reason_than_was_asked_with(visited: Visited) -> None:
    """A relay's reason is shown, and signed: the door compares it with what the asker signed."""
    no = visited.doored.block + 1
    visited.holds(1, why="disk")
    fields = [("kind", "approve"), ("name", f"ann {no}"), ("reason", "audit"), ("ticket", "")]
    _, page = visited.ask("/confirm", fields)
    told = dict(fields_in(page))
    signed = Signed(told["message"], visited.touched(page), told["about"], told["digest"])
    assert visited.doored.post(signed) == "A25 OtherReason"


def test_of_a_list_each_is_shown_and_none_beside(visited: Visited) -> None:
    names = [f"ann {visited.doored.block + no}" for no in (1, 2)]
    for no in (1, 2, 3):
        visited.holds(no)
    _, page = visited.ask("/confirm", verdict("approve", *names))
    assert page.count("<article") == 2 and all(f"{it}: root on db1" in page for it in names)
    signature, fields = visited.touched(page), fields_in(page)
    rows = [it for it in fields if it[0] in ("message", "about", "digest")]
    assert visited.ask("/sign", [*rows, ("signature", signature)]) == (200, "signed")
    # what was not shown, in the place of what was
    hidden = visited.ask("/confirm", verdict("approve", f"ann {visited.doored.block + 3}"))[1]
    more = [it for it in fields_in(hidden) if it[0] in ("message", "about", "digest")]
    for each in ([*rows, *more], [*rows[:3], *more], more):
        status, said = visited.ask("/sign", [*each, ("signature", signature)])
        assert (status, said) == (400, "its list does not have this message"), each
    listed = [Signed(m, "", a, w).said(SITE) for m, a, w in triples([*rows, *more])]
    head = signature.split(":")[1]
    longer = list_signature(head, listed, "webauthn-list")
    status, said = visited.ask("/sign", [*rows, *more, ("signature", longer)])
    assert (status, said) == (400, "its passkey was touched for something else")
    wanted = challenge(LIST, list_payload(SITE, listed))
    assert encoded(wanted) not in page


def triples(rows: Fields) -> list[tuple[str, str, str]]:
    values = [value for _, value in rows]
    return list(zip(values[::3], values[1::3], values[2::3], strict=True))


def test_what_nobody_approves(visited: Visited) -> None:
    block = visited.doored.block
    visited.holds(1, command="ALL")
    visited.holds(2)
    wait_for_next_second()
    visited.holds(2)
    cases: list[tuple[list[str], str]] = [
        (["ann"], "is no request"), (["ann 1 2"], "is no request"), (["Ann 1"], "is no person"),
        ([f"ann {block + 9}"], "yet, and nobody approves it unseen"),
        ([f"ann {block + 1}"], f"counts: mydesk approve ann {block + 1}"),
        ([f"ann {block + 2}"], "the desk holds 2 requests"),
        ([f"ann {block + no}" for no in range(65)], "1 to 64 requests"),
        ([f"ann {block + 1}"] * 2, "named twice"), ([], "1 to 64 requests"),
    ]  # fmt: skip
    for names, why in cases:
        status, page = visited.ask("/confirm", verdict("approve", *names))
        assert status == 400 and why.lower() in page.lower(), (names, page)
        assert "<form" not in page
    assert visited.ask("/confirm", verdict("forgive", "ann 1"))[0] == 400
    # what takes rights away needs no request at the desk, and says so
    status, page = visited.ask("/confirm", verdict("revoke", f"ann {block + 9}", why="over"))
    assert status == 200 and "The desk holds no request of this name yet." in page
    told = dict(fields_in(page))
    signed = Signed(told["message"], visited.touched(page), "", told["digest"])
    assert visited.doored.post(signed) == "ack" and told["digest"] == reason_digest("over", "")


def test_what_is_asked_is_of_now_and_ones_own(visited: Visited) -> None:
    def shown(text: str) -> tuple[int, str]:
        return visited.ask("/confirm", [("message", text), ("reason", "x"), ("ticket", "")])

    mine = visited.doored.request(by="bob", no=1)
    status, page = shown(mine)
    assert status == 200 and dict(fields_in(page))["message"] == mine
    for text, why in (
        (visited.doored.request(by="ann", no=1), "you are not that person"),
        (visited.doored.request(by="bob", no=1, at="20260101000000Z"), "begin again"),
        (visited.doored.request(by="bob", no=1, command="ALL"), "by ssh counts: mydesk ask"),
        (mine.replace('{"at"', '{ "at"'), "this is no request"),
        (visited.doored.verdict(by="bob", no=1), "this is no request"),
    ):
        status, page = shown(text)
        assert status == 400 and why in page.lower(), (text, page)


def test_a_number_is_signed_once(visited: Visited) -> None:
    """Two requests of one name dispute each other: nobody is shown the second."""
    first = visited.holds(1)
    wait_for_next_second()
    second = visited.doored.request(no=1)
    for text, status in ((first, 200), (second, 400)):
        fields = [("message", text), ("reason", ""), ("ticket", "")]
        found, page = visited.ask("/confirm", fields, person="ann")
        assert found == status and ("holds another request ann" in page) == (status == 400)


def test_letters_that_show_something_else(visited: Visited) -> None:
    """A reason that would turn the page round, or hide in it."""
    no = visited.doored.block + 1
    visited.holds(1)
    text = "no\u202ereverse\u200b\u2066x"
    fields = [("kind", "approve"), ("name", f"ann {no}"), ("reason", text), ("ticket", "")]
    _, page = visited.ask("/confirm", fields)
    assert "no\\u202ereverse\\u200b\\u2066x" in page and "\u202e" not in page


def test_who_may_lead_here(visited: Visited) -> None:
    fields = verdict("revoke", "ann 1")
    for origin in ("https://thief.example", "null", visited.door, ""):
        status, page = visited.ask("/confirm", fields, Origin=origin)
        assert status == 403 and "came from another site" in page, origin
    for where in ("/sign", "/passkey"):
        assert visited.ask(where, fields, Origin=visited.relay)[0] == 403
    assert visited.ask("/confirm", fields, person="")[0] == 403
    assert visited.ask("/confirm", fields, person="Bob")[0] == 403
    assert visited.ask("/confirm", fields, Content_Type="text/plain; charset=rot13")[0] == 415
    assert visited.ask("/confirm", [("x", "y" * (257 << 10))])[0] == 413
    assert visited.ask("/confirm")[0] == 405 and visited.ask("/other")[0] == 404
    policy = visited.headers["Content-Security-Policy"]
    own = "script-src 'self'; style-src 'self'; connect-src 'self'"
    assert f"{own}; form-action {visited.relay};" in policy
    assert "frame-ancestors 'none'" in policy and "unsafe" not in policy


def test_what_the_page_takes_back(visited: Visited) -> None:
    """Whatever a script sends that is not this page's: it is told at once that this is nothing."""
    no = visited.doored.block + 1
    visited.holds(1)
    _, page = visited.ask("/confirm", verdict("approve", f"ann {no}"))
    rows = [it for it in fields_in(page) if it[0] in ("message", "about", "digest")]
    message = dict(rows)["message"]
    good = visited.touched(page)
    thief = Authenticator(visited.relay)
    thief.id, thief.key = visited.key.id, visited.key.key
    shown = Signed(message, "", dict(rows)["about"], dict(rows)["digest"])
    asked = challenge(NAMESPACE, shown.payload(SITE))
    elsewhere = f"webauthn:{thief.touched(asked, rp='localhost')}"
    for fields, why in (
        ([*rows, ("signature", elsewhere)], "another page asked for it"),
        ([*rows, ("signature", "webauthn:AAAA.AAAA.AAAA.AAAA")], "has not the form"),
        ([*rows, ("signature", "ssh:AAAA")], "has not the form"),
        ([*rows, ("signature", "")], "has not the form"),
        ([("message", message.replace("bob", "ann")), *rows[1:], ("signature", good)], "else's"),
        ([rows[0], ("signature", good)], "1 to 64 messages"),
    ):
        status, said = visited.ask("/sign", fields)
        assert status == 400 and why in said, (fields, said)
    assert visited.ask("/sign", [*rows, ("signature", good)]) == (200, "signed")


def test_a_passkey_is_made_with_a_word(visited: Visited) -> None:
    new = Authenticator(visited.door)
    word = visited.doored.signer("enrol", "erin").splitlines()[0]

    def made(by: Authenticator, word: str, said: str, person: str = "erin") -> tuple[int, str]:
        wanted = challenge(ENROLS, enrolling(SITE, person, said))
        touched = by.touched(wanted, rp="localhost")
        fields = [("word", word), ("attested", encoded(by.attested())), ("assertion", touched)]
        return visited.ask("/passkey", fields, person="erin")

    assert made(new, "a word", word)[0] == 400
    other = 400, "its passkey was touched for something else"
    assert made(new, word, "0123456789abcdef") == other
    assert made(new, word, word, "ann") == other
    elsewhere = Authenticator(visited.relay)
    assert "another page asked" in made(elsewhere, word, word)[1]
    status, mark = made(new, word, word)
    assert status == 200 and mark.startswith("SHA256:")
    file = visited.folder / "made" / "erin"
    assert file.read_text().startswith(f"{new.public} webauthn:")
    assert mark in visited.doored.signer("add", "erin", str(file))
    status, page = visited.ask("/passkey", person="erin")
    assert status == 200 and mark in page
    assert mark not in visited.ask("/passkey", person="bob")[1]


def test_the_front_of_the_example(visited: Visited, tmp_path: Path) -> None:
    """examples/nginx/confirm.conf: it takes people's certificates alone, and says whose it is."""
    ca, port = tmp_path / "ca", free_port()
    server = ["server", "localhost", "127.0.0.1"]
    for words in (["init"], server, ["person", "bob"], ["host", "db1"]):
        made = ["sh", str(ROOT / "examples" / "front-ca.sh"), str(ca), *words]
        subprocess.run(made, check=True, capture_output=True)
    text = (ROOT / "examples" / "nginx" / "confirm.conf").read_text()
    for before, after in (
        ("listen 8444", f"listen 127.0.0.1:{port}"), ("/etc/desk/confirm/", f"{ca}/"),
        ("/etc/desk/front/", f"{ca}/"), ("/var/log/nginx", str(tmp_path)),
        ("/run/desk-confirm/page.sock", f"{visited.folder}/confirm.sock"),
    ):  # fmt: skip
        assert before in text
        text = text.replace(before, after)
    (tmp_path / "nginx.conf").write_text(CONFIG.format(folder=tmp_path, shipped=text, servers=""))
    words = [NGINX, "-e", str(tmp_path / "nginx.log"), "-c", str(tmp_path / "nginx.conf")]
    front = subprocess.Popen(words)
    try:
        wait_for_port(port)

        def got(*more: str) -> str:
            asked = ["curl", "-s", "--cacert", f"{ca}/ca.pem", f"https://127.0.0.1:{port}/passkey"]
            ran = subprocess.run([*asked, *more], capture_output=True, text=True, check=False)
            return ran.stdout

        def by(name: str) -> list[str]:
            return ["--cert", f"{ca}/{name}.pem", "--key", f"{ca}/{name}.key"]

        assert "<strong>bob</strong>" in got(*by("person-bob"))
        assert "<strong>bob</strong>" in got(*by("person-bob"), "-H", "X-Desk-Person: ann")
        assert "does not say who you are" in got(*by("host-db1"))
        assert "No required SSL certificate" in got()
    finally:
        front.terminate()
        front.wait(timeout=60)
