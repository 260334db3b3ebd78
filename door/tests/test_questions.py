"""A desk with two sockets, one of them for questions alone. The door brings messages to the other
one and asks its own questions there; what others ask goes to the socket for questions."""

from collections.abc import Iterator
from pathlib import Path

import pytest

from door.tests.doors import Doored, exchanged, posted
from steelnewt_client.desk import Desk
from steelnewt_client.moments import now, stamp


def questions_of(folder: Path) -> str:
    return f"unix:{folder}/questions.sock"


@pytest.fixture
def apart(tmp_path: Path) -> Iterator[Doored]:
    """A door whose desk has a socket for questions."""
    found = Doored(tmp_path)
    try:
        found.configure(more=f'questions = "{questions_of(tmp_path)}"\n')
        found.site.start_desk("--questions", questions_of(tmp_path))
        found.start_door()
        yield found
    finally:
        found.close()


def test_a_message_by_the_door_alone(apart: Doored) -> None:
    """What people signed is taken at the door; at the socket for questions nothing is, whoever
    signed it and whatever it says."""
    request = apart.request()
    assert apart.post(apart.sign("ann", request)) == "ack"
    approval = apart.verdict()
    signed = apart.sign("bob", approval, request)
    for line in (approval, signed.line(), apart.verdict(kind="revoke"), apart.request(no=2), ""):
        for relay in ("chat", "root", "nobody"):
            said = exchanged(apart.folder / "questions.sock", posted(line.encode(), relay))
            assert said.startswith(b"HTTP/1.1 404 ") and said.endswith(b"\r\n\r\nT3 NoRoute\n")
    assert apart.held() == [request] and not apart.in_force()
    assert apart.post(signed) == "ack"
    assert len(apart.in_force()) == 1


def test_a_question_by_the_door_and_beside_it(apart: Doored) -> None:
    """Hosts and readers get the same at the desk's socket for questions as through the door."""
    assert apart.post(apart.sign("ann", apart.request())) == "ack"
    asked = Desk(questions_of(apart.folder))
    at = stamp(now())
    for path in (
        "/v1/messages", "/v1/count", "/v1/requests/ann/1", f"/v1/grants/{at}", "/v1/parked",
        "/v1/hosts/db1/sudoers", f"/v1/hosts/db1/sudoers/{at}", f"/v1/reviews/{at}",
    ):  # fmt: skip
        assert asked.get(path) == apart.get(path), path


def test_messages_need_no_socket_for_questions(apart: Doored, tmp_path: Path) -> None:
    """Where the socket for questions is gone, the door answers no question. Messages go on, also
    an approval, whose request the door asks for first."""
    (tmp_path / "questions.sock").unlink()
    said = apart.raw(b"GET /v1/count HTTP/1.1\r\nHost: x\r\n\r\n")
    assert said.endswith(b"K20 DeskAway\n")
    request = apart.request()
    assert apart.post(apart.sign("ann", request)) == "ack"
    assert apart.post(apart.sign("bob", apart.verdict(), request)) == "ack"
    assert len(apart.in_force()) == 1


def test_a_check_of_the_socket_for_questions(apart: Doored) -> None:
    """`desk-door check` names a socket for questions that takes messages."""
    assert "nothing is wrong with the door" in apart.run("check")
    apart.stop_door()
    apart.site.stop_desk()
    apart.site.start_desk()
    (apart.folder / "questions.sock").unlink()
    (apart.folder / "questions.sock").symlink_to(apart.folder / "desk.sock")
    said = apart.run("check", status=2)
    assert "questions.sock takes messages (P1 UnknownRelay): past the door" in said
