"""A desk and a front that are asked: addresses, connections that stay open, answers that are none."""

import socket
import threading
from collections.abc import Iterator
from http.server import BaseHTTPRequestHandler, ThreadingHTTPServer
from pathlib import Path

import pytest

from steelnewt_client.codes import Fate
from steelnewt_client.desk import BadAddress, Desk, Place, Silent, plain_desk


class Front(ThreadingHTTPServer):
    """Answers what it is told, and leaves connections open until it is told not to."""

    daemon_threads = True

    def __init__(self) -> None:
        super().__init__(("127.0.0.1", 0), Handler)
        self.status, self.text = 200, "7 roster base\n"
        self.peers: list[socket.socket] = []
        self.asked: list[tuple[str, str, str]] = []
        threading.Thread(target=self.serve_forever, args=(0.02,), daemon=True).start()

    @property
    def address(self) -> str:
        return f"http://127.0.0.1:{self.server_port}"


class Handler(BaseHTTPRequestHandler):
    protocol_version = "HTTP/1.1"
    server: Front

    def setup(self) -> None:
        super().setup()
        self.server.peers.append(self.connection)

    def do_GET(self) -> None:
        self.server.asked.append((self.command, self.path, self.headers["Host"]))
        self.send_response(self.server.status)
        self.send_header("Content-Length", str(len(self.server.text)))
        self.end_headers()
        self.wfile.write(self.server.text.encode())

    def log_message(self, *_: object) -> None:
        pass


@pytest.fixture
def front() -> Iterator[Front]:
    found = Front()
    yield found
    found.shutdown()
    found.server_close()


@pytest.mark.parametrize(
    ("address", "place"),
    [
        ("unix:/run/desk/desk.sock", Place("/run/desk/desk.sock")),
        ("http://127.0.0.1:8080", Place("", "127.0.0.1", 8080)),
        ("http://desk/", Place("", "desk", 80)),
        ("https://desk.example", Place("", "desk.example", 443, True)),
        ("https://desk.example:8443/a/", Place("", "desk.example", 8443, True, "/a")),
        ("http://[::1]:81", Place("", "::1", 81)),
    ],
)
def test_an_address(address: str, place: Place) -> None:
    assert Place.of(address) == place


@pytest.mark.parametrize(
    "address",
    ["", "desk", "127.0.0.1:80", "unix:desk", "http://", "http://desk:x", "ftp://desk", "https://desk?a"],
)
def test_no_address(address: str) -> None:
    with pytest.raises(BadAddress, match="."):
        Desk(address)
    with pytest.raises(BadAddress, match="."):
        plain_desk(address)


def test_a_connection_is_used_again(front: Front) -> None:
    desk = Desk(front.address)
    assert [desk.count() for _ in range(3)] == [(7, "roster", "base")] * 3
    assert len(front.peers) == 1
    assert front.asked[0] == ("GET", "/v1/count", front.address.removeprefix("http://"))


def test_one_that_was_closed_meanwhile_is_not(front: Front) -> None:
    desk = Desk(front.address)
    desk.count()
    front.peers[0].shutdown(socket.SHUT_RDWR)
    assert desk.count() == (7, "roster", "base")
    assert len(front.peers) == 2


def test_below_a_path(front: Front) -> None:
    Desk(f"{front.address}/desks/a").count()
    assert front.asked[0][1] == "/desks/a/v1/count"


@pytest.mark.parametrize("text", ["", "7 roster\n", "x roster base\n", "<html>log in</html>\n"])
def test_a_count_that_is_none(front: Front, text: str) -> None:
    front.text = text
    with pytest.raises(Silent, match="no words of the desk's") as told:
        Desk(front.address).count()
    assert not told.value.is_reached


def test_a_refusal_and_a_page(front: Front) -> None:
    desk = Desk(front.address)
    for status, text, said in (
        (503, "K5 NoMemory\n", "the desk answers 503, K5 NoMemory"),
        (502, "<html>no</html>", "the desk behind it is away"),
    ):
        front.status, front.text = status, text
        with pytest.raises(Silent, match=said) as told:
            desk.count()
        assert told.value.is_reached


def test_an_older_desk(front: Front) -> None:
    front.status, front.text = 404, "T3 NoRoute\n"
    with pytest.raises(Silent, match="it is older than this relay"):
        Desk(front.address).name("ann", 7)


def test_what_cannot_be_reached(tmp_path: Path) -> None:
    for address, said in (
        (f"unix:{tmp_path}/desk.sock", "there is no socket at its address"),
        ("http://127.0.0.1:1", "connection refused"),
    ):
        desk = Desk(address)
        with pytest.raises(Silent, match=said) as told:
            desk.count()
        assert not told.value.is_reached
        answer = desk.post("chat", b"{}")
        assert answer.fate is Fate.AGAIN and answer.is_away and said in answer.why


def test_a_certificate_that_is_not_there(front: Front, tmp_path: Path) -> None:
    """A missing certificate is no missing socket: the system says 'No such file' for both."""
    pair = (str(tmp_path / "relay.pem"), str(tmp_path / "relay.key"))
    desk = Desk(front.address.replace("http:", "https:"), "chat", pair)
    with pytest.raises(Silent, match=r"cannot be reached \(certificate\)"):
        desk.count()
    assert desk.post("chat", b"{}").why == "the desk cannot be reached (certificate)"
