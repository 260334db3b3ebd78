"""What a reply of the desk means, and what no reply does."""

from __future__ import annotations

import socket
import threading
import time
from pathlib import Path

import pytest
from conftest import Scripted
from steelnewt_client.codes import Fate, judge
from steelnewt_client.desk import Desk, plain_desk
from tests.common.ports import free_port


@pytest.mark.parametrize(
    ("status", "text", "fate"),
    [
        (200, "ack\n", Fate.TAKEN),
        (400, "M2 NotCanonical\n", Fate.FINAL),
        (403, "A6 CommandOutside\n", Fate.FINAL),
        (403, "P1 UnknownRelay\n", Fate.MEND),
        (404, "T3 NoRoute\n", Fate.MEND),
        (413, "M1 TooLong\n", Fate.FINAL),
        (503, "K4 Storage\n", Fate.AGAIN),
        (503, "K5 NoMemory\n", Fate.AGAIN),
        # the request was cut, which is no fault of the message
        (400, "T7 ShortBody\n", Fate.AGAIN),
        # not the desk's words: something stands between
        (200, "<html>it works</html>", Fate.AGAIN),
        (200, "", Fate.AGAIN),
        (403, "<html>403 Forbidden</html>", Fate.AGAIN),
        (404, "", Fate.AGAIN),
        (429, "slow down", Fate.AGAIN),
        (502, "M2 NotCanonical\n", Fate.AGAIN),
        (302, "ack\n", Fate.AGAIN),
    ],
)
def test_judge(status: int, text: str, fate: Fate) -> None:
    assert judge(status, text).fate is fate


def test_posts_to_the_relays_route(scripted: Scripted) -> None:
    scripted.replies = [(200, "ack\n")]
    assert Desk(scripted.address).post("web", b'{"a":1}').fate is Fate.TAKEN
    assert scripted.seen == [("/v1/relays/web/messages", b'{"a":1}')]
    assert "Transfer-Encoding" not in scripted.fields[0]


def test_an_empty_message_has_a_length(scripted: Scripted) -> None:
    scripted.replies = [(400, "M2 NotCanonical\n")]
    assert Desk(scripted.address).post("web", b"").fate is Fate.FINAL
    assert scripted.fields[0]["Content-Length"] == "0"


def test_a_long_message_is_not_sent(scripted: Scripted) -> None:
    answer = Desk(scripted.address).post("web", b"x" * 16_385)
    assert (answer.fate, answer.said) == (Fate.FINAL, "M1 TooLong")
    assert scripted.seen == []


def test_the_longest_message_is_sent(scripted: Scripted) -> None:
    scripted.replies = [(200, "ack\n")]
    assert Desk(scripted.address).post("web", b"x" * 16_384).fate is Fate.TAKEN


def test_a_peer_that_hangs_up(scripted: Scripted) -> None:
    scripted.replies = [None]
    answer = Desk(scripted.address).post("web", b"{}")
    assert (answer.fate, answer.said) == (Fate.AGAIN, "no reply: RemoteDisconnected")


def test_a_peer_that_is_silent(scripted: Scripted) -> None:
    scripted.replies = [5.0]
    answer = Desk(scripted.address, patience=0.2).post("web", b"{}")
    assert (answer.fate, answer.said) == (Fate.AGAIN, "no reply: timed out")


INCOMPLETE, DISCONNECTED = "no reply: IncompleteRead", "no reply: RemoteDisconnected"
CHUNKS = b"4\r\nack\n\r\n0\r\n\r\n"


class Raw:
    """A peer that answers with these bytes, in pieces, and hangs up, or stays until it is told."""

    def __init__(self, *pieces: bytes, stays: bool = False) -> None:
        self.listener = socket.create_server(("127.0.0.1", 0))
        self.address = "http://127.0.0.1:%d" % self.listener.getsockname()[1]
        self.pieces, self.stays, self.over = pieces, stays, threading.Event()
        threading.Thread(target=self.serve, daemon=True).start()

    def serve(self) -> None:
        peer, _ = self.listener.accept()
        with peer:
            peer.recv(65_536)
            for piece in self.pieces:
                peer.sendall(piece)
                time.sleep(0.02)
            if self.stays:
                self.over.wait(120)


@pytest.mark.parametrize(
    ("pieces", "fate", "said"),
    [
        ([b"HTTP/1.1 200 OK\r\nContent-Length: 4\r\n\r\nack\n"], Fate.TAKEN, "ack"),
        ([b"HTTP/1.1 200 OK\r\nCon", b"tent-length:4\r\n\r\na", b"ck\n"], Fate.TAKEN, "ack"),
        ([b"HTTP/1.0 200\r\n\r\nack", b"\n"], Fate.TAKEN, "ack"),
        ([b"HTTP/1.1 403 No\r\nContent-Length: 12\r\n\r\nA3 NotAsker\n"], Fate.FINAL, "A3"),
        # cut short, longer than it says, in chunks, or none at all
        ([b"HTTP/1.1 200 OK\r\nContent-Length: 5\r\n\r\nack\n"], Fate.AGAIN, INCOMPLETE),
        ([b"HTTP/1.1 403 No\r\nContent-Length: 12\r\n\r\nA3 Not"], Fate.AGAIN, INCOMPLETE),
        ([b"HTTP/1.1 200 OK\r\n\r\nack\nmore"], Fate.AGAIN, "200 ack more"),
        ([b"HTTP/1.1 200 OK\r\nTransfer-Encoding: chunked\r\n\r\n" + CHUNKS], Fate.AGAIN, "200 4"),
        ([b"HTTP/1.1 200 OK\r\nContent-Le"], Fate.AGAIN, DISCONNECTED),
        ([b"SSH-2.0-OpenSSH_9.2\r\n"], Fate.AGAIN, DISCONNECTED),
        ([b"x" * 9_000] * 3, Fate.AGAIN, DISCONNECTED),
    ],
)
def test_replies_by_their_bytes(pieces: list[bytes], fate: Fate, said: str) -> None:
    answer = Desk(Raw(*pieces).address).post("web", b"{}")
    assert answer.fate is fate
    assert answer.said.startswith(said) or answer.said == "no reply: ConnectionResetError"


def test_it_does_not_wait_for_the_end_of_a_whole_reply() -> None:
    peer = Raw(b"HTTP/1.1 200 OK\r\nContent-Length: 4\r\n\r\nack\n", stays=True)
    assert Desk(peer.address, patience=60).post("web", b"{}").fate is Fate.TAKEN
    peer.over.set()


def test_a_slash_behind_the_port() -> None:
    assert Desk("http://127.0.0.1:1/").post("web", b"1").said == "no reply: ConnectionRefusedError"


def test_a_socket_that_is_not_there(tmp_path: Path) -> None:
    answer = Desk(f"unix:{tmp_path}/desk.sock").post("web", b"{}")
    assert (answer.fate, answer.said) == (Fate.AGAIN, "no reply: FileNotFoundError")


def test_nobody_listens() -> None:
    answer = Desk(f"http://127.0.0.1:{free_port()}").post("web", b"{}")
    assert (answer.fate, answer.said) == (Fate.AGAIN, "no reply: ConnectionRefusedError")


@pytest.mark.parametrize(
    "address",
    ["", "127.0.0.1:80", "https://desk", "http://", "http://desk/v1", "http://desk:x", "unix:desk",
     "http://desk:80", "http://10.0.0.7:80", "http://127.0.0.1.example"],
)
def test_no_address(address: str) -> None:
    """Past this machine others could acknowledge in the desk's place."""
    with pytest.raises(ValueError, match="is neither unix:/PATH nor http://127.0.0.1:PORT"):
        plain_desk(address)
