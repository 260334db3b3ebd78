"""A second desk is fed by what is new: no whole list is fetched each minute, and nothing is missed."""

import os
import signal
import subprocess
import threading
import time
from collections.abc import Iterator
from contextlib import ExitStack, contextmanager
from datetime import timedelta
from http.server import BaseHTTPRequestHandler, ThreadingHTTPServer
from pathlib import Path

import pytest

from relays.tests.several import Several
from relays.tests.site import ROOT
from steelnewt_client.codes import Fate
from steelnewt_client.desk import Desk, Silent
from steelnewt_client.messages import Request, Verdict, Wish
from steelnewt_client.moments import now, stamp

FEED = str(ROOT / "examples" / "feed-desk.sh")
OLD = 30  # messages of ten days ago
AT = now()


class Watched:
    """A desk at a port, where each question is noted, and each message may be refused."""

    def __init__(self, several: Several, name: str) -> None:
        self.several, self.name = several, name
        self.desk = Desk(several.address(name), "chat")
        self.asked, self.size, self.refuses, self.port = list[str](), 0, False, 0

    def answer(self, method: str, path: str, body: bytes | None) -> tuple[int, str]:
        self.asked.append(path)
        if method == "POST" and self.refuses:
            return 403, "A3 NotAsker\n"
        try:
            reply = self.desk.exchange(method, path, body)
        except Silent as fault:
            return 502, f"{fault}\n"
        self.size += len(reply.text)
        return reply.status, reply.text

    def hold(self, *messages: Request | Verdict) -> None:
        for each in messages:
            assert self.desk.post("chat", each.text().encode()).fate is Fate.TAKEN

    def held(self) -> list[str]:
        return self.desk.exchange("GET", "/v1/messages").text.splitlines()

    def heard(self) -> list[str]:
        """What was asked since this was asked last, but for counts and posts."""
        found, self.asked, self.size = self.asked, [], 0
        kinds = (it.removeprefix("/v1/").split("/")[0] for it in found)
        return [it for it in kinds if it not in ("count", "relays")]


@contextmanager
def serving(desk: Watched) -> Iterator[Watched]:
    class Handler(BaseHTTPRequestHandler):
        def do_GET(self) -> None:
            self.say(None)

        def do_POST(self) -> None:
            self.say(self.rfile.read(int(self.headers["Content-Length"])))

        def say(self, body: bytes | None) -> None:
            status, text = desk.answer(self.command, self.path, body)
            self.send_response(status)
            self.send_header("Content-Length", str(len(text.encode())))
            self.end_headers()
            self.wfile.write(text.encode())

        def log_message(self, format: str, *args: object) -> None:
            pass

    with ThreadingHTTPServer(("127.0.0.1", 0), Handler) as server:
        threading.Thread(target=server.serve_forever, args=(0.02,), daemon=True).start()
        desk.port = server.server_port
        yield desk
        server.shutdown()


Pair = tuple[Watched, Watched]


@pytest.fixture
def pair(tmp_path: Path) -> Iterator[Pair]:
    """Two desks, the first of which has a history."""
    several = Several(tmp_path)
    several.serve("a", "b")
    with ExitStack() as held:
        first, here = (held.enter_context(serving(Watched(several, it))) for it in ("a", "b"))
        first.hold(*(asked(no, days=-10) for no in range(1, OLD + 1)))
        yield first, here
    several.close()


def asked(no: int, days: float = 0, command: str = "/usr/bin/id") -> Request:
    at = AT + timedelta(days=days)
    window = stamp(at), stamp(at + timedelta(hours=1))
    return Request("ann", no, stamp(at), Wish.of("db-care", ["db1"], "root", [command], window))


def said(kind: str, no: int) -> Verdict:
    return Verdict("bob", kind, "ann", no, stamp(AT))


def words(first: Watched) -> list[str]:
    return ["sh", FEED, f"http://127.0.0.1:{first.port}", "chat"]


def feed(folder: Path, pair: Pair) -> tuple[int, str]:
    first, here = pair
    environment = os.environ | {"ADDR": f"127.0.0.1:{here.port}"}
    ran = subprocess.run(
        words(first), cwd=folder, env=environment, capture_output=True, text=True, check=False
    )
    return ran.returncode, ran.stdout + ran.stderr


def test_a_feed_fetches_what_is_new(tmp_path: Path, pair: Pair) -> None:
    first, here = pair
    here.hold(asked(1, days=-10))
    assert feed(tmp_path, pair) == (0, f"feed-desk: {OLD - 1} posted, 0 refused\n")
    assert here.held() == first.held() and first.heard() == here.heard() == ["messages"]
    for _ in range(3):
        assert feed(tmp_path, pair) == (0, "")
    assert first.heard() == here.heard() == []
    # what is new alone, to the byte, and what waits for its request
    odd = asked(OLD + 1, command="/usr/local/sbin/x a\\:b \\=\\,")
    first.hold(odd, said("approve", OLD + 1), said("revoke", OLD + 1), said("approve", 7_000))
    assert feed(tmp_path, pair) == (0, "feed-desk: 4 posted, 0 refused\n")
    assert first.size < 4_000 and odd.text() in here.held() and here.held() == first.held()
    assert first.heard() == ["requests", "parked"] and here.heard() == []
    # what the desk here got by itself
    for it in (first, here):
        it.hold(said("refuse", OLD + 1))
    here.hold(asked(8_000))
    assert feed(tmp_path, pair)[0] == 0 and first.heard() == ["requests", "parked"]
    assert len(here.held()) == len(first.held()) + 1 and here.heard() == []


def test_a_message_about_what_is_long_over(tmp_path: Path, pair: Pair) -> None:
    """What the first desk tells of new windows does not make up its count."""
    first, here = pair
    assert feed(tmp_path, pair)[0] == 0
    first.heard(), here.heard()
    first.hold(said("revoke", 5))
    assert feed(tmp_path, pair) == (0, "feed-desk: 1 posted, 0 refused\n")
    assert first.heard() == ["requests", "parked", "messages"] and here.held() == first.held()
    # (an hour later all is compared, whatever the counts say)
    os.utime(tmp_path / "feed.whole", (1, 1))
    first.heard(), here.heard()
    assert feed(tmp_path, pair) == (0, "") and first.heard() == here.heard() == ["messages"]


def test_a_desk_that_lost_its_store(tmp_path: Path, pair: Pair) -> None:
    first, here = pair
    assert feed(tmp_path, pair)[0] == 0
    several = here.several
    several.end("b")
    several.store_of("b").unlink()
    several.serve("b")
    assert feed(tmp_path, pair) == (0, f"feed-desk: {OLD} posted, 0 refused\n")
    assert here.held() == first.held()


def test_what_is_refused_is_tried_each_time(tmp_path: Path, pair: Pair) -> None:
    """By itself: no list is fetched for it."""
    first, here = pair
    assert feed(tmp_path, pair)[0] == 0
    first.heard(), here.heard()
    first.hold(asked(OLD + 1))
    here.refuses = True
    for listed in (["requests", "parked"], [], []):
        status, said_then = feed(tmp_path, pair)
        assert status == 1 and "0 posted, 1 refused" in said_then, said_then
        assert (first.heard(), here.heard()) == (listed, [])
    first.hold(asked(OLD + 2))
    assert "0 posted, 2 refused" in feed(tmp_path, pair)[1]
    here.refuses = False
    assert feed(tmp_path, pair) == (0, "feed-desk: 2 posted, 0 refused\n")
    assert here.held() == first.held() and "messages" not in first.heard()


def test_a_desk_that_does_not_answer(tmp_path: Path, pair: Pair) -> None:
    first, here = pair
    assert feed(tmp_path, pair)[0] == 0
    first.hold(asked(OLD + 1))
    for name in ("a", "b"):
        first.several.end(name)
        assert feed(tmp_path, pair)[0] != 0
        first.several.serve(name)
    assert feed(tmp_path, pair) == (0, "feed-desk: 1 posted, 0 refused\n")
    assert here.held() == first.held()


def test_a_feed_that_is_killed_forgets_nothing(tmp_path: Path, pair: Pair) -> None:
    first, here = pair
    assert feed(tmp_path, pair)[0] == 0
    environment = os.environ | {"ADDR": f"127.0.0.1:{here.port}"}
    for place in range(8):
        first.hold(*(asked(OLD + 4 * place + it) for it in range(1, 5)))
        job = subprocess.Popen(
            words(first), cwd=tmp_path, env=environment, start_new_session=True,
            stdout=subprocess.DEVNULL, stderr=subprocess.DEVNULL,
        )  # fmt: skip
        time.sleep(0.08 * place)
        os.killpg(job.pid, signal.SIGKILL)
        job.wait()
    first.heard(), here.heard()
    assert feed(tmp_path, pair)[0] == 0 and here.held() == first.held()
    assert "messages" not in first.heard()


def test_behind_a_door_it_feeds_nothing(tmp_path: Path) -> None:
    """A feed would post past the door, without anybody's signature."""
    environment = {"PATH": os.environ["PATH"], "ADDR": "unix:/run/desk-posts/desk.sock"}
    words = ["sh", FEED, "https://desk.example", "chat"]
    ran = subprocess.run(words, cwd=tmp_path, env=environment, capture_output=True, text=True)
    assert ran.returncode == 2 and "this desk is behind a door" in ran.stderr
    assert "desk-bring.timer" in ran.stderr
