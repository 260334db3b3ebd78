"""The outbox, and what posts it: numbers, repeats, and each answer that a desk may give."""

import subprocess
import threading
from collections.abc import Iterator
from concurrent.futures import ThreadPoolExecutor
from contextlib import contextmanager
from http.server import BaseHTTPRequestHandler, HTTPServer
from pathlib import Path

import pytest

from relays.tests.site import ROOT, Site
from steelnewt_client.codes import Answer, Fate
from steelnewt_client.desk import Desk
from steelnewt_client.messages import Verdict, Wish, read
from steelnewt_relay.outbox import Outbox, OutOfNumbers
from steelnewt_relay.posting import post_kept

WISH = Wish.of("db-care", ["db1"], "root", ["/usr/bin/id"], ("20260105090000Z", "20260105100000Z"))
AT = "20260105080000Z"


@contextmanager
def answering(status: int, body: str) -> Iterator[str]:
    """A server that is no desk: it answers each request so."""

    class Handler(BaseHTTPRequestHandler):
        def do_POST(self) -> None:
            self.rfile.read(int(self.headers["Content-Length"]))
            self.do_GET()

        def do_GET(self) -> None:
            self.send_response(status)
            self.send_header("Content-Length", str(len(body)))
            self.end_headers()
            self.wfile.write(body.encode("ascii"))

        def log_message(self, format: str, *args: object) -> None:
            pass

    with HTTPServer(("127.0.0.1", 0), Handler) as server:
        threading.Thread(target=server.serve_forever, args=(0.02,), daemon=True).start()
        yield f"http://127.0.0.1:{server.server_port}"
        server.shutdown()


# What comes back, and what then becomes of the message.
ANSWERS = [
    (200, "ack\n", "acked", ""),
    (403, "A7 WindowTooLong\n", "refused", "A7 WindowTooLong"),
    (400, "M3 BadField\n", "refused", "M3 BadField"),
    (413, "M1 TooLong\n", "refused", "M1 TooLong"),
    (503, "K4 Storage\n", "kept", "K4 Storage"),
    (503, "K5 NoMemory\n", "kept", "K5 NoMemory"),
    (403, "P1 UnknownRelay\n", "kept", "P1 UnknownRelay"),
    (400, "T1 BadHead\n", "kept", "T1 BadHead"),
    (403, "<html>403 Forbidden</html>", "kept", "403"),
    (413, "<html>too large</html>", "kept", "413"),
    (502, "<html>Bad Gateway</html>", "kept", "502"),
    (200, "<html>log in</html>", "kept", "200"),
    (200, "", "kept", "200"),
    (302, "", "kept", "302"),
]


@pytest.mark.parametrize(("status", "body", "state", "answer"), ANSWERS)
def test_each_answer(tmp_path: Path, status: int, body: str, state: str, answer: str) -> None:
    outbox = Outbox(str(tmp_path / "outbox.db"))
    outbox.keep_request("ann", WISH, AT)
    outbox.keep_request("bob", WISH, AT)
    with answering(status, body) as url:
        posted = post_kept(outbox, Desk(url, "chat", None, None))
    assert [it.state for it in posted] == [state, state]
    assert answer in posted[0].answer


def test_the_bytes_that_were_kept_are_posted(
    tmp_path: Path, monkeypatch: pytest.MonkeyPatch
) -> None:
    """Also where this version would write the message otherwise, as a later one did."""
    outbox, posted = Outbox(str(tmp_path / "outbox.db")), list[bytes]()

    def post(_: Desk, __: str, line: bytes) -> Answer:
        posted.append(line)
        return Answer(Fate.TAKEN, "ack")

    verdict = Verdict("bob", "refuse", "ann", 1, AT)
    kept = [outbox.keep_request("ann", WISH, AT), outbox.keep_verdict(verdict)]
    bodies = [f'{it.message.text()[:-1]},"zone":"UTC"}}' for it in kept]
    for it, body in zip(kept, bodies, strict=True):
        outbox.base.execute("UPDATE messages SET body = ? WHERE id = ?", (body, it.id))
    monkeypatch.setattr(Desk, "post", post)
    assert [it.state for it in post_kept(outbox, Desk("unix:/desk", "chat"))] == ["acked"] * 2
    assert sorted(posted) == sorted(it.encode() for it in bodies)


def test_an_answer_stays(tmp_path: Path) -> None:
    outbox = Outbox(str(tmp_path / "outbox.db"))
    kept = outbox.keep_request("ann", WISH, AT)
    outbox.answered(kept.id, "refused", "A3 NotAsker")
    outbox.answered(kept.id, "acked")
    assert outbox.entry(kept.id).answer == "A3 NotAsker"


def test_nothing_can_be_reached(quiet_site: Site) -> None:
    outbox = Outbox(str(quiet_site.folder / "outbox.db"))
    for _ in range(3):
        outbox.keep_request("ann", WISH, AT)
    tried = post_kept(outbox, Desk(quiet_site.url, "chat", None, None))
    assert len(tried) == 1 and "there is no socket" in tried[0].answer
    assert len(outbox.unposted()) == 3


def test_numbers_of_many_at_once(tmp_path: Path) -> None:
    path = str(tmp_path / "outbox.db")

    def keep(_: int) -> int:
        outbox = Outbox(path)
        number = outbox.keep_request("ann", WISH, AT).request.no
        outbox.close()
        return number

    with ThreadPoolExecutor(8) as pool:
        numbers = list(pool.map(keep, range(40)))
    assert sorted(numbers) == list(range(1, 41))


def test_numbers_end(tmp_path: Path) -> None:
    outbox = Outbox(str(tmp_path / "outbox.db"), (5, 6))
    assert [outbox.keep_request("ann", WISH, AT).request.no for _ in range(2)] == [5, 6]
    with pytest.raises(OutOfNumbers):
        outbox.keep_request("ann", WISH, AT)
    assert outbox.keep_request("bob", WISH, AT).request.no == 5


def test_the_same_word_once(tmp_path: Path) -> None:
    outbox = Outbox(str(tmp_path / "outbox.db"))
    first = outbox.keep_request("ann", WISH, AT, "form-1")
    again = outbox.keep_request("ann", WISH, "20260105080001Z", "form-1")
    assert first.is_new and not again.is_new and again.message == first.message
    assert outbox.keep_request("bob", WISH, AT, "form-1").request.by == "bob"
    verdict = Verdict("bob", "approve", "ann", 1, AT)
    assert outbox.keep_verdict(verdict).is_new and not outbox.keep_verdict(verdict).is_new
    assert read(first.message.text()) == first.message


def test_two_in_one_process(tmp_path: Path) -> None:
    """As the page's threads do: to open and close it ends no locks of another thread's. Without
    them the next program takes the log away into which that thread writes."""
    path = str(tmp_path / "outbox.db")
    first = Outbox(path)
    first.keep_request("ann", WISH, AT)
    Outbox(path).close()
    program = "import sqlite3, sys; base = sqlite3.connect(sys.argv[1])"
    program += "; print(base.execute('SELECT count(*) FROM messages').fetchone()[0]); base.close()"
    for count in (1, 2):
        words = ["/usr/bin/python3", "-c", program, path]
        ran = subprocess.run(words, capture_output=True, text=True, check=True)
        assert ran.stdout == f"{count}\n", ran
        first.keep_request("ann", WISH, AT)
    first.close()
    assert len(Outbox(path).requests()) == 3


def test_only_its_owner_reads_it(tmp_path: Path) -> None:
    Outbox(str(tmp_path / "outbox.db")).keep_request("ann", WISH, AT)
    assert {it.stat().st_mode & 0o777 for it in tmp_path.iterdir()} == {0o600}


def test_a_desk_that_lost_its_store(site: Site) -> None:
    line = "ask db-care --on db1 --as root --for 1h --yes /usr/bin/id"
    assert site.run("ann", line).returncode == 0
    site.stop_desk()
    for path in site.folder.glob("desk.db*"):
        path.unlink()
    site.start_desk()
    assert site.start("post-again").wait(timeout=60) == 0
    site.start("post", "--every", "0.2")
    site.wait_until_posted()
    site.stop_desk()
    assert site.stored() == [body for body, _ in site.kept()]


def test_an_outbox_that_cannot_be_written(site: Site) -> None:
    (site.folder / "outbox.db").mkdir()
    ran = site.run("ann", "ask db-care --on db1 --as root --for 1h --yes /usr/bin/id")
    assert ran.returncode == 2 and "Nothing was sent: what is kept here fails" in ran.stderr, ran


def test_what_is_kept_beside_others_of_a_process_is_kept(tmp_path: Path) -> None:
    """The page has the outbox open for each of several people at a time, and others close theirs
    meanwhile: what is kept then is there for everybody."""
    path = str(tmp_path / "outbox.db")
    text = f"import sys; sys.path[:0] = [{str(ROOT)!r}]\n"
    text += "from steelnewt_relay.outbox import Outbox; box = Outbox(sys.argv[1])\n"
    text += "print(len(box.unposted())); box.close()"

    def elsewhere() -> int:
        words = ["/usr/bin/python3", "-c", text, path]
        return int(subprocess.run(words, capture_output=True, text=True, check=True).stdout)

    first = Outbox(path)
    for number in range(1, 4):
        second = Outbox(path)
        assert elsewhere() == number - 1
        first.keep_request("ann", WISH, AT)
        assert elsewhere() == number
        second.close()
