"""A desk that is slow: people are shown what is kept here at once, and that the desk is slow."""

import re
import socket
import threading
import time
from collections.abc import Callable, Iterator
from contextlib import contextmanager, suppress
from pathlib import Path

import pytest

from relays.tests.several import Several
from relays.tests.site import SECRET, Site
from steelnewt_client.messages import Wish
from steelnewt_client.moments import now, stamp
from steelnewt_relay.outbox import Outbox

ASK = "ask db-care --on db1 --as root --for 1h --yes --again /usr/bin/id"
SLOW, SOON = 30.0, 10.0  # seconds: a busy machine needs a few beside the two that people wait
ANN = {"Host": "desk.example", "X-Desk-Person": "ann", "X-Desk-Front": SECRET}


# For how long each that asked such a desk waited, in seconds. (A program's start takes longer on a
# busy machine.)
waited: list[float] = []


@contextmanager
def slow_desk(path: Path) -> Iterator[None]:
    """What answers each question after half a minute."""
    listener = socket.socket(socket.AF_UNIX)
    listener.bind(str(path))
    listener.listen(64)
    waited.clear()

    def answer(peer: socket.socket) -> None:
        with peer, suppress(OSError):
            began = time.monotonic()
            peer.settimeout(SLOW)
            while peer.recv(65_536):
                pass
            waited.append(time.monotonic() - began)

    def serve() -> None:
        while True:
            try:
                peer, _ = listener.accept()
            except OSError:
                return
            threading.Thread(target=answer, args=(peer,), daemon=True).start()

    threading.Thread(target=serve, daemon=True).start()
    yield
    listener.close()
    path.unlink()


def people_wait(site: Site) -> None:
    """As long as the settings say where they say nothing."""
    site.config.write_text(re.sub("(?m)^patience = .*\n", "", site.config.read_text()))


@pytest.fixture
def slow(quiet_site: Site) -> Iterator[Site]:
    """A desk that is slow, and has a request of ann's."""
    people_wait(quiet_site)
    outbox, at = Outbox(str(quiet_site.folder / "outbox.db")), now()
    window = (stamp(at), stamp(at.replace(year=at.year + 1)))
    wish = Wish.of("db-care", ["db1"], "root", ["/usr/bin/id"], window)
    outbox.answered(outbox.keep_request("ann", wish, stamp(at)).id, "acked")
    outbox.close()
    with slow_desk(quiet_site.folder / "desk.sock"):
        yield quiet_site


def timed(act: Callable[[], str]) -> str:
    """What somebody is shown, who waits for the desk no longer than people do."""
    before, until = len(waited), time.monotonic() + 60
    shown = act()
    while len(waited) == before and time.monotonic() < until:
        time.sleep(0.05)
    took = sum(waited[before:])
    assert 1.5 < took < SOON, f"it waited {took:.1f} s: {shown}"
    return shown


@pytest.mark.parametrize("line", ["mine", "waiting", "show ann 1", "mine -l", "history"])
def test_by_ssh(slow: Site, line: str) -> None:
    shown = timed(lambda: slow.run("bob" if line == "waiting" else "ann", line).stdout)
    assert "ann 1" in shown and "The desk does not answer" in shown, shown


@pytest.mark.parametrize("path", ["/", "/r/ann/1", "/history"])
def test_the_page(slow: Site, path: str) -> None:
    slow.start_page()
    shown = timed(lambda: slow.ask_page(path, ANN)[1])
    assert "ann 1" in shown or "ann: root on db1" in shown, shown
    assert "the desk does not answer" in shown.lower(), shown


def test_one_of_three_is_slow(tmp_path: Path) -> None:
    """People hear from the others, and what they send is in force by the others."""
    several = Several(tmp_path)
    several.hear()
    people_wait(several)
    several.serve("b", "c")
    try:
        with slow_desk(Path(several.label("a"))):
            assert "nobody approved it yet" in several.run("ann", ASK).stdout
            assert "It is in force" in several.run("bob", "approve ann 1 --yes").stdout
            # (it lacks what was sent, so another is asked)
            assert "[granted, in force]" in several.run("ann", "show ann 1").stdout
    finally:
        several.close()
