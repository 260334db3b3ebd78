"""The keys of what people do at night by ssh, counted: what they typed before, which still does the
same, and what is enough now. (Taps are counted in test_each_request.py, and the keys of a browser
in test_looks.py.)"""

import json
import signal
from collections.abc import Iterator
from pathlib import Path
from typing import NamedTuple

import pytest

from relays.tests.everything import FLEET, HOSTS
from relays.tests.site import Site
from relays.tests.test_night import Terminal, said

CARE = "ssh desk ask db-care --on db1 --as root --for 2h /usr/bin/id\ny\n"
FLEET_LINE = "ssh desk ask payments-fleet --on {} --as root --for 2h /usr/bin/id\ny\n"
APPROVE = "ssh desk approve ann {no}\ny\n"


class Keys(NamedTuple):
    """What ann or bob typed, with its keys, and what they type now, with its keys at most."""

    person: str
    before: str
    many: int
    now: str
    most: int


TABLE = {
    "one line": Keys("ann", CARE, 63, "ssh desk ask /usr/bin/id --on db1 --for 2h\ny\n", 45),
    "sixteen hosts": Keys(
        "ann", FLEET_LINE.format(",".join(HOSTS)), 338, FLEET_LINE.format("all"), 71
    ),
    "some of them": Keys(
        "ann", FLEET_LINE.format(",".join(HOSTS[:9])), 219, FLEET_LINE.format("'*-0?'"), 74
    ),
    "the same again": Keys("ann", "ssh desk again\ny\n", 17, "ssh desk again\ny\n", 17),
    "by a name of one's own": Keys("ann", CARE, 63, "ssh desk ask pg-again\ny\n", 25),
    "the one that waits": Keys("bob", APPROVE, 25, "ssh desk approve\ny\n", 19),
}


@pytest.fixture(scope="module")
def served(tmp_path_factory: pytest.TempPathFactory) -> Iterator[Site]:
    """A site whose ann may ask for sixteen hosts."""
    found = Site(tmp_path_factory.mktemp("keys"))
    try:
        widen(found.folder / "site.roster")
        found.start_desk()
        yield found
    finally:
        found.close()


def widen(roster: Path) -> None:
    listed = ", ".join(f'"{it}"' for it in HOSTS)
    text = roster.read_text().replace('"web1"]', f'"web1", {listed}]', 1)
    roster.write_text(text + FLEET.format(hosts=listed))


def typed(site: Site, person: str, keys: str) -> dict[str, object]:
    """What is sent for what somebody types into their own shell."""
    site.begin_anew()
    is_second = "again" in keys or "approve" in keys
    if is_second:
        assert said(site, "ann", "ask db-care --on db1 --for 2h --yes /usr/bin/id")[0] == 0
        assert said(site, "ann", "save pg-again")[0] == 0
    line, _, answers = keys.format(no=site.no()).partition("\n")
    # (the shell takes the quotes, and ssh brings what is within them)
    _, told = said(site, person, line.removeprefix("ssh desk ").replace("'", ""), answers)
    kept = site.kept()
    assert len(kept) == 1 + is_second, told
    changing = ("at", "from", "until", "no")
    return {name: it for name, it in json.loads(kept[-1][0]).items() if name not in changing}


@pytest.mark.parametrize("what", TABLE)
def test_few_keys_do_what_many_did(served: Site, what: str) -> None:
    row = TABLE[what]
    # (of ann's first request)
    assert len(row.before.format(no=1)) == row.many and len(row.now) <= row.most
    assert typed(served, row.person, row.before) == typed(served, row.person, row.now)


def test_led_by_questions(served: Site) -> None:
    """Ten questions, four of which need Return alone."""
    served.begin_anew()
    keys = ["db-care", "db1", "root", "/usr/bin/id", "", "", "2h", "", "", "y"]
    terminal = Terminal(served, "ann", "ask", "".join(f"{it}\n" for it in keys))
    assert f"Kept as ann {served.no()}." in terminal.until("Ctrl-C"), terminal.shown
    terminal.call.send_signal(signal.SIGINT)
    terminal.close()
    assert len("ssh -t desk ask\n") + sum(len(it) + 1 for it in keys) <= 55
