"""No number is given twice, whatever became of the outbox."""

import re
import sqlite3
from contextlib import closing

from relays.tests.site import Site
from steelnewt_client.codes import Fate
from steelnewt_client.desk import Desk
from steelnewt_client.messages import Verdict
from steelnewt_client.moments import now, stamp
from steelnewt_relay.outbox import Outbox

ASKS = "ask db-care --on db1 --as root --for 1h --yes /usr/bin/id"
AGAIN = "ask db-care --on db1 --as root --for 1h --yes --again /usr/bin/id"


def named(site: Site, who: str, line: str) -> str:
    ran = site.run(who, line)
    found = re.search(r"Kept as (\w+ [0-9]+)\.", ran.stdout)
    assert found, ran
    return found[1]


def lose(site: Site) -> None:
    """The outbox is gone, and another one begins."""
    for end in ("", "-wal", "-shm"):
        (site.folder / f"outbox.db{end}").unlink(missing_ok=True)


def test_lost_outbox(site: Site) -> None:
    """The desk knows which numbers are used, of whoever brought them."""
    assert [named(site, "ann", it) for it in (ASKS, AGAIN)] == ["ann 1", "ann 2"]
    lose(site)
    assert named(site, "ann", ASKS) == "ann 3"
    assert '"status":"disputed"' not in site.ask("/v1/requests/after/20260101000000Z")


def test_a_backup_of_the_outbox(site: Site) -> None:
    """One that is brought back gave some numbers, and not the last ones."""
    assert named(site, "ann", ASKS) == "ann 1"
    path = site.folder / "outbox.db"
    kept = sqlite3.connect(site.folder / "backup.db")
    with closing(kept), closing(sqlite3.connect(path)) as base:
        base.backup(kept)
    assert named(site, "ann", AGAIN) == "ann 2"
    lose(site)
    (site.folder / "backup.db").rename(path)
    site.stop_desk()
    ran = site.run("ann", AGAIN)
    assert ran.returncode == 2 and "which numbers are used" in ran.stdout + ran.stderr, ran
    site.start_desk()
    assert named(site, "ann", AGAIN) == "ann 3"
    site.stop_desk()
    assert named(site, "ann", AGAIN) == "ann 4"


def test_a_number_with_a_past(site: Site) -> None:
    """Who had a relay's key leaves approvals of numbers that nobody used: they grant nothing."""
    assert named(site, "ann", ASKS) == "ann 1"
    desk = Desk(site.url, "mail")
    for number in (2, 3):
        verdict = Verdict("bob", "approve", "ann", number, stamp(now()))
        assert desk.post("mail", verdict.text().encode()).fate is Fate.TAKEN
    assert named(site, "ann", AGAIN) == "ann 4"
    assert site.data("ann", "live") == []


def test_desk_is_down(site: Site) -> None:
    """A new outbox gives no number before it heard; one that has heard gives the next."""
    assert named(site, "ann", ASKS) == "ann 1"
    site.stop_desk()
    assert named(site, "ann", AGAIN) == "ann 2"
    lose(site)
    ran = site.run("ann", ASKS)
    assert ran.returncode == 2 and "which numbers are used" in ran.stdout + ran.stderr, ran
    assert site.kept() == []
    site.start_desk()
    assert named(site, "ann", ASKS) == "ann 2"


def test_own_numbers_alone(site: Site) -> None:
    """What another relay gives is no number of this one's."""
    assert named(site, "ann", ASKS) == "ann 1"
    lose(site)
    text = site.config.read_text()
    site.config.write_text(f"numbers = [500, 600]\n{text}")
    assert named(site, "ann", ASKS) == "ann 500"


def test_number_past(site: Site) -> None:
    """An operator says up to which number all are used, for everybody."""
    assert named(site, "ann", ASKS) == "ann 1"
    for number in (40, 30):
        ran = site.job("number-past", str(number))
        assert site.start(*ran[3:]).wait() == 0
    assert named(site, "ann", AGAIN) == "ann 41"
    assert named(site, "carol", ASKS) == "carol 41"
    assert named(site, "ann", AGAIN) == "ann 42"


def test_outbox_of_an_older_version(site: Site) -> None:
    """One that gave numbers before knows them, and asks while the desk is down."""
    assert named(site, "ann", ASKS) == "ann 1"
    outbox = Outbox(str(site.folder / "outbox.db"))
    outbox.base.execute("DELETE FROM numbers WHERE person = ''")
    outbox.base.execute("DROP TABLE heard")
    outbox.close()
    site.stop_desk()
    assert named(site, "ann", AGAIN) == "ann 2"
