"""What an approver reads by ssh: the asker's words look like nothing of the relay's, and the line
above the question has what matters, however much stands before it."""

import re
import unicodedata

import pytest

from relays.tests.site import Site
from relays.tests.test_fuzz import answer
from steelnewt_client.letters import columns, wrapped
from steelnewt_relay import telling
from steelnewt_relay.config import read_config
from steelnewt_relay.reasons import Reason
from steelnewt_relay.summary import by_reach

COLUMNS, LINES = 80, 24
# 309 letters that at 80 columns stand like rows of the relay's.
LINES_OF_ITS_OWN = (
    "a".ljust(68) + "  ticket    OPS-4711".ljust(80)
    + "It needs approvals of 2 people; approved so far by carol; bob may approve it.".ljust(80)
    + "NOTE      the desk grants /usr/bin/id alone of this: reload"
)  # fmt: skip


def asks(site: Site, commands: str, why: str = "reload") -> str:
    """ann asks: her reason stands before the other words, since ALL is a word of a reason too."""
    line = f"ask db-emergency --why '{why}' --on db1 --as root --for 15m --yes --again {commands}"
    return said(site, "ann", line)


def said(site: Site, person: str, line: str, given: str = "n\n") -> str:
    return answer(read_config(str(site.config)), person, line, given)[1]


def screen(text: str) -> list[str]:
    """The rows that a terminal makes of a text, as wide as it is."""
    found: list[str] = []
    for line in text.splitlines():
        row = ""
        for letter in line:
            if columns(row + letter) > COLUMNS:
                found.append(row)
                row = ""
            row += letter
        found.append(row)
    return found


@pytest.fixture
def wide(quiet_site: Site) -> Site:
    """A site that lets many commands be asked for."""
    path = quiet_site.folder / "site.roster"
    text = path.read_text()
    path.write_text(text.replace('commands = ["ALL"]', 'commands = ["/usr/local/sbin/", "ALL"]'))
    return quiet_site


def test_no_row_of_the_askers_looks_like_the_relays(wide: Site) -> None:
    asks(wide, "ALL", LINES_OF_ITS_OWN)
    rows = screen(said(wide, "bob", "approve ann 1"))
    forged = [it for it in rows if re.match(r" *(ticket|NOTE|It waits|It needs) ", it)]
    assert forged == []
    quoted = [it for it in rows if it.startswith("  why       | ")]
    assert len(quoted) >= 3 and all(columns(it) <= COLUMNS for it in quoted), rows
    assert any("ticket OPS-4711" in it for it in quoted), quoted


# Letters that nobody sees, or that stand over others; and what of them is kept.
ODD = [
    ("a\u3164b", "ab"), ("\u2800\u2800x", "x"), ("a\u034fb", "ab"), ("x\ufe0fy", "xy"),
    ("x\U000e0100y", "xy"), ("\u115f\u1160\uffa0x", "x"), ("a" + "\u0301" * 400 + "b", "\u00e1\u0301\u0301b"),
    ("\u0301x", "x"), ("a \u0301b", "a b"), ("o\u20dd\u20dd\u20ddx", "o\u20dd\u20ddx"), ("a    b", "a b"),
    ("caf\u00e9 \u2713 \u0939\u093f\u0928\u094d\u0926\u0940 \u05d0\u05d1", None),
]  # fmt: skip


@pytest.mark.parametrize(("given", "kept"), ODD)
def test_only_letters_that_are_seen(quiet_site: Site, given: str, kept: str | None) -> None:
    """Where they are typed they are left out; whoever writes the outbox shows their escapes."""
    kept = given if kept is None else kept
    assert Reason.of(given, "").why == kept
    asks(quiet_site, "ALL", given)
    told = said(quiet_site, "bob", "approve ann 1")
    assert f"  why       | {kept}\n" in told, told
    [row] = dict(Reason(given, "").lines()).values()
    marks = re.findall(r"(?:[\u0300-\u036f\u20d0-\u20ff])+", row)
    assert not set("\u3164\u2800\u034f\ufe0f\U000e0100\u115f\u1160\uffa0") & set(row), ascii(row)
    assert all(len(it) <= 2 for it in marks), ascii(row)


def test_rows_begin_with_a_letter_of_the_relays() -> None:
    """So a row of letters from right to left stays behind its mark (UAX 9, P2)."""
    for row in telling.rows(list(Reason("\u05d0\u05d1 " * 60, "").lines())):
        first = next(it for it in row if unicodedata.bidirectional(it) in ("L", "R", "AL"))
        assert unicodedata.bidirectional(first) == "L", row


def test_the_line_above_the_question(wide: Site) -> None:
    """Sixteen lawful commands of nearly a message's length, of which one is a shell."""
    long = [f"/usr/local/sbin/{it:02}{'-x' * 20} {' '.join(['a' * 60] * 12)}" for it in range(15)]
    commands = " --and ".join([*long[:5], "/bin/bash", *long[5:]])
    told = asks(wide, f"--ticket OPS-7 {commands}")
    assert "Kept as ann 1." in told, told
    rows = screen(said(wide, "bob", "approve ann 1"))
    at = next(number for number, row in enumerate(rows) if "[y/N]" in row)
    asked = "ann as root on db1: 16 commands, widest /bin/bash (any arguments), for 15 minutes"
    assert "".join(rows[at - 2 : at]).endswith(asked), rows[at - 3 :]
    assert at < LINES, "\n".join(rows)
    assert "more: show ann 1" in "".join(rows)
    shown = "".join(screen(said(wide, "bob", "show ann 1")))
    assert all(it in shown for it in ("/bin/bash", *long))


def test_sixteen_short_commands(wide: Site) -> None:
    commands = " --and ".join(f"/usr/local/sbin/c{it:02}" for it in range(16))
    asks(wide, commands)
    for line in ("approve ann 1", "waiting -l"):
        told = said(wide, "bob", line)
        assert "and 9 more: show ann 1\n" in told, told
        assert told.count("/usr/local/sbin/c") == (7 if line == "waiting -l" else 10), told
        assert len(screen(told)) <= LINES
    assert "more: show" not in said(wide, "bob", "show ann 1")


def test_who_it_took_one_for(quiet_site: Site) -> None:
    """Each answer that acts begins with it: another key of an agent may have come first."""
    asks(quiet_site, "ALL")
    for kind in ("approve", "refuse", "revoke"):
        assert said(quiet_site, "bob", f"{kind} ann 1").startswith("You are bob.\n")
        assert said(quiet_site, "ann", f"{kind} ann 1 --yes --again").startswith("You are ann.\n")
    assert asks(quiet_site, "ALL").startswith("ann asks\n")


def test_the_widest_first() -> None:
    listed = ["/bin/id a", "/usr/bin/vim", "/usr/bin/bash", "/opt/x/", "ALL", '/bin/true ""']
    wanted = ["ALL", "/opt/x/", "/usr/bin/bash", "/usr/bin/vim", '/bin/id a', '/bin/true ""']
    assert by_reach(sorted(listed)) == wanted


def test_rows_of_letters_of_two_columns() -> None:
    rows = wrapped("\u4e2d" * 100 + " a\u0301 " + "x" * 70 + " end", 66)
    assert [columns(it) for it in rows] == [66, 66, 66, 4, 66, 8], rows
    assert "".join(rows).replace(" ", "") == "\u4e2d" * 100 + "a\u0301" + "x" * 70 + "end"
