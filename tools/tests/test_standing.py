"""desk-standing: who may do what by a base alone, beside what the desk decides about runs, over
random bases."""

from __future__ import annotations

import csv
import json
import os
import random
import subprocess
from collections.abc import Callable
from pathlib import Path
from typing import Any

import pytest
from conftest import ROOT

from desk_tools.decisions import Desk, Invocation, Question
from desk_tools.written_out import Written

from tests.common.histories import Moment, write_history

EXAMPLES = os.path.join(ROOT, "examples")
PROGRAM = os.path.join(ROOT, "tools", "desk-standing")
AT = "20260105093000Z"
Tell = Callable[..., Any]
BASE = """\
User_Alias OPS = olga, omar
Host_Alias DBS = db1, db2, !db9
Runas_Alias SERVICE = postgres, www
Cmnd_Alias LOOK = /usr/bin/id, /usr/bin/uptime ""
Cmnd_Alias SHELLS = /usr/bin/bash, /usr/bin/su
Cmnd_Alias MOST = ALL, !SHELLS
dba DBS = (ALL) ALL
OPS ALL = (SERVICE) NOPASSWD: LOOK
olga db1 = (root) MOST
omar db1 = (root) ALL, !/usr/local/sbin/, NOPASSWD: /usr/bin/id
omar db2 = NOTBEFORE=20260101000000Z NOTAFTER=20260201000000Z /usr/bin/vi
gone db1 = NOTAFTER=20250101000000Z ALL
bob db1 = /usr/bin/, !/usr/bin/su
"""


def run(desk: str, *words: str) -> subprocess.CompletedProcess[str]:
    told = [PROGRAM, *words, "--desk", desk]
    return subprocess.run(told, capture_output=True, text=True, check=False)


@pytest.fixture
def tell(desk: str, tmp_path: Path) -> Tell:
    """What is told of a base as JSON, by user, host and target."""

    def told(text: str, *words: str) -> dict[tuple[str, str, str], list[dict[str, Any]]]:
        path = tmp_path / "base.sudo"
        path.write_text(text)
        ran = run(desk, str(path), "--json", *(words or ("--at", AT)))
        assert ran.returncode == 0, ran
        document = json.loads(ran.stdout)
        assert not document["unknown"] and document["made"]["program"] == "desk-standing"
        found: dict[tuple[str, str, str], list[dict[str, Any]]] = {}
        for it in document["standing"]:
            found.setdefault((it["user"], it["host"], it["target"]), []).append(it)
        return found

    return told


def test_each_form_of_a_right(tell: Tell) -> None:
    found = tell(BASE)
    (everything,) = found["dba", "db1", "root"]
    assert (everything["right"], everything["without"]) == ("EVERYTHING", [])
    assert everything["password"] == "yes" and everything["rules"] == ["dba DBS = (ALL) ALL"]
    assert ("dba", "db9", "root") not in found and ("dba", "*", "root") not in found
    (most,) = found["olga", "db1", "root"]
    assert most["right"] == "EVERYTHING" and most["without"] == ["/usr/bin/bash", "/usr/bin/su"]
    (some,) = found["omar", "db1", "root"]
    assert (some["without"], some["password"]) == (["/usr/local/sbin/"], "some")
    look = found["omar", "*", "www"]
    assert [it["right"] for it in look] == ["/usr/bin/id", '/usr/bin/uptime ""']
    assert {it["password"] for it in look} == {"no"}
    (timed,) = found["omar", "db2", "root"]
    assert (timed["since"], timed["until"]) == ("20260101000000Z", "20260201000000Z")
    assert "an editor" in timed["runs_others"]
    assert not any(user == "gone" for user, _, _ in found)
    (folder,) = found["bob", "db1", "root"]
    assert (folder["right"], folder["without"]) == ("/usr/bin/", ["/usr/bin/su"])


def test_a_harmless_command_hides_nobody(tell: Tell) -> None:
    """Whoever may do everything is told so, beside a command that comes first in order."""
    found = tell("olga ALL = (ALL) ALL\nann ALL = (root) /usr/bin/journalctl\n")
    assert [it["right"] for it in found["olga", "*", "root"]] == ["EVERYTHING"]
    assert [it["right"] for it in found["ann", "*", "root"]] == ["/usr/bin/journalctl"]


def test_names_that_no_list_tells_apart(tell: Tell) -> None:
    """One of them is asked about, and all have the same. Names that a list tells apart do not."""
    base = """\
User_Alias TEAM = ann, bob, cid, dan, !bob
Host_Alias ROWS = h1, h2, h3
TEAM ROWS = (root) /bin/a
cid h3 = (root) ALL
"""
    written = Written(base)
    assert written.twins("User") == [["ann", "dan"], ["bob"], ["cid"]]
    assert written.twins("Host") == [["h1", "h2"], ["h3"]]
    found = {key: [it["right"] for it in rights] for key, rights in tell(base).items()}
    assert found == {
        **{(user, host, "root"): ["/bin/a"] for user in ("ann", "cid", "dan") for host in HOSTS},
        ("cid", "h3", "root"): ["EVERYTHING"],
    }


HOSTS = ("h1", "h2", "h3")


def test_since_which_base(desk: str, tmp_path: Path) -> None:
    both = "ann db1 = (root) ALL\nbob db1 = (root) /bin/a\n"
    last = "ann db1 = (root) ALL, NOPASSWD: /bin/b\nbob db1 = /bin/a, /bin/c\n"
    bases = {
        "20250101000000Z": Moment("one", both),
        "20250201000000Z": Moment("one", "ann db1 = (root) /bin/b\n"),
        "20250301000000Z": Moment("one", both),
        "20250315000000Z": Moment("another roster", both),
        "20250401000000Z": Moment("one", last),
        "20270101000000Z": Moment("one", "later"),
    }
    write_history(str(tmp_path), desk, bases)
    ran = run(desk, str(tmp_path), "--csv", "--at", AT)
    assert ran.returncode == 0, ran
    rows = list(csv.DictReader(ran.stdout.splitlines()))
    told = {(row["user"], row["right"]): (row["since_time"], row["or_before"]) for row in rows}
    assert told == {
        ("ann", "EVERYTHING"): ("2025-03-01 00:00:00", ""),
        ("bob", "/bin/a"): ("2025-03-01 00:00:00", ""),
        ("bob", "/bin/c"): ("2025-04-01 00:00:00", ""),
    }
    assert all("base 20250401000000Z" in row["made"] for row in rows)
    ran = run(desk, str(tmp_path), "--at", "20250115000000Z")
    assert "EVERYTHING  with a password  since 20250101000000Z or before\n" in ran.stdout, ran
    ran = run(desk, str(tmp_path), "--at", "20240101000000Z")
    assert ran.returncode == 2 and "its moments name nothing of" in ran.stderr, ran
    # (of what was carried away it is not known whether it gave the right)
    for it in (tmp_path / "20250201000000Z").iterdir():
        it.unlink()
    ran = run(desk, str(tmp_path), "--at", AT)
    assert "EVERYTHING  some with a password  since 20250301000000Z or before\n" in ran.stdout, ran


def test_what_is_refused(desk: str, tmp_path: Path) -> None:
    base, roster = (os.path.join(EXAMPLES, it) for it in ("site.sudo", "roster.toml"))
    for words, said in (
        ((base, "--host", "bd1"), "unknown host bd1: the base names none such"),
        ((base, "--roster", roster, "--host", "bd1"), "unknown host bd1: neither the base nor"),
        ((base, "--roster", roster, "--user", "anm"), "unknown person anm: neither the base nor"),
        ((base, "--runas", "postgers"), "unknown target postgers"),
        ((base, "--at", "2026"), "is no moment"),
        (("/nowhere",), "/nowhere"),
        ((roster,), "S"),
    ):
        ran = run(desk, *words)
        assert ran.returncode == 2 and said in ran.stderr and not ran.stdout, (words, ran)
    ran = run(desk, base, "--roster", roster, "--host", "db2", "--at", AT)
    assert ran.returncode == 0 and "dba as postgres on db2\n" in ran.stdout, ran


# ---- beside the desk


def base_of(rng: random.Random) -> str:
    """A random base over few names: aliases in aliases, denials, and passwords."""
    commands = ["ALL", "/b/", "/b/a", "/b/b", '/b/a ""', "/b/a -x", "LOOK", "MOST"]
    lines = [
        "Cmnd_Alias LOOK = /b/a, !/b/a -x",
        f"Cmnd_Alias MOST = {rng.choice(['ALL', '/b/'])}, !LOOK, {rng.choice(commands[1:6])}",
        "Host_Alias SOME = ALL, !h1",
    ]
    for _ in range(rng.randrange(1, 5)):
        some = [
            f"{rng.choice(['', '', 'NOPASSWD: '])}{rng.choice(['', '', '!'])}{rng.choice(commands)}"
            for _ in range(rng.randrange(1, 3))
        ]
        who = rng.choice(["ALL", "u1", "u1, u2", "!u1, u2"])
        where = rng.choice(["ALL", "h1", "SOME"])
        lines.append(f"{who} {where} = ({rng.choice(['ALL', 'root', 't1'])}) {', '.join(some)}")
    return "".join(f"{line}\n" for line in lines)


RUNS = (("/b/a", ()), ("/b/a", ("-x",)), ("/b/a", ("y",)), ("/b/b", ()), ("/b/z", ()), ("/c", ()))


def covers(right: dict[str, Any], path: str, args: tuple[str, ...]) -> bool:
    """Whether a right's words cover a run."""
    if any(fits(it, path, args) for it in right["without"]):
        return False
    return right["right"] == "EVERYTHING" or fits(right["right"], path, args)


def fits(command: str, path: str, args: tuple[str, ...]) -> bool:
    file, *words = command.split(" ")
    if file.endswith("/"):
        return path.rpartition("/")[0] + "/" == file
    if words == ['""']:
        return path == file and not args
    return path == file and (not words or tuple(words) == args)


def test_beside_decisions(desk: str, tell: Tell, tmp_path: Path) -> None:
    """What is told covers a run exactly where the desk allows it, unless there is more than the
    list; and the aliases that are written out decide as they stand."""
    rng, program = random.Random(7), Desk(desk, str(tmp_path))
    for _ in range(3):
        text = base_of(rng)
        found = tell(text)
        canonical = program.canonical(str(tmp_path / "base.sudo"))
        written = Written(canonical)
        same = program.policy(written.policy(it.text() for it in written.rules))
        whole, names = program.policy(canonical), {"user": {"u1", "u2"}, "host": {"h1"}}
        asked = [
            Invocation(user, host, target, path, args)
            for user in ("u1", "u2", "other0")
            for host in ("h1", "other0")
            for target in ("root", "t1")
            for path, args in RUNS
        ]
        decided = program.answers(Question(whole, AT, it) for it in asked)
        assert decided == program.answers(Question(same, AT, it) for it in asked), text
        for run_of, is_allowed in zip(asked, decided, strict=True):
            user = run_of.user if run_of.user in canonical and run_of.user in names["user"] else "*"
            host = run_of.host if run_of.host in canonical and run_of.host in names["host"] else "*"
            key = user, host, run_of.target if run_of.target in (canonical + "root") else "*"
            rights = found.get(key, [])
            is_covered = any(
                covers(it, run_of.path, run_of.args) for it in rights if "more" not in it
            )
            is_more = any("more" in it for it in rights)
            assert is_covered <= is_allowed and (is_allowed <= (is_covered or is_more)), (
                text,
                run_of,
                rights,
            )
