"""desk-lint warns of what gives much to few, and of grants that outlast their asker, beside the
desk's own files of a host."""

from __future__ import annotations

import itertools
import json
import os
import random
import re
import subprocess
from pathlib import Path
from typing import Any

import pytest

from steelnewt_client.messages import canonical
from conftest import ROOT, Run

ON = "20260101"
ROSTER = """\
relays = ["chat"]
hosts = ["db1"]
duties = ["approve", "ask", "audit"]
conflicts = [["approve", "audit"]]
[people]
ann = [{ duty = "ask", from = "20260101", until = "20260110" }]
ben = ["ask"]
kim = [
    { duty = "ask", from = "20260101", until = "20260106" },
    { duty = "ask", from = "20260107", until = "20260112" },
    { duty = "ask", from = "20260114", until = "20260131" },
]
bob = ["approve"]
dan = ["approve", { duty = "audit", from = "20260105", until = "20260110" }]
eve = [{ duty = "approve", from = "20260101", until = "20260108" }]
[ceilings.c]
ask = "ask"
approve = "approve"
needs = NEEDS
hosts = ["db1"]
runas = ["root"]
commands = ["/opt/x"]
longest = 2592000
"""
# the last day of each, without a break from the day on which it was asked
LAST = {"ann": "20260110", "ben": "20991231", "kim": "20260112"}


def asked(by: str = "ann", until: str = "20260115120000Z", **more: Any) -> dict[str, Any]:
    found: dict[str, Any] = {"at": "20260105080000Z", "by": by, "ceiling": "c", "cmnds": ["/opt/x"]}
    found |= {"from": "20260105090000Z", "hosts": ["db1"], "kind": "request", "no": 1}
    return found | {"runas": "root", "until": until} | more


def said(kind: str, by: str, at: str, of: str = "ann") -> dict[str, Any]:
    return {"at": at, "by": by, "kind": kind, "no": 1, "of": of}


YES = said("approve", "bob", "20260105090000Z")


def warnings(lint: Run, folder: Path, messages: list[dict[str, Any]], *words: str) -> list[Any]:
    (folder / "r.toml").write_text(ROSTER.replace("NEEDS", "1"))
    (folder / "x.messages").write_text("".join(f"{canonical(it)}\n" for it in messages))
    given = ["--json", "--roster", str(folder / "r.toml"), *(words or ("--on", ON))]
    ran = lint(*given, str(folder / "x.messages"))
    assert ran.returncode == 0 and not ran.stderr, ran
    found = json.loads(ran.stdout)["files"][0]["warnings"]
    return [(it["line"], it["kind"], it["key"], it["said"]) for it in found]


TOLD = (
    "it is granted until 20260115120000Z, and ann holds ask up to 20260110: "
    "the right does not end with the duty, so revoke it then"
)


def test_what_is_said(lint: Run, tmp_path: Path) -> None:
    assert warnings(lint, tmp_path, [YES, asked()]) == [(2, "outlasts", "ann 1", TOLD)]
    ran = lint("--on", ON, "--strict", "--roster", f"{tmp_path}/r.toml", f"{tmp_path}/x.messages")
    assert (ran.returncode, ran.stdout) == (1, f"{tmp_path}/x.messages:2: warning: ann 1: {TOLD}\n")
    # (without a roster nothing is known of her days)
    assert lint("--on", ON, "--strict", f"{tmp_path}/x.messages").returncode == 0


@pytest.mark.parametrize(
    "files, lines",
    [
        ([[asked()], [YES]], ["0:1"]),
        ([[YES], [asked("ben"), asked()]], ["1:2"]),
        ([[asked()], [YES], [said("revoke", "ann", "20260110000000Z")]], []),
        ([[asked(), YES], [said("revoke", "eve", "20260108000000Z")]], []),
        ([[asked(), YES], [asked(until="20260115120001Z")]], []),
        ([[asked(), YES], [asked(), YES]], ["0:1"]),
    ],
)
def test_messages_in_several_files(
    lint: Run, tmp_path: Path, files: list[list[dict[str, Any]]], lines: list[str]
) -> None:
    """A request, its approval and its revocation count together, wherever they stand."""
    (tmp_path / "r.toml").write_text(ROSTER.replace("NEEDS", "1"))
    names = [str(tmp_path / f"{number}.messages") for number in range(len(files))]
    for name, messages in zip(names, files, strict=True):
        Path(name).write_text("".join(f"{canonical(it)}\n" for it in messages))
    ran = lint("--on", ON, "--strict", "--roster", str(tmp_path / "r.toml"), *names)
    assert re.findall(r"/(\d)\.messages:(\d+): warning: ", ran.stdout) == [
        tuple(it.split(":")) for it in lines
    ]
    assert ran.returncode == (1 if lines else 0) and not ran.stderr, ran


@pytest.mark.parametrize(
    "messages",
    [
        [asked()],
        [asked(until="20260110235959Z"), YES],
        [asked("ben"), said("approve", "bob", "20260105090000Z", "ben")],
        [asked(), YES, said("revoke", "ann", "20260111000000Z")],
        [asked(), YES, said("revoke", "eve", "20260108000000Z")],
        [asked(), YES, said("refuse", "dan", "20260104000000Z")],
        [asked(), said("approve", "ann", "20260105090000Z")],
        [asked(), said("approve", "dan", "20260105090000Z")],
        [asked(), said("approve", "eve", "20260109090000Z")],
        [asked(), YES, asked(until="20260115120001Z")],
        [asked(), said("approve", "bob", "20260116090000Z")],
    ],
)
def test_what_needs_no_warning(lint: Run, tmp_path: Path, messages: list[dict[str, Any]]) -> None:
    assert warnings(lint, tmp_path, messages) == []


@pytest.mark.parametrize(
    "more",
    [
        said("revoke", "eve", "20260109000000Z"),
        said("revoke", "ann", "20260111000001Z"),
        said("refuse", "dan", "20260106000000Z"),
        said("refuse", "ann", "20260104000000Z"),
        asked(),
        said("approve", "eve", "20260104090000Z"),
    ],
)
def test_what_changes_nothing(lint: Run, tmp_path: Path, more: dict[str, Any]) -> None:
    assert [it[1] for it in warnings(lint, tmp_path, [asked(), YES, more])] == ["outlasts"]


def test_the_past_is_left_alone(lint: Run, tmp_path: Path) -> None:
    assert warnings(lint, tmp_path, [asked(), YES], "--on", "20260116") == []
    assert warnings(lint, tmp_path, [asked(), YES], "--on", "20260115")


def random_messages(chance: random.Random) -> list[dict[str, Any]]:
    """Six requests of each, and verdicts of anybody on any of some days."""
    days = [f"202601{it:02}" for it in range(4, 19)]
    found = []
    for by, no in itertools.product(LAST, range(6)):
        until = chance.choice(days[6:]) + chance.choice(["000000Z", "235959Z"])
        found.append(asked(by, until, no=no, cmnds=[f"/opt/x {no}"]))
        for _ in range(chance.randint(1, 5)):
            kind = chance.choice(["approve"] * 8 + ["refuse", "revoke"])
            author = chance.choice(["ann", "bob", "bob", "dan", "eve"])
            at = chance.choice(days) + chance.choice(["000000Z", "000001Z", "090000Z"])
            found.append(said(kind, author, at, by) | {"no": no})
    chance.shuffle(found)
    return found


@pytest.mark.parametrize("needs", [1, 2])
def test_beside_the_desk(lint: Run, desk: str, tmp_path: Path, needs: int) -> None:
    """A grant is warned of exactly where the desk's file of the host has it after that day."""
    chance, count, among = random.Random(58 + needs), 0, 0
    (tmp_path / "r.toml").write_text(ROSTER.replace("NEEDS", str(needs)))
    for _ in range(12):
        messages = random_messages(chance)
        given = "".join(f"{canonical(it)}\n" for it in messages)
        (tmp_path / "x.messages").write_text(given)
        words = [desk, "print", str(tmp_path / "r.toml"), os.devnull, "-", "db1"]
        ran = subprocess.run(words, input=given, capture_output=True, text=True, check=True)
        rows = re.findall(r"^(\w+) db1 = .* NOTAFTER=(\d+)Z /opt/x (\d)$", ran.stdout, re.MULTILINE)
        wanted = {f"{by} {no}" for by, until, no in rows if until[:8] > LAST[by]}
        options = ["--json", "--on", ON, "--roster", str(tmp_path / "r.toml")]
        told = json.loads(lint(*options, str(tmp_path / "x.messages")).stdout)
        assert {it["key"] for it in told["files"][0]["warnings"]} == wanted, (messages, ran.stdout)
        count, among = count + len(wanted), among + len(rows)
    assert 15 <= count < among, (count, among)


WIDE = (
    "ALL as root on 5 hosts for one approval: one approver's key, with any asker's, is root on all "
    "of them; let two approve, or name hosts or commands"
)


def test_everything_on_many_hosts_for_one_approval(lint: Run, tmp_path: Path) -> None:
    hosts = [f"h{number}" for number in range(5)]
    text = ROSTER.replace('hosts = ["db1"]', f"hosts = {json.dumps(hosts)}")
    text = text.replace('["/opt/x"]', '["/opt/x", "ALL"]')
    fewer = text.replace('"h4"]\nrunas', '"h3"]\nrunas')
    assert fewer != text
    rows: list[tuple[str, str, list[str]]] = [(text, "1", [WIDE]), (text, "2", [])]
    rows += [(fewer, "1", []), (text.replace('"ALL"', '"/opt/"'), "1", [])]
    for roster, needs, wanted in rows:
        (tmp_path / "r.toml").write_text(roster.replace("NEEDS", needs))
        ran = lint("--json", "--on", ON, str(tmp_path / "r.toml"))
        found = json.loads(ran.stdout)["files"][0]
        assert not found["faults"], found
        assert [it["said"] for it in found["warnings"] if it["kind"] == "wide"] == wanted, roster


def test_the_examples_are_not_warned_of(lint: Run) -> None:
    for name in ("roster", "team"):
        ran = lint("--json", "--on", ON, os.path.join(ROOT, "examples", f"{name}.toml"))
        kinds = {it["kind"] for it in json.loads(ran.stdout)["files"][0]["warnings"]}
        assert "wide" not in kinds
