"""desk-evidence: the same bytes each time, which sha256sum and ssh-keygen accept."""

from __future__ import annotations

import csv
import json
import os
import sqlite3
import subprocess
from collections.abc import Callable
from contextlib import closing
from pathlib import Path
from typing import Any

import pytest

from conftest import ROOT
from desk_tools.evidence import program_beside
from texts import newer

from tests.common.histories import Moment, write_history

EXAMPLES = os.path.join(ROOT, "examples")
SPAN = ("20260101000000Z", "20260331235959Z")
CHANGED = "20260105093000Z"
Make = Callable[..., tuple[str, "subprocess.CompletedProcess[str]"]]


def run(*words: str, folder: str | None = None) -> subprocess.CompletedProcess[str]:
    return subprocess.run(words, cwd=folder, capture_output=True, text=True, check=False)


def checked(folder: str) -> bool:
    """What sha256sum says, of each file of the folder."""
    ran = run("sha256sum", "-c", "--quiet", "--strict", "SHA256SUMS", folder=folder)
    with open(os.path.join(folder, "SHA256SUMS"), encoding="utf-8") as file:
        named = {line.split("  ", 1)[1].rstrip("\n") for line in file}
    there = {
        os.path.relpath(os.path.join(top, name), folder)
        for top, _, names in os.walk(folder)
        for name in names
    }
    assert named == there - {"SHA256SUMS", "SHA256SUMS.sig"}
    return ran.returncode == 0


def bytes_of(folder: str) -> dict[str, bytes]:
    found = {}
    for top, _, names in os.walk(folder):
        for name in names:
            with open(os.path.join(top, name), "rb") as file:
                found[os.path.relpath(os.path.join(top, name), folder)] = file.read()
    return found


def dated(folder: Path, desk: str, rosters: dict[str, str]) -> None:
    """A history of these rosters, all with one base."""
    base = Path(EXAMPLES, "site.sudo").read_text()
    write_history(str(folder), desk, {at: Moment(it, base) for at, it in rosters.items()})


@pytest.fixture
def evidence(desk: str, tmp_path: Path) -> Make:
    """Makes a folder of the examples, with these words besides."""
    text = Path(EXAMPLES, "roster.toml").read_text()
    # at half past nine bob loses his duty
    without = text.replace('bob = ["approve-db"]', "bob = []")
    rosters = {"20250101000000Z": text, CHANGED: without, "20270101000000Z": "later"}
    history = tmp_path / "history"
    dated(history, desk, rosters)

    def make(
        name: str, *words: str, messages: str = "audited.messages", span: tuple[str, str] = SPAN
    ) -> tuple[str, subprocess.CompletedProcess[str]]:
        folder = str(tmp_path / name)
        program = os.path.join(ROOT, "tools", "desk-evidence")
        given = ["--messages", os.path.join(EXAMPLES, messages), "--desk", desk]
        if "--roster" not in words:
            given += ["--history", str(history)]
        return folder, run(program, folder, *span, *given, *words)

    return make


def test_twice_the_same(evidence: Make, tmp_path: Path) -> None:
    """Signed, with logs, over two rosters, of messages in another order: byte for byte."""
    key, log = str(tmp_path / "key"), f"db1={EXAMPLES}/used.log"
    assert not run("ssh-keygen", "-q", "-t", "ed25519", "-N", "", "-f", key).returncode
    with open(os.path.join(EXAMPLES, "audited.messages"), encoding="utf-8") as file:
        lines = file.read().splitlines(keepends=True)
    turned = tmp_path / "turned"
    turned.write_text("".join([*reversed(lines), lines[0]]))
    first, ran = evidence("first", "--log", log, "--key", key)
    assert ran.returncode == 0, ran
    second, ran = evidence("second", "--log", log, "--key", key, messages=str(turned))
    assert ran.returncode == 0 and bytes_of(first) == bytes_of(second), ran
    assert checked(first)
    signers = tmp_path / "signers"
    with open(f"{key}.pub", encoding="ascii") as file:
        signers.write_text(f"auditor {file.read()}")
    verify = ["ssh-keygen", "-Y", "verify", "-f", str(signers), "-I", "auditor"]
    verify += ["-n", "desk-evidence", "-s", f"{first}/SHA256SUMS.sig"]
    manifest = bytes_of(first)["SHA256SUMS"]
    assert subprocess.run(verify, input=manifest, capture_output=True).returncode == 0
    assert subprocess.run(verify, input=manifest + b"\n", capture_output=True).returncode != 0
    for name in bytes_of(first):
        if name.startswith("SHA256SUMS") or not os.path.getsize(f"{first}/{name}"):
            continue
        with open(f"{first}/{name}", "r+b") as file:
            byte = file.read(1)[0]
            file.seek(0)
            file.write(bytes([byte ^ 1]))
        assert not checked(first), name
        with open(f"{first}/{name}", "r+b") as file:
            file.write(bytes([byte]))
    assert checked(first)


def test_each_roster_has_its_time(evidence: Make) -> None:
    folder, ran = evidence("made", "--log", f"db1={EXAMPLES}/used.log")
    assert ran.returncode == 0, ran
    found = bytes_of(folder)
    names = {name.split("/")[0] for name in found if "/" in name}
    assert names == {"20250101000000Z", CHANGED}
    assert found["20250101000000Z/until.report"].startswith(b"REVIEW 20260105092959Z\nLIVE\nann ")
    assert found[f"{CHANGED}/from.report"].startswith(b"REVIEW 20260105093000Z\nLIVE\nBARRED\n")
    for name in names:
        assert found[f"{name}/comparison"] == (
            b"the statuses are the same\nall messages of this time are told\n"
        ), name
        assert found[f"{name}/statuses"] == found[f"{name}/second"]
    rows = list(csv.DictReader(found["grants.csv"].decode().splitlines()))
    assert [(it["roster"], it["who"], it["approvers"], it["used"]) for it in rows] == [
        ("20250101000000Z", "ann", "bob", "used")
    ]
    assert rows[0]["commands"] == "/usr/bin/id, /usr/bin/systemctl restart postgresql"


def test_without_logs_and_of_one_roster(evidence: Make) -> None:
    roster, base = f"{EXAMPLES}/roster.toml", f"{EXAMPLES}/site.sudo"
    for words in (("--base", base), ("--roster", roster)):
        folder, ran = evidence("made", *words)
        assert ran.returncode == 2 and "--history DIR, or --roster" in ran.stderr, ran
        assert not os.path.exists(folder)
    folder, ran = evidence("made", "--roster", roster, "--base", base)
    assert ran.returncode == 0, ran
    assert b",bob,,2026-" in bytes_of(folder)["grants.csv"] and "logs" not in bytes_of(folder)


def test_a_second_reading_that_differs(evidence: Make, tmp_path: Path) -> None:
    """The difference is named: this reading does not refuse a second approval by one person."""
    with open(os.path.join(EXAMPLES, "second-reading.jq"), encoding="utf-8") as file:
        text = file.read()
    wrong = tmp_path / "wrong.jq"
    wrong.write_text(text.replace(".by != $asker and ", ""))
    assert wrong.read_text() != text
    messages = tmp_path / "messages"
    own = '{"at":"20260105071000Z","by":"carol","kind":"approve","no":1,"of":"carol"}\n'
    with open(os.path.join(EXAMPLES, "audited.messages"), encoding="utf-8") as file:
        messages.write_text(file.read() + own)
    folder, ran = evidence("made", "--second-reading", str(wrong), messages=str(messages))
    assert ran.returncode == 0, ran
    found = bytes_of(folder)
    assert found["20250101000000Z/comparison"].startswith(b"THE STATUSES DIFFER\n"), found


def test_what_is_refused(evidence: Make, tmp_path: Path) -> None:
    """Nothing is made by halves, and nothing is written over."""
    (tmp_path / "there").mkdir()
    for name, words, span, said in (
        ("there", (), SPAN, "it is there already"),
        ("a", (), ("20240101000000Z", SPAN[1]), "its moments name nothing of"),
        ("a", (), (SPAN[1], SPAN[0]), "UNTIL is before FROM"),
        ("a", ("--roster", "/nowhere", "--base", "/nowhere"), SPAN, "/nowhere"),
        ("a", ("--log", "/nowhere"), SPAN, "/nowhere"),
        ("a", ("--key", "/nowhere"), SPAN, "ssh-keygen: "),
        ("a", ("--second-reading", "/nowhere"), SPAN, "there is no /nowhere"),
        ("a", ("--sample", "3"), SPAN, "--sample N --seed TEXT"),
        ("a", ("--reasons", os.path.join(EXAMPLES, "used.log")), SPAN, "desk-relay reasons prints"),
    ):
        before = sorted(os.listdir(tmp_path))
        _, ran = evidence(name, *words, span=span)
        assert ran.returncode == 2 and said in ran.stderr, (words, ran)
        assert sorted(os.listdir(tmp_path)) == before, words


def test_a_forged_line_stops_no_evidence(evidence: Make, tmp_path: Path) -> None:
    """What any account may write into syslog is unread, with its file and line."""
    with open(os.path.join(EXAMPLES, "used.log"), encoding="utf-8") as file:
        text = file.read()
    event = '"submithost":"db1","submituser":"ann","command":"/bin/ls"'
    for name, no in (("huge", 10**22), ("big", 9 * 10**16), ("late", 5 * 10**9)):
        told = f'@cee:{{"sudo":{{"accept":{{"server_time":{{"seconds":{no}}},{event}}}}}}}'
        log = tmp_path / f"{name}.log"
        log.write_text(f"{text}2026-01-05T12:00:00+00:00 db1 sudo: {told}\n")
        folder, ran = evidence(name, "--log", f"db1={log}")
        assert ran.returncode == 0, ran
        found = bytes_of(folder)
        assert b"db1=" not in found["logs"] and b",bob,used,2026-" in found["grants.csv"]
        unread = json.loads(found["20250101000000Z/used.json"])["logs"]["unread_lines"]
        why = "its moment is out of range"
        assert unread == [{"file": str(log), "line": text.count("\n") + 1, "why": why}]


def test_a_roster_hides_no_run_after_a_revocation(
    evidence: Make, desk: str, tmp_path: Path
) -> None:
    """A roster that came after a revocation tells what ran under it, whether it would have let the
    grant be or not."""
    log, text = f"db1={EXAMPLES}/used.log", Path(EXAMPLES, "roster.toml").read_text()
    late = [("ann", 7, "20260105103112Z")]
    for no, bob in enumerate(('bob = ["approve-db"] # still', "bob = []")):
        changed = text.replace('bob = ["approve-db"]', bob)
        rosters = {"20250101000000Z": text, "20260105103100Z": changed}
        dated(tmp_path / "history", desk, rosters)
        folder, ran = evidence(str(no), "--log", log)
        assert ran.returncode == 0, ran
        found = bytes_of(folder)
        for name, wanted in (("20250101000000Z", []), ("20260105103100Z", late)):
            told = json.loads(found[f"{name}/used.json"])["after_revocation"]
            assert [(it["by"], it["no"], it["first"]) for it in told] == wanted, (no, name, told)
        rows = list(csv.DictReader(found["grants.csv"].decode().splitlines()))
        assert [(it["roster"], it["who"], it["used"]) for it in rows] == [
            ("20250101000000Z", "ann", "used")
        ]


def test_a_roster_of_toml_1_1(evidence: Make, desk: str, tmp_path: Path) -> None:
    """A table may stand over several lines: a desk takes it, and so does the second reading."""
    path = tmp_path / "history" / "20250101000000Z" / "roster.toml"
    dated(tmp_path / "history", desk, {"20250101000000Z": newer(path.read_text())})
    folder, ran = evidence("made", "--log", f"db1={EXAMPLES}/used.log")
    assert ran.returncode == 0, ran
    found = bytes_of(folder)
    assert found["20250101000000Z/roster.toml"] == path.read_bytes()
    said = b"the statuses are the same\nall messages of this time are told\n"
    assert found["20250101000000Z/comparison"] == said
    assert b"ann 7 granted " in found["20250101000000Z/second"]


def test_what_is_missing_is_named(evidence: Make, tmp_path: Path) -> None:
    """Where a number of somebody's is missing, or a message is left out, nothing is said of all."""
    asked: dict[str, Any] = {"at": "20260105080000Z", "by": "carol", "ceiling": "db-care"}
    asked |= {"cmnds": ["/usr/bin/id"], "from": "20260105090000Z", "hosts": ["db1"]}
    asked |= {"kind": "request", "no": 4, "runas": "root", "until": "20260105100000Z"}
    with open(os.path.join(EXAMPLES, "audited.messages"), encoding="utf-8") as file:
        text = file.read()
    messages = tmp_path / "messages"
    here = b"the statuses are the same\nall messages of this time that are here are told"
    rows: tuple[tuple[str, dict[str, Any], bytes, bytes], ...] = (
        ("gap", {}, b", and NUMBERS ARE MISSING (gaps)\n", b"carol lacks 3\n"),
        ("left", {"no": 3, "by": "zoe"}, b" but 1 that are refused\n", b"zoe begins at 3\n"),
    )
    for name, more, said, gap in rows:
        line = json.dumps(asked | more, sort_keys=True, separators=(",", ":"))
        messages.write_text(f"{text}{line}\n")
        folder, ran = evidence(name, messages=str(messages))
        assert ran.returncode == 0, ran
        found = bytes_of(folder)
        assert found["20250101000000Z/comparison"] == here + said, found
        assert found["gaps"] == b"ann begins at 7\n" + gap
    told = json.loads(found["summary.json"])["left_out"]
    assert [(it["code"], it["message"]["by"]) for it in told] == [("A1 UnknownPerson", "zoe")]


def test_a_time_is_told_by_its_requests(evidence: Make) -> None:
    """A request is told in the times that it touches and a day around them, and nowhere else; what
    was said is kept whole."""
    for name, span, told in (
        ("next", ("20260106000000Z", "20260107000000Z"), ["ann 7", "ann 8", "carol 1", "carol 2"]),
        ("later", ("20260301000000Z", "20260331235959Z"), []),
    ):
        folder, ran = evidence(name, "--log", f"db1={EXAMPLES}/used.log", span=span)
        assert ran.returncode == 0, ran
        found = bytes_of(folder)
        lines = found[f"{CHANGED}/statuses"].decode().splitlines()
        assert [line.rpartition(" ")[0] for line in lines] == told, lines
        assert found[f"{CHANGED}/comparison"].splitlines()[0] == b"the statuses are the same"
        assert len(found["messages"].splitlines()) > 5 and found["grants.csv"].count(b"\n") == 1


def test_a_page_of_hostile_words(evidence: Make, tmp_path: Path) -> None:
    """What people wrote is shown, and is no part of the page."""
    reasons, ticket = tmp_path / "reasons", "<script>alert(1)</script>"
    row = {"who": "ann", "no": 7, "why": "\u202e<b>", "ticket": ticket, "state": "acked"}
    reasons.write_text(json.dumps(row) + "\n")
    words = ("--reasons", str(reasons), "--sample", "9", "--seed", "<i>&")
    folder, ran = evidence("made", *words)
    assert ran.returncode == 0, ran
    found = bytes_of(folder)
    text = found["report.html"].decode()
    assert "<script" not in text and "&lt;script&gt;alert(1)" in text and "<i>" not in text
    assert ticket in found["sample.csv"].decode() and ticket in found["grants.csv"].decode()
    told = json.loads(found["summary.json"])
    assert told["without_reason"] == ["ann 8", "carol 1"] and told["sample"]["seed"] == "<i>&"


def test_bases_by_their_moments(evidence: Make, desk: str, tmp_path: Path) -> None:
    """What the base of the day allowed accuses nobody, whatever base came later; and who changed it
    is told."""
    roster, base = (Path(EXAMPLES, it).read_text() for it in ("roster.toml", "site.sudo"))
    later = Moment(roster, "eve db1 = (root) /usr/bin/vi\n", "by bob\nwhy <eve> edits\n")
    moments = {"20250101000000Z": Moment(roster, base), "20260105100000Z": later}
    write_history(str(tmp_path / "history"), desk, moments)
    folder, ran = evidence("made", "--log", f"db1={EXAMPLES}/used.log")
    assert ran.returncode == 0, ran
    found = bytes_of(folder)
    told = json.loads(found["summary.json"])
    # (dba ran psql at 9:45 by the first base, and eve vi at 11:15 by the second)
    assert [it["by"] for it in told["without_grant"]] == ["ann"], told["without_grant"]
    standing = [(it["user"], it["since"], it["or_before"]) for it in told["standing"]]
    assert standing == [("eve", "20260105100000Z", False)]
    (changed,) = told["changes"]
    assert changed["at"] == "20260105100000Z" and changed["said"] == [
        {"word": "by", "text": "bob"},
        {"word": "why", "text": "<eve> edits"},
    ]
    assert "new in the base: eve db1 = (root) /usr/bin/vi" in changed["words"], changed
    assert b"<li>why: &lt;eve&gt; edits</li>" in found["report.html"]


def test_a_history_that_does_not_fit(evidence: Make, tmp_path: Path) -> None:
    """A roster or a base that was carried away, and one that is another than its line names, are
    named."""
    for kind, name in (("roster", CHANGED), ("base", "20250101000000Z")):
        path = tmp_path / "history" / name / {"roster": "roster.toml", "base": "base.sudo"}[kind]
        kept = path.read_text()
        path.write_text(kept + "zed ALL = ALL\n")
        folder, ran = evidence("made")
        assert ran.returncode == 2 and f"{path} is not the {kind} that" in ran.stderr, ran
        path.write_text(kept)
    for it in (tmp_path / "history").glob(f"{CHANGED}/*"):
        it.unlink()
    folder, ran = evidence("made")
    assert ran.returncode == 2 and "roster.toml is not there: bring it back" in ran.stderr, ran
    assert not os.path.exists(folder)


def texts_of(store: Path) -> str:
    """All messages of a store, one a line."""
    with closing(sqlite3.connect(f"file:{store}?mode=ro", uri=True)) as base:
        return "".join(f"{it}\n" for (it,) in base.execute("SELECT body FROM messages"))


def test_a_store_that_was_cut(evidence: Make, desk: str, tmp_path: Path) -> None:
    """What the store holds and its archive are told as the whole, byte for byte; without the
    archive nothing is told, where the history says that there is one."""
    files = [os.path.join(EXAMPLES, it) for it in ("roster.toml", "site.sudo")]
    old, new, gone = (tmp_path / it for it in ("old.db", "new.db", "gone.messages"))
    messages = Path(EXAMPLES, "audited.messages").read_text()
    subprocess.run([desk, "deliver", *files, old, "chat"], input=messages, text=True, check=True)
    cutter = program_beside(desk, "desk-cut")
    ran = run(cutter, str(old), str(new), "20260201000000Z", "--archive", str(gone))
    assert ran.returncode == 0 and gone.read_text().count("\n") == 6, ran
    for it in (old, new):
        it.with_suffix(".messages").write_text(texts_of(it))
    sample = ("--sample", "2", "--seed", "x", "--log", f"db1={EXAMPLES}/used.log")
    kept, whole = str(new.with_suffix(".messages")), str(old.with_suffix(".messages"))
    told = bytes_of(evidence("whole", *sample, messages=whole)[0])
    both, ran = evidence("both", *sample, "--archive", str(gone), messages=kept)
    assert ran.returncode == 0 and bytes_of(both) == told and len(told) > 10, ran
    assert bytes_of(evidence("bare", *sample, messages=kept)[0]) != told
    moments = tmp_path / "history" / "moments"
    digests = moments.read_text().splitlines()[-1].split(" ", 1)[1]
    with moments.open("a") as file:
        file.write(f"20270102000000Z cut 20260201000000Z 6 {digests}\n")
    for more, has in (((), 0), (("--archive", kept), 5)):
        folder, ran = evidence(f"lacks-{has}", *more, messages=kept)
        said = f"that 6 messages were cut out of the store, and the archives have {has}: --archive"
        assert ran.returncode == 2 and said in ran.stderr and not os.path.exists(folder), ran
    again, ran = evidence("again", *sample, "--archive", str(gone), messages=kept)
    assert ran.returncode == 0 and bytes_of(again)["report.html"] == told["report.html"], ran


def test_what_was_carried_away_may_be_there_again(
    evidence: Make, desk: str, tmp_path: Path
) -> None:
    """A moment whose folder is gone is told by another with the same roster and base; and a moment
    that says the same once more cuts nothing."""
    text = Path(EXAMPLES, "roster.toml").read_text()
    moments = dict.fromkeys(("20250101000000Z", CHANGED), text)
    dated(tmp_path / "history", desk, moments)
    for it in (tmp_path / "history" / "20250101000000Z").iterdir():
        it.unlink()
    folder, ran = evidence("made")
    assert ran.returncode == 0, ran
    names = {name.split("/")[0] for name in bytes_of(folder) if "/" in name}
    assert names == {"20250101000000Z"}
