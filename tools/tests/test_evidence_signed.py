"""desk-evidence over a door's journal: the page names what nobody signed."""

from __future__ import annotations

import base64
import hashlib
import json
import os
import shutil
import subprocess
from collections.abc import Callable
from pathlib import Path

import pytest
from conftest import ROOT
from cryptography.hazmat.primitives.asymmetric.ed25519 import Ed25519PrivateKey
from cryptography.hazmat.primitives.serialization import Encoding, PublicFormat

from steelnewt_client.messages import Request, Verdict
from steelnewt_client.moments import seconds
from steelnewt_client.signed import NAMESPACE, Signed, digest, said_in
from steelnewt_door import journal as journals
from steelnewt_door.changes import Two
from steelnewt_door.changing import Changing
from steelnewt_door.judge import Judge, print_of_blob
from steelnewt_door.rows import answered, came
from steelnewt_door.signers import Signer, Signers
from steelnewt_door.wire import MAGIC, wire

EXAMPLES = os.path.join(ROOT, "examples")
SITE, FIRST = "desk.example", "20250101000000Z"
SPAN = ("20260101000000Z", "20260331235959Z")
Ran = subprocess.CompletedProcess[str]
Make = Callable[..., tuple[Path, Ran]]


class Author:
    """Somebody's key."""

    def __init__(self) -> None:
        self.key = Ed25519PrivateKey.generate()
        raw = self.key.public_key().public_bytes(Encoding.Raw, PublicFormat.Raw)
        self.blob = wire(b"ssh-ed25519") + wire(raw)

    def sign(self, message: str, about: str) -> Signed:
        said = Signed(message, "", about)
        hashed = hashlib.sha512(said.payload(SITE)).digest()
        purpose = wire(NAMESPACE.encode()) + wire(b"") + wire(b"sha512")
        itself = wire(b"ssh-ed25519") + wire(self.key.sign(MAGIC + purpose + wire(hashed)))
        raw = MAGIC + b"\0\0\0\1" + wire(self.blob) + purpose + wire(itself)
        return Signed(message, f"ssh:{base64.b64encode(raw).decode()}", about)


def signers_of(folder: Path, authors: dict[str, Author]) -> None:
    """One version of the signers, from long ago on."""
    changing = Changing(str(folder / "signers"), Two(Judge(SITE), Signers("")))
    keys = {it: base64.b64encode(authors[it].blob).decode() for it in sorted(authors)}
    changing.write_draft([Signer(it, "ssh-ed25519", keys[it], FIRST) for it in keys], [], "{}")
    at = changing.put()
    changing.close()
    os.rename(folder / "signers" / at, folder / "signers" / FIRST)


def journal_of(folder: Path, messages: list[str], unsigned: set[str]) -> None:
    """The journal of a door through which each of these came, but for some."""
    said = sorted([(said_in(it), it) for it in messages], key=lambda it: it[0].at)
    authors = {it.by: Author() for it, _ in said}
    signers_of(folder, authors)
    asked = {(it.by, it.no): digest(text) for it, text in said if isinstance(it, Request)}
    (folder / "journal").mkdir()
    journal = journals.Journal(str(folder / "journal"), SITE)
    for it, text in said:
        is_yes = isinstance(it, Verdict) and it.kind == "approve"
        about = asked.get((it.of, it.no), "") if is_yes and isinstance(it, Verdict) else ""
        if text not in unsigned:
            row = came(authors[it.by].sign(text, about), it.at, ("chat", "uid 1"), "signed")
            more = {"key": print_of_blob(authors[it.by].blob), "signers": FIRST}
            [no] = journal.append([row | more])
            journal.append([answered(no, it.at, "ack", "desk")])
    journal.close()


@pytest.fixture
def make(desk: str, tmp_path: Path, monkeypatch: pytest.MonkeyPatch) -> Make:
    """Makes a folder of the examples, whose door saw all messages but some."""
    monkeypatch.setattr("steelnewt_door.journal.time.time", lambda: seconds("20260101000000Z"))
    messages = Path(EXAMPLES, "audited.messages").read_text().splitlines()

    def made(*unsigned: str, words: tuple[str, ...] = (), name: str = "made") -> tuple[Path, Ran]:
        if not (tmp_path / "journal").exists():
            left_out = {it for it in messages if any(part in it for part in unsigned)}
            journal_of(tmp_path, messages, left_out)
        given = ["--messages", f"{EXAMPLES}/audited.messages", "--desk", desk]
        given += ["--roster", f"{EXAMPLES}/roster.toml", "--base", f"{EXAMPLES}/site.sudo"]
        given += ["--journal", str(tmp_path / "journal"), "--signers", str(tmp_path / "signers")]
        program = [os.path.join(ROOT, "tools", "desk-evidence"), str(tmp_path / name), *SPAN]
        whole = [*program, *given, "--site", SITE, *words]
        return tmp_path / name, subprocess.run(whole, capture_output=True, text=True)

    return made


def summary_of(folder: Path) -> dict[str, dict[str, object]]:
    found: dict[str, dict[str, object]] = json.loads((folder / "summary.json").read_text())
    return found


def test_all_is_signed(make: Make) -> None:
    folder, ran = make()
    assert ran.returncode == 0, ran
    told = summary_of(folder)
    assert told["signatures"]["found"] == [], told["signatures"]
    page = (folder / "report.html").read_text()
    assert "Each message of this time was signed." in page and "The journal is whole." in page
    assert "who really typed an approval" not in page
    assert (folder / "signers" / FIRST / "allowed_signers").exists()
    marks = (folder / "journal").read_text().splitlines()
    assert [it.split("  ")[1] for it in marks] == ["journal-000000000001.jsonl"]
    made = json.dumps(told["made"])
    assert marks[0].split("  ")[0] in made
    again, ran = make(name="again")
    assert ran.returncode == 0
    for path in sorted(it for it in folder.rglob("*") if it.is_file()):
        assert (again / path.relative_to(folder)).read_bytes() == path.read_bytes(), path


def test_what_nobody_signed_is_named(make: Make) -> None:
    """An approval that counts came past the door: the page and the summary say so."""
    folder, ran = make('"by":"bob","kind":"approve","no":7')
    assert ran.returncode == 0, ran
    found = summary_of(folder)["signatures"]["found"]
    assert isinstance(found, list)
    kinds = {(it["kind"], it["message"]["by"], it["message"]["no"]) for it in found}
    assert kinds == {("UNSIGNED", "bob", "7"), ("COUNTS UNSIGNED", "bob", "7")}, found
    page = (folder / "report.html").read_text()
    assert "COUNTS UNSIGNED" in page and "it came past the door" in page
    assert "UNSIGNED: it came past the door" in (folder / "verified").read_text()


def test_a_journal_that_was_changed(make: Make, tmp_path: Path) -> None:
    """Whatever somebody wrote into it, the page is made, and says so."""
    make()
    shutil.rmtree(tmp_path / "made")
    path = tmp_path / "journal" / "journal-000000000001.jsonl"
    lines = path.read_bytes().splitlines(keepends=True)
    lines[3] = lines[3].replace(b"ann", b"eve", 1)
    path.write_bytes(b"".join([*lines[:5], b'<script>: {"at":1}\n', *lines[6:]]))
    folder, ran = make()
    assert ran.returncode == 0, ran
    kinds = {it["kind"] for it in summary_of(folder)["signatures"]["found"]}  # type: ignore[attr-defined]
    assert "CHANGED ROW" in kinds
    assert "<script>" not in (folder / "report.html").read_text()


def test_words_that_belong_together(make: Make, desk: str) -> None:
    folder, ran = make(words=("--changes-by", "x"))
    assert ran.returncode == 2 and not folder.exists(), ran
    words = ["--messages", f"{EXAMPLES}/audited.messages", "--journal", str(folder.parent)]
    words += ["--roster", f"{EXAMPLES}/roster.toml", "--base", f"{EXAMPLES}/site.sudo"]
    program = os.path.join(ROOT, "tools", "desk-evidence")
    again = subprocess.run([program, str(folder), *SPAN, *words], capture_output=True, text=True)
    assert "--journal, --signers and --site belong together" in again.stderr
