"""desk-verify: what nobody signed, and each row that is missing or was changed, by its number."""

import base64
import json
import os
import random
import re
import shutil
import time
from dataclasses import dataclass
from pathlib import Path

import pytest
from cryptography.hazmat.primitives.asymmetric.ed25519 import Ed25519PrivateKey
from cryptography.hazmat.primitives.serialization import Encoding, PublicFormat

from door.tests.doors import SITE, Doored, chained, ran
from door.tests.security_key import sshsig
from steelnewt_client.desk import Desk
from steelnewt_client.messages import Request, Verdict, Wish
from steelnewt_client.moments import stamp_of
from steelnewt_client.signed import Signed, digest
from steelnewt_door import verify_program
from steelnewt_door.changes import Two
from steelnewt_door.changing import Changing
from steelnewt_door.journal import Journal, files_of
from steelnewt_door.judge import Judge, print_of_blob
from steelnewt_door.rows import answered, came, line_of, read_row
from steelnewt_door.signers import Signer, Signers
from steelnewt_door.wire import wire

ROWS = int(os.environ.get("ROWS", "2000"))  # messages of the long journal
FORGED = int(os.environ.get("FORGED", "100"))


@dataclass(frozen=True)
class Person:
    """Somebody with a key, in this process: thousands of signatures are made at once."""

    name: str
    key: Ed25519PrivateKey

    @property
    def blob(self) -> bytes:
        raw = self.key.public_key().public_bytes(Encoding.Raw, PublicFormat.Raw)
        return wire(b"ssh-ed25519") + wire(raw)

    def sign(self, message: str, about: str = "") -> Signed:
        said = Signed(message, "", about)
        raw = sshsig(self.blob, said.payload(SITE), lambda told: wire(self.key.sign(told)))
        return Signed(message, f"ssh:{base64.b64encode(raw).decode()}", about)


@dataclass
class Kept:
    """A site's journal, signers and messages, as auditors get them."""

    folder: Path
    people: dict[str, Person]
    messages: list[str]

    def verify(self, *words: str, status: int) -> list[str]:
        (self.folder / "messages").write_text("".join(f"{it}\n" for it in self.messages))
        parts = ["--journal", str(self.folder / "journal"), "--signers"]
        parts += [str(self.folder / "signers"), "--messages", str(self.folder / "messages")]
        return ran(verify_program.main, ["--site", SITE, *parts, *words], status).splitlines()

    def change(self, edit: dict[int, bytes | None], again: bool = False) -> None:
        """Rows with other bytes, or without them; `again` makes the chain anew behind them."""
        last = ""
        for _, path in files_of(str(self.folder / "journal")):
            lines = []
            for line in Path(path).read_bytes().splitlines(keepends=True):
                line = edit.get(read_row(line)["no"], line) or b""
                if again and line:
                    told = json.loads(line) | ({"before": last} if last else {})
                    told["chain"] = last = chained(told)
                    line = line_of(told)
                lines.append(line)
            Path(path).write_bytes(b"".join(lines))


def made(folder: Path, count: int) -> Kept:
    """A journal of requests by ann, each with an approval of bob's."""
    people = {it: Person(it, Ed25519PrivateKey.generate()) for it in ("ann", "bob", "thief")}
    (folder / "journal").mkdir()
    changing = Changing(str(folder / "signers"), Two(Judge(SITE), Signers("")))
    first = "20260101000000Z"
    keys = {it: base64.b64encode(people[it].blob).decode() for it in ("ann", "bob")}
    changing.write_draft([Signer(it, "ssh-ed25519", keys[it], first) for it in keys], [], "{}")
    at = changing.put()
    changing.close()
    os.rename(folder / "signers" / at, folder / "signers" / first)
    journal, messages, rows = Journal(str(folder / "journal"), SITE), list[str](), []
    for number in range(count // 2):
        now = stamp_of(time.time())  # (as the first row of each file of the journal has it)
        wish = Wish(f"care-{number % 7}", ("db1",), "root", ("/usr/bin/id",), now, now)
        request = people["ann"].sign(Request("ann", number, now, wish).text())
        verdict = Verdict("bob", "approve", "ann", number, now).text()
        for who, said in (("ann", request), ("bob", people["bob"].sign(verdict, request.digest))):
            mark = print_of_blob(people[who].blob)
            rows.append(came(said, now, ("chat", "uid 0"), "signed", mark, first))
            rows.append(answered(2 * len(messages) + 2, now, "ack", "desk"))
            messages.append(said.message)
        if len(rows) >= 2_000 or number + 1 == count // 2:
            journal.append(rows)
            rows = []
    journal.close()
    return Kept(folder, people, messages)


@pytest.fixture(scope="module")
def long(tmp_path_factory: pytest.TempPathFactory) -> Kept:
    return made(tmp_path_factory.mktemp("long"), ROWS)


@pytest.fixture
def kept(tmp_path: Path) -> Kept:
    return made(tmp_path, 20)


def rows_of(kept: Kept) -> dict[int, dict[str, object]]:
    paths = [path for _, path in files_of(str(kept.folder / "journal"))]
    lines = [it for path in paths for it in Path(path).read_bytes().splitlines(keepends=True)]
    return {row["no"]: row for row in map(read_row, lines)}


def test_a_store_that_was_cut(kept: Kept) -> None:
    """With its archives a store is looked at as one that was never cut; alone it lacks them."""
    whole, archives = kept.verify(status=0), [kept.folder / it for it in ("one", "other")]
    for path, some in zip(archives, (kept.messages[1:6:2], kept.messages[7:9]), strict=True):
        path.write_text("".join(f"{it}\n" for it in some))
        kept.messages = [it for it in kept.messages if it not in some]
    words = [word for path in archives for word in ("--archive", str(path))]
    assert kept.verify(*words, *words[:2], status=0) == whole
    said = kept.verify(*words[:2], status=1)
    assert [it.split(":")[0] for it in said].count("NOT AT THE DESK") == 2, said


def test_a_journal_that_is_whole(kept: Kept) -> None:
    said = kept.verify(status=0)
    assert said == [
        "41 rows, 0 messages were refused by the door", "20 signatures, 1 by ssh-keygen again",
        "20 messages at the desk, 20 signed by their authors",
        "10 approvals, 10 over the very request", said[-1],
    ]  # fmt: skip
    chain = said[-1].split()[-1]
    kept.verify("--chain", chain, status=0)
    assert "CUT: the row that you noted" in kept.verify("--chain", "0" * 64, status=1)[0]
    kept.change({41: None, 40: None})
    said = kept.verify("--chain", chain, status=1)
    assert "CUT: the row that you noted is not there, or is another one" in said


def test_how_long_it_takes(long: Kept) -> None:
    """All of a year's messages, with each signature, in a minute (of a processor of its own)."""
    begins = time.process_time()
    said = long.verify(status=0)
    took = time.process_time() - begins
    print(f"desk-verify: {ROWS} messages in {took:.1f} s of a processor")
    assert f"{ROWS} messages at the desk, {ROWS} signed by their authors" in said
    assert took < 60 * ROWS / 100_000 + 3


def forged_row(row: dict[str, object], kept: Kept, kind: int) -> dict[str, object]:
    """A row with what somebody who has the journal, and no key, may write."""
    thief, text = kept.people["thief"], str(row["message"])
    if kind == 0:
        said = thief.sign(text, str(row["about"]))
        return row | {"signature": said.signature, "key": print_of_blob(thief.blob)}
    if kind == 1:
        return row | {"signature": thief.sign(text, str(row["about"])).signature}
    if kind == 2:
        return row | {"message": re.sub('"no":[0-9]+', '"no":999999', text)}
    return row | {"about": digest("other") if row["about"] else digest(text)}


def test_each_forgery_is_named(long: Kept, tmp_path: Path) -> None:
    """A thousand, planted, with the whole chain made anew behind them."""
    kept = Kept(tmp_path, long.people, list(long.messages))
    shutil.copytree(long.folder, tmp_path, dirs_exist_ok=True)
    dice, rows = random.Random(3), rows_of(kept)
    planted = dice.sample([no for no in rows if rows[no]["row"] == "came"], FORGED)
    forged = {no: forged_row(rows[no], kept, at % 4) for at, no in enumerate(planted)}
    kept.change({no: line_of(it) for no, it in forged.items()}, again=True)
    said = kept.verify(status=1)
    named = {int(it[1]) for line in said if (it := re.match(r"BAD SIGNATURE: row ([0-9]+):", line))}
    assert named == set(planted) and len(named) == FORGED


def test_each_row_that_is_gone_or_changed_is_named(long: Kept, tmp_path: Path) -> None:
    kept = Kept(tmp_path, long.people, list(long.messages))
    shutil.copytree(long.folder, tmp_path, dirs_exist_ok=True)
    rows = rows_of(kept)
    apart = range(3, max(rows) - 2, max(3, (max(rows) - 5) // FORGED))
    planted = list(apart)[:FORGED]
    gone, changed, other = planted[::3], planted[1::3], planted[2::3]
    edit: dict[int, bytes | None] = {no: None for no in gone}
    edit |= {no: line_of(rows[no]).replace(b"Z", b"Y", 1) for no in changed}
    for no in other:
        told = rows[no] | {"at": "20260105090001Z"}
        edit[no] = line_of(told | {"chain": chained(told)})
    kept.change(edit)
    said = kept.verify(status=1)
    missing = {int(it[1]) for line in said if (it := re.match(r"MISSING ROWS: ([0-9]+) to", line))}
    replaced = {int(it[1]) for line in said if (it := re.match(r"OTHER ROW: row ([0-9]+) ", line))}
    assert missing == set(gone) and replaced == set(other)
    assert sum(line.startswith("CHANGED ROW") for line in said) == len(changed)


def test_rows_in_another_order(kept: Kept) -> None:
    rows = rows_of(kept)
    kept.change({8: line_of(rows[10]), 10: line_of(rows[8])})
    said = kept.verify(status=1)
    assert any(it.startswith("MOVED ROW: row 8") for it in said), said


def test_what_is_at_the_desk_and_not_in_the_journal(kept: Kept) -> None:
    past = Verdict("bob", "revoke", "ann", 3, "20260105090000Z").text()
    lost = kept.messages.pop()
    kept.messages.append(past)
    said = kept.verify(status=1)
    assert f"UNSIGNED: it came past the door: {past}" in said
    assert "NOT AT THE DESK: row 40: it was acknowledged, and is not held" in said, lost


def test_an_approval_of_other_bytes(kept: Kept) -> None:
    """The desk holds another request of that name than bob approved."""
    at = next(at for at, it in enumerate(kept.messages) if '"kind":"request"' in it)
    kept.messages[at] = kept.messages[at].replace("/usr/bin/id", "/bin/bash")
    said = kept.verify(status=1)
    assert any(it.startswith("OTHER REQUEST: it was given over other bytes") for it in said)
    approval = json.loads(kept.messages[1])
    names = [{"verdicts": [{"counts": False, "verdict": approval}]}]
    (kept.folder / "requests").write_text(json.dumps({"names": names}))
    counted = kept.verify("--requests", str(kept.folder / "requests"), status=1)
    assert not any(it.startswith("OTHER REQUEST") for it in counted)


def test_a_site_of_another_name(kept: Kept) -> None:
    said = kept.verify("--site", "trial.example", status=1)
    assert sum(it.startswith("BAD SIGNATURE") for it in said) == 20


def test_signers_that_are_missing(kept: Kept) -> None:
    shutil.move(kept.folder / "signers" / "20260101000000Z", kept.folder / "away")
    assert "has no version" in kept.verify(status=2)[0]
    shutil.copytree(kept.folder / "away", kept.folder / "signers" / "20270101000000Z")
    said = kept.verify(status=1)
    assert sum("there are no signers of 20260101000000Z" in it for it in said) == 20


def test_a_clock_that_is_set_back(kept: Kept) -> None:
    rows = rows_of(kept)
    kept.change({20: line_of(rows[20] | {"at": "20250105090000Z"})}, again=True)
    assert any("SET BACK: row 20" in it for it in kept.verify(status=1))


def test_of_a_door_that_served(doored: Doored, tmp_path: Path) -> None:
    """By ssh-keygen's own signatures, and a desk's own messages; root's word is named."""
    request = doored.request()
    assert doored.post(doored.sign("ann", request)) == "ack"
    assert doored.post(doored.sign("bob", doored.verdict(), request)) == "ack"
    assert doored.post(doored.verdict(kind="revoke"), root=True) == "ack"
    assert doored.post(doored.request(no=2)) == "P20 NotSigned"
    (tmp_path / "messages").write_text(Desk(doored.site.url).get("/v1/messages"))
    words = ["--site", SITE, "--journal", str(doored.folder / "journal"), "--sample", "1"]
    words += ["--signers", str(doored.folder / "signers"), "--messages", str(tmp_path / "messages")]
    said = ran(verify_program.main, words, 1).splitlines()
    assert [it.partition(":")[0] for it in said if ": " in it][0] == "UNSIGNED"
    assert "root's socket took it without a signature" in said[0]
    assert "2 signatures, 2 by ssh-keygen again" in said
    assert "1 approvals, 1 over the very request" in said
