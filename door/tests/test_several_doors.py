"""Several doors of one site, each before a desk of its own: what came to one in time is in time at
the other, and nobody is refused for what a door does not know yet."""

import json
import re
import shutil
import subprocess
import sys
import time
from collections.abc import Iterator, Mapping
from datetime import timedelta
from pathlib import Path

import pytest

from door.tests.authenticator import PAGE, Authenticator, add
from door.tests.doors import SITE, TOP, Doored, posted, program, ran
from steelnewt_client.codes import Fate, judge
from steelnewt_client.messages import Request, Wish
from steelnewt_client.moments import now, stamp
from steelnewt_client.signed import Signed
from steelnewt_door import verify_program
from steelnewt_door.journal import files_of
from steelnewt_door.rows import Last, Row, draft_of, following


class Two:
    """Two desks of one site, each behind a door of its own. Here is the one that lags, and its door
    has a copy of what the other one keeps."""

    def __init__(self, folder: Path) -> None:
        for name in ("a", "b"):
            (folder / name).mkdir()
        self.there, self.here = Doored(folder / "a"), Doored(folder / "b")
        self.configure()
        self.there.start()
        self.here.start()

    def configure(self, more: str = "") -> None:
        for mine, other in ((self.there, self.here), (self.here, self.there)):
            name = "b" if mine is self.there else "a"
            mine.configure(more=f'{more}[doors]\n{name} = "unix:{other.folder}/answers.sock"\n')

    def again(self, mine: Doored) -> None:
        mine.stop_door()
        mine.start_door()

    def bring(self, status: int = 0) -> str:
        """Has the door here look at the other one, by its files."""
        return self.here.run("bring", "a", "--from", str(self.there.folder), status=status)

    def close(self) -> None:
        self.there.close()
        self.here.close()


@pytest.fixture
def two(tmp_path: Path) -> Iterator[Two]:
    found = Two(tmp_path)
    try:
        yield found
    finally:
        found.close()


@pytest.fixture(scope="module")
def shared_two(tmp_path_factory: pytest.TempPathFactory) -> Iterator[Two]:
    found = Two(tmp_path_factory.mktemp("two"))
    try:
        yield found
    finally:
        found.close()


def rewritten(doored: Doored, change: Mapping[int, Mapping[str, object]]) -> None:
    """A journal whose rows say something else, from end to end: as whoever has a door makes one."""
    [(_, path)] = files_of(str(doored.folder / "journal"))
    last, lines = Last(), []
    for row in doored.rows():
        it: Row = {name: value for name, value in row.items()} | dict(change.get(row["no"], {}))
        last, line = following(last, draft_of(it)[0])
        lines.append(line)
    Path(path).write_bytes(b"".join(lines))


def dated(doored: Doored, at: str, no: int, until: timedelta) -> str:
    wish = Wish.of("db-care", ["db1"], "root", ["/usr/bin/id"], (at, stamp(now() + until)))
    return Request("ann", no, at, wish).text()


def test_what_came_to_another_door_in_time_is_in_time(two: Two) -> None:
    """Signed three days ago, and taken by the other door then: it is judged by that moment, with
    the signers of then; the same line alone is too late here."""
    at = stamp(now() - timedelta(days=3))
    request = dated(two.there, at, 1, timedelta(minutes=30) - timedelta(days=3))
    line = two.there.sign("ann", request)
    for it in (two.there, two.here):
        [version] = [*(it.folder / "signers").iterdir()]
        text = (version / "allowed_signers").read_text()
        old = stamp(now() - timedelta(days=5))
        text = re.sub('valid-after="[^"]*"', f'valid-after="{old}"', text)
        (version / "allowed_signers").write_text(text)
        version.rename(version.with_name(old))
    two.there.stop_door()
    two.there.configure(more="")
    config = two.there.config.read_text()
    two.there.config.write_text(config.replace("late = 3600", "late = 604800"))
    two.there.start_door()
    assert two.there.post(line) == "ack"
    two.there.stop_door()
    change = {row["no"]: {"at": at} for row in two.there.rows()}
    for row in two.there.rows("came"):
        change[row["no"]]["signers"] = old
    rewritten(two.there, change)
    assert two.here.post(line) == "K27 DoorLags"
    assert two.here.held() == []
    two.bring()
    assert two.here.held() == [request]
    assert two.here.post(line) == "ack"
    [row] = two.here.rows("brought")
    assert (row["arrived"], row["door"], row["how"], row["signers"]) == (at, "a", "signed", old)
    assert row["there"] == two.there.rows("came")[0]["chain"]
    # the auditors see by which moment it was judged, and that the other door has that row
    parts = ["--journal", str(two.here.folder / "journal")]
    parts += ["--signers", str(two.here.folder / "signers")]
    held = two.here.folder / "held"
    held.write_text("\n".join(two.here.held()) + "\n")
    parts += ["--messages", str(held), "--late", "3600"]
    said = ran(verify_program.main, ["--site", SITE, *parts], 0)
    assert "1 messages at the desk, 1 signed" in said and "1 were brought from other doors" in said
    other = f"a={two.there.folder}/journal"
    ran(verify_program.main, ["--site", SITE, *parts, "--other", other], 0)
    rewritten(two.there, {row["no"]: {"relay": "mail"} for row in two.there.rows("came")})
    said = ran(verify_program.main, ["--site", SITE, *parts, "--other", other], 1)
    assert "NOT THERE: row" in said


def test_without_a_look_nothing_is_refused_for_good(two: Two) -> None:
    """A late message: tried again until a look at the other doors, and then refused for good."""
    late = two.here.sign("ann", two.here.request(at=stamp(now() - timedelta(hours=2))))
    for _ in range(2):
        assert two.here.post(late) == "K27 DoorLags"
    assert "what came to door a is not here yet" in two.here.said()
    assert judge(503, "K27 DoorLags\n").fate is Fate.AGAIN and judge(503, "K27 DoorLags\n").waits
    time.sleep(1.2)
    two.bring()
    assert two.here.post(late) == "A21 NotOfNow"
    assert two.here.codes() == ["K27 DoorLags", "A21 NotOfNow"]


def test_a_door_that_lags_in_its_signers(two: Two) -> None:
    """A key that was added where the other door is: here nobody is refused for good, and it is said
    why; once the signers are here the message is taken."""
    two.there.new_key("dave")
    two.there.add("dave")
    shutil.copy(two.there.folder / "dave", two.here.folder / "dave")
    line = two.there.sign("dave", two.there.verdict(by="dave", kind="revoke"))
    assert two.there.post(line) == "ack"
    assert two.here.post(line) == "K27 DoorLags"
    said = two.bring(status=1)
    assert "SIGNERS LAG" in said and "WAITS: row" in said and "K27 DoorLags" in said
    assert two.here.post(line) == "K27 DoorLags" and two.here.held() == []
    assert "SIGNERS LAG" in two.here.run("check", status=2)
    assert "has the signers of" in two.here.said()
    two.here.signer("take", str(two.there.folder / "signers"))
    assert two.here.post(line) == "ack"
    assert "1 wait" not in two.bring()
    # a forgery is none the better for it
    thief = two.here.sign("thief", two.here.verdict(by="dave", kind="revoke", no=2))
    broken = two.here.sign("bob", two.here.verdict(by="bob", kind="revoke", no=3))
    assert two.here.post(Signed(thief.message, broken.signature)) == "K27 DoorLags"
    other = two.here.verdict(by="bob", kind="revoke", no=4)
    assert two.here.post(Signed(other, broken.signature)) == "A20 BadSignature"
    time.sleep(1.2)
    two.bring()
    assert two.here.post(Signed(thief.message, broken.signature)) == "A20 BadSignature"


def test_a_passkey_that_this_door_lacks(two: Two) -> None:
    two.configure(PAGE)
    for it in (two.there, two.here):
        two.again(it)
    key = Authenticator()
    add(two.there, "carol", key)
    line = key.sign(two.there.verdict(by="carol", kind="revoke"))
    assert two.there.post(line) == "ack"
    assert two.here.post(line) == "K27 DoorLags"
    two.here.signer("take", str(two.there.folder / "signers"))
    assert two.here.post(line) == "ack"
    # what another page asked the same passkey for is a forgery at both
    forged = key.sign(two.there.verdict(by="carol", kind="revoke", no=2), origin="https://x.example")
    assert [it.post(forged) for it in (two.there, two.here)] == ["A20 BadSignature"] * 2


def test_a_key_that_ended_on_the_way(two: Two) -> None:
    """A message that was signed and taken at the other door before the key was lost comes here
    behind that. No door takes what the key signs later, and the signers of the other door give
    nothing at this one."""
    line = two.there.sign("bob", two.there.verdict(kind="revoke"))
    assert two.there.post(line) == "ack"
    time.sleep(1.1)
    two.there.signer("lost", "bob")
    two.here.signer("take", str(two.there.folder / "signers"))
    assert two.here.post(line) == "K27 DoorLags"
    two.bring()
    assert two.here.post(line) == "ack"
    new = two.there.sign("bob", two.there.verdict(kind="revoke", no=2))
    assert two.there.post(new) == "K27 DoorLags"
    assert len(two.here.held()) == 1


def test_a_door_that_was_bought_adds_nobody(two: Two) -> None:
    """Whoever has the other door writes signers and rows there as they like: here they count for
    nothing."""
    two.there.new_key("mallory")
    two.there.signer("add", "carol", two.there.public("mallory"), "--unproved")
    request = two.there.request(by="carol", command="ALL")
    assert two.there.post(two.there.sign("mallory", request)) == "ack"
    # unsigned ones in anybody's name, as rows of its own
    two.there.stop_door()
    row = two.there.rows("came")[0]
    rewritten(two.there, {row["no"]: {"how": "unsigned", "signature": "", "key": ""}})
    said = two.bring(status=1)
    assert "REFUSED HERE: row 2: P20 NotSigned" in said and two.here.held() == []


def test_a_door_that_was_bought_dates_nothing_back(two: Two) -> None:
    """What is new there is of now, whatever it says: rows that are set back are not taken."""
    assert two.there.post(two.there.sign("bob", two.there.verdict(kind="revoke"))) == "ack"
    two.bring()
    late = stamp(now() - timedelta(hours=30))
    assert two.there.post(two.there.sign("bob", two.there.verdict(kind="revoke", no=2))) == "ack"
    last = two.there.rows()[-2]["no"]
    two.there.stop_door()
    rewritten(two.there, {last: {"at": late}})
    assert "SET BACK: row" in two.bring(status=1)
    assert len(two.here.held()) == 1
    # and rows that are here already cannot be written anew there
    rewritten(two.there, {2: {"at": late}, last: {"at": late}})
    assert "TAKEN BACK: row" in two.bring(status=1)


def test_root_alone_says_when_a_message_came(shared_two: Two) -> None:
    """The route is root's own socket's: at the door's the desk is asked, which knows none."""
    doored = shared_two.here
    at = stamp(now() - timedelta(days=3))
    line = doored.sign("bob", doored.verdict(kind="revoke")).line().encode()
    path = f"/v1/doors/a/{at}/{at}/{'0' * 64}/v1/relays/chat/messages"
    given = posted(line).replace(b"/v1/relays/chat/messages", path.encode(), 1)
    assert doored.raw(given).endswith(b"T3 NoRoute\n")
    assert doored.raw(given, root=True).endswith(b"K27 DoorLags\n")
    assert doored.held() == []


def test_a_look_by_the_other_doors_own_socket(two: Two) -> None:
    """`desk-door bring` asks where a door answers auditors, pages and all, and once more brings
    what is new; what was brought is not passed on."""
    two.there.run("file-key")
    words = [*program("desk-door"), "--config", str(two.there.config), "answer"]
    with subprocess.Popen(words, stdout=subprocess.PIPE, text=True) as answering:
        assert answering.stdout and answering.stdout.readline().startswith("listening")
        for no in range(1, 4):
            request = two.there.request(no=no)
            assert two.there.post(two.there.sign("ann", request)) == "ack"
            assert two.there.post(two.there.sign("bob", two.there.verdict(no=no), request)) == "ack"
        assert "6 brought, 0 wait" in two.here.run("bring")
        assert two.there.post(two.there.sign("bob", two.there.verdict(kind="revoke"))) == "ack"
        assert "1 brought, 0 wait" in two.here.run("bring", "a")
        assert "0 brought, 0 wait" in two.here.run("bring")
        answering.terminate()
    assert two.here.held() == two.there.held() and len(two.here.in_force()) == 2
    assert "cannot be reached" in two.here.run("bring", status=2)
    two.there.stop_door()
    said = two.there.run("bring", "b", "--from", str(two.here.folder), status=0)
    assert "0 brought, 0 wait" in said
    assert "nothing is wrong with the door" in two.here.run("check")


def test_a_fill_of_lines_as_they_were_signed(two: Two) -> None:
    """`desk-fill` gives a door each line as it is, an approval before its request too; and what is
    unsigned or forged is refused by name, with all others taken."""
    lines, there = [], two.there
    for no in range(1, 4):
        request = there.request(no=no)
        lines += [there.sign("ann", request), there.sign("bob", there.verdict(no=no), request)]
    unsigned = Signed(there.request(no=9))
    given = "".join(it.line() + "\n" for it in [*reversed(lines), unsigned])
    words = [sys.executable, str(TOP.parent / "broker" / "desk-fill"), two.here.url, "chat"]
    filled = subprocess.run(words, input=given, capture_output=True, text=True, check=False)
    assert (filled.returncode, filled.stdout) == (1, "6 taken, 1 refused\n"), filled
    assert filled.stderr.startswith("P20 NotSigned: ")
    assert sorted(two.here.held()) == sorted(it.message for it in lines)
    assert [it["signature"] for it in two.here.came()] != [""] * 6 and len(two.here.in_force()) == 3


def test_one_history_of_signers(two: Two) -> None:
    """What is changed at one door is taken over at the other, version by version; two people's yes
    comes along, and is judged again."""
    folder = str(two.there.folder / "signers")
    assert "nothing is new there" in two.here.signer("take", folder)
    for name in ("dave", "erin"):
        two.there.new_key(name)
        two.there.add(name)
    assert "+ erin ssh-ed25519 SHA256:" in two.here.signer("take", folder)
    assert two.here.signer("history") == two.there.signer("history")
    assert two.here.signer("list") == two.there.signer("list")
    two.here.signer("lost", "dave")
    assert "nothing is new there" in two.here.signer("take", folder)
    two.there.signer("take", str(two.here.folder / "signers"))
    assert two.here.signer("history") == two.there.signer("history")
    # where two have to say yes, root of another door alone adds nobody
    two.here.configure(more="changes_by = 2\n")
    two.there.new_key("mallory")
    two.there.add("mallory")
    assert "have the yes of 0" in two.here.signer("take", folder, status=2)
    two.there.signer("end", two.there.signer("list").split("mallory ")[1].split()[0])
    assert "have the yes of 0" in two.here.signer("take", folder, status=2)
    assert "mallory" not in two.here.signer("list")


def test_histories_that_differ_are_not_taken(two: Two) -> None:
    folder = two.there.folder / "signers"
    [first] = [it.name for it in folder.iterdir()]
    for name in ("dave", "erin"):
        two.there.new_key(name)
        two.there.add(name)
    two.here.signer("take", str(folder))
    last = max(it.name for it in folder.iterdir())
    kept = (folder / last / "allowed_signers").read_text()
    # one of its versions was written anew, taken out, or put between others
    (folder / last / "allowed_signers").write_text(kept.replace("erin ", "thief ", 1))
    assert f"another version {last}" in two.here.signer("take", str(folder), status=2)
    (folder / last / "allowed_signers").write_text(kept)
    (folder / first).rename(two.there.folder / "gone")
    assert f"lacks the version {first}" in two.here.signer("take", str(folder), status=2)
    (two.there.folder / "gone").rename(folder / first)
    shutil.copytree(folder / first, folder / "20250105090000Z")
    assert "was never here" in two.here.signer("take", str(folder), status=2)
    shutil.rmtree(folder / "20250105090000Z")
    shutil.copytree(folder / last, folder / stamp(now() + timedelta(hours=1)))
    assert "ahead of the clock" in two.here.signer("take", str(folder), status=2)
    assert "cannot be read" in two.here.signer("take", f"{folder}.none", status=2)


def test_what_it_brings_from(two: Two) -> None:
    assert "no door c in" in two.here.run("bring", "c", status=2)
    empty = two.here.folder / "empty"
    empty.mkdir()
    assert "has no folder `journal`" in two.here.run("bring", "a", "--from", str(empty), status=2)


def test_rights_are_taken_away_by_root_everywhere(two: Two) -> None:
    """What root took away at one door without a signature is taken away at the other too."""
    request, verdict = two.there.request(), two.there.verdict()
    for it in (two.there, two.here):
        assert it.post(it.sign("ann", request)) == "ack"
        assert it.post(it.sign("bob", verdict, request)) == "ack"
        assert it.in_force()
    assert two.there.post(two.there.verdict(by="carol", kind="revoke"), root=True) == "ack"
    two.bring()
    assert not two.here.in_force()
    assert [it["how"] for it in two.here.rows("brought")] == ["root"]


def test_a_fill_of_an_empty_desk(two: Two) -> None:
    """A desk that lost its disk, with its door's journal: all comes from the other door, each by
    its moment; a request before its approval, whichever is first by its bytes."""
    for no in range(1, 6):
        request = two.there.request(no=no)
        assert two.there.post(two.there.sign("ann", request)) == "ack"
        assert two.there.post(two.there.sign("bob", two.there.verdict(no=no), request)) == "ack"
    assert "10 brought, 0 wait" in two.bring()
    two.here.close()
    for name in ("journal", "desk.db"):
        for path in two.here.folder.glob(f"{name}*"):
            shutil.rmtree(path) if path.is_dir() else path.unlink()
    (two.here.folder / "journal").mkdir(mode=0o700)
    two.here.start()
    assert two.here.held() == [] and "10 brought, 0 wait" in two.bring()
    assert two.here.held() == two.there.held() and len(two.here.in_force()) == 5
    # the store alone is lost, and the door's journal is there
    two.here.site.stop_desk()
    for path in two.here.folder.glob("desk.db*"):
        path.unlink()
    two.here.site.start_desk()
    assert two.here.held() == [] and "10 brought, 0 wait" in two.bring()
    assert two.here.held() == two.there.held() and "0 brought" in two.bring()
    mark = json.loads((two.here.folder / "journal/doors/a/given.json").read_text())
    assert mark["left"] == [] and mark["no"] == two.there.rows()[-1]["no"]
